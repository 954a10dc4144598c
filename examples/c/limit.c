/* A queue limit: frames of 1500 bytes are sent to a card while the limit allows it, and every six milliseconds the card
 * completes all of them. The limit grows, because the card ran out of work each time. */
#include <fintaqush.h>
#include <stdio.h>

enum { FRAME = 1500, MAX = 1879048192 };

int main(void) {
    struct fq_dql dql = {0};
    if (fq_dql_init(&dql, 0, MAX, 1000, 0) != FQ_OK) return 1;
    for (uint64_t now = 6; now <= 18; now += 6) {
        unsigned frames = 0;
        while (fq_dql_avail(&dql) >= 0) {
            if (fq_dql_queued(&dql, FRAME) != FQ_OK) return 1;
            frames++;
        }
        const uint32_t in_flight = fq_dql_in_flight(&dql);
        if (fq_dql_completed(&dql, in_flight, now) != FQ_OK) return 1;
        printf("%u frames, %u bytes in flight, then a limit of %u\n", frames, in_flight, fq_dql_limit(&dql));
    }
    return 0;
}
