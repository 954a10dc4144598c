/* The transmit side of a card: frames of 1500 bytes are sent into a ring of capacity four until a send fails, and every six
 * milliseconds the card completes all of them. The limit grows, because the card ran out of work each time, until the ring
 * itself is too short. */
#include <fintaqush.h>
#include <stdio.h>

enum { PLACES = 4, FRAME = 1500, MAX = 1879048192 };

int main(void) {
    struct fq_tx tx = FQ_NONE;
    struct fq_tx_shown state;
    if (fq_tx_new(&tx, PLACES, 0, MAX, 1000, 0) != FQ_OK) return 1;
    for (uint64_t now = 6; now <= 24; now += 6) {
        uint32_t frames = 0, said;
        while ((said = fq_tx_send(&tx, FRAME)) == FQ_OK) frames++;
        if (fq_tx_state(&tx, &state) != FQ_OK) return 1;
        printf("%u frames, %u bytes in flight, %s, ", frames, state.queued - state.completed, fq_status_name(said));
        if (fq_tx_done(&tx, frames, now) != FQ_OK || fq_tx_state(&tx, &state) != FQ_OK) return 1;
        printf("then a limit of %u\n", state.limit);
    }
    return fq_free(&tx.handle) != FQ_OK;
}
