/* Times DPDK's ring in the loop by which c_library.c times the library's: dpdk_ring BURST TIMES, or without copies dpdk_ring
 * placesBURST TIMES. One producer, one consumer, elements of the same size, and 256 of them. The count goes to standard output, the time to
 * standard error. */
#include <fintaqush.h>
#include <inttypes.h>
#include <rte_ring.h>
#include <rte_ring_elem.h>
#include <rte_ring_peek_zc.h>
#include <stdbool.h>
#include <stdio.h>
#include <stdlib.h>
#include <string.h>
#include <time.h>

static uint64_t now(void) {
    struct timespec at;
    timespec_get(&at, TIME_UTC);
    return (uint64_t)at.tv_sec * 1000000000 + (uint64_t)at.tv_nsec;
}

static bool copies(struct rte_ring *ring, unsigned burst, uint64_t count) {
    struct fq_packet in[64], out[64];
    uint64_t put = 0;
    while (put < count) {
        for (unsigned i = 0; i < burst; i++) in[i] = (struct fq_packet){put++, 60};
        if (rte_ring_sp_enqueue_burst_elem(ring, in, sizeof *in, burst, NULL) != burst) return false;
        const unsigned polled = rte_ring_sc_dequeue_burst_elem(ring, out, sizeof *out, burst, NULL);
        if (polled != burst || out[burst - 1].number != put - 1) return false;
    }
    printf("packets %" PRIu64 "\n", put);
    return true;
}

/* The packets are written and read in the ring's own memory. */
static bool places(struct rte_ring *ring, unsigned burst, uint64_t count) {
    struct rte_ring_zc_data at = {0};
    uint64_t put = 0, got = 0;
    while (put < count) {
        if (rte_ring_enqueue_zc_burst_elem_start(ring, sizeof(struct fq_packet), burst, &at, NULL) != burst) return false;
        struct fq_packet *packets = at.ptr1;
        for (unsigned i = 0; i < at.n1; i++) packets[i] = (struct fq_packet){put++, 60};
        packets = at.ptr2;
        for (unsigned i = at.n1; i < burst; i++) packets[i - at.n1] = (struct fq_packet){put++, 60};
        rte_ring_enqueue_zc_elem_finish(ring, burst);
        if (rte_ring_dequeue_zc_burst_elem_start(ring, sizeof(struct fq_packet), burst, &at, NULL) != burst) return false;
        packets = at.n1 == burst ? (struct fq_packet *)at.ptr1 + (burst - 1) : (struct fq_packet *)at.ptr2 + (burst - at.n1 - 1);
        got += burst;
        if (packets->number != got - 1) return false;
        rte_ring_dequeue_zc_elem_finish(ring, burst);
    }
    printf("packets %" PRIu64 "\n", put);
    return true;
}

int main(int words, char **word) {
    if (words != 3) return 64;
    const bool in_places = strncmp(word[1], "places", 6) == 0;
    const unsigned burst = (unsigned)strtoul(word[1] + (in_places ? 6 : 0), NULL, 10);
    const uint64_t count = strtoull(word[2], NULL, 10), start = now();
    const ssize_t size = rte_ring_get_memsize_elem(sizeof(struct fq_packet), 256);
    struct rte_ring *ring = size > 0 ? aligned_alloc(RTE_CACHE_LINE_SIZE, (size_t)size) : NULL;
    if (!ring || burst < 1 || burst > 64 || rte_ring_init(ring, "ring", 256, RING_F_SP_ENQ | RING_F_SC_DEQ) != 0) return 1;
    const bool good = in_places ? places(ring, burst, count) : copies(ring, burst, count);
    fprintf(stderr, "%" PRIu64 " ns\n", now() - start);
    free(ring);
    return good ? 0 : 1;
}
