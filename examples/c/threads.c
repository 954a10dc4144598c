/* An interrupt thread and a poller thread share an instance: 200000 packets are each polled once and in order. */
#include <fintaqush.h>
#include <pthread.h>
#include <sched.h>
#include <stdio.h>

enum { PACKETS = 200000, WEIGHT = 64 };

struct interrupts {
    struct fq_ring *ring;
    struct fq_caller *caller;
    bool failed;
};

static void *interrupt(void *at) {
    struct interrupts *irq = at;
    for (uint64_t i = 0; i < PACKETS; i++) {
        while (fq_ring_put(irq->ring, i, 60) == FQ_FULL) sched_yield();
        const uint32_t said = fq_caller_interrupt(irq->caller, FQ_LIST);
        irq->failed |= said != FQ_GRANTED && said != FQ_MISSED;
    }
    return NULL;
}

struct poller {
    struct fq_caller *caller;
    uint64_t next;
    bool failed;
};

static bool end_poll(struct fq_caller *caller, size_t count) {
    enum fq_next next;
    return fq_caller_end(caller, count == WEIGHT, &next) == FQ_OK;
}

static void *poll_all(void *at) {
    struct poller *poller = at;
    struct fq_packet out[WEIGHT];
    while (poller->next < PACKETS && !poller->failed) {
        if (fq_caller_take(poller->caller, FQ_LIST) != FQ_TAKEN) {
            sched_yield();
            continue;
        }
        size_t count;
        if (fq_caller_poll(poller->caller, WEIGHT, out, WEIGHT, &count) != FQ_OK) poller->failed = true;
        for (size_t i = 0; i < count; i++) poller->failed |= out[i].number != poller->next++ || out[i].bytes != 60;
        poller->failed |= !end_poll(poller->caller, count);
    }
    return NULL;
}

/* napi_disable. The poller's caller takes and completes an instance that is on the list when the disable is requested. */
static bool disable(struct fq_control *control, struct fq_caller *caller) {
    uint32_t said;
    while ((said = fq_control_step(control, false, false)) == FQ_BUSY)
        if (fq_caller_take(caller, FQ_LIST) == FQ_TAKEN && !end_poll(caller, 0)) return false;
    return said == FQ_OK;
}

int main(void) {
    struct fq_ring ring = FQ_NONE;
    struct fq_control control = FQ_NONE;
    struct fq_caller callers[2] = {FQ_NONE, FQ_NONE};
    if (fq_ring_new(&ring, 256) != FQ_OK || fq_shared_new(&ring, &control, callers, 2) != FQ_OK) return 1;
    if (fq_control_enable(&control, false) != FQ_OK) return 1;
    struct interrupts irq = {&ring, &callers[0], false};
    struct poller poller = {&callers[1], 0, false};
    pthread_t threads[2];
    if (pthread_create(&threads[0], NULL, interrupt, &irq) != 0) return 1;
    if (pthread_create(&threads[1], NULL, poll_all, &poller) != 0) return 1;
    for (int i = 0; i < 2; i++) pthread_join(threads[i], NULL);
    if (irq.failed || poller.failed || poller.next != PACKETS || !disable(&control, &callers[1])) return 1;
    printf("%d packets, each once and in order\n", PACKETS);
    if (fq_free(&control.handle) != FQ_OK || fq_free(&ring.handle) != FQ_OK) return 1;
    for (int i = 0; i < 2; i++) if (fq_free(&callers[i].handle) != FQ_OK) return 1;
    return 0;
}
