/* An instance with its own thread, which sleeps while no poll is requested: an interrupt thread puts 200000 packets in
 * bursts, and each is polled once and in order. After a full poll the instance stays with the thread (FQ_HELD), which polls
 * again at once. */
#include <fintaqush.h>
#include <pthread.h>
#include <sched.h>
#include <semaphore.h>
#include <stdio.h>

enum { PACKETS = 200000, WEIGHT = 64, BURST = 100 };

struct interrupts {
    struct fq_ring *ring;
    struct fq_caller *caller;
    sem_t *wake;
    bool failed;
};

static void *interrupt(void *at) {
    struct interrupts *irq = at;
    struct fq_packet burst[BURST];
    for (uint64_t first = 0; first < PACKETS; first += BURST) {
        for (size_t i = 0; i < BURST; i++) burst[i] = (struct fq_packet){first + i, 60};
        for (size_t put = 0, count; put < BURST; put += count) {
            if (fq_ring_put_all(irq->ring, burst + put, BURST - put, &count) == FQ_FULL) sched_yield();
        }
        const uint32_t said = fq_caller_interrupt(irq->caller, FQ_THREAD);
        if (said == FQ_GRANTED) sem_post(irq->wake);
        irq->failed |= said != FQ_GRANTED && said != FQ_MISSED;
    }
    return NULL;
}

struct poller {
    struct fq_caller *caller;
    sem_t *wake;
    uint64_t next;
    unsigned long held;
    bool failed;
};

/* One turn after a take: polls until a poll isn't full, and returns how that one ended. */
static enum fq_next poll_once(struct poller *poller) {
    struct fq_packet out[WEIGHT];
    enum fq_status said;
    enum fq_next next;
    do {
        size_t count;
        if (fq_caller_poll(poller->caller, WEIGHT, out, WEIGHT, &count) != FQ_OK) poller->failed = true;
        for (size_t i = 0; i < count; i++) poller->failed |= out[i].number != poller->next++ || out[i].bytes != 60;
        said = fq_caller_end(poller->caller, count == WEIGHT, &next);
        poller->held += said == FQ_HELD;
    } while (said == FQ_HELD);
    poller->failed |= said != FQ_OK;
    return next;
}

/* The instance's thread (napi_threaded_poll). */
static void *poll_all(void *at) {
    struct poller *poller = at;
    enum fq_next next = FQ_NEXT_GONE;
    while (poller->next < PACKETS && !poller->failed) {
        if (next != FQ_NEXT_AGAIN_THREAD) sem_wait(poller->wake);
        next = fq_caller_take(poller->caller, FQ_THREAD) == FQ_TAKEN ? poll_once(poller) : FQ_NEXT_GONE;
    }
    return NULL;
}

int main(void) {
    struct fq_ring ring = FQ_NONE;
    struct fq_control control = FQ_NONE;
    struct fq_caller callers[2] = {FQ_NONE, FQ_NONE};
    sem_t wake;
    if (fq_ring_new(&ring, 256) != FQ_OK || fq_shared_new(&ring, &control, callers, 2) != FQ_OK || sem_init(&wake, 0, 0) != 0) return 1;
    if (fq_control_step(&control, true, true) != FQ_OK) return 1;
    struct interrupts irq = {&ring, &callers[0], &wake, false};
    struct poller poller = {&callers[1], &wake, 0, 0, false};
    pthread_t threads[2];
    if (pthread_create(&threads[0], NULL, interrupt, &irq) != 0) return 1;
    if (pthread_create(&threads[1], NULL, poll_all, &poller) != 0) return 1;
    for (int i = 0; i < 2; i++) pthread_join(threads[i], NULL);
    if (irq.failed || poller.failed || poller.next != PACKETS || poller.held == 0) return 1;
    /* napi_disable: an instance that was queued for the thread last is taken and completed */
    while (fq_control_step(&control, false, false) == FQ_BUSY)
        if (fq_caller_take(&callers[1], FQ_THREAD) == FQ_TAKEN) poll_once(&poller);
    printf("%d packets by a thread of its own, each once and in order\n", PACKETS);
    sem_destroy(&wake);
    if (fq_free(&control.handle) != FQ_OK || fq_free(&ring.handle) != FQ_OK) return 1;
    for (int i = 0; i < 2; i++) if (fq_free(&callers[i].handle) != FQ_OK) return 1;
    return 0;
}
