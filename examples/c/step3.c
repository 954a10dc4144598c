/* Step 3 of docs/GUIDE.md: each packet is answered, and a byte queue limit stops the queue before too much is in flight. */
#include <fintaqush.h>
#include <stdio.h>
#include <stdlib.h>

enum { BURSTS = 1000, BURST = 100, BYTES = 60 };
static struct fq_driver driver;
static struct fq_tx tx;
static uint64_t now_ms;
static unsigned arrived, polled, answered, sent, stopped; /* sent: the packets that the card has sent and not reported yet */
static bool masked = true, interrupts;
static void must(bool holds) { if (!holds) abort(); }

/* Passes answers to the card, which sends them (netdev_tx_sent_queue). */
static void send_answers(void) {
    for (; answered < polled; answered++, sent++) {
        const enum fq_status said = fq_tx_send(&tx, BYTES);
        stopped += said == FQ_STOPPED;
        if (said == FQ_STOPPED || said == FQ_FULL) return;
        must(said == FQ_OK);
    }
}

/* The driver completes what the card has sent (netdev_tx_completed_queue), and takes packets from it. If there is no more of either, it unmasks the
 * card and then looks at it. */
static void fetch(struct fq_todo *todo) {
    const unsigned there = arrived - polled;
    must(fq_tx_done(&tx, sent, now_ms) == FQ_OK);
    sent = 0;
    todo->packets = there < todo->most ? there : todo->most;
    polled += todo->packets;
    send_answers();
    if (todo->packets == todo->most) return;
    masked = false;
    todo->rearm = arrived - polled + sent > 0 ? FQ_REARM_MORE : FQ_REARM_EMPTY; /* MORE also if there is something to complete */
}

static void work(void) {
    struct fq_todo todo = FQ_TODO_INIT;
    while (must(fq_driver_turn(&driver, interrupts, &todo) == FQ_OK), interrupts = false, todo.what != FQ_TODO_SLEEP) {
        if (todo.mask || todo.what == FQ_TODO_MASK) masked = true;
        if (todo.what == FQ_TODO_UNMASK) masked = false;
        if (todo.what == FQ_TODO_LOOK) todo.packets = arrived - polled + sent;
        if (todo.what == FQ_TODO_FETCH) fetch(&todo);
    }
}

int main(void) {
    must(fq_driver_new(&driver, 1, 300, 64, 1024) == FQ_OK && fq_driver_open(&driver, 0) == FQ_OK);
    must(fq_tx_new(&tx, 256, 0, 1879048192, 1000, 0) == FQ_OK);
    for (work(); now_ms < BURSTS; now_ms++, work()) {
        arrived += BURST;
        interrupts = !masked; /* bit 0, of device 0 */
    }
    printf("%u packets, %u answers, the limit stopped the queue: %s\n", polled, answered, stopped ? "yes" : "no");
    must(fq_driver_stop(&driver, 0) == FQ_OK);
    work();
    return fq_free(&tx.handle) + fq_free(&driver.handle);
}
