/* A driver of two cards with edge-triggered interrupts, which come in a thread of their own, while one is stopped and opened again. */
#include <fintaqush.h>
#include <pthread.h>
#include <sched.h>
#include <semaphore.h>
#include <stdatomic.h>
#include <stdio.h>
#include <stdlib.h>

enum { STOPS = 20, BETWEEN = 1000, PACKETS = (STOPS + 1) * BETWEEN, ROOM = 256 };
static struct card { atomic_uint arrived, polled, masked; } cards[2] = {{.masked = 1}, {.masked = 1}};
static struct fq_word interrupts; /* a bit for each device whose card has interrupted */
static struct fq_driver driver;
static sem_t wake;
static unsigned stops;
static void must(bool holds) { if (!holds) abort(); }

/* The cards: an interrupt for each packet, unless the card is masked. */
static void *receive(void *none) {
    for (uint32_t i = 0; i < 2 * PACKETS; i++) {
        struct card *card = &cards[i % 2];
        while (card->arrived - card->polled == ROOM) sched_yield();
        card->arrived++;
        if (!card->masked && fq_word_raise(&interrupts, i % 2)) must(sem_post(&wake) == 0);
    }
    return none;
}

/* Takes packets from a card. If it has no more, unmasks it and then looks at it, which saves two turns. */
static void fetch(struct card *card, struct fq_todo *todo) {
    for (; todo->packets < todo->most && card->polled != card->arrived; todo->packets++) card->polled++;
    if (todo->packets == todo->most) return;
    card->masked = 0;
    todo->rearm = card->arrived != card->polled ? FQ_REARM_MORE : FQ_REARM_EMPTY;
}

/* Does what the driver asks for until there is nothing to do: from then on each packet that arrives raises an interrupt. */
static void work(void) {
    struct fq_todo todo = FQ_TODO_INIT;
    while (must(fq_driver_turn(&driver, fq_word_take(&interrupts), &todo) == FQ_OK), todo.what != FQ_TODO_SLEEP) {
        struct card *card = &cards[todo.device];
        if (todo.mask || todo.what == FQ_TODO_MASK) card->masked = 1;
        if (todo.what == FQ_TODO_UNMASK) card->masked = 0;
        if (todo.what == FQ_TODO_LOOK) todo.packets = card->arrived != card->polled;
        if (todo.what == FQ_TODO_FETCH) fetch(card, &todo);
        if (stops < STOPS && cards[0].polled >= (stops + 1) * BETWEEN && fq_driver_stop(&driver, 0) == FQ_OK) stops++;
    }
}

int main(void) {
    pthread_t thread;
    must(fq_driver_new(&driver, 2, 300, 64, 1024) == FQ_OK && fq_driver_open(&driver, 1) == FQ_OK);
    must(sem_init(&wake, 0, 0) == 0 && pthread_create(&thread, NULL, receive, NULL) == 0);
    for (; cards[0].polled < PACKETS || cards[1].polled < PACKETS; work())
        if (fq_driver_open(&driver, 0) == FQ_NOT_DUE) must(sem_wait(&wake) == 0); /* it is open already */
    must(pthread_join(thread, NULL) == 0 && fq_driver_stop(&driver, 0) == FQ_OK && fq_driver_stop(&driver, 1) == FQ_OK);
    work();
    printf("%u and %u packets, each polled once, with %u stops\n", (unsigned)cards[0].polled, (unsigned)cards[1].polled, stops);
    return fq_free(&driver.handle);
}
