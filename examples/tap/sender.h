/* The sending side of a device: the frames that wait, as in the kernel's queue discipline, and before them those that the card has, under
 * a byte queue limit. If the card has a rate, it sends frames only at the ticks of a timer. */
#ifndef SENDER_H
#define SENDER_H

#include "common.h"
#include <stdbool.h>
#include <unistd.h>

enum { SLOTS = 1024 };

struct sender {
    struct fq_dql limit;
    bool stopped; /* whether the limit has stopped the queue */
    int card;
    size_t device, places; /* device: how many frames the card has; places: how many it may have */
    uint8_t (*frames)[FRAME];
    uint32_t bytes[SLOTS];
    uint64_t first, given, behind; /* the card has the frames from first on, those from given on wait, and the next one goes
                                    * to `behind` */
    uint64_t credit;               /* how much the card may send by its rate, in bits times the nanoseconds of a second */
    unsigned long answered, sent, failed, dropped, held;
    struct trace *trace;
};

static inline void sender_open(struct sender *sender, int card, size_t device, size_t places, uint64_t moment, struct trace *trace) {
    sender->card = card;
    sender->device = device;
    sender->places = places;
    sender->trace = trace;
    if (!(sender->frames = malloc(sizeof(uint8_t[SLOTS][FRAME])))) die("memory");
    must("limit", fq_dql_init(&sender->limit, 0, 1879048192, 1000, moment), FQ_OK);
}

/* Queues a frame after the others; if too many wait, the frame is dropped. */
static inline void sender_put(struct sender *sender, const uint8_t *frame, uint32_t bytes) {
    sender->answered++;
    if (sender->behind - sender->first == SLOTS) {
        sender->dropped++;
        return;
    }
    memcpy(sender->frames[sender->behind % SLOTS], frame, bytes);
    sender->bytes[sender->behind++ % SLOTS] = bytes;
}

/* Passes frames that wait to the card, until the limit stops the queue or the card is full (netdev_tx_sent_queue). */
static inline void sender_give(struct sender *sender) {
    while (sender->given < sender->behind) {
        const uint32_t bytes = sender->bytes[sender->given % SLOTS];
        row(sender->trace, now_ms(), sender->device, "tx", bytes);
        if (sender->stopped || sender->given - sender->first == sender->places) {
            sender->held++;
            return;
        }
        must("queued", fq_dql_queued(&sender->limit, bytes), FQ_OK);
        sender->stopped = fq_dql_avail(&sender->limit) < 0;
        sender->given++;
    }
}

/* The card sends this many frames, and completes them (netdev_tx_completed_queue). */
static inline void sender_done(struct sender *sender, uint32_t count) {
    const uint64_t moment = now_ms();
    uint32_t sum = 0;
    for (uint32_t i = 0; i < count; i++, sender->first++) {
        const uint32_t bytes = sender->bytes[sender->first % SLOTS];
        sum += bytes;
        if (write(sender->card, sender->frames[sender->first % SLOTS], bytes) == (ssize_t)bytes) sender->sent++;
        else sender->failed++;
    }
    must("completed", fq_dql_completed(&sender->limit, sum, moment), FQ_OK);
    sender->stopped &= fq_dql_avail(&sender->limit) < 0;
    row(sender->trace, moment, sender->device, "done", count);
}

/* Lets a card without a rate send all its frames at once. */
static inline void sender_flush(struct sender *sender) {
    for (sender_give(sender); sender->first < sender->given; sender_give(sender)) sender_done(sender, (uint32_t)(sender->given - sender->first));
}

/* A tick of a card with a rate, in bits per second: it sends what the time since the last tick allows, at most a tenth of a
 * second. */
static inline void sender_tick(struct sender *sender, uint64_t rate, uint64_t passed_ns) {
    uint32_t count = 0;
    sender->credit += rate * (passed_ns < 100000000 ? passed_ns : 100000000);
    while (sender->first + count < sender->given) {
        const uint64_t costs = (uint64_t)sender->bytes[(sender->first + count) % SLOTS] * 8 * 1000000000;
        if (sender->credit < costs) break;
        sender->credit -= costs;
        count++;
    }
    if (count) sender_done(sender, count);
    sender_give(sender);
    if (sender->first == sender->given) sender->credit = 0;
}
#endif
