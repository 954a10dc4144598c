/* A model card with edge-triggered interrupts: a packet that arrives while it is masked causes no interrupt. Its packets
 * arrive at every point of interrupt and poll, after each call of the library and of the card, in all orders; the interrupt
 * comes at that point. At every point of an interrupt, and of another poll, a whole poll may run, as on another processor,
 * and a disable starts at every point. In the end nothing may wait on the card, which then isn't masked. The orders of
 * fintaqush.h never fail there; the three that hang real cards do: no check after the unmask, a mask after the hand-over, and an
 * enable without a request. A call that makes several steps is tried as it is, and step by step, with points between the steps.
 * To be linked with --wrap for the calls of a caller. */
#include <fintaqush.h>
#include <stdio.h>
#include <stdlib.h>

enum order { WATCHED, UNMASKED, UNLOOKED, LATE, UNASKED };
enum { WEIGHT = 2, PACKETS = 3, POINTS = 120, TURNS = 90, NEVER = 1000 };

static enum order order;
static bool threaded, by_steps;
static struct fq_control control;
static struct fq_caller callers[3]; /* the interrupt's caller, and two pollers' */

/* The number of the current point; the points at which packets arrive and the stop begins; the same for turns. */
static unsigned point_now, turn_now, packet_at[PACKETS], stop_at, turn_at;

/* The card, and what is running. */
static unsigned packets, waiting, next_packet, polls; /* polls: how many poll, the second within a call of the first */
static unsigned long played;
static bool masked, raised, handles, stops;

static void must(bool holds, const char *what) {
    if (holds) return;
    fprintf(stderr, "card: order %d: %s\n", (int)order, what);
    exit(9);
}

static void interrupt(void);
static void turn(void);

static void packet(void) {
    next_packet++;
    waiting++;
    if (masked) return;
    raised = true;
    if (!handles) interrupt();
}

static void point(void) {
    const unsigned here = point_now++;
    while (next_packet < packets && packet_at[next_packet] == here) packet();
    if (here == stop_at) {
        must(fq_control_mark(&control) == FQ_OK, "the mark");
        stops = true;
    }
    if ((handles || polls != 0) && polls < 2 && turn_now++ == turn_at) turn();
}

/* The steps of fq_caller_hand_again and fq_caller_end, as the header describes them. */
static uint32_t hands_again(struct fq_caller *caller, uint32_t *next) {
    uint64_t word;
    must(fq_caller_look(caller, &word) == FQ_OK, "a look");
    *next = word & FQ_BIT_THREADED ? FQ_NEXT_AGAIN_THREAD : FQ_NEXT_AGAIN;
    return fq_caller_hand(caller, word & FQ_BIT_THREADED ? FQ_THREAD : FQ_LIST);
}

static uint32_t ends(struct fq_caller *caller, bool full, uint32_t *next) {
    uint64_t word;
    must(fq_caller_look(caller, &word) == FQ_OK, "a look");
    const bool is_polled_on = full && !(word & FQ_BIT_DISABLE), is_thread = word & FQ_BIT_SCHED_THREADED;
    *next = is_polled_on && !is_thread ? FQ_NEXT_REPOLL : FQ_NEXT_GONE;
    if (is_polled_on) return is_thread ? FQ_HELD : fq_caller_requeue(caller);
    const uint32_t said = fq_caller_complete(caller);
    return said == FQ_AGAIN ? hands_again(caller, next) : said == FQ_RELEASED ? FQ_OK : said;
}

/* A call with a point before and after it, or its steps. */
#define WRAP(call, declared, passed, steps)             \
    uint32_t __real_##call declared;                    \
    uint32_t __wrap_##call declared;                    \
    uint32_t __wrap_##call declared {                   \
        steps;                                          \
        point();                                        \
        const uint32_t said = __real_##call passed;     \
        point();                                        \
        return said;                                    \
    }
WRAP(fq_caller_schedule, (struct fq_caller *caller), (caller), )
WRAP(fq_caller_hand, (struct fq_caller *caller, uint32_t to), (caller, to), )
WRAP(fq_caller_take, (struct fq_caller *caller, uint32_t from), (caller, from), )
WRAP(fq_caller_requeue, (struct fq_caller *caller), (caller), )
WRAP(fq_caller_complete, (struct fq_caller *caller), (caller), )
WRAP(fq_caller_schedule_prep, (struct fq_caller *caller), (caller), if (by_steps) return fq_caller_schedule(caller))
WRAP(fq_caller_complete_done, (struct fq_caller *caller), (caller), if (by_steps) return fq_caller_complete(caller))
WRAP(fq_caller_hand_again, (struct fq_caller *caller, uint32_t *next), (caller, next), if (by_steps) return hands_again(caller, next))
WRAP(fq_caller_end, (struct fq_caller *caller, bool full, uint32_t *next), (caller, full, next), if (by_steps) return ends(caller, full, next))

static void mask(void *at) {
    (void)at;
    point();
    masked = true;
    point();
}

static void unmask(void *at) {
    (void)at;
    point();
    masked = false;
    point();
}

static bool look(void *at) {
    (void)at;
    point();
    const bool is_there = waiting != 0;
    point();
    return is_there;
}

static size_t poll_card(void *at, size_t most) {
    size_t count = 0;
    (void)at;
    for (point(); count < most && waiting != 0; count++) {
        waiting--;
        point();
    }
    return count;
}

static const struct fq_card card = {NULL, mask, unmask, look, poll_card};
static uint32_t kind(void) { return threaded ? FQ_THREAD : FQ_LIST; }

static void request(void) {
    if (order != LATE) {
        must(fq_caller_interrupt_masked(&callers[0], kind(), &card) < FQ_NOT_ALLOWED, "an interrupt");
        return;
    }
    const uint32_t said = fq_caller_interrupt(&callers[0], kind());
    must(said < FQ_NOT_ALLOWED, "an interrupt");
    if (said == FQ_GRANTED) mask(NULL);
}

/* The interrupt's handler, which isn't interrupted by itself. */
static void interrupt(void) {
    handles = true;
    while (raised) {
        raised = false;
        request();
    }
    handles = false;
}

/* Ends a poll, and returns whether the poller continues. */
static bool end(struct fq_caller *caller, size_t work) {
    uint32_t next = 99, said;
    if (order == UNMASKED) said = fq_caller_end_unmasked(caller, &card, WEIGHT, &work, &next);
    else if (order == UNLOOKED) said = fq_caller_end(caller, work == WEIGHT, &next);
    else said = fq_caller_end_watched(caller, work == WEIGHT, &card, &next);
    must(said == FQ_OK || (threaded && said == FQ_HELD && work == WEIGHT), "an end");
    must(next == FQ_NEXT_GONE || next == (threaded ? FQ_NEXT_AGAIN_THREAD : FQ_NEXT_AGAIN) || (!threaded && next == FQ_NEXT_REPOLL), "how it ended");
    if (order == UNLOOKED && said == FQ_OK && next == FQ_NEXT_GONE) unmask(NULL);
    return said == FQ_HELD;
}

static void turn(void) {
    struct fq_caller *const caller = &callers[++polls];
    if (fq_caller_take(caller, kind()) == FQ_TAKEN)
        do must(masked || order > UNMASKED, "it polls, and the card isn't masked");
        while (end(caller, poll_card(NULL, WEIGHT)));
    polls--;
}

/* Polls until no caller owns the instance. */
static void drain(void) {
    uint64_t word = FQ_BIT_SCHED;
    for (int turns = 0; word & FQ_BIT_SCHED; turns++) {
        must(turns < 100, "the poller never rests");
        turn();
        must(fq_caller_look(&callers[0], &word) == FQ_OK, "a look");
    }
}

/* Executes one order of events, and returns whether the card hangs in the end. */
static bool hangs(void) {
    waiting = next_packet = polls = point_now = turn_now = 0;
    masked = raised = handles = stops = false;
    must(fq_shared_bare(&control, callers, 3) == FQ_OK && fq_control_step(&control, true, threaded) == FQ_OK, "a new instance");
    point();
    for (drain(); next_packet < packets; drain()) packet();
    must(point_now <= POINTS && turn_now <= TURNS, "more points than are tried");
    if (stops) { /* and one request after the enable */
        must(fq_control_step(&control, false, false) == FQ_OK && fq_control_step(&control, true, threaded) == FQ_OK, "off and on");
        if (order != UNASKED) request();
        drain();
    }
    const bool is_hung = waiting != 0 || masked;
    must(fq_control_step(&control, false, false) == FQ_OK && fq_free(&control.handle) == FQ_OK, "the end");
    for (int i = 0; i < 3; i++) must(fq_free(&callers[i].handle) == FQ_OK, "the end of a caller");
    return is_hung;
}

/* All orders of the packets from this one on, each not before the last: returns how many hang. All points after the last are
 * one. */
static unsigned long each(unsigned from, unsigned first) {
    unsigned long hung = 0;
    if (from == packets) return played++, hangs();
    for (unsigned at = first; at <= POINTS; at++) {
        packet_at[from] = at;
        hung += each(from + 1, at);
        if (from + 1 == packets && point_now <= at) break;
    }
    return hung;
}

/* Three packets; two, with a poll in an interrupt or a poll; two, with a disable. */
static unsigned long all(enum order which) {
    unsigned long hung = 0;
    order = which;
    for (int kinds = 0; kinds < 4; kinds++) {
        threaded = kinds % 2 != 0, by_steps = kinds > 1;
        packets = 3, turn_at = stop_at = NEVER;
        hung += each(0, 0);
        packets = 2;
        for (turn_at = 0; turn_at <= TURNS; turn_at++) hung += each(0, 0);
        turn_at = NEVER;
        for (stop_at = 0; stop_at <= POINTS; stop_at++) hung += each(0, 0);
    }
    return hung;
}

int main(void) {
    must(all(WATCHED) == 0, "hangs");
    must(all(UNMASKED) == 0, "hangs");
    must(all(UNLOOKED) != 0, "doesn't hang without a look");
    must(all(LATE) != 0, "doesn't hang by a late mask");
    must(all(UNASKED) != 0, "doesn't hang without a request after an enable");
    must(played > 100000, "few orders");
    puts("the card hangs without a look, by a late mask and by an enable without a request, and never else");
    return 0;
}
