/* Mistakes of a program that uses a driver of two cards. Each is tried by turns and by steps, with interrupts that are edges and levels, at once and
 * late, in 300 runs with packets that arrive at each access of a card. No run hangs or spins: either a call returns the error that is named here, or all
 * packets are polled. With what the library can't see some run hangs or spins, as docs/C.md says. It exits with 9 if this isn't so. */
#include <fintaqush.h>
#include <stdio.h>
#include <stdlib.h>

enum { CARDS = 2, PACKETS = 60, SEEDS = 300, WEIGHT = 8, SPIN = 20000 };
enum mistake { NONE, DEFERRED, REARM_BOOL, REARM_FULL, UNTIL_NOT_OK, NO_MASK, FETCH_BOOL, LOST_TODO, QUOTA, SHARED_TODO, FROM_ONE, TOO_MANY,
    SET_OPEN, NO_TIMEOUT, LOOK_FIRST, NO_LOOK, FOUND_NONE, SWAPPED, NO_TIMER, NO_INTERRUPT, MISTAKES };
static const struct {
    const char *name;
    enum fq_status error; /* that is returned in each run, if it isn't FQ_OK */
    bool hangs;           /* whether some run hangs or spins, because no call can see the mistake */
} of[MISTAKES] = {
    [NONE] = {"no mistake", FQ_OK, false},
    [DEFERRED] = {"no mistake, with deferral", FQ_OK, false},
    [REARM_BOOL] = {"rearm is whether the card has packets", FQ_OK, false},
    [REARM_FULL] = {"a full fetch rearms", FQ_OK, false},
    [UNTIL_NOT_OK] = {"a loop that ends unless it gets FQ_OK", FQ_OK, false},
    [NO_MASK] = {"todo.mask is forgotten", FQ_OK, false},
    [FETCH_BOOL] = {"a fetch reports whether it took packets", FQ_OK, false},
    [LOST_TODO] = {"a todo inside the loop", FQ_NOT_REPORTED, false},
    [QUOTA] = {"a loop that is left before the report, and begins with another todo", FQ_NOT_REPORTED, false},
    [SHARED_TODO] = {"one todo for two drivers", FQ_NOT_REPORTED, false},
    [FROM_ONE] = {"devices are numbered from 1", FQ_BAD_DEVICE, false},
    [TOO_MANY] = {"a fetch reports bytes", FQ_BAD_WORK, false},
    [SET_OPEN] = {"settings of an open device", FQ_NOT_ALLOWED, false},
    [NO_TIMEOUT] = {"deferral without a timeout", FQ_BAD_SETTING, false},
    [LOOK_FIRST] = {"a fetch looks before it unmasks", FQ_OK, true},
    [NO_LOOK] = {"a fetch doesn't look after it unmasks", FQ_OK, true},
    [FOUND_NONE] = {"a look isn't made", FQ_OK, true},
    [SWAPPED] = {"interrupts of the other device", FQ_OK, true},
    [NO_TIMER] = {"an expired timer isn't reported", FQ_OK, true},
    [NO_INTERRUPT] = {"some interrupts aren't reported", FQ_OK, true},
};
enum outcome { POLLED, RETURNED, HUNG, SPINS };

static struct card {
    unsigned arrived, waiting, taken, delay;
    bool masked, raised, timer;
} cards[CARDS];
static enum mistake mistake;
static bool levels, late, by_turns;
static uint64_t state, interrupted;
static struct fq_driver driver, other;
static enum fq_status error; /* the first one that was returned */

static void must(bool holds, const char *what) {
    if (holds) return;
    fprintf(stderr, "mistakes: %s, %s, %s, %s: %s\n", of[mistake].name, by_turns ? "turns" : "steps", levels ? "levels" : "edges", late ? "late" : "at once", what);
    exit(9);
}

static unsigned any(unsigned below) {
    state ^= state << 13, state ^= state >> 7, state ^= state << 17;
    return (unsigned)(state >> 33) % below;
}

static enum fq_status got(enum fq_status said) {
    if (fq_is_error(said) && error == FQ_OK) error = said;
    return said;
}

/* Packets arrive, and interrupts are raised and come. A level is raised as long as there are packets and the card isn't masked. */
static void tick(void) {
    for (unsigned i = 0; i < CARDS; i++) {
        struct card *const card = &cards[i];
        const bool arrives = card->arrived < PACKETS && any(3) == 0;
        card->arrived += arrives, card->waiting += arrives;
        if (!card->raised && !card->masked && (levels ? card->waiting > 0 : arrives)) card->raised = true, card->delay = late ? any(6) : 0;
        if (!card->raised || card->delay-- > 0) continue;
        card->raised = false, interrupted |= UINT64_C(1) << i;
    }
}

static bool has_packets(const struct card *card) {
    tick();
    const bool has = card->waiting > 0;
    tick();
    return has;
}

static void set_mask(struct card *card, bool masked) {
    tick();
    card->masked = masked;
    tick();
}

/* Returns the interrupts that came, and reports timers that expired. */
static uint64_t interrupts(void) {
    tick();
    for (uint32_t i = 0; i < CARDS; i++) {
        if (!cards[i].timer || any(4)) continue;
        cards[i].timer = false;
        if (mistake != NO_TIMER) (void)got(fq_driver_timer(&driver, i));
    }
    uint64_t bits = interrupted;
    interrupted = 0;
    if (mistake == FROM_ONE) bits <<= 1;
    if (mistake == SWAPPED) bits = (bits >> 1 & 1) | (bits & 1) << 1;
    if (mistake == NO_INTERRUPT && any(8) == 0) bits = 0;
    return bits;
}

/* After a fetch, unmasks the card and looks at it. */
static enum fq_rearm rearms(struct card *card) {
    const bool before = mistake == LOOK_FIRST && has_packets(card);
    set_mask(card, false);
    if (mistake == LOOK_FIRST) return before ? FQ_REARM_MORE : FQ_REARM_EMPTY;
    if (mistake == NO_LOOK) return FQ_REARM_EMPTY;
    if (mistake == REARM_BOOL) return (enum fq_rearm)has_packets(card);
    return has_packets(card) ? FQ_REARM_MORE : FQ_REARM_EMPTY;
}

static void fetch(struct card *card, struct fq_todo *todo) {
    tick();
    const uint32_t count = card->waiting < todo->most ? card->waiting : todo->most;
    card->waiting -= count, card->taken += count;
    tick();
    todo->packets = mistake == TOO_MANY ? count * 60 : mistake == FETCH_BOOL ? count > 0 : count;
    const bool may = mistake != DEFERRED && mistake != NO_TIMER && mistake != FOUND_NONE; /* a rearm ends deferral */
    if (may && (count < todo->most || mistake == REARM_FULL)) todo->rearm = rearms(card);
}

static void act(struct fq_todo *todo) {
    struct card *const card = &cards[todo->device];
    if (todo->mask && mistake != NO_MASK) set_mask(card, true);
    switch (todo->what) {
    case FQ_TODO_MASK: set_mask(card, true); break;
    case FQ_TODO_UNMASK: set_mask(card, false); break;
    case FQ_TODO_LOOK: todo->packets = mistake != FOUND_NONE && has_packets(card); break;
    case FQ_TODO_FETCH: fetch(card, todo); break;
    case FQ_TODO_TIMER: card->timer = true; break;
    case FQ_TODO_ENDED: case FQ_TODO_SLEEP: case FQ_TODO_FAILED: break;
    }
}

/* Reports what was done, and interrupts, and asks what is due. */
static enum fq_status goes(struct fq_todo *todo) {
    static bool others_turn;
    others_turn = !others_turn && mistake == SHARED_TODO;
    if (others_turn) return got(fq_driver_turn(&other, 0, todo));
    const uint64_t bits = interrupts();
    if (by_turns) return got(fq_driver_turn(&driver, bits, todo));
    for (uint32_t i = 0; i < 64; i++)
        if (bits >> i & 1) (void)got(fq_driver_interrupt(&driver, i));
    return got(fq_driver_step(&driver, todo));
}

static void opens(struct fq_driver *of_two) {
    const bool deferred = mistake == DEFERRED || mistake == NO_TIMER;
    must(fq_driver_new(of_two, CARDS, 300, WEIGHT, 1024) == FQ_OK, "a driver");
    for (uint32_t i = 0; i < CARDS; i++) {
        const struct fq_device_settings settings = {.weight = WEIGHT, .defer_hard_irqs = deferred || mistake == NO_TIMEOUT, .gro_flush_timeout = deferred ? 1000 : 0};
        (void)got(fq_driver_set(of_two, i, settings));
        must(fq_driver_open(of_two, i) == FQ_OK, "an open");
        if (mistake == SET_OPEN) (void)got(fq_driver_set(of_two, i, settings));
    }
}

/* The program: it works until there is nothing to do, and then waits. */
static enum outcome program(void) {
    struct fq_todo todo = FQ_TODO_INIT;
    unsigned since_packet = 0, taken = 0;
    for (;;) {
        for (enum fq_status said;;) {
            if (mistake == LOST_TODO || (mistake == QUOTA && todo.what == FQ_TODO_FETCH && taken >= CARDS * WEIGHT)) todo = FQ_TODO_INIT;
            said = goes(&todo);
            if (error != FQ_OK) return RETURNED;
            if ((mistake == UNTIL_NOT_OK && said != FQ_OK) || todo.what == FQ_TODO_SLEEP) break;
            act(&todo);
            since_packet = taken == cards[0].taken + cards[1].taken ? since_packet + 1 : 0;
            taken = cards[0].taken + cards[1].taken;
            if (since_packet == SPIN) return SPINS;
        }
        for (int i = 0; i < 10; i++) tick();
        const bool comes = interrupted || cards[0].raised || cards[1].raised || cards[0].timer || cards[1].timer;
        if (comes || cards[0].arrived + cards[1].arrived < CARDS * PACKETS) continue;
        return cards[0].taken + cards[1].taken == CARDS * PACKETS ? POLLED : HUNG;
    }
}

static enum outcome run(uint64_t seed) {
    state = seed * UINT64_C(0x9e3779b97f4a7c15) + 1, interrupted = 0, error = FQ_OK;
    for (unsigned i = 0; i < CARDS; i++) cards[i] = (struct card){.masked = true};
    opens(&driver);
    if (mistake == SHARED_TODO) opens(&other);
    const enum outcome outcome = error == FQ_OK ? program() : RETURNED;
    must(fq_free(&driver.handle) == FQ_OK && (mistake != SHARED_TODO || fq_free(&other.handle) == FQ_OK), "the end");
    return outcome;
}

/* 300 runs; returns how many hung or spun. */
static unsigned runs(void) {
    unsigned hung = 0;
    for (uint64_t seed = 1; seed <= SEEDS; seed++) {
        const enum outcome outcome = run(seed);
        must(outcome != SPINS || of[mistake].hangs, "it spins");
        hung += outcome == HUNG || outcome == SPINS;
        if (of[mistake].error != FQ_OK) must(outcome == RETURNED && error == of[mistake].error, "its error");
        else if (!of[mistake].hangs) must(outcome == POLLED, "packets are left");
        else must(outcome != RETURNED, "an error");
    }
    return hung;
}

int main(void) {
    struct fq_tx tx = FQ_NONE;
    for (mistake = NONE; mistake < MISTAKES; mistake++) {
        unsigned hung = 0;
        for (int kind = 0; kind < 8; kind++) {
            levels = kind & 1, late = kind & 2, by_turns = kind & 4;
            hung += runs();
        }
        must((hung > 0) == of[mistake].hangs, "it doesn't hang");
    }
    mistake = NONE;
    must(fq_tx_new(&tx, 4, 0, 1000, 1000, 0) == FQ_OK && fq_tx_send(&tx, 60) == FQ_OK, "a transmit ring");
    must(fq_is_error(fq_tx_done(&tx, 60, 1)) && fq_tx_done(&tx, 1, 1) == FQ_OK && fq_free(&tx.handle) == FQ_OK, "bytes in place of packets");
    puts("each mistake is returned, harmless, or one that the page names");
    return 0;
}
