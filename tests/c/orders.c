/* A driver over model cards whose interrupts are edges: a packet that arrives while its card is masked causes none. Packets, interrupts
 * (also late ones, and some without a packet), opens, stops, steps, turns, and reports (also late ones, twice, and of what the driver never
 * asked for) come in random order. Whenever the driver says to sleep, and no interrupt is on its way, each open card is empty and unmasked, and each
 * closed one masked. With each of three mistakes of the caller some order hangs. A device that always has packets doesn't keep another one from
 * being polled, if its interrupts are passed to each turn. usage: orders ORDERS SEED */
#include <fintaqush.h>
#include <stdio.h>
#include <stdlib.h>

enum mistake { NONE, NO_LOOK, LATE_MASK, NO_INTERRUPT, MISTAKES };
enum { DEVICES = 3, STEPS = 300, SETTLED = 4000, ENDLESS = 100000 };
static struct card {
    unsigned waiting, taken;
    bool masked, raised, late; /* late: a mask that was reported, and isn't made yet */
} cards[DEVICES];
static struct fq_driver driver;
static struct fq_todo kept; /* done, and not reported yet */
static enum mistake mistake;
static uint64_t state;

static void must(bool holds, const char *what) {
    if (holds) return;
    fprintf(stderr, "orders: mistake %d: %s\n", (int)mistake, what);
    exit(9);
}

static unsigned any(unsigned below) {
    state ^= state << 13, state ^= state >> 7, state ^= state << 17;
    return (unsigned)(state >> 33) % below;
}

static void packet(struct card *card) {
    card->waiting++;
    card->raised |= !card->masked;
}

/* Takes the interrupt of a card, and returns whether it is reported. */
static bool taken(uint32_t device) {
    cards[device].raised = false;
    return mistake != NO_INTERRUPT || any(8) != 0;
}

static void interrupt(uint32_t device) {
    if (!taken(device)) return;
    const enum fq_status said = fq_driver_interrupt(&driver, device);
    must(said == FQ_GRANTED || said == FQ_MISSED || said == FQ_DISABLED, "an interrupt");
}

static uint32_t fetch(struct card *card, uint32_t most) {
    unsigned count = card->waiting < most ? card->waiting : most;
    if (any(8) == 0) count = any(count + 1); /* a card may give fewer */
    card->waiting -= count, card->taken += count;
    return count;
}

/* Does what *todo says, at the card. */
static void act(struct fq_todo *todo) {
    struct card *card = &cards[todo->device];
    if (todo->mask || todo->what == FQ_TODO_MASK) card->late = mistake == LATE_MASK, card->masked |= !card->late;
    switch (todo->what) {
    case FQ_TODO_UNMASK: card->masked = false; break;
    case FQ_TODO_LOOK: todo->packets = mistake == NO_LOOK ? 0 : card->waiting; break;
    case FQ_TODO_FETCH: todo->packets = fetch(card, todo->most); break;
    case FQ_TODO_MASK: case FQ_TODO_TIMER: case FQ_TODO_ENDED: case FQ_TODO_SLEEP: case FQ_TODO_FAILED: break;
    }
}

/* Does what is due, and returns what it was. */
static struct fq_todo ask(void) {
    struct fq_todo todo = FQ_TODO_INIT;
    must(fq_driver_next(&driver, &todo) == FQ_OK, "next");
    act(&todo);
    return todo;
}

static void report(const struct fq_todo *todo) {
    const enum fq_status said = fq_driver_done(&driver, todo);
    must(said == FQ_OK || said == FQ_NOT_DUE, "a report");
}

/* Reports what was done, perhaps with interrupts, and does what is due then. If that wasn't what the driver waits for, it is asked. */
static void step(struct fq_todo *todo) {
    const bool turns = any(2) == 0;
    uint64_t interrupts = 0;
    for (uint32_t i = 0; i < DEVICES && turns; i++)
        if (cards[i].raised && any(2) && taken(i)) interrupts |= UINT64_C(1) << i;
    const enum fq_status said = turns ? fq_driver_turn(&driver, interrupts, todo) : fq_driver_step(&driver, todo);
    must(said == FQ_OK || (said == FQ_NOT_REPORTED && todo->what == FQ_TODO_FAILED), "a step");
    if (said == FQ_OK) act(todo);
    else *todo = ask();
}

/* A report of what was due earlier, or never, and calls whose numbers are wrong. */
static void stray(void) {
    const uint64_t number = kept.number && any(2) ? kept.number - 1 - any(9) : UINT64_MAX - any(2);
    struct fq_todo todo = kept;
    todo.number = number, todo.packets = any(70);
    const enum fq_status said = fq_driver_done(&driver, &todo);
    must(said == FQ_NOT_DUE || (number == 0 && said == FQ_OK), "a stray report");
    must(fq_driver_interrupt(&driver, DEVICES + any(9)) == FQ_BAD_DEVICE, "no device");
    must(fq_driver_turn(&driver, UINT64_C(1) << (DEVICES + any(9)), &todo) == FQ_BAD_DEVICE, "no device");
}

/* One call or event. */
static void event(void) {
    const uint32_t device = any(DEVICES);
    struct card *card = &cards[device];
    switch (any(10)) {
    case 0: case 1: packet(card); break;
    case 2: if (card->raised || any(4) == 0) interrupt(device); break;
    case 3: if (any(6) == 0) must(fq_driver_stop(&driver, device) < FQ_NOT_ALLOWED, "a stop"); break;
    case 4: must(fq_driver_open(&driver, device) < FQ_NOT_ALLOWED, "an open"); break;
    case 5: kept = ask(); break;
    case 6: report(&kept); break;
    case 7: if (any(4) == 0) stray(); break;
    case 8: step(&kept); break;
    default: kept = ask(), report(&kept);
    }
    if (card->late && any(4) == 0) card->masked = true, card->late = false;
}

/* Does all that is due, and returns whether a card hangs then. */
static bool hangs(void) {
    bool hung = false, raised = true;
    for (unsigned turns = 0; raised; turns++) {
        must(turns < SETTLED, "it never sleeps");
        for (struct fq_todo todo = ask(); todo.what != FQ_TODO_SLEEP; step(&todo)) must(turns++ < SETTLED, "it never sleeps");
        raised = false;
        for (uint32_t i = 0; i < DEVICES; i++) {
            if (cards[i].late) cards[i].masked = true, cards[i].late = false;
            if (cards[i].raised) interrupt(i), raised = true;
        }
    }
    for (uint32_t i = 0; i < DEVICES; i++) {
        struct fq_device_shown shown;
        must(fq_driver_show(&driver, i, &shown) == FQ_OK && shown.state != FQ_DEVICE_STOPPING, "what is shown");
        hung |= shown.state == FQ_DEVICE_OPEN ? cards[i].waiting != 0 || cards[i].masked : !cards[i].masked;
    }
    return hung;
}

/* Whether some of these orders hangs. */
static bool some_hangs(enum mistake which, unsigned long orders) {
    bool hung = false;
    mistake = which;
    for (unsigned long order = 0; order < orders && !hung; order++) {
        must(fq_driver_new(&driver, DEVICES, 1 + any(40), 1 + any(8), 1 + any(9)) == FQ_OK, "a new driver");
        kept = FQ_TODO_INIT;
        for (uint32_t i = 0; i < DEVICES; i++) cards[i] = (struct card){.masked = true};
        for (unsigned steps = 0; steps < STEPS && !hung; steps++) {
            event();
            if (any(40) == 0) hung = hangs();
        }
        hung = hung || hangs();
        for (uint32_t i = 0; i < DEVICES; i++) must(fq_driver_stop(&driver, i) < FQ_NOT_ALLOWED, "the last stop");
        hung = hangs() || hung;
        must(fq_free(&driver.handle) == FQ_OK, "the end");
    }
    return hung;
}

/* Device 0 has packets all the time; when it was fetched ten times, device 1 gets one. Returns how often device 0 is fetched until device 1
 * is, or ENDLESS, if interrupts are passed to each turn or only when the driver sleeps. */
static unsigned fetches_until_other(bool to_each_turn) {
    struct fq_todo todo = FQ_TODO_INIT;
    unsigned fetches = 0;
    mistake = NONE;
    must(fq_driver_new(&driver, 2, 300, 64, 1024) == FQ_OK, "a new driver");
    for (uint32_t i = 0; i < 2; i++) {
        cards[i] = (struct card){.masked = true};
        must(fq_driver_open(&driver, i) == FQ_OK, "an open");
    }
    while (fetches < ENDLESS + 10 && !(todo.what == FQ_TODO_FETCH && todo.device == 1)) {
        cards[0].waiting = 1000;
        if (fetches == 10 && cards[1].waiting == 0) packet(&cards[1]);
        const bool interrupts = cards[1].raised && (to_each_turn || todo.what == FQ_TODO_SLEEP) && taken(1);
        must(fq_driver_turn(&driver, interrupts ? 2 : 0, &todo) == FQ_OK, "a turn");
        act(&todo);
        fetches += todo.what == FQ_TODO_FETCH && todo.device == 0;
    }
    must(fq_free(&driver.handle) == FQ_OK, "the end");
    return fetches - 10;
}

int main(int count, char **words) {
    if (count != 3) return 64;
    const unsigned long orders = strtoul(words[1], NULL, 10);
    state = strtoull(words[2], NULL, 10) * 2 + 1;
    must(!some_hangs(NONE, orders), "hangs");
    for (enum mistake which = NO_LOOK; which < MISTAKES; which++) must(some_hangs(which, orders), "doesn't hang");
    must(fetches_until_other(true) <= 2, "a device starves");
    must(fetches_until_other(false) == ENDLESS, "a late report starves no device");
    puts("no order hangs, and each mistake does");
    return 0;
}
