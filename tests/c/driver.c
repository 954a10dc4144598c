/* driver: tests the driver's calls from C. It makes random calls, also with wrong numbers and sizes, while packets arrive at any time at
 * cards that lose each interrupt while they are masked. Whenever the driver says to sleep, each open card is unmasked and has no packets,
 * or has an interrupt that wasn't reported, or is masked and its timer is set; each closed card is masked. A call that returns FQ_NOT_DUE
 * or an error has changed nothing. fq_driver_step and fq_driver_turn are compared with another driver, on which fq_driver_done,
 * fq_driver_interrupt and fq_driver_next are called instead. Whole programs, by turns, by steps and by reports, poll all packets in order.
 * The test exits with 9 if something is wrong. */
#include "any.h"
#include <stdio.h>
#include <stdlib.h>
#include <string.h>

static uint64_t seed;
static long calls;

static void want(bool holds, const char *what) {
    if (holds) return;
    fprintf(stderr, "driver: %s, call %ld\n", what, calls);
    exit(9);
}

static uint32_t below(uint32_t n) {
    seed = seed * UINT64_C(6364136223846793005) + UINT64_C(1442695040888963407);
    return (uint32_t)(seed >> 33) % n;
}

/* ---- the cards */

enum { DEVICES = 64 };
static struct card {
    bool masked, interrupting;
    uint64_t packets, taken;
    bool timer;
} cards[DEVICES];

static void arrives(struct card *card) {
    card->packets++;
    if (!card->masked) card->interrupting = true;
}

/* Does what *todo says, at the card. */
static void act(struct fq_todo *todo) {
    struct card *const card = &cards[todo->device];
    if (todo->mask) card->masked = true;
    switch (todo->what) {
    case FQ_TODO_MASK: card->masked = true; break;
    case FQ_TODO_UNMASK: card->masked = false; break;
    case FQ_TODO_LOOK: todo->packets = card->packets > 0; break;
    case FQ_TODO_TIMER: card->timer = true; break;
    case FQ_TODO_FETCH:
        todo->packets = card->packets < todo->most ? (uint32_t)card->packets : todo->most;
        card->packets -= todo->packets;
        card->taken += todo->packets;
        break;
    default: break;
    }
}

/* After a fetch, unmasks the card and looks at it; packets may come before and after the unmask. */
static void rearms(struct fq_todo *todo) {
    struct card *const card = &cards[todo->device];
    if (below(4) == 0) arrives(card);
    card->masked = false;
    if (below(4) == 0) arrives(card);
    todo->rearm = card->packets > 0 ? FQ_REARM_MORE + below(2) * 7 : FQ_REARM_EMPTY;
}

/* ---- random calls */

static struct fq_device_shown shown_of(struct fq_driver *driver, uint32_t device) {
    struct fq_device_shown shown = {0, 9, true, true, 9, 9};
    want(fq_driver_show(driver, device, &shown) == FQ_OK && shown.state <= FQ_DEVICE_STOPPING, "what a device shows");
    return shown;
}

static bool same_shown(struct fq_device_shown a, struct fq_device_shown b) {
    return a.state == b.state && a.scheduled == b.scheduled && a.missed == b.missed && a.polls == b.polls && a.packets == b.packets;
}

static bool same_but_number(const struct fq_todo *a, const struct fq_todo *b) {
    return a->what == b->what && a->device == b->device && a->most == b->most && a->packets == b->packets && a->nanoseconds == b->nanoseconds &&
           a->status == b->status && a->rearm == b->rearm && a->mask == b->mask && a->squeezed == b->squeezed && (a->number == 0) == (b->number == 0);
}

static bool same_todo(const struct fq_todo *a, const struct fq_todo *b) { return same_but_number(a, b) && a->number == b->number; }

/* Whether a call has failed with this status: there is nothing to do, and nothing to report. */
static bool is_failed(const struct fq_todo *todo, enum fq_status status) {
    struct fq_todo failed = FQ_TODO_INIT;
    failed.what = FQ_TODO_FAILED, failed.status = (uint16_t)status;
    return same_todo(todo, &failed);
}

/* Nothing that is refused changes what is due, or the device. */
static void refused(struct fq_driver *driver, uint32_t device, uint32_t said, uint32_t wanted, const struct fq_todo *due, struct fq_device_shown before) {
    struct fq_todo again = FQ_TODO_INIT;
    want(said == wanted, "the status of a call that is refused");
    want(same_shown(shown_of(driver, device), before), "a refused call changed a device");
    if (due->number == 0) return;
    want(fq_driver_next(driver, &again) == FQ_OK && again.number == due->number && again.what == due->what && again.device == due->device,
         "a refused call changed what is due");
}

static const struct fq_device_settings plain = {0, 1, 0, 0, 0};

static void tries_what_is_refused(struct fq_driver *driver, uint32_t devices, const struct fq_todo *due) {
    const uint32_t device = below(devices);
    const struct fq_device_shown before = shown_of(driver, device);
    struct fq_todo old = *due;
    struct fq_device_shown none;
    old.number += 1 + below(3);
    refused(driver, device, fq_driver_done(driver, &old), FQ_NOT_DUE, due, before);
    refused(driver, device, fq_driver_open(driver, devices), FQ_BAD_DEVICE, due, before);
    refused(driver, device, fq_driver_stop(driver, UINT32_MAX), FQ_BAD_DEVICE, due, before);
    refused(driver, device, fq_driver_interrupt(driver, devices), FQ_BAD_DEVICE, due, before);
    refused(driver, device, fq_driver_timer(driver, devices), FQ_BAD_DEVICE, due, before);
    refused(driver, device, fq_driver_set(driver, devices, plain), FQ_BAD_DEVICE, due, before);
    refused(driver, device, fq_driver_set(driver, device, (struct fq_device_settings){0, 65, 0, 0, 0}), FQ_BAD_WEIGHT, due, before);
    refused(driver, device, fq_driver_set(driver, device, (struct fq_device_settings){0, 1, 1, 0, 0}), FQ_BAD_SETTING, due, before);
    if (before.state != FQ_DEVICE_CLOSED) refused(driver, device, fq_driver_set(driver, device, plain), FQ_NOT_ALLOWED, due, before);
    if (devices < 64) {
        struct fq_todo far = *due;
        refused(driver, device, fq_driver_turn(driver, UINT64_C(1) << devices, &far), FQ_BAD_DEVICE, due, before);
        want(is_failed(&far, FQ_BAD_DEVICE), "what a turn with a bit too far sets");
    }
    for (int i = 0; i < 4 && due->number != 0; i++) {
        struct fq_todo lost = i < 2 ? old : FQ_TODO_INIT;
        refused(driver, device, i % 2 ? fq_driver_turn(driver, 0, &lost) : fq_driver_step(driver, &lost), FQ_NOT_REPORTED, due, before);
        want(is_failed(&lost, FQ_NOT_REPORTED), "what a lost report sets");
    }
    if (before.state != FQ_DEVICE_OPEN || before.scheduled) refused(driver, device, fq_driver_timer(driver, device), FQ_NOT_DUE, due, before);
    refused(driver, device, fq_driver_show(driver, devices, &none), FQ_BAD_DEVICE, due, before);
    if (before.state != FQ_DEVICE_CLOSED) refused(driver, device, fq_driver_open(driver, device), FQ_NOT_DUE, due, before);
    if (before.state != FQ_DEVICE_OPEN) refused(driver, device, fq_driver_stop(driver, device), FQ_NOT_DUE, due, before);
    if (due->what == FQ_TODO_FETCH) {
        struct fq_todo many = *due;
        many.packets = due->most + 1;
        refused(driver, device, fq_driver_done(driver, &many), FQ_BAD_WORK, due, before);
        refused(driver, device, fq_driver_step(driver, &many), FQ_BAD_WORK, due, before);
        want(is_failed(&many, FQ_BAD_WORK), "what a step of too many packets sets");
        many = *due, many.packets = UINT32_MAX;
        refused(driver, device, fq_driver_turn(driver, 0, &many), FQ_BAD_WORK, due, before);
        want(is_failed(&many, FQ_BAD_WORK), "what a turn of too many packets sets");
    }
}

static void interrupts(struct fq_driver *driver, uint32_t device) {
    if (!cards[device].interrupting) return;
    const struct fq_device_shown before = shown_of(driver, device);
    const uint32_t said = fq_driver_interrupt(driver, device);
    const uint32_t wanted = before.state == FQ_DEVICE_STOPPING ? FQ_DISABLED : before.scheduled ? FQ_MISSED : FQ_GRANTED;
    want(said == wanted, "the reply to an interrupt");
    cards[device].interrupting = false;
}

static void expires(struct fq_driver *driver, uint32_t device) {
    if (!cards[device].timer) return;
    const struct fq_device_shown before = shown_of(driver, device);
    const bool idle = before.state == FQ_DEVICE_OPEN && !before.scheduled;
    want(fq_driver_timer(driver, device) == (idle ? FQ_GRANTED : FQ_NOT_DUE) && shown_of(driver, device).missed == before.missed, "a timer");
    cards[device].timer = false;
}

/* What the driver says is done and reported, perhaps after other calls, or forgotten. */
static bool one_thing(struct fq_driver *driver, uint32_t devices) {
    struct fq_todo todo = FQ_TODO_INIT;
    want(fq_driver_next(driver, &todo) == FQ_OK && todo.device < devices && todo.status == FQ_OK, "what is said");
    want(todo.number == 0 || todo.packets == (todo.what == FQ_TODO_LOOK), "its packets");
    want((todo.number == 0) == (todo.what == FQ_TODO_SLEEP || todo.what == FQ_TODO_ENDED), "what has a number");
    if (below(8) == 0) tries_what_is_refused(driver, devices, &todo);
    if (below(16) == 0) return todo.what != FQ_TODO_SLEEP;
    if (todo.number != 0 && below(8) == 0) { /* it is returned again, and a fetch then masks again */
        struct fq_todo again = todo;
        todo.mask = todo.what == FQ_TODO_FETCH;
        want(fq_driver_next(driver, &again) == FQ_OK && same_todo(&again, &todo), "the same action again");
    }
    act(&todo);
    if (todo.what == FQ_TODO_FETCH && below(2)) rearms(&todo);
    const uint32_t device = below(4) ? todo.device : below(devices);
    if (below(4) == 0) arrives(&cards[device]);
    if (below(4) == 0) interrupts(driver, device);
    if (below(4) == 0) expires(driver, device);
    if (below(16) == 0) (void)!fq_driver_stop(driver, device);
    if (below(16) == 0) (void)!fq_driver_open(driver, device);
    const uint32_t said = fq_driver_done(driver, &todo);
    /* only a call about the same device can make it not due any more */
    want(said == FQ_OK || (said == FQ_NOT_DUE && device == todo.device), "a report");
    return todo.what != FQ_TODO_SLEEP;
}

static void rests(struct fq_driver *driver, uint32_t devices) {
    struct fq_todo todo = FQ_TODO_INIT;
    if (fq_driver_next(driver, &todo) != FQ_OK || todo.what != FQ_TODO_SLEEP) return;
    for (uint32_t i = 0; i < devices; i++) {
        const struct fq_device_shown shown = shown_of(driver, i);
        want(shown.state != FQ_DEVICE_STOPPING, "sleeps in a stop");
        if (shown.state == FQ_DEVICE_CLOSED) want(cards[i].masked, "a closed card is unmasked");
        else want(cards[i].masked ? cards[i].timer : cards[i].packets == 0 || cards[i].interrupting, "sleeps with packets");
    }
}

/* The devices have a smaller weight, deferral, busy polling or none, by turns. */
static void set_devices(struct fq_driver *driver, uint32_t devices, uint32_t weight) {
    for (uint32_t i = 0; i < devices; i++) {
        const struct fq_device_settings settings = {0, 1 + (i + weight - 1) % weight, i & 1 ? 2 : 0, i & 1 ? 1000 : 0, i & 2 ? 3 : 0};
        want(fq_driver_set(driver, i, settings) == FQ_OK, "the settings of a device");
    }
}

/* Whether a timer was set, which expires now. */
static bool any_expires(struct fq_driver *driver, uint32_t devices) {
    uint32_t i = 0;
    while (i < devices && !cards[i].timer) i++;
    if (i < devices) expires(driver, i);
    return i < devices;
}

static void random_calls(uint32_t devices, uint32_t budget, uint32_t weight, uint32_t window) {
    struct fq_driver driver = FQ_NONE;
    want(fq_driver_new(&driver, devices, budget, weight, window) == FQ_OK, "a driver");
    set_devices(&driver, devices, weight);
    for (uint32_t i = 0; i < DEVICES; i++) cards[i] = (struct card){true, false, 0, 0, false};
    for (calls = 0; calls < 200000; calls++) {
        const uint32_t device = below(devices);
        switch (below(10)) {
        case 0: arrives(&cards[device]); break;
        case 1: interrupts(&driver, device); break;
        case 2: (void)!(below(64) ? fq_driver_open(&driver, device) : fq_driver_stop(&driver, device)); break;
        case 3: fq_driver_end_run(&driver); break;
        case 4: expires(&driver, device); break;
        default: (void)one_thing(&driver, devices); break;
        }
        if (below(32) == 0) rests(&driver, devices);
    }
    for (uint32_t i = 0; i < devices; i++) interrupts(&driver, i);
    struct fq_todo todo = FQ_TODO_INIT;
    for (long more = 0; fq_driver_next(&driver, &todo) == FQ_OK && (todo.what != FQ_TODO_SLEEP || any_expires(&driver, devices)); more++) {
        act(&todo);
        const enum fq_status said = fq_driver_done(&driver, &todo);
        want((said == FQ_OK || todo.what == FQ_TODO_SLEEP) && more < 10000000, "it comes to rest");
    }
    rests(&driver, devices);
    for (uint32_t i = 0; i < devices; i++)
        if (shown_of(&driver, i).state == FQ_DEVICE_OPEN) want(cards[i].packets == 0, "packets are left");
    want(fq_free(&driver.handle) == FQ_OK, "the end");
}

/* ---- the same by steps and turns, beside a driver that reports and asks */

/* Two drivers that get the same calls: one by steps or turns, and its twin by reports and questions. A turn may join two actions of the twin, whose
 * numbers then differ. */
static struct pair {
    struct fq_driver driver, twin;
    struct fq_todo todo, other; /* what each has to do now */
    bool by_turns, in_run;
    uint32_t devices;
    long made[FQ_NOT_REPORTED + 1], joined, stale;
} of;

/* What the twin reports, gets as interrupts and has to do then; returns what a step or a turn has to return. */
static uint32_t twin_does(const struct fq_todo *report, uint64_t interrupts) {
    const enum fq_status said = fq_driver_done(&of.twin, report);
    for (uint32_t i = 0; i < of.devices; i++)
        if (interrupts >> i & 1) want(!fq_is_error(fq_driver_interrupt(&of.twin, i)), "an interrupt of the twin");
    if (fq_is_error(said)) return said;
    want(fq_driver_next(&of.twin, &of.other) == FQ_OK, "what is due at the twin");
    if (of.todo.what == FQ_TODO_FETCH && of.todo.mask) { /* the fetch begins with the mask */
        want(!of.in_run && of.other.what == FQ_TODO_MASK && of.other.device == of.todo.device, "a mask that is joined");
        want(fq_driver_done(&of.twin, &of.other) == FQ_OK && fq_driver_next(&of.twin, &of.other) == FQ_OK, "a mask at the twin");
        of.other.mask = true, of.joined++;
    } else if (of.by_turns && of.devices == 1 && of.other.what == FQ_TODO_MASK) {
        want(of.in_run || shown_of(&of.twin, 0).state == FQ_DEVICE_STOPPING, "a mask of the only device is joined");
    }
    of.other.status = (uint16_t)said;
    return FQ_OK;
}

/* One step or turn with this report. */
static uint32_t goes(const struct fq_todo *report, const struct fq_todo *of_twin, uint64_t interrupts) {
    const struct fq_todo twins = *of_twin; /* it may be of.other, which the twin sets */
    of.todo = *report;
    const uint32_t said = of.by_turns ? fq_driver_turn(&of.driver, interrupts, &of.todo) : fq_driver_step(&of.driver, &of.todo);
    want(twin_does(&twins, interrupts) == said, "what a step or a turn returns");
    if (said == FQ_OK) {
        want(of.by_turns ? same_but_number(&of.todo, &of.other) : same_todo(&of.todo, &of.other), "what a step or a turn sets");
        of.in_run = of.todo.what == FQ_TODO_FETCH || (of.in_run && of.todo.number != 0);
        of.stale += of.todo.status == FQ_NOT_DUE;
    } else {
        want(is_failed(&of.todo, said), "what a failed step or turn sets");
    }
    return said;
}

/* One step or turn, sometimes with a report that is wrong, or that was forgotten. */
static void one_step(uint64_t interrupts) {
    const struct fq_todo kept = of.todo, others = of.other;
    struct fq_todo report = kept, of_twin = others;
    const uint32_t wrong = below(16);
    if (wrong == 3 && kept.what == FQ_TODO_FETCH) report.packets = of_twin.packets = kept.most + 1 + below(9);
    else if (wrong == 1 || wrong == 2) { /* both are asked before, so that an action waits for its report */
        want(fq_driver_next(&of.driver, &of.todo) == FQ_OK && fq_driver_next(&of.twin, &of.other) == FQ_OK, "two questions");
        want(same_but_number(&of.todo, &of.other), "what is due at both");
        of.in_run = of.todo.what == FQ_TODO_FETCH || (of.in_run && of.todo.number != 0);
        if (of.todo.number == 0) return;
        act(&of.todo), of.other.packets = of.todo.packets;
        report = of.todo, report.number = wrong == 1 ? report.number + 1 + below(3) : 0;
        const struct fq_todo due = of.todo;
        const uint32_t said = of.by_turns ? fq_driver_turn(&of.driver, 0, &report) : fq_driver_step(&of.driver, &report);
        want(said == FQ_NOT_REPORTED && is_failed(&report, FQ_NOT_REPORTED), "a lost report");
        of.made[said]++;
        of.todo = due;
        return;
    }
    of_twin.packets = report.packets, of_twin.rearm = report.rearm;
    const uint32_t said = goes(&report, &of_twin, interrupts);
    want(said == FQ_OK || (wrong == 3 && said == FQ_BAD_WORK), "a step or a turn");
    of.made[said]++;
    if (said == FQ_OK) act(&of.todo);
    else of.todo = kept, of.other = others;
    if (said == FQ_OK && of.todo.what == FQ_TODO_FETCH && below(2)) rearms(&of.todo);
    of.other.packets = of.todo.packets, of.other.rearm = of.todo.rearm;
}

/* The interrupts that came; some are reported later, and some come without a packet. */
static uint64_t taken_interrupts(void) {
    uint64_t bits = 0;
    for (uint32_t i = 0; i < of.devices; i++) {
        if ((cards[i].interrupting && below(2)) || below(64) == 0) bits |= UINT64_C(1) << i;
        if (bits >> i & 1) cards[i].interrupting = false;
    }
    return bits;
}

static void other_calls(void) {
    const uint32_t device = below(of.devices);
    if (below(2) == 0) arrives(&cards[device]);
    if (below(2) == 0 && cards[device].interrupting) {
        want(fq_driver_interrupt(&of.driver, device) == fq_driver_interrupt(&of.twin, device), "an interrupt of two drivers");
        cards[device].interrupting = false;
    }
    if (below(2) == 0 && cards[device].timer) {
        want(fq_driver_timer(&of.driver, device) == fq_driver_timer(&of.twin, device), "a timer of two drivers");
        cards[device].timer = false;
    }
    if (below(16) == 0) want(fq_driver_open(&of.driver, device) == fq_driver_open(&of.twin, device), "an open of two drivers");
    if (below(16) == 0) want(fq_driver_end_run(&of.driver) == fq_driver_end_run(&of.twin), "an end of two runs");
    if (below(64) == 0) want(fq_driver_stop(&of.driver, device) == fq_driver_stop(&of.twin, device), "a stop of two drivers");
    want(same_shown(shown_of(&of.driver, device), shown_of(&of.twin, device)), "a device of two drivers");
}

static void random_steps(bool by_turns, uint32_t devices, uint32_t budget, uint32_t weight, uint32_t window) {
    of = (struct pair){.by_turns = by_turns, .devices = devices};
    want(fq_driver_new_salted(&of.driver, devices, budget, weight, window, 7) == FQ_OK, "a driver");
    want(fq_driver_new_salted(&of.twin, devices, budget, weight, window, 7) == FQ_OK, "a driver with the same numbers");
    set_devices(&of.driver, devices, weight), set_devices(&of.twin, devices, weight);
    for (uint32_t i = 0; i < DEVICES; i++) cards[i] = (struct card){true, false, 0, 0, false};
    for (calls = 0; calls < 200000; calls++) {
        if (below(3) == 0) other_calls();
        else one_step(by_turns ? taken_interrupts() : 0);
    }
    want(of.made[FQ_OK] > 0 && of.stale > 0 && of.made[FQ_BAD_WORK] > 0 && of.made[FQ_NOT_REPORTED] > 0, "a step has returned each status");
    want((of.joined > 0) == by_turns, "masks are joined");
    want(fq_free(&of.driver.handle) == FQ_OK && fq_free(&of.twin.handle) == FQ_OK, "the end of two drivers");
}

/* ---- driver programs: by turns, by steps, and by a report and a question */

static void reports_and_asks(struct fq_driver *driver, struct fq_todo *todo) {
    want(!fq_is_error(fq_driver_done(driver, todo)) && fq_driver_next(driver, todo) == FQ_OK, "a report and a question");
}

static void goes_on(struct fq_driver *driver, struct fq_todo *todo) { want(fq_driver_step(driver, todo) == FQ_OK, "a step"); }
static void turns(struct fq_driver *driver, struct fq_todo *todo) { want(fq_driver_turn(driver, 0, todo) == FQ_OK, "a turn"); }

static void program(void (*go)(struct fq_driver *driver, struct fq_todo *todo)) {
    uint64_t fetched_next = 0, polled_in_all = 0;
    struct fq_driver driver = FQ_NONE;
    struct fq_todo todo = FQ_TODO_INIT;
    uint32_t squeezed = 0, runs = 0;
    want(fq_driver_new(&driver, 2, 64, 64, 10) == FQ_OK && fq_driver_open(&driver, 1) == FQ_OK, "a driver");
    memset(cards, 0, sizeof cards);
    cards[0].masked = cards[1].masked = true;
    cards[1].packets = 1000;
    while (go(&driver, &todo), todo.what != FQ_TODO_SLEEP) {
        act(&todo);
        if (todo.what == FQ_TODO_FETCH) fetched_next += todo.packets;
        if (todo.what == FQ_TODO_ENDED) runs++, squeezed += todo.squeezed, polled_in_all += fq_todo_run(&todo).work;
    }
    runs += fq_todo_run(&todo).polls > 0, polled_in_all += fq_todo_run(&todo).work;
    const struct fq_device_shown shown = shown_of(&driver, 1);
    want(fetched_next == 1000 && polled_in_all == 1000 && shown.packets == 1000 && shown.polls == 16, "each packet once");
    want(runs == 16 && squeezed == 15 && shown.state == FQ_DEVICE_OPEN && !shown.scheduled && !cards[1].masked, "its runs");
    want(fq_driver_stop(&driver, 1) == FQ_OK, "a stop");
    while (go(&driver, &todo), todo.what != FQ_TODO_SLEEP) act(&todo);
    want(shown_of(&driver, 1).state == FQ_DEVICE_CLOSED && cards[1].masked, "it is closed");
    want(fq_abandon(&driver.handle) == FQ_OK, "the end");
}

static void without_a_driver(void) {
    union any none = {{false, NULL}}, list = {{false, NULL}};
    struct fq_todo todo = FQ_TODO_INIT;
    struct fq_device_shown shown;
    want(fq_list_new(&list.list) == FQ_OK, "a list");
    for (int i = 0; i < 2; i++) {
        struct fq_driver *const handle = i ? &list.driver : &none.driver;
        const struct fq_todo fetch = {.number = 7, .what = FQ_TODO_FETCH, .device = 1, .most = 2, .packets = 3, .mask = true};
        todo = fetch;
        want(fq_driver_done(handle, &todo) == FQ_BAD_HANDLE && same_todo(&todo, &fetch), "a report without a driver");
        want(fq_driver_next(handle, &todo) == FQ_BAD_HANDLE && is_failed(&todo, FQ_BAD_HANDLE), "it fails");
        todo = fetch;
        want(fq_driver_step(handle, &todo) == FQ_BAD_HANDLE && is_failed(&todo, FQ_BAD_HANDLE), "a step fails");
        todo = fetch;
        want(fq_driver_turn(handle, UINT64_MAX, &todo) == FQ_BAD_HANDLE && is_failed(&todo, FQ_BAD_HANDLE), "a turn fails");
        want(fq_driver_open(handle, 0) == FQ_BAD_HANDLE && fq_driver_stop(handle, 0) == FQ_BAD_HANDLE, "an open without a driver");
        want(fq_driver_timer(handle, 0) == FQ_BAD_HANDLE && fq_driver_set(handle, 0, plain) == FQ_BAD_HANDLE, "a timer");
        want(fq_driver_interrupt(handle, 0) == FQ_BAD_HANDLE && fq_driver_show(handle, 0, &shown) == FQ_BAD_HANDLE, "an interrupt");
    }
    want(fq_driver_new(&list.driver, 1, 300, 64, 10) == FQ_IN_USE, "a driver in place of a list");
    want(fq_driver_new(&none.driver, 0, 0, 0, 0) == FQ_BAD_COUNT && fq_driver_new(&none.driver, 65, 0, 0, 0) == FQ_BAD_COUNT, "too many devices");
    want(fq_driver_new(&none.driver, 1, 0, 65, 0) == FQ_BAD_WEIGHT && fq_driver_new(&none.driver, 1, 300, 0, 10) == FQ_BAD_WEIGHT, "a weight");
    want(fq_driver_new(&none.driver, 1, 65536, 64, 10) == FQ_BAD_BUDGET && fq_driver_new(&none.driver, 1, 300, 64, 0) == FQ_BAD_BUDGET, "a budget");
    want(fq_free(&list.handle) == FQ_OK, "the end");
}

/* If several statuses apply, each call returns the one that the header names first. */
static void first_named(void) {
    struct fq_driver driver = FQ_NONE;
    struct fq_todo todo = FQ_TODO_INIT;
    struct fq_device_shown shown;
    want(fq_driver_show(&driver, 9, &shown) == FQ_BAD_HANDLE, "no driver, and no device");
    want(fq_driver_new(&driver, 1, 300, 8, 1024) == FQ_OK && fq_driver_open(&driver, 0) == FQ_OK, "a driver");
    while (fq_driver_step(&driver, &todo) == FQ_OK && todo.what != FQ_TODO_FETCH) {} /* a look that isn't answered leads to a poll */
    todo.packets = 9, todo.number++;
    struct fq_todo far = todo, lost = todo;
    want(fq_driver_turn(&driver, 2, &far) == FQ_BAD_DEVICE && is_failed(&far, FQ_BAD_DEVICE), "a bit too far, and an old number");
    want(fq_driver_turn(&driver, 1, &lost) == FQ_NOT_REPORTED && is_failed(&lost, FQ_NOT_REPORTED), "an old number, and too many packets");
    want(shown_of(&driver, 0).missed, "the interrupt of a turn that fails so is reported");
    want(fq_driver_done(&driver, &todo) == FQ_NOT_DUE && fq_driver_step(&driver, &todo) == FQ_NOT_REPORTED, "the same by a report and a step");
    want(fq_driver_next(&driver, &todo) == FQ_OK && todo.what == FQ_TODO_FETCH && todo.mask && fq_free(&driver.handle) == FQ_OK, "the fetch is due");
}

/* A struct of zeros is no action, and an action of one driver is none of another. */
static void mistakes(void) {
    struct fq_driver one = FQ_NONE, other = FQ_NONE;
    struct fq_todo todo = {0};
    want(fq_driver_new(&one, 1, 300, 64, 1024) == FQ_OK && fq_driver_new(&other, 1, 300, 64, 1024) == FQ_OK, "two drivers");
    want(fq_driver_open(&one, 0) == FQ_OK && fq_driver_open(&other, 0) == FQ_OK, "two opens");
    want(fq_driver_step(&one, &todo) == FQ_OK && todo.what == FQ_TODO_UNMASK, "a struct of zeros");
    const struct fq_todo unmask = todo;
    want(fq_driver_next(&other, &todo) == FQ_OK && todo.what == FQ_TODO_UNMASK && todo.number != unmask.number, "two numbers");
    want(fq_driver_done(&other, &unmask) == FQ_NOT_DUE && fq_driver_done(&one, &todo) == FQ_NOT_DUE, "another driver's action");
    for (int i = 0; i < 2; i++) {
        struct fq_todo anothers = i ? unmask : todo;
        want(fq_driver_turn(i ? &other : &one, 0, &anothers) == FQ_NOT_REPORTED && is_failed(&anothers, FQ_NOT_REPORTED), "the same by a turn");
    }
    want(fq_driver_done(&one, &unmask) == FQ_OK && fq_driver_done(&other, &todo) == FQ_OK, "its own");
    want(fq_free(&one.handle) == FQ_OK && fq_driver_next(&one, &todo) == FQ_BAD_HANDLE, "a driver that was freed");
    want(is_failed(&todo, FQ_BAD_HANDLE) && fq_free(&other.handle) == FQ_OK, "all of the struct");
}

/* A run that is ended makes no other poll, and is squeezed; the next run polls the devices that it leaves. */
static void an_ended_run(void) {
    struct fq_driver driver = FQ_NONE;
    struct fq_todo todo = FQ_TODO_INIT;
    memset(cards, 0, sizeof cards);
    cards[0] = cards[1] = (struct card){true, false, 100, 0, false};
    want(fq_driver_new(&driver, 2, 300, 64, 1024) == FQ_OK && fq_driver_open(&driver, 0) == FQ_OK && fq_driver_open(&driver, 1) == FQ_OK, "a driver");
    want(fq_driver_end_run(&driver) == FQ_NOT_DUE, "no run");
    for (; fq_driver_step(&driver, &todo) == FQ_OK && todo.what != FQ_TODO_FETCH; act(&todo)) {}
    want(todo.device == 0 && fq_driver_end_run(&driver) == FQ_OK && fq_driver_end_run(&driver) == FQ_OK, "the end of a run, twice");
    act(&todo);
    want(fq_driver_step(&driver, &todo) == FQ_OK && todo.what == FQ_TODO_ENDED && fq_todo_run(&todo).squeezed, "the run's end");
    want(fq_todo_run(&todo).polls == 1 && fq_todo_run(&todo).work == 64 && fq_driver_end_run(&driver) == FQ_NOT_DUE, "its report");
    want(fq_driver_step(&driver, &todo) == FQ_OK && todo.what == FQ_TODO_FETCH && todo.device == 1, "the other device's turn");
    for (act(&todo); fq_driver_step(&driver, &todo) == FQ_OK && todo.what != FQ_TODO_SLEEP; act(&todo)) want(!todo.squeezed, "whole runs");
    want(cards[0].taken == 100 && cards[1].taken == 100 && fq_free(&driver.handle) == FQ_OK, "all packets");
}

/* The driver asks for what has to be done at the device, again and again. */
static enum fq_what acts(struct fq_driver *driver, struct fq_todo *todo) {
    act(todo);
    want(fq_driver_step(driver, todo) == FQ_OK, "a step");
    return todo->what;
}

/* A device of weight 8 whose interrupt is deferred twice: after a fetch with packets its timer is set twice, and then it is unmasked. */
static void a_deferred_interrupt(void) {
    struct fq_driver driver = FQ_NONE;
    struct fq_todo todo = FQ_TODO_INIT;
    memset(cards, 0, sizeof cards);
    cards[0] = (struct card){true, false, 9, 0, false};
    want(fq_driver_new(&driver, 1, 300, 64, 1024) == FQ_OK, "a driver");
    want(fq_driver_set(&driver, 0, (struct fq_device_settings){0, 8, 2, 5000, 0}) == FQ_OK && fq_driver_open(&driver, 0) == FQ_OK, "a weight");
    want(fq_driver_set(&driver, 0, plain) == FQ_NOT_ALLOWED, "it is open");
    while (acts(&driver, &todo) != FQ_TODO_FETCH) {}
    want(todo.most == 8 && acts(&driver, &todo) == FQ_TODO_ENDED && acts(&driver, &todo) == FQ_TODO_FETCH, "a whole weight");
    want(acts(&driver, &todo) == FQ_TODO_TIMER && todo.nanoseconds == 5000, "the first timer");
    want(acts(&driver, &todo) == FQ_TODO_SLEEP && cards[0].masked && fq_driver_timer(&driver, 0) == FQ_GRANTED, "its expiry");
    want(acts(&driver, &todo) == FQ_TODO_FETCH && acts(&driver, &todo) == FQ_TODO_TIMER && acts(&driver, &todo) == FQ_TODO_SLEEP, "the second timer");
    want(fq_driver_timer(&driver, 0) == FQ_GRANTED && fq_driver_timer(&driver, 0) == FQ_NOT_DUE, "its expiry, twice");
    want(acts(&driver, &todo) == FQ_TODO_FETCH && acts(&driver, &todo) == FQ_TODO_UNMASK, "no third one");
    want(acts(&driver, &todo) == FQ_TODO_LOOK && acts(&driver, &todo) == FQ_TODO_SLEEP && !cards[0].masked, "the end of the deferral");
    want(fq_driver_timer(&driver, 0) == FQ_GRANTED && acts(&driver, &todo) == FQ_TODO_MASK, "a timer that isn't set any more");
    want(cards[0].taken == 9 && fq_free(&driver.handle) == FQ_OK, "all packets");
}

/* A device that is busy polled is polled again, masked, until three empty polls in a row; a fetch with packets starts the count again. */
static void busy_polling(void) {
    struct fq_driver driver = FQ_NONE;
    struct fq_todo todo = FQ_TODO_INIT;
    struct fq_device_settings settings = FQ_DEVICE_INIT;
    unsigned polls = 0;
    memset(cards, 0, sizeof cards);
    cards[0] = (struct card){true, false, 1, 0, false};
    settings.empty_polls = 3;
    want(fq_driver_new(&driver, 1, 300, 64, 1024) == FQ_OK, "a driver");
    want(fq_driver_set(&driver, 0, settings) == FQ_OK && fq_driver_open(&driver, 0) == FQ_OK, "busy polling");
    while (acts(&driver, &todo) != FQ_TODO_MASK) {}
    while (acts(&driver, &todo) != FQ_TODO_UNMASK) {
        want(todo.what == FQ_TODO_FETCH || todo.what == FQ_TODO_ENDED, "polls only");
        polls += todo.what == FQ_TODO_FETCH;
        if (polls == 3 && todo.what == FQ_TODO_FETCH) arrives(&cards[0]);
    }
    want(polls == 6 && cards[0].taken == 2 && !cards[0].interrupting, "1 and 2 packets, 3 empty polls after each");
    want(acts(&driver, &todo) == FQ_TODO_LOOK && acts(&driver, &todo) == FQ_TODO_SLEEP && fq_free(&driver.handle) == FQ_OK, "interrupts again");
}

/* A device moves to another driver: stopped with packets left, it is closed there, and opened in the other one, which polls them. */
static void a_moved_device(void) {
    struct fq_driver from = FQ_NONE, to = FQ_NONE;
    struct fq_todo todo = FQ_TODO_INIT;
    memset(cards, 0, sizeof cards);
    cards[0] = (struct card){true, false, 200, 0, false};
    want(fq_driver_new(&from, 1, 300, 64, 1024) == FQ_OK && fq_driver_new(&to, 1, 300, 64, 1024) == FQ_OK, "two drivers");
    want(fq_driver_open(&from, 0) == FQ_OK, "a device of the first");
    while (acts(&from, &todo) != FQ_TODO_FETCH) {}
    want(fq_driver_stop(&from, 0) == FQ_OK && acts(&from, &todo) == FQ_TODO_SLEEP, "it is stopped during a poll");
    want(shown_of(&from, 0).state == FQ_DEVICE_CLOSED && cards[0].masked && cards[0].taken == 64 && cards[0].packets == 136, "it is closed");
    want(fq_driver_open(&to, 0) == FQ_OK, "a device of the second");
    for (todo = FQ_TODO_INIT; acts(&to, &todo) != FQ_TODO_SLEEP;) {}
    want(cards[0].taken == 200 && !cards[0].masked && shown_of(&to, 0).packets == 136, "the packets that were left");
    arrives(&cards[0]);
    want(fq_driver_interrupt(&to, 0) == FQ_GRANTED, "an interrupt after the move");
    while (acts(&to, &todo) != FQ_TODO_SLEEP) {}
    want(cards[0].taken == 201, "a packet after the move");
    want(acts(&from, &todo) == FQ_TODO_SLEEP && fq_free(&from.handle) == FQ_OK && fq_free(&to.handle) == FQ_OK, "nothing is left");
}

/* A packet at each interrupt takes two turns: to mask and fetch, and to sleep; or four calls, the interrupt, and steps to mask, to fetch and to sleep. */
static void calls_of_a_packet(bool by_turns) {
    struct fq_driver driver = FQ_NONE;
    struct fq_todo todo = FQ_TODO_INIT;
    memset(cards, 0, sizeof cards);
    cards[0].masked = true;
    want(fq_driver_new(&driver, 1, 300, 64, 1024) == FQ_OK && fq_driver_open(&driver, 0) == FQ_OK, "a driver");
    while (fq_driver_step(&driver, &todo) == FQ_OK && todo.what != FQ_TODO_SLEEP) act(&todo);
    for (int i = 0; i < 100; i++) {
        arrives(&cards[0]);
        want(cards[0].interrupting, "an interrupt");
        cards[0].interrupting = false;
        if (by_turns) {
            want(fq_driver_turn(&driver, 1, &todo) == FQ_OK, "an interrupt in a turn");
        } else {
            want(fq_driver_interrupt(&driver, 0) == FQ_GRANTED && fq_driver_step(&driver, &todo) == FQ_OK && todo.what == FQ_TODO_MASK, "a mask");
            act(&todo);
            want(fq_driver_step(&driver, &todo) == FQ_OK, "a step");
        }
        want(todo.what == FQ_TODO_FETCH && todo.mask == by_turns && todo.rearm == FQ_REARM_NO && todo.most == 64 && todo.packets == 0, "a fetch");
        act(&todo);
        cards[0].masked = false, todo.rearm = FQ_REARM_EMPTY;
        want((by_turns ? fq_driver_turn(&driver, 0, &todo) : fq_driver_step(&driver, &todo)) == FQ_OK && todo.what == FQ_TODO_SLEEP, "a sleep");
        const struct fq_run_report run = fq_todo_run(&todo);
        want(run.polls == 1 && run.work == 1 && !run.squeezed && run.size == sizeof run, "the report of its run");
    }
    want(cards[0].taken == 100 && fq_free(&driver.handle) == FQ_OK, "all packets");
}

/* A full fetch may unmask the card too: then it isn't polled again unless it had more packets. */
static void full_fetches_that_rearm(void) {
    struct fq_driver driver = FQ_NONE;
    struct fq_todo todo = FQ_TODO_INIT;
    uint32_t fetches = 0;
    memset(cards, 0, sizeof cards);
    cards[0] = (struct card){true, false, 128, 0, false};
    want(fq_driver_new(&driver, 1, 300, 64, 1024) == FQ_OK && fq_driver_open(&driver, 0) == FQ_OK, "a driver");
    while (turns(&driver, &todo), todo.what != FQ_TODO_SLEEP) {
        act(&todo);
        if (todo.what != FQ_TODO_FETCH) continue;
        want(todo.packets == 64, "a full fetch");
        cards[0].masked = false, fetches++;
        todo.rearm = cards[0].packets > 0 ? FQ_REARM_MORE : FQ_REARM_EMPTY;
    }
    want(fetches == 2 && cards[0].taken == 128 && !cards[0].masked && fq_free(&driver.handle) == FQ_OK, "no empty poll");
}

int main(int argc, char **argv) {
    seed = argc > 1 ? strtoull(argv[1], NULL, 10) : 1;
    without_a_driver();
    first_named();
    mistakes();
    an_ended_run();
    calls_of_a_packet(false);
    calls_of_a_packet(true);
    full_fetches_that_rearm();
    a_deferred_interrupt();
    busy_polling();
    a_moved_device();
    program(turns);
    program(goes_on);
    program(reports_and_asks);
    random_calls(1, 3, 2, 2);
    random_calls(1, 300, 64, 1024);
    random_calls(3, 300, 64, 10);
    random_calls(DEVICES, 300, 64, 10);
    random_calls(DEVICES, 1, 1, 1);
    for (int by_turns = 0; by_turns < 2; by_turns++) {
        random_steps(by_turns != 0, 1, 3, 2, 2);
        random_steps(by_turns != 0, 3, 300, 64, 10);
        random_steps(by_turns != 0, DEVICES, 300, 64, 1024);
    }
    puts("a driver never sleeps with work left");
    return 0;
}
