/* For each call that allocates, makes its first, second .. allocation fail, in one run each. After each failure the call has
 * to return FQ_OUT_OF_MEMORY, or to change nothing if the allocation is retried; what is left is abandoned, and then nothing
 * is on the heap; and the same call succeeds as soon as allocations do. To be linked with --wrap for malloc, realloc and free.
 * It exits with 9 if one of this isn't so. */
#include "any.h"
#include "memory.h"
#include <stdio.h>
#include <stdlib.h>
#include <string.h>

static void want(bool holds, const char *what, long call) {
    if (holds) return;
    fprintf(stderr, "refuse: %s, allocation %ld\n", what, call);
    exit(9);
}

/* What was made, of which nothing may be left. */
enum { HANDLES = 10 };
static union any handles[HANDLES];
static struct fq_list list;
static struct fq_tx tx;
static struct fq_driver driver;

static void give_up(void) {
    for (int i = 0; i < HANDLES; i++) {
        const uint32_t said = fq_abandon(&handles[i].handle);
        want(said == FQ_OK || said == FQ_BAD_HANDLE, "it can't be given up", refused_take);
    }
}

static bool takes_two(struct fq_ring *ring) {
    return fq_ring_put(ring, 1, 60) == FQ_OK && fq_ring_put(ring, 2, 60) == FQ_OK && fq_ring_put(ring, 3, 60) == FQ_FULL;
}

static uint32_t make_ring(void) { return fq_ring_new(&handles[0].ring, 2); }
static bool ring_works(void) { return takes_two(&handles[0].ring); }

static uint32_t make_places(void) { return fq_ring_places(&handles[0].ring, &handles[1].ring, 2); }
static bool places_work(void) {
    size_t first, count;
    return fq_ring_claim(&handles[0].ring, 0, 3, &first, &count) == FQ_OK && count == 2 && fq_ring_claim(&handles[0].ring, 2, 0, &first, &count) == FQ_OK &&
           fq_ring_peek(&handles[1].ring, 0, 3, &first, &count) == FQ_OK && first == 0 && count == 2;
}

static uint32_t make_tx(void) { return fq_tx_new(&handles[0].tx, 2, 0, 1000, 1000, 0); }
static bool tx_works(void) { return fq_tx_send(&handles[0].tx, 60) == FQ_OK && fq_tx_done(&handles[0].tx, 1, 0) == FQ_OK; }

static uint32_t make_list(void) { return fq_list_new(&handles[0].list); }
static bool list_works(void) {
    uint32_t id = 0;
    return fq_list_push(&handles[0].list, 7) == FQ_OK && fq_run_begin(&handles[0].list, 300, 64, 1024) == FQ_OK &&
           fq_run_next(&handles[0].list, &id) == FQ_OK && id == 7;
}

static uint32_t make_driver(void) { return fq_driver_new(&handles[0].driver, 64, 300, 64, 1024); }
static bool driver_works(void) {
    struct fq_todo todo = FQ_TODO_INIT;
    return fq_driver_open(&handles[0].driver, 63) == FQ_OK && fq_driver_next(&handles[0].driver, &todo) == FQ_OK && todo.what == FQ_TODO_UNMASK &&
           todo.device == 63;
}

/* Its ring too, so that each of them fails. If memory is out, the ring is unchanged, with its packets, and nothing else is
 * set. */
static uint32_t make_shared(void) {
    struct fq_packet out[2];
    size_t count = 0;
    uint32_t said = fq_ring_new(&handles[0].ring, 3);
    if (said != FQ_OK) return said;
    want(fq_ring_put(&handles[0].ring, 7, 60) == FQ_OK, "a put", refused_take);
    said = fq_shared_new(&handles[0].ring, &handles[1].control, &handles[2].caller, 8);
    if (said != FQ_OUT_OF_MEMORY) return said;
    want(fq_ring_poll(&handles[0].ring, 2, out, 2, &count) == FQ_OK && count == 1 && out[0].number == 7, "a ring that is whole", refused_take);
    for (int i = 1; i < HANDLES; i++) want(!handles[i].handle.private_set, "a handle that isn't set", refused_take);
    return said;
}
static bool shared_works(void) {
    return takes_two(&handles[0].ring) && fq_control_enable(&handles[1].control, false) == FQ_OK && fq_caller_schedule(&handles[9].caller) == FQ_GRANTED;
}

static uint32_t make_bare(void) { return fq_shared_bare(&handles[1].control, &handles[2].caller, 8); }
static bool bare_works(void) { return fq_control_enable(&handles[1].control, false) == FQ_OK && fq_caller_schedule(&handles[9].caller) == FQ_GRANTED; }

static uint32_t make_split(void) {
    const uint32_t said = fq_ring_new(&handles[0].ring, 2);
    if (said != FQ_OK) return said;
    const uint32_t split = fq_ring_split(&handles[0].ring, &handles[1].ring);
    struct fq_totals totals;
    /* if memory is out, the ring is unchanged */
    if (split == FQ_OUT_OF_MEMORY) want(fq_ring_finish(&handles[0].ring, &totals) == FQ_OK, "a ring that wasn't split", refused_take);
    return split;
}
static bool split_works(void) {
    struct fq_packet out[2];
    size_t count = 0;
    return takes_two(&handles[0].ring) && fq_ring_poll(&handles[1].ring, 2, out, 2, &count) == FQ_OK && count == 2;
}

/* All calls but those that the header names: none allocates or frees. */
static void take_none(void) {
    struct fq_packet packets[2] = {{1, 60}, {2, 60}};
    struct fq_counts counts;
    struct fq_run_report report;
    struct fq_tx_shown state;
    uint32_t next, id;
    uint64_t word;
    size_t count;
    want(make_shared() == FQ_OK && fq_list_new(&list) == FQ_OK && fq_tx_new(&tx, 2, 0, 1000, 1000, 0) == FQ_OK, "no memory", 0);
    want(fq_driver_new(&driver, 64, 300, 64, 1024) == FQ_OK, "no memory", 0);
    const long before = blocks;
    struct fq_caller *const irq = &handles[2].caller, *const poller = &handles[3].caller;
    takes = 0;
    bool good = fq_control_enable(&handles[1].control, false) == FQ_OK && fq_ring_put(&handles[0].ring, 0, 60) == FQ_OK;
    good = good && fq_ring_put_all(&handles[0].ring, packets, 2, &count) == FQ_FULL && fq_caller_interrupt(irq, FQ_LIST) == FQ_GRANTED;
    good = good && fq_caller_take(poller, FQ_LIST) == FQ_TAKEN && fq_caller_poll(poller, 2, packets, 2, &count) == FQ_OK;
    good = good && fq_count(&poller->handle, &counts) == FQ_OK && fq_caller_look(poller, &word) == FQ_OK && fq_caller_end(poller, true, &next) == FQ_OK;
    good = good && fq_caller_take(poller, FQ_LIST) == FQ_TAKEN && fq_caller_end(poller, false, &next) == FQ_OK;
    good = good && fq_caller_busy_take(poller) == FQ_TAKEN && fq_caller_complete(poller) == FQ_HELD && fq_caller_busy_stop(poller) == FQ_OK;
    good = good && fq_caller_complete(poller) == FQ_RELEASED && fq_caller_set_threaded(poller, true) == FQ_OK;
    good = good && fq_caller_schedule_prep(irq) == FQ_GRANTED && fq_caller_hand_again(irq, &next) == FQ_OK && next == FQ_NEXT_AGAIN_THREAD;
    good = good && fq_caller_take(poller, FQ_THREAD) == FQ_TAKEN && fq_caller_complete_done(poller) == FQ_RELEASED;
    good = good && fq_control_mark(&handles[1].control) == FQ_OK && fq_control_try_take(&handles[1].control) == FQ_TAKEN;
    good = good && fq_control_step(&handles[1].control, true, false) == FQ_OK && fq_control_step(&handles[1].control, false, false) == FQ_OK;
    for (uint32_t i = 0; i < 64; i++) good = good && fq_list_push(&list, i) == FQ_OK;
    good = good && fq_list_remove(&list, 7) == FQ_OK && fq_list_push(&list, 7) == FQ_OK;
    good = good && fq_run_begin(&list, 300, 64, 1024) == FQ_OK;
    while (good && fq_run_next(&list, &id) == FQ_OK) good = fq_run_polled(&list, 64, FQ_NEXT_REPOLL) == FQ_OK;
    good = fq_run_end(&list, &report) == FQ_OK && good;
    struct fq_tx_watchdog watchdog = {false, 0, 0};
    bool stuck;
    good = good && fq_tx_send(&tx, 60) == FQ_OK && fq_tx_done(&tx, 1, 1) == FQ_OK && fq_tx_state(&tx, &state) == FQ_OK;
    good = good && fq_tx_watch(&tx, &watchdog, 0, 2, &stuck) == FQ_OK && !stuck;
    struct fq_todo todo = FQ_TODO_INIT;
    struct fq_device_shown shown;
    for (uint32_t i = 0; i < 64; i++) good = good && fq_driver_open(&driver, i) == FQ_OK;
    for (int i = 0; good && i < 5000; i++) {
        good = fq_driver_next(&driver, &todo) == FQ_OK && fq_driver_show(&driver, todo.device, &shown) == FQ_OK;
        todo.packets = todo.what == FQ_TODO_LOOK;
        good = good && (i % 3 > 0 || fq_driver_interrupt(&driver, todo.device) != FQ_BAD_DEVICE);
        good = good && (i % 2 ? fq_driver_done(&driver, &todo) : fq_driver_step(&driver, &todo)) < FQ_NOT_ALLOWED;
        if (i == 2000) good = good && fq_driver_stop(&driver, 63) == FQ_OK;
    }
    want(good, "a call that takes no memory", 0);
    want(takes == 0 && blocks == before, "a call takes memory, or gives it", takes);
    struct fq_ring out = FQ_NONE;
    want(fq_ring_split(&handles[2].ring, &out) == FQ_BAD_HANDLE && takes == 0 && blocks == before, "a split of a caller", takes);
    struct fq_ring in = FQ_NONE;
    size_t first;
    want(fq_ring_places(&in, &out, 2) == FQ_OK, "no memory", 0);
    const long with_places = blocks, taken = takes;
    good = fq_ring_claim(&in, 0, 2, &first, &count) == FQ_OK && fq_ring_claim(&in, 2, 2, &first, &count) == FQ_OK && count == 0;
    good = good && fq_ring_peek(&out, 0, 2, &first, &count) == FQ_OK && fq_ring_peek(&out, 2, 2, &first, &count) == FQ_OK && count == 0;
    want(good && takes == taken && blocks == with_places, "claims and peeks", takes);
    want(fq_free(&in.handle) == FQ_OK && fq_free(&out.handle) == FQ_OK, "the ends of places", 0);
    want(fq_abandon(&list.handle) == FQ_OK && fq_abandon(&tx.handle) == FQ_OK && fq_free(&driver.handle) == FQ_OK, "the end", 0);
    give_up();
    want(blocks == 0, "something is left on the heap", 0);
}

static const char trace[] = "moment,device,event,value\n0,1,open,4\n0,2,open,4\n1,1,rx,100\n1,2,rx,60\n2,0,softirq,0\n3,1,tx,9\n";
enum { ROOM = 4096, GUARD = 0xA5 };
static uint8_t report[ROOM], wanted[ROOM];
static struct fq_replayed replayed;

static uint32_t make_replay(void) {
    const struct fq_settings settings = FQ_DEFAULT_SETTINGS;
    memset(report, GUARD, ROOM);
    const uint32_t said = fq_replay(&settings, (const uint8_t *)trace, sizeof trace - 1, report, ROOM, &replayed);
    for (size_t i = said == FQ_OK ? replayed.length : 0; i < ROOM; i++)
        want(report[i] == GUARD, "a byte that isn't the report's was written", refused_take);
    return said;
}
static bool replay_works(void) { return memcmp(report, wanted, ROOM) == 0; }

static const char arrivals[] = "ns,device,bytes\n0,1,60\n10,2,60\n10,1,1500\n900000,65,60\n";
static uint8_t wanted_of_machine[ROOM];

static uint32_t make_machine(void) {
    struct fq_machine_settings settings;
    struct fq_machine_ran ran;
    want(fq_machine_default(&settings) == FQ_OK, "the default settings", refused_take);
    settings.processors = 2, settings.threaded = 1, settings.apart = 1;
    memset(report, GUARD, ROOM);
    const uint32_t said = fq_machine(&settings, (const uint8_t *)arrivals, sizeof arrivals - 1, report, ROOM, &ran);
    for (size_t i = said == FQ_OK ? ran.length : 0; i < ROOM; i++)
        want(report[i] == GUARD, "a byte that isn't the machine's report was written", refused_take);
    return said;
}
static bool machine_works(void) { return memcmp(report, wanted_of_machine, ROOM) == 0; }

/* With a trace that gets 50 runs: each takes a packet, and the last one is for the request that was missed. */
static const char *const raised_head = "moment,device,event,value\n0,1,open,64\n", *const raised_row = "1,1,rx,60\n", *const raised_run = "2,0,softirq,0\n";
static size_t raised_length;

static uint32_t make_raised(void) {
    const struct fq_settings settings = {sizeof settings, 1, 1, 1024};
    struct fq_replayed raised;
    char text[1024];
    int len = snprintf(text, sizeof text, "%s", raised_head);
    for (int i = 0; i < 50; i++) len += snprintf(text + len, sizeof text - (size_t)len, "%s", raised_row);
    len += snprintf(text + len, sizeof text - (size_t)len, "%s", raised_run);
    const uint32_t said = fq_raise(&settings, FQ_UNTIL_EMPTY, (const uint8_t *)text, (size_t)len, report, ROOM, &raised);
    raised_length = raised.length;
    return said;
}
static bool raised_works(void) { return raised_length == strlen(raised_head) + 50 * strlen(raised_row) + 51 * strlen(raised_run); }

/* Returns how many allocations the call makes, after it made each of them fail. */
static long refuse_each(const char *what, uint32_t (*make)(void), bool (*works)(void)) {
    for (long call = 1;; call++) {
        takes = 0;
        refused_take = call;
        const uint32_t said = make();
        const bool was_refused = takes >= call;
        refused_take = 0;
        want(said == FQ_OK || (was_refused && said == FQ_OUT_OF_MEMORY), what, call);
        if (said == FQ_OK) want(works(), what, call);
        give_up();
        want(blocks == 0, "something is left on the heap", call);
        if (!was_refused) return call - 1;
        want(make() == FQ_OK && works(), what, call);
        give_up();
        want(blocks == 0, "something is left on the heap then", call);
    }
}

int main(void) {
    want(make_replay() == FQ_OK, "there is no report", 0);
    memcpy(wanted, report, ROOM);
    want(make_machine() == FQ_OK, "there is no report of the machine", 0);
    memcpy(wanted_of_machine, report, ROOM);
    want(refuse_each("a ring", make_ring, ring_works) > 0, "a ring takes no memory", 0);
    want(refuse_each("a transmit ring", make_tx, tx_works) > 0, "a transmit ring takes no memory", 0);
    want(refuse_each("a list", make_list, list_works) > 0, "a list takes no memory", 0);
    want(refuse_each("a driver", make_driver, driver_works) > 3, "a driver takes no memory", 0);
    want(refuse_each("a shared instance", make_shared, shared_works) > 8, "a shared instance takes no memory", 0);
    want(refuse_each("a replay", make_replay, replay_works) > 0, "a replay takes no memory", 0);
    want(refuse_each("the machine", make_machine, machine_works) > 5, "the machine takes no memory", 0);
    want(refuse_each("a raised trace", make_raised, raised_works) > 15, "a raised trace takes no memory", 0);
    want(refuse_each("a bare instance", make_bare, bare_works) > 8, "a bare instance takes no memory", 0);
    want(refuse_each("a split", make_split, split_works) > 1, "a split takes no memory", 0);
    want(refuse_each("a ring of places", make_places, places_work) > 2, "a ring of places takes no memory", 0);
    take_none();
    puts("each allocation was refused, and told");
    return 0;
}
