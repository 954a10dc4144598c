/* corners [NAME]: results in corner cases, each case by hand, with calls and structs of the headers only. If one is wrong it
 * prints which, and exits with 9. To be linked with --wrap for malloc, realloc and free. */
#include "any.h"
#include "memory.h"
#include <stdio.h>
#include <stdlib.h>
#include <string.h>

static void want(bool holds, const char *what) {
    if (holds) return;
    fprintf(stderr, "corners: %s\n", what);
    exit(9);
}

/* An instance that is enabled, with an interrupt's caller and a poller's. */
static struct fq_control control;
static struct fq_caller callers[2];
static struct fq_caller *const irq = &callers[0], *const poller = &callers[1];

static void enabled(bool threaded) {
    want(fq_shared_bare(&control, callers, 2) == FQ_OK && fq_control_enable(&control, threaded) == FQ_OK, "it is enabled");
}

static void given_up(void) {
    want(fq_abandon(&control.handle) == FQ_OK && fq_abandon(&irq->handle) == FQ_OK && fq_abandon(&poller->handle) == FQ_OK && blocks == 0, "nothing is left");
}

/* A caller that took the instance as its thread, and polled its whole weight, polls again: otherwise no list would have the
 * instance. */
static void a_full_poll_of_a_thread(void) {
    uint32_t next = 99;
    enabled(true);
    want(fq_caller_interrupt(irq, FQ_THREAD) == FQ_GRANTED && fq_caller_take(poller, FQ_THREAD) == FQ_TAKEN, "its thread takes it");
    want(fq_caller_end(poller, true, &next) == FQ_HELD && next == FQ_NEXT_GONE, "a full poll stays with the thread");
    want(fq_caller_interrupt(irq, FQ_THREAD) == FQ_MISSED, "a request meanwhile is missed");
    want(fq_caller_end(poller, false, &next) == FQ_OK && next == FQ_NEXT_AGAIN_THREAD, "so one more poll follows");
    want(fq_caller_take(poller, FQ_THREAD) == FQ_TAKEN && fq_caller_end(poller, false, &next) == FQ_OK && next == FQ_NEXT_GONE, "which ends it");
    want(fq_caller_interrupt(irq, FQ_THREAD) == FQ_GRANTED && fq_caller_take(poller, FQ_THREAD) == FQ_TAKEN, "the next interrupt is granted");
    given_up();
}

/* A busy poller keeps polling, full or not; and how a poll ended is set on each path. */
static void a_full_poll_of_a_busy_poller(void) {
    uint32_t next = 99;
    enabled(false);
    want(fq_caller_end(poller, true, &next) == FQ_NOT_ALLOWED && next == FQ_NEXT_GONE, "a caller at rest ends no poll");
    want(fq_caller_busy_take(poller) == FQ_TAKEN, "it is busy polled");
    for (int full = 0; full < 2; full++) {
        next = 99;
        want(fq_caller_end(poller, full, &next) == FQ_HELD && next == FQ_NEXT_GONE, "a busy poller polls on");
    }
    given_up();
}

/* A byte above 1 means 1, and a place above 5 means 5, in each call. */
static void bytes_of_an_instance(void) {
    for (size_t at = 0; at < 8; at++) {
        for (unsigned byte = at < 7 ? 2 : 6; byte < 256; byte++) {
            struct fq_napi one = fq_napi_new(7), other;
            want(fq_napi_enable(&one, 7, false) == FQ_OK, "it is enabled");
            memcpy(&other, &one, sizeof one);
            ((unsigned char *)&one)[at] = at < 7 ? 1 : 5;
            ((unsigned char *)&other)[at] = (unsigned char)byte;
            want(fq_napi_word(&one) == fq_napi_word(&other), "a word");
            want(fq_napi_schedule(&one, 1) == fq_napi_schedule(&other, 1), "a schedule");
            want(fq_napi_busy_take(&one, 1) == fq_napi_busy_take(&other, 1), "a busy take");
            want(fq_napi_mark_disable(&one, 7) == fq_napi_mark_disable(&other, 7), "a mark");
            want(fq_napi_take_disable(&one, 7) == fq_napi_take_disable(&other, 7), "a take to disable");
            want(fq_napi_word(&one) == fq_napi_word(&other), "the word then");
        }
    }
}

/* After bounds that are rejected a struct of zeros is a limit of 0. */
static void a_limit_out_of_bounds(void) {
    struct fq_dql dql = {0};
    want(fq_dql_init(&dql, 5, 4, 0, 0) == FQ_BAD_BOUNDS && fq_dql_limit(&dql) == 0 && fq_dql_avail(&dql) == 0, "min above max");
    want(fq_dql_queued(&dql, 1) == FQ_OK && fq_dql_avail(&dql) == -1 && fq_dql_completed(&dql, 1, 9) == FQ_OK && fq_dql_limit(&dql) == 0, "it goes on");
    want(fq_dql_init(&dql, 0, 1879048193, 0, 0) == FQ_BAD_BOUNDS && fq_dql_limit(&dql) == 0, "max above the greatest");
}

/* A polled instance goes to the list again, and not to its thread. */
static void a_polled_instance_is_handed(void) {
    struct fq_napi napi = fq_napi_new(7);
    want(fq_napi_enable(&napi, 7, false) == FQ_OK && fq_napi_schedule(&napi, 1) == FQ_GRANTED && fq_napi_hand(&napi, 1, FQ_LIST) == FQ_OK, "it lies on the list");
    want(fq_napi_take(&napi, 2, FQ_LIST) == FQ_TAKEN && fq_napi_hand(&napi, 2, FQ_THREAD) == FQ_NOT_ALLOWED, "not to its thread");
    want(fq_napi_hand(&napi, 2, FQ_LIST) == FQ_OK && fq_napi_take(&napi, 2, FQ_LIST) == FQ_TAKEN, "to the list");
}

/* The number that is being polled counts among the 64, and returns after the others at the end of its poll. */
static void a_list_of_64(void) {
    struct fq_list list = FQ_NONE;
    uint32_t id = 99, len = 99;
    want(fq_list_new(&list) == FQ_OK, "a list");
    for (uint32_t i = 0; i < 64; i++) want(fq_list_push(&list, i) == FQ_OK, "a push");
    want(fq_run_begin(&list, 300, 64, 1024) == FQ_OK && fq_run_next(&list, &id) == FQ_OK && id == 0, "a run");
    want(fq_list_push(&list, 0) == FQ_FULL && fq_list_len(&list, &len) == FQ_OK && len == 64, "the list is full");
    want(fq_run_polled(&list, 0, FQ_NEXT_AGAIN) == FQ_OK && fq_list_len(&list, &len) == FQ_OK && len == 64, "it is listed again");
    for (uint32_t i = 1; i < 65; i++) want(fq_run_next(&list, &id) == FQ_OK && id == i % 64 && fq_run_polled(&list, 0, FQ_NEXT_GONE) == FQ_OK, "all in turn");
    want(fq_run_next(&list, &id) == FQ_DONE && fq_abandon(&list.handle) == FQ_OK && blocks == 0, "the end");
}

/* A device that goes away leaves the list, and the others keep their order. What only the run has can't leave. */
static void a_device_leaves_a_list(void) {
    struct fq_list list = FQ_NONE;
    struct fq_run_report report;
    uint32_t id = 99, len = 99;
    want(fq_list_remove(&list, 1) == FQ_BAD_HANDLE && fq_list_new(&list) == FQ_OK && fq_list_remove(&list, 1) == FQ_NOT_THERE, "an empty list");
    for (uint32_t i = 1; i < 6; i++) want(fq_list_push(&list, i) == FQ_OK, "a push");
    want(fq_list_remove(&list, 2) == FQ_OK && fq_list_remove(&list, 2) == FQ_NOT_THERE && fq_list_len(&list, &len) == FQ_OK && len == 4, "2 leaves, once");
    want(fq_run_begin(&list, 300, 64, 1024) == FQ_OK && fq_run_next(&list, &id) == FQ_OK && id == 1, "1 is polled");
    want(fq_list_remove(&list, 1) == FQ_BUSY && fq_list_remove(&list, 3) == FQ_BUSY, "the run has 1 and 3");
    want(fq_list_push(&list, 1) == FQ_OK && fq_list_remove(&list, 1) == FQ_OK, "a push while it is polled is on the list");
    want(fq_run_polled(&list, 64, FQ_NEXT_REPOLL) == FQ_OK && fq_list_remove(&list, 1) == FQ_BUSY, "the run lists 1 at its end");
    want(fq_run_end(&list, &report) == FQ_OK && fq_list_remove(&list, 4) == FQ_OK && fq_list_remove(&list, 1) == FQ_OK, "4 and 1 leave");
    want(fq_run_begin(&list, 300, 64, 1024) == FQ_OK, "a run");
    for (uint32_t i = 3; i < 6; i += 2) want(fq_run_next(&list, &id) == FQ_OK && id == i && fq_run_polled(&list, 0, FQ_NEXT_GONE) == FQ_OK, "3, then 5");
    want(fq_run_next(&list, &id) == FQ_DONE && fq_abandon(&list.handle) == FQ_OK && blocks == 0, "the end");
}

/* Devices with their own weights, below the run's, are polled as by net_rx_action, which asks again for a device with a full
 * poll. */
static void weights_of_devices(void) {
    static const uint32_t weights[3] = {8, 16, 64}, polls[] = {0, 1, 2, 0, 1, 2, 0, 1};
    uint32_t left[3] = {20, 40, 100}, id = 99;
    struct fq_list list = FQ_NONE;
    struct fq_run_report report;
    size_t made = 0;
    want(fq_list_new(&list) == FQ_OK, "a list");
    for (uint32_t i = 0; i < 3; i++) want(fq_list_push(&list, i) == FQ_OK, "a push");
    for (;;) {
        want(fq_run_begin(&list, 300, 64, 1024) == FQ_OK, "a run");
        while (fq_run_next(&list, &id) == FQ_OK) {
            const uint32_t work = left[id] < weights[id] ? left[id] : weights[id];
            want(made < sizeof polls / sizeof polls[0] && polls[made] == id, "who is polled");
            left[id] -= work, made++;
            want(fq_run_polled(&list, work, work == weights[id] ? FQ_NEXT_REPOLL : FQ_NEXT_GONE) == FQ_OK, "a poll");
        }
        want(fq_run_end(&list, &report) == FQ_OK, "the run's end");
        if (report.polls == 0) break;
    }
    want(made == 8 && left[0] + left[1] + left[2] == 0 && fq_abandon(&list.handle) == FQ_OK && blocks == 0, "all is polled");
}

/* A split checks its handle before it allocates, which may fail. */
static void a_split_of_what_is_no_ring(void) {
    union any list = {{false, NULL}};
    struct fq_ring out = FQ_NONE;
    want(fq_list_new(&list.list) == FQ_OK, "a list");
    takes = 0, refused_take = 1;
    want(fq_ring_split(&list.ring, &out) == FQ_BAD_HANDLE && takes == 0, "it is no ring");
    refused_take = 0;
    want(fq_abandon(&list.handle) == FQ_OK && blocks == 0, "the end");
}

/* If an instance over a ring can't be made, whichever allocation fails, the ring is unchanged, and nothing else is set. */
static void a_ring_whose_instance_is_refused(void) {
    uint32_t said = FQ_OUT_OF_MEMORY;
    for (long at = 1; said == FQ_OUT_OF_MEMORY; at++) {
        struct fq_ring ring = FQ_NONE;
        struct fq_packet out[4];
        size_t count;
        want(fq_ring_new(&ring, 4) == FQ_OK && fq_ring_put(&ring, 5, 60) == FQ_OK, "a ring");
        takes = 0, refused_take = at;
        said = fq_shared_new(&ring, &control, callers, 2);
        refused_take = 0;
        if (said == FQ_OUT_OF_MEMORY) {
            want(!control.handle.private_set && !irq->handle.private_set && !poller->handle.private_set, "nothing is set");
            want(fq_ring_poll(&ring, 4, out, 4, &count) == FQ_OK && count == 1 && out[0].number == 5, "it is polled");
        }
        want(fq_abandon(&ring.handle) == FQ_OK, "the ring's end");
    }
    want(said == FQ_OK, "with memory it is made");
    given_up();
}

/* On one thread fq_napi_end does what the single calls do, from each state, whether or not the caller polls; and a full poll is completed
 * if a disable is pending. */
static enum fq_status by_single_calls(struct fq_napi *napi, uint32_t who, bool full, uint32_t *next) {
    const uint64_t word = fq_napi_word(napi);
    struct fq_napi tried = *napi;
    const enum fq_status said = fq_napi_complete(&tried, who);
    *next = FQ_NEXT_GONE;
    if (said == FQ_NOT_ALLOWED) return said;
    if (full && !(word & (FQ_BIT_DISABLE | FQ_BIT_IN_BUSY_POLL))) {
        if (word & FQ_BIT_SCHED_THREADED) return FQ_HELD;
        *next = FQ_NEXT_REPOLL;
        return fq_napi_hand(napi, who, FQ_LIST);
    }
    *napi = tried;
    if (said != FQ_AGAIN) return said == FQ_RELEASED ? FQ_OK : said;
    *next = word & FQ_BIT_THREADED ? FQ_NEXT_AGAIN_THREAD : FQ_NEXT_AGAIN;
    return fq_napi_hand(napi, who, word & FQ_BIT_THREADED ? FQ_THREAD : FQ_LIST);
}

static void ends_of_polls_on_one_thread(void) {
    for (unsigned bits = 0; bits < 128; bits++) {
        for (unsigned i = 0; i < 6 * 2 * 2; i++) {
            struct fq_napi one = fq_napi_new(7), other;
            unsigned char *bytes = (unsigned char *)&one;
            uint32_t next = 99, wanted = 99;
            for (unsigned at = 0; at < 7; at++) bytes[at] = bits >> at & 1;
            one.place = (uint8_t)(i % 6);
            one.owner = 1 + i / 6 % 2;
            other = one;
            want(fq_napi_end(&one, 1, i / 12, &next) == by_single_calls(&other, 1, i / 12, &wanted) && next == wanted, "the end of a poll");
            want(memcmp(&one, &other, sizeof one) == 0, "the instance then");
        }
    }
}

/* Under load a disable ends after one poll, as in the kernel. A poller that requeues without checking FQ_BIT_DISABLE never lets it end. */
static void a_full_poll_under_a_disable(void) {
    struct fq_napi napi = fq_napi_new(2);
    uint32_t next = 99, polls = 0;
    want(fq_napi_enable(&napi, 2, false) == FQ_OK && fq_napi_schedule(&napi, 0) == FQ_GRANTED && fq_napi_hand(&napi, 0, FQ_LIST) == FQ_OK, "it is listed");
    want(fq_napi_mark_disable(&napi, 2) == FQ_OK, "a disable is pending");
    while (fq_napi_take_disable(&napi, 2) == FQ_BUSY && polls < 1000) {
        want(fq_napi_take(&napi, 1, FQ_LIST) == FQ_TAKEN && fq_napi_end(&napi, 1, true, &next) == FQ_OK && next == FQ_NEXT_GONE, "a full poll is completed");
        polls++;
    }
    want(polls == 1 && fq_napi_unmark(&napi, 2) == FQ_OK, "and the disable ends");
}

/* A request while an instance is off is missed; its open requests a poll once, and the instance is queued as the state word says. */
static unsigned masks;
static void mask(void *at) { masks++, (void)at; }
static const struct fq_card card = {NULL, mask, NULL, NULL, NULL};

static void an_open_asks_once(void) {
    for (int threaded = 0; threaded < 2; threaded++) {
        uint32_t next = 99;
        masks = 0;
        want(fq_shared_bare(&control, callers, 2) == FQ_OK && fq_caller_request(irq, &card, &next) == FQ_MISSED && next == FQ_NEXT_GONE && masks == 0, "off");
        want(fq_control_open(&control, threaded, poller, &card, &next) == FQ_GRANTED && masks == 1, "it is asked for");
        want(next == (threaded ? FQ_NEXT_AGAIN_THREAD : FQ_NEXT_AGAIN), "where it was handed");
        for (int polls = 0; polls < 2; polls++) {
            want(fq_caller_take(poller, threaded ? FQ_THREAD : FQ_LIST) == FQ_TAKEN && fq_caller_end(poller, false, &next) == FQ_OK, "it is polled");
            want((next == FQ_NEXT_GONE) == (polls == 1), "once more, for the request that was missed");
        }
        want(fq_control_open(&control, threaded, poller, &card, &next) == FQ_NOT_ALLOWED && next == FQ_NEXT_GONE && masks == 1, "it is on already");
        want(fq_control_step(&control, false, false) == FQ_OK, "it is off again");
        given_up();
    }
}

/* An open by another instance's caller enables nothing. */
static void an_open_knows_its_callers(void) {
    struct fq_control other = FQ_NONE;
    struct fq_caller others[2] = {FQ_NONE, FQ_NONE};
    uint32_t next = 99;
    masks = 0;
    want(fq_shared_bare(&control, callers, 2) == FQ_OK && fq_shared_bare(&other, others, 2) == FQ_OK, "two instances");
    want(fq_control_has(&control, poller) == FQ_OK && fq_control_has(&control, irq) == FQ_OK && fq_control_has(&other, &others[1]) == FQ_OK, "its callers");
    want(fq_control_has(&other, irq) == FQ_BAD_HANDLE && fq_control_has(&control, &others[0]) == FQ_BAD_HANDLE, "others");
    want(fq_control_open(&control, false, &others[0], &card, &next) == FQ_BAD_HANDLE && next == FQ_NEXT_GONE && masks == 0, "another instance's caller");
    want(fq_control_open(&control, false, poller, &card, &next) == FQ_GRANTED && fq_control_open(&other, false, &others[0], &card, &next) == FQ_GRANTED, "its own");
    want(fq_abandon(&others[0].handle) == FQ_OK && fq_abandon(&others[1].handle) == FQ_OK && fq_abandon(&other.handle) == FQ_OK, "the end");
    given_up();
}

/* fq_caller_end_watched and fq_caller_request read the kind from the state word: they queue for a thread that was set meanwhile, and report it. */
static void unmask(void *at) { (void)at; }
static bool look(void *at) { return (void)at, true; }
static const struct fq_card watched = {NULL, mask, unmask, look, NULL};

static void handed_to_a_thread_that_was_set_meanwhile(void) {
    uint32_t next = 99;
    enabled(false);
    want(fq_caller_request(irq, &watched, &next) == FQ_GRANTED && next == FQ_NEXT_AGAIN && fq_caller_take(poller, FQ_LIST) == FQ_TAKEN, "on the list");
    want(fq_caller_set_threaded(irq, true) == FQ_OK, "threaded meanwhile");
    want(fq_caller_end_watched(poller, false, &watched, &next) == FQ_OK && next == FQ_NEXT_AGAIN_THREAD, "the thread is to be woken");
    want(fq_caller_request(irq, &watched, &next) == FQ_MISSED && next == FQ_NEXT_GONE, "a request is missed");
    want(fq_caller_take(poller, FQ_THREAD) == FQ_TAKEN && fq_caller_end(poller, false, &next) == FQ_OK && next == FQ_NEXT_AGAIN_THREAD, "again");
    want(fq_caller_take(poller, FQ_THREAD) == FQ_TAKEN && fq_caller_end(poller, false, &next) == FQ_OK && next == FQ_NEXT_GONE, "and over");
    want(fq_caller_request(irq, &watched, &next) == FQ_GRANTED && next == FQ_NEXT_AGAIN_THREAD, "by a request too");
    want(fq_caller_request(poller, &watched, &next) == FQ_MISSED, "once");
    given_up();
}

/* A ring is stuck from the first check on if the limit is 0, and for as long as nothing is completed, also if the clock goes back. */
static void a_stopped_ring_is_watched(void) {
    struct fq_tx tx = FQ_NONE;
    struct fq_tx_watchdog watchdog = {false, 0, 0};
    bool stuck = true;
    want(fq_tx_watch(&tx, &watchdog, 0, 7, &stuck) == FQ_BAD_HANDLE && !stuck && watchdog.private_since == 0, "no ring");
    want(fq_tx_new(&tx, 1, 0, 1, 1000, 0) == FQ_OK && fq_tx_watch(&tx, &watchdog, 0, UINT64_MAX, &stuck) == FQ_OK && !stuck, "it isn't stopped");
    want(fq_tx_send(&tx, 60) == FQ_OK && fq_tx_watch(&tx, &watchdog, 0, 5, &stuck) == FQ_OK && stuck, "stopped for 0 ms");
    want(fq_tx_watch(&tx, &watchdog, UINT64_MAX - 5, UINT64_MAX - 1, &stuck) == FQ_OK && !stuck, "a ms too few");
    want(fq_tx_watch(&tx, &watchdog, UINT64_MAX - 5, UINT64_MAX, &stuck) == FQ_OK && stuck, "as long as a clock counts");
    want(fq_tx_watch(&tx, &watchdog, 1, 4, &stuck) == FQ_OK && !stuck && fq_tx_watch(&tx, &watchdog, 1, 6, &stuck) == FQ_OK && stuck, "a clock that goes back");
    want(fq_tx_done(&tx, 1, 9) == FQ_OK && fq_tx_watch(&tx, &watchdog, 0, UINT64_MAX, &stuck) == FQ_OK && !stuck, "it is started");
    want(fq_free(&tx.handle) == FQ_OK && blocks == 0, "the end");
}

/* If several errors apply, a replay returns the one that the header names first. */
static void refusals_of_a_replay(void) {
    static const char good[] = "moment,device,event,value\n0,1,open,4\n";
    static const uint8_t bad[] = "?";
    uint8_t report[1];
    struct fq_replayed told;
    struct fq_settings settings = {sizeof settings, 0, 0, 0};
    want(fq_replay(&settings, bad, 1, report, 0, &told) == FQ_BAD_WEIGHT, "a weight is looked at first");
    settings.weight = 64;
    want(fq_replay(&settings, bad, 1, report, 0, &told) == FQ_BAD_BUDGET, "then budget and window");
    settings.budget = 300, settings.window = 1024;
    want(fq_replay(&settings, bad, 1, report, 0, &told) == FQ_BAD_TRACE && told.fault == 1, "then the trace");
    want(fq_replay(&settings, (const uint8_t *)good, sizeof good - 1, report, 0, &told) == FQ_NO_ROOM && told.length > 0, "then the room");
}

/* With one packet per run, three runs take a packet each. Each poll was full and a request was missed, so a fourth run polls without a
 * packet. The row at 3 ms finds the list empty, and stays. `restarts` limits what is added. */
static void runs_that_the_kernel_would_add(void) {
#define ROWS "moment,device,event,value\n0,1,open,8\n1,1,rx,60\n1,1,rx,60\n1,1,rx,60\n"
#define RUN "2,0,softirq,0\n"
#define LAST "3,0,softirq,0\n"
    static const char given[] = ROWS RUN LAST;
    static const struct {
        uint32_t restarts;
        const char *wanted;
    } rows[] = {{FQ_UNTIL_EMPTY, ROWS RUN RUN RUN RUN LAST}, {0, given}, {1, ROWS RUN RUN LAST LAST}, {3, ROWS RUN RUN RUN RUN LAST}};
    struct fq_settings settings = {sizeof settings, 1, 1, 1024};
    struct fq_replayed told;
    uint8_t out[512];
    for (size_t i = 0; i < sizeof rows / sizeof rows[0]; i++) {
        want(fq_raise(&settings, rows[i].restarts, (const uint8_t *)given, sizeof given - 1, out, sizeof out, &told) == FQ_OK, "runs are added");
        want(told.length == strlen(rows[i].wanted) && memcmp(out, rows[i].wanted, told.length) == 0, "after the runs that leave the list filled");
    }
    settings.weight = 65;
    want(fq_raise(&settings, 0, (const uint8_t *)"?", 1, out, 0, &told) == FQ_BAD_WEIGHT && told.fault == 0, "a weight of 65");
    settings.weight = 1;
    want(fq_raise(&settings, 0, (const uint8_t *)"?", 1, out, 0, &told) == FQ_BAD_TRACE && told.fault == 1, "no trace");
    want(blocks == 0, "nothing is left");
}

/* For a count of 0 the pointer of an array may be null, in each call that has one. */
static void arrays_of_nothing(void) {
    const struct fq_settings settings = FQ_DEFAULT_SETTINGS;
    struct fq_machine_settings machine;
    struct fq_machine_ran ran;
    struct fq_replayed replayed;
    struct fq_ring ring = FQ_NONE;
    size_t count = 9;
    want(fq_version(NULL, 0) == strlen(FQ_VERSION) && fq_status_text(FQ_OK, NULL, 0) == 5, "texts");
    want(fq_status_message(FQ_OK, NULL, 0) == 4 && fq_fault_text(1, NULL, 0) == 9, "a message, a fault");
    want(fq_ring_new(&ring, 1) == FQ_OK && fq_ring_put_all(&ring, NULL, 0, &count) == FQ_OK && count == 0, "a burst");
    want(fq_ring_poll(&ring, 1, NULL, 0, &count) == FQ_NO_ROOM && fq_caller_poll(poller, 1, NULL, 0, &count) == FQ_NO_ROOM, "polls");
    want(fq_shared_new(&ring, &control, NULL, 0) == FQ_BAD_COUNT && fq_shared_bare(&control, NULL, 0) == FQ_BAD_COUNT, "callers");
    want(fq_abandon(&ring.handle) == FQ_OK, "the ring's end");
    want(fq_replay(&settings, NULL, 0, NULL, 0, &replayed) == FQ_BAD_TRACE && replayed.fault == FQ_FAULT_BAD_HEADER, "a replay");
    want(fq_raise(&settings, 9, NULL, 0, NULL, 0, &replayed) == FQ_BAD_TRACE && replayed.fault == FQ_FAULT_BAD_HEADER, "a raise");
    static const uint8_t trace[] = "moment,device,event,value\n", arrivals[] = "ns,device,bytes\n";
    want(fq_replay(&settings, trace, sizeof trace - 1, NULL, 0, &replayed) == FQ_NO_ROOM && replayed.length > 0, "a report");
    want(fq_machine_default(&machine) == FQ_OK, "settings");
    want(fq_machine(&machine, NULL, 0, NULL, 0, &ran) == FQ_BAD_ARRIVALS && ran.fault == 1, "a machine");
    want(fq_machine(&machine, arrivals, sizeof arrivals - 1, NULL, 0, &ran) == FQ_NO_ROOM && ran.length > 0, "its report");
    want(blocks == 0, "nothing is left");
}

/* The statuses of a free and of a list are those that the header names. */
static void frees_and_lists(void) {
    struct fq_list list = FQ_NONE;
    fq_abandon(&list.handle); /* compilers don't warn about this one */
    want(fq_list_new(&list) == FQ_OK && fq_list_new(&list) == FQ_IN_USE && fq_free(&list.handle) == FQ_OK && fq_free(&list.handle) == FQ_BAD_HANDLE, "a list");
}

/* This many buffers are used in turn, for a ring of capacity 256 and bursts of 16, of which as many are put as fit while a
 * poll's packets are read: returns how many of these are overwritten by then. */
static unsigned written_over(uint64_t buffers) {
    static uint64_t written[400];
    struct fq_ring ring = FQ_NONE;
    struct fq_packet burst[16], out[64];
    unsigned over = 0;
    uint64_t first = 0;
    size_t put = 16, count;
    want(fq_ring_new(&ring, 256) == FQ_OK, "a ring");
    for (int poll = 0; poll < 100; poll++) {
        size_t polled;
        want(fq_ring_poll(&ring, 64, out, 64, &polled) == FQ_OK, "a poll");
        do {
            for (size_t i = 0; put == 16 && i < 16; i++) burst[i] = (struct fq_packet){first + i, 60}, written[(first + i) % buffers] = first + i;
            if (put == 16) put = 0, first += 16;
            want(fq_ring_put_all(&ring, burst + put, 16 - put, &count) < FQ_NOT_ALLOWED, "a burst");
            put += count;
        } while (put == 16);
        for (size_t i = 0; i < polled; i++) over += written[out[i].number % buffers] != out[i].number;
    }
    want(fq_abandon(&ring.handle) == FQ_OK && blocks == 0, "the end");
    return over;
}

static void buffers_in_turn(void) {
    want(written_over(256 + 64 + 16) == 0, "a place, a poll's and a burst's are enough");
    want(written_over(256 + 64 + 15) != 0 && written_over(256 + 64 + 1) != 0, "fewer aren't");
}

#define CASE(name) {#name, name}
static const struct {
    const char *name;
    void (*call)(void);
} cases[] = {CASE(a_full_poll_of_a_thread), CASE(a_full_poll_of_a_busy_poller), CASE(bytes_of_an_instance), CASE(a_limit_out_of_bounds), CASE(a_polled_instance_is_handed), CASE(a_list_of_64), CASE(a_device_leaves_a_list),
    CASE(weights_of_devices), CASE(a_split_of_what_is_no_ring), CASE(a_ring_whose_instance_is_refused), CASE(buffers_in_turn),
    CASE(ends_of_polls_on_one_thread), CASE(a_full_poll_under_a_disable), CASE(an_open_asks_once), CASE(an_open_knows_its_callers),
    CASE(handed_to_a_thread_that_was_set_meanwhile), CASE(a_stopped_ring_is_watched),
    CASE(refusals_of_a_replay), CASE(runs_that_the_kernel_would_add), CASE(arrays_of_nothing), CASE(frees_and_lists)};

int main(int count, char **words) {
    unsigned called = 0;
    for (size_t i = 0; i < sizeof cases / sizeof cases[0]; i++)
        if (count < 2 || strcmp(words[1], cases[i].name) == 0) cases[i].call(), called++;
    printf("%u corners, each answered as it has to be\n", called);
    return called == 0;
}
