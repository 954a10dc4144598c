/* Each call over a struct that begins with its size takes exactly the size of the header. For any other one it returns FQ_BAD_SIZE, whatever
 * else is wrong, and changes nothing; with its own it writes nothing beyond it. It exits with 9 if this isn't so. */
#include "any.h"
#include <stdio.h>
#include <stdlib.h>
#include <string.h>

enum { ROOM = 256, GUARD = 1 };

static void want(bool holds, const char *call, size_t size) {
    if (holds) return;
    fprintf(stderr, "sizes: %s: size %zu\n", call, size);
    exit(9);
}

/* A struct at the beginning of an array of bytes. All bytes except its size are GUARD. */
union at {
    size_t size;
    uint8_t bytes[ROOM];
};

static union at of_size(size_t size) {
    union at at;
    memset(&at, GUARD, sizeof at);
    at.size = size;
    return at;
}

/* The objects and arrays of the calls. */
static union any ring = {{false, NULL}}, tx = {{false, NULL}}, caller[2] = {{{false, NULL}}, {{false, NULL}}}, list = {{false, NULL}},
                 driver = {{false, NULL}}, none = {{false, NULL}};
static const uint8_t trace[] = "moment,device,event,value\n", arrivals[] = "ns,device,bytes\n";
static uint8_t report[4096];

static enum fq_status count(union any *of, union at *at) { return fq_count_sized(&of->handle, (struct fq_counts *)at); }
static enum fq_status show_ring(union any *of, union at *at) { return fq_ring_show_sized(&of->ring, (struct fq_ring_shown *)at); }
static enum fq_status finish(union any *of, union at *at) { return fq_ring_finish_sized(&of->ring, (struct fq_totals *)at); }
static enum fq_status show_tx(union any *of, union at *at) { return fq_tx_state_sized(&of->tx, (struct fq_tx_shown *)at); }
static enum fq_status count_caller(union any *of, union at *at) { return fq_caller_count_sized(&of->caller, (struct fq_answers *)at); }
static enum fq_status end_run(union any *of, union at *at) { return fq_run_end_sized(&of->list, (struct fq_run_report *)at); }
static enum fq_status show_device(union any *of, union at *at) { return fq_driver_show_sized(&of->driver, 0, (struct fq_device_shown *)at); }
static enum fq_status set_device(union any *of, union at *at) { return fq_driver_set_sized(&of->driver, 0, (const struct fq_device_settings *)at); }

static enum fq_status replay(union any *of, union at *at) {
    const struct fq_settings settings = FQ_DEFAULT_SETTINGS;
    return (void)of, fq_replay_sized(&settings, trace, sizeof trace - 1, report, sizeof report, (struct fq_replayed *)at);
}
static enum fq_status raise_runs(union any *of, union at *at) {
    const struct fq_settings settings = FQ_DEFAULT_SETTINGS;
    return (void)of, fq_raise_sized(&settings, 1, trace, sizeof trace - 1, report, sizeof report, (struct fq_replayed *)at);
}
static enum fq_status machine(union any *of, union at *at) {
    struct fq_machine_settings settings;
    const enum fq_status said = fq_machine_default(&settings);
    return (void)of, said == FQ_OK ? fq_machine_sized(&settings, arrivals, sizeof arrivals - 1, report, sizeof report, (struct fq_machine_ran *)at) : said;
}
static enum fq_status machine_default(union any *of, union at *at) { return (void)of, fq_machine_default_sized((struct fq_machine_settings *)at); }

/* The settings are in `at`, and the result is a whole struct. */
static enum fq_status replay_by(union any *of, union at *at) {
    struct fq_replayed replayed;
    return (void)of, fq_replay((const struct fq_settings *)at, trace, sizeof trace - 1, report, sizeof report, &replayed);
}
static enum fq_status raise_by(union any *of, union at *at) {
    struct fq_replayed replayed;
    return (void)of, fq_raise((const struct fq_settings *)at, 1, trace, sizeof trace - 1, report, sizeof report, &replayed);
}
static enum fq_status machine_by(union any *of, union at *at) {
    struct fq_machine_ran ran;
    return (void)of, fq_machine((const struct fq_machine_settings *)at, arrivals, sizeof arrivals - 1, report, sizeof report, &ran);
}

#define CALL(name, of, type, right) {#name, of, sizeof(struct type), name, right}
static const struct call {
    const char *name;
    union any *of;
    size_t size;
    enum fq_status (*call)(union any *of, union at *at);
    enum fq_status right; /* what it returns for the right size */
} calls[] = {CALL(count, &ring, fq_counts, FQ_OK), CALL(show_ring, &ring, fq_ring_shown, FQ_OK), CALL(finish, &ring, fq_totals, FQ_OK),
    CALL(show_tx, &tx, fq_tx_shown, FQ_OK), CALL(count_caller, &caller[0], fq_answers, FQ_OK), CALL(end_run, &list, fq_run_report, FQ_OK),
    CALL(show_device, &driver, fq_device_shown, FQ_OK), CALL(set_device, &driver, fq_device_settings, FQ_BAD_WEIGHT), CALL(replay, &none, fq_replayed, FQ_OK),
    CALL(raise_runs, &none, fq_replayed, FQ_OK),
    CALL(machine, &none, fq_machine_ran, FQ_OK), CALL(machine_default, &none, fq_machine_settings, FQ_OK),
    /* a settings struct of bytes that are all 1, as also that of set_device, has a weight, a budget and a window out of their ranges */
    CALL(replay_by, &none, fq_settings, FQ_BAD_WEIGHT), CALL(raise_by, &none, fq_settings, FQ_BAD_WEIGHT),
    CALL(machine_by, &none, fq_machine_settings, FQ_BAD_SETTING)};

static void objects(void) {
    struct fq_control control = FQ_NONE;
    struct fq_caller callers[2] = {FQ_NONE, FQ_NONE};
    uint32_t id;
    bool made = fq_ring_new(&ring.ring, 4) == FQ_OK && fq_tx_new(&tx.tx, 4, 0, 1000, 1, 0) == FQ_OK && fq_list_new(&list.list) == FQ_OK;
    made = made && fq_shared_bare(&control, callers, 2) == FQ_OK && fq_move(&callers[0].handle, &caller[0].handle) == FQ_OK;
    made = made && fq_run_begin(&list.list, 300, 64, 1024) == FQ_OK && fq_run_next(&list.list, &id) == FQ_DONE;
    made = made && fq_driver_new(&driver.driver, 1, 300, 64, 1024) == FQ_OK && fq_driver_open(&driver.driver, 0) == FQ_OK;
    made = made && fq_abandon(&control.handle) == FQ_OK && fq_abandon(&callers[1].handle) == FQ_OK;
    want(made, "the objects", 0);
}

static void is_rejected(const struct call *call, size_t size) {
    union any *const of[] = {call->of, &none};
    for (size_t i = 0; i < 2; i++) {
        union at at = of_size(size);
        const union at before = at;
        memset(report, GUARD, sizeof report);
        want(call->call(of[i], &at) == FQ_BAD_SIZE && memcmp(&at, &before, sizeof at) == 0, call->name, size);
        for (size_t k = 0; k < sizeof report; k++) want(report[k] == GUARD, call->name, size);
    }
}

int main(void) {
    objects();
    for (const struct call *call = calls; call < calls + sizeof calls / sizeof *calls; call++) {
        const size_t wrong[] = {0, 1, call->size - 1, call->size + 1, call->size + 8, SIZE_MAX};
        for (size_t i = 0; i < sizeof wrong / sizeof *wrong; i++) is_rejected(call, wrong[i]);
        union at at = of_size(call->size);
        want(call->call(call->of, &at) == call->right && at.size == call->size, call->name, call->size);
        for (size_t i = call->size; i < ROOM; i++) want(at.bytes[i] == GUARD, call->name, i);
    }
    fq_abandon(&tx.handle), fq_abandon(&caller[0].handle), fq_abandon(&list.handle), fq_abandon(&driver.handle);
    printf("%zu calls, each of its own size only\n", sizeof calls / sizeof *calls);
    return 0;
}
