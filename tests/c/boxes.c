/* boxes: makes an object by each call that allocates, and frees it by each call that frees, in each state in which that is possible;
 * and the same if a call fails. Then nothing is left on the heap. To be linked with --wrap for malloc, realloc and free, and to be run
 * under valgrind too, which sees double frees and reads out of bounds. If something is wrong, it prints which and exits with 9. */
#include "any.h"
#include "memory.h"
#include <stdio.h>
#include <stdlib.h>
#include <string.h>

static int cases;

static void want(bool holds, const char *what) {
    if (holds) return;
    fprintf(stderr, "boxes: %s, case %d\n", what, cases);
    exit(9);
}

static void nothing_is_left(const char *what) {
    cases++;
    want(blocks == 0, what);
}

/* A call failed with the wanted status, and changed nothing on the heap. */
static void stays(uint32_t said, uint32_t wanted, long before, const char *what) {
    cases++;
    want(said == wanted && blocks == before, what);
}

enum end { FREE, ABANDON };

static void ended(struct fq_handle *handle, enum end end, const char *what) {
    const long before = blocks;
    want((end == FREE ? fq_free(handle) : fq_abandon(handle)) == FQ_OK && blocks < before, what);
    const long behind = blocks;
    want(!handle->private_set && fq_free(handle) == FQ_BAD_HANDLE && fq_abandon(handle) == FQ_BAD_HANDLE && blocks == behind, what);
}

/* An object can't be freed in this state, and is then abandoned. */
static void given_up(struct fq_handle *handle, const char *what) {
    stays(fq_free(handle), FQ_NOT_ALLOWED, blocks, what);
    ended(handle, ABANDON, what);
}

static const size_t capacities[] = {1, 2, 3, 64, 1000, 65535, 65536};
enum { CAPACITIES = sizeof capacities / sizeof capacities[0] };

static void rings(void) {
    struct fq_ring ring = FQ_NONE, moved = FQ_NONE, out = FQ_NONE;
    struct fq_totals totals;
    struct fq_packet packets[64];
    size_t count;
    for (size_t i = 0; i < CAPACITIES; i++) {
        for (int filled = 0; filled < 2; filled++) {
            for (int how = 0; how < 4; how++) {
                want(fq_ring_new(&ring, capacities[i]) == FQ_OK, "a ring");
                stays(fq_ring_new(&ring, 4), FQ_IN_USE, blocks, "a ring in its place");
                while (filled && fq_ring_put(&ring, 1, 60) == FQ_OK) continue;
                if (how == 3) {
                    const long before = blocks;
                    want(fq_move(&ring.handle, &moved.handle) == FQ_OK && blocks == before && fq_move(&moved.handle, &ring.handle) == FQ_OK, "a ring moved");
                }
                if (how == 2) want(fq_ring_finish(&ring, &totals) == FQ_OK, "a ring finished");
                else ended(&ring.handle, how == 1 ? ABANDON : FREE, "a ring ended");
                nothing_is_left("of a ring");
            }
            for (int how = 0; how < 4; how++) {
                want(fq_ring_new(&ring, capacities[i]) == FQ_OK && fq_ring_split(&ring, &out) == FQ_OK, "a split ring");
                stays(fq_ring_split(&ring, &moved), FQ_BAD_HANDLE, blocks, "a second split");
                stays(fq_ring_finish(&ring, &totals), FQ_BAD_HANDLE, blocks, "the end of a split ring");
                while (filled && fq_ring_put(&ring, 1, 60) == FQ_OK) continue;
                want(fq_ring_poll(&out, 64, packets, 64, &count) == FQ_OK, "a poll of a split ring");
                ended(how < 2 ? &ring.handle : &out.handle, how % 2 ? ABANDON : FREE, "the first end");
                if (how < 2) want(fq_ring_poll(&out, 64, packets, 64, &count) == FQ_OK, "a poll without an input");
                else want(fq_ring_put(&ring, 1, 60) < FQ_NOT_ALLOWED, "a put without a poll end");
                ended(how < 2 ? &out.handle : &ring.handle, how % 2 ? ABANDON : FREE, "the second end");
                nothing_is_left("of a split ring");
            }
        }
    }
    for (size_t i = 0; i < CAPACITIES; i++) {
        for (int how = 0; how < 4; how++) {
            size_t first, got;
            want(fq_ring_places(&ring, &out, capacities[i]) == FQ_OK, "a ring of places");
            stays(fq_ring_places(&ring, &moved, 4), FQ_IN_USE, blocks, "a ring of places in its place");
            want(fq_ring_claim(&ring, 0, 64, &first, &got) == FQ_OK && fq_ring_claim(&ring, got, 64, &first, &got) == FQ_OK, "a claim");
            want(fq_ring_peek(&out, 0, 64, &first, &got) == FQ_OK && got > 0, "a peek");
            ended(how < 2 ? &ring.handle : &out.handle, how % 2 ? ABANDON : FREE, "the first end");
            ended(how < 2 ? &out.handle : &ring.handle, how % 2 ? ABANDON : FREE, "the second end");
            nothing_is_left("of a ring of places");
        }
    }
    stays(fq_ring_new(&ring, 0), FQ_BAD_CAPACITY, 0, "a ring of no place");
    stays(fq_ring_new(&ring, 65537), FQ_BAD_CAPACITY, 0, "a ring of too many");
    want(fq_ring_new(&ring, 4) == FQ_OK && fq_ring_new(&out, 4) == FQ_OK, "two rings");
    stays(fq_ring_split(&ring, &out), FQ_IN_USE, blocks, "a split into a ring");
    ended(&ring.handle, FREE, "one");
    ended(&out.handle, FREE, "the other");
    nothing_is_left("of two rings");
}

static void transmit_rings(void) {
    struct fq_tx tx = FQ_NONE;
    for (size_t i = 0; i < CAPACITIES; i++) {
        for (int filled = 0; filled < 2; filled++) {
            for (enum end end = FREE; end <= ABANDON; end++) {
                want(fq_tx_new(&tx, capacities[i], 1000000, 1000000, 1000, 0) == FQ_OK, "a transmit ring");
                stays(fq_tx_new(&tx, 4, 0, 1000, 1000, 0), FQ_IN_USE, blocks, "a transmit ring in its place");
                while (filled && fq_tx_send(&tx, 60) == FQ_OK) continue;
                ended(&tx.handle, end, "a transmit ring ended");
                nothing_is_left("of a transmit ring");
            }
        }
    }
    stays(fq_tx_new(&tx, 0, 0, 1000, 1000, 0), FQ_BAD_CAPACITY, 0, "a transmit ring of no place");
    stays(fq_tx_new(&tx, 65537, 0, 1000, 1000, 0), FQ_BAD_CAPACITY, 0, "a transmit ring of too many");
    stays(fq_tx_new(&tx, 4, 1001, 1000, 1000, 0), FQ_BAD_BOUNDS, 0, "a limit between bounds that there aren't");
}

static void lists(void) {
    struct fq_list list = FQ_NONE;
    struct fq_run_report report;
    uint32_t id;
    for (uint32_t numbers = 0; numbers < 65; numbers += 32) {
        for (int how = 0; how < 5; how++) {
            want(fq_list_new(&list) == FQ_OK, "a list");
            stays(fq_list_new(&list), FQ_IN_USE, blocks, "a list in its place");
            for (uint32_t i = 0; i < numbers; i++) want(fq_list_push(&list, i) == FQ_OK, "a push");
            if (how > 1) want(fq_run_begin(&list, 300, 64, 1024) == FQ_OK, "a run");
            if (how > 2 && numbers > 0) want(fq_run_next(&list, &id) == FQ_OK, "its first poll");
            if (how == 4 && numbers > 0) want(fq_run_polled(&list, 64, FQ_NEXT_REPOLL) == FQ_OK, "which was full");
            if (how == 4) want(fq_run_end(&list, &report) == FQ_OK, "its end");
            if (how == 2 || how == 3) given_up(&list.handle, "a list in a run");
            else ended(&list.handle, how == 1 ? ABANDON : FREE, "a list");
            nothing_is_left("of a list");
        }
    }
}

static void drivers(void) {
    struct fq_driver driver = FQ_NONE;
    struct fq_todo todo = FQ_TODO_INIT;
    for (uint32_t devices = 1; devices < 65; devices += 9) {
        for (int steps = 0; steps < 8; steps++) {
            for (enum end end = FREE; end <= ABANDON; end++) {
                want(fq_driver_new(&driver, devices, 300, 64, 1024) == FQ_OK, "a driver");
                stays(fq_driver_new(&driver, 1, 300, 64, 1024), FQ_IN_USE, blocks, "a driver in its place");
                want(fq_driver_open(&driver, devices - 1) == FQ_OK, "an open");
                for (int step = 0; step < steps; step++) {
                    want(fq_driver_next(&driver, &todo) == FQ_OK, "what is due");
                    todo.packets = todo.what == FQ_TODO_LOOK ? 1 : todo.most;
                    want(fq_driver_done(&driver, &todo) == FQ_OK, "a report");
                }
                ended(&driver.handle, end, "a driver");
                nothing_is_left("of a driver");
            }
        }
    }
    stays(fq_driver_new(&driver, 0, 300, 64, 1024), FQ_BAD_COUNT, 0, "a driver of no device");
    stays(fq_driver_new(&driver, 65, 300, 64, 1024), FQ_BAD_COUNT, 0, "a driver of too many");
}

/* The handles of an instance: its ring's input, its controller, and two callers; and an array of too many callers. */
static union any many[9], handles[4];
static struct fq_ring *const input = &handles[0].ring;
static struct fq_control *const control = &handles[1].control;
static struct fq_caller *const irq = &handles[2].caller, *const poller = &handles[3].caller;

static void made(bool bare) {
    if (bare) {
        want(fq_shared_bare(control, irq, 2) == FQ_OK, "a bare instance");
        stays(fq_shared_bare(control, irq, 2), FQ_IN_USE, blocks, "one in its place");
        return;
    }
    want(fq_ring_new(input, 4) == FQ_OK, "its ring");
    stays(fq_shared_new(input, control, irq, 1), FQ_BAD_COUNT, blocks, "one caller");
    stays(fq_shared_new(input, control, &many[0].caller, 9), FQ_BAD_COUNT, blocks, "nine");
    stays(fq_shared_new(&handles[1].ring, &handles[0].control, irq, 2), FQ_IN_USE, blocks, "a controller where the ring is");
    want(fq_shared_new(input, control, irq, 2) == FQ_OK, "an instance");
    stays(fq_shared_new(input, control, irq, 2), FQ_IN_USE, blocks, "one in its place");
    want(fq_ring_put(input, 7, 60) == FQ_OK, "a packet, which stays");
}

/* In each order: the ring's context, which all handles share, is freed with the last of them. */
static void in_each_order(bool bare, enum end end) {
    for (int first = 0; first < 256; first++) {
        const int order[4] = {first & 3, first >> 2 & 3, first >> 4 & 3, first >> 6};
        int seen = 0;
        for (int i = 0; i < 4; i++) seen |= 1 << order[i];
        if (seen != 15) continue;
        made(bare);
        for (int i = 0; i < 4; i++)
            if (handles[order[i]].handle.private_set) ended(&handles[order[i]].handle, end, "one of an instance");
        nothing_is_left("of an instance");
    }
}

/* Brings an instance into a state, and tries to free the handles that can't be freed in it. */
static void in_state(bool bare, int state) {
    struct fq_caller *held = poller;
    made(bare);
    want(fq_control_enable(control, false) == FQ_OK, "it is enabled");
    if (state == 1) want(fq_caller_schedule(irq) == FQ_GRANTED, "granted"), held = irq;
    if (state == 2 || state == 3) want(fq_caller_schedule(irq) == FQ_GRANTED && fq_caller_hand(irq, FQ_LIST) == FQ_OK && fq_caller_take(poller, FQ_LIST) == FQ_TAKEN, "polled");
    if (state == 4) want(fq_caller_busy_take(poller) == FQ_TAKEN, "busy polled");
    if (state == 3 || state == 5) want(fq_control_mark(control) == FQ_OK, "marked");
    given_up(&control->handle, "a controller that isn't off");
    if (state >= 1 && state <= 4) given_up(&held->handle, "a caller that doesn't rest");
    else ended(&held->handle, FREE, "a caller that rests");
    ended(held == irq ? &poller->handle : &irq->handle, FREE, "the other caller");
    if (!bare) ended(&input->handle, FREE, "the input");
    nothing_is_left("of an instance at work");
}

static void instances(void) {
    for (int bare = 0; bare < 2; bare++) {
        in_each_order(bare, FREE);
        in_each_order(bare, ABANDON);
        for (int state = 0; state < 6; state++) in_state(bare, state);
    }
    stays(fq_shared_bare(control, irq, 1), FQ_BAD_COUNT, 0, "a bare instance of one caller");
    stays(fq_shared_bare(control, &many[0].caller, 9), FQ_BAD_COUNT, 0, "of nine");
    union any list = {{false, NULL}};
    want(fq_list_new(&list.list) == FQ_OK, "a list");
    stays(fq_shared_new(&list.ring, control, irq, 2), FQ_BAD_HANDLE, blocks, "an instance over a list");
    ended(&list.handle, FREE, "the list");
    nothing_is_left("of a list");
}

static void replayed(const char *trace, size_t room, uint32_t budget, uint32_t wanted) {
    static uint8_t report[4096];
    const struct fq_settings settings = {sizeof settings, budget, 64, 1024};
    struct fq_replayed what;
    want(fq_replay(&settings, (const uint8_t *)trace, strlen(trace), report, room, &what) == wanted, "a replay");
    nothing_is_left("of a replay");
}

static void replays(void) {
    const char *const good = "moment,device,event,value\n0,1,open,4\n0,2,open,65536\n1,1,rx,100\n1,2,rx,60\n2,0,softirq,0\n3,1,tx,9\n";
    replayed(good, 4096, 300, FQ_OK);
    replayed(good, 10, 300, FQ_NO_ROOM);
    replayed(good, 4096, 0, FQ_BAD_BUDGET);
    replayed("", 4096, 300, FQ_BAD_TRACE);
    replayed("moment,device,event,value\n0,1,open,4\n0,1,open,4\n", 4096, 300, FQ_BAD_TRACE);
    replayed("moment,device,event,value\n0,1,open,4\n1,1,rx,1\n1,1,disable,0\n1,1,enable,0\n", 4096, 300, FQ_BAD_TRACE);
}

static void machined(const char *arrivals, size_t room, uint32_t processors, uint32_t wanted) {
    static uint8_t report[4096];
    struct fq_machine_settings settings;
    struct fq_machine_ran ran;
    want(fq_machine_default(&settings) == FQ_OK, "the default settings");
    settings.processors = processors, settings.threaded = 1;
    want(fq_machine(&settings, (const uint8_t *)arrivals, strlen(arrivals), report, room, &ran) == wanted, "a machine");
    nothing_is_left("of a machine");
}

static void machines(void) {
    const char *const good = "ns,device,bytes\n0,1,60\n10,2,60\n10,1,1500\n900000,65,60\n";
    machined(good, 4096, 2, FQ_OK);
    machined(good, 10, 2, FQ_NO_ROOM);
    machined(good, 4096, 1, FQ_BAD_ARRIVALS);
    machined(good, 4096, 65, FQ_BAD_SETTING);
    machined("ns,device,bytes\n5,1,60\n4,1,60\n", 4096, 2, FQ_BAD_ARRIVALS);
    machined("", 4096, 2, FQ_BAD_ARRIVALS);
}

int main(void) {
    rings();
    transmit_rings();
    lists();
    drivers();
    instances();
    replays();
    machines();
    printf("%d cases, and nothing is left\n", cases);
    return 0;
}
