/* Times calls of the C library: c_library WHAT TIMES. Counts go to standard output, the time to standard error. limits: the
 * calls of limits.cc, which prints the same; reads are the header's inline functions. turns: schedule, hand, take and
 * complete on a shared instance, by one thread. driver: packets that come one by one, polled by what a driver says; driver64:
 * 64 at a time; step, step64: the same with fq_driver_step, which reports and asks at once; turn, turn64: with fq_driver_turn, which
 * also reports the interrupt. packets: puts, and polls of weight 64; bursts: the same packets, put 64 at once. 1, 8, 32 or 64: packets, put and polled this many at once; places1 .. places64: the same without copies, in the
 * program's own array. beside: looks by two
 * threads at once, each by its own caller, whose handles are adjacent; apart: 128 bytes apart. */
#include <fintaqush.h>
#include <inttypes.h>
#include <pthread.h>
#include <stdio.h>
#include <stdlib.h>
#include <string.h>
#include <time.h>

/* A time; for the looks of two threads the processor time of each, so that other work of the machine isn't counted. */
static uint64_t now(bool of_two) {
    if (of_two) return (uint64_t)clock() * (1000000000 / CLOCKS_PER_SEC) / 2;
    struct timespec at;
    timespec_get(&at, TIME_UTC);
    return (uint64_t)at.tv_sec * 1000000000 + (uint64_t)at.tv_nsec;
}

static bool limits(uint64_t pairs) {
    struct fq_dql dql = {0};
    uint64_t sum = 0, over = 0;
    uint32_t queued = 0;
    if (fq_dql_init(&dql, 0, 1879048192u, 4, 0) != FQ_OK) return false;
    for (uint64_t pair = 0; pair < pairs; pair++) {
        const bool starves = pair / 64 % 2 == 0;
        const uint32_t count = starves ? 1500u << (pair % 64 / 4) : 1500u;
        if (fq_dql_queued(&dql, count) != FQ_OK) return false;
        queued += count;
        over += fq_dql_avail_here(&dql) < 0;
        const uint32_t waiting = fq_dql_in_flight_here(&dql);
        if (fq_dql_completed(&dql, starves ? waiting : waiting / 4, pair) != FQ_OK) return false;
        sum += fq_dql_limit_here(&dql);
    }
    printf("pairs %" PRIu64 " limits %" PRIu64 " over %" PRIu64 " queued %" PRIu32 " limit %" PRIu32 "\n", pairs, sum, over, queued,
           fq_dql_limit(&dql));
    return true;
}

static bool turns(uint64_t count) {
    struct fq_ring ring = FQ_NONE;
    struct fq_control control = FQ_NONE;
    struct fq_caller callers[2] = {FQ_NONE, FQ_NONE};
    if (fq_ring_new(&ring, 64) != FQ_OK || fq_shared_new(&ring, &control, callers, 2) != FQ_OK) return false;
    if (fq_control_enable(&control, false) != FQ_OK) return false;
    for (uint64_t i = 0; i < count; i++) {
        if (fq_caller_schedule(&callers[0]) != FQ_GRANTED || fq_caller_hand(&callers[0], FQ_LIST) != FQ_OK) return false;
        if (fq_caller_take(&callers[1], FQ_LIST) != FQ_TAKEN || fq_caller_complete(&callers[1]) != FQ_RELEASED) return false;
    }
    printf("turns %" PRIu64 "\n", count);
    return true;
}

struct looker {
    struct fq_caller *caller;
    uint64_t count;
    bool failed;
};

static void *look(void *at) {
    struct looker *const looker = at;
    const struct looker mine = *looker; /* which isn't adjacent to another thread's */
    bool failed = false;
    for (uint64_t i = 0; i < mine.count; i++) {
        uint64_t word;
        failed |= fq_caller_look(mine.caller, &word) != FQ_OK || word != 0;
    }
    looker->failed = failed;
    return NULL;
}

/* The second caller's handle is this many handles after the first one's. */
static bool looks(uint64_t count, size_t behind) {
    static struct {
        _Alignas(128) struct fq_caller callers[16];
    } places;
    struct fq_control control = FQ_NONE;
    struct fq_caller callers[2] = {FQ_NONE, FQ_NONE};
    struct looker lookers[2] = {{&places.callers[0], count, false}, {&places.callers[behind], count, false}};
    pthread_t threads[2];
    if (fq_shared_bare(&control, callers, 2) != FQ_OK || fq_control_enable(&control, false) != FQ_OK) return false;
    for (int i = 0; i < 2; i++) {
        if (fq_move(&callers[i].handle, &lookers[i].caller->handle) != FQ_OK || pthread_create(&threads[i], NULL, look, &lookers[i]) != 0) return false;
    }
    for (int i = 0; i < 2; i++) pthread_join(threads[i], NULL);
    printf("looks %" PRIu64 "\n", count);
    return !lookers[0].failed && !lookers[1].failed;
}

static bool put_one_by_one(struct fq_ring *ring, uint64_t first) {
    for (uint64_t i = 0; i < 64; i++) {
        if (fq_ring_put(ring, first + i, 60) != FQ_OK) return false;
    }
    return true;
}

static bool put_at_once(struct fq_ring *ring, uint64_t first) {
    struct fq_packet burst[64];
    size_t count;
    for (uint64_t i = 0; i < 64; i++) burst[i] = (struct fq_packet){first + i, 60};
    return fq_ring_put_all(ring, burst, 64, &count) == FQ_OK;
}

static bool packets(uint64_t count, bool put_64(struct fq_ring *, uint64_t)) {
    struct fq_ring ring = FQ_NONE;
    struct fq_packet out[64];
    uint64_t put = 0, given = 0;
    if (fq_ring_new(&ring, 64) != FQ_OK) return false;
    while (given < count) {
        size_t polled;
        if (!put_64(&ring, put)) return false;
        put += 64;
        if (fq_ring_poll(&ring, 64, out, 64, &polled) != FQ_OK || polled != 64) return false;
        if (out[63].number != put - 1) return false;
        given += polled;
    }
    printf("packets %" PRIu64 "\n", given);
    return true;
}

static bool ring(uint64_t count, size_t burst) {
    struct fq_ring ring = FQ_NONE;
    struct fq_packet in[64], out[64];
    uint64_t put = 0;
    if (fq_ring_new(&ring, 256) != FQ_OK) return false;
    while (put < count) {
        size_t done, polled;
        for (size_t i = 0; i < burst; i++) in[i] = (struct fq_packet){put++, 60};
        if (burst == 1 ? fq_ring_put(&ring, in[0].number, 60) != FQ_OK : fq_ring_put_all(&ring, in, burst, &done) != FQ_OK) return false;
        if (fq_ring_poll(&ring, burst, out, 64, &polled) != FQ_OK || polled != burst || out[burst - 1].number != put - 1) return false;
    }
    printf("packets %" PRIu64 "\n", put);
    return true;
}

static bool places(uint64_t count, size_t burst) {
    struct fq_ring in = FQ_NONE, out = FQ_NONE;
    static struct fq_packet packets[256];
    uint64_t put = 0, got = 0;
    size_t first, claimed = 0, peeked = 0;
    if (fq_ring_places(&in, &out, 256) != FQ_OK) return false;
    while (got < count) {
        if (fq_ring_claim(&in, claimed, burst, &first, &claimed) != FQ_OK || claimed != burst) return false;
        for (size_t i = 0; i < claimed; i++) packets[first + i] = (struct fq_packet){put++, 60};
        if (fq_ring_peek(&out, peeked, burst, &first, &peeked) != FQ_OK) return false;
        got += peeked;
        if (peeked != 0 && packets[first + peeked - 1].number != got - 1) return false;
    }
    printf("packets %" PRIu64 "\n", got);
    return true;
}

struct card { /* its ring is a pair of counts */
    uint64_t put, taken;
    bool masked;
};

/* Does what the driver asks for, and writes the packets of a look or of a fetch into `todo`. */
static inline void act(struct card *card, struct fq_todo *todo) {
    switch (todo->what) {
    case FQ_TODO_MASK: card->masked = true; break;
    case FQ_TODO_UNMASK: card->masked = false; break;
    case FQ_TODO_LOOK: todo->packets = card->put != card->taken; break;
    case FQ_TODO_FETCH:
        card->masked |= todo->mask;
        todo->packets = card->put - card->taken < todo->most ? (uint32_t)(card->put - card->taken) : todo->most;
        card->taken += todo->packets;
        if (todo->packets == todo->most) break;
        card->masked = false;
        todo->rearm = card->put != card->taken ? FQ_REARM_MORE : FQ_REARM_EMPTY;
        break;
    case FQ_TODO_TIMER: case FQ_TODO_ENDED: case FQ_TODO_SLEEP: case FQ_TODO_FAILED: break;
    }
}

static bool opens(struct fq_driver *driver) {
    return fq_driver_new(driver, 1, 300, 64, 1024) == FQ_OK && fq_driver_open(driver, 0) == FQ_OK;
}

/* The packets come this many at a time, and are polled by what the driver says. */
static bool driver(uint64_t count, uint32_t burst) {
    struct fq_driver driver = FQ_NONE;
    struct fq_todo todo = FQ_TODO_INIT;
    struct card card = {0, 0, true};
    if (!opens(&driver)) return false;
    while (card.taken < count) {
        while (fq_driver_next(&driver, &todo) == FQ_OK && todo.what != FQ_TODO_SLEEP) {
            act(&card, &todo);
            if (fq_driver_done(&driver, &todo) != FQ_OK) return false;
        }
        if (card.masked || card.taken != card.put) return false;
        card.put += burst;
        if (fq_driver_interrupt(&driver, 0) != FQ_GRANTED) return false;
    }
    printf("packets %" PRIu64 "\n", card.taken);
    return true;
}

/* The same, with one call that reports and asks. */
static bool step(uint64_t count, uint32_t burst) {
    struct fq_driver driver = FQ_NONE;
    struct fq_todo todo = FQ_TODO_INIT;
    struct card card = {0, 0, true};
    if (!opens(&driver)) return false;
    while (card.taken < count) {
        while (fq_driver_step(&driver, &todo) == FQ_OK && todo.what != FQ_TODO_SLEEP) act(&card, &todo);
        if (card.masked || card.taken != card.put) return false;
        card.put += burst;
        if (fq_driver_interrupt(&driver, 0) != FQ_GRANTED) return false;
    }
    printf("packets %" PRIu64 "\n", card.taken);
    return true;
}

/* The same, with one call that also reports the interrupt. */
static bool turn(uint64_t count, uint32_t burst) {
    struct fq_driver driver = FQ_NONE;
    struct fq_todo todo = FQ_TODO_INIT;
    struct card card = {0, 0, true};
    uint64_t interrupts = 0;
    if (!opens(&driver)) return false;
    while (card.taken < count) {
        for (; fq_driver_turn(&driver, interrupts, &todo) == FQ_OK && todo.what != FQ_TODO_SLEEP; act(&card, &todo)) interrupts = 0;
        if (todo.what != FQ_TODO_SLEEP || card.masked || card.taken != card.put) return false;
        card.put += burst;
        interrupts = 1;
    }
    printf("packets %" PRIu64 "\n", card.taken);
    return true;
}

int main(int words, char **word) {
    if (words != 3) return 64;
    const bool in_places = strncmp(word[1], "places", 6) == 0;
    const size_t burst = strtoul(word[1] + (in_places ? 6 : 0), NULL, 10);
    const bool is_beside = strcmp(word[1], "beside") == 0, is_apart = strcmp(word[1], "apart") == 0;
    const uint64_t times = strtoull(word[2], NULL, 10), start = now(is_beside || is_apart);
    const bool good = strcmp(word[1], "limits") == 0 ? limits(times)
                      : strcmp(word[1], "driver") == 0 ? driver(times, 1)
                      : strcmp(word[1], "driver64") == 0 ? driver(times, 64)
                      : strcmp(word[1], "step") == 0   ? step(times, 1)
                      : strcmp(word[1], "step64") == 0 ? step(times, 64)
                      : strcmp(word[1], "turn") == 0   ? turn(times, 1)
                      : strcmp(word[1], "turn64") == 0 ? turn(times, 64)
                      : strcmp(word[1], "turns") == 0  ? turns(times)
                      : burst != 0 && burst <= 64     ? (in_places ? places : ring)(times, burst)
                      : is_beside || is_apart         ? looks(times, is_beside ? 1 : 128 / sizeof(struct fq_caller))
                                                      : packets(times, strcmp(word[1], "bursts") == 0 ? put_at_once : put_one_by_one);
    fprintf(stderr, "%" PRIu64 " ns\n", now(is_beside || is_apart) - start);
    return good ? 0 : 1;
}
