/* random KIND [CALLS [SEED]]: this many random calls of a kind (limit, instance, ring, transmit, shared, list, any), with
 * arguments in and out of range, on handles of the right kind and of others, unset, freed and moved ones, while allocations
 * fail, and on an instance of any bytes. Each result and all effects are compared with model.h. A difference ends it with
 * the call's number. To be linked with --wrap for malloc, realloc and free. */
#include "any.h"
#include "memory.h"
#include "model.h"
#include <inttypes.h>
#include <stdio.h>
#include <stdlib.h>
#include <string.h>

enum { HANDLES = 24, IDS = 100 };

static uint64_t seed = 1;
static unsigned long call;
static bool seen[128]; /* the numbers that were returned */

/* Results of the calls that make several steps, each with the state before it and with how a poll ended. */
static char met[99][64];
static size_t mets;

static uint32_t below(uint32_t bound) {
    seed = seed * UINT64_C(6364136223846793005) + UINT64_C(1442695040888963407);
    return (uint32_t)((seed >> 33) % bound);
}

/* Now and then much is in flight. */
static bool is_loaded(void) { return call / 512 % 4 == 0; }

static void hold(const char *what, bool holds) {
    if (holds) return;
    printf("call %lu: %s\n", call, what);
    exit(1);
}

/* A call returned what the model returns, and didn't allocate. */
static void want(const char *what, uint32_t said, uint32_t wanted) {
    if (said < 128) seen[said] = true;
    if (said != wanted) {
        printf("call %lu: %s: %s, wanted %s\n", call, what, fq_status_name(said), fq_status_name(wanted));
        exit(1);
    }
    hold("no memory is taken", takes == 0);
}

/* The same, and the result is kept, with the state before the call and with what it led to. */
static void want_in(const char *what, const char *state, uint32_t said, uint32_t wanted, const char *to) {
    char name[sizeof met[0]];
    size_t i = 0;
    want(what, said, wanted);
    snprintf(name, sizeof name, "%s%s: %s%s", what, state, fq_status_name(said), to);
    while (i < mets && strcmp(met[i], name) != 0) i++;
    hold("room for what is met", i < sizeof met / sizeof met[0]);
    if (i == mets) memcpy(met[mets++], name, sizeof name);
}

/* How a poll ended, by its number. */
static const char *how(uint32_t next) {
    static const char *const names[] = {"", ", again", ", to the thread", ", repoll"};
    return next < 4 ? names[next] : ", ?";
}

/* The same for a call that allocates if all else is right: true if it succeeded. `before` is what was on the heap. */
static bool takes_memory(const char *what, uint32_t said, uint32_t wanted, long before) {
    const bool was_refused = refused_take != 0 && takes >= refused_take;
    hold("memory is taken where all else is well", wanted == FQ_OK || takes == 0);
    takes = refused_take = 0;
    if (wanted == FQ_OK && was_refused) wanted = FQ_OUT_OF_MEMORY;
    want(what, said, wanted);
    hold("a refused call leaves nothing", wanted == FQ_OK || blocks == before);
    return wanted == FQ_OK;
}

/* One of the next allocations may fail. */
static long may_refuse(uint32_t most) {
    refused_take = below(3) ? 0 : 1 + (long)below(most);
    return blocks;
}

/* ---- what the handles refer to */

enum what { NOTHING, RING, INPUT, OUTPUT, SENDER, LIST, CALLER, CONTROL };

struct sender {
    unsigned users;
    struct model_limit limit;
    uint32_t sizes[PLACES], places, first, held, sent, done;
    bool stopped, was_stopped;
    struct fq_tx_watchdog watchdog;
    uint32_t was_done;
    uint64_t since;
};

struct shared {
    unsigned users;
    struct model_napi napi;
    bool is_marked;
    struct ring *ring; /* or none */
};

struct lister {
    unsigned users;
    struct model_list list;
};

struct object {
    enum what what;
    struct ring *ring;
    struct sender *sender;
    struct lister *lister;
    struct shared *shared;
    uint32_t who;
    struct fq_answers answers;
};

static union any handles[HANDLES];
static struct object objects[HANDLES];
static struct ring rings[2 * HANDLES];
static struct sender senders[HANDLES];
static struct lister listers[HANDLES];
static struct shared instances[HANDLES];
static uint64_t now;

/* An unused element of an array of these. */
#define UNUSED(array) (&(array)[unused(&(array)[0].users, sizeof (array)[0])])
static size_t unused(const unsigned *users, size_t size) {
    size_t at = 0;
    while (*(const unsigned *)((const char *)users + at * size) != 0) at++;
    return at;
}

static struct object object_of(enum what what) {
    struct object o = {what, NULL, NULL, NULL, NULL, 0, {0, 0, 0, 0, 0, 0, 0, 0}};
    return o;
}

static void forget(struct object *o) {
    if (o->ring != NULL) o->ring->users--;
    if (o->sender != NULL) o->sender->users--;
    if (o->lister != NULL) o->lister->users--;
    if (o->shared != NULL && --o->shared->users == 0 && o->shared->ring != NULL) o->shared->ring->users--;
    *o = object_of(NOTHING);
}

/* A handle: mostly one of such an object. */
static uint32_t one_of(enum what what, enum what other) {
    const uint32_t from = below(HANDLES);
    if (below(16) == 0) return from;
    for (uint32_t i = 0; i < HANDLES; i++) {
        const uint32_t at = (from + i) % HANDLES;
        if (objects[at].what == what || objects[at].what == other) return at;
    }
    return from;
}

/* ---- rings */

static void new_ring(void) {
    const uint32_t i = one_of(NOTHING, NOTHING);
    const size_t places = below(8) ? 1 + below(PLACES) : below(2) ? 0 : 65537 + below(9);
    const uint32_t wanted = objects[i].what != NOTHING ? FQ_IN_USE : places == 0 || places > 65536 ? FQ_BAD_CAPACITY : FQ_OK;
    const long before = may_refuse(6);
    if (!takes_memory("ring new", fq_ring_new(&handles[i].ring, places), wanted, before)) return;
    objects[i] = object_of(RING);
    objects[i].ring = UNUSED(rings);
    *objects[i].ring = (struct ring){.users = 1, .places = places};
}

/* Few rings leave handles for the callers of instances. */
static void only_ring(void) {
    if (objects[one_of(RING, RING)].what != RING) new_ring();
}

static struct fq_packet random_packet(void) { return (struct fq_packet){((uint64_t)below(1 << 30) << 32) + below(1 << 30), below(70000)}; }

static bool takes_puts(const struct object *o) { return o->what == RING || o->what == INPUT; }

static void put(void) {
    const uint32_t i = one_of(RING, INPUT);
    const struct fq_packet packet = random_packet();
    uint32_t wanted = FQ_BAD_HANDLE;
    if (takes_puts(&objects[i])) wanted = put_into(objects[i].ring, &packet, 1) ? FQ_OK : FQ_FULL;
    want("put", fq_ring_put(&handles[i].ring, packet.number, packet.bytes), wanted);
}

static void put_all(void) {
    const uint32_t i = one_of(RING, INPUT);
    struct fq_packet packets[20];
    const size_t many = below(20);
    size_t count = 99, wanted_count = 0;
    uint32_t wanted = FQ_BAD_HANDLE;
    for (size_t k = 0; k < 20; k++) packets[k] = random_packet();
    if (takes_puts(&objects[i])) {
        wanted_count = put_into(objects[i].ring, packets, many);
        wanted = wanted_count == many ? FQ_OK : FQ_FULL;
    }
    want("put all", fq_ring_put_all(&handles[i].ring, packets, many, &count), wanted);
    hold("how many were put", count == wanted_count);
}

/* A poll of the ring returned its first packets; the rest of the array is unchanged. */
static void given(struct ring *r, const struct fq_packet *out, size_t count, size_t weight, uint64_t mark) {
    const size_t most = r == NULL ? 0 : r->held < weight ? r->held : weight;
    hold("a poll's count", count == most);
    for (size_t k = 0; k < 64; k++) {
        const bool is_given = k < most;
        const struct fq_packet *first = is_given ? &r->packets[(r->first + k) % r->places] : NULL;
        hold("a packet", is_given ? out[k].number == first->number && out[k].bytes == first->bytes : out[k].number == mark);
        if (is_given) r->counts.bytes += first->bytes;
    }
    if (r == NULL) return;
    r->first = (r->first + most) % r->places, r->held -= most;
    r->counts.polls++, r->counts.packets += most;
}

typedef uint32_t poll_call(union any *, size_t, struct fq_packet *, size_t, size_t *);
static uint32_t ring_poll(union any *at, size_t weight, struct fq_packet *out, size_t len, size_t *count) { return fq_ring_poll(&at->ring, weight, out, len, count); }
static uint32_t caller_poll(union any *at, size_t weight, struct fq_packet *out, size_t len, size_t *count) { return fq_caller_poll(&at->caller, weight, out, len, count); }

/* A poll of this ring by one of two calls, which is allowed, or returns this status. */
static void polls_by(poll_call *poll, const char *what, uint32_t i, uint32_t wanted, struct ring *r) {
    struct fq_packet out[64];
    const uint64_t mark = UINT64_MAX;
    const size_t weight = below(67), len = below(8) ? 64 : below(64);
    size_t count = 99;
    for (size_t k = 0; k < 64; k++) out[k] = (struct fq_packet){mark, 1};
    if (weight < 1 || weight > 64) wanted = FQ_BAD_WEIGHT;
    else if (len < weight) wanted = FQ_NO_ROOM;
    want(what, poll(&handles[i], weight, out, len, &count), wanted);
    if (wanted == FQ_OK) given(r, out, count, weight, mark);
    else hold("no packets", count == 0 && out[0].number == mark);
}

static void poll_ring(void) {
    const uint32_t i = one_of(RING, OUTPUT);
    const bool has = objects[i].what == RING || objects[i].what == OUTPUT;
    polls_by(ring_poll, "poll of a ring", i, has ? FQ_OK : FQ_BAD_HANDLE, objects[i].ring);
}

static void split(void) {
    const uint32_t i = one_of(RING, RING), k = one_of(NOTHING, NOTHING);
    if (i == k) return;
    const uint32_t wanted = objects[k].what != NOTHING ? FQ_IN_USE : objects[i].what != RING ? FQ_BAD_HANDLE : FQ_OK;
    const long before = may_refuse(2);
    if (!takes_memory("split", fq_ring_split(&handles[i].ring, &handles[k].ring), wanted, before)) return;
    objects[i].what = INPUT;
    objects[k] = object_of(OUTPUT);
    objects[k].ring = objects[i].ring, objects[k].ring->users++;
}

static void finish(void) {
    if (below(8)) return;
    const uint32_t i = one_of(RING, RING);
    struct fq_totals totals = {0, 1, 2, 3, 4};
    const struct ring *r = objects[i].ring;
    const bool is_whole = objects[i].what == RING;
    want("finish", fq_ring_finish(&handles[i].ring, &totals), is_whole ? FQ_OK : FQ_BAD_HANDLE);
    if (!is_whole) hold("totals that stay", totals.put == 1 && totals.polled == 2 && totals.left == 3 && totals.bytes == 4);
    else hold("totals", totals.put == r->put && totals.polled == r->counts.packets && totals.left == r->held && totals.bytes == r->bytes);
    if (is_whole) forget(&objects[i]);
}

static void show_ring(void) {
    const uint32_t i = one_of(RING, INPUT);
    struct fq_ring_shown shown = {0, 7, 8};
    const bool has = takes_puts(&objects[i]);
    want("show of a ring", fq_ring_show(&handles[i].ring, &shown), has ? FQ_OK : FQ_BAD_HANDLE);
    if (has) hold("what it shows", shown.put == objects[i].ring->put && shown.capacity == objects[i].ring->places);
    else hold("what stays", shown.put == 7 && shown.capacity == 8);
}

/* ---- callers */

static struct model_napi *napi_of(const struct object *o) { return &o->shared->napi; }
static bool polls(const struct object *o) { return o->what == CALLER && model_polls(napi_of(o), o->who); }
static bool busy_polls(const struct object *o) { return o->what == CALLER && model_busy_polls(napi_of(o), o->who); }
static bool is_granted(const struct object *o) { return o->what == CALLER && model_owns(napi_of(o), o->who, GRANTED); }
static bool rests(const struct object *o) { return o->what == CALLER && !polls(o) && !busy_polls(o) && !is_granted(o); }

/* Counts a result of the model as a caller counts it, and returns it. */
static uint32_t counted(struct object *o, uint32_t said) {
    struct fq_answers *const a = &o->answers;
    uint64_t *const counts[] = {&a->granted, &a->missed, &a->disabled, &a->released, &a->again, &a->held};
    static const uint32_t numbers[] = {FQ_GRANTED, FQ_MISSED, FQ_DISABLED, FQ_RELEASED, FQ_AGAIN, FQ_HELD};
    for (int k = 0; k < 6; k++) *counts[k] += said == numbers[k];
    return said;
}

/* The result of a call of a caller: made by the model if it is allowed. */
static uint32_t caller_schedules(struct object *o) {
    if (o->what != CALLER) return FQ_BAD_HANDLE;
    return rests(o) ? counted(o, model_schedule(napi_of(o), o->who)) : (uint32_t)FQ_NOT_ALLOWED;
}

static uint32_t caller_completes(struct object *o) {
    if (o->what != CALLER) return FQ_BAD_HANDLE;
    return counted(o, model_complete(napi_of(o), o->who));
}

static uint32_t caller_hands(struct object *o, uint32_t kind) {
    if (kind > FQ_THREAD) return FQ_BAD_KIND;
    if (o->what != CALLER) return FQ_BAD_HANDLE;
    return is_granted(o) ? model_hand(napi_of(o), o->who, kind) : (uint32_t)FQ_NOT_ALLOWED;
}

/* Hands over what was granted, by the word's threaded bit. */
static uint32_t hands_again(struct object *o, uint32_t *next) {
    const uint32_t kind = o->what == CALLER && napi_of(o)->threaded ? FQ_THREAD : FQ_LIST, said = caller_hands(o, kind);
    *next = said != FQ_OK ? FQ_NEXT_GONE : kind == FQ_THREAD ? FQ_NEXT_AGAIN_THREAD : FQ_NEXT_AGAIN;
    return said;
}

static uint32_t caller_takes(struct object *o, uint32_t kind) {
    if (kind > FQ_THREAD) return FQ_BAD_KIND;
    if (o->what != CALLER) return FQ_BAD_HANDLE;
    return rests(o) ? model_take(napi_of(o), o->who, kind) : (uint32_t)FQ_NOT_ALLOWED;
}

static uint32_t random_caller(void) { return one_of(CALLER, CALLER); }

/* Mostly one in such a state. */
static uint32_t caller_that(bool is_so(const struct object *)) {
    const uint32_t from = random_caller();
    for (uint32_t i = 0; i < HANDLES && below(8) != 0; i++)
        if (is_so(&objects[(from + i) % HANDLES])) return (from + i) % HANDLES;
    return from;
}

static bool may_end(const struct object *o) { return polls(o) || busy_polls(o); }

/* Rarely out of range. */
static uint32_t random_kind(void) { return below(9) ? below(2) : 2 + below(2); }

static void caller_call(void) {
    const uint32_t which = below(12), i = which == 9 ? caller_that(may_end) : which == 10 ? caller_that(is_granted) : random_caller(), kind = random_kind();
    struct object *const o = &objects[i];
    const uint32_t other = o->what == CALLER ? FQ_NOT_ALLOWED : FQ_BAD_HANDLE;
    uint32_t next = 99, wanted, wanted_next;
    switch (which) {
    case 0: want("schedule", fq_caller_schedule(&handles[i].caller), caller_schedules(o)); break;
    case 1: want("hand", fq_caller_hand(&handles[i].caller, kind), caller_hands(o, kind)); break;
    case 2:
    case 3: want("take", fq_caller_take(&handles[i].caller, kind), caller_takes(o, kind)); break;
    case 4: want("requeue", fq_caller_requeue(&handles[i].caller), polls(o) ? model_hand(napi_of(o), o->who, FQ_LIST) : other); break;
    case 5: want("complete", fq_caller_complete(&handles[i].caller), caller_completes(o)); break;
    case 6: want("busy take", fq_caller_busy_take(&handles[i].caller), rests(o) ? model_busy_take(napi_of(o), o->who) : other); break;
    case 7: want("busy stop", fq_caller_busy_stop(&handles[i].caller), busy_polls(o) ? model_busy_stop(napi_of(o), o->who) : other); break;
    case 8: want_in("schedule prep", "", fq_caller_schedule_prep(&handles[i].caller), caller_schedules(o), ""); break;
    case 9: want_in("complete done", "", fq_caller_complete_done(&handles[i].caller), caller_completes(o), ""); break;
    case 10:
        wanted = hands_again(o, &wanted_next);
        want_in("hand again", "", fq_caller_hand_again(&handles[i].caller, &next), wanted, how(wanted_next));
        hold("where it was handed", next == wanted_next);
        break;
    default:
        if (rests(o)) napi_of(o)->threaded = kind & 1;
        want("set threaded", fq_caller_set_threaded(&handles[i].caller, kind & 1), rests(o) ? FQ_OK : other);
    }
}

static void poll_caller(void) {
    const uint32_t i = random_caller();
    struct object *const o = &objects[i];
    const uint32_t wanted = polls(o) || busy_polls(o) ? FQ_OK : o->what == CALLER ? FQ_NOT_ALLOWED : FQ_BAD_HANDLE;
    polls_by(caller_poll, "poll of a caller", i, wanted, wanted == FQ_OK ? o->shared->ring : NULL);
}

/* The ring whose polls are counted for the owner of its poll end, or none. */
static struct ring *counted_ring(const struct object *o) {
    static struct ring none; /* of a bare instance nothing is compared */
    const bool is_end = o->what == RING || o->what == OUTPUT;
    const bool is_owner = polls(o) || busy_polls(o) || (o->what == CONTROL && napi_of(o)->place == CONTROLLED && !o->shared->is_marked);
    if (is_end) return o->ring;
    if (!is_owner) return NULL;
    return o->shared->ring != NULL ? o->shared->ring : &none;
}

/* Whether two structs are the same after their sizes, which the model doesn't set. */
static bool same_after_size(const void *one, const void *other, size_t size) {
    return memcmp((const char *)one + sizeof size, (const char *)other + sizeof size, size - sizeof size) == 0;
}

static void counts(void) {
    const uint32_t i = one_of((enum what)below(CONTROL + 1), CALLER);
    struct fq_counts counts = {0, 1, 2, 3};
    const struct ring *r = counted_ring(&objects[i]);
    const uint32_t wanted = r != NULL ? FQ_OK : objects[i].what == NOTHING ? FQ_BAD_HANDLE : FQ_NOT_ALLOWED;
    want("count", fq_count(&handles[i].handle, &counts), wanted);
    if (wanted != FQ_OK) hold("counts that stay", counts.polls == 1 && counts.packets == 2 && counts.bytes == 3);
    else if (r->places != 0) hold("the counts", same_after_size(&counts, &r->counts, sizeof counts));
}

static void look(void) {
    const uint32_t i = random_caller();
    const struct object *o = &objects[i];
    uint64_t word = 77;
    struct fq_answers answers = {0, 9, 9, 9, 9, 9, 9, 9};
    const uint32_t wanted = o->what == CALLER ? FQ_OK : FQ_BAD_HANDLE;
    want("look", fq_caller_look(&handles[i].caller, &word), wanted);
    hold("the word", word == (wanted == FQ_OK ? model_word(napi_of(o)) : 77));
    want("count of a caller", fq_caller_count(&handles[i].caller, &answers), wanted);
    if (wanted == FQ_OK) hold("how often it was answered what", same_after_size(&answers, &o->answers, sizeof answers));
    else hold("answers that stay", answers.granted == 9 && answers.changed == 9);
}

/* A card, which records what was done with it. */
static bool is_masked, is_there;
static size_t most_asked, polled_more;
static void mask(void *at) { (void)at, is_masked = true; }
static void unmask(void *at) { (void)at, is_masked = false; }
static bool look_at(void *at) { return (void)at, is_there; }
static size_t poll_at(void *at, size_t most) { return (void)at, most_asked = most, polled_more = below((uint32_t)most + 1); }
static const struct fq_card card = {NULL, mask, unmask, look_at, poll_at};

static void interrupt(void) {
    const uint32_t i = random_caller(), kind = random_kind();
    uint32_t wanted = FQ_BAD_KIND;
    if (kind <= FQ_THREAD) wanted = caller_schedules(&objects[i]);
    if (wanted == FQ_GRANTED) hold("the model hands", caller_hands(&objects[i], kind) == FQ_OK);
    is_masked = false;
    want("an interrupt", fq_caller_interrupt_masked(&handles[i].caller, kind, &card), wanted);
    hold("masked exactly where it was granted", is_masked == (wanted == FQ_GRANTED));
}

static void request(void) {
    const uint32_t i = random_caller();
    uint32_t next = 99, wanted_next = FQ_NEXT_GONE;
    const uint32_t wanted = caller_schedules(&objects[i]);
    if (wanted == FQ_GRANTED) hold("the model hands", hands_again(&objects[i], &wanted_next) == FQ_OK);
    is_masked = false;
    want("a request", fq_caller_request(&handles[i].caller, &card, &next), wanted);
    hold("where it was queued", next == wanted_next);
    hold("masked exactly if it was granted", is_masked == (wanted == FQ_GRANTED));
}

/* The model's end of a poll, full or not. */
static uint32_t ends(struct object *o, bool full, uint32_t *next) {
    *next = FQ_NEXT_GONE;
    if (o->what != CALLER) return FQ_BAD_HANDLE;
    if (polls(o) && full && !napi_of(o)->disable) {
        if (napi_of(o)->sched_threaded) return FQ_HELD;
        *next = FQ_NEXT_REPOLL;
        return model_hand(napi_of(o), o->who, FQ_LIST);
    }
    const uint32_t said = caller_completes(o);
    if (said == FQ_AGAIN) return hands_again(o, next);
    return said == FQ_RELEASED ? (uint32_t)FQ_OK : said;
}

/* Whether a caller polls, and from where, and whether a disable is pending. */
static const char *polling_of(const struct object *o) {
    if (busy_polls(o)) return napi_of(o)->disable ? ", busy, disabled" : ", busy";
    if (!polls(o)) return "";
    if (napi_of(o)->sched_threaded) return napi_of(o)->disable ? ", thread, disabled" : ", thread";
    return napi_of(o)->disable ? ", list, disabled" : ", list";
}

static void end(void) {
    const uint32_t i = caller_that(may_end);
    const bool full = below(2);
    const char *state = polling_of(&objects[i]);
    uint32_t next = 99, wanted_next;
    const uint32_t wanted = ends(&objects[i], full, &wanted_next);
    want_in(full ? "full end" : "end", state, fq_caller_end(&handles[i].caller, full, &next), wanted, how(wanted_next));
    hold("how it ended", next == wanted_next);
}

static void end_watched(void) {
    const uint32_t i = caller_that(may_end);
    const bool full = below(2);
    uint32_t next = 99, wanted_next;
    const uint32_t wanted = ends(&objects[i], full, &wanted_next);
    bool wanted_masked = true;
    is_masked = true, is_there = below(2);
    if (wanted == FQ_OK && wanted_next == FQ_NEXT_GONE) {
        wanted_masked = is_there && caller_schedules(&objects[i]) == FQ_GRANTED;
        if (wanted_masked) hold("the model hands", hands_again(&objects[i], &wanted_next) == FQ_OK);
    }
    want("end, watched", fq_caller_end_watched(&handles[i].caller, full, &card, &next), wanted);
    hold("how it ended, watched", next == wanted_next);
    hold("masked, watched", is_masked == wanted_masked);
}

static void end_unmasked(void) {
    const uint32_t i = caller_that(may_end);
    struct object *const o = &objects[i];
    const size_t weight = below(67), before = below((uint32_t)weight + 1);
    size_t work = before;
    uint32_t next = 99, wanted_next = FQ_NEXT_GONE, wanted = FQ_BAD_WEIGHT;
    const bool asks = before < weight && polls(o) && weight - 1 < 64;
    is_masked = true, most_asked = polled_more = 0;
    const uint32_t said = fq_caller_end_unmasked(&handles[i].caller, &card, weight, &work, &next);
    if (weight - 1 < 64) wanted = ends(o, work == weight, &wanted_next);
    want("end, unmasked", said, wanted);
    hold("how it ended, unmasked", next == wanted_next);
    hold("the rest of the weight", most_asked == (asks ? weight - before : 0) && work == before + polled_more);
    hold("masked, unmasked", is_masked == (!asks || work == weight || wanted_next != FQ_NEXT_GONE));
}

/* ---- shared instances */

/* Callers in adjacent elements, and elements for the others that aren't among them. */
static bool is_apart(uint32_t at, uint32_t from, uint32_t count, uint32_t other) { return at != other && (at < from || at >= from + count); }

static bool is_one_set(uint32_t from, uint32_t count) {
    for (uint32_t i = 0; i < count; i++)
        if (objects[from + i].what != NOTHING) return true;
    return false;
}

static void new_shared(void) {
    const uint32_t count = below(16) ? 2 + below(3) : below(11), from = below(HANDLES - count);
    const uint32_t ring = one_of(RING, RING), control = one_of(NOTHING, NOTHING);
    const bool is_bare = below(4) == 0;
    if (!is_apart(ring, from, count, control) || !is_apart(control, from, count, ring)) return;
    uint32_t wanted = FQ_OK;
    if (objects[control].what != NOTHING || is_one_set(from, count)) wanted = FQ_IN_USE;
    else if (count < 2 || count > 8) wanted = FQ_BAD_COUNT;
    else if (!is_bare && objects[ring].what != RING) wanted = FQ_BAD_HANDLE;
    const long before = may_refuse(12);
    const uint32_t said = is_bare ? fq_shared_bare(&handles[control].control, &handles[from].caller, count)
                                  : fq_shared_new(&handles[ring].ring, &handles[control].control, &handles[from].caller, count);
    if (!takes_memory("shared", said, wanted, before)) return;
    struct shared *const s = UNUSED(instances);
    *s = (struct shared){count + 1, model_napi_new(count), false, is_bare ? NULL : objects[ring].ring};
    if (!is_bare) objects[ring].what = INPUT, s->ring->users++;
    objects[control] = object_of(CONTROL), objects[control].shared = s;
    for (uint32_t i = 0; i < count; i++) objects[from + i] = object_of(CALLER), objects[from + i].shared = s, objects[from + i].who = i;
}

/* The controller's own mode: a disable that it marked is pending until it took the instance. */
static bool is_off(const struct object *o) { return o->what == CONTROL && napi_of(o)->place == CONTROLLED && !o->shared->is_marked; }
static bool is_on(const struct object *o) { return o->what == CONTROL && napi_of(o)->place != CONTROLLED && !o->shared->is_marked; }

static uint32_t control_takes(struct object *o) {
    if (!o->shared->is_marked) return FQ_NOT_ALLOWED;
    const uint32_t said = model_take_disable(napi_of(o), napi_of(o)->controller);
    if (said == FQ_TAKEN) o->shared->is_marked = false, hold("the model unmarks", model_unmark(napi_of(o), napi_of(o)->controller) == FQ_OK);
    return said;
}

static uint32_t control_marks(struct object *o) {
    if (!is_on(o)) return FQ_NOT_ALLOWED;
    o->shared->is_marked = true;
    return model_mark(napi_of(o), napi_of(o)->controller);
}

static uint32_t control_enables(struct object *o, bool threaded) {
    return is_off(o) ? model_enable(napi_of(o), napi_of(o)->controller, threaded) : (uint32_t)FQ_NOT_ALLOWED;
}

/* Disables are rare, so that most polls are of an instance that isn't being disabled. */
static void control_call(void) {
    const uint32_t i = one_of(CONTROL, CONTROL), which = below(12);
    struct object *const o = &objects[i];
    const bool threaded = below(2), is_control = o->what == CONTROL;
    const char *state = !is_control ? "" : is_off(o) ? ", off" : is_on(o) ? ", on" : ", marked";
    if (which < 4) want("enable", fq_control_enable(&handles[i].control, threaded), is_control ? control_enables(o, threaded) : FQ_BAD_HANDLE);
    else if (which < 5) want("mark", fq_control_mark(&handles[i].control), is_control ? control_marks(o) : FQ_BAD_HANDLE);
    else if (which < 8) want("try to take", fq_control_try_take(&handles[i].control), is_control ? control_takes(o) : FQ_BAD_HANDLE);
    else if (which < 11) want_in("step on", state, fq_control_step(&handles[i].control, true, threaded), is_control ? control_enables(o, threaded) : FQ_BAD_HANDLE, "");
    else {
        uint32_t wanted = is_control ? FQ_OK : FQ_BAD_HANDLE;
        if (is_on(o)) control_marks(o);
        if (is_control && o->shared->is_marked && control_takes(o) != FQ_TAKEN) wanted = FQ_BUSY;
        want_in("step off", state, fq_control_step(&handles[i].control, false, threaded), wanted, "");
    }
}

/* ---- transmit rings */

/* The size of an object: about the greatest that one may have, or that may be in flight, or far smaller. */
static uint32_t random_object(const struct model_limit *l) {
    const uint64_t room = l != NULL ? 1073741823 - model_in_flight(l) : 0;
    if (below(is_loaded() ? 4 : 50)) return below(3000);
    return below(2) && room < 268435455 ? (uint32_t)room + below(2) : UINT32_C(268435457) - below(3);
}

static void new_sender(void) {
    const uint32_t i = one_of(NOTHING, NOTHING), greatest = UINT32_C(1879048192), max = below(8) ? greatest - below(2) : below(6000);
    const uint32_t min = below(2) ? 0 : below(2) ? below(3000) : greatest - 2;
    const size_t places = below(8) ? 1 + below(PLACES) : below(2) ? 0 : 65537;
    const uint64_t hold_ms = below(2000);
    struct model_limit limit;
    uint32_t wanted = objects[i].what != NOTHING ? (uint32_t)FQ_IN_USE : model_limit_new(&limit, min, max, hold_ms, now);
    if (wanted == FQ_OK && (places < 1 || places > 65536)) wanted = FQ_BAD_CAPACITY;
    const long before = may_refuse(3);
    if (!takes_memory("tx new", fq_tx_new(&handles[i].tx, places, min, max, hold_ms, now), wanted, before)) return;
    objects[i] = object_of(SENDER);
    objects[i].sender = UNUSED(senders);
    *objects[i].sender = (struct sender){.users = 1, .limit = limit, .places = (uint32_t)places};
}

static uint32_t sends(struct sender *s, uint32_t bytes) {
    uint32_t said = s->stopped ? FQ_STOPPED : s->held == s->places ? FQ_FULL : FQ_OK;
    if (said == FQ_OK) said = model_queued(&s->limit, bytes);
    if (said != FQ_OK) return said;
    s->sizes[(s->first + s->held++) % s->places] = bytes;
    s->sent += bytes;
    s->stopped = model_avail(&s->limit) < 0;
    return FQ_OK;
}

static void send(void) {
    const uint32_t i = one_of(SENDER, SENDER), bytes = random_object(objects[i].sender != NULL ? &objects[i].sender->limit : NULL);
    want("send", fq_tx_send(&handles[i].tx, bytes), objects[i].what == SENDER ? sends(objects[i].sender, bytes) : FQ_BAD_HANDLE);
}

static uint32_t is_done(struct sender *s, uint32_t count) {
    uint32_t bytes = 0;
    if (count > s->held) return FQ_MORE_THAN_SENT;
    for (uint32_t k = 0; k < count; k++) bytes += s->sizes[(s->first + k) % s->places];
    s->first = (s->first + count) % s->places, s->held -= count, s->done += bytes;
    if (bytes == 0) return FQ_OK;
    hold("the model completes", model_completed(&s->limit, bytes, now) == FQ_OK);
    s->stopped = s->stopped && model_avail(&s->limit) < 0;
    return FQ_OK;
}

static void done(void) {
    const uint32_t i = one_of(SENDER, SENDER), count = below(is_loaded() ? 2 : 7);
    now += below(300);
    want("done", fq_tx_done(&handles[i].tx, count, now), objects[i].what == SENDER ? is_done(objects[i].sender, count) : FQ_BAD_HANDLE);
}

static void show_sender(void) {
    const uint32_t i = one_of(SENDER, SENDER);
    struct fq_tx_shown shown = {0, 1, 2, 3, 4, true};
    const struct sender *s = objects[i].sender;
    want("state", fq_tx_state(&handles[i].tx, &shown), s != NULL ? FQ_OK : FQ_BAD_HANDLE);
    if (s == NULL) hold("a state that stays", shown.queued == 1 && shown.completed == 2 && shown.limit == 3 && shown.avail == 4 && shown.stopped);
    else hold("the state", shown.queued == s->sent && shown.completed == s->done && shown.limit == s->limit.limit &&
                               shown.avail == model_avail(&s->limit) && shown.stopped == s->stopped);
}

/* Whether it has been stopped for this long, with nothing completed, by a clock that may go back. */
static void watch(void) {
    static struct fq_tx_watchdog none;
    const uint32_t i = one_of(SENDER, SENDER);
    struct sender *const s = objects[i].sender;
    bool stuck = true;
    const uint64_t at = model_minus(now, below(8) ? 0 : below(900)), limit_ms = below(8) ? 500 : 0;
    if (s != NULL && (!s->stopped || !s->was_stopped || s->was_done != s->done)) s->was_stopped = s->stopped, s->was_done = s->done, s->since = at;
    const bool wanted = s != NULL && s->stopped && model_minus(at, s->since) >= limit_ms;
    const char *state = s == NULL ? "" : !s->stopped ? ", started" : at < s->since ? ", stopped, back" : ", stopped";
    want_in("watch", state, fq_tx_watch(&handles[i].tx, s != NULL ? &s->watchdog : &none, limit_ms, at, &stuck), s != NULL ? FQ_OK : FQ_BAD_HANDLE, wanted ? ", stuck" : "");
    hold("stuck", stuck == wanted);
    hold("a watchdog that stays", !none.private_stopped && none.private_completed == 0 && none.private_since == 0);
    now += below(100);
}

/* ---- lists and runs */

static void new_list(void) {
    const uint32_t i = one_of(NOTHING, NOTHING);
    const long before = may_refuse(2);
    if (!takes_memory("list new", fq_list_new(&handles[i].list), objects[i].what != NOTHING ? FQ_IN_USE : FQ_OK, before)) return;
    objects[i] = object_of(LIST);
    objects[i].lister = UNUSED(listers);
    *objects[i].lister = (struct lister){.users = 1};
}

static void push(struct fq_list *at, struct model_list *l) {
    const uint32_t id = below(IDS);
    want("push", fq_list_push(at, id), l != NULL ? model_push(l, id) : FQ_BAD_HANDLE);
}

static void remove_number(struct fq_list *at, struct model_list *l) {
    const uint32_t id = below(IDS);
    want("remove", fq_list_remove(at, id), l != NULL ? model_remove(l, id) : FQ_BAD_HANDLE);
}

static void begin(struct fq_list *at, struct model_list *l) {
    const uint32_t budget = below(200), weight = below(66), window = below(40);
    want("begin", fq_run_begin(at, budget, weight, window), l != NULL ? model_begin(l, budget, weight, window) : FQ_BAD_HANDLE);
}

static void next(struct fq_list *at, struct model_list *l) {
    uint32_t id = 777, wanted_id = 777;
    const uint32_t wanted = l != NULL ? model_next(l, &wanted_id) : FQ_BAD_HANDLE;
    want("next", fq_run_next(at, &id), wanted);
    hold("the next number", id == wanted_id);
}

static void polled(struct fq_list *at, struct model_list *l) {
    const uint32_t work = below(8) ? below(10) : below(67), how = below(16) ? below(5) : 5 + below(2);
    want("polled", fq_run_polled(at, work, how), l != NULL ? model_polled(l, work, how) : FQ_BAD_HANDLE);
}

static void end_run(struct fq_list *at, struct model_list *l) {
    struct fq_run_report report, wanted_report;
    memset(&report, 0, sizeof report);
    wanted_report = report;
    const uint32_t wanted = l != NULL ? model_end(l, &wanted_report) : FQ_BAD_HANDLE;
    want("end of a run", fq_run_end(at, &report), wanted);
    hold("its report", report.polls == wanted_report.polls && report.work == wanted_report.work && report.squeezed == wanted_report.squeezed);
}

static void length(struct fq_list *at, struct model_list *l) {
    uint32_t len = 777;
    want("length", fq_list_len(at, &len), l != NULL ? FQ_OK : FQ_BAD_HANDLE);
    hold("the length", len == (l != NULL ? model_len(l) : 777));
}

static void call_of_list(void) {
    static void (*const calls[])(struct fq_list *, struct model_list *) = {push, push, push, begin, next, next, next, next, polled, polled, polled, polled, end_run, length, remove_number};
    const uint32_t i = one_of(LIST, LIST);
    calls[below(sizeof calls / sizeof calls[0])](&handles[i].list, objects[i].lister != NULL ? &objects[i].lister->list : NULL);
}

/* ---- any handle */

static void move(void) {
    const uint32_t i = below(HANDLES), k = below(HANDLES);
    if (i == k) return;
    const uint32_t wanted = objects[k].what != NOTHING ? FQ_IN_USE : objects[i].what == NOTHING ? FQ_BAD_HANDLE : FQ_OK;
    want("move", fq_move(&handles[i].handle, &handles[k].handle), wanted);
    if (wanted == FQ_OK) objects[k] = objects[i], objects[i] = object_of(NOTHING);
}

static bool is_freeable(const struct object *o) {
    switch (o->what) {
    case CALLER: return rests(o);
    case CONTROL: return is_off(o);
    case LIST: return !o->lister->list.runs;
    default: return true;
    }
}

static void give_up(void) {
    const uint32_t i = below(HANDLES);
    struct object *const o = &objects[i];
    const bool is_abandoned = below(4) == 0;
    const uint32_t wanted = o->what == NOTHING ? FQ_BAD_HANDLE : is_abandoned || is_freeable(o) ? FQ_OK : FQ_NOT_ALLOWED;
    const long before = blocks;
    want(is_abandoned ? "abandon" : "free", is_abandoned ? fq_abandon(&handles[i].handle) : fq_free(&handles[i].handle), wanted);
    hold("what is freed is freed", wanted == FQ_OK ? blocks < before : blocks == before);
    if (wanted == FQ_OK) forget(o);
}

static void any_handle(void) {
    if (below(4)) move();
    else if (below(6) == 0) give_up();
}

/* ---- objects in the caller's memory */

static void limit_call(void) {
    static struct fq_dql dql;
    static struct model_limit l = {.lowest = UINT32_MAX};
    const uint32_t which = below(call == 0 ? 1 : 1000), min = below(3) ? 0 : below(4000), max = below(4) ? UINT32_C(1879048192) + below(2) : below(8000);
    const uint32_t last_queued = is_loaded() ? 900 : 520;
    const uint64_t hold_ms = below(3000);
    now += below(400);
    if (which < 3) {
        struct model_limit fresh = l;
        const uint32_t wanted = model_limit_new(&fresh, min, max, hold_ms, now);
        want("init", fq_dql_init(&dql, min, max, hold_ms, now), wanted);
        l = fresh;
    } else if (which < 5) {
        fq_dql_reset(&dql, now);
        hold("the model starts over", model_limit_new(&l, (uint32_t)l.min, (uint32_t)l.max, l.hold, now) == FQ_OK);
    } else if (which < last_queued) {
        const uint32_t count = random_object(&l);
        want("queued", fq_dql_queued(&dql, count), model_queued(&l, count));
    } else {
        const uint32_t flight = (uint32_t)model_in_flight(&l), count = below(50) ? below(flight + 1) : flight + below(2);
        want("completed", fq_dql_completed(&dql, count, now), model_completed(&l, count, now));
    }
    hold("the limit", fq_dql_limit(&dql) == l.limit && fq_dql_limit_here(&dql) == l.limit);
    hold("in flight", fq_dql_in_flight(&dql) == model_in_flight(&l) && fq_dql_in_flight_here(&dql) == model_in_flight(&l));
    hold("available", fq_dql_avail(&dql) == model_avail(&l) && fq_dql_avail_here(&dql) == model_avail(&l));
}

/* The state that a struct's bytes represent. */
static struct model_napi state_of(const struct fq_napi *n) {
    const uint8_t place = n->place > 5 ? 5 : n->place;
    return (struct model_napi){n->sched != 0, n->missed != 0, n->disable != 0, n->npsvc != 0, n->in_busy_poll != 0, n->threaded != 0, n->sched_threaded != 0,
        (enum model_place)place, place == 1 || place >= 4 ? n->owner : 0, n->controller};
}

static uint32_t step_of(struct fq_napi *n, struct model_napi *m, uint32_t who, uint32_t which, uint32_t kind, uint32_t *wanted) {
    const bool threaded = kind & 1;
    switch (which) {
    case 0: *wanted = model_schedule(m, who); return fq_napi_schedule(n, who);
    case 1: *wanted = model_hand(m, who, kind); return fq_napi_hand(n, who, kind);
    case 2: *wanted = model_take(m, who, kind); return fq_napi_take(n, who, kind);
    case 3: *wanted = model_complete(m, who); return fq_napi_complete(n, who);
    case 4: *wanted = model_busy_take(m, who); return fq_napi_busy_take(n, who);
    case 5: *wanted = model_busy_stop(m, who); return fq_napi_busy_stop(n, who);
    case 6: *wanted = model_mark(m, who); return fq_napi_mark_disable(n, who);
    case 7: *wanted = model_take_disable(m, who); return fq_napi_take_disable(n, who);
    case 8: *wanted = model_unmark(m, who); return fq_napi_unmark(n, who);
    case 9: *wanted = model_enable(m, who, threaded); return fq_napi_enable(n, who, threaded);
    default: m->threaded = threaded, *wanted = FQ_OK, fq_napi_set_threaded(n, who, threaded); return FQ_OK;
    }
}

/* Whatever the bytes are, each call returns what it should in the state that they represent, and a call that fails changes
 * no byte. */
static void instance_call(void) {
    static struct fq_napi napi;
    const uint32_t afresh = below(call == 0 ? 1 : 40), who = below(4), which = below(11);
    if (afresh < 2) napi = fq_napi_new(below(4));
    else if (afresh < 6)
        for (size_t k = 0; k < sizeof napi; k++) ((unsigned char *)&napi)[k] = (unsigned char)(k < 8 ? below(3) * below(256) : k % 4 ? 0 : below(4));
    if (afresh < 6 && below(2)) napi.place = (uint8_t)below(7);
    struct model_napi m = state_of(&napi);
    const struct fq_napi before = napi;
    uint32_t wanted;
    hold("its word", fq_napi_word(&napi) == model_word(&m));
    const uint32_t said = step_of(&napi, &m, who, which, random_kind(), &wanted);
    want("a call of an instance", said, wanted);
    const struct model_napi after = state_of(&napi);
    hold("its state", model_word(&after) == model_word(&m) && after.place == m.place && after.owner == m.owner && after.controller == m.controller);
    hold("no byte was written", said < FQ_NOT_ALLOWED || memcmp(&before, &napi, sizeof napi) == 0);
}

static void word_call(void) {
    static struct fq_word word;
    static uint64_t bits;
    const uint32_t bit = below(64);
    hold("any", fq_word_any(&word) == (bits != 0));
    if (below(4)) hold("raise", fq_word_raise(&word, bit) == (bits == 0)), bits |= UINT64_C(1) << bit;
    else hold("take", fq_word_take(&word) == bits), bits = 0;
}

typedef void a_call(void);
static a_call *const ring_calls[] = {new_ring, put, put, put_all, put_all, poll_ring, poll_ring, split, finish, show_ring, counts, any_handle};
static a_call *const sender_calls[] = {new_sender, send, send, send, done, done, show_sender, watch, any_handle};
static a_call *const shared_calls[] = {only_ring, new_shared, put, put_all, caller_call, caller_call, caller_call, caller_call, poll_caller, look, counts, interrupt, request, end, end_watched,
    end_unmasked, control_call, control_call, any_handle};
static a_call *const list_calls[] = {new_list, call_of_list, call_of_list, call_of_list, call_of_list, call_of_list, call_of_list, any_handle};
static a_call *const limit_calls[] = {limit_call};
static a_call *const instance_calls[] = {instance_call, instance_call, instance_call, word_call};
static a_call *const any_calls[] = {new_ring, put, put_all, poll_ring, split, finish, show_ring, new_sender, send, done, watch, new_shared, caller_call, caller_call, poll_caller,
    look, counts, interrupt, request, end, end_watched, end_unmasked, control_call, new_list, call_of_list, call_of_list, any_handle, limit_call, instance_call};

static const char *const no_cases[] = {NULL};
static const char *const sender_cases[] = {"watch, started: FQ_OK", "watch, stopped: FQ_OK", "watch, stopped: FQ_OK, stuck", "watch, stopped, back: FQ_OK", "watch: FQ_BAD_HANDLE", NULL};
static const char *const shared_cases[] = {
    "schedule prep: FQ_GRANTED", "schedule prep: FQ_MISSED", "schedule prep: FQ_DISABLED", "schedule prep: FQ_NOT_ALLOWED", "schedule prep: FQ_BAD_HANDLE",
    "complete done: FQ_RELEASED", "complete done: FQ_AGAIN", "complete done: FQ_HELD", "complete done: FQ_NOT_ALLOWED", "complete done: FQ_BAD_HANDLE",
    "hand again: FQ_OK, again", "hand again: FQ_OK, to the thread", "hand again: FQ_NOT_ALLOWED", "hand again: FQ_BAD_HANDLE",
    "full end, list: FQ_OK, repoll", "full end, list, disabled: FQ_OK", "full end, list, disabled: FQ_OK, again", "full end, list, disabled: FQ_OK, to the thread",
    "full end, thread: FQ_HELD", "full end, thread, disabled: FQ_OK", "full end, thread, disabled: FQ_OK, again", "full end, thread, disabled: FQ_OK, to the thread",
    "end, list: FQ_OK", "end, list: FQ_OK, again", "end, list: FQ_OK, to the thread", "end, list, disabled: FQ_OK",
    "end, thread: FQ_OK", "end, thread: FQ_OK, again", "end, thread: FQ_OK, to the thread", "end, thread, disabled: FQ_OK",
    "full end, busy: FQ_HELD", "full end, busy, disabled: FQ_HELD", "end, busy: FQ_HELD", "end, busy, disabled: FQ_HELD",
    "full end: FQ_NOT_ALLOWED", "full end: FQ_BAD_HANDLE", "end: FQ_NOT_ALLOWED", "end: FQ_BAD_HANDLE",
    "step on, off: FQ_OK", "step on, on: FQ_NOT_ALLOWED", "step on, marked: FQ_NOT_ALLOWED", "step on: FQ_BAD_HANDLE",
    "step off, off: FQ_OK", "step off, on: FQ_OK", "step off, on: FQ_BUSY", "step off, marked: FQ_OK", "step off, marked: FQ_BUSY", "step off: FQ_BAD_HANDLE", NULL};

#define KIND(name, calls, cases, ...) {name, calls, sizeof (calls) / sizeof (calls)[0], cases, {__VA_ARGS__}}
static const struct kind {
    const char *name;
    a_call *const *calls;
    size_t count;
    const char *const *cases; /* each of which is met in a million calls, */
    uint32_t answers[24];     /* and each of these returned */
} kinds[] = {
    KIND("limit", limit_calls, no_cases, FQ_BAD_BOUNDS, FQ_TOO_LARGE, FQ_TOO_MUCH_IN_FLIGHT, FQ_MORE_THAN_QUEUED),
    KIND("instance", instance_calls, no_cases, FQ_GRANTED, FQ_MISSED, FQ_DISABLED, FQ_TAKEN, FQ_NOT_THERE, FQ_RELEASED, FQ_AGAIN, FQ_HELD, FQ_BUSY, FQ_NOT_ALLOWED, FQ_BAD_KIND),
    KIND("ring", ring_calls, no_cases, FQ_FULL, FQ_BAD_HANDLE, FQ_IN_USE, FQ_OUT_OF_MEMORY, FQ_BAD_CAPACITY, FQ_BAD_WEIGHT, FQ_NO_ROOM, FQ_NOT_ALLOWED),
    KIND("transmit", sender_calls, sender_cases, FQ_BAD_BOUNDS, FQ_TOO_LARGE, FQ_TOO_MUCH_IN_FLIGHT, FQ_FULL, FQ_STOPPED, FQ_MORE_THAN_SENT, FQ_BAD_HANDLE, FQ_IN_USE, FQ_OUT_OF_MEMORY, FQ_BAD_CAPACITY),
    KIND("shared", shared_calls, shared_cases, FQ_GRANTED, FQ_MISSED, FQ_DISABLED, FQ_TAKEN, FQ_NOT_THERE, FQ_RELEASED, FQ_AGAIN, FQ_HELD, FQ_BUSY, FQ_FULL, FQ_NOT_ALLOWED, FQ_BAD_KIND,
        FQ_BAD_HANDLE, FQ_IN_USE, FQ_OUT_OF_MEMORY, FQ_BAD_COUNT, FQ_BAD_WEIGHT, FQ_NO_ROOM),
    KIND("list", list_calls, no_cases, FQ_NOT_THERE, FQ_BUSY, FQ_FULL, FQ_DONE, FQ_NOT_ALLOWED, FQ_BAD_HANDLE, FQ_IN_USE, FQ_OUT_OF_MEMORY, FQ_BAD_WEIGHT, FQ_BAD_BUDGET, FQ_BAD_NEXT, FQ_BAD_WORK),
    KIND("any", any_calls, no_cases, FQ_FULL, FQ_BAD_HANDLE, FQ_IN_USE, FQ_OUT_OF_MEMORY),
};

int main(int count, char **words) {
    const struct kind *kind = kinds;
    const unsigned long calls = count > 2 ? strtoul(words[2], NULL, 10) : 1000000;
    if (count > 3) seed = strtoull(words[3], NULL, 10);
    while (kind < kinds + sizeof kinds / sizeof kinds[0] && (count < 2 || strcmp(kind->name, words[1]) != 0)) kind++;
    if (kind == kinds + sizeof kinds / sizeof kinds[0]) return fputs("usage: random limit|instance|ring|transmit|shared|list|any [CALLS [SEED]]\n", stderr), 2;
    for (call = 0; call < calls; call++) kind->calls[below((uint32_t)kind->count)]();
    for (uint32_t i = 0; i < HANDLES; i++) want("the end", fq_abandon(&handles[i].handle), objects[i].what == NOTHING ? FQ_BAD_HANDLE : FQ_OK);
    hold("something is left on the heap", blocks == 0);
    for (const uint32_t *answer = kind->answers; calls >= 1000000 && *answer != 0; answer++)
        if (!seen[*answer]) return printf("never answered: %s\n", fq_status_name(*answer)), 1;
    for (const char *const *one = kind->cases; calls >= 1000000 && *one != NULL; one++) {
        size_t i = 0;
        while (i < mets && strcmp(met[i], *one) != 0) i++;
        if (i == mets) return printf("never met: %s\n", *one), 1;
    }
    printf("%lu calls of %s, each answered as it has to be\n", calls, kind->name);
    return 0;
}
