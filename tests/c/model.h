/* A model of what the library's calls return, for random.c: written from the kernel's source and from fintaqush.h, with
 * plain structs. Nothing here calls the library. */
#ifndef MODEL_H
#define MODEL_H

#include <fintaqush.h>

static inline uint64_t model_minus(uint64_t a, uint64_t b) { return a > b ? a - b : 0; }

/* ---- a receive ring of at most this capacity */

enum { PLACES = 40 };

struct ring {
    unsigned users; /* how many objects refer to it */
    size_t places, first, held;
    struct fq_packet packets[PLACES];
    uint64_t put, bytes;
    struct fq_counts counts;
};

static inline size_t put_into(struct ring *r, const struct fq_packet *packets, size_t count) {
    size_t put = 0;
    for (; put < count && r->held < r->places; put++, r->held++) {
        r->packets[(r->first + r->held) % r->places] = packets[put];
        r->bytes += packets[put].bytes;
    }
    r->put += put;
    return put;
}

/* ---- a queue limit (lib/dynamic_queue_limits.c), in numbers that never wrap */

struct model_limit {
    uint64_t queued, completed, last, limit, previous_queued, previous_over, previous_last, lowest, start, min, max, hold;
};

static inline uint32_t model_limit_new(struct model_limit *l, uint32_t min, uint32_t max, uint64_t hold, uint64_t now) {
    if (min > max || max > 1879048192) return FQ_BAD_BOUNDS;
    *l = (struct model_limit){.limit = min, .min = min, .max = max, .hold = hold, .start = now, .lowest = UINT32_MAX};
    return FQ_OK;
}

static inline uint64_t model_in_flight(const struct model_limit *l) { return l->queued - l->completed; }
static inline int64_t model_avail(const struct model_limit *l) { return (int64_t)l->limit - (int64_t)model_in_flight(l); }

static inline uint32_t model_queued(struct model_limit *l, uint32_t count) {
    if (count > 268435455) return FQ_TOO_LARGE;
    if (model_in_flight(l) + count > 1073741823) return FQ_TOO_MUCH_IN_FLIGHT;
    l->last = count;
    l->queued += count;
    return FQ_OK;
}

/* The slack of a queue that was busy all the time is recorded; once it has lasted long enough the limit shrinks by the
 * lowest. */
static inline uint64_t model_slackened(struct model_limit *l, uint32_t count, uint64_t now) {
    const uint64_t unused = model_minus(l->limit + l->previous_over, 2 * (uint64_t)count);
    const uint64_t last = l->previous_over ? model_minus(l->previous_last, l->previous_over) : 0;
    const uint64_t slack = unused > last ? unused : last;
    if (slack < l->lowest) l->lowest = slack;
    if (now <= l->start || now - l->start <= l->hold) return l->limit;
    const uint64_t limit = model_minus(l->limit, l->lowest);
    l->start = now, l->lowest = UINT32_MAX;
    return limit;
}

static inline uint32_t model_completed(struct model_limit *l, uint32_t count, uint64_t now) {
    if (count > model_in_flight(l)) return FQ_MORE_THAN_QUEUED;
    const uint64_t completed = l->completed + count, left = l->queued - completed;
    const uint64_t over = model_minus(model_in_flight(l), l->limit);
    const bool all_previous = completed >= l->previous_queued;
    uint64_t limit = l->limit;
    if ((over && !left) || (l->previous_over && all_previous)) {
        limit += model_minus(completed, l->previous_queued) + l->previous_over;
        l->start = now, l->lowest = UINT32_MAX;
    } else if (left && l->previous_queued > l->completed && !all_previous) {
        limit = model_slackened(l, count, now);
    }
    limit = limit > l->max ? l->max : limit;
    limit = limit < l->min ? l->min : limit;
    l->previous_over = limit == l->limit ? over : 0;
    l->previous_last = l->last, l->previous_queued = l->queued;
    l->limit = limit, l->completed = completed;
    return FQ_OK;
}

/* ---- an instance (struct napi_struct), and which caller may do what with it */

enum model_place { NOBODY, GRANTED, LISTED, TO_THREAD, POLLED, CONTROLLED };

struct model_napi {
    bool sched, missed, disable, npsvc, busy, threaded, sched_threaded;
    enum model_place place;
    uint32_t owner, controller;
};

static inline struct model_napi model_napi_new(uint32_t controller) {
    return (struct model_napi){.sched = true, .npsvc = true, .place = CONTROLLED, .owner = controller, .controller = controller};
}

static inline bool model_owns(const struct model_napi *n, uint32_t who, enum model_place place) { return n->place == place && n->owner == who; }
static inline bool model_polls(const struct model_napi *n, uint32_t who) { return model_owns(n, who, POLLED) && !n->busy; }
static inline bool model_busy_polls(const struct model_napi *n, uint32_t who) { return model_owns(n, who, POLLED) && n->busy; }

static inline uint32_t model_place_at(struct model_napi *n, enum model_place place, uint32_t who, uint32_t said) {
    n->place = place, n->owner = who;
    return said;
}

static inline uint32_t model_schedule(struct model_napi *n, uint32_t who) {
    if (n->disable) return FQ_DISABLED;
    if (n->sched) return n->missed = true, FQ_MISSED;
    n->sched = true;
    return model_place_at(n, GRANTED, who, FQ_GRANTED);
}

static inline uint32_t model_hand(struct model_napi *n, uint32_t who, uint32_t kind) {
    if (kind > FQ_THREAD) return FQ_BAD_KIND;
    if (!model_owns(n, who, GRANTED) && !(kind == FQ_LIST && model_polls(n, who))) return FQ_NOT_ALLOWED;
    if (kind == FQ_THREAD) n->sched_threaded = true;
    return model_place_at(n, kind == FQ_LIST ? LISTED : TO_THREAD, 0, FQ_OK);
}

static inline uint32_t model_take(struct model_napi *n, uint32_t who, uint32_t kind) {
    if (kind > FQ_THREAD) return FQ_BAD_KIND;
    if (n->place != (kind == FQ_LIST ? LISTED : TO_THREAD)) return FQ_NOT_THERE;
    return model_place_at(n, POLLED, who, FQ_TAKEN);
}

static inline uint32_t model_complete(struct model_napi *n, uint32_t who) {
    if (!model_owns(n, who, POLLED)) return FQ_NOT_ALLOWED;
    if (n->busy) return FQ_HELD;
    n->sched_threaded = false;
    if (n->missed) return n->missed = false, model_place_at(n, GRANTED, who, FQ_AGAIN);
    n->sched = false;
    return model_place_at(n, NOBODY, 0, FQ_RELEASED);
}

static inline uint32_t model_busy_take(struct model_napi *n, uint32_t who) {
    if (n->disable || n->sched || n->busy) return FQ_BUSY;
    n->sched = n->busy = true;
    return model_place_at(n, POLLED, who, FQ_TAKEN);
}

static inline uint32_t model_busy_stop(struct model_napi *n, uint32_t who) {
    if (!model_busy_polls(n, who)) return FQ_NOT_ALLOWED;
    n->busy = n->missed = false;
    return FQ_OK;
}

static inline uint32_t model_mark(struct model_napi *n, uint32_t who) {
    if (who != n->controller || n->disable || n->place == CONTROLLED) return FQ_NOT_ALLOWED;
    n->disable = true;
    return FQ_OK;
}

static inline uint32_t model_take_disable(struct model_napi *n, uint32_t who) {
    if (who != n->controller || !n->disable) return FQ_NOT_ALLOWED;
    if (n->sched || n->npsvc) return FQ_BUSY;
    n->sched = n->npsvc = true, n->threaded = false;
    return model_place_at(n, CONTROLLED, who, FQ_TAKEN);
}

static inline uint32_t model_unmark(struct model_napi *n, uint32_t who) {
    if (who != n->controller || !model_owns(n, who, CONTROLLED) || !n->disable) return FQ_NOT_ALLOWED;
    n->disable = false;
    return FQ_OK;
}

static inline uint32_t model_enable(struct model_napi *n, uint32_t who, bool threaded) {
    if (who != n->controller || !model_owns(n, who, CONTROLLED) || n->disable) return FQ_NOT_ALLOWED;
    n->sched = n->npsvc = false, n->threaded = n->threaded || threaded;
    return model_place_at(n, NOBODY, 0, FQ_OK);
}

static inline uint64_t model_word(const struct model_napi *n) {
    return (n->sched ? FQ_BIT_SCHED : 0) | (n->missed ? FQ_BIT_MISSED : 0) | (n->disable ? FQ_BIT_DISABLE : 0) | (n->npsvc ? FQ_BIT_NPSVC : 0) |
           (n->busy ? FQ_BIT_IN_BUSY_POLL : 0) | (n->threaded ? FQ_BIT_THREADED : 0) | (n->sched_threaded ? FQ_BIT_SCHED_THREADED : 0) |
           (n->place == LISTED ? FQ_BIT_QUEUED : 0) | (n->place == TO_THREAD ? FQ_BIT_TO_THREAD : 0);
}

/* ---- a poll list with the run over it (net_rx_action) */

enum { MODEL_LISTED = 64 };

struct model_numbers {
    uint32_t at[MODEL_LISTED], count;
};

struct model_list {
    struct model_numbers list, batch, repoll;
    bool runs, is_asked;
    uint32_t asked, budget, weight, window, polls, work;
};

static inline bool model_has(const struct model_numbers *n, uint32_t id) {
    for (uint32_t i = 0; i < n->count; i++)
        if (n->at[i] == id) return true;
    return false;
}

static inline void model_append(struct model_numbers *n, const struct model_numbers *more) {
    for (uint32_t i = 0; i < more->count; i++) n->at[n->count++] = more->at[i];
}

static inline bool model_is_listed(const struct model_list *l, uint32_t id) {
    return model_has(&l->list, id) || model_has(&l->batch, id) || model_has(&l->repoll, id);
}

static inline uint32_t model_len(const struct model_list *l) { return l->list.count + l->batch.count + l->repoll.count + l->is_asked; }

static inline uint32_t model_push(struct model_list *l, uint32_t id) {
    if (model_is_listed(l, id)) return FQ_IN_USE;
    if (model_len(l) >= MODEL_LISTED) return FQ_FULL;
    l->list.at[l->list.count++] = id;
    return FQ_OK;
}

static inline uint32_t model_remove(struct model_list *l, uint32_t id) {
    struct model_numbers others = {.count = 0};
    for (uint32_t i = 0; i < l->list.count; i++)
        if (l->list.at[i] != id) others.at[others.count++] = l->list.at[i];
    const bool is_removed = others.count < l->list.count;
    l->list = others;
    return is_removed ? FQ_OK : model_is_listed(l, id) || (l->is_asked && l->asked == id) ? FQ_BUSY : FQ_NOT_THERE;
}

static inline uint32_t model_begin(struct model_list *l, uint32_t budget, uint32_t weight, uint32_t window) {
    if (l->runs) return FQ_NOT_ALLOWED;
    if (weight < 1 || weight > 64) return FQ_BAD_WEIGHT;
    if (budget < 1 || budget > 65535 || window < 1 || window > 65535) return FQ_BAD_BUDGET;
    l->runs = true, l->budget = budget, l->weight = weight, l->window = window, l->polls = l->work = 0;
    l->batch = l->list, l->list.count = 0;
    return FQ_OK;
}

static inline bool model_is_spent(const struct model_list *l) { return l->work >= l->budget || l->polls >= l->window; }

static inline uint32_t model_next(struct model_list *l, uint32_t *id) {
    if (!l->runs || l->is_asked) return FQ_NOT_ALLOWED;
    if (model_is_spent(l)) return FQ_DONE;
    if (l->batch.count == 0) { /* what arrived meanwhile, if no repoll is pending */
        if (l->repoll.count != 0 || l->list.count == 0) return FQ_DONE;
        l->batch = l->list, l->list.count = 0;
    }
    *id = l->asked = l->batch.at[0];
    l->is_asked = true, l->batch.count--;
    for (uint32_t i = 0; i < l->batch.count; i++) l->batch.at[i] = l->batch.at[i + 1];
    return FQ_OK;
}

static inline uint32_t model_polled(struct model_list *l, uint32_t work, uint32_t next) {
    if (!l->is_asked) return FQ_NOT_ALLOWED;
    if (work > l->weight) return FQ_BAD_WORK;
    if (next > FQ_NEXT_ABSENT) return FQ_BAD_NEXT;
    if ((next == FQ_NEXT_AGAIN || next == FQ_NEXT_REPOLL) && model_is_listed(l, l->asked)) return FQ_IN_USE;
    l->is_asked = false, l->polls++, l->work += work;
    struct model_numbers *const to = next == FQ_NEXT_AGAIN ? &l->list : &l->repoll;
    if (next == FQ_NEXT_AGAIN || next == FQ_NEXT_REPOLL) to->at[to->count++] = l->asked;
    return FQ_OK;
}

static inline uint32_t model_end(struct model_list *l, struct fq_run_report *report) {
    if (!l->runs || l->is_asked) return FQ_NOT_ALLOWED;
    report->polls = l->polls, report->work = l->work, report->squeezed = model_is_spent(l);
    struct model_numbers all = l->batch;
    model_append(&all, &l->list);
    model_append(&all, &l->repoll);
    l->list = all, l->batch.count = l->repoll.count = 0, l->runs = false;
    return FQ_OK;
}

#endif
