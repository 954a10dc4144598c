/*
 * Fintaqush for C: the packet polling core of Linux 6.6 (NAPI) and byte queue limits, in user
 * space. docs/C.md is the guide.
 *
 * A call of the type enum fq_status returns one of the statuses that its comment names; if
 * several apply, the first one that is named. The other calls return a value, the length of a
 * text, a struct or nothing, as their comments say. A call that isn't allowed in the object's
 * state returns FQ_NOT_ALLOWED and changes nothing.
 *
 * What the program must ensure, because nothing here can check it:
 * - A pointer points to a whole object of its type, or to as many as its count says. None is
 *   null, except that of an array whose count is 0. No two arguments of one call point to the
 *   same memory.
 * - Calls on one object don't overlap, not even two that only read, which take a pointer to
 *   const. An object may move from thread to thread if a lock, a thread's start or join, or a
 *   sequentially consistent atomic orders the calls. The ring's input, each caller and the
 *   controller of one shared instance are separate objects, which may be used at the same time,
 *   each by one thread.
 * - A handle (struct fq_ring, fq_tx, fq_caller, fq_control, fq_list, fq_driver) or fq_dql isn't
 *   copied, and only calls write its fields. An unset handle is all zero.
 * - No call is made from a signal handler, or from the forked child of a process with threads.
 *
 * A struct that begins with `size` may grow in a later version; no other struct does. The inline
 * functions below set `size` to the struct's sizeof in this header; FQ_DEFAULT_SETTINGS and
 * fq_machine_default set that of settings. Where fq_NAME sets it, bindings call the export
 * fq_NAME_sized, and set it themselves. The library knows the sizes of its own header and of
 * earlier ones, from 3.0.0 on. For any other size, smaller or larger, a call returns FQ_BAD_SIZE:
 * this check is its first, it writes nothing, and nothing changes. No call writes beyond `size`,
 * or changes it. After another error a struct is unchanged, unless the call's comment says
 * otherwise.
 *
 * No call blocks, sleeps, locks or starts a thread. fq_caller_schedule_prep,
 * fq_caller_complete_done, fq_caller_end and fq_control_step, and the inline functions over them,
 * repeat an attempt while other threads change the instance: some thread always makes progress.
 * Every call returns: after 2^64 attempts, which take centuries, these return FQ_CHANGED, and do
 * nothing more. fq_ring_new, fq_ring_split, fq_ring_places, fq_tx_new, fq_list_new,
 * fq_driver_new, fq_shared_new, fq_shared_bare, fq_replay, fq_raise and fq_machine allocate
 * memory, after they have checked their arguments; if an allocation fails, they free what they
 * allocated, and nothing has changed. fq_free, fq_abandon and fq_ring_finish free memory. No
 * other call allocates or frees.
 *
 * Memory order: what a thread wrote before it put a packet is visible to the thread whose poll
 * returns that packet. A poll frees the places of the packets that it returns, all at once: what
 * was done before that poll is visible to the put that finds one of them free. What was done
 * before a call that publishes or releases elements is visible to the other end, once it peeks at
 * them or claims them. What one owner of the instance did is visible to the next owner.
 * fintaqush_tsan.h reports all this to ThreadSanitizer.
 */
#ifndef FINTAQUSH_H
#define FINTAQUSH_H

#include <stdbool.h>
#include <stddef.h>
#include <stdint.h>

#define FQ_VERSION "3.0.0"
/* The same as numbers. For example, #if FQ_VERSION_NUMBER >= 30000 requires 3.0.0 or later. */
#define FQ_VERSION_MAJOR 3
#define FQ_VERSION_MINOR 0
#define FQ_VERSION_PATCH 0
#define FQ_VERSION_NUMBER (FQ_VERSION_MAJOR * 10000 + FQ_VERSION_MINOR * 100 + FQ_VERSION_PATCH)

#if defined(__GNUC__)
#define FQ_NONNULL __attribute__((nonnull))
#define FQ_CHECKED __attribute__((nonnull, warn_unused_result))
/* the other arguments are arrays, which may be null */
#define FQ_CHECKED_AT(...) __attribute__((nonnull(__VA_ARGS__), warn_unused_result))
#define FQ_RESTRICT __restrict__
#else
#define FQ_NONNULL
#define FQ_CHECKED
#define FQ_CHECKED_AT(...)
#define FQ_RESTRICT
#endif

/* How many drivers the program has made, because each numbers its actions from another number
 * on: one count for all its files. */
#if defined(__GNUC__)
#define FQ_PRIVATE_COUNT(count) __atomic_fetch_add(&(count), 1, __ATOMIC_RELAXED)
#else
#define FQ_PRIVATE_COUNT(count) ((count)++)
#endif

/* An enum is a uint32_t, also in C++, so that it can hold a number that a later library returns
 * and this header doesn't name. */
#ifdef __cplusplus
#define FQ_NUMBER : uint32_t
#else
#define FQ_NUMBER
/* This doesn't compile with -fshort-enums, which moves the members after an enum. */
enum fq_private_enum { FQ_PRIVATE_ENUM = 0 };
typedef char fq_private_enums_have_4_bytes[sizeof(enum fq_private_enum) == 4 ? 1 : -1];
#endif

/* The type of a value: a compound literal in C. */
#ifdef __cplusplus
#define FQ_PRIVATE_VALUE(type) type
#else
#define FQ_PRIVATE_VALUE(type) (struct type)
#endif

#ifdef __cplusplus
extern "C" {
#endif

#if defined(__GNUC__)
__attribute__((weak)) uint32_t fq_private_drivers;
#else
static uint32_t fq_private_drivers;
#endif

/* ---- status: statuses, kinds, flags and sizes. */

/* The statuses that calls return, each with the calls that it is of, if not of all, and its
 * message. 0: success. 1 to 15: errors of a queue limit; the operation isn't made. 16 to 99:
 * results. After FQ_NOT_THERE, FQ_BUSY, FQ_CHANGED, FQ_STOPPED and FQ_NOT_DUE nothing has changed,
 * and after FQ_FULL neither, except for a burst. 100 and above: errors; the operation isn't
 * made. */
enum fq_status FQ_NUMBER {
    FQ_OK = 0,                 /* done */
    FQ_BAD_BOUNDS = 1,         /* limit: min is above max, or max above 1879048192 bytes */
    FQ_TOO_LARGE = 2,          /* limit, send: an object of more than 268435455 bytes */
    FQ_TOO_MUCH_IN_FLIGHT = 3, /* limit, send: more than 1073741823 bytes would be in flight */
    FQ_MORE_THAN_QUEUED = 4,   /* limit: more bytes are completed than are in flight */

    FQ_GRANTED = 16,           /* schedule: the caller owns the instance, and has to queue it */
    FQ_MISSED = 17,            /* schedule: already scheduled: one more poll follows, unless the
                                * instance is disabled */
    FQ_DISABLED = 18,          /* schedule: a disable is pending, and no poll was requested */
    FQ_TAKEN = 19,             /* take, busy take, take disable: the caller owns the instance */
    FQ_NOT_THERE = 20,         /* take, remove: the instance is not queued there, or the number
                                * is not on the list */
    FQ_RELEASED = 21,          /* complete: no caller owns the instance any more */
    FQ_AGAIN = 22,             /* complete: a request was missed: the caller has to queue the
                                * instance again */
    FQ_HELD = 23,              /* complete, end: the caller keeps polling */
    FQ_BUSY = 24,              /* busy take, take disable, remove: another caller owns the
                                * instance, or a run has the number */
    FQ_CHANGED = 25,           /* shared instances: another thread interfered, and nothing is
                                * decided: call again */
    FQ_FULL = 26,              /* put, push, send: there is no room */
    FQ_DONE = 27,              /* next: no poll is left in the run */
    FQ_STOPPED = 28,           /* send: the limit has stopped the queue */
    FQ_NOT_DUE = 30,           /* driver: this is not due, and nothing has changed */

    FQ_NOT_ALLOWED = 100,      /* the state of the object does not allow this call */
    FQ_BAD_KIND = 101,         /* the kind is 0 (list) or 1 (thread) */
    FQ_BAD_HANDLE = 110,       /* the handle has no object, or one of another kind */
    FQ_IN_USE = 111,           /* the handle is set already, or the number is listed already */
    FQ_OUT_OF_MEMORY = 112,    /* out of memory */
    FQ_BAD_CAPACITY = 113,     /* the capacity of a ring is 1 to 65536 */
    FQ_BAD_WEIGHT = 114,       /* a weight is 1 to 64 packets */
    FQ_NO_ROOM = 115,          /* the array is too short */
    FQ_BAD_BUDGET = 116,       /* budget and window are 1 to 65535 */
    FQ_BAD_COUNT = 117,        /* a shared instance has 2 to 8 callers, a driver 1 to 64 devices */
    FQ_BAD_NEXT = 118,         /* how a poll ended is 0 to 4 (enum fq_next) */
    FQ_BAD_WORK = 119,         /* a poll is reported with more packets than the weight */
    FQ_BAD_TRACE = 120,        /* replay, raise: the bytes are not a trace, or a row of it can't
                                * be processed */
    FQ_BAD_DEVICE = 121,       /* the driver has no device with this number */
    FQ_BAD_SIZE = 122,         /* a struct's size is not one that the library knows */
    FQ_BAD_SETTING = 123,      /* driver, machine: a setting is out of its range, or doesn't go
                                * with another */
    FQ_BAD_ARRIVALS = 124,     /* machine: the bytes are not arrivals */
    FQ_MORE_THAN_SENT = 125,   /* done: more packets are completed than were sent */
    FQ_NOT_REPORTED = 126      /* driver: an action waits for its report, and this is not it */
};

/* Each call writes a text to an array of `room` bytes, with a terminating 0: the library's
 * FQ_VERSION; the name of a status, or its message ("?" for an unknown number); the name of a
 * trace's fault. It returns the length of the text; if that isn't below `room`, the array is
 * unchanged. */
#define FQ_MESSAGE_ROOM 96 /* bytes of an array that has room for each text and its terminating 0 */
size_t fq_version(char *to, size_t room);
size_t fq_status_text(uint32_t status, char *to, size_t room);
size_t fq_status_message(uint32_t status, char *to, size_t room);
size_t fq_fault_text(uint32_t fault, char *to, size_t room);

/* Returns the library's version as a number, as FQ_VERSION_NUMBER is that of the header. */
uint32_t fq_version_number(void);

/* The structs that calls read and write and that never grow. fq_struct_size returns the size of
 * one in bytes, so that bindings can check theirs; 0 for an unknown number. */
enum fq_struct FQ_NUMBER {
    FQ_STRUCT_HANDLE = 0, FQ_STRUCT_DQL = 1, FQ_STRUCT_NAPI = 2, FQ_STRUCT_PACKET = 3,
        FQ_STRUCT_TX_WATCHDOG = 4, FQ_STRUCT_TODO = 5
};
size_t fq_struct_size(uint32_t which);

/* Returns the name of a status, for example "FQ_GRANTED"; "?" for an unknown number. */
static inline const char *fq_status_name(uint32_t status) {
    switch (status) {
    /* scripts/abi.py: begin statuses */
    case FQ_OK: return "FQ_OK"; case FQ_BAD_BOUNDS: return "FQ_BAD_BOUNDS";
    case FQ_TOO_LARGE: return "FQ_TOO_LARGE";
    case FQ_TOO_MUCH_IN_FLIGHT: return "FQ_TOO_MUCH_IN_FLIGHT";
    case FQ_MORE_THAN_QUEUED: return "FQ_MORE_THAN_QUEUED"; case FQ_GRANTED: return "FQ_GRANTED";
    case FQ_MISSED: return "FQ_MISSED"; case FQ_DISABLED: return "FQ_DISABLED";
    case FQ_TAKEN: return "FQ_TAKEN"; case FQ_NOT_THERE: return "FQ_NOT_THERE";
    case FQ_RELEASED: return "FQ_RELEASED"; case FQ_AGAIN: return "FQ_AGAIN";
    case FQ_HELD: return "FQ_HELD"; case FQ_BUSY: return "FQ_BUSY";
    case FQ_CHANGED: return "FQ_CHANGED"; case FQ_FULL: return "FQ_FULL";
    case FQ_DONE: return "FQ_DONE"; case FQ_STOPPED: return "FQ_STOPPED";
    case FQ_NOT_DUE: return "FQ_NOT_DUE"; case FQ_NOT_ALLOWED: return "FQ_NOT_ALLOWED";
    case FQ_BAD_KIND: return "FQ_BAD_KIND"; case FQ_BAD_HANDLE: return "FQ_BAD_HANDLE";
    case FQ_IN_USE: return "FQ_IN_USE"; case FQ_OUT_OF_MEMORY: return "FQ_OUT_OF_MEMORY";
    case FQ_BAD_CAPACITY: return "FQ_BAD_CAPACITY"; case FQ_BAD_WEIGHT: return "FQ_BAD_WEIGHT";
    case FQ_NO_ROOM: return "FQ_NO_ROOM"; case FQ_BAD_BUDGET: return "FQ_BAD_BUDGET";
    case FQ_BAD_COUNT: return "FQ_BAD_COUNT"; case FQ_BAD_NEXT: return "FQ_BAD_NEXT";
    case FQ_BAD_WORK: return "FQ_BAD_WORK"; case FQ_BAD_TRACE: return "FQ_BAD_TRACE";
    case FQ_BAD_DEVICE: return "FQ_BAD_DEVICE"; case FQ_BAD_SIZE: return "FQ_BAD_SIZE";
    case FQ_BAD_SETTING: return "FQ_BAD_SETTING"; case FQ_BAD_ARRIVALS: return "FQ_BAD_ARRIVALS";
    case FQ_MORE_THAN_SENT: return "FQ_MORE_THAN_SENT";
    case FQ_NOT_REPORTED: return "FQ_NOT_REPORTED";
    /* scripts/abi.py: end statuses */
    }
    return "?";
}

/* Returns whether a status is an error; any other is FQ_OK or a result. */
static inline bool fq_is_error(uint32_t status) {
    return (status > FQ_OK && status < FQ_GRANTED) || status >= FQ_NOT_ALLOWED;
}

/* Where an instance is queued. Calls that read the kind from the state word say so. */
enum fq_kind FQ_NUMBER {
    FQ_LIST = 0,  /* on a poll list */
    FQ_THREAD = 1 /* for its own thread */
};

/* How a poll ended. */
enum fq_next FQ_NUMBER {
    FQ_NEXT_GONE = 0,         /* the device leaves the list */
    FQ_NEXT_AGAIN = 1,        /* it has to be listed again */
    FQ_NEXT_AGAIN_THREAD = 2, /* it is queued for its thread */
    FQ_NEXT_REPOLL = 3,       /* it returned its whole weight, and is polled again after all
                               * others */
    FQ_NEXT_ABSENT = 4        /* its instance wasn't queued there */
};

/* The bits of a state word: the kernel's NAPI_STATE_.., and two of this library. The kernel's
 * NAPI_STATE_LISTED is a different flag, bit 4, which the library doesn't have. */
#define FQ_BIT_SCHED (UINT64_C(1) << 0) /* NAPI_STATE_SCHED */
#define FQ_BIT_MISSED (UINT64_C(1) << 1) /* NAPI_STATE_MISSED */
#define FQ_BIT_DISABLE (UINT64_C(1) << 2) /* NAPI_STATE_DISABLE */
#define FQ_BIT_NPSVC (UINT64_C(1) << 3) /* NAPI_STATE_NPSVC */
#define FQ_BIT_IN_BUSY_POLL (UINT64_C(1) << 6) /* NAPI_STATE_IN_BUSY_POLL */
#define FQ_BIT_THREADED (UINT64_C(1) << 8) /* NAPI_STATE_THREADED */
#define FQ_BIT_SCHED_THREADED (UINT64_C(1) << 9) /* NAPI_STATE_SCHED_THREADED */
#define FQ_BIT_QUEUED (UINT64_C(1) << 32) /* on a poll list, and not taken yet */
#define FQ_BIT_TO_THREAD (UINT64_C(1) << 33) /* queued for its thread, and not taken yet */

/* ---- dql: byte queue limits (lib/dynamic_queue_limits.c). They are in the program's memory.
 * Times are milliseconds of the program's clock. */

/* A byte queue limit. It isn't copied, and only calls write its fields. */
struct fq_dql {
    uint32_t private_a[8];
    uint64_t private_b;
    uint32_t private_c[2];
    uint64_t private_d;
};

/* Makes a new limit between `min` and `max` bytes, with the slack hold time `hold_ms`
 * (dql_init). *dql has to be all 0 or a limit; it is unchanged if the call returns
 * FQ_BAD_BOUNDS. Returns FQ_OK; FQ_BAD_BOUNDS. */
FQ_CHECKED enum fq_status fq_dql_init(struct fq_dql *dql, uint32_t min, uint32_t max, uint64_t
    hold_ms, uint64_t now_ms);

/* Adds an object of `count` bytes that was sent to the device (dql_queued). Returns FQ_OK;
 * FQ_TOO_LARGE; FQ_TOO_MUCH_IN_FLIGHT. */
FQ_CHECKED enum fq_status fq_dql_queued(struct fq_dql *dql, uint32_t count);
/* Completes `count` bytes, and adapts the limit (dql_completed). Returns FQ_OK;
 * FQ_MORE_THAN_QUEUED. */
FQ_CHECKED enum fq_status fq_dql_completed(struct fq_dql *dql, uint32_t count, uint64_t now_ms);
/* Resets the limit: nothing is in flight (dql_reset). */
FQ_NONNULL void fq_dql_reset(struct fq_dql *dql, uint64_t now_ms);
/* Returns the limit in bytes. */
FQ_NONNULL uint32_t fq_dql_limit(const struct fq_dql *dql);
/* Returns the bytes that may still be sent to the device (dql_avail); if negative, the queue has
 * to be stopped. */
FQ_NONNULL int64_t fq_dql_avail(const struct fq_dql *dql);
/* Returns the bytes that were queued and aren't completed. */
FQ_NONNULL uint32_t fq_dql_in_flight(const struct fq_dql *dql);

/* The same three numbers, read in place without a call: the struct's first four numbers are the
 * bytes queued, the bytes completed, the last object's bytes, and the limit. */
FQ_NONNULL static inline uint32_t fq_dql_limit_here(const struct fq_dql *dql) {
    return dql->private_a[3];
}
FQ_NONNULL static inline uint32_t fq_dql_in_flight_here(const struct fq_dql *dql) {
    return dql->private_a[0] - dql->private_a[1];
}
FQ_NONNULL static inline int64_t fq_dql_avail_here(const struct fq_dql *dql) {
    return (int64_t)dql->private_a[3] - (int64_t)fq_dql_in_flight_here(dql);
}

/* ---- napi: an instance of one thread (struct napi_struct). It is in the program's memory. A
 * caller is a number; the controller's is set when the instance is made. Any bytes of the struct
 * represent a state, the same one in all calls. */

/* An instance of one thread. Each flag is set unless its byte is 0. */
struct fq_napi {
    uint8_t sched;          /* NAPI_STATE_SCHED */
    uint8_t missed;         /* NAPI_STATE_MISSED */
    uint8_t disable;        /* NAPI_STATE_DISABLE */
    uint8_t npsvc;          /* NAPI_STATE_NPSVC */
    uint8_t in_busy_poll;   /* NAPI_STATE_IN_BUSY_POLL */
    uint8_t threaded;       /* NAPI_STATE_THREADED */
    uint8_t sched_threaded; /* NAPI_STATE_SCHED_THREADED */
    uint8_t place;          /* 0 no owner, 1 granted, 2 listed, 3 queued for its thread, 4
                             * polled, otherwise: owned by the controller */
    uint32_t owner;         /* the number of its owner */
    uint32_t controller;    /* the number of the caller that enables and disables it */
};

/* Returns a new instance (netif_napi_add), which is disabled. */
struct fq_napi fq_napi_new(uint32_t controller);
/* Requests a poll (napi_schedule_prep). Returns FQ_GRANTED; FQ_MISSED; FQ_DISABLED. */
FQ_CHECKED enum fq_status fq_napi_schedule(struct fq_napi *napi, uint32_t who);
/* Queues a granted instance (____napi_schedule), or puts a polled one on the list again. Returns
 * FQ_OK; FQ_BAD_KIND; FQ_NOT_ALLOWED, also for a polled one and FQ_THREAD. */
FQ_CHECKED enum fq_status fq_napi_hand(struct fq_napi *napi, uint32_t who, enum fq_kind kind);
/* Takes the instance from the list or as its thread. Returns FQ_TAKEN; FQ_BAD_KIND;
 * FQ_NOT_THERE. */
FQ_CHECKED enum fq_status fq_napi_take(struct fq_napi *napi, uint32_t who, enum fq_kind kind);
/* Ends a poll (napi_complete_done). Returns FQ_RELEASED; FQ_AGAIN; FQ_HELD; FQ_NOT_ALLOWED. */
FQ_CHECKED enum fq_status fq_napi_complete(struct fq_napi *napi, uint32_t who);
/* Ends the caller's poll as the kernel does (__napi_poll). `full` says that it returned its
 * whole weight. After a full poll the instance is on the list again, or stays with its thread
 * (FQ_HELD: keep polling), unless a disable is pending. After any other poll, and if a disable
 * is pending, it is completed, and queued again if a request was missed: for its thread if
 * FQ_BIT_THREADED is set. Sets *next to how the poll ended, for fq_run_polled; after
 * FQ_NEXT_AGAIN_THREAD wake the thread. Returns FQ_OK; FQ_HELD, also for a busy poller;
 * FQ_NOT_ALLOWED. *next is FQ_NEXT_GONE unless it returns FQ_OK. */
FQ_CHECKED enum fq_status fq_napi_end(struct fq_napi *FQ_RESTRICT napi, uint32_t who, bool full,
    enum fq_next *FQ_RESTRICT next);
/* Takes an idle instance to busy poll it (napi_busy_loop). Returns FQ_TAKEN; FQ_BUSY. */
FQ_CHECKED enum fq_status fq_napi_busy_take(struct fq_napi *napi, uint32_t who);
/* Stops busy polling (busy_poll_stop); one poll has to follow. Returns FQ_OK; FQ_NOT_ALLOWED. */
FQ_CHECKED enum fq_status fq_napi_busy_stop(struct fq_napi *napi, uint32_t who);
/* Sets whether polls are queued for the instance's own thread (dev_set_threaded). */
FQ_NONNULL void fq_napi_set_threaded(struct fq_napi *napi, uint32_t who, bool threaded);
/* The controller's calls. napi_disable is fq_napi_mark_disable, fq_napi_take_disable until it
 * returns FQ_TAKEN, and fq_napi_unmark; napi_enable is fq_napi_enable. fq_napi_take_disable
 * returns FQ_TAKEN or FQ_BUSY, the others FQ_OK; all return FQ_NOT_ALLOWED for another caller,
 * or if the state doesn't allow the call. Call fq_napi_schedule once after each enable: an
 * earlier request isn't polled, and a masked card raises no interrupt. */
FQ_CHECKED enum fq_status fq_napi_mark_disable(struct fq_napi *napi, uint32_t who);
FQ_CHECKED enum fq_status fq_napi_take_disable(struct fq_napi *napi, uint32_t who);
FQ_CHECKED enum fq_status fq_napi_unmark(struct fq_napi *napi, uint32_t who);
FQ_CHECKED enum fq_status fq_napi_enable(struct fq_napi *napi, uint32_t who, bool threaded);
/* Returns the state word, a sum of FQ_BIT_.. */
FQ_NONNULL uint64_t fq_napi_word(const struct fq_napi *napi);

/* ---- handle: free, abandon and move objects of the library. They are on the library's heap. */

/* What the handles of all kinds of objects have in common. It isn't copied, and only calls write
 * its fields. */
struct fq_handle {
    bool private_set;
    void *private_at;
};

/* The handles, with a type for each kind of object. The calls on an object of any kind take its
 * member: `fq_free(&ring.handle)`. */
struct fq_ring { struct fq_handle handle; };    /* a receive ring, or its input or its poll end */
struct fq_tx { struct fq_handle handle; };      /* a transmit ring */
struct fq_caller { struct fq_handle handle; };  /* a caller of a shared instance */
struct fq_control { struct fq_handle handle; }; /* the controller of a shared instance */
struct fq_list { struct fq_handle handle; };    /* a poll list, and the run over it */
struct fq_driver { struct fq_handle handle; };  /* a driver */

/* An unset handle: it refers to no object. */
#define FQ_NONE {{false, NULL}}

/* Frees the object of a handle, which is unset after that. AN OBJECT IN USE IS NOT FREED: for a
 * caller that isn't at rest, a controller that isn't off, and a list in a run it returns
 * FQ_NOT_ALLOWED, and the handle still has its object, which leaks unless a later call frees it.
 * The others are freed in any state: a ring with packets, which are lost, so poll them before;
 * one end of a ring that was split, or the input of an instance's ring, whose other end stays; a
 * transmit ring with packets; a list with numbers; a driver with open devices. Returns FQ_OK;
 * FQ_BAD_HANDLE; FQ_NOT_ALLOWED. */
FQ_CHECKED enum fq_status fq_free(struct fq_handle *handle);
/* Frees the object of a handle in any state, so nothing leaks. Returns FQ_OK; FQ_BAD_HANDLE. An
 * instance whose poller was abandoned is never polled again. The status may be ignored. */
FQ_NONNULL enum fq_status fq_abandon(struct fq_handle *handle);
/* Moves the object of `from` to `to`; `from` is unset after that. Returns FQ_OK; FQ_IN_USE if
 * `to` is set; FQ_BAD_HANDLE. */
FQ_CHECKED enum fq_status fq_move(struct fq_handle *FQ_RESTRICT from, struct fq_handle *FQ_RESTRICT
    to);

/* ---- ring: receive rings. */

/* A packet. */
struct fq_packet {
    uint64_t number; /* a number that the program chooses: an index, a pointer */
    uint32_t bytes;  /* its size in bytes */
};

/* Makes a ring of capacity 1 to 65536. Returns FQ_OK; FQ_IN_USE; FQ_BAD_CAPACITY;
 * FQ_OUT_OF_MEMORY. */
FQ_CHECKED enum fq_status fq_ring_new(struct fq_ring *ring, size_t capacity);
/* Puts a packet into the ring, after all others. Returns FQ_OK; FQ_FULL; FQ_BAD_HANDLE. */
FQ_CHECKED enum fq_status fq_ring_put(struct fq_ring *ring, uint64_t number, uint32_t bytes);
/* Puts the packets of an array into the ring, after all others and in order: as many of the
 * first ones as fit. Sets *count to how many. Returns FQ_OK if all fit; FQ_FULL if not;
 * FQ_BAD_HANDLE, and *count is 0. A poll sees all of them at once. A circular pool of buffers
 * needs as many as the ring's capacity, plus 64 for a poll, plus the longest burst, which is 1
 * for fq_ring_put. */
FQ_CHECKED_AT(1, 4) enum fq_status fq_ring_put_all(struct fq_ring *FQ_RESTRICT ring, const struct
    fq_packet *FQ_RESTRICT packets, size_t len, size_t *FQ_RESTRICT count);
/* Removes the first packets from the ring, at most `weight` (1 to 64), and writes them to an
 * array of `len` elements, at least the weight. Returns FQ_OK, and sets *count to their number.
 * Otherwise *count is 0: FQ_BAD_WEIGHT; FQ_NO_ROOM; FQ_BAD_HANDLE, also for a ring whose poll
 * end belongs to an instance or to another handle. */
FQ_CHECKED_AT(1, 5) enum fq_status fq_ring_poll(struct fq_ring *FQ_RESTRICT ring, size_t weight,
    struct fq_packet *FQ_RESTRICT out, size_t len, size_t *FQ_RESTRICT count);

/* The counts of a ring's polls, each of which saturates at its maximum. */
struct fq_counts {
    size_t size;      /* the size of this struct */
    uint64_t polls;   /* the polls */
    uint64_t packets; /* the packets that they returned */
    uint64_t bytes;   /* the bytes of these packets */
};

/* The counts of a whole ring, each of which saturates at its maximum. */
struct fq_totals {
    size_t size;     /* the size of this struct */
    uint64_t put;    /* the packets that were put */
    uint64_t polled; /* the packets that polls returned */
    uint64_t left;   /* the packets that were left in the ring */
    uint64_t bytes;  /* the bytes of all packets that were put */
};

/* Sets *counts to the counts of a ring's polls. The handle has to own the poll end: it is a
 * ring, or the poll end of one that was split; a caller that polls; the controller of a disabled
 * instance. Returns FQ_OK; FQ_BAD_HANDLE; FQ_NOT_ALLOWED for any other. */
FQ_CHECKED enum fq_status fq_count_sized(const struct fq_handle *FQ_RESTRICT handle, struct
    fq_counts *FQ_RESTRICT counts);
FQ_CHECKED static inline enum fq_status fq_count(const struct fq_handle *FQ_RESTRICT handle, struct
    fq_counts *FQ_RESTRICT counts) {
    counts->size = sizeof *counts;
    return fq_count_sized(handle, counts);
}

/* The state of a ring, or of its input. */
struct fq_ring_shown {
    size_t size;     /* the size of this struct */
    uint64_t put;    /* the packets put so far, a count that saturates; minus the packets of
                      * fq_count, it is the number in the ring */
    size_t capacity; /* in packets */
};

/* Sets *shown to the state of a ring, or of its input. Returns FQ_OK; FQ_BAD_HANDLE. */
FQ_CHECKED enum fq_status fq_ring_show_sized(const struct fq_ring *FQ_RESTRICT ring, struct
    fq_ring_shown *FQ_RESTRICT shown);
FQ_CHECKED static inline enum fq_status fq_ring_show(const struct fq_ring *FQ_RESTRICT ring, struct
    fq_ring_shown *FQ_RESTRICT shown) {
    shown->size = sizeof *shown;
    return fq_ring_show_sized(ring, shown);
}

/* Splits a ring without an instance for two threads: after it, `ring` is the ring's input, for
 * puts, and `out` its poll end, for polls. Each is freed separately. Returns FQ_OK; FQ_IN_USE;
 * FQ_BAD_HANDLE; FQ_OUT_OF_MEMORY. */
FQ_CHECKED enum fq_status fq_ring_split(struct fq_ring *FQ_RESTRICT ring, struct fq_ring
    *FQ_RESTRICT out);
/* Frees a ring that was never split, and sets *totals to its totals; the handle is unset after
 * that. Returns FQ_OK; FQ_BAD_HANDLE, and nothing changes. */
FQ_CHECKED enum fq_status fq_ring_finish_sized(struct fq_ring *FQ_RESTRICT ring, struct fq_totals
    *FQ_RESTRICT totals);
FQ_CHECKED static inline enum fq_status fq_ring_finish(struct fq_ring *FQ_RESTRICT ring, struct
    fq_totals *FQ_RESTRICT totals) {
    totals->size = sizeof *totals;
    return fq_ring_finish_sized(ring, totals);
}

/* A ring of places, without copies: its packets, of any type, are in an array of the program's,
 * of `capacity` elements, and the calls say which elements an end may use. Sets two handles:
 * `ring` is the input end, by which one thread publishes packets, and `out` the output end, by
 * which one thread takes them. Each is freed separately. Returns FQ_OK; FQ_IN_USE;
 * FQ_BAD_CAPACITY, unless the capacity is 1 to 65536; FQ_OUT_OF_MEMORY. */
FQ_CHECKED enum fq_status fq_ring_places(
    struct fq_ring *FQ_RESTRICT ring, struct fq_ring *FQ_RESTRICT out, size_t capacity);
/* For the input end: publishes the packets in the first `publish` of the elements that it claimed
 * last, and then claims up to `want` elements, at most 64: *count of them, from the index *first
 * on. The program may write them until the end's next call. They are fewer than `want` at the end
 * of the array, where the next claim begins at index 0, and if the ring is full. Claims that
 * aren't published are claimed again. Returns FQ_OK, also if *count is 0. Otherwise nothing
 * changes, and both are 0: FQ_BAD_HANDLE; FQ_NOT_ALLOWED if fewer were claimed. */
FQ_CHECKED enum fq_status fq_ring_claim(
    struct fq_ring *FQ_RESTRICT ring, size_t publish, size_t want, size_t *FQ_RESTRICT first,
    size_t *FQ_RESTRICT count);
/* For the output end: releases the first `release` of the elements that it peeked at last, which
 * may then be claimed again, and peeks at up to `want` published packets, at most 64, the oldest
 * ones: *count of them, from the index *first on. The program may read and write them until the
 * end's next call. They are fewer than `want` at the end of the array, and if no more are
 * published. Packets that aren't released are peeked at again. Returns FQ_OK, also if *count is
 * 0. Otherwise nothing changes, and both are 0: FQ_BAD_HANDLE; FQ_NOT_ALLOWED if fewer were
 * peeked at. */
FQ_CHECKED enum fq_status fq_ring_peek(
    struct fq_ring *FQ_RESTRICT ring, size_t release, size_t want, size_t *FQ_RESTRICT first,
    size_t *FQ_RESTRICT count);

/* ---- tx: transmit rings under a byte queue limit (netdev_tx_sent_queue,
 * netdev_tx_completed_queue). The ring keeps the sizes of the packets that were sent and aren't
 * completed, in order; the packets themselves stay with the program. Times are milliseconds. */

/* The state of a transmit ring. */
struct fq_tx_shown {
    size_t size;        /* the size of this struct */
    uint32_t queued;    /* the bytes of all packets ever sent, modulo 2^32 */
    uint32_t completed; /* the bytes of all packets ever completed, modulo 2^32: queued -
                         * completed are in flight */
    uint32_t limit;     /* the limit in bytes */
    int64_t avail;      /* the bytes that may still be sent; if negative, the queue is over its
                         * limit */
    bool stopped;       /* whether the limit has stopped the queue, and no completion has started
                         * it since */
};

/* Makes a ring of capacity 1 to 65536, not stopped, over a new limit between `min` and `max`
 * bytes, with the slack hold time `hold_ms` (dql_init). fq_free frees it, whatever it holds.
 * Returns FQ_OK; FQ_IN_USE; FQ_BAD_BOUNDS; FQ_BAD_CAPACITY; FQ_OUT_OF_MEMORY. */
FQ_CHECKED enum fq_status fq_tx_new(struct fq_tx *tx, size_t capacity, uint32_t min, uint32_t max,
    uint64_t hold_ms, uint64_t now_ms);
/* Sends a packet of `bytes` bytes to the device (netdev_tx_sent_queue): adds it to the ring, and
 * stops the queue if `avail` becomes negative. Returns FQ_OK; otherwise nothing is sent:
 * FQ_STOPPED, else FQ_FULL, else FQ_TOO_LARGE, else FQ_TOO_MUCH_IN_FLIGHT; FQ_BAD_HANDLE. */
FQ_CHECKED enum fq_status fq_tx_send(struct fq_tx *tx, uint32_t bytes);
/* Completes the `count` oldest packets (netdev_tx_completed_queue). If these have any bytes, the
 * limit adapts, and the queue is started if the limit has room again. Returns FQ_OK;
 * FQ_MORE_THAN_SENT, and nothing is completed; FQ_BAD_HANDLE. */
FQ_CHECKED enum fq_status fq_tx_done(struct fq_tx *tx, uint32_t count, uint64_t now_ms);
/* Sets *state to the state of the ring. Returns FQ_OK; FQ_BAD_HANDLE. */
FQ_CHECKED enum fq_status fq_tx_state_sized(const struct fq_tx *FQ_RESTRICT tx, struct fq_tx_shown
    *FQ_RESTRICT state);
FQ_CHECKED static inline enum fq_status fq_tx_state(const struct fq_tx *FQ_RESTRICT tx, struct
    fq_tx_shown *FQ_RESTRICT state) {
    state->size = sizeof *state;
    return fq_tx_state_sized(tx, state);
}

/* What a driver's watchdog timer keeps about a transmit ring (dev_watchdog): all 0 at first. */
struct fq_tx_watchdog {
    uint8_t private_stopped;
    uint32_t private_completed;
    uint64_t private_since;
};

/* Checks a ring at each tick of that timer. Sets *stuck to whether the ring has been stopped,
 * with no byte completed, for `limit_ms` since the first check that found it so; if the clock
 * went back to before that check, 0 ms have passed. Returns FQ_OK; FQ_BAD_HANDLE, and *stuck is
 * false. */
FQ_CHECKED enum fq_status fq_tx_watch(const struct fq_tx *FQ_RESTRICT tx, struct fq_tx_watchdog
    *FQ_RESTRICT watchdog, uint64_t limit_ms, uint64_t now_ms, bool *FQ_RESTRICT stuck);

/* ---- shared: instances that threads share. */

/* Makes an instance over the ring's poll end, with its controller and an array of `count` (2 to
 * 8) callers. It is disabled. After it, `ring` is only the ring's input. Returns FQ_OK;
 * FQ_IN_USE; FQ_BAD_COUNT; FQ_BAD_HANDLE; FQ_OUT_OF_MEMORY. */
FQ_CHECKED_AT(1, 2) enum fq_status fq_shared_new(struct fq_ring *FQ_RESTRICT ring, struct fq_control
    *FQ_RESTRICT control, struct fq_caller *FQ_RESTRICT callers, size_t count);

/* Makes an instance without a ring, for a card that the program polls itself; fq_caller_poll
 * returns no packets. Otherwise like fq_shared_new. Returns FQ_OK; FQ_IN_USE; FQ_BAD_COUNT;
 * FQ_OUT_OF_MEMORY. */
FQ_CHECKED_AT(1) enum fq_status fq_shared_bare(struct fq_control *FQ_RESTRICT control, struct
    fq_caller *FQ_RESTRICT callers, size_t count);

/* The calls of a caller of a shared instance. Each makes one attempt, after checks for
 * FQ_BAD_KIND, FQ_BAD_WEIGHT, FQ_NO_ROOM and FQ_BAD_HANDLE; fq_caller_schedule_prep and
 * fq_caller_complete_done repeat it while another thread changes the instance. A caller at rest,
 * which owns nothing, may request a poll (napi_schedule_prep), take the instance from the list
 * or as its thread, take it to busy poll it (napi_busy_loop), and set whether polls are queued
 * for its thread (dev_set_threaded). */
FQ_CHECKED enum fq_status
fq_caller_schedule(struct fq_caller *caller); /* FQ_GRANTED, FQ_MISSED, FQ_DISABLED, FQ_CHANGED */
FQ_CHECKED enum fq_status
fq_caller_schedule_prep(struct fq_caller *caller); /* FQ_GRANTED, FQ_MISSED, FQ_DISABLED */
FQ_CHECKED enum fq_status
fq_caller_take(struct fq_caller *caller, enum fq_kind kind); /* FQ_TAKEN, FQ_NOT_THERE */
FQ_CHECKED enum fq_status
fq_caller_busy_take(struct fq_caller *caller); /* FQ_TAKEN, FQ_BUSY, FQ_CHANGED */
FQ_CHECKED enum fq_status
fq_caller_set_threaded(struct fq_caller *caller, bool threaded); /* FQ_OK */
/* A caller that was granted the instance has to queue it (____napi_schedule). */
FQ_CHECKED enum fq_status fq_caller_hand(struct fq_caller *caller, enum fq_kind kind); /* FQ_OK */
/* A caller that polls may poll the ring, like fq_ring_poll, and then requeues the instance or
 * completes (napi_complete_done). */
FQ_CHECKED_AT(1, 5) enum fq_status fq_caller_poll(struct fq_caller *FQ_RESTRICT caller, size_t
    weight, struct fq_packet *FQ_RESTRICT out, size_t len, size_t *FQ_RESTRICT count);
FQ_CHECKED enum fq_status
fq_caller_requeue(struct fq_caller *caller); /* FQ_OK: it is on the list again */
FQ_CHECKED enum fq_status fq_caller_complete(struct fq_caller *caller); /* FQ_RELEASED, FQ_AGAIN,
                                                                         * FQ_CHANGED; FQ_HELD
                                                                         * for a busy poller */
FQ_CHECKED enum fq_status
fq_caller_complete_done(struct fq_caller *caller); /* FQ_RELEASED, FQ_AGAIN; FQ_HELD for a busy
                                                    * poller */
/* A caller that busy polls may poll and complete, and stops (busy_poll_stop): it then polls once
 * more. */
FQ_CHECKED enum fq_status fq_caller_busy_stop(struct fq_caller *caller); /* FQ_OK, FQ_CHANGED */

/* Sets *word to the state word, a sum of FQ_BIT_.., in any state of the caller. Returns FQ_OK;
 * FQ_BAD_HANDLE. */
FQ_CHECKED enum fq_status fq_caller_look(const struct fq_caller *FQ_RESTRICT caller, uint64_t
    *FQ_RESTRICT word);

/* How often a caller's calls returned each result. Each count saturates at its maximum. */
struct fq_answers {
    size_t size;       /* the size of this struct */
    uint64_t granted;  /* requests that were granted */
    uint64_t missed;   /* requests that were missed */
    uint64_t disabled; /* requests while a disable was pending */
    uint64_t released; /* completions that released the instance */
    uint64_t again;    /* completions that found a missed request */
    uint64_t held;     /* completions of a busy poller */
    uint64_t changed;  /* attempts of any call that failed because another thread changed the
                        * instance */
};

/* Sets *answers to how often the caller's calls returned each result since it was made. Returns
 * FQ_OK; FQ_BAD_HANDLE. */
FQ_CHECKED enum fq_status fq_caller_count_sized(const struct fq_caller *FQ_RESTRICT caller, struct
    fq_answers *FQ_RESTRICT answers);
FQ_CHECKED static inline enum fq_status fq_caller_count(const struct fq_caller *FQ_RESTRICT caller,
    struct fq_answers *FQ_RESTRICT answers) {
    answers->size = sizeof *answers;
    return fq_caller_count_sized(caller, answers);
}

/* The callbacks of a driver for its card. Each is called with `at`. A callback that a call
 * doesn't use may be null. */
struct fq_card {
    void *at;
    void (*mask)(void *at);                /* stops the card's interrupts */
    void (*unmask)(void *at);              /* allows them again */
    bool (*look)(void *at);                /* returns whether there is something to poll */
    size_t (*poll)(void *at, size_t most); /* polls at most this many packets, and returns how
                                            * many */
};

/* Queues a granted instance as the kernel does (____napi_schedule): for its thread if
 * FQ_BIT_THREADED is set. Sets *next to FQ_NEXT_AGAIN or FQ_NEXT_AGAIN_THREAD. Returns FQ_OK;
 * FQ_BAD_HANDLE; FQ_NOT_ALLOWED. *next is FQ_NEXT_GONE unless it returns FQ_OK. */
FQ_CHECKED enum fq_status fq_caller_hand_again(struct fq_caller *FQ_RESTRICT caller, enum fq_next
    *FQ_RESTRICT next);

/* Handles an interrupt: requests a poll (fq_caller_schedule_prep); if granted, masks the card
 * and queues the instance, in the kernel's order: if the card were masked after that, it would
 * stay masked whenever the poller is faster. `kind` follows FQ_BIT_THREADED, which
 * fq_caller_request reads itself. Returns FQ_BAD_KIND; FQ_GRANTED, and the instance is queued;
 * FQ_MISSED; FQ_DISABLED; FQ_BAD_HANDLE; FQ_NOT_ALLOWED. */
FQ_CHECKED static inline enum fq_status fq_caller_interrupt_masked(struct fq_caller *caller,
    enum fq_kind kind, const struct fq_card *card) {
    if (kind > FQ_THREAD) return FQ_BAD_KIND;
    const enum fq_status said = fq_caller_schedule_prep(caller);
    if (said != FQ_GRANTED) return said;
    if (card->mask != NULL) card->mask(card->at);
    const enum fq_status handed = fq_caller_hand(caller, kind);
    return handed == FQ_OK ? said : handed;
}

/* Like fq_caller_interrupt_masked, for a card that is masked already, or is never masked. */
FQ_CHECKED static inline enum fq_status fq_caller_interrupt(struct fq_caller *caller, enum fq_kind
    kind) {
    const struct fq_card none = {NULL, NULL, NULL, NULL, NULL};
    return fq_caller_interrupt_masked(caller, kind, &none);
}

/* Requests a poll (napi_schedule), from an interrupt, a timer or a driver's open. Like
 * fq_caller_interrupt_masked, but reads the kind from the state word. Sets *next to where the
 * instance is queued: after FQ_NEXT_AGAIN list the number, after FQ_NEXT_AGAIN_THREAD wake the
 * thread; FQ_NEXT_GONE unless it returns FQ_GRANTED. Returns FQ_GRANTED; FQ_MISSED; FQ_DISABLED;
 * FQ_BAD_HANDLE; FQ_NOT_ALLOWED. */
FQ_CHECKED static inline enum fq_status fq_caller_request(struct fq_caller *FQ_RESTRICT caller,
    const struct fq_card *FQ_RESTRICT card, enum fq_next *FQ_RESTRICT next) {
    *next = FQ_NEXT_GONE;
    const enum fq_status said = fq_caller_schedule_prep(caller);
    if (said != FQ_GRANTED) return said;
    if (card->mask != NULL) card->mask(card->at);
    const enum fq_status handed = fq_caller_hand_again(caller, next);
    return handed == FQ_OK ? said : handed;
}

/* Ends a poll as the kernel does (__napi_poll). `full` says that it returned its whole weight.
 * After a full poll, if no disable is pending, a caller that took the instance from the list
 * puts it on the list again, and one that took it as its thread polls again, at once (FQ_HELD).
 * After any other poll the instance is completed (fq_caller_complete_done), and queued again if
 * a request was missed (fq_caller_hand_again). Sets *next to how the poll ended, for
 * fq_run_polled: FQ_NEXT_GONE, FQ_NEXT_AGAIN, FQ_NEXT_AGAIN_THREAD, FQ_NEXT_REPOLL. After
 * FQ_NEXT_AGAIN and FQ_NEXT_REPOLL the number still has to be listed, after FQ_NEXT_AGAIN_THREAD
 * the thread still has to be woken; that may follow a poll from the list too. Returns FQ_OK;
 * FQ_HELD: the caller keeps polling, as a busy poller does; FQ_NOT_ALLOWED if it doesn't poll;
 * FQ_BAD_HANDLE. *next is FQ_NEXT_GONE unless it returns FQ_OK. A caller polls as the thread
 * while FQ_BIT_SCHED_THREADED is set, which fq_caller_requeue doesn't clear. */
FQ_CHECKED enum fq_status fq_caller_end(struct fq_caller *FQ_RESTRICT caller, bool full, enum
    fq_next *FQ_RESTRICT next);

#if defined(__GNUC__)
/* Ends a poll of a card whose queue can be checked by `look`. Like fq_caller_end; and if the
 * instance was released, unmasks the card, and looks after a memory fence. If there is something
 * to poll, it requests a poll itself, masks the card and queues the instance. Without this look
 * an edge-triggered interrupt would be lost. If FQ_BIT_THREADED was set meanwhile, the instance
 * is queued for its thread: wake it after FQ_NEXT_AGAIN_THREAD. Returns what fq_caller_end
 * returns. */
FQ_CHECKED static inline enum fq_status fq_caller_end_watched(struct fq_caller *FQ_RESTRICT caller,
    bool full, const struct fq_card *FQ_RESTRICT card, enum fq_next *FQ_RESTRICT next) {
    enum fq_status said = fq_caller_end(caller, full, next);
    if (said != FQ_OK || *next != FQ_NEXT_GONE) return said;
    card->unmask(card->at);
    __sync_synchronize();
    if (!card->look(card->at)) return FQ_OK;
    said = fq_caller_request(caller, card, next); /* FQ_MISSED: another caller has requested a
                                                   * poll; FQ_DISABLED: a disable is pending */
    return said == FQ_GRANTED || said == FQ_MISSED || said == FQ_DISABLED ? FQ_OK : said;
}
#endif

/* Ends a poll of a card whose queue can't be checked. *work is the number of packets polled so
 * far. If it is below `weight`, unmasks the card while the caller still polls, polls the rest of
 * the weight, adds that to *work, and ends like fq_caller_end, full or not. A request that comes
 * meanwhile is missed, so that one more poll follows; for that poll, and if this one was full,
 * the card is masked. Returns FQ_BAD_WEIGHT if the weight isn't 1 to 64, and nothing is done;
 * otherwise what fq_caller_end returns. */
FQ_CHECKED static inline enum fq_status fq_caller_end_unmasked(struct fq_caller *FQ_RESTRICT caller,
    const struct fq_card *FQ_RESTRICT card, size_t weight, size_t *FQ_RESTRICT work, enum
    fq_next *FQ_RESTRICT next) {
    struct fq_counts counts; /* only for its status: FQ_OK if the caller polls */
    uint64_t word;
    *next = FQ_NEXT_GONE;
    if (weight < 1 || weight > 64) return FQ_BAD_WEIGHT;
    enum fq_status said = fq_caller_look(caller, &word);
    if (said == FQ_OK && word & FQ_BIT_IN_BUSY_POLL) return fq_caller_end(caller, false, next);
    if (said == FQ_OK) said = fq_count(&caller->handle, &counts);
    if (said != FQ_OK) return said;
    if (*work < weight) {
        card->unmask(card->at);
        *work += card->poll(card->at, weight - *work);
        if (*work >= weight) card->mask(card->at);
    }
    if (*work >= weight) return fq_caller_end(caller, true, next);
    said = fq_caller_complete_done(caller);
    if (said != FQ_AGAIN) return said == FQ_RELEASED ? FQ_OK : said;
    card->mask(card->at);
    return fq_caller_hand_again(caller, next);
}

/* The calls of the controller. If the instance is off: enable (napi_enable). If it is on: mark.
 * If it is marked: try to take, until that returns FQ_TAKEN, and the instance is off again
 * (napi_disable). Request a poll once after each enable, by a caller (fq_caller_request), or
 * enable by fq_control_open, which does so: an earlier request was missed and isn't polled, and
 * a masked card with a full ring would wait forever. */
FQ_CHECKED enum fq_status
fq_control_enable(struct fq_control *control, bool threaded); /* FQ_OK, FQ_CHANGED */
FQ_CHECKED enum fq_status fq_control_mark(struct fq_control *control);                  /* FQ_OK */
FQ_CHECKED enum fq_status
fq_control_try_take(struct fq_control *control); /* FQ_TAKEN, FQ_BUSY, FQ_CHANGED */

/* Makes one step of a driver's open (`on`) or stop; repeat it between the driver's polls until
 * it returns FQ_OK. After FQ_OK the instance is enabled, and a poll still has to be requested
 * once (fq_control_open does so); or it is off. Returns FQ_OK, also to stop an instance that is
 * off; FQ_BUSY: a disable is pending, and the owner has to complete the instance before the next
 * step; FQ_NOT_ALLOWED to open one that isn't off; FQ_BAD_HANDLE. */
FQ_CHECKED enum fq_status fq_control_step(struct fq_control *control, bool on, bool threaded);

/* Returns FQ_OK if the caller belongs to the controller's instance, otherwise FQ_BAD_HANDLE. */
FQ_CHECKED enum fq_status fq_control_has(const struct fq_control *FQ_RESTRICT control, const struct
    fq_caller *FQ_RESTRICT caller);

/* Opens a driver's instance: enables it, and requests a poll once by a caller at rest (as
 * virtnet_napi_enable does), so that what came while it was off is polled. Returns, and sets
 * *next, like fq_caller_request: FQ_GRANTED, and the number has to be listed or the thread
 * woken; FQ_MISSED: another caller has requested a poll meanwhile; FQ_NOT_ALLOWED, and nothing
 * is done, if the controller isn't off; FQ_NOT_ALLOWED also if the caller isn't at rest: then
 * the instance is enabled, and a poll still has to be requested; FQ_BAD_HANDLE, and nothing is
 * done, also if the caller is another instance's. It never returns FQ_DISABLED, which a caller
 * gets while its instance is being disabled. */
FQ_CHECKED static inline enum fq_status fq_control_open(struct fq_control *FQ_RESTRICT control, bool
    threaded, struct fq_caller *FQ_RESTRICT caller, const struct fq_card *FQ_RESTRICT card, enum
    fq_next *FQ_RESTRICT next) {
    *next = FQ_NEXT_GONE;
    enum fq_status said = fq_control_has(control, caller);
    if (said == FQ_OK) said = fq_control_step(control, true, threaded);
    return said == FQ_OK ? fq_caller_request(caller, card, next) : said;
}

/* ---- run: poll lists and polling runs (net_rx_action). The program drives a run: fq_run_begin;
 * while fq_run_next returns FQ_OK, poll that device and report the poll by fq_run_polled;
 * fq_run_end. Each call on a list checks for FQ_BAD_HANDLE first. */

/* The report of a polling run. */
struct fq_run_report {
    size_t size;   /* the size of this struct */
    uint32_t polls; /* the polls, at most the window */
    uint32_t work;  /* the packets of all polls */
    bool squeezed;  /* whether the run stopped because its budget or its window was used up,
                     * whether or not anything was left */
};

/* Makes a poll list for up to 64 numbers of devices; for more devices use more lists, for
 * example one for each processor. A number leaves the list when its poll ends with FQ_NEXT_GONE,
 * or by fq_list_remove. Returns FQ_OK; FQ_IN_USE; FQ_OUT_OF_MEMORY. */
FQ_CHECKED enum fq_status fq_list_new(struct fq_list *list);
/* Puts a number at the list's tail. Returns FQ_OK; FQ_IN_USE if it is on the list, or waits in
 * the run over it; FQ_FULL if the list and its run hold 64, including the number that is being
 * polled: then end that poll with FQ_NEXT_AGAIN instead of a push. */
FQ_CHECKED enum fq_status fq_list_push(struct fq_list *list, uint32_t id);
/* Removes a number from the list, for a device that goes away; the others keep their order. It
 * may be called during a run. Returns FQ_OK; FQ_BUSY if it isn't on the list, but the run over
 * it has it, which polls it, will poll it, or lists it at its end: then end its poll with
 * FQ_NEXT_GONE, or end the run first; FQ_NOT_THERE if neither the list nor its run has it;
 * FQ_BAD_HANDLE. Nothing changes unless it returns FQ_OK. */
FQ_CHECKED enum fq_status fq_list_remove(struct fq_list *list, uint32_t id);
/* Sets *len to how many numbers the list and its run hold, including the one that is being
 * polled. Returns FQ_OK; FQ_BAD_HANDLE. */
FQ_CHECKED enum fq_status fq_list_len(const struct fq_list *FQ_RESTRICT list, uint32_t *FQ_RESTRICT
    len);
/* Begins a run with a budget in packets, a weight in packets per poll, and a window in polls, as
 * in struct fq_settings. Returns FQ_OK; FQ_NOT_ALLOWED if a run is in progress; FQ_BAD_WEIGHT;
 * FQ_BAD_BUDGET. */
FQ_CHECKED enum fq_status fq_run_begin(struct fq_list *list, uint32_t budget, uint32_t weight,
    uint32_t window);
/* Sets *id to the number to poll next. Returns FQ_OK; FQ_DONE if the run is over; FQ_NOT_ALLOWED
 * without a run, or if the last poll wasn't reported. */
FQ_CHECKED enum fq_status fq_run_next(struct fq_list *FQ_RESTRICT list, uint32_t *FQ_RESTRICT id);
/* Reports the outcome of the poll: its packets, and how it ended. Returns FQ_OK; FQ_NOT_ALLOWED;
 * FQ_BAD_WORK above the weight; FQ_BAD_NEXT; FQ_IN_USE if the number would be listed twice, and
 * the poll still has to be reported. It isn't checked that FQ_NEXT_REPOLL follows a whole weight,
 * because a device may have its own weight, below the run's; nor that FQ_NEXT_ABSENT comes
 * without packets. */
FQ_CHECKED enum fq_status fq_run_polled(struct fq_list *list, uint32_t work, enum fq_next next);
/* Ends the run, and sets *report. The numbers that weren't polled, and those to be polled again,
 * are on the list. Returns FQ_OK; FQ_NOT_ALLOWED. */
FQ_CHECKED enum fq_status fq_run_end_sized(struct fq_list *FQ_RESTRICT list, struct fq_run_report
    *FQ_RESTRICT report);
FQ_CHECKED static inline enum fq_status fq_run_end(struct fq_list *FQ_RESTRICT list, struct
    fq_run_report *FQ_RESTRICT report) {
    report->size = sizeof *report;
    return fq_run_end_sized(list, report);
}

/* ---- driver: a driver of up to 64 devices on one thread. It has their instances, the poll list
 * and the runs over it. It does no input or output and calls nothing back: fq_driver_turn
 * reports that an action was done at a card, and which cards interrupted since, and says what
 * has to be done next. A loop needs only this call:
 *
 *     struct fq_todo todo = FQ_TODO_INIT;
 *     while (!fq_is_error(fq_driver_turn(&driver, interrupts(), &todo)) &&
 *            todo.what != FQ_TODO_SLEEP) {
 *         if (todo.mask) mask(todo.device);
 *         switch (todo.what) {
 *         case FQ_TODO_MASK: mask(todo.device); break;
 *         case FQ_TODO_UNMASK: unmask(todo.device); break;
 *         case FQ_TODO_LOOK: todo.packets = has_packets(todo.device); break;
 *         case FQ_TODO_FETCH: todo.packets = fetch(todo.device, todo.most); break;
 *         case FQ_TODO_TIMER: set_timer(todo.device, todo.nanoseconds); break;
 *         case FQ_TODO_ENDED: case FQ_TODO_SLEEP: case FQ_TODO_FAILED: break;
 *         }
 *     }
 *     (end the program if todo.what is FQ_TODO_FAILED, whose error is todo.status; otherwise
 *     wait for the next interrupt, and begin again with the same todo)
 *
 * where interrupts() returns the bits of the devices that interrupted since it was called last,
 * and forgets them, as fq_word_take does. So a device is polled after at most one poll of each
 * other device. An error is a mistake of the program: a handle without a driver, a bit without a
 * device, a fetch that took more than `most`, or another todo than that of the action which has
 * to be reported. It ends the loop. A packet that interrupts takes two turns: the first says to
 * mask the card and fetch, and the second, if the fetch also unmasked the card (`rearm`), to
 * sleep.
 *
 * fq_driver_step does the same without interrupts, which fq_driver_interrupt reports, and without
 * `mask`: to mask a card is always an action of its own. A driver that isn't a loop, for example
 * one of callbacks, asks by fq_driver_next and reports by fq_driver_done.
 *
 * Any order of calls is safe: what isn't due changes nothing. It says to sleep only if each
 * device is closed, or its card was unmasked, was looked at after that and had no packets, or
 * its interrupt is deferred and its timer was set; and nothing is on the poll list. So no packet
 * waits unseen if the card interrupts for each packet that arrives while it is unmasked, even if
 * it forgets those that arrive while it is masked (edges). Packets stay with the program: they
 * are in the card until a fetch takes them.
 *
 * More devices need several drivers. A device moves to another driver after fq_driver_stop, once
 * it is closed, by fq_driver_open there.
 *
 * Only one thread uses a driver at a time. If interrupts come on another thread, raise a bit in
 * a struct fq_word there, and take them by fq_word_take on the driver's thread. */

/* What has to be done. After FQ_TODO_SLEEP, FQ_TODO_ENDED and FQ_TODO_FAILED there is nothing to
 * report, and fq_driver_done does nothing. A switch over it has no default, so that a compiler
 * names an action that it forgets. */
enum fq_what FQ_NUMBER {
    FQ_TODO_SLEEP = 0,  /* nothing, until the next interrupt, open or stop; fq_todo_run returns
                         * the report of the run that ended, if one did */
    FQ_TODO_MASK = 1,   /* mask the interrupt of the device's card */
    FQ_TODO_UNMASK = 2, /* unmask the interrupt of the device's card */
    FQ_TODO_LOOK = 3,   /* look whether the card has packets, and set `packets` to how many, or
                         * to 1 if it has any, or to 0: after a full memory fence, if the card
                         * works at the same time */
    FQ_TODO_FETCH = 4,  /* mask the card if `mask` is set; then take packets from it, at most
                         * `most` of them, deliver them, and set `packets` to how many. If the
                         * card has no more, you may unmask it and then look at it, and set
                         * `rearm`: this saves the turns for UNMASK and LOOK */
    FQ_TODO_ENDED = 5,  /* a run ended (net_rx_action), whose report fq_todo_run returns: it was
                         * squeezed, or devices wait for the next run. Do other work first, if
                         * there is some */
    FQ_TODO_FAILED = 6, /* nothing, because the call failed, with the error `status`: a loop has
                         * to end */
    FQ_TODO_TIMER = 7   /* set the device's timer, so that it expires once, after `nanoseconds`;
                         * one that is still set is replaced. The card stays masked. When it
                         * expires, call fq_driver_timer. Only for a device with deferral
                         * (fq_driver_set) */
};

/* Whether a fetch also unmasked the card and then looked at it, as FQ_TODO_UNMASK and
 * FQ_TODO_LOOK do. A fetch that unmasked the card has to be reported. FQ_REARM_MORE costs at most
 * one poll without packets, and a number that isn't listed counts as it. */
enum fq_rearm FQ_NUMBER {
    FQ_REARM_NO = 0,   /* it didn't: the card is still masked */
    FQ_REARM_MORE = 1, /* it did, and the card had packets */
    FQ_REARM_EMPTY = 2 /* it did, and the card had no packets */
};

/* An action that has to be done: 40 bytes, all 0 at first. */
struct fq_todo {
    uint64_t number;      /* the number under which to report it: each action has another one; 0
                           * if there is nothing to report */
    uint64_t nanoseconds; /* the time of FQ_TODO_TIMER; 0 for anything else */
    enum fq_what what;    /* what has to be done */
    uint32_t device;      /* the device; 0 if the action is at none */
    uint32_t most;        /* the packets that a fetch may take, the device's weight; 0 for any
                           * other action at a device. fq_todo_run reads it, `packets` and
                           * `squeezed` after FQ_TODO_ENDED and FQ_TODO_SLEEP */
    uint32_t packets;     /* set by the program after a look and a fetch; before that 1 for a
                           * look, so that packets aren't forgotten, and 0 for any other action
                           * at a device */
    enum fq_rearm rearm;  /* set by the program after a fetch that also unmasked the card and
                           * looked at it; before that FQ_REARM_NO */
    uint16_t status;      /* the error after FQ_TODO_FAILED; FQ_NOT_DUE if the driver didn't wait
                           * for the last report any more, because of an interrupt, an open or a
                           * stop; otherwise FQ_OK */
    bool mask;            /* whether a fetch has to mask the card first; fq_driver_step never sets
                           * it */
    bool squeezed;        /* whether the run that ended was squeezed */
};

/* No action. A static fq_todo needs no initialiser. */
#define FQ_TODO_INIT \
    FQ_PRIVATE_VALUE(fq_todo){0, 0, FQ_TODO_SLEEP, 0, 0, 0, FQ_REARM_NO, FQ_OK, false, false}

/* Returns the report of the run that ended, after FQ_TODO_ENDED and FQ_TODO_SLEEP; its numbers
 * are 0 if none did, and for any other action. */
FQ_NONNULL static inline struct fq_run_report fq_todo_run(const struct fq_todo *todo) {
    struct fq_run_report report = {sizeof report, 0, 0, false};
    if (todo->what == FQ_TODO_ENDED || todo->what == FQ_TODO_SLEEP) {
        report.polls = todo->most;
        report.work = todo->packets;
        report.squeezed = todo->squeezed;
    }
    return report;
}

/* Like fq_driver_new, for bindings. Drivers with different salts number their actions
 * differently, so that none takes a report that is another one's. */
FQ_CHECKED enum fq_status fq_driver_new_salted(struct fq_driver *driver, uint32_t devices, uint32_t
    budget, uint32_t weight, uint32_t window, uint16_t salt);

/* Makes a driver of 1 to 64 devices, all closed, their cards masked. Budget, weight and window
 * are those of fq_run_begin. fq_free frees it in any state. Returns FQ_OK; FQ_IN_USE;
 * FQ_BAD_COUNT; FQ_BAD_WEIGHT; FQ_BAD_BUDGET; FQ_OUT_OF_MEMORY. */
FQ_CHECKED static inline enum fq_status fq_driver_new(struct fq_driver *driver, uint32_t devices,
    uint32_t budget, uint32_t weight, uint32_t window) {
    return fq_driver_new_salted(driver, devices, budget, weight, window,
        (uint16_t)FQ_PRIVATE_COUNT(fq_private_drivers));
}

/* Opens a closed device (napi_enable): its card will be unmasked and looked at, so that packets
 * which came before are polled too. Returns FQ_OK; FQ_NOT_DUE if it isn't closed; FQ_BAD_DEVICE;
 * FQ_BAD_HANDLE. */
FQ_CHECKED enum fq_status fq_driver_open(struct fq_driver *driver, uint32_t device);

/* Stops an open device (napi_disable). Polls that were requested are still made, its card is
 * masked, and then it is closed, which fq_driver_show shows. Packets that stay in the card are
 * polled after the next open. Returns FQ_OK; FQ_NOT_DUE if it is closed or being stopped;
 * FQ_BAD_DEVICE; FQ_BAD_HANDLE. */
FQ_CHECKED enum fq_status fq_driver_stop(struct fq_driver *driver, uint32_t device);

/* Reports the action in *todo, unless its number is 0; then the interrupts of the cards of the
 * devices whose bits are set, device d's at bit d, as fq_driver_interrupt does; and sets *todo to
 * what has to be done now. If all that is due is to mask one card, and no device is listed or
 * polled, it is the fetch of that device, with `mask`. Returns FQ_OK, also if the driver didn't
 * wait for this report any more, which todo->status says; otherwise *todo is FQ_TODO_FAILED:
 * FQ_BAD_HANDLE; FQ_BAD_DEVICE for a bit without a device, and nothing changes; FQ_NOT_REPORTED
 * if the driver waits for the report of an action and this isn't it, and fq_driver_next returns
 * that action again; FQ_BAD_WORK if a fetch took more than `most`. After these two the action
 * isn't reported, but the interrupts are. */
FQ_CHECKED enum fq_status fq_driver_turn(struct fq_driver *FQ_RESTRICT driver, uint64_t interrupts,
    struct fq_todo *FQ_RESTRICT todo);

/* Reports an interrupt of a card (napi_schedule), at any time, also before an action that is due
 * is reported. Returns FQ_GRANTED: a poll was requested, whose first action is to mask the card;
 * FQ_MISSED: a poll is requested already, and one more follows, or the device is closed;
 * FQ_DISABLED: it is being stopped; FQ_BAD_DEVICE; FQ_BAD_HANDLE. It may be called too often: an
 * interrupt without packets costs one empty poll. */
FQ_CHECKED enum fq_status fq_driver_interrupt(struct fq_driver *driver, uint32_t device);

/* Sets *todo to what has to be done now. It is the same action, with the same number, until that
 * is reported or isn't due any more; a fetch that is returned again has `mask`. Returns FQ_OK;
 * FQ_BAD_HANDLE, and *todo is FQ_TODO_FAILED. */
FQ_CHECKED enum fq_status fq_driver_next(struct fq_driver *FQ_RESTRICT driver, struct fq_todo
    *FQ_RESTRICT todo);

/* Reports that the action in *todo was done, with todo->packets and todo->rearm; only these and
 * its number are read. Call it before the next call of fq_driver_next, or not at all: an action
 * that isn't reported is returned again. Returns FQ_OK; FQ_BAD_HANDLE; FQ_NOT_DUE: the driver
 * doesn't wait for this report any more, because of an interrupt, an open, a stop or an earlier
 * report, or it is another driver's, and fq_driver_next says what is due instead; FQ_BAD_WORK if
 * a fetch took more than `most`. Nothing changes unless it returns FQ_OK. */
FQ_CHECKED enum fq_status fq_driver_done(struct fq_driver *FQ_RESTRICT driver, const struct fq_todo
    *FQ_RESTRICT todo);

/* Reports the action in *todo, unless its number is 0, and sets *todo to what has to be done
 * now: fq_driver_done and then fq_driver_next in one call. Report interrupts that came meanwhile
 * before it, so that they count before the next poll. Returns FQ_OK, also if the driver didn't
 * wait for this report any more, which todo->status says; otherwise nothing changes, and *todo is
 * FQ_TODO_FAILED: FQ_BAD_HANDLE; FQ_NOT_REPORTED and FQ_BAD_WORK as in fq_driver_turn. */
FQ_CHECKED enum fq_status fq_driver_step(struct fq_driver *FQ_RESTRICT driver, struct fq_todo
    *FQ_RESTRICT todo);

/* Reports that the timer of a device expired (napi_watchdog), at any time, also if it isn't set
 * any more. Returns FQ_GRANTED: a poll was requested; FQ_NOT_DUE: one is requested already, or
 * the device is closed or being stopped, and nothing has changed; FQ_BAD_DEVICE; FQ_BAD_HANDLE. */
FQ_CHECKED enum fq_status fq_driver_timer(struct fq_driver *driver, uint32_t device);

/* The settings of a device. */
struct fq_device_settings {
    size_t size;                /* the size of this struct */
    uint32_t weight;            /* the packets that a fetch may take (netif_napi_add_weight), 1
                                 * to the driver's weight, which is its default */
    uint32_t defer_hard_irqs;   /* how many completions in a row defer the interrupt after the
                                 * last fetch with packets (napi_defer_hard_irqs): 0, or it
                                 * needs gro_flush_timeout */
    uint64_t gro_flush_timeout; /* for how many nanoseconds each does (gro_flush_timeout); 0, the
                                 * default, turns deferral off */
    uint32_t empty_polls;       /* with busy polling, the empty fetches in a row after which the
                                 * card is unmasked; 0, the default: none */
};

/* The default settings of a device of a driver whose weight is 64, to begin with. */
#define FQ_DEVICE_INIT \
    FQ_PRIVATE_VALUE(fq_device_settings){sizeof(struct fq_device_settings), 64, 0, 0, 0}

/* Sets the settings of a closed device; begin with FQ_DEVICE_INIT. With deferral, a completion
 * leaves the card masked, and FQ_TODO_TIMER follows; with busy polling, the device is polled
 * again until it was empty so often in a row. A fetch must not unmask the card then, because that
 * ends both. A timer may still be set after a stop: cancel it, or report it. Returns FQ_OK;
 * FQ_BAD_SIZE; FQ_BAD_HANDLE; FQ_BAD_DEVICE; FQ_BAD_WEIGHT; FQ_BAD_SETTING for defer_hard_irqs
 * without gro_flush_timeout; FQ_NOT_ALLOWED if the device isn't closed. */
FQ_CHECKED enum fq_status fq_driver_set_sized(struct fq_driver *FQ_RESTRICT driver, uint32_t device,
    const struct fq_device_settings *FQ_RESTRICT settings);
FQ_CHECKED static inline enum fq_status fq_driver_set(struct fq_driver *FQ_RESTRICT driver, uint32_t
    device, struct fq_device_settings settings) {
    settings.size = sizeof settings;
    return fq_driver_set_sized(driver, device, &settings);
}

/* Ends the run in progress, for a program with a clock of its own (netdev_budget_usecs): a fetch
 * that is due already is still made, and then FQ_TODO_ENDED follows, whose report says that the
 * run was squeezed. Returns FQ_OK; FQ_NOT_DUE if no run is in progress; FQ_BAD_HANDLE. The
 * status may be ignored if the handle is right. */
FQ_NONNULL enum fq_status fq_driver_end_run(struct fq_driver *driver);

/* The states of a device. */
enum fq_device_state FQ_NUMBER {
    FQ_DEVICE_CLOSED = 0,  /* closed, and its card is masked */
    FQ_DEVICE_OPEN = 1,    /* open */
    FQ_DEVICE_STOPPING = 2 /* being stopped */
};

/* The state of a device, and the counts of its polls. */
struct fq_device_shown {
    size_t size;                /* the size of this struct */
    enum fq_device_state state; /* the device's state */
    bool scheduled;             /* whether a poll is requested and isn't completed
                                 * (NAPI_STATE_SCHED); set for a closed device too, as in the
                                 * kernel */
    bool missed;                /* whether an interrupt came meanwhile (NAPI_STATE_MISSED) */
    uint64_t polls;             /* how many fetches were reported; saturates */
    uint64_t packets;           /* the packets of these fetches; saturates */
};

/* Sets *shown to the state of a device and the counts of its polls. Returns FQ_OK;
 * FQ_BAD_HANDLE; FQ_BAD_DEVICE. */
FQ_CHECKED enum fq_status fq_driver_show_sized(const struct fq_driver *FQ_RESTRICT driver, uint32_t
    device, struct fq_device_shown *FQ_RESTRICT shown);
FQ_CHECKED static inline enum fq_status fq_driver_show(const struct fq_driver *FQ_RESTRICT driver,
    uint32_t device, struct fq_device_shown *FQ_RESTRICT shown) {
    shown->size = sizeof *shown;
    return fq_driver_show_sized(driver, device, shown);
}

/* Under ThreadSanitizer, which doesn't see into the library, each call on a driver also writes its
 * handle, so that it reports two threads that use one driver at the same time. */
#if defined(__SANITIZE_THREAD__)
#define FQ_PRIVATE_CHECKS_THREADS
#elif defined(__has_feature)
#if __has_feature(thread_sanitizer)
#define FQ_PRIVATE_CHECKS_THREADS
#endif
#endif
#ifdef FQ_PRIVATE_CHECKS_THREADS
static inline void fq_private_used(const struct fq_handle *handle) {
    void *volatile *at = (void *volatile *)(uintptr_t)&handle->private_at;
    *at = *at;
}
#define fq_driver_open(driver, device) \
    (fq_private_used(&(driver)->handle), fq_driver_open(driver, device))
#define fq_driver_stop(driver, device) \
    (fq_private_used(&(driver)->handle), fq_driver_stop(driver, device))
#define fq_driver_turn(driver, interrupts, todo) \
    (fq_private_used(&(driver)->handle), fq_driver_turn(driver, interrupts, todo))
#define fq_driver_interrupt(driver, device) \
    (fq_private_used(&(driver)->handle), fq_driver_interrupt(driver, device))
#define fq_driver_next(driver, todo) \
    (fq_private_used(&(driver)->handle), fq_driver_next(driver, todo))
#define fq_driver_done(driver, todo) \
    (fq_private_used(&(driver)->handle), fq_driver_done(driver, todo))
#define fq_driver_step(driver, todo) \
    (fq_private_used(&(driver)->handle), fq_driver_step(driver, todo))
#define fq_driver_timer(driver, device) \
    (fq_private_used(&(driver)->handle), fq_driver_timer(driver, device))
#define fq_driver_set(driver, device, ...) \
    (fq_private_used(&(driver)->handle), fq_driver_set(driver, device, __VA_ARGS__))
#define fq_driver_end_run(driver) \
    (fq_private_used(&(driver)->handle), fq_driver_end_run(driver))
#define fq_driver_show(driver, device, shown) \
    (fq_private_used(&(driver)->handle), fq_driver_show(driver, device, shown))
#endif

/* ---- word: a word of pending bits. Only its poller uses a list: another thread sets the bit of
 * a device in such a word, and wakes the poller, which takes all bits and pushes their numbers.
 * All operations are sequentially consistent. */

/* Pending bits, which threads share. */
struct fq_word {
    uint64_t private_bits; /* 0 at first */
};

#if defined(__GNUC__)
/* Sets a bit, 0 to 63, and returns whether the word was 0: then the poller has to be woken. */
FQ_NONNULL static inline bool fq_word_raise(struct fq_word *word, uint32_t bit) {
    return __atomic_fetch_or(&word->private_bits, UINT64_C(1) << (bit & 63), __ATOMIC_SEQ_CST) == 0;
}

/* Returns whether any bit is set: the poller checks this before it sleeps. */
FQ_NONNULL static inline bool fq_word_any(const struct fq_word *word) {
    return __atomic_load_n(&word->private_bits, __ATOMIC_SEQ_CST) != 0;
}

/* Takes all bits: returns the word, and sets it to 0. */
FQ_NONNULL static inline uint64_t fq_word_take(struct fq_word *word) {
    return __atomic_exchange_n(&word->private_bits, UINT64_C(0), __ATOMIC_SEQ_CST);
}
#endif

/* ---- replay: the replay of a trace, and the runs that the kernel would add (napi_replay
 * --mode=serial). A trace's bytes go in, its report's bytes come out. docs/FORMATS.md describes
 * the formats and faults. */

/* The settings of a replay. */
struct fq_settings {
    size_t size;     /* the size of this struct */
    uint32_t budget; /* packets that a run polls before it is squeezed, 1 to 65535
                      * (netdev_budget) */
    uint32_t weight; /* packets that one poll returns at most, 1 to 64 (NAPI_POLL_WEIGHT) */
    uint32_t window; /* polls that a run makes before it is squeezed, 1 to 65535 (in place of
                      * netdev_budget_usecs) */
};

/* The default settings of napi_replay. */
#define FQ_DEFAULT_SETTINGS {sizeof(struct fq_settings), 300, 64, 1024}

/* What a replay returns besides its status. */
struct fq_replayed {
    size_t size;    /* the size of this struct */
    size_t length;  /* the length of the report or trace in bytes, even if there is no room for
                     * it; 0 if there is none */
    uint32_t fault; /* the trace's fault: a number of enum fq_fault; 0 if it has none */
    uint32_t row;   /* the row that the fault names, counted from 1; 0 if it names none */
};

/* Replays a trace of `len` bytes, and writes its report to an array of `room` bytes. Returns
 * FQ_BAD_SIZE if settings->size is wrong; FQ_BAD_WEIGHT, FQ_BAD_BUDGET for the settings;
 * FQ_OUT_OF_MEMORY; FQ_BAD_TRACE, and replayed->fault and replayed->row say why; FQ_NO_ROOM, and
 * replayed->length is the room that the report needs; FQ_OK, and the first replayed->length
 * bytes of the array are the report, with no terminating 0. All other bytes of the array are
 * unchanged, and all of them unless it returns FQ_OK. An instance's thread polls at most 131072
 * times at a time, which no trace of 100000 rows reaches. */
FQ_CHECKED_AT(1, 6) enum fq_status fq_replay_sized(const struct fq_settings *FQ_RESTRICT settings,
    const uint8_t *FQ_RESTRICT trace, size_t len, uint8_t *FQ_RESTRICT report, size_t room, struct
    fq_replayed *FQ_RESTRICT replayed);
FQ_CHECKED_AT(1, 6) static inline enum fq_status fq_replay(const struct fq_settings *FQ_RESTRICT
    settings, const uint8_t *FQ_RESTRICT trace, size_t len, uint8_t *FQ_RESTRICT report, size_t
    room, struct fq_replayed *FQ_RESTRICT replayed) {
    replayed->size = sizeof *replayed;
    return fq_replay_sized(settings, trace, len, report, room, replayed);
}

/* Writes a trace with the runs that the kernel would make, because net_rx_action raises the
 * softirq again if instances are left on the poll list: each softirq row that leaves some is
 * repeated until the list is empty, at most `restarts` times; with FQ_UNTIL_EMPTY, or any number
 * from 100000 on, only the list decides. A softirq row that is followed by one at the same time
 * isn't repeated. Numbers are written in decimal, and nothing is quoted. Returns what fq_replay
 * returns, and replayed->length is the length of the trace that it writes. A trace that would
 * have more than 100000 rows has fault 9; the row of fault 12 counts added rows. */
#define FQ_UNTIL_EMPTY UINT32_MAX /* as many added runs as empty the list */
FQ_CHECKED_AT(1, 7) enum fq_status fq_raise_sized(const struct fq_settings *FQ_RESTRICT settings,
    uint32_t restarts, const uint8_t *FQ_RESTRICT trace, size_t len, uint8_t *FQ_RESTRICT out,
    size_t room, struct fq_replayed *FQ_RESTRICT replayed);
FQ_CHECKED_AT(1, 7) static inline enum fq_status fq_raise(const struct fq_settings *FQ_RESTRICT
    settings, uint32_t restarts, const uint8_t *FQ_RESTRICT trace, size_t len, uint8_t *FQ_RESTRICT
    out, size_t room, struct fq_replayed *FQ_RESTRICT replayed) {
    replayed->size = sizeof *replayed;
    return fq_raise_sized(settings, restarts, trace, len, out, room, replayed);
}

/* The faults of a trace, in the order in which docs/FORMATS.md describes them. */
enum fq_fault FQ_NUMBER {
    FQ_FAULT_BAD_HEADER = 1, FQ_FAULT_BAD_FIELDS = 2, FQ_FAULT_BAD_NUMBER = 3, FQ_FAULT_BAD_EVENT =
        4, FQ_FAULT_OUT_OF_RANGE = 5,
    FQ_FAULT_UNKNOWN_DEVICE = 6, FQ_FAULT_OPEN_TWICE = 7, FQ_FAULT_WRONG_STATE = 8,
        FQ_FAULT_TOO_MANY_ROWS = 9, FQ_FAULT_READ_FAILED = 10,
    FQ_FAULT_OUT_OF_MEMORY = 11, FQ_FAULT_PENDING = 12
};

/* Returns the name of a trace's fault, for example "BadHeader"; "?" for an unknown number. */
static inline const char *fq_fault_name(uint32_t fault) {
    switch (fault) {
    /* scripts/abi.py: begin faults */
    case FQ_FAULT_BAD_HEADER: return "BadHeader"; case FQ_FAULT_BAD_FIELDS: return "BadFields";
    case FQ_FAULT_BAD_NUMBER: return "BadNumber"; case FQ_FAULT_BAD_EVENT: return "BadEvent";
    case FQ_FAULT_OUT_OF_RANGE: return "OutOfRange";
    case FQ_FAULT_UNKNOWN_DEVICE: return "UnknownDevice";
    case FQ_FAULT_OPEN_TWICE: return "OpenTwice"; case FQ_FAULT_WRONG_STATE: return "WrongState";
    case FQ_FAULT_TOO_MANY_ROWS: return "TooManyRows";
    case FQ_FAULT_READ_FAILED: return "ReadFailed";
    case FQ_FAULT_OUT_OF_MEMORY: return "OutOfMemory"; case FQ_FAULT_PENDING: return "Pending";
    /* scripts/abi.py: end faults */
    }
    return "?";
}

/* ---- machine: the receiving machine in time (napi_machine). Arrivals of packets go in, a
 * report of latencies, drops and processor time comes out, by Linux's rules and timers.
 * docs/FORMATS.md describes arrivals and report, docs/TIMING.md the rules. */

/* The settings of the machine. The members after `size` are the options of napi_machine, with
 * their ranges and defaults. */
struct fq_machine_settings {
    size_t size; /* the size of this struct */
    /* scripts/options.py: begin */
    uint32_t processors;        /* processors that receive; queue q belongs to processor (q - 1)
                                 * mod N; each serves at most 64, 1 to 64 (1) */
    uint32_t queues;            /* queues of each device, chosen by the packet's flow (RSS:
                                 * ethtool -L, -X), 1 to 64 (1) */
    uint32_t ring;              /* packets that the ring of a queue holds (ethtool -G); of a
                                 * backlog net.core.netdev_max_backlog plus 1, 1 to 65536 (256) */
    uint32_t socket;            /* packets that the socket of a processor's application holds
                                 * (SO_RCVBUF), 1 to 65536 (512) */
    uint32_t backlog;           /* 1: polls take packets as a processor's backlog does (RPS:
                                 * rps_cpus, process_backlog), 0 to 1 (0) */
    uint32_t budget;            /* packets after which a run ends and is squeezed
                                 * (net.core.netdev_budget); 0: no polls, an interrupt for each
                                 * packet, 0 to 65535 (300) */
    uint32_t weight;            /* packets that one poll takes at most (NAPI_POLL_WEIGHT; of a
                                 * backlog net.core.dev_weight times dev_weight_rx_bias), 1 to 64
                                 * (64) */
    uint32_t window;            /* polls after which a run ends and is squeezed; Linux has no
                                 * such limit, 1 to 65535 (1024) */
    uint32_t time_limit;        /* time after which a run ends and is squeezed
                                 * (net.core.netdev_budget_usecs, in us there), 1 to 1000000000
                                 * ns (8000000) */
    uint32_t rx_nsecs;          /* time by which a card delays its interrupt (ethtool -C
                                 * rx-usecs, in us there), 0 to 1000000000 ns (0) */
    uint32_t rx_frames;         /* packets at which the interrupt comes before that time (ethtool
                                 * -C rx-frames); 0: never, 0 to 65535 (0) */
    uint32_t defer_hard_irqs;   /* polls without packets, one after each timeout; the last
                                 * unmasks the queue (napi_defer_hard_irqs), 0 to 65535 (0) */
    uint32_t gro_flush_timeout; /* time until a queue that stays masked is polled again
                                 * (gro_flush_timeout); 0: none does, 0 to 1000000000 ns (0) */
    uint32_t threaded;          /* 1: each queue is polled by a thread of its own
                                 * (/sys/class/net/DEV/threaded), 0 to 1 (0) */
    uint32_t apart;             /* 1: the application has a processor of its own (taskset), 0 to
                                 * 1 (0) */
    uint32_t app_wake;          /* time from waking the application until it runs; on the
                                 * processor that polls a part of the use, 0 to 1000000000 ns (0) */
    uint32_t interrupt;         /* time of an interrupt, 0 to 1000000000 ns (4000) */
    uint32_t poll;              /* time of a poll before its first packet, 0 to 1000000000 ns
                                 * (1000) */
    uint32_t packet;            /* time of each packet of a poll, 0 to 1000000000 ns (1000) */
    uint32_t use_time;          /* time that the application takes for a packet, 0 to 1000000000
                                 * ns (2000) */
    uint32_t wake;              /* time to wake an idle processor, which counts as interrupt
                                 * time, 0 to 1000000000 ns (0) */
    uint32_t heedless;          /* 1: the driver unmasks the queue whatever napi_complete_done
                                 * returns (vmxnet3, tg3, be2net, mana, bnx2, cxgb4, qede and
                                 * others), 0 to 1 (0) */
    uint32_t rx_gap;            /* least time between two interrupts of a card (ethtool -C
                                 * rx-usecs of igb, igc, ixgbe, e1000, e1000e, i40e, in us
                                 * there); not with rx-nsecs, rx-frames, 0 to 1000000000 ns (0) */
    uint32_t timer;             /* time of the interrupt of an expired NAPI timer
                                 * (napi_watchdog), 0 to 1000000000 ns (UINT32_MAX: that of
                                 * interrupt) */
    uint32_t timer_wake;        /* time to wake an idle processor by an expired NAPI timer, which
                                 * counts as interrupt time, 0 to 1000000000 ns (UINT32_MAX: that
                                 * of wake) */
    uint32_t latched;           /* 1: a packet while the interrupt is raised or masked sets a
                                 * cause, which raises it when the driver unmasks it (igb, igc,
                                 * ixgbe, vmxnet3); 2: its handler clears the cause too (e1000,
                                 * e1000e without MSI-X), 0 to 2 (0) */
    uint32_t gro_batch;         /* packets that a poll takes before it hands them over
                                 * (net.core.gro_normal_batch), with napi_gro_receive; 0: each at
                                 * once, 0 to 64 (0) */
    uint32_t take;              /* with gro-batch the part of packet that taking one from the
                                 * ring and GRO take, 0 to 1000000000 ns (0) */
    uint32_t early;             /* time of an interrupt between a driver's asking for it and
                                 * napi_complete_done (virtio_net); 0: other drivers; not with
                                 * heedless, 0 to 1000000000 ns (0) */
    uint32_t poll_wake;         /* time by which a delivery that wakes the application takes
                                 * longer (sock_def_readable); not with apart, 0 to 1000000000 ns
                                 * (0) */
    uint32_t arm;               /* time by which a poll that starts the NAPI timer takes longer
                                 * (hrtimer_start), 0 to 1000000000 ns (0) */
    /* scripts/options.py: end */
};

/* What a run of the machine returns besides its status. */
struct fq_machine_ran {
    size_t size;      /* the size of this struct */
    size_t length;    /* the length of the report in bytes, even if there is no room for it; 0 if
                       * there is none */
    uint64_t row;     /* the row that the fault of the arrivals names, counted from 1; 0 if it
                       * names none */
    uint32_t fault;   /* the number of that fault, 1 to 8; 0 if they have none */
    uint32_t setting; /* the first setting that is out of its range, or rx_gap if it excludes
                       * another, or take if it is above packet, or early if it excludes
                       * heedless: 1 for processors, 2 for queues and so on; 0 if none is
                       * rejected */
    char message[64]; /* the message of the fault of the arrivals, as napi_machine prints it,
                       * with a terminating 0; otherwise empty */
};

/* Sets all settings to the defaults of napi_machine. Returns FQ_OK. */
FQ_CHECKED enum fq_status fq_machine_default_sized(struct fq_machine_settings *settings);
FQ_CHECKED static inline enum fq_status fq_machine_default(struct fq_machine_settings *settings) {
    settings->size = sizeof *settings;
    return fq_machine_default_sized(settings);
}

/* Runs the machine on arrivals of `len` bytes, and writes its report to an array of `room`
 * bytes. Returns FQ_BAD_SIZE if settings->size is wrong; FQ_BAD_SETTING, and ran->setting says
 * which; FQ_OUT_OF_MEMORY; FQ_BAD_ARRIVALS, and ran->fault, ran->row and ran->message say why;
 * FQ_NO_ROOM, and ran->length is the room that the report needs; FQ_OK, and the first
 * ran->length bytes of the array are the report, with no terminating 0. All other bytes of the
 * array are unchanged, and all of them unless it returns FQ_OK. */
FQ_CHECKED_AT(1, 6) enum fq_status fq_machine_sized(const struct fq_machine_settings *FQ_RESTRICT
    settings, const uint8_t *FQ_RESTRICT arrivals, size_t len, uint8_t *FQ_RESTRICT report, size_t
    room, struct fq_machine_ran *FQ_RESTRICT ran);
FQ_CHECKED_AT(1, 6) static inline enum fq_status fq_machine(const struct fq_machine_settings
    *FQ_RESTRICT settings, const uint8_t *FQ_RESTRICT arrivals, size_t len, uint8_t *FQ_RESTRICT
    report, size_t room, struct fq_machine_ran *FQ_RESTRICT ran) {
    ran->size = sizeof *ran;
    return fq_machine_sized(settings, arrivals, len, report, room, ran);
}

#ifdef __cplusplus
}
#endif
#endif
