/* What the drivers of examples/xdp and examples/dpdk share, whatever their card is: events, the library's driver, the queue limit, open
 * and stop.
 *
 * The interrupt thread waits for the cards' events, and raises the bits of their devices. The poller passes these to the library's
 * driver in each turn, and does what that asks for; with one thread it also waits for the events. Each count is written by only one thread. */
#ifndef DRIVER_H
#define DRIVER_H

#include <errno.h>
#include <fintaqush.h>
#include <pthread.h>
#include <signal.h>
#include <stdalign.h>
#include <stdatomic.h>
#include <stdio.h>
#include <stdlib.h>
#include <string.h>
#include <sys/epoll.h>
#include <sys/eventfd.h>
#include <time.h>
#include <unistd.h>

enum { DEVICES = 16, WEIGHT = 64, WINDOW = 1024, HOLD_MS = 1000, STUCK_MS = 5000, APART = 128 };
enum wanted { ON, OFF, END };

struct device {
    uint32_t id;
    int event;                                                     /* the file that becomes readable when the card interrupts */
    void (*mask)(struct device *device), (*unmask)(struct device *device);
    uint32_t (*look)(struct device *device);                       /* returns how many packets there are, or 1 if there are any */
    uint32_t (*fetch)(struct device *device, uint32_t most);       /* takes at most this many packets, processes them, and returns how many */
    void (*give)(struct device *device);                           /* sends frames that wait, and reports what the card has completed */
    alignas(APART) unsigned long interrupts; /* the fields from here on are written by the interrupt thread */
    alignas(APART) struct fq_tx limit;   /* the fields from here on are written by the poller */
    struct fq_tx_watchdog watchdog;
    unsigned long polls, packets, full, answered, sent, done, held;
};

static struct device *devices[DEVICES];
static uint32_t count_of_devices, budget = 300;
static bool one_thread;
static struct fq_driver driver;
static alignas(APART) struct fq_word interrupted; /* a bit for each device whose card has interrupted */
static atomic_int wanted;
static atomic_bool ended;
static int wake, card_events, poller_events;
static unsigned long runs, squeezed;

/* Ends the program; with status 69 if the kernel lacks a feature or denies it. */
static inline void die(const char *what) {
    const int status = errno == EPERM || errno == EAFNOSUPPORT ? 69 : 1;
    fprintf(stderr, "%s: %s\n", what, strerror(errno));
    exit(status);
}

static inline void must(const char *what, uint32_t said, uint32_t due) {
    if (said == due) return;
    fprintf(stderr, "%s: %s\n", what, fq_status_name(said));
    exit(1);
}

static inline uint64_t now_ms(void) {
    struct timespec now;
    if (clock_gettime(CLOCK_MONOTONIC, &now)) die("clock");
    return (uint64_t)now.tv_sec * 1000 + (uint64_t)now.tv_nsec / 1000000;
}

/* ---- Interrupts. Epoll reports an event once (EPOLLONESHOT), until it is armed again. */

static inline void arm(struct device *device, int operation, bool on) {
    struct epoll_event event = {.events = on ? EPOLLIN | EPOLLONESHOT : 0, .data.ptr = device};
    if (epoll_ctl(card_events, operation, device->event, &event)) die("epoll_ctl");
}

static inline void wake_poller(void) {
    if (write(wake, &(uint64_t){1}, 8) != 8 && errno != EAGAIN) die("wake");
}

/* Waits at most this many milliseconds. */
static inline void wait_events(int events, int ms) {
    struct epoll_event got[DEVICES + 1];
    const int count = epoll_wait(events, got, DEVICES + 1, ms);
    for (int i = 0; i < count; i++) {
        struct device *device = got[i].data.ptr;
        if (!device) (void)!read(wake, &(uint64_t){0}, 8);
        else if (device->interrupts++, fq_word_raise(&interrupted, device->id) && !one_thread) wake_poller();
    }
}

static inline void *interrupt_thread(void *at) {
    while (!atomic_load(&ended)) wait_events(card_events, 100);
    return at;
}

/* ---- Sending. */

/* Whether the limit allows a frame of this size to be given to the card, which then has it (netdev_tx_sent_queue). */
static inline bool may_send(struct device *device, uint32_t bytes) {
    const uint32_t said = fq_tx_send(&device->limit, bytes);
    if (said == FQ_STOPPED || said == FQ_FULL) {
        device->held++;
        return false;
    }
    must("send", said, FQ_OK);
    device->sent++;
    return true;
}

/* The card has completed this many frames (netdev_tx_completed_queue). */
static inline void completed(struct device *device, uint32_t count) {
    must("done", fq_tx_done(&device->limit, count, now_ms()), FQ_OK);
    device->done += count;
}

static inline void watch(struct device *device) {
    bool stuck;
    must("watch", fq_tx_watch(&device->limit, &device->watchdog, STUCK_MS, now_ms(), &stuck), FQ_OK);
    if (stuck) errno = ETIMEDOUT, die("send");
}

/* ---- Polls. */

static inline uint32_t take_from(struct device *device, uint32_t most) {
    const uint32_t count = device->fetch(device, most);
    device->polls++, device->packets += count, device->full += count == most;
    return count;
}

/* Fetches from a device. If it has no more, the card is unmasked and then looked at, which saves two turns. */
static inline void fetch_from(struct device *device, struct fq_todo *todo) {
    todo->packets = take_from(device, todo->most);
    if (todo->packets == todo->most) return;
    device->unmask(device);
    todo->rearm = device->look(device) ? FQ_REARM_MORE : FQ_REARM_EMPTY;
}

/* Does what the driver asks for until a run ends; returns false if there is nothing to do. */
static inline bool run(void) {
    struct fq_todo todo = FQ_TODO_INIT;
    enum fq_status said;
    while ((said = fq_driver_turn(&driver, fq_word_take(&interrupted), &todo)) == FQ_OK && todo.what != FQ_TODO_SLEEP) {
        struct device *device = devices[todo.device];
        if (todo.mask) device->mask(device);
        switch (todo.what) {
        case FQ_TODO_MASK: device->mask(device); break;
        case FQ_TODO_UNMASK: device->unmask(device); break;
        case FQ_TODO_LOOK: todo.packets = device->look(device); break;
        case FQ_TODO_FETCH: fetch_from(device, &todo); break;
        case FQ_TODO_ENDED: return runs++, squeezed += todo.squeezed, true;
        case FQ_TODO_TIMER: case FQ_TODO_SLEEP: case FQ_TODO_FAILED: break;
        }
    }
    must("turn", said, FQ_OK);
    runs += fq_todo_run(&todo).polls > 0;
    return false;
}

/* Makes a step to open or stop a device; returns whether that is done. A stop that has begun is finished first. */
static inline bool step(struct device *device, bool on) {
    struct fq_device_shown shown;
    const uint32_t said = on ? fq_driver_open(&driver, device->id) : fq_driver_stop(&driver, device->id);
    if (said != FQ_NOT_DUE) must("step", said, FQ_OK);
    must("show", fq_driver_show(&driver, device->id, &shown), FQ_OK);
    return shown.state == (on ? FQ_DEVICE_OPEN : FQ_DEVICE_CLOSED);
}

/* Runs until the program has to end, all devices are closed and all answers are sent. There is no interrupt for completed sends. */
static inline void poller(const char *name) {
    enum wanted told = OFF;
    for (bool more = true, there = false, complete = true;;) {
        wait_events(poller_events, more || fq_word_any(&interrupted) ? 0 : there && complete ? -1 : 1);
        const enum wanted now = (enum wanted)atomic_load(&wanted);
        bool sent = true;
        there = complete = true;
        for (uint32_t i = 0; i < count_of_devices; i++) there &= step(devices[i], now == ON);
        more = run();
        for (uint32_t i = 0; i < count_of_devices; i++) {
            struct device *device = devices[i];
            device->give(device);
            watch(device);
            sent &= device->sent == device->answered, complete &= device->done == device->answered;
        }
        if (there && now == END && sent) return;
        if (there && now != told) fprintf(stderr, "%s: %s\n", name, (told = now) == ON ? "on" : "off");
    }
}

/* ---- Start and end. */

/* Handles a signal: SIGHUP stops and opens in turn, SIGINT ends the program. */
static inline void tell(int signal) {
    const int kept = errno;
    if (signal == SIGHUP) atomic_fetch_xor(&wanted, OFF);
    else atomic_store(&wanted, END);
    wake_poller();
    errno = kept;
}

static inline bool set(uint32_t *number, const char *word, uint32_t least, uint32_t most) {
    char *end;
    const unsigned long value = strtoul(word, &end, 10);
    *number = (uint32_t)value;
    return *word >= '0' && *word <= '9' && !*end && value >= least && value <= most;
}

static inline void open_driver(void) {
    must("driver", fq_driver_new(&driver, DEVICES, budget, WEIGHT, WINDOW), FQ_OK);
    if ((wake = eventfd(0, EFD_NONBLOCK)) < 0 || (card_events = epoll_create1(0)) < 0) die("events");
    poller_events = one_thread ? card_events : epoll_create1(0);
    if (poller_events < 0 || epoll_ctl(poller_events, EPOLL_CTL_ADD, wake, &(struct epoll_event){.events = EPOLLIN})) die("events");
    signal(SIGINT, tell), signal(SIGTERM, tell), signal(SIGHUP, tell);
}

/* Opens a device, with a limit that allows at least this many bytes. */
static inline void open_device(struct device *device, uint32_t frames, uint32_t least) {
    must("limit", fq_tx_new(&device->limit, frames, least, 1879048192, HOLD_MS, now_ms()), FQ_OK);
    device->id = count_of_devices;
    devices[count_of_devices++] = device;
    arm(device, EPOLL_CTL_ADD, false);
}

/* Prints the device's counts, in two lines. */
static inline void close_device(struct device *device) {
    struct fq_tx_shown shown;
    must("state", fq_tx_state(&device->limit, &shown), FQ_OK);
    printf("interrupts %lu | packets %lu polls %lu full %lu runs %lu squeezed %lu\n", device->interrupts, device->packets, device->polls, device->full,
        runs, squeezed);
    printf("answered %lu sent %lu done %lu held %lu limit %u in_flight %u\n", device->answered, device->sent, device->done, device->held, shown.limit,
        shown.queued - shown.completed);
    must("free", fq_free(&device->limit.handle), FQ_OK);
}
#endif
