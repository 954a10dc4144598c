/* A driver in user space: the network card of a Linux TAP device, whose far host 10.99.0.2 answers ARP, pings and UDP to port 7.
 *
 * The card thread waits with epoll, reads frames into the receive ring of their queue, and interrupts. The poller reports the interrupts
 * to the library's driver, does what that asks for, and sends the answers under byte queue limits (sender.h). It also stops and opens:
 * SIGHUP does either in turn, SIGINT stops, drains, and ends. docs/EXAMPLES.md has the words. */
#define _GNU_SOURCE
#include "answer.h"
#include "sender.h"
#include <fcntl.h>
#include <getopt.h>
#include <linux/if.h>
#include <linux/if_tun.h>
#include <pthread.h>
#include <signal.h>
#include <stdalign.h>
#include <stdatomic.h>
#include <sys/epoll.h>
#include <sys/eventfd.h>
#include <sys/ioctl.h>
#include <sys/timerfd.h>

enum { QUEUES = 16, BURST = 256, TICK_NS = 1000000 };
enum wanted { ON, OFF, END };
enum { STOP = QUEUES, WAKE, TIMER };

struct queue {
    int tap;
    size_t number;
    uint8_t (*frames)[FRAME]; /* frames for what the ring holds, what a poll returned, and the frame that is being read; used in a circle */
    alignas(128) struct fq_ring ring; /* the input of its ring; the fields from here on are used by the card thread */
    uint64_t next;
    unsigned long read, full;
    _Atomic uint64_t put; /* how many packets were put into its ring; the poller reads this too */
    alignas(128) struct fq_ring out; /* the poll end of its ring; the fields from here on are used by the poller */
    uint64_t taken;
    unsigned long granted, missed, disabled, packets, polls, again, drained;
    struct sender sender;
};

static struct { const char *dev; size_t queues, ring; uint32_t budget; uint64_t rate; unsigned seconds; bool mask, one, plain, direct; } set =
    {.dev = "fq0", .queues = 1, .ring = 512, .budget = 300};
static struct queue queues[QUEUES];
static struct fq_driver driver;
static struct trace trace;
static unsigned long runs, squeezed;
static int card_events, poller_events, wake, stop, timer;
static alignas(128) struct fq_word interrupted; /* a bit for each queue whose card has interrupted */
static atomic_int wanted;
static atomic_bool ended;

static void raise_event(int event) {
    if (write(event, &(uint64_t){1}, 8) != 8) die("eventfd");
}

static void watch(int events, int operation, int file, uint32_t what, uint32_t number) {
    if (epoll_ctl(events, operation, file, &(struct epoll_event){.events = what, .data.u32 = number})) die("epoll_ctl");
}

/* Arms epoll for the device; with --mask for one event only, so that the device's interrupt is off after it. */
static void arm(struct queue *queue, int operation) {
    watch(card_events, operation, queue->tap, EPOLLIN | (set.mask ? EPOLLONESHOT : 0), (uint32_t)queue->number);
}

static void report(struct queue *queue) {
    const uint32_t said = fq_driver_interrupt(&driver, (uint32_t)queue->number);
    queue->granted += said == FQ_GRANTED, queue->missed += said == FQ_MISSED, queue->disabled += said == FQ_DISABLED;
    if (said != FQ_MISSED && said != FQ_DISABLED) must("interrupt", said, FQ_GRANTED);
}

/* Handles an interrupt. With one thread, it is reported at once, so that each is counted; otherwise the card thread sets a bit, which the poller
 * passes to the driver's next turn, and wakes the poller. */
static void interrupt(struct queue *queue) {
    if (set.one) report(queue);
    else if (fq_word_raise(&interrupted, (uint32_t)queue->number)) raise_event(wake);
}

/* The card: reads frames into the ring, each with an interrupt; with --mask one interrupt for all. With --direct it only
 * interrupts, and the poll reads the frames. */
static void card(struct queue *queue) {
    for (int i = 0; i < BURST && !set.direct; i++) {
        const ssize_t got = read(queue->tap, queue->frames[queue->next], FRAME);
        if (got <= 0) break;
        queue->read++;
        row(&trace, now_ms(), queue->number + 1, "rx", (uint64_t)got);
        const uint32_t said = fq_ring_put(&queue->ring, queue->next, (uint32_t)got);
        if (said == FQ_FULL) {
            queue->full++;
            continue;
        }
        must("put", said, FQ_OK);
        queue->next = (queue->next + 1) % (set.ring + WEIGHT + 1);
        queue->put++;
        if (!set.mask) interrupt(queue);
    }
    if (set.mask) interrupt(queue);
}

static void use(struct queue *queue, uint8_t *frame, uint32_t bytes) {
    queue->packets++;
    const uint32_t answered = answer(frame, bytes);
    if (answered) sender_put(&queue->sender, frame, answered);
}

static void send_answers(struct queue *queue) {
    if (set.rate) sender_give(&queue->sender);
    else sender_flush(&queue->sender);
}

/* Reads frames from the device, and processes them. */
static size_t read_all(struct queue *queue, size_t most) {
    size_t count = 0;
    for (ssize_t got; count < most && (got = read(queue->tap, queue->frames[0], FRAME)) > 0; count++) use(queue, queue->frames[0], (uint32_t)got);
    queue->read += count;
    return count;
}

static size_t poll_ring(struct queue *queue, size_t most) {
    struct fq_packet packets[WEIGHT];
    size_t count;
    must("poll", fq_ring_poll(&queue->out, most, packets, WEIGHT, &count), FQ_OK);
    for (size_t i = 0; i < count; i++) use(queue, queue->frames[packets[i].number], packets[i].bytes);
    queue->taken += count;
    return count;
}

static void unmask(struct queue *queue) {
    if (set.mask) arm(queue, EPOLL_CTL_MOD);
}

/* Looks whether there are packets. Frames that are still in the device are reported by epoll when it is armed. A trace has no row for a look, so
 * packets that arrived while a queue was stopped are polled after the next packet there. */
static bool look(const struct queue *queue) { return queue->put != queue->taken && !trace.file; }

/* Makes a poll; if an interrupt was missed, another poll follows. If there is no more, the device is unmasked and looked at, which saves two
 * turns. */
static void fetch(struct queue *queue, struct fq_todo *todo) {
    struct fq_device_shown shown;
    must("show", fq_driver_show(&driver, (uint32_t)queue->number, &shown), FQ_OK);
    todo->packets = (uint32_t)(set.direct ? read_all(queue, todo->most) : poll_ring(queue, todo->most));
    queue->polls++;
    queue->again += shown.missed && (todo->packets < todo->most || shown.state == FQ_DEVICE_STOPPING);
    if (todo->packets == todo->most) return;
    unmask(queue);
    todo->rearm = look(queue) ? FQ_REARM_MORE : FQ_REARM_EMPTY;
}

/* Does what the driver asks for until a run ends; returns false if there is nothing to do. There is nothing to mask: epoll has reported a device
 * once. */
static bool run(void) {
    struct fq_todo todo = FQ_TODO_INIT;
    enum fq_status said;
    while ((said = fq_driver_turn(&driver, fq_word_take(&interrupted), &todo)) == FQ_OK && todo.what != FQ_TODO_SLEEP && todo.what != FQ_TODO_ENDED) {
        struct queue *queue = &queues[todo.device];
        if (todo.what == FQ_TODO_FETCH) fetch(queue, &todo);
        if (todo.what == FQ_TODO_UNMASK) unmask(queue);
        if (todo.what == FQ_TODO_LOOK) todo.packets = look(queue);
    }
    must("turn", said, FQ_OK);
    if (fq_todo_run(&todo).polls > 0) row(&trace, now_ms(), 0, "softirq", 0), runs++, squeezed += todo.squeezed;
    for (size_t i = 0; i < set.queues; i++) send_answers(&queues[i]);
    return todo.what == FQ_TODO_ENDED;
}

/* Opens or stops all queues. Returns whether that is done. */
static bool control(bool on) {
    bool there = true;
    for (uint32_t i = 0; i < set.queues; i++) {
        struct fq_device_shown shown;
        const uint32_t said = on ? fq_driver_open(&driver, i) : fq_driver_stop(&driver, i);
        if (said == FQ_OK) row(&trace, now_ms(), i + 1, on ? "enable" : "disable", 0);
        else must("control", said, FQ_NOT_DUE);
        must("show", fq_driver_show(&driver, i, &shown), FQ_OK);
        there &= shown.state == (on ? FQ_DEVICE_OPEN : FQ_DEVICE_CLOSED);
    }
    return there;
}

static void tick(void) {
    static uint64_t last;
    uint64_t expired;
    const uint64_t now = now_ns();
    if (read(timer, &expired, 8) != 8) return;
    for (size_t i = 0; i < set.queues; i++) sender_tick(&queues[i].sender, set.rate, last ? now - last : TICK_NS);
    last = now;
}

/* The poller's thread, and with --one or --plain the card's too. */
static void *poller(void *at) {
    struct epoll_event events[QUEUES + 3];
    enum wanted told = ON;
    for (bool again = false, there = true;;) {
        const int count = epoll_wait(poller_events, events, QUEUES + 3, again || fq_word_any(&interrupted) ? 0 : there ? -1 : 1);
        for (int i = 0; i < count; i++) {
            const uint32_t from = events[i].data.u32;
            if (from == TIMER) tick();
            else if (from == WAKE && read(wake, &(uint64_t){0}, 8) != 8) die("wake");
            else if (from < QUEUES && set.plain) read_all(&queues[from], BURST), send_answers(&queues[from]);
            else if (from < QUEUES) card(&queues[from]);
        }
        const enum wanted now = (enum wanted)atomic_load(&wanted);
        there = control(now == ON);
        again = run();
        if (there && now == END) break;
        if (there && now != told) fprintf(stderr, "tap: %s\n", (told = now) == ON ? "on" : "off");
        if (trace.rows >= MOST_ROWS && kill(getpid(), SIGTERM)) die("kill");
    }
    atomic_store(&ended, true);
    raise_event(stop);
    return at;
}

static void *card_thread(void *at) {
    struct epoll_event events[QUEUES + 1];
    while (!atomic_load(&ended)) {
        const int count = epoll_wait(card_events, events, QUEUES + 1, -1);
        for (int i = 0; i < count; i++)
            if (events[i].data.u32 < QUEUES) card(&queues[events[i].data.u32]);
    }
    return at;
}

static void open_queue(struct queue *queue, size_t number, uint64_t moment) {
    struct ifreq request = {.ifr_flags = IFF_TAP | IFF_NO_PI | (set.queues > 1 ? IFF_MULTI_QUEUE : 0)};
    queue->number = number;
    strncpy(request.ifr_name, set.dev, IFNAMSIZ - 1);
    if ((queue->tap = open("/dev/net/tun", O_RDWR | O_NONBLOCK)) < 0) die("/dev/net/tun");
    if (ioctl(queue->tap, TUNSETIFF, &request)) die(set.dev);
    if (!(queue->frames = malloc(sizeof(uint8_t[set.ring + WEIGHT + 1][FRAME])))) die("memory");
    must("ring", fq_ring_new(&queue->ring, set.ring), FQ_OK);
    must("ends", fq_ring_split(&queue->ring, &queue->out), FQ_OK);
    must("open", fq_driver_open(&driver, (uint32_t)number), FQ_OK);
    sender_open(&queue->sender, queue->tap, number + 1, set.ring, moment, &trace);
    row(&trace, moment, number + 1, "open", set.ring);
}

/* Takes the packets that are left in the ring of a closed queue, and sends the frames that wait. */
static void drain(struct queue *queue) {
    struct fq_packet packets[WEIGHT];
    size_t count;
    do {
        must("poll", fq_ring_poll(&queue->out, WEIGHT, packets, WEIGHT, &count), FQ_OK);
        queue->drained += count;
    } while (count == WEIGHT);
    sender_flush(&queue->sender);
}

static void close_queue(struct queue *queue) {
    free(queue->sender.frames);
    must("free", fq_free(&queue->ring.handle), FQ_OK);
    must("free", fq_free(&queue->out.handle), FQ_OK);
    free(queue->frames);
    close(queue->tap);
}

/* Prints two lines: what arrived, and what was sent. */
static void print(void) {
    struct queue sum = {0};
    uint32_t limit = 0, in_flight = 0;
    for (size_t i = 0; i < set.queues; i++) {
        const struct queue *queue = &queues[i];
        const uint32_t own = fq_dql_limit(&queue->sender.limit);
        limit = own > limit ? own : limit;
        in_flight += fq_dql_in_flight(&queue->sender.limit);
        sum.read += queue->read, sum.full += queue->full, sum.granted += queue->granted, sum.missed += queue->missed;
        sum.disabled += queue->disabled, sum.packets += queue->packets, sum.polls += queue->polls, sum.again += queue->again;
        sum.drained += queue->drained, sum.sender.answered += queue->sender.answered, sum.sender.sent += queue->sender.sent;
        sum.sender.failed += queue->sender.failed, sum.sender.dropped += queue->sender.dropped, sum.sender.held += queue->sender.held;
    }
    if (set.one) printf("granted %lu missed %lu disabled %lu | ", sum.granted, sum.missed, sum.disabled);
    printf("read %lu full %lu | packets %lu polls %lu again %lu drained %lu\n", sum.read, sum.full, sum.packets, sum.polls, sum.again, sum.drained);
    printf("runs %lu squeezed %lu | answered %lu sent %lu failed %lu dropped %lu held %lu limit %u in_flight %u\n", runs, squeezed, sum.sender.answered,
        sum.sender.sent, sum.sender.failed, sum.sender.dropped, sum.sender.held, limit, in_flight);
}

static void usage(void) {
    fputs("usage: tap [--dev NAME] [--mask] [--one | --plain] [--direct] [--queues 1..16] [--ring 1..65536] [--budget 1..65535]\n"
          "           [--rate BITS_A_SECOND] [--seconds N] [--trace FILE]\n", stderr);
    exit(64);
}

static uint64_t number(uint64_t least, uint64_t most) {
    char *end;
    const unsigned long long value = strtoull(optarg, &end, 10);
    if (*optarg < '0' || *optarg > '9' || *end || value < least || value > most) usage();
    return value;
}

static void read_words(int count, char **words) {
    static const struct option names[] = {{"dev", 1, 0, 'd'}, {"mask", 0, 0, 'm'}, {"one", 0, 0, 'o'}, {"plain", 0, 0, 'p'}, {"direct", 0, 0, 'D'},
        {"queues", 1, 0, 'q'}, {"ring", 1, 0, 'r'}, {"budget", 1, 0, 'b'}, {"rate", 1, 0, 'R'}, {"seconds", 1, 0, 's'}, {"trace", 1, 0, 't'}, {0, 0, 0, 0}};
    for (int word; (word = getopt_long(count, words, "", names, NULL)) != -1;) {
        switch (word) {
        case 'd': set.dev = optarg; break;
        case 'm': set.mask = true; break;
        case 'o': set.one = true; break;
        case 'p': set.plain = true; break;
        case 'D': set.direct = true; break;
        case 'q': set.queues = number(1, QUEUES); break;
        case 'r': set.ring = number(1, 65536); break;
        case 'b': set.budget = (uint32_t)number(1, 65535); break;
        case 'R': set.rate = number(1, 10000000000); break;
        case 's': set.seconds = (unsigned)number(1, 1000000); break;
        case 't': if (!(trace.file = fopen(optarg, "w"))) die(optarg); break;
        default: usage();
        }
    }
    const bool bare = set.plain || set.direct || set.mask;
    if (optind != count || strlen(set.dev) >= IFNAMSIZ || (trace.file && bare) || (set.plain && (set.direct || set.mask))) usage();
    set.one |= set.plain || trace.file;
    set.mask |= set.direct;
    if (trace.file) fputs("moment,device,event,value\n", trace.file);
}

static void open_all(void) {
    const uint64_t moment = now_ms();
    must("driver", fq_driver_new(&driver, QUEUES, set.budget, WEIGHT, WINDOW), FQ_OK);
    for (size_t i = 0; i < set.queues; i++) open_queue(&queues[i], i, moment);
    if ((poller_events = epoll_create1(0)) < 0 || (card_events = set.one ? poller_events : epoll_create1(0)) < 0) die("epoll");
    if ((wake = eventfd(0, 0)) < 0 || (stop = eventfd(0, 0)) < 0 || (timer = timerfd_create(CLOCK_MONOTONIC, TFD_NONBLOCK)) < 0) die("eventfd");
    watch(poller_events, EPOLL_CTL_ADD, wake, EPOLLIN, WAKE);
    watch(poller_events, EPOLL_CTL_ADD, timer, EPOLLIN, TIMER);
    watch(card_events, EPOLL_CTL_ADD, stop, EPOLLIN, STOP);
    if (set.rate && timerfd_settime(timer, 0, &(struct itimerspec){{0, TICK_NS}, {0, TICK_NS}}, NULL)) die("timer");
    for (size_t i = 0; i < set.queues; i++) arm(&queues[i], EPOLL_CTL_ADD);
}

int main(int count, char **words) {
    pthread_t threads[2];
    sigset_t signals;
    int signal = 0;
    read_words(count, words);
    sigemptyset(&signals);
    sigaddset(&signals, SIGINT), sigaddset(&signals, SIGTERM), sigaddset(&signals, SIGHUP), sigaddset(&signals, SIGALRM);
    if (pthread_sigmask(SIG_BLOCK, &signals, NULL)) die("signals");
    open_all();
    if (pthread_create(&threads[0], NULL, poller, NULL) || (!set.one && pthread_create(&threads[1], NULL, card_thread, NULL))) die("threads");
    alarm(set.seconds);
    fputs("tap: on\n", stderr);
    while (!sigwait(&signals, &signal) && signal == SIGHUP) {
        atomic_fetch_xor(&wanted, OFF);
        raise_event(wake);
    }
    atomic_store(&wanted, END);
    raise_event(wake);
    for (int i = 0; i < (set.one ? 1 : 2); i++) pthread_join(threads[i], NULL);
    for (size_t i = 0; i < set.queues; i++) drain(&queues[i]);
    print();
    for (size_t i = 0; i < set.queues; i++) close_queue(&queues[i]);
    must("free", fq_free(&driver.handle), FQ_OK);
    if (trace.file && fclose(trace.file)) die("trace");
    return fflush(stdout) ? 1 : 0;
}
