/* A driver in user space for a virtio-net card, with its interrupts. Its host 10.99.0.2 answers ARP, pings and UDP to port 7.
 *
 * The interrupt thread waits for MSI-X, and raises the bit of the queue. The poller reports it to the library's driver, does what that
 * asks for at both queues, and sends the answers under a byte queue limit; it stops and opens too. SIGHUP does either in turn, SIGUSR1
 * prints the counts, and SIGINT stops, prints, and ends. usage: virtio ADDRESS, for example 0000:00:05.0. */
#define _GNU_SOURCE
#include "answer.h"
#include "card.h"
#include <fintaqush.h>
#include <poll.h>
#include <pthread.h>
#include <signal.h>
#include <stdalign.h>
#include <stdatomic.h>
#include <time.h>

enum { WEIGHT = 64, BUDGET = 300, WINDOW = 1024, SLOTS = 1024, MOST = 1879048192, HOLD_MS = 1000 };
enum wanted { ON, OFF, END };

/* A queue, and its counts. Fields of different threads are 128 bytes apart. */
struct side {
    struct queue *queue;
    alignas(128) atomic_ulong interrupts; /* written by the interrupt thread */
    alignas(128) unsigned long polls, packets, full; /* written by the poller */
};

static struct card card;
static struct side sides[QUEUES];
static struct fq_driver driver;
static struct fq_tx tx;
static alignas(128) struct fq_word interrupted; /* a bit for each queue that has interrupted */
static atomic_int wanted;
static atomic_bool asked; /* a request to print the counts */
static int wake, stop;
static uint8_t *buffers; /* one buffer for each descriptor that receives */
static uint8_t *slots;   /* answers, in turn: the card has those from first on, those from given on wait, and the next one
                          * goes to `behind` */
static uint32_t lengths[SLOTS];
static uint64_t first, given, behind;
static unsigned long runs, squeezed, dropped, held, disorder;

static void must(const char *what, uint32_t said, uint32_t due) {
    if (said == due) return;
    fprintf(stderr, "virtio: %s: %s\n", what, fq_status_name(said));
    exit(1);
}

static uint64_t now_ms(void) {
    struct timespec now;
    need(!clock_gettime(CLOCK_MONOTONIC, &now), "clock");
    return (uint64_t)now.tv_sec * 1000 + (uint64_t)now.tv_nsec / 1000000;
}

static void raise_event(int event) { need(write(event, &(uint64_t){1}, 8) == 8, "eventfd"); }

/* ---- Interrupts. */

static void interrupt(struct side *side) {
    uint64_t count;
    if (read(side->queue->event, &count, 8) != 8) return;
    side->interrupts += count;
    if (fq_word_raise(&interrupted, side->queue->number)) raise_event(wake);
}

static void *interrupts(void *at) {
    struct pollfd files[QUEUES + 1] = {{sides[RX].queue->event, POLLIN, 0}, {sides[TX].queue->event, POLLIN, 0}, {stop, POLLIN, 0}};
    while (!files[QUEUES].revents) {
        need(poll(files, QUEUES + 1, -1) > 0, "poll");
        for (int i = 0; i < QUEUES; i++)
            if (files[i].revents) interrupt(&sides[i]);
    }
    return at;
}

/* ---- Polls, of at most the weight. */

static uint8_t *slot(uint64_t number) { return slots + number % SLOTS * BUFFER; }

/* Passes replies that wait to the card, until the limit stops the queue or the card is full (netdev_tx_sent_queue). */
static void send_answers(struct queue *queue) {
    const uint64_t before = given;
    for (; given < behind; given++) {
        const uint32_t said = fq_tx_send(&tx, lengths[given % SLOTS]);
        if (said == FQ_STOPPED || said == FQ_FULL) {
            held++;
            break;
        }
        must("send", said, FQ_OK);
        queue_post(queue, (uint16_t)(given % queue->size), seen_by(&card, slot(given)), HEAD + lengths[given % SLOTS]);
    }
    if (given != before) queue_publish(queue);
}

/* Handles a frame, which follows the card's header: its reply, if it has one, waits to be sent. If no slot is free, it is
 * dropped. */
static void use(const uint8_t *frame, uint32_t bytes) {
    uint8_t *to = slot(behind);
    if (behind - first == SLOTS || bytes <= HEAD || bytes > BUFFER) {
        dropped++;
        return;
    }
    memset(to, 0, HEAD);
    memcpy(to + HEAD, frame + HEAD, bytes - HEAD);
    lengths[behind % SLOTS] = answer(to + HEAD, bytes - HEAD);
    behind += lengths[behind % SLOTS] != 0;
}

static uint32_t receive(struct queue *queue) {
    uint32_t count = 0;
    for (; count < WEIGHT && queue_back(queue); count++) {
        const struct vring_used_elem got = queue_next(queue);
        uint8_t *buffer = buffers + (size_t)got.id * BUFFER;
        use(buffer, got.len);
        queue_post(queue, (uint16_t)got.id, seen_by(&card, buffer), BUFFER);
    }
    if (count) queue_publish(queue);
    return count;
}

/* Completes the frames that the card has sent (netdev_tx_completed_queue). */
static uint32_t complete(struct queue *queue) {
    uint32_t count = 0;
    for (; count < WEIGHT && queue_back(queue); count++) disorder += queue_next(queue).id != (first + count) % queue->size;
    must("done", fq_tx_done(&tx, count, now_ms()), FQ_OK);
    first += count;
    return count;
}

/* If the card has no more, it is unmasked and then looked at, which saves two turns. */
static void fetch(struct side *side, struct fq_todo *todo) {
    todo->packets = side->queue->number == RX ? receive(side->queue) : complete(side->queue);
    send_answers(sides[TX].queue);
    side->polls++, side->packets += todo->packets, side->full += todo->packets == WEIGHT;
    if (todo->packets == todo->most) return;
    queue_unmask(side->queue);
    todo->rearm = queue_back(side->queue) ? FQ_REARM_MORE : FQ_REARM_EMPTY;
}

/* Does what the driver asks for until a run ends; returns false if there is nothing to do. */
static bool run(void) {
    struct fq_todo todo = FQ_TODO_INIT;
    enum fq_status said;
    while ((said = fq_driver_turn(&driver, fq_word_take(&interrupted), &todo)) == FQ_OK && todo.what != FQ_TODO_SLEEP) {
        struct side *side = &sides[todo.device];
        if (todo.mask) queue_mask(side->queue);
        switch (todo.what) {
        case FQ_TODO_MASK: queue_mask(side->queue); break;
        case FQ_TODO_UNMASK: queue_unmask(side->queue); break;
        case FQ_TODO_LOOK: todo.packets = queue_back(side->queue); break;
        case FQ_TODO_FETCH: fetch(side, &todo); break;
        case FQ_TODO_ENDED: return runs++, squeezed += todo.squeezed, true;
        case FQ_TODO_TIMER: case FQ_TODO_SLEEP: case FQ_TODO_FAILED: break;
        }
    }
    must("turn", said, FQ_OK);
    runs += fq_todo_run(&todo).polls > 0;
    return false;
}

/* ---- Open and stop. */

/* Opens or stops both queues. Returns whether that is done. */
static bool control(bool on) {
    bool there = true;
    for (uint32_t i = 0; i < QUEUES; i++) {
        struct fq_device_shown shown;
        const uint32_t said = on ? fq_driver_open(&driver, i) : fq_driver_stop(&driver, i);
        if (said != FQ_NOT_DUE) must("control", said, FQ_OK);
        must("show", fq_driver_show(&driver, i, &shown), FQ_OK);
        there &= shown.state == (on ? FQ_DEVICE_OPEN : FQ_DEVICE_CLOSED);
    }
    return there;
}

/* Prints a line for each queue, and one for all. While packets flow, the counts are approximate. */
static void print(void) {
    struct fq_tx_shown state;
    must("state", fq_tx_state(&tx, &state), FQ_OK);
    for (int i = 0; i < QUEUES; i++) {
        const struct side *side = &sides[i];
        printf("%s interrupts %lu polls %lu packets %lu full %lu left %u\n", i == RX ? "rx" : "tx", side->interrupts, side->polls, side->packets,
            side->full, queue_back(side->queue));
    }
    printf("all runs %lu squeezed %lu answered %lu waiting %lu sent %lu dropped %lu held %lu disorder %lu limit %u in_flight %u\n", runs, squeezed,
        behind, behind - given, first, dropped, held, disorder, state.limit, state.queued - state.completed);
    fflush(stdout);
}

/* The poller. A new request to open or stop is read after the last one is done, because an open has to wait for a stop. */
static void *poller(void *at) {
    struct pollfd file = {wake, POLLIN, 0};
    uint64_t count;
    enum wanted target = ON, told = OFF;
    for (bool more = true, there = false; !there || target != END;) {
        if (poll(&file, 1, more || fq_word_any(&interrupted) ? 0 : there ? -1 : 1) > 0) need(read(wake, &count, 8) == 8, "wake");
        if (there) target = (enum wanted)atomic_load(&wanted);
        there = control(target == ON);
        more = run();
        if (there && target != told) fprintf(stderr, "virtio: %s\n", (told = target) == ON ? "on" : "off");
        if (atomic_exchange(&asked, false)) print();
    }
    return at;
}

static void open_all(const char *address) {
    card_open(&card, address, (size_t)(LARGEST_QUEUE + SLOTS + 64) * BUFFER);
    card_begin(&card);
    card_interrupts(&card);
    must("driver", fq_driver_new(&driver, QUEUES, BUDGET, WEIGHT, WINDOW), FQ_OK);
    need((wake = eventfd(0, 0)) >= 0 && (stop = eventfd(0, 0)) >= 0, "eventfd");
    for (uint16_t i = 0; i < QUEUES; i++) {
        card_queue(&card, i);
        queue_mask(sides[i].queue = &card.queues[i]);
    }
    struct queue *rx = sides[RX].queue;
    must("tx", fq_tx_new(&tx, sides[TX].queue->size, 0, MOST, HOLD_MS, now_ms()), FQ_OK);
    slots = card_memory(&card, (size_t)SLOTS * BUFFER);
    buffers = card_memory(&card, (size_t)rx->size * BUFFER);
    for (uint16_t i = 0; i < rx->size; i++) queue_post(rx, i, seen_by(&card, buffers + (size_t)i * BUFFER), BUFFER);
    card.common->device_status |= VIRTIO_CONFIG_S_DRIVER_OK;
    queue_publish(rx);
}

static void close_all(void) {
    print();
    card_reset(&card);
    must("free", fq_free(&tx.handle), FQ_OK);
    must("free", fq_free(&driver.handle), FQ_OK);
}

int main(int count, char **words) {
    pthread_t threads[2];
    sigset_t signals;
    int signal = 0;
    if (count != 2) {
        fputs("usage: virtio ADDRESS\n", stderr);
        return 64;
    }
    sigemptyset(&signals);
    sigaddset(&signals, SIGINT), sigaddset(&signals, SIGTERM), sigaddset(&signals, SIGHUP), sigaddset(&signals, SIGUSR1);
    need(!pthread_sigmask(SIG_BLOCK, &signals, NULL), "signals");
    open_all(words[1]);
    need(!pthread_create(&threads[0], NULL, poller, NULL) && !pthread_create(&threads[1], NULL, interrupts, NULL), "threads");
    while (!sigwait(&signals, &signal) && (signal == SIGHUP || signal == SIGUSR1)) {
        if (signal == SIGUSR1) atomic_store(&asked, true);
        else atomic_fetch_xor(&wanted, OFF);
        raise_event(wake);
    }
    atomic_store(&wanted, END);
    raise_event(wake);
    pthread_join(threads[0], NULL);
    raise_event(stop);
    pthread_join(threads[1], NULL);
    close_all();
    return fflush(stdout) ? 1 : 0;
}
