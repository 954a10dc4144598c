// Replays traces on Linux's own functions, which kernel.sh has extracted into instances.h and queues.h, and writes the reports
// that napi_serial writes. Devices, rings, rows and text are here; every rule of an instance, a poll, a run and a limit is the
// kernel's. Standard input has traces one after the other: a line of version, budget, weight, window and how many rows, then
// each row as its moment, device, event and value; the value of a softirq row is how often it runs again while net_rx_action
// raises the softirq, and each of these runs is a row of its own. After each report there is a line `end` with how often each mapping of
// profile and kernel made a difference: set threaded, repoll after busy polling, window, moments, threaded off. With
// STOPS_THREADS the functions are those of a kernel that stops the thread of an instance (napi_stop_kthread).
#include <sys/time.h>
#include <ucontext.h>
#include <unistd.h>
#include "stubs.h"
#include "lists.h"

enum { DEVICES = 16, PLACES = 65536, HOLD = 1000, MOST_IN_FLIGHT = 1073741823, STACK = 65536 };
typedef unsigned long long count;

struct softnet_data softnet_data;
typeof(net_hotdata) net_hotdata;
struct task_struct thread_of_all;
bool is_asleep, is_raised;
unsigned long jiffies;              // of the queue limit: the row's moment
static unsigned long polls_as_time; // of a run: a poll takes one jiffy
static struct { count threaded, repoll, window, moments, off; } mapped;

static void count_completion(struct napi_struct *napi, bool is_released);

#define jiffies polls_as_time
#include "instances.h"
// each completion is counted, whatever makes it
#define napi_complete_done(napi, work) ({ const bool was_released = napi_complete_done(napi, work); count_completion(napi, was_released); was_released; })
#include "polls.h"
#undef jiffies
#include "queues.h"

// ---- devices

struct ring { unsigned int first, held; };
struct device {
    bool is_open, has_transmitted, is_disabling;
    struct net_device net;
    struct napi_struct napi;
    struct netdev_queue queue;
    unsigned int capacity;
    struct ring receive, transmit;
    count arrived, dropped, polled, bytes, polls, granted, missed, disabled, again, released, held;
    count sent, refused, done, denied;
    ucontext_t disabling;
};
static struct device devices[DEVICES + 1];
static unsigned int received[DEVICES + 1][PLACES], transmitted[DEVICES + 1][PLACES];
static char stacks[DEVICES + 1][STACK];
static ucontext_t rows;              // where a disable sleeps to
static struct device *in_disable;
static bool is_busy_row;
static struct { unsigned int polls, work; } made, in_runs;
static unsigned int runs, squeezes, version, row;
static FILE *report;

static struct device *device_of(struct napi_struct *napi) { return container_of(napi, struct device, napi); }
struct napi_struct *napi_by_id(unsigned int number) { return &devices[number].napi; }

static void put(struct ring *ring, unsigned int *sizes, unsigned int bytes) {
    sizes[(ring->first + ring->held++) % PLACES] = bytes;
}
static unsigned int take(struct ring *ring, const unsigned int *sizes) {
    ring->held--;
    return sizes[ring->first++ % PLACES];
}

// In whole numbers: an end beyond 64 bits is after every time, where the kernel's jiffies wrap.
bool after_as_whole(unsigned long now, unsigned long end, unsigned long hold) {
    const bool is_after = end >= hold && now > end;
    mapped.moments += is_after != ((long)(end - now) < 0);
    return is_after;
}

static void count_completion(struct napi_struct *napi, bool is_released) {
    struct device *device = device_of(napi);
    if (is_released) device->released++;
    else if (test_bit(NAPI_STATE_IN_BUSY_POLL, &napi->state)) device->held++;
    else device->again++;
}

// A driver's poll, as in napi.rst: it completes if there is work below the budget.
static int poll_ring(struct napi_struct *napi, int budget) {
    struct device *device = device_of(napi);
    int work = 0;
    for (; work < budget && device->receive.held; work++) device->bytes += take(&device->receive, received[napi->napi_id]);
    device->polled += work;
    device->polls++;
    made.polls++;
    made.work += work;
    polls_as_time++;
    if (work < budget) {
        napi_complete_done(napi, work);
    } else if (is_busy_row && !test_bit(NAPI_STATE_IN_BUSY_POLL, &napi->state) && test_bit(NAPI_STATE_THREADED, &napi->state)) {
        // the profile repolls from the list, the kernel by THREADED: without a thread it takes the list
        mapped.repoll++;
        napi->thread = NULL;
    }
    return work;
}

// The disable of a row runs on its own stack, and sleeps where the kernel's caller does.
void sleep_in_disable(void) { swapcontext(&in_disable->disabling, &rows); }
static void run_disable(void) {
    napi_disable(&in_disable->napi);
    in_disable->is_disabling = false;
}
static void try_disable(struct device *device) {
    in_disable = device;
    swapcontext(&rows, &device->disabling);
}

// ---- rows

static void open_device(struct device *device, count places) {
    device->is_open = true;
    device->capacity = places;
    device->net.name = "device";
    device->napi.napi_id = device - devices;
    INIT_LIST_HEAD(&device->net.napi_list);
    netif_napi_add_weight(&device->net, &device->napi, poll_ring, device->napi.weight);
    napi_enable(&device->napi);
    dql_init(&device->queue.dql, HOLD);
}

static void receive(struct device *device, count bytes) {
    device->arrived++;
    if (device->receive.held == device->capacity) {
        device->dropped++;
        return;
    }
    put(&device->receive, received[device - devices], bytes);
    if (napi_schedule_prep(&device->napi)) {
        device->granted++;
        __napi_schedule(&device->napi);
    } else if (napi_disable_pending(&device->napi)) {
        device->disabled++;
    } else {
        device->missed++;
    }
}

static void transmit(struct device *device, count bytes) {
    const struct dql *dql = &device->queue.dql;
    device->has_transmitted = true;
    if (test_bit(__QUEUE_STATE_STACK_XOFF, &device->queue.state) || device->transmit.held == device->capacity
        || dql->num_queued - dql->num_completed + bytes > MOST_IN_FLIGHT) {
        device->refused++;
        return;
    }
    put(&device->transmit, transmitted[device - devices], bytes);
    device->sent++;
    netdev_tx_sent_queue(&device->queue, bytes);
}

static void finish(struct device *device, count packets) {
    unsigned int bytes = 0;
    device->has_transmitted = true;
    if (packets > device->transmit.held) {
        device->denied++;
        return;
    }
    for (count packet = 0; packet < packets; packet++) bytes += take(&device->transmit, transmitted[device - devices]);
    device->done += packets;
    netdev_tx_completed_queue(&device->queue, packets, bytes);
}

static void run_once(void) {
    const unsigned int before = softnet_data.time_squeeze;
    made.polls = made.work = 0;
    is_raised = false;
    net_rx_action();
    const bool is_squeezed = softnet_data.time_squeeze != before;
    mapped.window += is_squeezed && made.work < (unsigned int)net_hotdata.netdev_budget;
    fprintf(report, "softirq %u polls %u work %u squeezed %d\n", row, made.polls, made.work, is_squeezed);
    runs++;
    squeezes += is_squeezed;
    in_runs.polls += made.polls;
    in_runs.work += made.work;
}

static void run_softirq(struct device *device, count restarts) {
    for (run_once(); is_raised && restarts; restarts--) {
        for (device = devices + 1; device <= devices + DEVICES; device++)
            if (device->is_disabling) try_disable(device);
        row++;
        run_once();
    }
}

// The thread runs until it would sleep, and then ends.
static void run_thread(struct device *device, count value) {
    is_asleep = false;
    napi_threaded_poll(&device->napi);
    fprintf(report, "kthread %u device %u polls %u work %u\n", row, device->napi.napi_id, made.polls, made.work);
}

static count rounds_left;
static bool is_last_round(void *argument, unsigned long start) { return --rounds_left == 0; }
static void poll_busily(struct device *device, count rounds) {
    struct task_struct *thread = device->napi.thread;
    rounds_left = rounds;
    is_busy_row = true;
    napi_busy_loop(device->napi.napi_id, is_last_round, NULL, false, device->napi.weight);
    is_busy_row = false;
    device->napi.thread = thread;
    fprintf(report, "busy %u device %u polls %u work %u\n", row, device->napi.napi_id, made.polls, made.work);
}

static void disable(struct device *device, count value) {
    getcontext(&device->disabling);
    device->disabling.uc_stack.ss_sp = stacks[device - devices];
    device->disabling.uc_stack.ss_size = STACK;
    device->disabling.uc_link = &rows;
    makecontext(&device->disabling, run_disable, 0);
    device->is_disabling = true;
    try_disable(device);
}

static void enable(struct device *device, count value) { napi_enable(&device->napi); }

#ifdef STOPS_THREADS
// The profile clears THREADED at once; these kernels wait until the instance is neither scheduled nor disabled.
static void set_threaded(struct device *device, count value) {
    if (!value && device->napi.thread && test_bit(NAPI_STATE_SCHED, &device->napi.state)) {
        mapped.off++;
        device->net.threaded = false;
        clear_bit(NAPI_STATE_THREADED, &device->napi.state);
        return;
    }
    netif_set_threaded(&device->net, value);
}
#else
// The profile writes THREADED in any state; the kernel only if the device doesn't have the setting yet.
static void set_threaded(struct device *device, count value) {
    if (device->net.threaded == value && test_bit(NAPI_STATE_THREADED, &device->napi.state) != value) {
        mapped.threaded++;
        device->net.threaded = !value;
    }
    dev_set_threaded(&device->net, value);
}
#endif

static const struct { const char *word; void (*play)(struct device *, count); } events[] = {
    {"open", open_device}, {"rx", receive},        {"tx", transmit}, {"done", finish},     {"softirq", run_softirq},
    {"kthread", run_thread}, {"busy", poll_busily}, {"disable", disable}, {"enable", enable}, {"threaded", set_threaded},
};

// Processes one row; returns false if it enables a device whose disable still sleeps.
static bool play_row(const char *word, struct device *device, count value) {
    made.polls = made.work = 0;
    if (strcmp(word, "enable") == 0 && device->is_disabling) return false;
    for (size_t event = 0; event < sizeof events / sizeof *events; event++)
        if (strcmp(word, events[event].word) == 0) events[event].play(device, value);
    for (device = devices + 1; device <= devices + DEVICES; device++)
        if (device->is_disabling) try_disable(device);
    return true;
}

// ---- the report

// The kernel's bits except LISTED; in place of the list's links and the thread's wake-up, the profile has two bits.
static count word_of(struct napi_struct *napi) {
    return (napi->state & ~NAPIF_STATE_LISTED) | (count)!list_empty(&napi->poll_list) << 32 | (count)test_bit(NAPI_STATE_SCHED_THREADED, &napi->state) << 33;
}

static void write_device(unsigned int number, struct device *device) {
    const unsigned long state = device->napi.state;
    fprintf(report, "device %u %s arrived %llu dropped %llu polled %llu bytes %llu left %u polls %llu\n", number,
        state & NAPIF_STATE_DISABLE ? "pending" : state & NAPIF_STATE_NPSVC ? "off" : "on", device->arrived, device->dropped,
        device->polled, device->bytes, device->receive.held, device->polls);
    fprintf(report, "napi %u granted %llu missed %llu disabled %llu again %llu released %llu word %llu", number, device->granted,
        device->missed, device->disabled, device->again, device->released, word_of(&device->napi));
    if (version == 2) fprintf(report, " held %llu", device->held);
    fputc('\n', report);
    if (device->has_transmitted)
        fprintf(report, "tx %u sent %llu held %llu done %llu denied %llu limit %u avail %d stopped %d\n", number, device->sent, device->refused,
            device->done, device->denied, device->queue.dql.limit, dql_avail(&device->queue.dql), (int)test_bit(__QUEUE_STATE_STACK_XOFF, &device->queue.state));
}

static void write_report(void) {
    unsigned int opened = 0;
    struct napi_struct *napi;
    for (unsigned int number = 1; number <= DEVICES; number++)
        if (devices[number].is_open) {
            opened++;
            write_device(number, &devices[number]);
        }
    fputs("list", report);
    list_for_each_entry(napi, &softnet_data.poll_list, poll_list) fprintf(report, " %u", napi->napi_id);
    fprintf(report, "\ntotal devices %u runs %u polls %u work %u squeezed %u\n", opened, runs, in_runs.polls, in_runs.work, squeezes);
}

static void begin(unsigned int budget, unsigned int weight, unsigned int window) {
    memset(devices, 0, sizeof devices);
    memset(&softnet_data, 0, sizeof softnet_data);
    memset(&mapped, 0, sizeof mapped);
    memset(&in_runs, 0, sizeof in_runs);
    INIT_LIST_HEAD(&softnet_data.poll_list);
    runs = squeezes = row = 0;
    polls_as_time = 0;
    net_hotdata.netdev_budget = budget;
    net_hotdata.netdev_budget_usecs = window;
    for (unsigned int number = 1; number <= DEVICES; number++) devices[number].napi.weight = weight;
}

// One trace: its report, or the message of an enable that is early. Returns false at the end of the input.
static bool play_trace(void) {
    unsigned int budget, weight, window, count_of_rows, early = 0;
    char *text = NULL, word[16];
    size_t length;
    if (scanf("%u %u %u %u %u", &version, &budget, &weight, &window, &count_of_rows) != 5) return false;
    begin(budget, weight, window);
    report = open_memstream(&text, &length);
    while (count_of_rows--) {
        unsigned int number;
        count value;
        if (scanf("%lu %u %15s %llu", &jiffies, &number, word, &value) != 4) abort();
        row++;
        if (!early && !play_row(word, &devices[number], value)) early = row;
    }
    write_report();
    fclose(report);
    if (early) printf("trace fault 12 Pending row %u\n", early);
    else fputs(text, stdout);
    printf("end %llu %llu %llu %llu %llu\n", mapped.threaded, mapped.repoll, mapped.window, mapped.moments, mapped.off);
    fflush(stdout);
    free(text);
    return true;
}

int main(void) {
    const struct itimerval most = {.it_value.tv_sec = 5}; // of processor time for a trace: then SIGVTALRM ends it
    do setitimer(ITIMER_VIRTUAL, &most, NULL);
    while (play_trace());
    return 0;
}
