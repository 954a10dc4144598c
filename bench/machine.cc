/* The receiving machine of napi_machine as a plain program, to compare its speed with: the same options, arrivals (without quotes) and
 * report. tests/machine.sh compares it with napi_machine, and with -DCOUNTED it prints on standard error how often some rules apply.
 * tests/machine_laws.cc includes it, and sees its events. */
#include <algorithm>
#include <array>
#include <cstdint>
#include <cstdio>
#include <cstdlib>
#include <cstring>
#include <memory>
#include <string>
#include <vector>

static const uint64_t MOST = UINT64_MAX, LATEST = 1ull << 62;
static const unsigned DEVICES = 64; // of a processor

#ifdef COUNTED
static unsigned long rests, agains, batches, gaps, earlies, wakings, arms;
#define COUNT(rule) rule++
#else
#define COUNT(rule)
#endif
#ifndef SEE
#define SEE(event)
#endif

[[noreturn]] static void stop(int status, const char *format, const char *name = "", unsigned long long row = 0) {
    std::fprintf(stderr, format, name, row);
    std::exit(status);
}

static uint64_t held(uint64_t a, uint64_t b) { return a > MOST - b ? MOST : a + b; }
static uint64_t held_product(uint64_t a, uint64_t b) { return b && a > MOST / b ? MOST : a * b; }

// ---- options

enum Option {
    PROCESSORS, QUEUES, RING, SOCKET, BACKLOG, BUDGET, WEIGHT, WINDOW, TIME_LIMIT, RX_NSECS, RX_FRAMES, DEFER_HARD_IRQS,
    GRO_FLUSH_TIMEOUT, THREADED, APART, APP_WAKE, INTERRUPT, POLL, PACKET, USE, WAKE, RX_GAP, LATCHED, GRO_BATCH, TAKE, HEEDLESS, TIMER,
    TIMER_WAKE, EARLY, POLL_WAKE, ARM, OPTIONS
};
struct Range {
    const char *name;
    uint64_t low, high;
};
static const uint64_t LONGEST = 1000000000;
static const Range ranges[OPTIONS] = {{"processors", 1, 64}, {"queues", 1, 64}, {"ring", 1, 65536}, {"socket", 1, 65536},
    {"backlog", 0, 1}, {"budget", 0, 65535}, {"weight", 1, 64}, {"window", 1, 65535}, {"time-limit", 1, LONGEST},
    {"rx-nsecs", 0, LONGEST}, {"rx-frames", 0, 65535}, {"defer-hard-irqs", 0, 65535}, {"gro-flush-timeout", 0, LONGEST},
    {"threaded", 0, 1}, {"apart", 0, 1}, {"app-wake", 0, LONGEST}, {"interrupt", 0, LONGEST}, {"poll", 0, LONGEST},
    {"packet", 0, LONGEST}, {"use", 0, LONGEST}, {"wake", 0, LONGEST}, {"rx-gap", 0, LONGEST}, {"latched", 0, 2},
    {"gro-batch", 0, 64}, {"take", 0, LONGEST}, {"heedless", 0, 1}, {"timer", 0, LONGEST}, {"timer-wake", 0, LONGEST},
    {"early", 0, LONGEST}, {"poll-wake", 0, LONGEST}, {"arm", 0, LONGEST}};
static uint64_t settings[OPTIONS] = {1, 1, 256, 512, 0, 300, 64, 1024, 8000000, 0, 0, 0, 0, 0, 0, 0, 4000, 1000, 1000, 2000, 0};

/* The number that these digits denote, at most 2^64 - 1; with a divisor its remainder, of any number. */
static uint64_t number(const char *text, size_t length, size_t most, bool &is_one, uint64_t divisor = 0) {
    uint64_t value = 0; // of the first 19 digits
    is_one &= length > 0 && length <= most;
    for (size_t i = 0; i < length && is_one; i++) {
        const unsigned digit = static_cast<unsigned char>(text[i]) - unsigned{'0'};
        is_one = digit < 10;
        if (i == 19) {
            const unsigned __int128 whole = static_cast<unsigned __int128>(value) * 10 + digit;
            if (divisor) return static_cast<uint64_t>(whole % divisor);
            return whole > MOST ? MOST : static_cast<uint64_t>(whole);
        }
        value = value * 10 + digit;
    }
    return divisor ? value % divisor : value;
}

static void read_options(int count, char **arguments) {
    bool given[OPTIONS] = {};
    for (int i = 1; i < count; i++) {
        const char *sign = std::strchr(arguments[i], '=');
        const size_t length = sign ? static_cast<size_t>(sign - arguments[i]) : std::strlen(arguments[i]);
        const Range *found = std::find_if(ranges, ranges + OPTIONS, [&](const Range &range) {
            return length == std::strlen(range.name) + 2 && !std::strncmp(arguments[i], "--", 2) &&
                   !std::strncmp(arguments[i] + 2, range.name, length - 2);
        });
        const char *text = sign ? sign + 1 : i + 1 < count ? arguments[++i] : "";
        bool is_one = found != ranges + OPTIONS && !given[found - ranges];
        const uint64_t value = number(text, std::strlen(text), 10, is_one);
        if (!is_one || value < found->low || value > found->high) stop(64, "usage fault 64\n");
        given[found - ranges] = true;
        settings[found - ranges] = value;
    }
    if (!given[TIMER]) settings[TIMER] = settings[INTERRUPT];
    if (!given[TIMER_WAKE]) settings[TIMER_WAKE] = settings[WAKE];
    const bool is_coalescing = settings[RX_NSECS] || settings[RX_FRAMES];
    if (settings[TAKE] > settings[PACKET] || (settings[RX_GAP] && is_coalescing) || (settings[EARLY] && settings[HEEDLESS]))
        stop(64, "usage fault 64\n");
}

// ---- what a processor has

/* A queue of numbers in a circular buffer. */
template <typename Number> class Queue {
  public:
    explicit Queue(size_t most) : slots(most) {}
    size_t size() const { return count; }
    Number first() const { return slots[from]; }
    void put(Number value) { slots[at(count++)] = value; }
    Number take() {
        const Number value = slots[from];
        from = at(1);
        count--;
        return value;
    }

  private:
    size_t at(size_t place) const { return from + place < slots.size() ? from + place : from + place - slots.size(); }
    std::vector<Number> slots;
    size_t from = 0, count = 0;
};

class Waits {
  public:
    uint64_t count = 0, most = 0;
    unsigned __int128 sum = 0;
    void add(uint64_t wait) {
        count++;
        sum += wait;
        most = std::max(most, wait);
        const size_t place = place_of(wait);
        if (place >= buckets.size()) buckets.resize(place + 1);
        buckets[place]++;
    }
    void print() const {
        const uint64_t mean = count ? static_cast<uint64_t>(sum / count) : 0;
        std::printf(" mean %lu wait50 %lu wait90 %lu wait99 %lu wait999 %lu most %lu\n", mean, least(500), least(900), least(990),
            least(999), most);
    }

  private:
    /* A bucket for each value of the first ten significant bits, and the number of bits after them. */
    static size_t place_of(uint64_t wait) {
        if (wait < 1024) return wait;
        const unsigned rest = 54 - static_cast<unsigned>(__builtin_clzll(wait));
        return rest * 512 + (wait >> rest);
    }
    uint64_t least(uint64_t share) const {
        uint64_t so_far = 0;
        for (size_t place = 0; place < buckets.size(); place++) {
            so_far += buckets[place];
            if (static_cast<unsigned __int128>(so_far) * 1000 < static_cast<unsigned __int128>(count) * share) continue;
            if (place < 1024) return place;
            const size_t rest = place / 512 - 1;
            return (place - rest * 512) << rest;
        }
        return 0;
    }
    std::vector<uint64_t> buckets;
};

/* A queue of a card with its NAPI instance. */
struct Device {
    Queue<uint64_t> ring{settings[RING]};
    Queue<uint64_t> taken{settings[BACKLOG] ? settings[RING] : 0}; // what process_backlog moved out of the ring
    bool is_masked = false, is_caused = false, is_scheduled = false, is_missed = false, met_scheduled = false;
    bool is_early = false; // its poll found the ring empty, and will complete
    bool has_asserted = false;
    uint64_t asserted = 0; // when the card last asked for an interrupt
    uint64_t frames = 0, deferrals = 0;
    uint64_t arrived = 0, dropped = 0, interrupts = 0, polls = 0;
    Waits waits;
};

/* The timers of a processor's devices: of device d number 2 d is the card's timer, and 2 d + 1 the NAPI timer. */
class Timers {
  public:
    bool expire_by(uint64_t moment) const { return first < 2 * DEVICES && least <= moment; }
    bool has(unsigned at) const { return is_set[at & 1] >> at / 2 & 1; }
    uint64_t soonest() const { return least; }
    void set(unsigned at, uint64_t time) {
        unset(at);
        if (time < least || (time == least && at < first)) {
            least = time;
            first = at;
        }
        is_set[at & 1] |= 1ull << at / 2;
        times[at] = time;
    }
    void unset(unsigned at) {
        if (!has(at)) return;
        is_set[at & 1] &= ~(1ull << at / 2);
        if (at == first) search();
    }
    unsigned take() {
        const unsigned at = first;
        unset(at);
        return at;
    }

  private:
    void search() {
        least = MOST;
        first = 2 * DEVICES;
        for (uint64_t rest = is_set[0] | is_set[1]; rest; rest &= rest - 1)
            for (unsigned kind = 0; kind < 2; kind++) {
                const unsigned at = 2 * static_cast<unsigned>(__builtin_ctzll(rest)) + kind;
                if (!has(at) || (first < 2 * DEVICES && times[at] >= least)) continue;
                least = times[at];
                first = at;
            }
    }
    std::array<uint64_t, 2 * DEVICES> times;
    std::array<uint64_t, 2> is_set{};
    uint64_t least = MOST;
    unsigned first = 2 * DEVICES;
};

/* The application on its own processor. */
struct Application {
    bool is_awake = false, has_packet = false;
    uint64_t end = 0, hand = 0, wakes = 0;
};

class Processor {
  public:
    std::array<std::unique_ptr<Device>, DEVICES> devices;
    uint64_t clock = 0, interrupts = 0, expired = 0, runs = 0, polls = 0, work = 0, squeezed = 0, late = 0, refused = 0;
    uint64_t interrupting = 0, polling = 0, using_ = 0;
    Waits waits;
    Application application;

    void arrive(uint64_t moment, unsigned at) {
        advance(moment);
        if (under_way == NOTHING) clock = moment;
        if (!devices[at]) devices[at] = std::make_unique<Device>();
        Device &device = *devices[at];
        device.arrived++;
        if (device.ring.size() == settings[RING]) {
            device.dropped++;
            SEE(arrives(this, at, moment, false));
            return;
        }
        SEE(arrives(this, at, moment, true));
        device.ring.put(moment);
        if (settings[LATCHED] && (device.is_masked || raised >> at & 1)) {
            device.is_caused = true;
            SEE(latches(this, at));
        } else if (!device.is_masked) {
            notify(device, at, moment);
        }
        if (settings[EARLY] && device.is_early && !device.is_missed) interrupt_early(device);
        disturb(moment);
    }
    void finish() {
        advance(MOST);
        go_on(MOST);
    }

  private:
    enum Kind { NOTHING, AN_INTERRUPT, A_POLL, A_PACKET, A_TAKE, A_HANDOVER, AN_ARMING, A_USE } under_way = NOTHING;
    static const unsigned THE_APPLICATION = DEVICES; // among the tasks, after the numbers of devices
    uint64_t began = 0, ends = 0; // the work under way
    uint64_t packet = 0; // when the packet arrived that is polled or used
    unsigned busy = 0; // the device whose interrupt or poll is under way
    uint64_t polled = 0; // packets of this poll
    bool is_timer = false; // the interrupt under way is that of a NAPI timer
    bool sleeps = true, is_woken = false; // the application on the processor that receives; a delivery woke it, and no use began since
    Queue<uint64_t> batch{settings[GRO_BATCH]}; // packets that GRO holds
    bool is_last = false; // the poll ends when they are handed over
    uint64_t raised = 0, fired = 0; // sets of devices
    Timers timers;
    bool has_rest = false; // of an interrupted use
    uint64_t rest_packet = 0, rest_length = 0;
    Queue<uint64_t> socket{settings[SOCKET]};
    Queue<unsigned> list{DEVICES}, own{DEVICES}, again{DEVICES}, tasks{DEVICES + 1};
    bool is_running = false, is_runnable = false; // a run is under way; the application is among the tasks
    uint64_t run_began = 0, run_polls = 0, run_work = 0;

    // ---- time

    void advance(uint64_t moment) {
        for (;;) {
            if (under_way != NOTHING && ends <= moment && ends <= timers.soonest()) end_work();
            else if (timers.expire_by(moment)) expire();
            else return;
        }
    }

    void expire() {
        const uint64_t time = timers.soonest();
        const unsigned timer = timers.take(), at = timer / 2;
        SEE(expires(this, at, timer & 1, time, under_way == NOTHING));
        if (timer & 1) {
            fired |= 1ull << at;
            devices[at]->met_scheduled = devices[at]->is_scheduled;
        } else {
            assert_interrupt(*devices[at], at, time);
        }
        disturb(time);
    }

    void disturb(uint64_t time) {
        if (under_way == NOTHING) {
            clock = time;
            if (!(raised | fired)) return;
            const uint64_t wake = settings[raised ? WAKE : TIMER_WAKE];
            interrupting = held(interrupting, wake);
            clock = held(time, wake);
            take_up();
        } else if (under_way == A_USE && (raised | fired)) {
            has_rest = true;
            rest_packet = packet;
            rest_length = ends - time;
            using_ = held(using_, time - began);
            clock = time;
            take_up();
        }
    }

    void assert_interrupt(Device &device, unsigned at, uint64_t time) {
        SEE(asks(this, at, time));
        raised |= 1ull << at;
        device.has_asserted = true;
        device.asserted = time;
    }

    void notify(Device &device, unsigned at, uint64_t time) {
        const unsigned timer = 2 * at;
        const bool is_raised = raised >> at & 1;
        const uint64_t gap = settings[RX_GAP];
        if (gap) {
            COUNT(gaps);
            if (is_raised) return;
            const uint64_t end = device.has_asserted ? held(device.asserted, gap) : 0;
            if (end > time) {
                if (!timers.has(timer)) timers.set(timer, end);
                return;
            }
            assert_interrupt(device, at, time);
            timers.unset(timer);
            return;
        }
        device.frames++;
        if (settings[RX_NSECS] == 0 || (settings[RX_FRAMES] != 0 && device.frames >= settings[RX_FRAMES])) {
            raised |= 1ull << at;
            timers.unset(timer);
        } else if (!is_raised && !timers.has(timer)) {
            timers.set(timer, held(time, settings[RX_NSECS]));
        }
    }

    void start(Kind kind, uint64_t length) {
        under_way = kind;
        began = clock;
        ends = held(clock, length);
    }

    void end_work() {
        const Kind kind = under_way;
        uint64_t &sum = kind == AN_INTERRUPT ? interrupting : kind == A_USE ? using_ : polling;
        sum = held(sum, ends - began);
        clock = ends;
        under_way = NOTHING;
        switch (kind) {
        case A_USE:
            waits.add(clock - packet);
            SEE(uses(this, packet, clock));
            if (!socket.size()) sleeps = true;
            break;
        case A_POLL: look(); break;
        case A_PACKET: end_packet(); break;
        case A_TAKE: end_take(); break;
        case A_HANDOVER: end_handover(); break;
        case AN_ARMING: end_poll(*devices[busy]); break;
        case AN_INTERRUPT:
            if (settings[BUDGET] == 0) {
                end_interrupt_without_polling();
            } else if (settings[LATCHED] == 2 && !is_timer) {
                devices[busy]->is_caused = false;
                SEE(reads(this, busy));
            }
            break;
        case NOTHING: break;
        }
        if (under_way == NOTHING) take_up();
    }

    // ---- work: the first of these that there is

    void take_up() {
        under_way = NOTHING;
        if (raised | fired) return interrupt();
        if (is_running && goes_on()) return poll(own.take());
        if (list.size()) return begin_run();
        if (has_rest) return go_on_with_rest();
        if (settings[THREADED]) return first_task();
        if (!settings[APART] && socket.size()) use();
    }

    void interrupt() {
        busy = static_cast<unsigned>(__builtin_ctzll(raised | fired));
        const uint64_t bit = 1ull << busy;
        Device &device = *devices[busy];
        is_timer = fired & bit;
        SEE(interrupts(this, busy, clock, is_timer, device.met_scheduled));
        if (is_timer) {
            fired ^= bit;
            expired++;
            if (!device.met_scheduled) schedule(device, busy);
            return start(AN_INTERRUPT, settings[TIMER]);
        }
        raised ^= bit;
        device.frames = 0;
        timers.unset(2 * busy);
        device.interrupts++;
        interrupts++;
        if (settings[BUDGET] == 0) return start(AN_INTERRUPT, settings[INTERRUPT] + with_waking(settings[PACKET]));
        device.is_masked = true;
        if (device.is_scheduled) device.is_missed = true;
        else schedule(device, busy);
        start(AN_INTERRUPT, settings[INTERRUPT]);
    }

    /* The driver asked for interrupts before the completion: the instance misses this one, and the work under way ends later. */
    void interrupt_early(Device &device) {
        COUNT(earlies);
        SEE(comes_early(this, busy));
        device.is_missed = true;
        device.interrupts++;
        interrupts++;
        interrupting = held(interrupting, settings[EARLY]);
        began = held(began, settings[EARLY]);
        ends = held(ends, settings[EARLY]);
    }

    void schedule(Device &device, unsigned at) {
        device.is_scheduled = true;
        (settings[THREADED] ? tasks : list).put(at);
    }

    void end_interrupt_without_polling() {
        Device &device = *devices[busy];
        deliver(device, device.ring.take());
        if (!device.ring.size()) return;
        raised |= 1ull << busy;
        timers.unset(2 * busy);
    }

    void begin_run() {
        is_running = true;
        run_began = clock;
        run_polls = run_work = 0;
        std::swap(own, list);
        poll(own.take());
    }

    /* Returns whether the run makes another poll; if not, it ends the run. */
    bool goes_on() {
        const bool is_spent = run_work >= settings[BUDGET] || run_polls >= settings[WINDOW];
        const bool is_over = clock - run_began >= settings[TIME_LIMIT];
        if (!is_spent && !is_over) {
            if (own.size()) return true;
            if (!again.size() && list.size()) {
                std::swap(own, list);
                return true;
            }
        }
        is_running = false;
        SEE(ends_run(run_work));
        while (list.size()) own.put(list.take());
        while (again.size()) own.put(again.take());
        std::swap(own, list);
        runs++;
        polls += run_polls;
        work += run_work;
        squeezed += is_spent || is_over;
        late += is_over && !is_spent;
        return false;
    }

    void go_on_with_rest() {
        COUNT(rests);
        has_rest = false;
        packet = rest_packet;
        start(A_USE, rest_length);
    }

    void first_task() {
        if (is_runnable && tasks.first() == THE_APPLICATION && !socket.size()) {
            tasks.take();
            is_runnable = false;
        }
        if (!tasks.size()) return;
        if (tasks.first() == THE_APPLICATION) use();
        else poll(tasks.first());
    }

    void use() {
        packet = socket.take();
        start(A_USE, settings[USE] + (sleeps ? settings[APP_WAKE] : 0));
        sleeps = is_woken = false;
    }

    // ---- a poll

    void poll(unsigned at) {
        busy = at;
        polled = 0;
        devices[at]->polls++;
        SEE(polls(this, clock));
        start(A_POLL, settings[POLL]);
    }

    bool has_batches() const { return settings[GRO_BATCH] && !settings[BACKLOG]; }

    void look() { has_batches() ? next_take() : next_packet(); }

    /* The next packet is taken; those that GRO holds are handed over if there is none, or if they are a batch. */
    void next_take() {
        Device &device = *devices[busy];
        if (polled == settings[WEIGHT] || !device.ring.size()) {
            is_last = true;
            device.is_early = settings[EARLY] && polled < settings[WEIGHT];
            return hand_over();
        }
        packet = device.ring.take();
        start(A_TAKE, settings[TAKE]);
    }

    void end_take() {
        polled++;
        batch.put(packet);
        is_last = false;
        if (batch.size() == settings[GRO_BATCH]) return hand_over();
        next_take();
    }

    void hand_over() {
        COUNT(batches);
        if (batch.size()) return start(A_HANDOVER, with_waking(settings[PACKET] - settings[TAKE]));
        if (is_last) close_poll(*devices[busy]);
        else next_take();
    }

    void end_handover() {
        deliver(*devices[busy], batch.take());
        hand_over();
    }

    void end_packet() {
        polled++;
        deliver(*devices[busy], packet);
        next_packet();
    }

    void next_packet() {
        Device &device = *devices[busy];
        if (polled == settings[WEIGHT]) return end_poll(device);
        if (settings[BACKLOG] && !device.taken.size()) std::swap(device.taken, device.ring);
        Queue<uint64_t> &from = settings[BACKLOG] ? device.taken : device.ring;
        if (!from.size()) {
            device.is_early = settings[EARLY];
            return close_poll(device);
        }
        packet = from.take();
        start(A_PACKET, with_waking(settings[PACKET]));
    }

    /* The poll ends. If its completion starts the NAPI timer, that takes some time first. */
    void close_poll(Device &device) {
        const uint64_t deferrals = polled ? settings[DEFER_HARD_IRQS] : device.deferrals;
        const bool is_started = deferrals && settings[GRO_FLUSH_TIMEOUT] && polled < settings[WEIGHT];
        if (!settings[ARM] || settings[BACKLOG] || !is_started || (settings[HEEDLESS] && device.is_missed)) return end_poll(device);
        COUNT(arms);
        start(AN_ARMING, settings[ARM]);
    }

    void end_poll(Device &device) {
        const bool is_full = polled == settings[WEIGHT];
        const unsigned at = busy;
        if (settings[THREADED]) {
            polls++;
            work += polled;
        } else {
            run_polls++;
            run_work += polled;
            if (is_full) again.put(at);
        }
        if (is_full) return;
        if (complete(device, at)) {
            COUNT(agains);
            if (!settings[THREADED]) list.put(at);
        } else if (settings[THREADED]) {
            tasks.take();
        }
    }

    /* napi_complete_done, and the driver after it. Returns whether the instance is scheduled again. */
    bool complete(Device &device, unsigned at) {
        device.is_scheduled = device.is_missed;
        if (polled) device.deferrals = settings[DEFER_HARD_IRQS];
        const bool defers = device.deferrals && settings[GRO_FLUSH_TIMEOUT];
        if (device.deferrals) device.deferrals--;
        const bool stays_masked = (defers && !settings[HEEDLESS]) || (device.is_early && device.is_missed);
        const bool finds_packets = !stays_masked && !settings[LATCHED] && !settings[HEEDLESS] && device.ring.size();
        SEE(completes(this, at, polled, !stays_masked && !finds_packets));
        if (!device.is_missed && defers) defer(at);
        device.is_missed = device.is_early = false;
        if (stays_masked) return device.is_scheduled;
        if (finds_packets) {
            device.is_scheduled = true;
            return true;
        }
        device.is_masked = false;
        if (settings[LATCHED] ? device.is_caused : device.ring.size() > 0) {
            device.is_caused = false;
            notify(device, at, clock);
        }
        return device.is_scheduled;
    }

    void defer(unsigned at) {
        const uint64_t until = held(clock, settings[GRO_FLUSH_TIMEOUT]);
        timers.set(2 * at + 1, until);
        SEE(defers(this, at, until, clock));
    }

    /* Returns how long a packet takes until it is delivered: the first delivery to an application that sleeps also wakes it. */
    uint64_t with_waking(uint64_t length) const {
        if (settings[APART] || !sleeps || is_woken) return length;
        COUNT(wakings);
        return length + settings[POLL_WAKE];
    }

    void deliver(Device &device, uint64_t arrived) {
        is_woken = true;
        if (settings[APART]) go_on(clock);
        device.waits.add(clock - arrived);
        SEE(delivers(this, busy, arrived, clock, socket.size() == settings[SOCKET]));
        if (socket.size() == settings[SOCKET]) {
            refused++;
            return;
        }
        socket.put(arrived);
        if (settings[APART]) {
            if (!application.is_awake) wake_application();
        } else if (settings[THREADED] && !is_runnable) {
            tasks.put(THE_APPLICATION);
            is_runnable = true;
        }
    }

    // ---- the application on a processor of its own

    void wake_application() {
        application.is_awake = true;
        application.has_packet = false;
        application.wakes++;
        application.end = held(clock, settings[APP_WAKE]);
    }

    void go_on(uint64_t moment) {
        while (application.is_awake && application.end <= moment) {
            if (application.has_packet) {
                waits.add(application.end - application.hand);
                SEE(uses(this, application.hand, application.end));
            }
            application.has_packet = application.is_awake = socket.size() > 0;
            if (!application.is_awake) return;
            application.hand = socket.take();
            application.end = held(application.end, settings[USE]);
        }
    }
};

// ---- arrivals

/* The lines of standard input, without their ends. */
class Lines {
  public:
    bool next(const char *&line, size_t &length) {
        for (;;) {
            const char *start = buffer.data() + from, *end = static_cast<const char *>(std::memchr(start, '\n', to - from));
            if (!end && fill()) continue;
            if (!end && from == to) return false;
            line = buffer.data() + from;
            length = end ? static_cast<size_t>(end - line) : to - from;
            from += length + (end ? 1 : 0);
            if (length && line[length - 1] == '\r') length--;
            if (length) return true;
        }
    }

  private:
    std::vector<char> buffer = std::vector<char>(65536);
    size_t from = 0, to = 0;
    bool fill() {
        std::memmove(buffer.data(), buffer.data() + from, to - from);
        to -= from;
        from = 0;
        if (to == buffer.size()) buffer.resize(2 * to);
        const size_t got = std::fread(buffer.data() + to, 1, buffer.size() - to, stdin);
        to += got;
        return got > 0;
    }
};

static void read_row(const char *line, size_t length, unsigned long long row, uint64_t fields[4]) {
    const size_t wanted = settings[QUEUES] > 1 ? 4 : 3;
    size_t count = 0, from = 0;
    bool are_numbers = true;
    for (size_t i = 0; i <= length; i++)
        if (i == length || line[i] == ',') {
            if (count < wanted) fields[count] = number(line + from, i - from, 20, are_numbers, count == 3 ? settings[QUEUES] : 0);
            count++;
            from = i + 1;
        }
    if (count != wanted) stop(2, "arrivals fault 2 %s row %llu\n", "BadFields", row);
    if (!are_numbers) stop(2, "arrivals fault 3 %s row %llu\n", "BadNumber", row);
    const uint64_t highest = DEVICES * settings[PROCESSORS];
    if (fields[0] >= LATEST || fields[1] < 1 || fields[1] > highest || fields[2] < 1 || fields[2] > 65535 ||
        (fields[1] - 1) * settings[QUEUES] + fields[3] >= highest)
        stop(2, "arrivals fault 5 %s row %llu\n", "OutOfRange", row);
}

static void read_arrivals(std::vector<Processor> &processors) {
    Lines lines;
    const char *line = nullptr;
    size_t length = 0;
    const std::string fields_of = settings[QUEUES] > 1 ? ",device,bytes,flow" : ",device,bytes";
    const auto is = [&](const std::string &header) { return std::string(line, length) == header; };
    if (!lines.next(line, length) || (!is("ns" + fields_of) && !is("moment" + fields_of)))
        stop(2, "arrivals fault 1 %s row %llu\n", "BadHeader", 0);
    uint64_t before = 0, fields[4] = {};
    for (unsigned long long row = 1; lines.next(line, length); row++) {
        read_row(line, length, row, fields);
        if (fields[0] < before) stop(2, "arrivals fault 8 %s row %llu\n", "Falls", row);
        before = fields[0];
        const uint64_t queue = (fields[1] - 1) * settings[QUEUES] + fields[3];
        processors[queue % processors.size()].arrive(before, static_cast<unsigned>(queue / processors.size()));
    }
}

static void print_application(size_t of, const Processor &each) {
    const uint64_t used = held_product(each.waits.count, settings[USE]), woken = held_product(each.application.wakes, settings[APP_WAKE]);
    const uint64_t end = each.application.end;
    const uint64_t idle = end - std::min(end, held(used, woken));
    std::printf("application %lu end %lu wakes %lu use %lu idle %lu\n", of, end, each.application.wakes, used, idle);
}

static void report(const std::vector<Processor> &processors) {
    uint64_t devices = 0, arrived = 0, dropped = 0, polled = 0, refused = 0, used = 0;
    for (unsigned at = 0; at < DEVICES; at++)
        for (size_t of = 0; of < processors.size(); of++) {
            const Device *device = processors[of].devices[at].get();
            if (!device) continue;
            std::printf("device %lu arrived %lu dropped %lu polled %lu interrupts %lu polls %lu", at * processors.size() + of + 1,
                device->arrived, device->dropped, device->waits.count, device->interrupts, device->polls);
            device->waits.print();
            devices++;
            arrived += device->arrived;
            dropped += device->dropped;
            polled += device->waits.count;
        }
    for (size_t of = 0; of < processors.size(); of++) {
        const Processor &each = processors[of];
        std::printf("processor %lu interrupts %lu timers %lu runs %lu polls %lu work %lu squeezed %lu late %lu refused %lu used %lu", of,
            each.interrupts, each.expired, each.runs, each.polls, each.work, each.squeezed, each.late, each.refused, each.waits.count);
        each.waits.print();
        const uint64_t busy = held(each.interrupting, held(each.polling, each.using_));
        std::printf("time %lu end %lu interrupt %lu poll %lu use %lu idle %lu\n", of, each.clock, each.interrupting, each.polling,
            each.using_, each.clock - std::min(each.clock, busy));
        if (settings[APART]) print_application(of, each);
        refused += each.refused;
        used += each.waits.count;
    }
    std::printf("total devices %lu arrived %lu dropped %lu polled %lu refused %lu used %lu\n", devices, arrived, dropped, polled, refused,
        used);
}

int main(int count, char **arguments) {
    read_options(count, arguments);
    std::vector<Processor> processors(settings[PROCESSORS]);
    read_arrivals(processors);
    for (Processor &processor : processors) processor.finish();
    report(processors);
#ifdef COUNTED
    std::fprintf(stderr, "rests %lu agains %lu batches %lu gaps %lu earlies %lu wakings %lu arms %lu\n", rests, agains, batches, gaps, earlies,
        wakings, arms);
#endif
    return std::fflush(stdout) ? 4 : 0;
}
