/* What holds of every run of the receiving machine, checked event by event for random arrivals with random options. The machine is the
 * plain program (bench/machine.cc, or the file that MACHINE names), whose reports tests/machine.sh compares with napi_machine's. A law is
 * checked on what the machine did, not on its state: this file has queues, causes and timers of its own.
 *
 *     machine_laws SEED COUNT
 *
 * It prints how often each law applied. Exit status: 0; 1 a law is broken, whose name, options and input it prints, or was hardly
 * applied. */
#include <cstdint>
#include <cstdio>
#include <cstdlib>
#include <deque>
#include <map>
#include <random>
#include <string>
#include <vector>

/* The events of the machine; `of` is a processor, `at` a device's number there. */
class Laws {
  public:
    void arrives(const void *of, unsigned at, uint64_t moment, bool is_stored);
    void expires(const void *of, unsigned at, bool is_napi, uint64_t moment, bool is_idle);
    void asks(const void *of, unsigned at, uint64_t moment);
    void latches(const void *of, unsigned at);
    void reads(const void *of, unsigned at);
    void interrupts(const void *of, unsigned at, uint64_t clock, bool is_timer, bool is_met);
    void comes_early(const void *of, unsigned at);
    void polls(const void *of, uint64_t clock);
    void delivers(const void *of, unsigned at, uint64_t came, uint64_t clock, bool is_refused);
    void uses(const void *of, uint64_t came, uint64_t clock);
    void defers(const void *of, unsigned at, uint64_t until, uint64_t clock);
    void completes(const void *of, unsigned at, uint64_t packets, bool is_unmasked);
    void ends_run(uint64_t work);
};
static Laws laws;
#define SEE(event) laws.event

#ifndef MACHINE
#define MACHINE "../bench/machine.cc"
#endif
#define main machine_main
#include MACHINE
#undef main

static std::string input; // the options and the number of the input

static std::map<std::string, unsigned long> applied;

/* A law, each time that it applies. */
static void law(const char *name, bool holds) {
    applied[name]++;
    if (holds) return;
    std::printf("broken: %s; %s\n", name, input.c_str());
    std::exit(1);
}

// ---- what was seen of a device and of a processor

struct SeenWaits {
    uint64_t count = 0, most = 0;
    unsigned __int128 sum = 0;
    void add(uint64_t wait) {
        count++;
        most = std::max(most, wait);
        sum += wait;
    }
    bool are(const Waits &waits) const { return waits.count == count && waits.most == most && waits.sum == sum; }
};
struct Seen {
    SeenWaits waits;
    std::deque<uint64_t> packets; // that found room and weren't delivered
    uint64_t arrived = 0, dropped = 0, interrupts = 0, timers = 0, expiries = 0;
    uint64_t stored = 0, causes_cleared = 0, deferrals = 0;
    bool has_cause = false, has_timer = false, has_asked = false, was_interrupted = false;
    uint64_t timer = 0, set_at = 0, asked = 0, last_interrupt = 0;
};
struct SeenProcessor {
    SeenWaits waits;
    std::map<unsigned, Seen> devices;
    std::deque<uint64_t> socket;
    uint64_t clock = 0, moment = 0, refused = 0;
    uint64_t since = 0; // the last delivery, or the beginning of the poll or of the interrupt
    // a deferred packet that is delivered at this time if nothing else happens on the processor
    bool is_awaited = false;
    unsigned awaited_at = 0;
    uint64_t awaited = 0;
};
static std::map<const void *, SeenProcessor> all;

static bool is_polling() { return settings[BUDGET] != 0; }
static bool is_batching() { return settings[GRO_BATCH] && !settings[BACKLOG]; }

static void passes(SeenProcessor &of, uint64_t moment) {
    law("events are in the order of their times", moment >= of.moment);
    of.moment = moment;
}
static void ticks(SeenProcessor &of, uint64_t clock) {
    law("a clock never falls", clock >= of.clock);
    of.clock = clock;
}

void Laws::arrives(const void *processor, unsigned at, uint64_t moment, bool is_stored) {
    SeenProcessor &of = all[processor];
    Seen &device = of.devices[at];
    passes(of, moment);
    of.is_awaited = false;
    device.arrived++;
    if (!is_stored) {
        device.dropped++;
        return;
    }
    device.stored++;
    device.packets.push_back(moment);
}

void Laws::expires(const void *processor, unsigned at, bool is_napi, uint64_t moment, bool is_idle) {
    SeenProcessor &of = all[processor];
    Seen &device = of.devices[at];
    passes(of, moment);
    of.is_awaited = false;
    if (!is_napi) return;
    law("a timer expires gro-flush-timeout after its completion",
        device.has_timer && moment == device.timer && device.timer == device.set_at + settings[GRO_FLUSH_TIMEOUT]);
    device.has_timer = false;
    device.expiries++;
    if (!is_idle || settings[THREADED] || !is_polling() || device.packets.empty()) return;
    uint64_t first = 0, cost = settings[PACKET];
    if (is_batching()) {
        first = std::min<uint64_t>({settings[GRO_BATCH], settings[WEIGHT], device.packets.size()});
        cost -= settings[TAKE];
    }
    of.is_awaited = true;
    of.awaited_at = at;
    of.awaited = moment + settings[TIMER_WAKE] + settings[TIMER] + settings[POLL] + first * settings[TAKE] + cost;
    if (!settings[APART]) of.awaited += settings[POLL_WAKE];
}

void Laws::asks(const void *of, unsigned at, uint64_t moment) {
    Seen &device = all[of].devices[at];
    device.has_asked = true;
    device.asked = moment;
}

void Laws::latches(const void *of, unsigned at) { all[of].devices[at].has_cause = true; }
void Laws::reads(const void *of, unsigned at) { all[of].devices[at].has_cause = false; }

void Laws::interrupts(const void *processor, unsigned at, uint64_t clock, bool is_timer, bool is_met) {
    SeenProcessor &of = all[processor];
    Seen &device = of.devices[at];
    ticks(of, clock);
    of.since = clock;
    if (is_timer) {
        device.timers++;
        law("an interrupt of a timer follows its expiry", device.timers <= device.expiries);
        if (!settings[HEEDLESS]) law("no timer meets a scheduled instance", !is_met);
        return;
    }
    device.interrupts++;
    if (is_polling() && (settings[LATCHED] || !settings[HEEDLESS]))
        law("an interrupt has a packet or a cause", device.interrupts <= device.stored + device.causes_cleared);
    if (!is_polling() || !settings[RX_GAP]) return;
    const bool is_later = !device.was_interrupted || device.asked >= device.last_interrupt + settings[RX_GAP];
    law("interrupts are a gap apart", device.has_asked && is_later);
    device.was_interrupted = true;
    device.last_interrupt = device.asked;
}

void Laws::comes_early(const void *of, unsigned at) {
    Seen &device = all[of].devices[at];
    device.interrupts++;
    law("an interrupt has a packet or a cause", device.interrupts <= device.stored + device.causes_cleared);
}

void Laws::polls(const void *of, uint64_t clock) {
    ticks(all[of], clock);
    all[of].since = clock + settings[POLL];
}

void Laws::delivers(const void *processor, unsigned at, uint64_t came, uint64_t clock, bool is_refused) {
    SeenProcessor &of = all[processor];
    Seen &device = of.devices[at];
    passes(of, clock);
    ticks(of, clock);
    law("a packet is delivered once and in order", !device.packets.empty() && device.packets.front() == came);
    device.packets.pop_front();
    device.waits.add(clock - came);
    const uint64_t work = settings[PACKET] + (is_polling() ? 0 : settings[INTERRUPT]);
    law("no wait is less than its work", clock >= came + work);
    if (of.is_awaited) law("a deferred packet has the exact wait", at == of.awaited_at && clock == of.awaited);
    of.is_awaited = false;
    if (!settings[APART] && of.socket.empty())
        law("a delivery that wakes the application takes poll-wake more",
            clock >= of.since + settings[PACKET] - (is_batching() ? settings[TAKE] : 0) + settings[POLL_WAKE]);
    of.since = clock;
    if (is_refused) of.refused++;
    else of.socket.push_back(came);
}

void Laws::uses(const void *processor, uint64_t came, uint64_t clock) {
    SeenProcessor &of = all[processor];
    if (!settings[APART]) passes(of, clock);
    law("a packet is used once and in order", !of.socket.empty() && of.socket.front() == came);
    of.socket.pop_front();
    of.waits.add(clock - came);
    law("no wait is less than its work", clock >= came + settings[PACKET] + settings[USE]);
}

void Laws::defers(const void *of, unsigned at, uint64_t until, uint64_t clock) {
    Seen &device = all[of].devices[at];
    if (!settings[BACKLOG]) law("a poll that starts the timer takes arm more", clock >= all[of].since + settings[ARM]);
    law("deferrals after the last packet are at most defer-hard-irqs", ++device.deferrals <= settings[DEFER_HARD_IRQS]);
    device.has_timer = true;
    device.timer = until;
    device.set_at = clock;
}

void Laws::completes(const void *of, unsigned at, uint64_t packets, bool is_unmasked) {
    Seen &device = all[of].devices[at];
    if (packets) device.deferrals = 0;
    if (!is_unmasked || !device.has_cause) return;
    device.has_cause = false;
    device.causes_cleared++;
}

void Laws::ends_run(uint64_t work) { law("a run's work is less than budget and weight", work < settings[BUDGET] + settings[WEIGHT]); }

/* At the end of a run: nothing is left, and the counts of the report are those of the events. */
static void ends(const std::vector<Processor> &processors) {
    for (const Processor &each : processors) {
        SeenProcessor &of = all[&each];
        uint64_t polled = 0, interrupts = 0, timers = 0;
        for (auto &[at, seen] : of.devices) {
            const Device &device = *each.devices[at];
            law("no packet is left in a queue", seen.packets.empty());
            law("each timer expires", !seen.has_timer && seen.timers == seen.expiries);
            law("the counts of a queue are those of its packets",
                device.arrived == seen.arrived && device.dropped == seen.dropped && device.interrupts == seen.interrupts &&
                    seen.arrived == seen.dropped + seen.waits.count);
            law("waits are those of the packets", seen.waits.are(device.waits));
            polled += seen.waits.count;
            interrupts += seen.interrupts;
            timers += seen.timers;
        }
        law("no packet is left in a socket", of.socket.empty());
        law("the counts of a processor are those of its events",
            each.interrupts == interrupts && each.expired == timers && each.refused == of.refused &&
                polled == of.refused + of.waits.count && (!is_polling() || each.work == polled));
        law("waits are those of the packets", of.waits.are(each.waits));
        law("no time is counted twice", each.interrupting + each.polling + each.using_ <= each.clock);
    }
}

// ---- random arrivals with random options

static std::mt19937_64 chance;
static uint64_t below(uint64_t limit) { return chance() % limit; }
static uint64_t one_of(std::initializer_list<uint64_t> values) { return values.begin()[below(values.size())]; }
static uint64_t cost() { return one_of({0, 1, 500, 1000, 1000, 2000, 4000, below(20000), below(1000000)}); }

static uint64_t random_value(unsigned option) {
    switch (option) {
    case PROCESSORS: return one_of({1, 2, 3, 1 + below(64)});
    case QUEUES: return one_of({1, 1, 2, 3, 8, 64});
    case RING: return one_of({1, 2, 4, 16, 256});
    case SOCKET: return one_of({1, 2, 8, 512});
    case BUDGET: return one_of({0, 1, 2, 3, 16, 64, 300});
    case WEIGHT: return one_of({1, 2, 3, 8, 64});
    case WINDOW: return one_of({1, 2, 3, 1024});
    case TIME_LIMIT: return one_of({1, 1000, 5000, 20000, 8000000});
    case RX_NSECS: return one_of({0, 1, 500, 3000, 20000, 100000});
    case RX_FRAMES: return one_of({0, 1, 2, 5});
    case DEFER_HARD_IRQS: return one_of({0, 1, 2, 2, 9});
    case GRO_FLUSH_TIMEOUT: return one_of({0, 500, 1000, 20000, 20000});
    case RX_GAP: return one_of({0, 1, 500, 20000, 100000});
    case GRO_BATCH: return one_of({0, 1, 2, 8, 64});
    case LATCHED: return below(3);
    case BACKLOG: case THREADED: case APART: case HEEDLESS: return below(2);
    default: return cost();
    }
}

static void choose_options() {
    static const std::vector<uint64_t> defaults(settings, settings + OPTIONS);
    std::copy(defaults.begin(), defaults.end(), settings);
    const uint64_t share = one_of({15, 40, 80});
    bool given[OPTIONS] = {};
    for (unsigned option = 0; option < OPTIONS; option++)
        if (below(100) < share) {
            given[option] = true;
            settings[option] = random_value(option);
        }
    if (settings[RX_NSECS] || settings[RX_FRAMES]) settings[RX_GAP] = 0;
    if (settings[TAKE] > settings[PACKET]) settings[TAKE] = settings[PACKET];
    if (settings[HEEDLESS]) settings[EARLY] = 0;
    if (!given[TIMER]) settings[TIMER] = settings[INTERRUPT];
    if (!given[TIMER_WAKE]) settings[TIMER_WAKE] = settings[WAKE];
    for (unsigned option = 0; option < OPTIONS; option++)
        input += std::string(" --") + ranges[option].name + " " + std::to_string(settings[option]);
}

/* Bursts and pauses at some queues, on a grid or not. */
static void run_arrivals() {
    std::vector<Processor> processors(settings[PROCESSORS]);
    const uint64_t queues = DEVICES * settings[PROCESSORS], grid = one_of({1, 500, 1000}), pause = one_of({0, 500, 3000, 20000, 200000});
    std::vector<uint64_t> some(1 + below(one_of({1, 2, 5, queues})));
    for (uint64_t &queue : some) queue = below(queues / settings[QUEUES]) * settings[QUEUES] + below(settings[QUEUES]);
    uint64_t moment = one_of({0, 0, below(1000000), 1ull << 61});
    for (uint64_t left = one_of({0, 1, 5, 50, 300, 1500}); left; left--) {
        if (below(10) < 6) moment += below(pause + 1) / grid * grid;
        const uint64_t queue = some[below(some.size())];
        processors[queue % processors.size()].arrive(moment, static_cast<unsigned>(queue / processors.size()));
    }
    for (Processor &processor : processors) processor.finish();
    ends(processors);
}

int main(int, char **arguments) {
    const unsigned long seed = std::strtoul(arguments[1], nullptr, 10), count = std::strtoul(arguments[2], nullptr, 10);
    for (unsigned long at = 0; at < count; at++) {
        chance.seed(seed * 1000000 + at);
        input = "input " + std::to_string(at) + ":";
        all.clear();
        choose_options();
        run_arrivals();
    }
    bool is_enough = true;
    for (const auto &[name, times] : applied) {
        std::printf("%9lu times: %s\n", times, name.c_str());
        is_enough &= times >= count / 10;
    }
    std::printf("%lu random inputs, %zu laws\n", count, applied.size());
    return is_enough ? 0 : 1;
}
