/* Random calls on this library's queue limit and on ns-3's DynamicQueueLimits, side by side: after which call they first differ.
 *
 * limits CALLS MIN [RESET]: with MIN 0 and no reset they never do. With RESET, every thousandth call resets both. */
#include "limits.h"
#include <ns3/integer.h>
#include <ns3/object-factory.h>
#include <ns3/uinteger.h>
#include <random>

static const ns3::Time HOLD = ns3::MilliSeconds(1);

struct Pair {
    ns3::Ptr<FintaqushLimits> ours;
    ns3::Ptr<ns3::QueueLimits> theirs;
    uint64_t calls, made = 0, grew = 0, shrank = 0, first = 0;
    bool resets = false;
    uint32_t in_flight = 0, before = 0;
    std::mt19937 random{4711};
};

/* Makes a call on both limits, and schedules the next one after a random time. */
static void call(Pair *pair) {
    const uint32_t dice = pair->random();
    pair->made++;
    if (pair->resets && pair->made % 1000 == 0) {
        pair->ours->Reset();
        pair->theirs->Reset();
        pair->in_flight = 0;
    } else if (dice % 2 && pair->in_flight) {
        const uint32_t count = dice % 8 == 1 ? pair->in_flight : 1 + dice / 8 % pair->in_flight;
        pair->ours->Completed(count);
        pair->theirs->Completed(count);
        pair->in_flight -= count;
    } else if (pair->ours->Available() >= 0) {
        const uint32_t count = 60 + dice / 2 % 1455;
        pair->ours->Queued(count);
        pair->theirs->Queued(count);
        pair->in_flight += count;
    }
    const uint32_t limit = pair->ours->Limit();
    pair->grew += limit > pair->before;
    pair->shrank += limit < pair->before;
    pair->before = limit;
    if (!pair->first && pair->ours->Available() != pair->theirs->Available()) pair->first = pair->made;
    if (pair->made < pair->calls && !pair->first) ns3::Simulator::Schedule(ns3::MicroSeconds(dice % 97), &call, pair);
}

int main(int argc, char **argv) {
    if (argc < 3) return 64;
    const uint32_t min = static_cast<uint32_t>(std::strtoul(argv[2], nullptr, 10));
    ns3::ObjectFactory factory("ns3::DynamicQueueLimits");
    factory.Set("MinLimit", ns3::UintegerValue(min));
    factory.Set("HoldTime", ns3::TimeValue(HOLD));
    Pair pair{ns3::Create<FintaqushLimits>(min, 1879048192u, HOLD), factory.Create<ns3::QueueLimits>(), std::strtoull(argv[1], nullptr, 10)};
    pair.resets = argc > 3;
    ns3::Simulator::Schedule(ns3::Time(0), &call, &pair);
    ns3::Simulator::Run();
    ns3::Simulator::Destroy();
    if (pair.first) std::cout << "call " << pair.first << " has them differ\n";
    else std::cout << pair.made << " calls, the limit grew " << pair.grew << " times and shrank " << pair.shrank << ", the same at each\n";
    return 0;
}
