/* Four senders, each over a link of 1 Gbit/s to a card of a receiver whose one processor is the bottleneck (receiver.h).
 *
 * Each sender is ns-3's own: UDP in bursts of 16, IP, a queue disc, and a device whose queue is under a byte queue limit, this
 * library's or ns-3's. Prints one line of columns; --head names them. */
#include "receiver.h"
#include <fstream>
#include <map>
#include <ns3/command-line.h>
#include <ns3/config.h>
#include <ns3/inet-socket-address.h>
#include <ns3/internet-stack-helper.h>
#include <ns3/ipv4-address-helper.h>
#include <ns3/net-device-queue-interface.h>
#include <ns3/node-container.h>
#include <ns3/object-factory.h>
#include <ns3/point-to-point-helper.h>
#include <ns3/queue-disc.h>
#include <ns3/random-variable-stream.h>
#include <ns3/string.h>
#include <ns3/traffic-control-helper.h>
#include <ns3/udp-socket-factory.h>

using namespace ns3;

enum : uint32_t { SENDERS = 4, BURST = 16, PAYLOAD = 958 };
static const Time HOLD = MilliSeconds(10);

struct Sender {
    Ptr<Socket> socket;
    Ptr<ToldLimits> limits;
    Ptr<QueueDisc> disc;
    Ptr<ExponentialRandomVariable> gap;
    Time until;
    uint64_t sent = 0;
};

/* Sends a burst, and schedules the next one after a gap. */
static void Burst(Sender *sender) {
    if (Simulator::Now() >= sender->until) return;
    for (uint32_t i = 0; i < BURST; i++) {
        uint8_t payload[PAYLOAD] = {0};
        const int64_t born = Simulator::Now().GetNanoSeconds();
        std::memcpy(payload, &born, sizeof born);
        sender->sent += sender->socket->Send(Create<Packet>(payload, PAYLOAD)) == PAYLOAD;
    }
    Simulator::Schedule(Seconds(sender->gap->GetValue()), &Burst, sender);
}

static Ptr<QueueLimits> MakeLimits(const std::string &whose) {
    if (whose == "fintaqush") return Create<FintaqushLimits>(0, 1879048192u, HOLD);
    ObjectFactory factory("ns3::DynamicQueueLimits");
    factory.Set("HoldTime", TimeValue(HOLD));
    return factory.Create<QueueLimits>();
}

/* Connects a sender by its link to a card of the receiver. */
static void Connect(Sender &sender, uint32_t number, Ptr<Node> receiver, Receiver *processor, Ptr<QueueLimits> limits,
                    std::ostream *calls) {
    NodeContainer node(1);
    InternetStackHelper().Install(node);
    PointToPointHelper link;
    link.SetDeviceAttribute("DataRate", StringValue("1Gbps"));
    link.SetChannelAttribute("Delay", StringValue("1us"));
    NetDeviceContainer ends = link.Install(node.Get(0), receiver);
    ends.Get(1)->SetReceiveCallback([processor, number](Ptr<NetDevice>, Ptr<const Packet> packet, uint16_t, const Address &) {
        return processor->Arrive(number, packet);
    });
    TrafficControlHelper control;
    control.SetRootQueueDisc("ns3::PfifoFastQueueDisc");
    sender.disc = control.Install(ends.Get(0)).Get(0);
    sender.limits = Create<ToldLimits>(limits, calls);
    ends.Get(0)->GetObject<NetDeviceQueueInterface>()->GetTxQueue(0)->SetQueueLimits(sender.limits);
    const std::string base = "10.0." + std::to_string(number) + ".0";
    Ipv4AddressHelper(base.c_str(), "255.255.255.0").Assign(NetDeviceContainer(ends.Get(0)));
    sender.socket = Socket::CreateSocket(node.Get(0), UdpSocketFactory::GetTypeId());
    sender.socket->Connect(InetSocketAddress(Ipv4Address(("10.0." + std::to_string(number) + ".2").c_str()), 9));
}

static double Microseconds(std::vector<int64_t> &latencies, size_t percent) {
    if (latencies.empty()) return 0;
    std::sort(latencies.begin(), latencies.end());
    return static_cast<double>(latencies[(latencies.size() - 1) * percent / 100]) / 1000;
}

/* Prints the row. Percentages are of the time until nothing more happens. */
static void Print(const Settings &settings, uint32_t load, const std::vector<Sender> &senders, Counts &counts, Time length) {
    uint64_t sent = 0, dropped = 0, stops = 0;
    int64_t limit = 0;
    for (const Sender &sender : senders) {
        sent += sender.sent;
        dropped += sender.disc->GetStats().nTotalDroppedPackets;
        stops += sender.limits->Stops();
        limit = std::max(limit, sender.limits->Limit());
    }
    const auto share = [length](Time sum) { return 100 * sum.GetSeconds() / length.GetSeconds(); };
    std::printf("%u %u %ld %u %lu %lu %lu %lu %lu %lu %.4f %.1f %.1f %.1f %.1f %.1f %lu %lu %lu %lu %lu %lu %lu %lu %ld\n", settings.budget,
        settings.defer_hard_irqs, settings.gro_flush_timeout.GetNanoSeconds(), load, sent, dropped, counts.arrived, counts.ring_full,
        counts.socket_full, counts.used, length.GetSeconds(), Microseconds(counts.latencies, 50), Microseconds(counts.latencies, 99),
        share(counts.interrupting), share(counts.polling), share(counts.using_), counts.interrupts, counts.timers, counts.runs, counts.polls,
        counts.squeezed, counts.late, counts.most, stops, limit);
}

int main(int argc, char **argv) {
    uint32_t budget = 64, load = 100000, defer = 0, flush = 0;
    double seconds = 0.2;
    bool head = false;
    std::string whose = "fintaqush", file, arrivals, report;
    CommandLine options("A receiver that polls under a budget, and senders under a queue limit.");
    options.AddValue("budget", "packets of a polling run; 0: interrupts without polling", budget);
    options.AddValue("defer", "napi_defer_hard_irqs: polls without a packet before a card may interrupt again", defer);
    options.AddValue("flush", "gro_flush_timeout: ns until the next such poll", flush);
    options.AddValue("load", "packets a second, of all senders", load);
    options.AddValue("limits", "whose queue limit: fintaqush or ns3", whose);
    options.AddValue("seconds", "simulated time in which packets are sent", seconds);
    options.AddValue("calls", "a file for the calls on the queue limits, each with what is available then", file);
    options.AddValue("arrivals", "a file for the arrivals at the cards, as napi_machine reads them", arrivals);
    options.AddValue("report", "a file for what napi_machine would report, with each wait", report);
    options.AddValue("head", "print the names of the columns, and end", head);
    options.Parse(argc, argv);
    if (head) {
        std::puts("budget defer flush load sent disc_full arrived ring_full socket_full used seconds p50_us p99_us interrupt% poll% use% "
                  "interrupts timers runs polls squeezed late most stops limit");
        return 0;
    }
    if (budget > 65535 || defer > 65535 || flush > 1000000000 || load == 0 || (whose != "fintaqush" && whose != "ns3")) {
        std::cerr << "bottleneck: a budget and a defer of 0 to 65535, a flush of 0 to 1000000000, a load from 1, limits of fintaqush or "
                     "ns3\n";
        return 64;
    }
    std::map<std::string, std::ofstream> files;
    for (const std::string &name : {file, arrivals, report})
        if (!name.empty()) files[name].open(name);
    const auto opened = [&files](const std::string &name) -> std::ostream * { return name.empty() ? nullptr : &files[name]; };
    const Settings settings{budget, defer, NanoSeconds(flush)};
    Receiver receiver(settings, SENDERS, opened(arrivals));
    Ptr<Node> node = CreateObject<Node>();
    std::vector<Sender> senders(SENDERS);
    const Time length = Seconds(seconds);
    for (uint32_t i = 0; i < SENDERS; i++) {
        Connect(senders[i], i, node, &receiver, MakeLimits(whose), opened(file));
        senders[i].until = length;
        senders[i].gap = CreateObject<ExponentialRandomVariable>();
        senders[i].gap->SetStream(i + 1);
        senders[i].gap->SetAttribute("Mean", DoubleValue(static_cast<double>(SENDERS) * BURST / load));
        Simulator::Schedule(Seconds(senders[i].gap->GetValue()), &Burst, &senders[i]);
    }
    Simulator::Run();
    Print(settings, load, senders, receiver.counts, Simulator::Now());
    if (!report.empty()) receiver.Print(files[report]);
    for (auto &[name, out] : files) {
        out.close();
        if (!out.fail()) continue;
        std::cerr << "bottleneck: " << name << " can't be written\n";
        return 74;
    }
    senders.clear();
    Simulator::Destroy();
    return 0;
}
