/* A receiver with one processor: its cards put packets into the library's rings and interrupt; a softirq polls them by the
 * library's runs; an application uses what was delivered. With a budget of 0 each packet interrupts and nothing is polled.
 * With deferral (napi_defer_hard_irqs, gro_flush_timeout) a card stays masked after a poll, and a timer requests the next
 * one.
 *
 * Softirqs run before tasks, and an interrupt goes before a run's next poll. A poll takes packet after packet, including
 * those that arrive meanwhile. An interrupt interrupts only the application. What ends at a time ends before timers expire,
 * and both before a packet of that time arrives. This is the machine of napi_machine, which reports the same counts and
 * waits for the same arrivals. */
#ifndef FINTAQUSH_NS3_RECEIVER_H
#define FINTAQUSH_NS3_RECEIVER_H

#include "limits.h"
#include <algorithm>
#include <cstring>
#include <deque>
#include <functional>
#include <ns3/net-device.h>
#include <ns3/packet.h>
#include <ostream>
#include <vector>

enum : uint32_t { CONTROLLER = 0, CARD = 1, SOFTIRQ = 2 };
enum : uint32_t { RING = 256, WEIGHT = 64, WINDOW = 65535, SOCKET = 512 };

/* The time that each kind of work takes. The values are made up, of the order of those of a small machine. */
static const ns3::Time INTERRUPT = ns3::MicroSeconds(4), POLL = ns3::MicroSeconds(1);
static const ns3::Time PACKET = ns3::MicroSeconds(1), USE = ns3::MicroSeconds(2);
/* The time limit of a run (netdev_budget_usecs). */
static const ns3::Time TIME_LIMIT = ns3::MilliSeconds(8);

struct Settings {
    uint32_t budget;
    uint32_t defer_hard_irqs;
    ns3::Time gro_flush_timeout;
};

struct Card {
    fq_ring ring = FQ_NONE;
    fq_napi napi = fq_napi_new(CONTROLLER);
    std::vector<ns3::Ptr<const ns3::Packet>> slots{RING + 1}; /* the packets in the ring, and the one that a poll processes */
    std::vector<int64_t> came = std::vector<int64_t>(RING + 1); /* the arrival times of the packets, in ns */
    uint64_t next = 0, arrived = 0, dropped = 0, interrupts = 0, polls = 0;
    std::vector<int64_t> waits; /* the wait of each packet until it was delivered */
    uint32_t waiting = 0; /* how many packets are in the ring */
    uint32_t deferrals = 0; /* how often the interrupt may still be deferred */
    bool raised = false, masked = false, fired = false;
};

struct Counts {
    uint64_t arrived = 0, ring_full = 0, socket_full = 0, used = 0, interrupts = 0, timers = 0;
    uint64_t runs = 0, polls = 0, work = 0, squeezed = 0, late = 0, most = 0; /* most: the greatest work of a run */
    ns3::Time interrupting, polling, using_, end;
    std::vector<int64_t> latencies, waits; /* for each packet used, in ns: from the sender's socket, and from its arrival at the card, to the end of its use */
};

class Receiver {
  public:
    Receiver(Settings settings, size_t cards, std::ostream *arrivals) : settings(settings), cards(cards), arrivals(arrivals) {
        if (arrivals) *arrivals << "ns,device,bytes\n";
        must("list", fq_list_new(&list));
        for (Card &card : this->cards) {
            must("ring", fq_ring_new(&card.ring, RING));
            must("enable", fq_napi_enable(&card.napi, CONTROLLER, false));
        }
    }

    ~Receiver() {
        must("free", fq_free(&list.handle));
        for (Card &card : cards) must("free", fq_free(&card.ring.handle));
    }

    /* Handles the arrival of a packet at a card, after the work that ends and the timers that expire at this time. */
    bool Arrive(size_t at, ns3::Ptr<const ns3::Packet> packet) {
        ns3::Simulator::ScheduleNow([this, at, copy = ns3::Ptr<const ns3::Packet>(packet->Copy())] {
            ns3::Simulator::ScheduleNow([this, at, copy] { Put(at, copy); });
        });
        return true;
    }

    /* Prints what napi_machine reports, with each wait in place of the percentiles. */
    void Print(std::ostream &out) const {
        const auto list = [&out](const std::vector<int64_t> &waits) {
            for (int64_t wait : waits) out << ' ' << wait;
            out << '\n';
        };
        for (size_t i = 0; i < cards.size(); i++) {
            const Card &card = cards[i];
            if (!card.arrived) continue;
            out << "device " << i + 1 << " arrived " << card.arrived << " dropped " << card.dropped << " polled " << card.waits.size()
                << " interrupts " << card.interrupts << " polls " << card.polls << " waits";
            list(card.waits);
        }
        out << "processor 0 interrupts " << counts.interrupts << " timers " << counts.timers << " runs " << counts.runs << " polls "
            << counts.polls << " work " << counts.work << " squeezed " << counts.squeezed << " late " << counts.late << " refused "
            << counts.socket_full << " used " << counts.used << " waits";
        list(counts.waits);
        const int64_t idle = (counts.end - counts.interrupting - counts.polling - counts.using_).GetNanoSeconds();
        out << "time 0 end " << counts.end.GetNanoSeconds() << " interrupt " << counts.interrupting.GetNanoSeconds() << " poll "
            << counts.polling.GetNanoSeconds() << " use " << counts.using_.GetNanoSeconds() << " idle " << idle << '\n';
    }

    Counts counts;

  private:
    struct Waiting {
        int64_t born, came;
    };

    /* Puts a packet into the ring of a card, which interrupts unless it is masked. */
    void Put(size_t at, ns3::Ptr<const ns3::Packet> packet) {
        Card &card = cards[at];
        counts.arrived++;
        card.arrived++;
        const int64_t now = ns3::Simulator::Now().GetNanoSeconds();
        if (arrivals) *arrivals << now << ',' << at + 1 << ',' << packet->GetSize() << '\n';
        if (!work) counts.end = ns3::Simulator::Now();
        const uint32_t said = fq_ring_put(&card.ring, card.next, packet->GetSize());
        if (said == FQ_FULL) {
            counts.ring_full++;
            card.dropped++;
            return;
        }
        must("put", said);
        card.slots[card.next] = packet;
        card.came[card.next] = now;
        card.next = (card.next + 1) % card.slots.size();
        card.waiting++;
        card.raised |= !card.masked;
        Disturb();
    }

    /* Starts work on an idle processor, or interrupts a packet's use, if a card requires it. */
    void Disturb() {
        const ns3::Time now = ns3::Simulator::Now();
        if (!work) counts.end = now;
        else if (work == &counts.using_ && std::any_of(cards.begin(), cards.end(), Asks)) {
            work_end.Cancel();
            rest = use_left - (now - began);
            counts.using_ += now - began;
            counts.end = now;
        } else return;
        TakeUp();
    }

    static bool Asks(const Card &card) { return card.raised || card.fired; }

    /* Starts the first work that is possible. */
    void TakeUp() {
        work = nullptr;
        const auto asking = std::find_if(cards.begin(), cards.end(), Asks);
        if (asking != cards.end()) return Interrupt(*asking);
        if (running) return NextPoll();
        uint32_t listed;
        must("len", fq_list_len(&list, &listed));
        if (listed) return BeginRun();
        if (rest.IsStrictlyPositive()) return Use(rest);
        if (socket.empty()) return;
        in_use = socket.front();
        socket.pop_front();
        Use(USE);
    }

    /* Starts work of this length, which is added to this sum. The function is called at its end, and may start more work. */
    void After(ns3::Time length, ns3::Time &sum, std::function<void()> then) {
        work = &sum;
        began = ns3::Simulator::Now();
        work_end = ns3::Simulator::Schedule(length, [this, length, then] {
            *work += length;
            work = nullptr;
            counts.end = ns3::Simulator::Now();
            then();
            if (!work) TakeUp();
        });
    }

    void Interrupt(Card &card) {
        if (card.fired) {
            card.fired = false;
            counts.timers++;
        } else {
            card.raised = false;
            counts.interrupts++;
            card.interrupts++;
            if (settings.budget == 0) return After(INTERRUPT + PACKET, counts.interrupting, [this, &card] {
                Deliver(card, Take(card));
                card.raised = card.waiting > 0;
            });
            card.masked = true;
        }
        must("schedule", fq_napi_schedule(&card.napi, CARD), FQ_GRANTED);
        must("hand", fq_napi_hand(&card.napi, CARD, FQ_LIST));
        must("push", fq_list_push(&list, static_cast<uint32_t>(&card - cards.data())));
        After(INTERRUPT, counts.interrupting, [] {});
    }

    void BeginRun() {
        must("begin", fq_run_begin(&list, settings.budget, WEIGHT, WINDOW));
        running = true;
        run_began = ns3::Simulator::Now();
        NextPoll();
    }

    void NextPoll() {
        uint32_t id;
        if (ns3::Simulator::Now() - run_began >= TIME_LIMIT) return EndRun(true);
        const uint32_t said = fq_run_next(&list, &id);
        if (said == FQ_DONE) return EndRun(false);
        must("next", said);
        must("take", fq_napi_take(&cards[id].napi, SOFTIRQ, FQ_LIST), FQ_TAKEN);
        cards[id].polls++;
        After(POLL, counts.polling, [this, id] { NextPacket(id, 0); });
    }

    /* Processes the packets of a poll, one after the other, until the weight is used up or the ring is empty. */
    void NextPacket(uint32_t id, uint32_t count) {
        if (count == WEIGHT || !cards[id].waiting) return must("polled", fq_run_polled(&list, count, EndPoll(cards[id], count)));
        After(PACKET, counts.polling, [this, id, count, number = Take(cards[id])] {
            Deliver(cards[id], number);
            NextPacket(id, count + 1);
        });
    }

    /* Ends a poll: napi_complete_done and the driver's part after it; after the whole weight the card is polled again, after the others.
     * */
    fq_next EndPoll(Card &card, uint32_t count) {
        if (count == WEIGHT) {
            must("hand", fq_napi_hand(&card.napi, SOFTIRQ, FQ_LIST));
            return FQ_NEXT_REPOLL;
        }
        must("complete", fq_napi_complete(&card.napi, SOFTIRQ), FQ_RELEASED);
        card.masked = IsDeferred(card, count);
        return FQ_NEXT_GONE;
    }

    /* Returns whether the card stays masked, and a timer requests the next poll. */
    bool IsDeferred(Card &card, uint32_t count) {
        if (count) card.deferrals = settings.defer_hard_irqs;
        if (!card.deferrals) return false;
        card.deferrals--;
        if (!settings.gro_flush_timeout.IsStrictlyPositive()) return false;
        /* after work that ends at the same time */
        ns3::Simulator::Schedule(settings.gro_flush_timeout, [this, &card] {
            ns3::Simulator::ScheduleNow([this, &card] {
                card.fired = true;
                Disturb();
            });
        });
        return true;
    }

    /* Ends the run. A run that ended only because of its time is counted as late and as squeezed, as in the kernel. */
    void EndRun(bool is_over) {
        fq_run_report report;
        must("end", fq_run_end(&list, &report));
        running = false;
        counts.runs++;
        counts.polls += report.polls;
        counts.work += report.work;
        counts.squeezed += report.squeezed || is_over;
        counts.late += is_over && !report.squeezed;
        counts.most = std::max<uint64_t>(counts.most, report.work);
        TakeUp();
    }

    /* Starts the application's use of a packet, or continues it. */
    void Use(ns3::Time length) {
        rest = ns3::Time(0);
        use_left = length;
        After(length, counts.using_, [this] {
            const int64_t now = ns3::Simulator::Now().GetNanoSeconds();
            counts.used++;
            counts.latencies.push_back(now - in_use.born);
            counts.waits.push_back(now - in_use.came);
        });
    }

    uint64_t Take(Card &card) {
        fq_packet packet;
        size_t count;
        must("poll", fq_ring_poll(&card.ring, 1, &packet, 1, &count));
        card.waiting--;
        return packet.number;
    }

    /* Delivers a packet to the application's socket. The time when it was sent is after the headers of IP and UDP. */
    void Deliver(Card &card, uint64_t number) {
        uint8_t head[36];
        int64_t born;
        card.slots[number]->CopyData(head, sizeof head);
        std::memcpy(&born, head + 28, sizeof born);
        card.slots[number] = nullptr;
        card.waits.push_back(ns3::Simulator::Now().GetNanoSeconds() - card.came[number]);
        if (socket.size() == SOCKET) counts.socket_full++;
        else socket.push_back({born, card.came[number]});
    }

    Settings settings;
    std::vector<Card> cards;
    fq_list list = FQ_NONE;
    std::ostream *arrivals;
    std::deque<Waiting> socket;
    ns3::Time *work = nullptr; /* the sum to which the time of the work in progress is added */
    ns3::EventId work_end;
    ns3::Time began, run_began, use_left, rest; /* rest: what is left of an interrupted use */
    Waiting in_use{};
    bool running = false;
};
#endif
