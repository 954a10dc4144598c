// A discrete-event simulator: four cards and one processor, with the time that interrupts, timers and polls take. docs/GUIDE.md explains it.
#include <fintaqush.hpp>
#include <algorithm>
#include <cstdio>
#include <cstdlib>
#include <queue>
#include <tuple>

using Time = std::uint64_t; // nanoseconds
constexpr unsigned CARDS = 4, PACKETS = 20000, PLACES = 256;
constexpr Time INTERRUPT = 4000, POLL = 1000, PACKET = 1000;
enum Kind { WORKED, EXPIRED, ARRIVED };         // the order of what happens at the same time
using Event = std::tuple<Time, Kind, unsigned>; // the last one is the card

struct Card {
    std::queue<Time> ring{}; // when the packets in it arrived
    unsigned arrived = 0;
    bool masked = true, raised = false, expired = false;
    Time timer = 0; // when it expires, if it is set
};
struct Machine {
    Time gap, now = 0, waited = 0; // gap: the time between a card's packets; now: the clock; waited: the sum of all waits
    fintaqush::Driver driver = fintaqush::Driver::make(CARDS).value();
    fintaqush::Todo todo{}; // what the processor does, if it is busy, until the next event WORKED
    bool busy = false;
    std::vector<Card> cards{CARDS};
    std::priority_queue<Event, std::vector<Event>, std::greater<Event>> events{}; // the soonest first
    unsigned interrupts = 0, timers = 0, polled = 0, dropped = 0, runs = 0, squeezed = 0;

    void work(Time time) { busy = true, events.emplace(now + time, WORKED, 0); }
    static void must(bool holds) { if (!holds) std::abort(); }
    // The processor is free: it handles an interrupt or a timer, unless a poll has to be completed first, or does what else is due.
    void begin() {
        const bool completes = todo.what == FQ_TODO_UNMASK || (todo.what == FQ_TODO_FETCH && todo.packets < todo.most);
        const auto asks = std::find_if(cards.begin(), cards.end(), [=](auto &card) { return !completes && (card.raised || card.expired); });
        if (asks != cards.end() && asks->expired) {
            asks->expired = false, timers++, must(!fq_is_error(driver.timer(unsigned(asks - cards.begin()))));
            return todo.what = FQ_TODO_SLEEP, work(INTERRUPT);
        }
        if (asks != cards.end()) asks->raised = false, must(!fq_is_error(driver.interrupt(unsigned(asks - cards.begin()))));
        todo = driver.next(), runs += todo.run().polls > 0, squeezed += todo.squeezed;
        Card &card = cards[todo.device];
        switch (todo.what) {
        case FQ_TODO_MASK: card.masked = true, interrupts++, work(INTERRUPT); break;
        case FQ_TODO_UNMASK: card.masked = false, work(0); break;
        case FQ_TODO_LOOK: todo.packets = !card.ring.empty(), work(0); break;
        case FQ_TODO_FETCH: work(POLL); break;
        case FQ_TODO_TIMER: events.emplace(card.timer = now + todo.nanoseconds, EXPIRED, todo.device), work(0); break;
        case FQ_TODO_ENDED: work(0); break;
        case FQ_TODO_SLEEP: break; // until an event
        case FQ_TODO_FAILED: std::abort();
        }
    }
    // A poll takes packet after packet, also those that arrive meanwhile.
    void worked() {
        Card &card = cards[todo.device];
        if (todo.what == FQ_TODO_FETCH && todo.packets < todo.most && !card.ring.empty())
            return waited += now + PACKET - card.ring.front(), card.ring.pop(), todo.packets++, polled++, work(PACKET);
        must(todo.what == FQ_TODO_SLEEP || driver.done(todo) == FQ_OK);
        busy = false, begin();
    }
    void arrived(unsigned device) {
        Card &card = cards[device];
        if (card.ring.size() == PLACES) dropped++;
        else card.ring.push(now), card.raised |= !card.masked;
        if (++card.arrived < PACKETS) events.emplace(now + gap, ARRIVED, device);
    }
    void simulate(unsigned defer, Time timeout) {
        for (unsigned device = 0; device < CARDS; device++)
            if (driver.set(device, {0, 64, defer, timeout, 0}) == FQ_OK) driver.open(device), events.emplace(1000 + device * gap / CARDS, ARRIVED, device);
        for (begin(); !events.empty();) {
            const auto [at, kind, device] = events.top();
            events.pop(), now = at;
            if (kind == EXPIRED) cards[device].expired |= cards[device].timer == at; // else it was set again
            if (kind == ARRIVED) arrived(device);
            if (kind == WORKED) worked();
            else if (!busy) begin();
        }
        std::printf("%7.0f packets a second: %5u polled, %5u dropped, %5u interrupts, %4u runs, %3u squeezed, %5u timers, mean wait %.1f us\n",
                    CARDS * 1e9 / double(gap), polled, dropped, interrupts, runs, squeezed, timers, double(waited) / polled / 1000);
    }
};
struct Deferral { unsigned defer; Time timeout; };

int main() {
    for (Deferral of : {Deferral{0, 0}, {1, 20000}, {2, 20000}, {2, 100000}, {5, 50000}})
        for (Time gap : {80011, 20011, 8011, 4001, 2003}) Machine{gap}.simulate(of.defer, of.timeout);
}
