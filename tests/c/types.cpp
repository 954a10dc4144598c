// What fintaqush.hpp adds to the header: a callback that throws, objects that were moved from, rings without an instance, busy
// polling, counts, words, cards, and failing allocations. To be linked with --wrap for malloc, realloc and free.
#include <fintaqush.hpp>
#include <cstdio>
#include <cstdlib>
#include <new>
#include <type_traits>

using namespace fintaqush;

static long blocks;   // the library's, on the heap
static bool refused;  // allocations of C++ fail
static bool is_out;   // those of the library fail

extern "C" {
void *__real_malloc(std::size_t size);
void *__real_realloc(void *old, std::size_t size);
void __real_free(void *old);
void *__wrap_malloc(std::size_t size) {
    if (is_out) return nullptr;
    blocks++;
    return __real_malloc(size);
}
void *__wrap_realloc(void *old, std::size_t size) {
    blocks += old == nullptr;
    return __real_realloc(old, size);
}
void __wrap_free(void *old) {
    blocks -= old != nullptr;
    __real_free(old);
}
}

void *operator new(std::size_t size) {
    void *made = refused ? nullptr : __real_malloc(size);
    if (made == nullptr) throw std::bad_alloc();
    return made;
}
void operator delete(void *old) noexcept { __real_free(old); }
void operator delete(void *old, std::size_t) noexcept { __real_free(old); }

static void want(bool holds, const char *what) {
    if (holds) return;
    std::fprintf(stderr, "types: %s\n", what);
    std::exit(9);
}

template <class... Types>
constexpr bool moves = ((std::is_nothrow_move_constructible_v<Types> && std::is_nothrow_move_assignable_v<Types> &&
                         !std::is_copy_constructible_v<Types> && !std::is_copy_assignable_v<Types>) && ...);
static_assert(moves<Dql, TxRing, Caller, Granted, Polling, Busy, Control<Off>, Control<On>, Control<Marked>, Input, Output, Ring, PlaceIn, PlaceOut, PlaceRing, List>);
static_assert(!std::is_copy_constructible_v<Word> && !std::is_copy_assignable_v<Word> && !std::is_move_constructible_v<Word>);
static_assert(moves<Shared, Bare, Scheduled, Ended, Took, TookBusy, Completed, End>);
static_assert(noexcept(std::declval<Caller>().schedule()) && noexcept(std::declval<Caller>().take(FQ_LIST)) && noexcept(std::declval<Polling>().end(true)) &&
              noexcept(std::declval<Polling>().complete()) && noexcept(std::declval<Control<On>>().disable()));
static_assert(!std::is_convertible_v<int, Weight> && !std::is_constructible_v<Weight, int>);
static_assert(Weight::of<1>().get() == 1 && Weight().get() == 64 && !Weight::make(0) && !Weight::make(65) && Weight::make(64)->get() == 64);

// The structs whose names are also names of functions.
[[maybe_unused]] static void names() {
    fq_counts counts{};
    fq_tx_shown state{};
    static_cast<void>(counts), static_cast<void>(state);
}

// What ends a run is returned as its status, with what was polled until then, and the others stay listed.
static void refused_runs(List &list) {
    using Did = std::pair<std::uint32_t, fq_next>;
    const auto ends = [&](fq_status status, std::uint32_t left, auto &&poll) {
        want(list.push(1) && list.push(2) && list.push(3), "a list of three");
        const Ran ran = list.run(300, 64, 1024, poll);
        want(ran.status == status && !ran && !ran.has_value() && ran.report.work == 5 && ran->polls == 2, "why a run ended, and its report");
        want(list.run(300, 64, 1024, [](std::uint32_t, std::uint32_t) { return Did{0, FQ_NEXT_GONE}; })->polls == left, "the others are listed still");
    };
    ends(FQ_BAD_WORK, 1, [](std::uint32_t id, std::uint32_t) { return id == 1 ? Did{5, FQ_NEXT_GONE} : Did{65, FQ_NEXT_GONE}; });
    ends(FQ_BAD_NEXT, 1, [](std::uint32_t id, std::uint32_t) { return id == 1 ? Did{5, FQ_NEXT_GONE} : Did{0, fq_next(9)}; });
    ends(FQ_IN_USE, 2, [&](std::uint32_t id, std::uint32_t) {
        if (id == 1) return Did{5, FQ_NEXT_GONE};
        want(list.push(id).status == FQ_OK && list.push(id).status == FQ_IN_USE, "it lists itself, once");
        return Did{0, FQ_NEXT_AGAIN};
    });
}

// A run in a run of the same list is rejected with its status, and the run goes on.
static void a_run_in_a_run(List &list) {
    const auto gone = [](std::uint32_t, std::uint32_t) { return std::pair(0u, FQ_NEXT_GONE); };
    want(list.push(1) && list.push(2), "a list of two");
    const Ran ran = list.run(300, 64, 1024, [&](std::uint32_t id, std::uint32_t) {
        want(list.run(300, 64, 1024, gone).status == FQ_NOT_ALLOWED, "a run in a run");
        return std::pair(id, FQ_NEXT_GONE);
    });
    want(ran.status == FQ_OK && ran->polls == 2 && ran->work == 3 && list.size() == 0, "the run goes on");
}

static void runs() {
    auto list = List::make();
    want(list && list->push(1) && list->push(2), "a list of two");
    bool is_caught = false;
    try {
        static_cast<void>(list->run(300, 64, 1024, [](std::uint32_t, std::uint32_t) -> std::pair<std::uint32_t, fq_next> { throw 7; }));
    } catch (int) {
        is_caught = true;
    }
    want(is_caught && list->size() == 1, "a poll that throws is listed no more");
    const auto too_much = [](std::uint32_t, std::uint32_t weight) { return std::pair(weight + 1, FQ_NEXT_GONE); };
    want(!list->run(300, 64, 1024, too_much) && list->size() == 0, "too many packets end a run");
    want(list->push(3) && !list->run(300, 65, 1024, too_much), "a weight of 65");
    want(list->run(300, 65, 1024, too_much).status == FQ_BAD_WEIGHT && list->run(0, 64, 1024, too_much).status == FQ_BAD_BUDGET, "and why");
    want(list->push(4) && list->remove(4) == FQ_OK && list->remove(4) == FQ_NOT_THERE && list->size() == 1, "a number leaves the list");
    const auto report = list->run(300, 64, 1024, [](std::uint32_t id, std::uint32_t) { return std::pair(id, FQ_NEXT_GONE); });
    want(report && report->polls == 1 && report->work == 3, "a run behind those");
    refused_runs(*list);
    a_run_in_a_run(*list);
}

static void rings() {
    auto ring = Ring::make(4);
    Packets out;
    const fq_packet burst[3] = {{2, 20}, {3, 30}, {4, 40}};
    want(!Ring::make(0) && !Ring::make(65537), "a ring of no places, or too many");
    want(ring && ring->put(1, 10) && ring->put_all(burst, 3) == 3 && !ring->put(5, 50), "a ring of four");
    want(ring->poll(out, Weight::of<1>()) == 1 && out[0].number == 1 && ring->counts().bytes == 10, "its first packet");
    want(ring->shown().put == 4 && ring->shown().capacity == 4, "what it shows");
    is_out = true;
    want(!std::move(*ring).split() && ring->shown().put == 4, "a split without memory leaves the ring");
    is_out = false;
    auto ends = std::move(*ring).split();
    want(ends && ends->first.put(5, 50) && ends->second.poll(out) == 4 && out[3].number == 5, "its ends");
    want(ends->second.counts().polls == 2 && ends->second.counts().packets == 5, "its counts");
    auto whole = Ring::make(4);
    want(whole && whole->put(1, 10) && whole->put(2, 20) && whole->poll(out, Weight::of<1>()) == 1, "another ring");
    const Totals totals = std::move(*whole).finish();
    want(totals.put == 2 && totals.polled == 1 && totals.left == 1 && totals.bytes == 30, "its totals");
    want(!whole->put(1, 1) && whole->poll(out) == 0 && std::move(*whole).finish().put == 0 && !std::move(*whole).split(), "it is gone");
}

static void places() {
    want(!PlaceRing::make(0) && !PlaceRing::make(65537), "a ring of places of none, or too many");
    auto ring = PlaceRing::make(4);
    int packets[4] = {};
    auto own = ring->input.claim(0, 3);
    want(own && own->first == 0 && own->count == 3, "three are claimed");
    for (std::size_t i = 0; i < own->count; i++) packets[own->first + i] = 7 + int(i);
    want(!ring->input.claim(4, 1) && !ring->output.peek(1, 1), "more than it owns");
    own = ring->input.claim(3, 3);
    want(own && own->first == 3 && own->count == 1, "the last one");
    auto got = ring->output.peek(0, 64);
    want(got && got->first == 0 && got->count == 3 && packets[got->first + 2] == 9, "what was published");
    got = ring->output.peek(2, 1);
    want(got && got->first == 2 && got->count == 1, "what is left");
    PlaceIn moved(std::move(ring->input));
    own = moved.claim(0, 1);
    want(own && own->first == 3 && !ring->input.claim(0, 1), "an end that moved");
    is_out = true;
    want(!PlaceRing::make(4), "no memory");
    is_out = false;
}

// A card whose packets arrive at given calls.
struct Card {
    unsigned there = 0, behind_unmask = 0;
    bool masked = true;
    void mask() { masked = true; }
    void unmask() {
        masked = false;
        there += std::exchange(behind_unmask, 0U);
    }
    bool look() const { return there != 0; }
    std::size_t poll(std::size_t most) {
        const std::size_t count = most < there ? most : there;
        there -= static_cast<unsigned>(count);
        return count;
    }
};

static Polling taken(Caller &&caller, Kind kind) {
    auto took = std::move(caller).take(kind);
    want(std::holds_alternative<Polling>(took), "it is taken");
    return std::get<Polling>(std::move(took));
}

static void cards() {
    auto bare = Bare::make(2);
    want(bare && !Bare::make(1) && !Bare::make(9), "2 to 8 callers");
    auto on = std::move(bare->control).enable(false);
    Caller &interrupts = bare->callers[0];
    Card card{0, 1, false};
    want(interrupts.interrupt(FQ_LIST, card) == FQ_GRANTED && card.masked, "masked at the grant");
    want(interrupts.word() == (FQ_BIT_SCHED | FQ_BIT_QUEUED), "its word");
    auto end = taken(std::move(bare->callers[1]), FQ_LIST).end_watched(false, card);
    want(std::get<Ended>(end).next == FQ_NEXT_AGAIN && card.masked && card.there == 1, "what came behind the unmask is seen");
    std::size_t work = card.poll(64);
    card.behind_unmask = 2;
    end = taken(std::move(std::get<Ended>(end).caller), FQ_LIST).end_unmasked(card, Weight::of<2>(), work);
    want(work == 2 && card.there == 1 && card.masked && std::get<Ended>(end).next == FQ_NEXT_REPOLL, "the rest fills the weight");
    work = card.poll(64);
    end = taken(std::move(std::get<Ended>(end).caller), FQ_LIST).end_unmasked(card, Weight(), work);
    want(work == 1 && !card.masked && std::get<Ended>(end).next == FQ_NEXT_GONE, "released, and not masked");
    interrupts.set_threaded(true);
    want(interrupts.interrupt(FQ_THREAD, card) == FQ_GRANTED, "an interrupt of the thread");
    end = taken(std::move(std::get<Ended>(end).caller), FQ_THREAD).end(true);
    want(std::holds_alternative<Polling>(end), "a thread's full poll stays with it");
    want(interrupts.interrupt(FQ_THREAD, card) == FQ_MISSED, "a request that is missed");
    end = std::get<Polling>(std::move(end)).end(false);
    want(std::get<Ended>(end).next == FQ_NEXT_AGAIN_THREAD, "again, to the thread");
    end = taken(std::move(std::get<Ended>(end).caller), FQ_THREAD).end(false);
    const auto off = std::move(on).disable();
    static_cast<void>(off);
}

static void completions() {
    auto bare = Bare::make(2);
    want(bare.has_value(), "an instance");
    auto on = std::move(bare->control).enable(false);
    auto scheduled = std::move(bare->callers[0]).schedule();
    want(scheduled.status == FQ_GRANTED, "a request");
    Caller interrupts = std::get<Granted>(std::move(scheduled.next)).hand(FQ_LIST);
    Polling polling = taken(std::move(bare->callers[1]), FQ_LIST);
    want(std::move(interrupts).schedule().status == FQ_MISSED, "a request that is missed");
    auto tried = std::move(on).mark().try_take();
    want(std::holds_alternative<Control<Marked>>(tried), "it isn't taken while it is polled");
    auto done = std::move(polling).complete();
    want(std::holds_alternative<Granted>(done), "it is granted again");
    polling = taken(std::get<Granted>(std::move(done)).hand(FQ_LIST), FQ_LIST);
    done = std::move(polling).complete();
    want(std::holds_alternative<Caller>(done), "it is released");
    want(std::get<Caller>(std::move(done)).request().status == FQ_DISABLED, "a disable is pending");
    want(std::holds_alternative<Control<Off>>(std::get<Control<Marked>>(std::move(tried)).try_take()), "it is taken");
}

static void busy() {
    auto shared = Shared::make(4, 2);
    want(shared.has_value(), "a shared instance");
    Packets out;
    want(shared->input.put(1, 60) && std::holds_alternative<Caller>(std::move(shared->callers[0]).busy()), "not while it is off");
    auto on = std::move(shared->control).enable(false);
    auto took = std::move(shared->callers[1]).busy();
    auto *poller = std::get_if<Busy>(&took);
    want(poller != nullptr && poller->word() == (FQ_BIT_SCHED | FQ_BIT_IN_BUSY_POLL), "it is taken");
    want(poller->poll(out) == 1 && poller->counts().packets == 1, "a busy poll");
    poller->complete_held();
    want(poller->answers().held == 1 && poller->answers().granted == 0, "how often it was answered what");
    auto end = std::move(*poller).stop().end(false);
    want(std::get<Ended>(end).next == FQ_NEXT_GONE, "the poll behind the stop");
    auto off = std::move(on).disable();
    want(off.counts().polls == 1, "the counts of what is off");
}

// An object that was moved from still returns from every call.
static void moved() {
    auto shared = Shared::make(4, 2);
    want(shared.has_value(), "a shared instance");
    Packets out;
    Input input(std::move(shared->input));
    want(!shared->input.put(1, 1) && shared->input.put_all(nullptr, 0) == 0, "an input");
    auto on = std::move(shared->control).enable(false);
    auto off = std::move(on).disable();
    auto none = std::move(on).disable();
    auto marked = std::move(on).mark();
    want(std::holds_alternative<Control<Off>>(std::move(marked).try_take()), "a take by what was moved from");
    auto still = std::move(none).enable(false);
    static_cast<void>(still);
    Caller caller(std::move(shared->callers[0]));
    Caller &gone = shared->callers[0];
    want(gone.interrupt(FQ_LIST) == FQ_BAD_HANDLE && gone.word() == 0, "an interrupt");
    want(std::move(gone).schedule().status == FQ_BAD_HANDLE, "a schedule");
    want(std::holds_alternative<Caller>(std::move(gone).take(FQ_LIST)), "a take");
    want(std::holds_alternative<Caller>(std::move(gone).busy()), "a busy take");
    on = std::move(off).enable(false);
    want(caller.interrupt(FQ_LIST) == FQ_GRANTED, "an interrupt of what was moved to");
    Polling polling = taken(std::move(caller), FQ_LIST);
    auto ended = std::move(polling).end(false);
    want(std::holds_alternative<Ended>(std::move(polling).end(true)) && polling.poll(out) == 0 && polling.counts().polls == 0, "a poll");
    want(std::holds_alternative<Caller>(std::move(polling).complete()), "a complete");
    want(std::get<Ended>(ended).next == FQ_NEXT_GONE, "it was released");
    auto tx = TxRing::make(1, 0, 1, 1000, 0);
    TxRing other(std::move(*tx));
    TxWatchdog watchdog{};
    want(tx->send(1) == FQ_BAD_HANDLE && !tx->state().stopped && !tx->watch(watchdog, 0, 0), "a transmit ring");
    want(other.send(60) == FQ_OK && other.state().stopped && !other.watch(watchdog, 500, 0) && !other.watch(watchdog, 500, 499), "stopped");
    want(other.watch(watchdog, 500, 500) && other.done(1, 500) == FQ_OK && !other.watch(watchdog, 0, 600), "stuck until the completion");
}

static void words() {
    Word word;
    want(!word.any() && word.raise(63) && !word.raise(0) && word.any(), "bits");
    want(word.take() == ((UINT64_C(1) << 63) | 1) && !word.any() && word.take() == 0, "all bits");
}

struct EdgeCard {
    bool masked = true, broken = false;
    std::uint32_t waiting = 100, taken = 0, too_many = 0;
    void mask(std::uint32_t) { masked = true; }
    void unmask(std::uint32_t) { masked = false; }
    bool look(std::uint32_t) const { return waiting > 0; }
    std::uint32_t fetch(std::uint32_t, std::uint32_t most) {
        if (broken) throw 1;
        if (too_many) return most + too_many;
        const std::uint32_t count = most < waiting ? most : waiting;
        waiting -= count, taken += count;
        return count;
    }
};

static void drivers() {
    want(!Driver::make(0) && !Driver::make(65) && !Driver::make(1, 0) && !Driver::make(1, 1, Weight(), 65536), "drivers out of range");
    auto made = Driver::make(2);
    EdgeCard card;
    want(made && made->act(card).what == FQ_TODO_SLEEP, "a new driver sleeps");
    Driver driver(std::move(*made));
    want(made->open(0) == FQ_BAD_HANDLE && made->next().what == FQ_TODO_FAILED && !made->shown(0), "a driver that was moved from");
    want(!made->act(card) && made->act(card).status == FQ_BAD_HANDLE, "a loop over it ends");
    want(driver.open(1) == FQ_OK && driver.open(1) == FQ_NOT_DUE && driver.open(2) == FQ_BAD_DEVICE, "an open");
    const Todo unmask = driver.next();
    want(unmask.what == FQ_TODO_UNMASK && driver.done(unmask) == FQ_OK && driver.done(unmask) == FQ_NOT_DUE, "a report");
    want(driver.act(card).what == FQ_TODO_LOOK && driver.act(card).what == FQ_TODO_MASK, "a look");
    card.broken = true;
    bool is_thrown = false;
    try {
        static_cast<void>(driver.act(card));
    } catch (int) {
        is_thrown = true;
    }
    card.broken = false;
    want(is_thrown && driver.next().what == FQ_TODO_FETCH, "a fetch that throws is due again");
    card.too_many = 1;
    Todo did = driver.act(card);
    want(!did && did.what == FQ_TODO_FAILED && did.status == FQ_BAD_WORK, "a fetch of too many");
    card.too_many = 0;
    did = driver.act(card);
    want(did.what == FQ_TODO_FETCH && did.packets == 64 && did.most == 64, "a fetch");
    std::uint32_t polls = 0;
    while ((did = driver.act(card))) polls += did.run().polls;
    polls += did.run().polls;
    want(polls == 2 && card.taken == 100 && card.waiting == 0, "all packets");
    want(driver.end_run() == FQ_NOT_DUE, "no run to end");
    want(driver.interrupt(1) == FQ_GRANTED && driver.interrupt(1) == FQ_MISSED && driver.stop(1) == FQ_OK && driver.interrupt(1) == FQ_DISABLED, "interrupts");
    want(driver.shown(1)->state == FQ_DEVICE_STOPPING && driver.shown(1)->packets == 100 && !driver.shown(2), "what is shown");
    while (driver.act(card)) {}
    want(card.masked && driver.shown(1)->state == FQ_DEVICE_CLOSED, "a stop");
}

/* A card with a timer. */
struct TimedCard : EdgeCard {
    std::uint64_t wait = 0;
    void timer(std::uint32_t, std::uint64_t nanoseconds) { wait = nanoseconds; }
};

static void drivers_with_timers() {
    auto driver = Driver::make(2);
    TimedCard card;
    EdgeCard none;
    want(driver && driver->set(0, {0, 64, 1, 5000, 0}) == FQ_OK && driver->set(2, {0, 64, 1, 5000, 0}) == FQ_BAD_DEVICE, "deferral");
    want(driver->set(1, {0, 65, 0, 0, 0}) == FQ_BAD_WEIGHT && driver->timer(0) == FQ_NOT_DUE, "a weight, and a closed device");
    want(driver->set(1, {0, 64, 1, 0, 0}) == FQ_BAD_SETTING, "deferral without a timeout");
    want(driver->open(0) == FQ_OK && driver->set(0, {0, 64, 0, 0, 0}) == FQ_NOT_ALLOWED, "an open device");
    while (card.waiting > 0) static_cast<void>(driver->act(card));
    const Todo failed = driver->act(none);
    want(failed.what == FQ_TODO_FAILED && failed.status == FQ_NOT_ALLOWED, "cards without a timer");
    while (driver->act(card)) {}
    want(card.wait == 5000 && card.masked && driver->timer(0) == FQ_GRANTED, "a timer");
    while (driver->act(card)) {}
    want(!card.masked && card.taken == 100, "an unmask after it");
}

/* A card that is unmasked and looked at in a fetch. */
struct RearmCard : EdgeCard {
    bool rearm(std::uint32_t) {
        masked = false;
        return waiting > 0;
    }
};

static void drivers_that_rearm() {
    auto driver = Driver::make(1);
    RearmCard card;
    want(driver && driver->open(0) == FQ_OK, "a driver");
    while (driver->act(card)) {}
    want(card.taken == 100 && !card.masked && driver->interrupt(0) == FQ_GRANTED, "an interrupt");
    card.waiting = 1;
    want(driver->act(card).what == FQ_TODO_MASK && driver->act(card).what == FQ_TODO_FETCH, "a fetch that rearms");
    const Todo did = driver->act(card);
    want(did.what == FQ_TODO_SLEEP && did.run().polls == 1 && did.run().work == 1 && !card.masked && card.taken == 101, "a sleep");
}

static void steps_of_drivers() {
    auto driver = Driver::make(1, 300, Weight::of<8>());
    EdgeCard card;
    Todo todo;
    std::uint32_t polls = 0;
    want(driver && driver->open(0) == FQ_OK, "a driver");
    while (driver->step(todo) == FQ_OK && todo.what != FQ_TODO_SLEEP) {
        switch (todo.what) {
        case FQ_TODO_MASK: card.mask(0); break;
        case FQ_TODO_UNMASK: card.unmask(0); break;
        case FQ_TODO_LOOK: todo.packets = card.look(0); break;
        case FQ_TODO_FETCH:
            todo.packets = 9;
            want(driver->step(todo) == FQ_BAD_WORK && todo.what == FQ_TODO_FAILED && todo.status == FQ_BAD_WORK, "more than the weight");
            todo = driver->next();
            todo.packets = card.fetch(0, todo.most), polls++;
            break;
        default: break;
        }
    }
    want(polls == 13 && card.taken == 100 && !card.masked && driver->shown(0)->packets == 100, "a loop of steps");
    todo.number = 1;
    want(driver->step(todo) == FQ_OK && todo.status == FQ_NOT_DUE && todo.what == FQ_TODO_SLEEP && todo.number == 0, "a report that isn't due");
}

/* Two cards, whose packets interrupt; a loop of turns, and each mistake that a turn reports. */
static void turns_of_drivers() {
    auto driver = Driver::make(2, 300, Weight::of<8>());
    RearmCard cards[2];
    Todo todo;
    want(driver && driver->open(0) == FQ_OK && driver->open(1) == FQ_OK, "a driver");
    std::uint32_t fetches = 0, masks = 0;
    const auto turns = [&](std::uint64_t interrupts) {
        for (; driver->turn(interrupts, todo) == FQ_OK && todo; interrupts = 0) {
            RearmCard &card = cards[todo.device];
            if (todo.mask) card.mask(0), masks++;
            if (todo.what == FQ_TODO_MASK) card.mask(0);
            if (todo.what == FQ_TODO_UNMASK) card.unmask(0);
            if (todo.what == FQ_TODO_LOOK) todo.packets = card.look(0);
            if (todo.what != FQ_TODO_FETCH) continue;
            want(card.masked, "a fetch from a masked card");
            todo.packets = card.fetch(0, todo.most), fetches++;
            if (todo.packets < todo.most) todo.rearm = card.rearm(0) ? FQ_REARM_MORE : FQ_REARM_EMPTY;
        }
    };
    turns(0);
    want(fetches == 26 && cards[0].taken == 100 && cards[1].taken == 100 && !cards[0].masked && !cards[1].masked, "a loop of turns");
    masks = 0, cards[1].waiting = 1, turns(2);
    want(fetches == 27 && masks == 1 && cards[1].taken == 101 && todo.run().polls == 1 && todo.run().work == 1, "a mask with its fetch");
    want(driver->turn(4, todo) == FQ_BAD_DEVICE && !todo && todo.status == FQ_BAD_DEVICE, "a bit without a device");
    want(driver->turn(1, todo = Todo()) == FQ_OK && todo.what == FQ_TODO_FETCH && todo.mask && todo.most == 8, "a fetch");
    Todo none, many = todo;
    want(driver->turn(0, none) == FQ_NOT_REPORTED && none.status == FQ_NOT_REPORTED && !none, "a lost action");
    many.packets = 9;
    want(driver->turn(0, many) == FQ_BAD_WORK && many.what == FQ_TODO_FAILED, "more than the weight");
    many = driver->next();
    want(many.number == todo.number && many.mask, "the same fetch again, with its mask");
    want(driver->turn(0, todo) == FQ_OK && todo.what == FQ_TODO_UNMASK, "its report");
    want(driver->stop(0) == FQ_OK && driver->turn(0, todo) == FQ_OK && todo.status == FQ_NOT_DUE && todo.what == FQ_TODO_MASK, "a report that isn't due");
}

static void machines() {
    MachineSettings settings;
    want(settings.size == sizeof(fq_machine_settings) && settings.weight == 64 && settings.ring == 256, "the default settings");
    const auto report = machine("ns,device,bytes\n1000,1,60\n", settings);
    want(std::get<std::string>(report).rfind("device 1 arrived 1 dropped 0 polled 1 ", 0) == 0, "a report");
    const auto fault = std::get<MachineFault>(machine("ns,device,bytes\n5,1,60\n4,1,60\n"));
    want(fault.status == FQ_BAD_ARRIVALS && fault.fault == 8 && fault.row == 2 && fault.message == "arrivals fault 8 Falls row 2", "a fault");
    settings.weight = 65;
    const auto heavy = std::get<MachineFault>(machine("", settings));
    want(heavy.status == FQ_BAD_SETTING && heavy.setting == 7 && heavy.message.empty(), "a setting");
}

static void no_memory() {
    const long before = blocks;
    for (int kind = 0; kind < 2; kind++) {
        bool is_thrown = false;
        refused = true;
        try {
            if (kind == 0) static_cast<void>(Shared::make(4, 8));
            else static_cast<void>(Bare::make(8));
        } catch (const std::bad_alloc &) {
            is_thrown = true;
        }
        refused = false;
        want(is_thrown, "no memory is told");
        want(blocks == before, "something is left on the heap");
    }
    want(Shared::make(4, 8).has_value(), "with memory it is made");
    want(blocks == before, "it is freed");
}

int main() {
    runs();
    rings();
    places();
    cards();
    completions();
    busy();
    moved();
    words();
    drivers();
    drivers_with_timers();
    drivers_that_rearm();
    steps_of_drivers();
    turns_of_drivers();
    machines();
    no_memory();
    want(blocks == 0, "nothing is left");
    std::puts("the types answer as they have to");
}
