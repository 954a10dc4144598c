// Fintaqush for C++17: the calls of fintaqush.h with the state of a caller in its type, so that a
// call that the state doesn't allow doesn't compile. Header only. Of the objects only a SerialNapi
// can be copied. Nothing throws except the standard containers if memory runs out, and the callback
// of List::run.
// What fintaqush.h requires of the program holds here too. A destructor abandons its object
// (fq_abandon): an instance whose poller was destroyed is never polled again. A call on an object
// that was moved from returns what an unset handle gives: FQ_BAD_HANDLE, nullopt, 0, or the object
// itself.
#ifndef FINTAQUSH_HPP
#define FINTAQUSH_HPP

#include "fintaqush.h"

#include <array>
#include <cstddef>
#include <cstdint>
#include <optional>
#include <string>
#include <string_view>
#include <thread>
#include <utility>
#include <variant>
#include <vector>

namespace fintaqush {

using Status = fq_status;
using Kind = fq_kind;
using Packets = std::array<fq_packet, 64>;
using TxState = fq_tx_shown;
using TxWatchdog = fq_tx_watchdog;
using Counts = fq_counts;
using Totals = fq_totals;
using RunReport = fq_run_report;
using RingShown = fq_ring_shown;
using Answers = fq_answers;

// Returns the message of a status; "?" for an unknown number.
[[nodiscard]] inline std::string message(std::uint32_t status) {
    std::string text(FQ_MESSAGE_ROOM, '\0');
    text.resize(fq_status_message(status, text.data(), text.size()));
    return text;
}

namespace detail {
// Discards the status of a call that always succeeds in the state that the type guarantees.
inline void made(std::uint32_t) noexcept {}
// Returns what such a call sets, call(&to).
template <class To, class Call>
[[nodiscard]] To set_by(Call call) noexcept {
    To to{};
    made(call(&to));
    return to;
}

// The callbacks of fq_card, over a card's member functions, which don't throw.
template <class Card>
void mask(void *at) noexcept { static_cast<Card *>(at)->mask(); }
template <class Card>
void unmask(void *at) noexcept { static_cast<Card *>(at)->unmask(); }
template <class Card>
bool look(void *at) noexcept { return static_cast<Card *>(at)->look(); }
template <class Card>
std::size_t poll(void *at, std::size_t most) noexcept {
    return static_cast<Card *>(at)->poll(most);
}
} // namespace detail

// The most packets that one poll returns, 1 to 64.
class Weight {
public:
    constexpr Weight() noexcept : packets_(64) {}
    // Makes a weight from a constant; doesn't compile unless it is 1 to 64.
    template <std::size_t PACKETS>
    [[nodiscard]] static constexpr Weight of() noexcept {
        static_assert(PACKETS >= 1 && PACKETS <= 64, "a weight is 1 to 64");
        return Weight(PACKETS);
    }
    // Makes a weight; returns nullopt unless it is 1 to 64.
    [[nodiscard]] static constexpr std::optional<Weight> make(std::size_t packets) noexcept {
        if (packets < 1 || packets > 64) return std::nullopt;
        return Weight(packets);
    }
    [[nodiscard]] constexpr std::size_t get() const noexcept { return packets_; }

private:
    explicit constexpr Weight(std::size_t packets) noexcept : packets_(packets) {}
    std::size_t packets_;
};

// A word of pending bits, which threads share.
class Word {
public:
    Word() = default;
    Word(const Word &) = delete;
    Word &operator=(const Word &) = delete;
    // Sets a bit, 0 to 63, and returns whether the word was 0: then the poller has to be woken.
    [[nodiscard]] bool raise(std::uint32_t bit) noexcept { return fq_word_raise(&raw_, bit); }
    // Takes all bits: returns the word, and sets it to 0.
    [[nodiscard]] std::uint64_t take() noexcept { return fq_word_take(&raw_); }
    // Returns whether any bit is set.
    [[nodiscard]] bool any() const noexcept { return fq_word_any(&raw_); }

private:
    fq_word raw_{};
};

// Owns an object on the library's heap, by its handle in C, for example fq_ring. It can be moved,
// not copied.
template <class Raw>
class [[nodiscard]] Handle {
public:
    Handle() = default;
    explicit Handle(Raw &raw) noexcept : raw_(std::exchange(raw, Raw{})) {}
    Handle(Handle &&other) noexcept : Handle(other.raw_) {}
    Handle &operator=(Handle &&other) noexcept {
        Handle moved(std::move(other));
        std::swap(raw_, moved.raw_);
        return *this;
    }
    Handle(const Handle &) = delete;
    Handle &operator=(const Handle &) = delete;
    ~Handle() {
        if (raw_.handle.private_set) detail::made(fq_abandon(&raw_.handle));
    }

    [[nodiscard]] Raw *raw() noexcept { return &raw_; }
    [[nodiscard]] const Raw *raw() const noexcept { return &raw_; }
    // Returns the counts of a ring's polls, if the object has its poll end.
    [[nodiscard]] Counts counts() const noexcept {
        return detail::set_by<Counts>([&](auto *to) { return fq_count(&raw_.handle, to); });
    }

private:
    Raw raw_{};
};

// A byte queue limit. Times are milliseconds of the program's clock.
class [[nodiscard]] Dql {
public:
    // Makes a limit in bytes (dql_init); returns nullopt if min is above max, or max is above
    // 1879048192.
    [[nodiscard]] static std::optional<Dql> make(
        std::uint32_t min, std::uint32_t max, std::uint64_t hold_ms, std::uint64_t now_ms) {
        Dql made;
        if (fq_dql_init(&made.raw_, min, max, hold_ms, now_ms) != FQ_OK) return std::nullopt;
        return std::optional<Dql>(std::move(made));
    }
    Dql(Dql &&) = default;
    Dql &operator=(Dql &&) = default;
    Dql(const Dql &) = delete;
    Dql &operator=(const Dql &) = delete;

    [[nodiscard]] Status queued(std::uint32_t count) { return Status(fq_dql_queued(&raw_, count)); }
    [[nodiscard]] Status completed(std::uint32_t count, std::uint64_t now_ms) {
        return Status(fq_dql_completed(&raw_, count, now_ms));
    }
    void reset(std::uint64_t now_ms) { fq_dql_reset(&raw_, now_ms); }
    [[nodiscard]] std::uint32_t limit() const { return fq_dql_limit_here(&raw_); }
    [[nodiscard]] std::int64_t avail() const { return fq_dql_avail_here(&raw_); }
    [[nodiscard]] std::uint32_t in_flight() const { return fq_dql_in_flight_here(&raw_); }

private:
    Dql() = default;
    fq_dql raw_{};
};

// A transmit ring under a byte queue limit: it keeps the sizes of the packets that were sent and
// aren't completed.
class [[nodiscard]] TxRing {
public:
    // Makes a ring; returns nullopt if the capacity isn't 1 to 65536, min is above max, max is
    // above 1879048192, or memory runs out.
    [[nodiscard]] static std::optional<TxRing> make(std::size_t capacity, std::uint32_t min,
        std::uint32_t max, std::uint64_t hold_ms, std::uint64_t now_ms) {
        Handle<fq_tx> at;
        if (fq_tx_new(at.raw(), capacity, min, max, hold_ms, now_ms) != FQ_OK) return std::nullopt;
        return std::optional<TxRing>(TxRing(std::move(at)));
    }

    [[nodiscard]] Status send(std::uint32_t bytes) { return Status(fq_tx_send(at_.raw(), bytes)); }
    [[nodiscard]] Status done(std::uint32_t count, std::uint64_t now_ms) {
        return Status(fq_tx_done(at_.raw(), count, now_ms));
    }
    [[nodiscard]] TxState state() const {
        return detail::set_by<TxState>([&](auto *to) { return fq_tx_state(at_.raw(), to); });
    }
    // Returns whether the ring has been stopped, with no byte completed, for limit_ms; call it at
    // each tick of a timer (fq_tx_watch).
    [[nodiscard]] bool watch(
        TxWatchdog &watchdog, std::uint64_t limit_ms, std::uint64_t now_ms) const {
        return detail::set_by<bool>(
            [&](auto *to) { return fq_tx_watch(at_.raw(), &watchdog, limit_ms, now_ms, to); });
    }

private:
    explicit TxRing(Handle<fq_tx> &&at) noexcept : at_(std::move(at)) {}
    Handle<fq_tx> at_;
};

// An instance of one thread, whose calls are checked at run time.
class [[nodiscard]] SerialNapi {
public:
    explicit SerialNapi(std::uint32_t controller) noexcept : raw_(fq_napi_new(controller)) {}
    [[nodiscard]] Status schedule(std::uint32_t who) {
        return Status(fq_napi_schedule(&raw_, who));
    }
    [[nodiscard]] Status hand(std::uint32_t who, Kind kind) {
        return Status(fq_napi_hand(&raw_, who, kind));
    }
    [[nodiscard]] Status take(std::uint32_t who, Kind kind) {
        return Status(fq_napi_take(&raw_, who, kind));
    }
    [[nodiscard]] Status complete(std::uint32_t who) {
        return Status(fq_napi_complete(&raw_, who));
    }
    // Ends a poll as the kernel does, full or not (fq_napi_end). Returns FQ_OK, and sets next to
    // the outcome for a run: after FQ_NEXT_AGAIN_THREAD wake the thread; FQ_HELD if the caller
    // keeps polling; FQ_NOT_ALLOWED.
    [[nodiscard]] Status end(std::uint32_t who, bool full, fq_next &next) {
        return Status(fq_napi_end(&raw_, who, full, &next));
    }
    [[nodiscard]] Status busy_take(std::uint32_t who) {
        return Status(fq_napi_busy_take(&raw_, who));
    }
    [[nodiscard]] Status busy_stop(std::uint32_t who) {
        return Status(fq_napi_busy_stop(&raw_, who));
    }
    void set_threaded(std::uint32_t who, bool threaded) {
        fq_napi_set_threaded(&raw_, who, threaded);
    }
    [[nodiscard]] Status mark_disable(std::uint32_t who) {
        return Status(fq_napi_mark_disable(&raw_, who));
    }
    [[nodiscard]] Status take_disable(std::uint32_t who) {
        return Status(fq_napi_take_disable(&raw_, who));
    }
    [[nodiscard]] Status unmark(std::uint32_t who) { return Status(fq_napi_unmark(&raw_, who)); }
    // Enables the instance (napi_enable). Call schedule once after it: an earlier request isn't
    // polled.
    [[nodiscard]] Status enable(std::uint32_t who, bool threaded) {
        return Status(fq_napi_enable(&raw_, who, threaded));
    }
    [[nodiscard]] std::uint64_t word() const { return fq_napi_word(&raw_); }

private:
    fq_napi raw_;
};

// The result of a request, which is queued if it was granted (fq_caller_request): FQ_GRANTED,
// FQ_MISSED or FQ_DISABLED. After FQ_GRANTED, next is FQ_NEXT_AGAIN, and the number has to be
// listed, or FQ_NEXT_AGAIN_THREAD, and the thread has to be woken.
struct [[nodiscard]] Requested {
    Status status;
    fq_next next;
};

class Caller;
class Granted;
class Polling;
class Busy;
struct Shared;
struct Bare;

// The result of schedule: FQ_GRANTED with the grant; FQ_MISSED or FQ_DISABLED with the unchanged
// caller.
struct Scheduled;
// The result of take: the poller, or the caller if the instance wasn't there.
using Took = std::variant<Caller, Polling>;
// The result of busy: the busy poller, or the caller if the instance isn't idle.
using TookBusy = std::variant<Caller, Busy>;
// The result of complete: the caller, which owns nothing now, or the grant of another poll if a
// request was missed.
using Completed = std::variant<Caller, Granted>;
// The result of end: the caller, which owns nothing now, with the outcome for a run; or the poller
// if it keeps polling, after a thread's full poll.
struct Ended;
using End = std::variant<Ended, Polling>;

namespace detail {
// A caller in any state.
class AnyCaller {
public:
    // Returns the state word, a sum of FQ_BIT_..
    [[nodiscard]] std::uint64_t word() const {
        return set_by<std::uint64_t>([&](auto *to) { return fq_caller_look(at_.raw(), to); });
    }

    // Returns how often its calls returned each result since the instance was made.
    [[nodiscard]] Answers answers() const {
        return set_by<Answers>([&](auto *to) { return fq_caller_count(at_.raw(), to); });
    }

protected:
    explicit AnyCaller(Handle<fq_caller> &&at) noexcept : at_(std::move(at)) {}
    Handle<fq_caller> at_;
};

// A caller that polls, or busy polls.
class Poller : public AnyCaller {
public:
    // Removes the ring's next packets, at most the weight, and writes them to out; returns how
    // many.
    [[nodiscard]] std::size_t poll(Packets &out, Weight weight = Weight()) {
        return set_by<std::size_t>([&](auto *to) {
            return fq_caller_poll(at_.raw(), weight.get(), out.data(), out.size(), to);
        });
    }
    // Returns the counts of the ring's polls.
    [[nodiscard]] Counts counts() const { return at_.counts(); }

protected:
    using AnyCaller::AnyCaller;
};
} // namespace detail

// A caller that owns nothing.
class [[nodiscard]] Caller : public detail::AnyCaller {
public:
    [[nodiscard]] Scheduled schedule() && noexcept;
    [[nodiscard]] Took take(Kind kind) && noexcept;
    // Takes an idle instance to busy poll it (napi_busy_loop).
    [[nodiscard]] TookBusy busy() && noexcept;
    // Handles an interrupt: schedules, and queues the instance if granted. Returns FQ_GRANTED,
    // FQ_MISSED or FQ_DISABLED.
    [[nodiscard]] Status interrupt(Kind kind) {
        return Status(fq_caller_interrupt(at_.raw(), kind));
    }
    // Like interrupt, with card.mask() after the grant and before the instance is queued.
    template <class Card>
    [[nodiscard]] Status interrupt(Kind kind, Card &card) {
        const fq_card calls = {&card, detail::mask<Card>, nullptr, nullptr, nullptr};
        return Status(fq_caller_interrupt_masked(at_.raw(), kind, &calls));
    }
    // Like interrupt with a card, but reads the kind from the state word: for an interrupt, a
    // timer, a driver's open (fq_caller_request).
    template <class Card>
    Requested request(Card &card) {
        return request_by({&card, detail::mask<Card>, nullptr, nullptr, nullptr});
    }
    // Like request with a card, for a card that is masked already, or is never masked.
    Requested request() { return request_by({nullptr, nullptr, nullptr, nullptr, nullptr}); }
    // Sets whether polls are queued for the instance's own thread (dev_set_threaded).
    void set_threaded(bool threaded) { detail::made(fq_caller_set_threaded(at_.raw(), threaded)); }

private:
    friend class Granted;
    friend class Polling;
    template <class>
    friend class Control;
    friend struct Shared;
    friend struct Bare;
    using AnyCaller::AnyCaller;
    Requested request_by(const fq_card &calls) {
        fq_next next = FQ_NEXT_GONE;
        const Status said = fq_caller_request(at_.raw(), &calls, &next);
        return {said, next};
    }
};

// A caller that was granted the instance, and has to queue it.
class [[nodiscard]] Granted : public detail::AnyCaller {
public:
    [[nodiscard]] Caller hand(Kind kind) && noexcept {
        detail::made(fq_caller_hand(at_.raw(), kind));
        return Caller(std::move(at_));
    }

private:
    friend class Caller;
    friend class Polling;
    using AnyCaller::AnyCaller;
};

// A caller that polls the instance.
class [[nodiscard]] Polling : public detail::Poller {
public:
    [[nodiscard]] Caller requeue() && noexcept {
        detail::made(fq_caller_requeue(at_.raw()));
        return Caller(std::move(at_));
    }
    // Ends the poll as the kernel does (fq_caller_end); full says that it returned its whole
    // weight.
    [[nodiscard]] End end(bool full) && noexcept;
    // Like end, for a card whose queue can be checked (fq_caller_end_watched): calls card.unmask(),
    // look() and mask(), which don't throw. The instance may be queued for its thread: wake it
    // after FQ_NEXT_AGAIN_THREAD.
    template <class Card>
    [[nodiscard]] End end_watched(bool full, Card &card) && noexcept;
    // Like end, for a card whose queue can't be checked (fq_caller_end_unmasked), after work
    // packets were polled: calls card.unmask(), poll(most) and mask().
    template <class Card>
    [[nodiscard]] End end_unmasked(Card &card, Weight weight, std::size_t &work) && noexcept;
    [[nodiscard]] Completed complete() && noexcept {
        if (fq_caller_complete_done(at_.raw()) == FQ_AGAIN)
            return Completed(Granted(std::move(at_)));
        return Completed(Caller(std::move(at_)));
    }

private:
    friend class Caller;
    friend class Busy;
    using Poller::Poller;
    End ended(std::uint32_t said, fq_next next) noexcept;
};

// A caller that busy polls the instance.
class [[nodiscard]] Busy : public detail::Poller {
public:
    // Completes a poll below its weight (napi_complete_done), and keeps busy polling.
    void complete_held() { detail::made(fq_caller_complete(at_.raw())); }
    // Stops busy polling (busy_poll_stop): one poll has to follow.
    [[nodiscard]] Polling stop() && noexcept {
        while (fq_caller_busy_stop(at_.raw()) == FQ_CHANGED) {
        }
        return Polling(std::move(at_));
    }

private:
    friend class Caller;
    using Poller::Poller;
};

struct [[nodiscard]] Scheduled {
    Status status;
    std::variant<Caller, Granted> next;
};

struct [[nodiscard]] Ended {
    Caller caller;
    fq_next next;
};

inline Scheduled Caller::schedule() && noexcept {
    const Status said = fq_caller_schedule_prep(at_.raw());
    if (said == FQ_GRANTED) return {said, Granted(std::move(at_))};
    return {said, Caller(std::move(at_))};
}

inline Took Caller::take(Kind kind) && noexcept {
    if (fq_caller_take(at_.raw(), kind) == FQ_TAKEN) return Took(Polling(std::move(at_)));
    return Took(Caller(std::move(at_)));
}

inline TookBusy Caller::busy() && noexcept {
    std::uint32_t said;
    do said = fq_caller_busy_take(at_.raw());
    while (said == FQ_CHANGED);
    if (said == FQ_TAKEN) return TookBusy(Busy(std::move(at_)));
    return TookBusy(Caller(std::move(at_)));
}

inline End Polling::ended(std::uint32_t said, fq_next next) noexcept {
    if (said == FQ_HELD) return End(Polling(std::move(at_)));
    return End(Ended{Caller(std::move(at_)), next});
}

inline End Polling::end(bool full) && noexcept {
    fq_next next;
    const std::uint32_t said = fq_caller_end(at_.raw(), full, &next);
    return ended(said, next);
}

template <class Card>
End Polling::end_watched(bool full, Card &card) && noexcept {
    const fq_card calls = {
        &card, detail::mask<Card>, detail::unmask<Card>, detail::look<Card>, nullptr};
    fq_next next;
    const std::uint32_t said = fq_caller_end_watched(at_.raw(), full, &calls, &next);
    return ended(said, next);
}

template <class Card>
End Polling::end_unmasked(Card &card, Weight weight, std::size_t &work) && noexcept {
    const fq_card calls = {
        &card, detail::mask<Card>, detail::unmask<Card>, nullptr, detail::poll<Card>};
    fq_next next;
    const std::uint32_t said =
        fq_caller_end_unmasked(at_.raw(), &calls, weight.get(), &work, &next);
    return ended(said, next);
}

struct Off {};
struct On {};
struct Marked {};

namespace detail {
// A controller in any state.
class Controller {
protected:
    explicit Controller(Handle<fq_control> &&at) noexcept : at_(std::move(at)) {}
    Handle<fq_control> at_;
};
} // namespace detail

// The controller of an instance, by its state.
template <class State>
class Control;

template <>
class Control<Marked>;

template <>
class [[nodiscard]] Control<On> : detail::Controller {
public:
    [[nodiscard]] Control<Marked> mark() && noexcept;
    // Disables the instance (napi_disable): yields the processor while a caller owns it.
    [[nodiscard]] Control<Off> disable() && noexcept;

private:
    friend class Control<Off>;
    using Controller::Controller;
};

template <>
class [[nodiscard]] Control<Off> : detail::Controller {
public:
    // Enables the instance (napi_enable). Request a poll once after it (Caller::request), or enable
    // by open: an earlier request isn't polled.
    [[nodiscard]] Control<On> enable(bool threaded) && noexcept {
        detail::made(fq_control_step(at_.raw(), true, threaded));
        return Control<On>(std::move(at_));
    }
    // Opens a driver's instance (fq_control_open): enables it, and requests a poll once by this
    // caller, with card.mask() if that is granted. The request returns FQ_BAD_HANDLE if the caller
    // is another instance's: a poll still has to be requested.
    template <class Card>
    [[nodiscard]] std::pair<Control<On>, Requested> open(
        bool threaded, Caller &caller, Card &card) && noexcept {
        const Status has = fq_control_has(at_.raw(), caller.at_.raw());
        auto on = std::move(*this).enable(threaded);
        const Requested asked = has == FQ_OK ? caller.request(card) : Requested{has, FQ_NEXT_GONE};
        return {std::move(on), asked};
    }
    // Returns the counts of the ring's polls.
    [[nodiscard]] Counts counts() const { return at_.counts(); }

private:
    friend class Control<On>;
    friend class Control<Marked>;
    friend struct Shared;
    friend struct Bare;
    using Controller::Controller;
};

template <>
class [[nodiscard]] Control<Marked> : detail::Controller {
public:
    // Takes the instance if no caller owns it; otherwise returns the controller unchanged.
    [[nodiscard]] std::variant<Control<Marked>, Control<Off>> try_take() && noexcept {
        if (fq_control_step(at_.raw(), false, false) == FQ_BUSY)
            return Control<Marked>(std::move(at_));
        return Control<Off>(std::move(at_));
    }

private:
    friend class Control<On>;
    using Controller::Controller;
};

inline Control<Marked> Control<On>::mark() && noexcept {
    detail::made(fq_control_mark(at_.raw()));
    return Control<Marked>(std::move(at_));
}

inline Control<Off> Control<On>::disable() && noexcept {
    while (fq_control_step(at_.raw(), false, false) == FQ_BUSY) std::this_thread::yield();
    return Control<Off>(std::move(at_));
}

// The input end of a ring, whose other end belongs to an instance or an Output.
class [[nodiscard]] Input {
public:
    // Puts a packet into the ring, after all others; returns false if the ring is full.
    [[nodiscard]] bool put(std::uint64_t number, std::uint32_t bytes) {
        return fq_ring_put(at_.raw(), number, bytes) == FQ_OK;
    }

    // Puts as many of the first packets into the ring as fit, after all others, and returns how
    // many. A poll sees all of them at once.
    [[nodiscard]] std::size_t put_all(const fq_packet *packets, std::size_t len) {
        std::size_t count = 0;
        const auto said = fq_ring_put_all(at_.raw(), packets, len, &count);
        return said == FQ_OK ? len : count;
    }

    // Returns the ring's capacity, and how many packets were put.
    [[nodiscard]] RingShown shown() const {
        return detail::set_by<RingShown>([&](auto *to) { return fq_ring_show(at_.raw(), to); });
    }

private:
    friend class Ring;
    friend struct Shared;
    explicit Input(Handle<fq_ring> &&at) noexcept : at_(std::move(at)) {}
    Handle<fq_ring> at_;
};

// The poll end of a ring without an instance.
class [[nodiscard]] Output {
public:
    [[nodiscard]] std::size_t poll(Packets &out, Weight weight = Weight()) {
        return detail::set_by<std::size_t>([&](auto *to) {
            return fq_ring_poll(at_.raw(), weight.get(), out.data(), out.size(), to);
        });
    }
    [[nodiscard]] Counts counts() const { return at_.counts(); }

private:
    friend class Ring;
    explicit Output(Handle<fq_ring> &&at) noexcept : at_(std::move(at)) {}
    Handle<fq_ring> at_;
};

// A receive ring without an instance, with both its ends.
class [[nodiscard]] Ring {
public:
    // Makes a ring of capacity 1 to 65536; returns nullopt if it is out of range, or memory runs
    // out.
    [[nodiscard]] static std::optional<Ring> make(std::size_t capacity) {
        Handle<fq_ring> at;
        if (fq_ring_new(at.raw(), capacity) != FQ_OK) return std::nullopt;
        return std::optional<Ring>(Ring(std::move(at)));
    }

    [[nodiscard]] bool put(std::uint64_t number, std::uint32_t bytes) {
        return input_.put(number, bytes);
    }
    [[nodiscard]] std::size_t put_all(const fq_packet *packets, std::size_t len) {
        return input_.put_all(packets, len);
    }
    [[nodiscard]] std::size_t poll(Packets &out, Weight weight = Weight()) {
        return detail::set_by<std::size_t>([&](auto *to) {
            return fq_ring_poll(input_.at_.raw(), weight.get(), out.data(), out.size(), to);
        });
    }
    [[nodiscard]] Counts counts() const { return input_.at_.counts(); }
    [[nodiscard]] RingShown shown() const { return input_.shown(); }
    // Returns its two ends, each for its own thread; nullopt if memory runs out, and the ring is
    // unchanged.
    [[nodiscard]] std::optional<std::pair<Input, Output>> split() && {
        Handle<fq_ring> out;
        if (fq_ring_split(input_.at_.raw(), out.raw()) != FQ_OK) return std::nullopt;
        return std::pair<Input, Output>(std::move(input_), Output(std::move(out)));
    }
    // Frees the ring, and returns its totals.
    [[nodiscard]] Totals finish() && {
        return detail::set_by<Totals>(
            [&](auto *to) { return fq_ring_finish(input_.at_.raw(), to); });
    }

private:
    explicit Ring(Handle<fq_ring> &&at) noexcept : input_(std::move(at)) {}
    Input input_;
};

// Elements of the program's array: `count` of them, from the index `first` on.
struct Places {
    std::size_t first = 0, count = 0;
};

// The input end of a ring of places, which publishes packets.
class [[nodiscard]] PlaceIn {
public:
    // Publishes the packets in the first `publish` of the elements that were claimed last, and
    // claims up to `want` (fq_ring_claim). Returns nullopt, and nothing changes, if fewer were
    // claimed.
    [[nodiscard]] std::optional<Places> claim(std::size_t publish, std::size_t want) {
        Places to;
        if (fq_ring_claim(at_.raw(), publish, want, &to.first, &to.count) != FQ_OK)
            return std::nullopt;
        return to;
    }

private:
    friend struct PlaceRing;
    explicit PlaceIn(Handle<fq_ring> &&at) noexcept : at_(std::move(at)) {}
    Handle<fq_ring> at_;
};

// The output end of a ring of places, which takes packets.
class [[nodiscard]] PlaceOut {
public:
    // Releases the first `release` of the elements that were peeked at last, and peeks at up to
    // `want` published packets (fq_ring_peek). Returns nullopt, and nothing changes, if fewer were
    // peeked at.
    [[nodiscard]] std::optional<Places> peek(std::size_t release, std::size_t want) {
        Places to;
        if (fq_ring_peek(at_.raw(), release, want, &to.first, &to.count) != FQ_OK)
            return std::nullopt;
        return to;
    }

private:
    friend struct PlaceRing;
    explicit PlaceOut(Handle<fq_ring> &&at) noexcept : at_(std::move(at)) {}
    Handle<fq_ring> at_;
};

// A ring of places: its packets, of any type, are in an array of the program's, and each end uses
// only the elements that it owns.
struct [[nodiscard]] PlaceRing {
    PlaceIn input;
    PlaceOut output;

    // Makes a ring of capacity 1 to 65536; returns nullopt if it is out of range, or memory runs
    // out.
    [[nodiscard]] static std::optional<PlaceRing> make(std::size_t capacity) {
        Handle<fq_ring> in, out;
        if (fq_ring_places(in.raw(), out.raw(), capacity) != FQ_OK) return std::nullopt;
        return PlaceRing{PlaceIn(std::move(in)), PlaceOut(std::move(out))};
    }
};

namespace detail {
// Returns 2 to 8 callers. Their vector is allocated before the library makes them, so that none is
// lost if memory runs out.
template <class Make, class ToCaller>
std::optional<std::vector<Caller>> callers(std::size_t count, Make make, ToCaller to_caller) {
    if (count < 2 || count > 8) return std::nullopt;
    std::vector<Caller> made;
    made.reserve(count);
    fq_caller callers[8] = {};
    const std::uint32_t said = make(callers);
    for (std::size_t i = 0; i < count; i++)
        made.push_back(to_caller(Handle<fq_caller>(callers[i])));
    if (said != FQ_OK) return std::nullopt;
    return made;
}
} // namespace detail

// An instance that threads share: its ring's input, its controller, and its callers.
struct [[nodiscard]] Shared {
    Input input;
    Control<Off> control;
    std::vector<Caller> callers;

    // Makes an instance over a ring of capacity 1 to 65536, with 2 to 8 callers; returns nullopt if
    // one is out of range, or memory runs out.
    [[nodiscard]] static std::optional<Shared> make(std::size_t capacity, std::size_t callers) {
        Handle<fq_ring> ring;
        Handle<fq_control> control;
        if (fq_ring_new(ring.raw(), capacity) != FQ_OK) return std::nullopt;
        auto made = detail::callers(
            callers,
            [&](fq_caller *at) { return fq_shared_new(ring.raw(), control.raw(), at, callers); },
            [](Handle<fq_caller> &&caller) { return Caller(std::move(caller)); });
        if (!made) return std::nullopt;
        return Shared{Input(std::move(ring)), Control<Off>(std::move(control)), std::move(*made)};
    }
};

// An instance without a ring, for a card that the user polls: its controller, and its callers.
struct [[nodiscard]] Bare {
    Control<Off> control;
    std::vector<Caller> callers;

    // Makes an instance with 2 to 8 callers; returns nullopt if that is out of range, or memory
    // runs out.
    [[nodiscard]] static std::optional<Bare> make(std::size_t callers) {
        Handle<fq_control> control;
        auto made = detail::callers(
            callers, [&](fq_caller *at) { return fq_shared_bare(control.raw(), at, callers); },
            [](Handle<fq_caller> &&caller) { return Caller(std::move(caller)); });
        if (!made) return std::nullopt;
        return Bare{Control<Off>(std::move(control)), std::move(*made)};
    }
};

// The result of a push: FQ_OK, FQ_IN_USE or FQ_FULL.
struct [[nodiscard]] Pushed {
    Status status;
    // Returns whether the number was pushed.
    operator bool() const noexcept { return status == FQ_OK; }
};

// The result of a run: FQ_OK, or the reason for which it ended early, and the report of what it did
// until then.
struct [[nodiscard]] Ran {
    Status status;
    RunReport report;
    // Returns whether the run ended without an error.
    explicit operator bool() const noexcept { return status == FQ_OK; }
    [[nodiscard]] bool has_value() const noexcept { return status == FQ_OK; }
    const RunReport &operator*() const noexcept { return report; }
    const RunReport *operator->() const noexcept { return &report; }
    operator std::optional<RunReport>() const noexcept {
        return status == FQ_OK ? std::optional(report) : std::nullopt;
    }
};

// A poll list of one thread. A number leaves it when its poll ends with FQ_NEXT_GONE, or by remove.
class [[nodiscard]] List {
public:
    // Makes a list; returns nullopt if memory runs out.
    [[nodiscard]] static std::optional<List> make() {
        Handle<fq_list> at;
        if (fq_list_new(at.raw()) != FQ_OK) return std::nullopt;
        return std::optional<List>(List(std::move(at)));
    }

    // Puts a number at the list's tail. Returns FQ_OK; FQ_IN_USE if it is listed already; FQ_FULL
    // if the list and its run hold 64.
    Pushed push(std::uint32_t id) { return {fq_list_push(at_.raw(), id)}; }
    // Removes a number from the list; the others keep their order. Returns FQ_OK; FQ_BUSY if only
    // the run over the list has it; FQ_NOT_THERE if neither of them has it.
    [[nodiscard]] Status remove(std::uint32_t id) { return fq_list_remove(at_.raw(), id); }
    // Returns how many numbers the list and its run hold.
    [[nodiscard]] std::uint32_t size() const {
        return detail::set_by<std::uint32_t>([&](auto *to) { return fq_list_len(at_.raw(), to); });
    }

    // Makes a run (net_rx_action). poll(id, weight) returns the packets that it processed, and how
    // the poll ended. Returns FQ_BAD_WEIGHT or FQ_BAD_BUDGET for the settings; FQ_NOT_ALLOWED
    // within a run of this list; for what poll returned FQ_BAD_WORK, more packets than the weight,
    // FQ_BAD_NEXT, or FQ_IN_USE, to be listed although it has listed itself. After these, and if
    // poll throws, the run ends: its device isn't listed any more, all others are. poll may push to
    // this list and remove from it, but not move it.
    template <class Poll>
    Ran run(std::uint32_t budget, std::uint32_t weight, std::uint32_t window, Poll poll) {
        if (const Status began = fq_run_begin(at_.raw(), budget, weight, window); began != FQ_OK)
            return {began, {}};
        Run run{at_.raw(), {}};
        Status said = FQ_OK;
        std::uint32_t id = 0;
        while (said == FQ_OK && fq_run_next(at_.raw(), &id) == FQ_OK) {
            const std::pair<std::uint32_t, fq_next> did = poll(id, weight);
            said = fq_run_polled(at_.raw(), did.first, did.second);
        }
        run.end();
        return {said, run.report};
    }

private:
    // A run in progress, which ends with its scope. A call fails, and changes nothing, if there is
    // nothing left to end.
    struct Run {
        fq_list *at;
        RunReport report;

        Run(fq_list *list, RunReport none) noexcept : at(list), report(none) {}
        Run(const Run &) = delete;
        Run &operator=(const Run &) = delete;
        // A poll whose result was rejected is still open: it is reported as FQ_NEXT_ABSENT.
        void end() noexcept {
            detail::made(fq_run_polled(at, 0, FQ_NEXT_ABSENT));
            detail::made(fq_run_end(at, &report));
        }
        ~Run() { end(); }
    };

    explicit List(Handle<fq_list> &&at) noexcept : at_(std::move(at)) {}
    Handle<fq_list> at_;
};

// An action that has to be done, and then reported. It is true unless there is nothing to do: it is
// FQ_TODO_SLEEP or, with the error `status`, FQ_TODO_FAILED. A new one is no action.
struct Todo : fq_todo {
    Todo() noexcept : fq_todo(FQ_TODO_INIT) {}
    explicit operator bool() const noexcept {
        return what != FQ_TODO_SLEEP && what != FQ_TODO_FAILED;
    }
    // Returns the report of the run that ended, if one did (fq_todo_run).
    [[nodiscard]] RunReport run() const noexcept { return fq_todo_run(this); }
};

using DeviceShown = fq_device_shown;
using DeviceSettings = fq_device_settings; // `size` needn't be set

namespace detail {
// Whether the cards of a driver have rearm(device).
template <class Cards, class = void>
struct rearms : std::false_type {};
template <class Cards>
struct rearms<Cards, std::void_t<decltype(std::declval<Cards &>().rearm(0u))>> : std::true_type {};
// Whether they have timer(device, nanoseconds).
template <class Cards, class = void>
struct times : std::false_type {};
template <class Cards>
struct times<Cards, std::void_t<decltype(std::declval<Cards &>().timer(0u, std::uint64_t(0)))>>
    : std::true_type {};
} // namespace detail

// A driver of up to 64 devices on one thread: their instances, the poll list and the runs over it.
// It returns what has to be done at a card. In no order of calls does a packet wait unseen.
class [[nodiscard]] Driver {
public:
    // Makes a driver, all devices closed; returns nullopt if there aren't 1 to 64 of them, budget
    // or window isn't 1 to 65535, or memory runs out.
    [[nodiscard]] static std::optional<Driver> make(std::uint32_t devices,
        std::uint32_t budget = 300, Weight weight = Weight(), std::uint32_t window = 1024) {
        Handle<fq_driver> at;
        if (fq_driver_new(at.raw(), devices, budget, std::uint32_t(weight.get()), window) != FQ_OK)
            return std::nullopt;
        return std::optional<Driver>(Driver(std::move(at)));
    }

    // Opens a closed device, and stops an open one (fq_driver_open, fq_driver_stop): FQ_OK,
    // FQ_NOT_DUE or FQ_BAD_DEVICE.
    Status open(std::uint32_t device) { return Status(fq_driver_open(at_.raw(), device)); }
    Status stop(std::uint32_t device) { return Status(fq_driver_stop(at_.raw(), device)); }
    // Reports an action, then the interrupts of the devices whose bits are set, and sets the action
    // to what has to be done now (fq_driver_turn). A loop needs only this call; it begins with a
    // new Todo, and keeps it. Mask the card before a fetch if todo.mask is set. Returns FQ_OK;
    // otherwise the action is FQ_TODO_FAILED: FQ_BAD_DEVICE for a bit without a device,
    // FQ_NOT_REPORTED for another action than the one that has to be reported, FQ_BAD_WORK if a
    // fetch took more than todo.most.
    [[nodiscard]] Status turn(std::uint64_t interrupts, Todo &todo) {
        return fq_driver_turn(at_.raw(), interrupts, &todo);
    }

    // Reports an interrupt of a card: FQ_GRANTED, FQ_MISSED, FQ_DISABLED or FQ_BAD_DEVICE. Report
    // those that came before each step or act: a device that always has packets keeps the driver
    // from sleeping.
    [[nodiscard]] Status interrupt(std::uint32_t device) {
        return Status(fq_driver_interrupt(at_.raw(), device));
    }

    // Reports that the timer of a device expired, which FQ_TODO_TIMER has set: FQ_GRANTED,
    // FQ_NOT_DUE or FQ_BAD_DEVICE.
    [[nodiscard]] Status timer(std::uint32_t device) {
        return Status(fq_driver_timer(at_.raw(), device));
    }
    // Sets the weight of a closed device, the deferral of its interrupt, and busy polling: FQ_OK,
    // FQ_BAD_DEVICE, FQ_BAD_WEIGHT, FQ_BAD_SETTING, or FQ_NOT_ALLOWED if it isn't closed.
    [[nodiscard]] Status set(std::uint32_t device, const DeviceSettings &settings) {
        return fq_driver_set(at_.raw(), device, settings);
    }

    // Ends the run in progress, by a clock of the caller: a fetch that is due already is still
    // made, and then the run has ended and is squeezed. Returns FQ_OK; FQ_NOT_DUE if no run is in
    // progress.
    Status end_run() { return fq_driver_end_run(at_.raw()); }

    // Returns what has to be done now. An action that isn't reported is returned again.
    [[nodiscard]] Todo next() {
        Todo todo;
        detail::made(fq_driver_next(at_.raw(), &todo));
        return todo;
    }
    // Reports that an action was done; after a look and a fetch set todo.packets before. Returns
    // FQ_OK; FQ_NOT_DUE if the action isn't due any more; FQ_BAD_WORK if a fetch took more than
    // todo.most.
    [[nodiscard]] Status done(const Todo &todo) { return fq_driver_done(at_.raw(), &todo); }
    // Reports an action, and sets it to what has to be done now, as turn does, without interrupts,
    // and without todo.mask unless a fetch is returned again.
    [[nodiscard]] Status step(Todo &todo) { return fq_driver_step(at_.raw(), &todo); }

    // Does one action at a card: calls mask(device), unmask(device), look(device), which returns
    // whether the card has packets, or fetch(device, most), which takes and delivers packets and
    // returns how many. If the cards have rearm(device), which unmasks a card and then returns
    // whether it has packets, a fetch of fewer than `most` calls it, which saves two actions; leave
    // it out for devices with deferral or busy polling. With deferral they also have timer(device,
    // nanoseconds), which sets a timer. Returns the action, or that there is nothing to do, or that
    // a run ended; FQ_TODO_FAILED with FQ_BAD_WORK after a fetch of more than `most`, with
    // FQ_NOT_ALLOWED if timer is missing. If a call throws, nothing is reported, and the same
    // action is due again.
    template <class Cards>
    Todo act(Cards &cards) {
        Todo todo = next();
        if (todo.mask) cards.mask(todo.device);
        switch (todo.what) {
        case FQ_TODO_MASK: cards.mask(todo.device); break;
        case FQ_TODO_UNMASK: cards.unmask(todo.device); break;
        case FQ_TODO_LOOK: todo.packets = cards.look(todo.device); break;
        case FQ_TODO_FETCH:
            todo.packets = cards.fetch(todo.device, todo.most);
            if constexpr (detail::rearms<Cards>::value)
                if (todo.packets < todo.most)
                    todo.rearm = cards.rearm(todo.device) ? FQ_REARM_MORE : FQ_REARM_EMPTY;
            break;
        case FQ_TODO_TIMER:
            if constexpr (!detail::times<Cards>::value) return failed(todo, FQ_NOT_ALLOWED);
            else cards.timer(todo.device, todo.nanoseconds);
            break;
        case FQ_TODO_SLEEP: case FQ_TODO_ENDED: case FQ_TODO_FAILED: return todo;
        }
        const Status said = done(todo);
        return fq_is_error(said) ? failed(todo, said) : todo;
    }

    // Returns the state of a device and the counts of its polls; nullopt if there is no such
    // device.
    [[nodiscard]] std::optional<DeviceShown> shown(std::uint32_t device) const {
        DeviceShown shown{};
        if (fq_driver_show(at_.raw(), device, &shown) != FQ_OK) return std::nullopt;
        return shown;
    }

private:
    explicit Driver(Handle<fq_driver> &&at) noexcept : at_(std::move(at)) {}
    // Returns that an action failed.
    [[nodiscard]] static Todo failed(Todo todo, Status status) noexcept {
        todo.what = FQ_TODO_FAILED, todo.status = static_cast<std::uint16_t>(status);
        return todo;
    }
    Handle<fq_driver> at_;
};

// Why a trace has no report, or can't have all its runs: the status, and for FQ_BAD_TRACE the
// number of the trace's fault (fq_fault_name) and its row.
struct NoReport {
    std::uint32_t status, fault, row;
};

namespace detail {
// Returns what a call writes for some bytes, call(bytes, length, out, room, &ran), or what
// `refusal` makes of its status and of `ran`.
template <class Ran, class Call, class Refusal>
[[nodiscard]] auto written(std::string_view bytes, Ran ran, Call call, Refusal refusal)
    -> std::variant<std::string, decltype(refusal(0u, ran))> {
    const auto *from = reinterpret_cast<const std::uint8_t *>(bytes.data());
    std::string out(4096, '\0');
    const auto write = [&] {
        return call(
            from, bytes.size(), reinterpret_cast<std::uint8_t *>(out.data()), out.size(), &ran);
    };
    std::uint32_t said = write();
    if (said == FQ_NO_ROOM) {
        out.resize(ran.length);
        said = write();
    }
    if (said != FQ_OK) return refusal(said, ran);
    out.resize(ran.length);
    return out;
}

template <class Call>
[[nodiscard]] std::variant<std::string, NoReport> replayed(std::string_view trace, Call call) {
    return written(trace, fq_replayed{}, call, [](std::uint32_t said, const fq_replayed &ran) {
        return NoReport{said, ran.fault, ran.row};
    });
}
} // namespace detail

// Replays a whole trace on one thread (napi_replay --mode=serial), and returns its report.
[[nodiscard]] inline std::variant<std::string, NoReport> replay(
    std::string_view trace, const fq_settings &settings = FQ_DEFAULT_SETTINGS) {
    return detail::replayed(trace, [&](auto... to) { return fq_replay(&settings, to...); });
}

// Adds to a trace the runs that the kernel would make with these settings, at most `restarts` after
// a softirq row (fq_raise), and returns the trace. Its replay is the raised replay. With more than
// 100000 rows it fails with fault 9.
[[nodiscard]] inline std::variant<std::string, NoReport> raise_runs(std::string_view trace,
    const fq_settings &settings = FQ_DEFAULT_SETTINGS, std::uint32_t restarts = FQ_UNTIL_EMPTY) {
    return detail::replayed(
        trace, [&](auto... to) { return fq_raise(&settings, restarts, to...); });
}

// The settings of the machine, at first the defaults of napi_machine.
struct MachineSettings : fq_machine_settings {
    MachineSettings() noexcept : fq_machine_settings{} {
        detail::made(fq_machine_default(this));
    }
};

// Why the machine returned no report: its status; for FQ_BAD_SETTING the setting's number, from 1;
// for FQ_BAD_ARRIVALS the number of the fault of the arrivals, its row, and the message of
// napi_machine.
struct MachineFault {
    std::uint32_t status, setting, fault;
    std::uint64_t row;
    std::string message;
};

// Runs the machine on arrivals (napi_machine), and returns its report.
[[nodiscard]] inline std::variant<std::string, MachineFault> machine(
    std::string_view arrivals, const fq_machine_settings &settings = MachineSettings()) {
    return detail::written(
        arrivals, fq_machine_ran{}, [&](auto... to) { return fq_machine(&settings, to...); },
        [](std::uint32_t said, const fq_machine_ran &ran) {
            return MachineFault{said, ran.setting, ran.fault, ran.row, ran.message};
        });
}

} // namespace fintaqush

#endif
