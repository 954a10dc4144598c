// An instance with its own thread: an interrupt thread puts 200000 packets in bursts, and each is polled once and in order.
// After a full poll the instance stays with the thread, which polls again at once.
#include <fintaqush.hpp>
#include <cstdio>

using namespace fintaqush;

constexpr std::uint64_t PACKETS = 200000;
constexpr std::size_t BURST = 100;

static void interrupt(Input &input, Caller &caller) {
    std::array<fq_packet, BURST> burst;
    for (std::uint64_t first = 0; first < PACKETS; first += BURST) {
        for (std::size_t i = 0; i < BURST; i++) burst[i] = {first + i, 60};
        for (std::size_t put = 0; put < BURST;) {
            const auto count = input.put_all(burst.data() + put, BURST - put);
            if (count == 0) std::this_thread::yield();
            put += count;
        }
        static_cast<void>(caller.interrupt(FQ_THREAD));
    }
}

struct Thread {
    std::optional<Caller> caller;
    std::uint64_t next = 0;
    unsigned long held = 0;
    bool good = true;

    // Takes the instance if it is queued for the thread, and polls until a poll isn't full.
    bool poll_once() {
        auto took = std::move(*caller).take(FQ_THREAD);
        if (auto *resting = std::get_if<Caller>(&took)) {
            caller = std::move(*resting);
            return false;
        }
        End end = std::get<Polling>(std::move(took));
        while (auto *polling = std::get_if<Polling>(&end)) {
            Packets out;
            const auto count = polling->poll(out);
            for (std::size_t i = 0; i < count; i++) good = good && out[i].number == next++ && out[i].bytes == 60;
            end = std::move(*polling).end(count == out.size());
            if (std::holds_alternative<Polling>(end)) held++;
        }
        caller = std::move(std::get<Ended>(end).caller);
        return true;
    }
};

int main() {
    auto shared = Shared::make(256, 2);
    if (!shared) return 1;
    auto on = std::move(shared->control).enable(true);
    Thread own{std::move(shared->callers[1])};
    std::thread first([&] { interrupt(shared->input, shared->callers[0]); });
    std::thread second([&] {
        while (own.next < PACKETS && own.good)
            if (!own.poll_once()) std::this_thread::yield();
    });
    first.join();
    second.join();
    // an instance that was queued for the thread last is taken and completed before the disable
    while (own.poll_once()) {
    }
    const auto off = std::move(on).disable();
    if (!own.good || own.held == 0) return 1;
    std::printf("%llu packets by a thread of its own, each once and in order\n", static_cast<unsigned long long>(PACKETS));
}
