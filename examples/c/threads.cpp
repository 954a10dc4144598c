// An interrupt thread and a poller thread share an instance: 200000 packets are each polled once and in order.
#include <fintaqush.hpp>
#include <cstdio>

using namespace fintaqush;

constexpr std::uint64_t PACKETS = 200000;

static void interrupt(Input &input, std::optional<Caller> &caller) {
    for (std::uint64_t i = 0; i < PACKETS; i++) {
        while (!input.put(i, 60)) std::this_thread::yield();
        static_cast<void>(caller->interrupt(FQ_LIST));
    }
}

// Ends a poll. It was taken from the list, so FQ_HELD isn't possible.
static Caller end_poll(Polling polling, std::size_t count) {
    auto end = std::move(polling).end(count == Weight().get());
    return std::move(std::get<Ended>(end).caller);
}

static void poll_all(std::optional<Caller> &caller, bool &good) {
    Packets out;
    std::uint64_t next = 0;
    while (next < PACKETS && good) {
        auto took = std::move(*caller).take(FQ_LIST);
        if (auto *polling = std::get_if<Polling>(&took)) {
            const auto count = polling->poll(out);
            for (std::size_t i = 0; i < count; i++) good = good && out[i].number == next++ && out[i].bytes == 60;
            caller = end_poll(std::move(*polling), count);
        } else {
            caller = std::move(std::get<Caller>(took));
            std::this_thread::yield();
        }
    }
    // the instance may still be on the list
    auto took = std::move(*caller).take(FQ_LIST);
    if (auto *polling = std::get_if<Polling>(&took)) {
        caller = end_poll(std::move(*polling), 0);
    } else {
        caller = std::move(std::get<Caller>(took));
    }
}

int main() {
    auto shared = Shared::make(256, 2);
    if (!shared) return 1;
    auto on = std::move(shared->control).enable(false);
    std::optional<Caller> interrupts(std::move(shared->callers[0])), poller(std::move(shared->callers[1]));
    bool good = true;
    std::thread first([&] { interrupt(shared->input, interrupts); });
    std::thread second([&] { poll_all(poller, good); });
    first.join();
    second.join();
    // a last request may have come after the poller's last look
    auto took = std::move(*poller).take(FQ_LIST);
    if (auto *polling = std::get_if<Polling>(&took)) poller = end_poll(std::move(*polling), 0);
    auto off = std::move(on).disable();
    static_cast<void>(off);
    if (!good) return 1;
    std::printf("%llu packets, each once and in order\n", static_cast<unsigned long long>(PACKETS));
}
