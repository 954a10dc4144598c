// Four devices are polled by runs of the softirq with a budget of 100 and a weight of 64, until the list is empty.
#include <fintaqush.hpp>
#include <cstdio>

using namespace fintaqush;

constexpr std::uint32_t POLLER = 1, CONTROLLER = 2, BUDGET = 100, WEIGHT = 64, WINDOW = 1024;

struct Device {
    SerialNapi napi{CONTROLLER};
    std::uint32_t left; // the packets in its ring
};

// Polls a device, and ends the poll.
static std::pair<std::uint32_t, fq_next> poll_once(Device &device) {
    if (device.napi.take(POLLER, FQ_LIST) != FQ_TAKEN) return {0, FQ_NEXT_ABSENT};
    const auto work = device.left < WEIGHT ? device.left : WEIGHT;
    device.left -= work;
    if (work == WEIGHT) return {work, device.napi.hand(POLLER, FQ_LIST) == FQ_OK ? FQ_NEXT_REPOLL : FQ_NEXT_ABSENT};
    if (device.napi.complete(POLLER) != FQ_AGAIN) return {work, FQ_NEXT_GONE};
    return {work, device.napi.hand(POLLER, FQ_LIST) == FQ_OK ? FQ_NEXT_AGAIN : FQ_NEXT_ABSENT};
}

int main() {
    std::vector<Device> devices;
    auto list = List::make();
    if (!list) return 1;
    for (const std::uint32_t packets : {150, 3, 64, 0}) {
        Device device;
        device.left = packets;
        if (device.napi.enable(CONTROLLER, false) != FQ_OK) return 1;
        if (device.napi.schedule(0) != FQ_GRANTED || device.napi.hand(0, FQ_LIST) != FQ_OK) return 1;
        if (!list->push(static_cast<std::uint32_t>(devices.size()))) return 1;
        devices.push_back(device);
    }
    for (;;) {
        std::printf("run:");
        const auto report = list->run(BUDGET, WEIGHT, WINDOW, [&](std::uint32_t id, std::uint32_t) {
            const auto did = poll_once(devices[id]);
            std::printf(" %u(%u)", id, did.first);
            return did;
        });
        if (!report) return 1;
        std::printf(" - %u polls, %u packets%s\n", report->polls, report->work, report->squeezed ? ", squeezed" : "");
        if (report->polls == 0) return 0;
    }
}
