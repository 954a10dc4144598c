// A queue limit: frames of 1500 bytes are sent to a card while the limit allows it, and every six milliseconds the card
// completes all of them. The limit grows, because the card ran out of work each time.
#include <fintaqush.hpp>
#include <cstdio>

constexpr std::uint32_t FRAME = 1500, MAX = 1879048192;

int main() {
    auto limit = fintaqush::Dql::make(0, MAX, 1000, 0);
    if (!limit) return 1;
    for (std::uint64_t now = 6; now <= 18; now += 6) {
        unsigned frames = 0;
        for (; limit->avail() >= 0; frames++) {
            if (limit->queued(FRAME) != FQ_OK) return 1;
        }
        const auto in_flight = limit->in_flight();
        if (limit->completed(in_flight, now) != FQ_OK) return 1;
        std::printf("%u frames, %u bytes in flight, then a limit of %u\n", frames, in_flight, limit->limit());
    }
}
