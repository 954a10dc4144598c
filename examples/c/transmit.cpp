// The transmit side of a card: frames of 1500 bytes are sent into a ring of capacity four until a send fails, and every six
// milliseconds the card completes all of them. The limit grows, because the card ran out of work each time, until the ring
// itself is too short.
#include <fintaqush.hpp>
#include <cstdio>

constexpr std::uint32_t PLACES = 4, FRAME = 1500, MAX = 1879048192;

int main() {
    auto tx = fintaqush::TxRing::make(PLACES, 0, MAX, 1000, 0);
    if (!tx) return 1;
    for (std::uint64_t now = 6; now <= 24; now += 6) {
        std::uint32_t frames = 0;
        auto said = tx->send(FRAME);
        for (; said == FQ_OK; said = tx->send(FRAME)) frames++;
        const auto sent = tx->state();
        std::printf("%u frames, %u bytes in flight, %s, ", frames, sent.queued - sent.completed, fq_status_name(said));
        if (tx->done(frames, now) != FQ_OK) return 1;
        std::printf("then a limit of %u\n", tx->state().limit);
    }
}
