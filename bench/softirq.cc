// Runs of the softirq over 16 devices, in plain C++ for comparison with crates/benches: the same rounds of the same
// packets, and the same counts on standard output; the times on standard error.
//
// usage: softirq ROUNDS
#include <algorithm>
#include <array>
#include <chrono>
#include <cstdint>
#include <cstdio>
#include <cstdlib>
#include <deque>
#include <utility>
#include <vector>

namespace {

using u64 = std::uint64_t;
using u32 = std::uint32_t;

constexpr u32 DEVICES = 16, BUDGET = 300, WEIGHT = 64, WINDOW = 1024;
constexpr std::size_t PLACES = 256;

struct Packet {
  u64 number;
  u32 bytes;
};

// A ring, and the state of its instance: whether a poll is requested, and whether another one was since.
struct Card {
  std::array<Packet, PLACES> places{};
  std::size_t head = 0, tail = 0;
  u64 polls = 0, packets = 0, bytes = 0;
  bool scheduled = false, missed = false;

  bool receive(Packet packet) {
    if (tail - head == PLACES) return false;
    places[tail++ % PLACES] = packet;
    if (scheduled) missed = true;
    else return scheduled = true;
    return false;
  }

  u32 poll(u32 weight, std::vector<Packet>& batch) {
    const u32 count = static_cast<u32>(std::min<std::size_t>(tail - head, weight));
    batch.clear();
    for (u32 k = 0; k < count; k++) {
      batch.push_back(places[head++ % PLACES]);
      bytes += batch.back().bytes;
    }
    polls++;
    packets += count;
    return count;
  }

  // Whether another poll follows, because a request was missed.
  bool complete() {
    scheduled = std::exchange(missed, false);
    return scheduled;
  }
};

struct Spent {
  u64 runs = 0, polls = 0, work = 0, squeezed = 0;
};

void run(std::deque<u32>& list, std::vector<Card>& cards, std::vector<Packet>& batch, Spent& spent) {
  std::deque<u32> own, repoll;
  own.swap(list);
  u32 work = 0, polls = 0;
  bool squeezed = false;
  for (;;) {
    if (own.empty()) {
      if (list.empty() || !repoll.empty()) break;
      own.swap(list);
    }
    const u32 id = own.front();
    own.pop_front();
    const u32 done = cards[id].poll(WEIGHT, batch);
    work += done;
    polls++;
    if (done == WEIGHT) repoll.push_back(id);
    else if (cards[id].complete()) list.push_back(id);
    if (work >= BUDGET || polls >= WINDOW) {
      squeezed = true;
      break;
    }
  }
  own.insert(own.end(), list.begin(), list.end());
  own.insert(own.end(), repoll.begin(), repoll.end());
  list.swap(own);
  spent.runs++;
  spent.polls += polls;
  spent.work += work;
  spent.squeezed += squeezed;
}

}  // namespace

int main(int words, char** word) {
  if (words != 2) return 64;
  const u64 rounds = std::strtoull(word[1], nullptr, 10);
  for (const u32 packets : {1u, 8u, 64u, 256u}) {
    std::vector<Card> cards(DEVICES);
    std::deque<u32> list;
    std::vector<Packet> batch;
    batch.reserve(WEIGHT);
    Spent spent;
    std::chrono::nanoseconds nanos{0};
    for (u64 round = 0; round < rounds; round++) {
      for (u32 id = 0; id < DEVICES; id++) {
        for (u32 number = 0; number < packets; number++) {
          if (cards[id].receive({number, 60})) list.push_back(id);
        }
      }
      const auto start = std::chrono::steady_clock::now();
      while (!list.empty()) run(list, cards, batch, spent);
      nanos += std::chrono::steady_clock::now() - start;
    }
    std::printf("each-%u runs %llu polls %llu work %llu squeezed %llu\n", packets, (unsigned long long)spent.runs,
                (unsigned long long)spent.polls, (unsigned long long)spent.work, (unsigned long long)spent.squeezed);
    std::fprintf(stderr, "each-%u %lld ns\n", packets, (long long)nanos.count());
  }
}
