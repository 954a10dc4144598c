// Passes packets from one thread to another through a bounded queue with a mutex and two condition variables, for comparison
// with crates/benches: the same packets, and the same counts on standard output; the time on standard error.
//
// usage: pair PACKETS
#include <array>
#include <chrono>
#include <condition_variable>
#include <cstdint>
#include <cstdio>
#include <cstdlib>
#include <mutex>
#include <thread>

namespace {

using u64 = std::uint64_t;

constexpr std::size_t PLACES = 1024, WEIGHT = 64;

struct Packet {
  u64 number;
  std::uint32_t bytes;
};

class Queue {
 public:
  void put(Packet packet) {
    std::unique_lock<std::mutex> lock(mutex_);
    has_room_.wait(lock, [this] { return tail_ - head_ < PLACES; });
    places_[tail_++ % PLACES] = packet;
    lock.unlock();
    has_packets_.notify_one();
  }

  // Takes at most the weight; waits for one packet.
  std::size_t poll(std::array<Packet, WEIGHT>& batch) {
    std::unique_lock<std::mutex> lock(mutex_);
    has_packets_.wait(lock, [this] { return tail_ != head_; });
    std::size_t count = 0;
    while (count < WEIGHT && head_ != tail_) batch[count++] = places_[head_++ % PLACES];
    lock.unlock();
    has_room_.notify_one();
    return count;
  }

 private:
  std::mutex mutex_;
  std::condition_variable has_room_, has_packets_;
  std::array<Packet, PLACES> places_{};
  std::size_t head_ = 0, tail_ = 0;
};

}  // namespace

int main(int words, char** word) {
  if (words != 2) return 64;
  const u64 packets = std::strtoull(word[1], nullptr, 10);
  const auto start = std::chrono::steady_clock::now();
  Queue queue;
  std::thread interrupt([&] {
    for (u64 number = 0; number < packets; number++) queue.put({number, 60});
  });
  u64 in_turn = 0, bytes = 0;
  std::array<Packet, WEIGHT> batch;
  for (u64 polled = 0; polled < packets;) {
    const std::size_t count = queue.poll(batch);
    for (std::size_t k = 0; k < count; k++) {
      in_turn += batch[k].number == in_turn;
      bytes += batch[k].bytes;
    }
    polled += count;
  }
  interrupt.join();
  const std::chrono::nanoseconds spent = std::chrono::steady_clock::now() - start;
  std::printf("mutex in turn %llu bytes %llu\n", (unsigned long long)in_turn, (unsigned long long)bytes);
  std::fprintf(stderr, "mutex %lld ns\n", (long long)spent.count());
}
