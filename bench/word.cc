// Turns of an instance by its state word, written by hand for comparison with crates/benches: schedule, hand to the
// list, take, the context out of its slot and back, complete. The same steps on one word, and the same counts on standard
// output; times and the rest on standard error.
//
// usage: word seq_cst|loops|kernel value|pointer TURNS
//   seq_cst   every step is sequentially consistent
//   loops     the same, and each or and each and is a loop of compare-exchanges, as the toolchain of the crates makes them
//   kernel    the orders of net/core/dev.c: READ_ONCE is relaxed, try_cmpxchg a full barrier where it wins; the handing
//             over releases and the taking acquires
//   value     the slot holds the context itself, as crates/napi_word's does
//   pointer   the slot holds a pointer to it
#include <atomic>
#include <chrono>
#include <cstdint>
#include <cstdio>
#include <cstdlib>
#include <cstring>
#include <memory>
#include <optional>
#include <thread>
#include <utility>

namespace {

using u64 = std::uint64_t;
using std::memory_order;

constexpr u64 SCHED = 1, MISSED = 2, DISABLE = 4, SCHED_THREADED = 512, QUEUED = u64{1} << 32;

// How many schedules the second thread makes at most for each cycle of the first.
constexpr u64 SCHEDULES = 1000;

struct SeqCst {
  static constexpr memory_order read = memory_order::memory_order_seq_cst, lost = read, hand = read, take = read;
  static constexpr bool loops = false;
};

struct Loops : SeqCst {
  static constexpr bool loops = true;
};

struct Kernel {
  static constexpr memory_order read = memory_order::memory_order_relaxed, lost = read;
  static constexpr memory_order hand = memory_order::memory_order_release, take = memory_order::memory_order_acquire;
  static constexpr bool loops = false;
};

// What a poll needs: the end of its ring, and the counts. As large as the contents of a context of crates/rx_ring.
struct Context {
  void* ring = nullptr;
  std::size_t capacity = 4, head = 0, tail = 0;
  u64 polls = 0, packets = 0, bytes = 0;
  bool beside = false;
};

struct Value {
  using Held = std::optional<Context>;
  static Held make() { return Context{}; }
  static void apart(Held& held) { held->beside = false; }
};

struct Pointer {
  using Held = std::unique_ptr<Context>;
  static Held make() { return std::make_unique<Context>(); }
  static void apart(Held& held) { held->beside = false; }
};

struct Tally {
  u64 polls = 0, again = 0, lost = 0;
};

template <class Order, class Slot>
struct Instance {
  alignas(128) std::atomic<u64> word{0};
  alignas(128) typename Slot::Held slot = Slot::make();

  // Replaces the word by `change` of it, and returns the old one.
  template <class Change>
  u64 exchange(Change change) {
    u64 seen = word.load();
    while (!word.compare_exchange_weak(seen, change(seen))) {
    }
    return seen;
  }

  void hand() {
    if constexpr (Order::loops) {
      exchange([](u64 seen) { return seen | QUEUED; });
    } else {
      word.fetch_or(QUEUED, Order::hand);
    }
  }

  void schedule(Tally& tally) {
    u64 seen = word.load(Order::read);
    if (seen & DISABLE) return;
    const u64 next = seen & SCHED ? seen | MISSED : seen | SCHED;
    if (!word.compare_exchange_strong(seen, next, memory_order::memory_order_seq_cst, Order::lost)) {
      ++tally.lost;
    } else if (!(seen & SCHED)) {
      hand();
    }
  }

  bool take() {
    if constexpr (Order::loops) {
      return exchange([](u64 seen) { return seen & ~QUEUED; }) & QUEUED;
    } else {
      return word.fetch_and(~QUEUED, Order::take) & QUEUED;
    }
  }

  void complete(Tally& tally) {
    u64 seen = word.load(Order::read);
    for (int tries = 0; tries < 2; ++tries) {
      const u64 next = seen & MISSED ? seen & ~(MISSED | SCHED_THREADED) : seen & ~(SCHED | SCHED_THREADED);
      if (word.compare_exchange_strong(seen, next, memory_order::memory_order_seq_cst, Order::lost)) {
        if (seen & MISSED) {
          ++tally.again;
          hand();
        }
        return;
      }
      ++tally.lost;
    }
    hand();
  }

  void turn(Tally& tally) {
    schedule(tally);
    if (take()) {
      ++tally.polls;
      typename Slot::Held context = std::exchange(slot, typename Slot::Held{});
      Slot::apart(context);
      slot = std::move(context);
      complete(tally);
    }
  }

  Tally turns(u64 count) {
    Tally tally;
    for (u64 k = 0; k < count; ++k) turn(tally);
    return tally;
  }

  Tally turns_beside(u64 count) {
    std::atomic<bool> over{false};
    std::thread scheduler([this, count, &over] {
      Tally tally;
      for (u64 k = 0; k < count * SCHEDULES && !over.load(); ++k) schedule(tally);
    });
    const Tally tally = turns(count);
    over.store(true);
    scheduler.join();
    return tally;
  }
};

using Clock = std::chrono::steady_clock;

long long nanos(Clock::duration spent) {
  return std::chrono::duration_cast<std::chrono::nanoseconds>(spent).count();
}

template <class Order, class Slot>
int run(u64 turns) {
  Instance<Order, Slot> instance;
  auto start = Clock::now();
  const Tally one = instance.turns(turns);
  const long long alone = nanos(Clock::now() - start);
  start = Clock::now();
  const Tally two = instance.turns_beside(turns);
  const long long beside = nanos(Clock::now() - start);
  using Wide = unsigned long long;
  std::printf("one thread: turns %llu polls %llu again %llu lost %llu\n", Wide{turns}, Wide{one.polls}, Wide{one.again},
              Wide{one.lost});
  std::printf("two threads: turns %llu\n", Wide{turns});
  std::fprintf(stderr, "one %lld ns\ntwo %lld ns polls %llu again %llu lost %llu\n", alone, beside, Wide{two.polls},
               Wide{two.again}, Wide{two.lost});
  return 0;
}

}  // namespace

int main(int words, char** word) {
  if (words < 4) return 64;
  const bool kernel = !std::strcmp(word[1], "kernel"), pointer = !std::strcmp(word[2], "pointer");
  const u64 turns = std::strtoull(word[3], nullptr, 10);
  if (!std::strcmp(word[1], "loops")) return pointer ? run<Loops, Pointer>(turns) : run<Loops, Value>(turns);
  if (kernel) return pointer ? run<Kernel, Pointer>(turns) : run<Kernel, Value>(turns);
  return pointer ? run<SeqCst, Pointer>(turns) : run<SeqCst, Value>(turns);
}
