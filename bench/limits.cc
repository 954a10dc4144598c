// A plain fold over the rules of dynamic queue limits, written from the rules (docs/RULES.md) for comparison: the same calls as
// crates/benches, the same line on standard output, the time on standard error.
#include <chrono>
#include <cstdint>
#include <cstdio>
#include <cstdlib>

namespace {

using u32 = std::uint32_t;
using u64 = std::uint64_t;

u32 positive(u32 a, u32 b) {
  const u32 difference = a - b;
  return static_cast<std::int32_t>(difference) > 0 ? difference : 0;
}

struct Limit {
  u32 queued_total = 0, completed_total = 0, last_object = 0, limit;
  u32 previous_queued = 0, previous_over = 0, previous_last_object = 0;
  u32 lowest_slack = 0xffffffffu;
  u64 slack_start;
  u32 least, greatest;
  u64 hold;

  Limit(u32 least_limit, u32 greatest_limit, u64 hold_time, u64 now)
      : limit(least_limit), slack_start(now), least(least_limit), greatest(greatest_limit), hold(hold_time) {}

  u32 in_flight() const { return queued_total - completed_total; }
  std::int64_t avail() const { return static_cast<std::int32_t>(limit + completed_total - queued_total); }

  bool queued(u32 count) {
    if (count > 268435455u || in_flight() + count > 1073741823u) return false;
    last_object = count;
    queued_total += count;
    return true;
  }

  bool completed(u32 count, u64 now) {
    if (count > in_flight()) return false;
    const u32 total = completed_total + count;
    u32 over = in_flight() > limit ? in_flight() - limit : 0;
    const bool left = in_flight() != count;
    const bool previous_left = previous_queued != completed_total;
    const bool all_previous = static_cast<std::int32_t>(total - previous_queued) >= 0;
    u32 aim = limit;
    if ((over && !left) || (previous_over && all_previous)) {
      aim += positive(total, previous_queued) + previous_over;
      slack_start = now;
      lowest_slack = 0xffffffffu;
    } else if (left && previous_left && !all_previous) {
      u32 slack = positive(limit + previous_over, 2 * count);
      if (previous_over) {
        const u32 last = positive(previous_last_object, previous_over);
        if (last > slack) slack = last;
      }
      if (slack < lowest_slack) lowest_slack = slack;
      if (now > slack_start && now - slack_start > hold) {
        aim = positive(limit, lowest_slack);
        slack_start = now;
        lowest_slack = 0xffffffffu;
      }
    }
    if (aim > greatest) aim = greatest;
    if (aim < least) aim = least;
    if (aim != limit) over = 0;
    limit = aim;
    previous_over = over;
    previous_last_object = last_object;
    completed_total = total;
    previous_queued = queued_total;
    return true;
  }
};

}  // namespace

int main(int words, char** word) {
  if (words < 2) return 64;
  const u64 pairs = std::strtoull(word[1], nullptr, 10);
  Limit dql(0, 1879048192u, 4, 0);
  u64 limits = 0, over = 0;
  const auto start = std::chrono::steady_clock::now();
  for (u64 pair = 0; pair < pairs; ++pair) {
    const bool starves = pair / 64 % 2 == 0;
    if (!dql.queued(starves ? 1500u << (pair % 64 / 4) : 1500u)) return 1;
    over += dql.avail() < 0;
    if (!dql.completed(starves ? dql.in_flight() : dql.in_flight() / 4, pair)) return 1;
    limits += dql.limit;
  }
  const auto spent = std::chrono::steady_clock::now() - start;
  std::printf("pairs %llu limits %llu over %llu queued %u limit %u\n", static_cast<unsigned long long>(pairs),
              static_cast<unsigned long long>(limits), static_cast<unsigned long long>(over), dql.queued_total, dql.limit);
  std::fprintf(stderr, "%lld ns\n",
               static_cast<long long>(std::chrono::duration_cast<std::chrono::nanoseconds>(spent).count()));
  return 0;
}
