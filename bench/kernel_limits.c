// The calls of crates/benches on Linux's own queue limit: the same line on standard output, the time on standard error.
#include <stdio.h>
#include <time.h>
#include <linux/dynamic_queue_limits.h>

unsigned long jiffies;

static long long nanoseconds(void) {
    struct timespec now;
    clock_gettime(CLOCK_MONOTONIC, &now);
    return now.tv_sec * 1000000000ll + now.tv_nsec;
}

int main(int words, char **word) {
    if (words < 2) return 64;
    const unsigned long long pairs = strtoull(word[1], NULL, 10);
    static struct dql dql;
    unsigned long long limits = 0, over = 0;
    dql_init(&dql, 4);
    const long long start = nanoseconds();
    for (unsigned long long pair = 0; pair < pairs; pair++) {
        const bool starves = pair / 64 % 2 == 0;
        jiffies = pair;
        dql_queued(&dql, starves ? 1500u << (pair % 64 / 4) : 1500u);
        over += dql_avail(&dql) < 0;
        const unsigned int in_flight = dql.num_queued - dql.num_completed;
        dql_completed(&dql, starves ? in_flight : in_flight / 4);
        limits += dql.limit;
    }
    const long long spent = nanoseconds() - start;
    printf("pairs %llu limits %llu over %llu queued %u limit %u\n", pairs, limits, over, dql.num_queued, dql.limit);
    fprintf(stderr, "%lld ns\n", spent);
    return 0;
}
