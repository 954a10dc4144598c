/* sender ADDRESS PORT PERIOD_US BURST COUNT PACE_NS GSO KIND: sends COUNT bursts of UDP packets, of which each holds its number
 * and when it is sent (CLOCK_MONOTONIC, in ns).
 * KIND: `fixed`, a burst of BURST packets each PERIOD_US; `poisson`, the same at Poisson times of that mean distance; `mixed`, bursts
 * of 1 to 2 * BURST packets each PERIOD_US. Within a burst a call is made each PACE_NS, or as soon as the one before has returned if that is
 * later, so the times don't depend on what becomes of the packets. With GSO above 1 a call sends up to GSO packets (UDP_SEGMENT).
 * The last line is `sent N failed N latest NS`, with how late the latest burst began. */
#define _GNU_SOURCE
#include <arpa/inet.h>
#include <math.h>
#include <stdint.h>
#include <stdio.h>
#include <stdlib.h>
#include <string.h>
#include <sys/socket.h>
#include <time.h>

enum { SIZE = 100, MOST_SEGMENTS = 64, UDP_SEGMENT_OPTION = 103, SPIN_NS = 60000, EARLY_NS = 50000 };

static uint64_t now(void) {
    struct timespec time;
    clock_gettime(CLOCK_MONOTONIC, &time);
    return (uint64_t)time.tv_sec * 1000000000 + (uint64_t)time.tv_nsec;
}

/* Sleeps until shortly before that time, and spins for the rest, because a sleep ends late. */
static void wait_until(uint64_t when) {
    if (when > now() + SPIN_NS) {
        const uint64_t early = when - EARLY_NS;
        const struct timespec time = {(time_t)(early / 1000000000), (long)(early % 1000000000)};
        clock_nanosleep(CLOCK_MONOTONIC, TIMER_ABSTIME, &time, NULL);
    }
    while (now() < when) {}
}

int main(int count, char **words) {
    if (count != 9) return 2;
    const int out = socket(AF_INET, SOCK_DGRAM, 0), segment = SIZE, room = 8 << 20, yes = 1, gso = atoi(words[7]);
    const struct sockaddr_in to = {AF_INET, htons((uint16_t)atoi(words[2])), {inet_addr(words[1])}, {0}};
    const uint64_t period = (uint64_t)atoll(words[3]) * 1000, pace = (uint64_t)atoll(words[6]);
    const int burst = atoi(words[4]), bursts = atoi(words[5]);
    const char kind = words[8][0];
    static char bytes[SIZE * MOST_SEGMENTS];
    if (gso < 1 || gso > MOST_SEGMENTS) return 2;
    srand48(1);
    setsockopt(out, SOL_SOCKET, SO_BROADCAST, &yes, sizeof yes);
    setsockopt(out, SOL_SOCKET, SO_SNDBUFFORCE, &room, sizeof room);
    if (gso > 1 && setsockopt(out, IPPROTO_UDP, UDP_SEGMENT_OPTION, &segment, sizeof segment)) return 1;
    if (connect(out, (const struct sockaddr *)&to, sizeof to)) return 1;
    uint64_t when = now() + 20000000, number = 0, latest = 0, failed = 0;
    for (int i = 0; i < bursts; i++) {
        when += kind == 'p' ? (uint64_t)(-log(1 - drand48()) * (double)period) : period;
        wait_until(when);
        const uint64_t late = now() - when;
        latest = late > latest ? late : latest;
        uint64_t next = when;
        for (int left = kind == 'm' ? 1 + (int)(drand48() * 2 * burst) : burst; left > 0; next += pace) {
            const int some = left < gso ? left : gso;
            while (now() < next) {}
            for (int k = 0; k < some; k++, number++) memcpy(bytes + k * SIZE, (uint64_t[]){number, now()}, 16);
            if (send(out, bytes, (size_t)(some * SIZE), 0) < 0) failed++;
            left -= some;
        }
    }
    printf("sent %lu failed %lu latest %lu\n", number, failed, latest);
    return 0;
}
