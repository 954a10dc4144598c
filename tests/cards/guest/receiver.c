/* receiver PORT FILE STAMPS: reads UDP packets, and writes `number,read` of each (CLOCK_MONOTONIC, ns) to FILE once none has come for 1.5 s.
 * At its beginning and its end it writes three lines `counter,time,counter` to STAMPS: the processor's counter, which is QEMU's virtual
 * clock in ns, before and after a reading of CLOCK_MONOTONIC. */
#include <arpa/inet.h>
#include <stdint.h>
#include <stdio.h>
#include <stdlib.h>
#include <string.h>
#include <sys/mman.h>
#include <sys/socket.h>
#include <time.h>
#include <x86intrin.h>

enum { MOST = 200000, BUFFER = 64 << 20, STAMPS = 3 };

static uint64_t now(void) {
    struct timespec time;
    clock_gettime(CLOCK_MONOTONIC, &time);
    return (uint64_t)time.tv_sec * 1000000000 + (uint64_t)time.tv_nsec;
}

static void stamp(FILE *file) {
    for (int i = 0; i < STAMPS; i++) {
        const uint64_t before = __rdtsc(), time = now(), after = __rdtsc();
        fprintf(file, "%lu,%lu,%lu\n", before, time, after);
    }
}

static void give_up_after(int in, long ms) {
    const struct timeval time = {ms / 1000, ms % 1000 * 1000};
    setsockopt(in, SOL_SOCKET, SO_RCVTIMEO, &time, sizeof time);
}

int main(int count, char **words) {
    static struct {
        uint64_t number, read;
    } packets[MOST];
    if (count != 4) return 2;
    const int in = socket(AF_INET, SOCK_DGRAM, 0), room = BUFFER;
    const struct sockaddr_in at = {AF_INET, htons((uint16_t)atoi(words[1])), {0}, {0}};
    FILE *file = fopen(words[2], "w"), *stamps = fopen(words[3], "w");
    size_t have = 0;
    memset(packets, 1, sizeof packets); // so that no page is missing later
    mlockall(MCL_CURRENT);
    setsockopt(in, SOL_SOCKET, SO_RCVBUFFORCE, &room, sizeof room);
    give_up_after(in, 15000);
    if (!file || !stamps || bind(in, (const struct sockaddr *)&at, sizeof at)) return 1;
    stamp(stamps);
    for (uint64_t bytes[25]; have < MOST && recv(in, bytes, sizeof bytes, 0) >= 8; have++) {
        packets[have].read = now();
        packets[have].number = bytes[0];
        if (have == 0) give_up_after(in, 1500);
    }
    stamp(stamps);
    for (size_t i = 0; i < have; i++) fprintf(file, "%lu,%lu\n", packets[i].number, packets[i].read);
    return fclose(file) != 0 || fclose(stamps) != 0;
}
