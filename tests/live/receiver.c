/* receiver PORT USE_NS FILTER FILE: reads UDP packets of the sender, works USE_NS on each, and writes `number,read,sent` of each
 * to FILE (CLOCK_MONOTONIC, in ns) once none has arrived for 300 ms. It prints `ready` on standard output when it listens,
 * and gives up if none arrives for a minute. A socket filter of FILTER multiplications makes the kernel's work on each packet
 * more expensive. */
#define _GNU_SOURCE
#include <arpa/inet.h>
#include <stdint.h>
#include <stdio.h>
#include <stdlib.h>
#include <string.h>
#include <sys/socket.h>
#include <time.h>

#include <linux/filter.h>

enum { MOST = 1 << 20, BUFFER = 64 << 20, MOST_FILTER = 4000 };

static uint64_t now(void) {
    struct timespec time;
    clock_gettime(CLOCK_MONOTONIC, &time);
    return (uint64_t)time.tv_sec * 1000000000 + (uint64_t)time.tv_nsec;
}

static void give_up_after(int in, long us) {
    const struct timeval time = {us / 1000000, us % 1000000};
    setsockopt(in, SOL_SOCKET, SO_RCVTIMEO, &time, sizeof time);
}

static int add_filter(int in, int length) {
    static struct sock_filter code[MOST_FILTER + 2];
    if (length > MOST_FILTER) return -1;
    unsigned short at = 0;
    code[at++] = (struct sock_filter)BPF_STMT(BPF_LD | BPF_IMM, 3);
    while (at <= length) code[at++] = (struct sock_filter)BPF_STMT(BPF_ALU | BPF_MUL | BPF_K, 5);
    code[at++] = (struct sock_filter)BPF_STMT(BPF_RET | BPF_K, 0xffff);
    const struct sock_fprog filter = {at, code};
    return setsockopt(in, SOL_SOCKET, SO_ATTACH_FILTER, &filter, sizeof filter);
}

int main(int count, char **words) {
    static struct {
        uint64_t number, read, sent;
    } packets[MOST];
    if (count != 5) return 2;
    const int in = socket(AF_INET, SOCK_DGRAM, 0), room = BUFFER;
    const struct sockaddr_in at = {AF_INET, htons((uint16_t)atoi(words[1])), {0}, {0}};
    const uint64_t use = (uint64_t)atoll(words[2]);
    size_t have = 0;
    memset(packets, 1, sizeof packets); // so that no page is missing later
    setsockopt(in, SOL_SOCKET, SO_RCVBUFFORCE, &room, sizeof room);
    give_up_after(in, 60000000);
    if (add_filter(in, atoi(words[3]))) return 1;
    if (bind(in, (const struct sockaddr *)&at, sizeof at)) return 1;
    puts("ready");
    fflush(stdout);
    for (uint64_t bytes[25]; have < MOST && recv(in, bytes, sizeof bytes, 0) >= 16; have++) {
        packets[have].read = now();
        packets[have].number = bytes[0];
        packets[have].sent = bytes[1];
        if (have == 0) give_up_after(in, 300000);
        while (now() < packets[have].read + use) {}
    }
    FILE *out = fopen(words[4], "w");
    if (!out) return 1;
    for (size_t i = 0; i < have; i++) fprintf(out, "%lu,%lu,%lu\n", packets[i].number, packets[i].read, packets[i].sent);
    return fclose(out) != 0;
}
