/* sender MAC DEVICE KIND COUNT PERIOD SLOTS FILL PERMILLE SEED: fills the transmit ring of a virtio card COUNT times, once per PERIOD us; the
 * card sends the frames later, by its own timer, while this sleeps. KIND p: SLOTS frames, of which the first FILL and a share of the others
 * go to another address, so that they are pauses, and PERMILLE of 1000 go to MAC. KIND b: 1 to 2 * SLOTS - 1 frames, all to MAC. Each frame
 * to MAC is a UDP packet with its number. */
#define _GNU_SOURCE
#include <arpa/inet.h>
#include <linux/if_packet.h>
#include <net/ethernet.h>
#include <net/if.h>
#include <stdint.h>
#include <stdio.h>
#include <stdlib.h>
#include <string.h>
#include <sys/mman.h>
#include <sys/socket.h>
#include <time.h>

enum { MOST = 235, SIZE = 142, HEADERS = 42, FROM = 1024, TO = 9000 };

static unsigned char frames[MOST][SIZE];
static struct mmsghdr all[MOST];
static struct iovec parts[MOST];
static const unsigned char other[6] = {0x52, 0x54, 0, 0xff, 0xff, 0x01}, own[6] = {0x52, 0x54, 0, 0xff, 0xff, 0x02};

static uint64_t now(void) {
    struct timespec time;
    clock_gettime(CLOCK_MONOTONIC, &time);
    return (uint64_t)time.tv_sec * 1000000000 + (uint64_t)time.tv_nsec;
}

static void make(int place) {
    static const unsigned char headers[28] = {0x45, 0,  0, 128, 0,  0, 0x40, 0, 64,        17,         0,         0,         10, 99,
                                              0,    1,  10, 99, 0,  2, FROM >> 8, FROM & 255, TO >> 8, TO & 255, 0, 108, 0,  0};
    unsigned char *frame = frames[place];
    uint32_t sum = 0;
    memcpy(frame + 6, own, 6);
    frame[12] = 8;
    memcpy(frame + 14, headers, sizeof headers);
    for (int i = 0; i < 20; i += 2) sum += (uint32_t)frame[14 + i] << 8 | frame[15 + i];
    sum = ~((sum & 0xffff) + (sum >> 16));
    frame[24] = (unsigned char)(sum >> 8);
    frame[25] = (unsigned char)sum;
    parts[place] = (struct iovec){frame, SIZE};
    all[place].msg_hdr.msg_iov = parts + place;
    all[place].msg_hdr.msg_iovlen = 1;
}

static int open_card(const char *name) {
    const int out = socket(AF_PACKET, SOCK_RAW, 0), room = 8 << 20, yes = 1;
    const struct sockaddr_ll to = {.sll_family = AF_PACKET, .sll_ifindex = (int)if_nametoindex(name)};
    setsockopt(out, SOL_SOCKET, SO_SNDBUFFORCE, &room, sizeof room);
    setsockopt(out, SOL_PACKET, PACKET_QDISC_BYPASS, &yes, sizeof yes);
    return bind(out, (const void *)&to, sizeof to) ? -1 : out;
}

int main(int words, char **word) {
    unsigned char mac[6];
    if (words != 10 || sscanf(word[1], "%hhx:%hhx:%hhx:%hhx:%hhx:%hhx", mac, mac + 1, mac + 2, mac + 3, mac + 4, mac + 5) != 6) return 2;
    const int paced = word[3][0] == 'p', count = atoi(word[4]), slots = atoi(word[6]), fill = atoi(word[7]), share = atoi(word[8]);
    const uint64_t period = (uint64_t)atoll(word[5]) * 1000;
    const int out = open_card(word[2]);
    uint64_t number = (uint64_t)atoi(word[9]) << 20, failed = 0;
    if (out < 0) return 1;
    srand48(atoi(word[9]));
    for (int i = 0; i < MOST; i++) make(i);
    mlockall(MCL_CURRENT);
    uint64_t at = now() + 20000000;
    for (int i = 0; i < count; i++, at += period) {
        int many = paced ? slots : 1 + (int)(drand48() * (2 * slots - 1));
        if (many > MOST) many = MOST;
        for (int k = 0; k < many; k++) {
            const int real = !paced || (k >= fill && drand48() * 1000 < share);
            memcpy(frames[k], real ? mac : other, 6);
            if (real) memcpy(frames[k] + HEADERS, &number, 8), number++;
        }
        const struct timespec then = {(time_t)(at / 1000000000), (long)(at % 1000000000)};
        clock_nanosleep(CLOCK_MONOTONIC, TIMER_ABSTIME, &then, 0);
        const int sent = sendmmsg(out, all, (unsigned)many, 0);
        failed += (uint64_t)(sent < 0 ? many : many - sent);
    }
    printf("sent %lu failed %lu\n", number & 0xfffff, failed);
    return failed != 0;
}
