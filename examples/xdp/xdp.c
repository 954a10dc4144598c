/* A driver in user space over an AF_XDP socket: rings of descriptors in memory that it shares with the kernel, one of which
 * reports what the kernel has sent. Its host 10.99.0.2 answers ARP, pings and UDP to port 7, in the frame that was received.
 *
 * xdp DEVICE [--one] [--budget 1..65535]; --one: with one thread. ../driver/driver.h has the rest. */
#define _GNU_SOURCE
#include "answer.h"
#include "driver.h"
#include <linux/bpf.h>
#include <linux/if_xdp.h>
#include <net/if.h>
#include <sys/mman.h>
#include <sys/socket.h>
#include <sys/syscall.h>

enum { FRAMES = 2048, FRAME = 2048 }; /* each ring has room for every frame, so none is ever full */

/* A ring that is shared with the kernel, which has its other end; `at` is our position. */
struct ring {
    uint32_t *producer, *consumer, *flags, at;
    void *places;
};

static struct device device;
static uint8_t *memory;
static struct ring fill, completion, rx, tx;
static struct xdp_desc waiting[FRAMES]; /* from index `first` up to `behind`: the replies that wait until the limit allows them */
static uint64_t first, behind;
static unsigned long kicks;

/* ---- The socket. */

static int bpf(int command, union bpf_attr *attributes) {
    const int said = (int)syscall(SYS_bpf, command, attributes, sizeof *attributes);
    if (said < 0) die("bpf");
    return said;
}

/* Attaches a program to the device that passes received packets to the socket. It stays attached until this process ends. */
static void attach(unsigned index) {
    union bpf_attr map = {.map_type = BPF_MAP_TYPE_XSKMAP, .key_size = 4, .value_size = 4, .max_entries = 1};
    const int file = bpf(BPF_MAP_CREATE, &map);
    const struct bpf_insn program[] = {
        {.code = BPF_LDX | BPF_MEM | BPF_W, .dst_reg = 2, .src_reg = 1, .off = offsetof(struct xdp_md, rx_queue_index)},
        {.code = BPF_LD | BPF_DW | BPF_IMM, .dst_reg = 1, .src_reg = BPF_PSEUDO_MAP_FD, .imm = file}, {0},
        {.code = BPF_ALU64 | BPF_MOV | BPF_K, .dst_reg = 3, .imm = XDP_PASS},
        {.code = BPF_JMP | BPF_CALL, .imm = BPF_FUNC_redirect_map}, {.code = BPF_JMP | BPF_EXIT}};
    union bpf_attr load = {.prog_type = BPF_PROG_TYPE_XDP, .insn_cnt = sizeof program / sizeof *program, .insns = (uintptr_t)program, .license = (uintptr_t)""};
    union bpf_attr link = {.link_create = {.prog_fd = (uint32_t)bpf(BPF_PROG_LOAD, &load), .target_ifindex = index, .attach_type = BPF_XDP}};
    bpf(BPF_LINK_CREATE, &link);
    uint32_t key = 0, value = (uint32_t)device.event;
    union bpf_attr put = {.map_fd = (uint32_t)file, .key = (uintptr_t)&key, .value = (uintptr_t)&value};
    bpf(BPF_MAP_UPDATE_ELEM, &put);
}

static struct ring map_ring(const struct xdp_ring_offset *offsets, size_t size, off_t which) {
    uint8_t *at = mmap(NULL, offsets->desc + FRAMES * size, PROT_READ | PROT_WRITE, MAP_SHARED | MAP_POPULATE, device.event, which);
    if (at == MAP_FAILED) die("ring");
    return (struct ring){(uint32_t *)(at + offsets->producer), (uint32_t *)(at + offsets->consumer), (uint32_t *)(at + offsets->flags), 0, at + offsets->desc};
}

/* Gives a frame back to the kernel, which may fill it again. */
static void refill(uint64_t address) { ((uint64_t *)fill.places)[fill.at++ % FRAMES] = address & ~(uint64_t)(FRAME - 1); }

static void publish(uint32_t *end, uint32_t at) { __atomic_store_n(end, at, __ATOMIC_RELEASE); }
static uint32_t produced(const struct ring *ring) { return __atomic_load_n(ring->producer, __ATOMIC_ACQUIRE) - ring->at; }

static void open_socket(const char *name) {
    static const int rings[] = {XDP_RX_RING, XDP_TX_RING, XDP_UMEM_FILL_RING, XDP_UMEM_COMPLETION_RING}, size = FRAMES;
    struct xdp_mmap_offsets offsets;
    socklen_t length = sizeof offsets;
    memory = mmap(NULL, (size_t)FRAMES * FRAME, PROT_READ | PROT_WRITE, MAP_PRIVATE | MAP_ANONYMOUS | MAP_POPULATE, -1, 0);
    if (memory == MAP_FAILED || (device.event = socket(AF_XDP, SOCK_RAW, 0)) < 0) die("AF_XDP");
    struct xdp_umem_reg frames = {.addr = (uintptr_t)memory, .len = (uint64_t)FRAMES * FRAME, .chunk_size = FRAME};
    if (setsockopt(device.event, SOL_XDP, XDP_UMEM_REG, &frames, sizeof frames)) die("memory");
    for (int i = 0; i < 4; i++) if (setsockopt(device.event, SOL_XDP, rings[i], &size, sizeof size)) die("ring");
    if (getsockopt(device.event, SOL_XDP, XDP_MMAP_OFFSETS, &offsets, &length)) die("offsets");
    rx = map_ring(&offsets.rx, sizeof(struct xdp_desc), XDP_PGOFF_RX_RING), tx = map_ring(&offsets.tx, sizeof(struct xdp_desc), XDP_PGOFF_TX_RING);
    fill = map_ring(&offsets.fr, 8, XDP_UMEM_PGOFF_FILL_RING), completion = map_ring(&offsets.cr, 8, XDP_UMEM_PGOFF_COMPLETION_RING);
    for (uint64_t i = 0; i < FRAMES; i++) refill(i * FRAME);
    publish(fill.producer, fill.at);
    struct sockaddr_xdp address = {.sxdp_family = AF_XDP, .sxdp_ifindex = if_nametoindex(name), .sxdp_flags = XDP_USE_NEED_WAKEUP | XDP_COPY};
    if (bind(device.event, (struct sockaddr *)&address, sizeof address)) die(name);
    attach(address.sxdp_ifindex);
}

/* ---- The card. */

static void mask(struct device *at) { arm(at, EPOLL_CTL_MOD, false); }
static void unmask(struct device *at) { arm(at, EPOLL_CTL_MOD, true); }
static uint32_t look(struct device *at) { return (void)at, produced(&rx); }

/* Completes what the kernel has sent, as its completion ring says; returns whether there was any. */
static bool complete(void) {
    const uint32_t count = produced(&completion);
    for (uint32_t i = 0; i < count; i++) refill(((uint64_t *)completion.places)[completion.at++ % FRAMES]);
    publish(completion.consumer, completion.at);
    if (count) completed(&device, count);
    return count > 0;
}

/* Makes the kernel send: it sends a few frames for each call, or none if it has too many of this socket in flight. */
static void kick(void) {
    uint32_t before;
    do {
        before = __atomic_load_n(tx.consumer, __ATOMIC_ACQUIRE);
        if (before == tx.at || !(__atomic_load_n(tx.flags, __ATOMIC_RELAXED) & XDP_RING_NEED_WAKEUP)) return;
        kicks++;
    } while ((sendto(device.event, NULL, 0, MSG_DONTWAIT, NULL, 0) >= 0 || errno == EAGAIN) && __atomic_load_n(tx.consumer, __ATOMIC_ACQUIRE) != before);
}

/* Passes frames to the kernel as the limit allows; tries again if the kernel has completed some meanwhile. */
static void give(struct device *at) {
    do {
        while (first != behind && may_send(at, waiting[first % FRAMES].len)) ((struct xdp_desc *)tx.places)[tx.at++ % FRAMES] = waiting[first++ % FRAMES];
        publish(tx.producer, tx.at);
        kick();
    } while (complete() && first != behind);
    publish(fill.producer, fill.at);
}

static uint32_t fetch(struct device *at, uint32_t most) {
    const uint32_t ready = produced(&rx), count = ready < most ? ready : most;
    for (uint32_t i = 0; i < count; i++) {
        struct xdp_desc got = ((struct xdp_desc *)rx.places)[rx.at++ % FRAMES];
        if ((got.len = answer(memory + got.addr, got.len))) device.answered++, waiting[behind++ % FRAMES] = got;
        else refill(got.addr);
    }
    publish(rx.consumer, rx.at);
    give(at);
    return count;
}

/* ---- The program. */

static void print(void) {
    struct xdp_statistics card;
    socklen_t length = sizeof card;
    for (int ms = 0; device.done != device.sent && ms < STUCK_MS; ms++) usleep(1000), give(&device);
    if (getsockopt(device.event, SOL_XDP, XDP_STATISTICS, &card, &length)) die("statistics");
    close_device(&device);
    printf("kicks %lu left %u | the socket: dropped %llu ring_full %llu no_buffer %llu\n", kicks, produced(&rx), (unsigned long long)card.rx_dropped,
        (unsigned long long)card.rx_ring_full, (unsigned long long)card.rx_fill_ring_empty_descs);
}

int main(int count, char **words) {
    pthread_t thread;
    bool usual = count >= 2;
    for (int i = 2; i < count; i++) {
        if (!strcmp(words[i], "--one")) one_thread = true;
        else usual &= !strcmp(words[i], "--budget") && i + 1 < count && set(&budget, words[++i], 1, 65535);
    }
    if (!usual) return fputs("usage: xdp DEVICE [--one] [--budget 1..65535]\n", stderr), 64;
    open_driver();
    open_socket(words[1]);
    device.mask = mask, device.unmask = unmask, device.look = look, device.fetch = fetch, device.give = give;
    open_device(&device, FRAMES, 0);
    if (!one_thread && (errno = pthread_create(&thread, NULL, interrupt_thread, NULL))) die("thread");
    poller("xdp");
    atomic_store(&ended, true);
    if (!one_thread) pthread_join(thread, NULL);
    print();
    must("free", fq_free(&driver.handle), FQ_OK);
    return fflush(stdout) ? 1 : 0;
}
