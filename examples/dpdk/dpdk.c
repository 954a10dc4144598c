/* DPDK's ports polled under NAPI's rules; each is a host 10.99.0.2 that answers ARP, pings and UDP to port 7 in the frame that was
 * received. DPDK frees a frame when the card has completed it.
 *
 * dpdk [EAL's words] -- napi|one|busy|power [--budget 1..65535] [--min BYTES]
 *
 * --min: what a card may hold at least, 0 at first. One that frees what it sent only as its ring fills would stop at less for ever.
 * napi: as ../driver/driver.h has it; one: with one thread. Beside them busy: bursts for ever; power: as DPDK's l3fwd-power does,
 * bursts until for long none gave anything, then sleep until an interrupt. */
#define _GNU_SOURCE
#include "answer.h"
#include "driver.h"
#include <rte_cycles.h>
#include <rte_eal.h>
#include <rte_ethdev.h>
#include <rte_lcore.h>
#include <rte_mbuf.h>

enum { RING = 512, WAITING = 1024, MBUFS = 8191, BURST = 32, QUIET = 10, SLEEPY = 300 };

struct port {
    struct device device;
    uint16_t id;
    bool switches; /* whether its DPDK driver can turn the interrupt on and off; if not, only epoll can */
    struct rte_mbuf *seen[BURST], *waiting[WAITING];
    uint16_t seens; /* packets that a look took from the card, for the next fetch */
    uint64_t first, let, behind; /* the limit has allowed the answers from first on, those from let on wait for it, and the
                                  * next one goes to `behind` */
    uint32_t freed;
    unsigned long dropped;
};

static struct port ports[DEVICES];
static struct rte_mempool *frames, *heads;
static uint32_t least;
static unsigned long sleeps;

/* ---- Sending. An answer is a header followed by the bytes that were received. */

static void freed(void *bytes, void *received) {
    (void)bytes;
    ports[((struct rte_mbuf *)received)->port].freed++;
    rte_pktmbuf_free(received);
}

static void use(struct port *port, struct rte_mbuf *got) {
    const uint32_t length = got->nb_segs == 1 ? answer(rte_pktmbuf_mtod(got, uint8_t *), got->pkt_len) : 0;
    struct rte_mbuf *head = length && port->behind - port->first < WAITING ? rte_pktmbuf_alloc(heads) : NULL;
    uint16_t room = got->buf_len;
    struct rte_mbuf_ext_shared_info *shared = head ? rte_pktmbuf_ext_shinfo_init_helper(got->buf_addr, &room, freed, got) : NULL;
    if (!shared) {
        port->dropped += length > 0;
        rte_pktmbuf_free(head), rte_pktmbuf_free(got);
        return;
    }
    rte_pktmbuf_attach_extbuf(head, got->buf_addr, rte_mbuf_iova_get(got), room, shared);
    head->data_off = got->data_off;
    head->data_len = (uint16_t)length, head->pkt_len = length;
    port->waiting[port->behind++ % WAITING] = head;
    port->device.answered++;
}

/* Passes frames to the card as the limit allows; tries again if the card has completed some meanwhile. */
static void give(struct device *device) {
    struct port *port = (struct port *)device;
    do {
        if (port->freed) completed(device, port->freed), port->freed = 0;
        for (; port->let != port->behind && may_send(device, port->waiting[port->let % WAITING]->pkt_len); port->let++) {}
        for (uint16_t given = 1; given && port->first != port->let; port->first += given) {
            const uint64_t rest = port->let - port->first, straight = WAITING - port->first % WAITING;
            given = rte_eth_tx_burst(port->id, 0, port->waiting + port->first % WAITING, (uint16_t)(rest < straight ? rest : straight));
        }
        rte_eth_tx_done_cleanup(port->id, 0, 0); /* some drivers free completed frames late, and have this call for it */
    } while (port->freed);
}

/* ---- The card. */

static void mask(struct device *device) {
    struct port *port = (struct port *)device;
    if (port->switches && rte_eth_dev_rx_intr_disable(port->id, 0)) die("mask");
    arm(device, EPOLL_CTL_MOD, false);
}

/* Unmasks the card's interrupt. Looks and fetches after this find the packets of events that were reported until here. */
static void unmask(struct device *device) {
    struct port *port = (struct port *)device;
    if (port->switches && ((void)!read(device->event, &(uint64_t){0}, 8), rte_eth_dev_rx_intr_enable(port->id, 0))) die("unmask");
    arm(device, EPOLL_CTL_MOD, true);
}

/* Some DPDK drivers can't say how many packets there are, but each of them can return some packets. */
static uint32_t look(struct device *device) {
    struct port *port = (struct port *)device;
    if (!port->seens) port->seens = rte_eth_rx_burst(port->id, 0, port->seen, BURST);
    return port->seens;
}

static uint32_t fetch(struct device *device, uint32_t most) {
    struct port *port = (struct port *)device;
    struct rte_mbuf *got[WEIGHT];
    uint32_t count = 0;
    for (; count < port->seens && count < most; count++) use(port, port->seen[count]);
    memmove(port->seen, port->seen + count, (port->seens - count) * sizeof *port->seen);
    port->seens -= (uint16_t)count;
    const uint16_t more = count < most ? rte_eth_rx_burst(port->id, 0, got, (uint16_t)(most - count)) : 0;
    for (uint16_t i = 0; i < more; i++) use(port, got[i]);
    give(device);
    return count + more;
}

/* ---- Without NAPI, for comparison. */

static bool bursts(void) {
    bool any = false;
    for (uint32_t i = 0; i < count_of_devices; i++) {
        any |= take_from(devices[i], BURST) > 0;
    }
    return any;
}

static void sleep_until_interrupt(void) {
    struct epoll_event got[DEVICES + 1];
    for (uint32_t i = 0; i < count_of_devices; i++) unmask(devices[i]);
    sleeps++;
    if (!bursts()) devices[0]->interrupts += epoll_wait(card_events, got, DEVICES + 1, 100) > 0;
    for (uint32_t i = 0; i < count_of_devices; i++) mask(devices[i]);
}

static void poll_busy(bool power) {
    fputs("dpdk: on\n", stderr);
    for (unsigned idle = 0; atomic_load(&wanted) != END;) {
        idle = bursts() ? 0 : idle + 1;
        if (power && idle > SLEEPY) sleep_until_interrupt(), idle = 0;
        else if (power && idle > QUIET) rte_delay_us_block(1);
    }
}

/* ---- The program. */

static void open_port(struct port *port) {
    const struct rte_eth_conf conf = {.intr_conf.rxq = 1};
    if (rte_eth_dev_configure(port->id, 1, 1, &conf) || rte_eth_rx_queue_setup(port->id, 0, RING, SOCKET_ID_ANY, NULL, frames) ||
        rte_eth_tx_queue_setup(port->id, 0, RING, SOCKET_ID_ANY, NULL) || rte_eth_dev_start(port->id)) die("port");
    rte_eth_promiscuous_enable(port->id);
    port->device.event = rte_eth_dev_rx_intr_ctl_q_get_fd(port->id, 0);
    port->switches = rte_eth_dev_rx_intr_enable(port->id, 0) == 0 && rte_eth_dev_rx_intr_disable(port->id, 0) == 0;
    port->device.mask = mask, port->device.unmask = unmask, port->device.look = look, port->device.fetch = fetch, port->device.give = give;
    open_device(&port->device, WAITING, least);
}

static void close_port(struct port *port) {
    struct rte_eth_stats card;
    if (rte_eth_stats_get(port->id, &card) || rte_eth_dev_stop(port->id) || rte_eth_dev_close(port->id)) die("statistics");
    completed(&port->device, port->freed); /* reports the frames that the port has completed */
    close_device(&port->device);
    printf("dropped %lu sleeps %lu | the port: in %lu out %lu missed %lu errors %lu\n", port->dropped, sleeps, card.ipackets, card.opackets, card.imissed,
        card.ierrors + card.oerrors);
}

int main(int count, char **words) {
    pthread_t thread;
    uint16_t id;
    const int used = rte_eal_init(count, words);
    if (used < 0) return fputs("dpdk: DPDK doesn't begin\n", stderr), 1;
    const char *mode = count > used + 1 ? words[used + 1] : "";
    const bool busy = !strcmp(mode, "busy"), power = !strcmp(mode, "power"), two_threads = !strcmp(mode, "napi");
    one_thread = !strcmp(mode, "one");
    bool usual = busy || power || two_threads || one_thread;
    for (int i = used + 2; i < count; i += 2) {
        const bool pair = i + 1 < count, is_budget = !strcmp(words[i], "--budget");
        usual &= pair && (is_budget ? set(&budget, words[i + 1], 1, 65535) : !strcmp(words[i], "--min") && set(&least, words[i + 1], 0, 1879048192));
    }
    if (!usual) return fputs("usage: dpdk [EAL's words] -- napi|one|busy|power [--budget 1..65535] [--min BYTES]\n", stderr), 64;
    frames = rte_pktmbuf_pool_create("frames", MBUFS, 0, 0, RTE_MBUF_DEFAULT_BUF_SIZE, SOCKET_ID_ANY);
    heads = rte_pktmbuf_pool_create("heads", MBUFS, 0, 0, 0, SOCKET_ID_ANY);
    if (!frames || !heads) die("memory");
    open_driver();
    RTE_ETH_FOREACH_DEV(id) if (id < DEVICES) ports[id].id = id, open_port(&ports[id]);
    if (two_threads && (errno = rte_ctrl_thread_create(&thread, "interrupts", NULL, interrupt_thread, NULL))) die("thread");
    if (busy || power) poll_busy(power);
    else poller("dpdk");
    atomic_store(&ended, true);
    if (two_threads) pthread_join(thread, NULL);
    for (uint32_t i = 0; i < count_of_devices; i++) close_port((struct port *)devices[i]);
    must("free", fq_free(&driver.handle), FQ_OK);
    rte_eal_cleanup();
    return fflush(stdout) ? 1 : 0;
}
