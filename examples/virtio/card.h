/* A virtio-net card (virtio 1, split rings) through vfio-pci: registers, memory, interrupts, and a queue's rings. Nothing
 * here depends on polling. Queue 0 receives, queue 1 sends. */
#ifndef CARD_H
#define CARD_H

#include <errno.h>
#include <fcntl.h>
#include <linux/pci_regs.h>
#include <linux/vfio.h>
#include <linux/virtio_config.h>
#include <linux/virtio_net.h>
#include <linux/virtio_pci.h>
#include <linux/virtio_ring.h>
#include <stdbool.h>
#include <stdint.h>
#include <stdio.h>
#include <stdlib.h>
#include <string.h>
#include <sys/eventfd.h>
#include <sys/ioctl.h>
#include <sys/mman.h>
#include <unistd.h>

enum { RX = 0, TX = 1, QUEUES = 2, LARGEST_QUEUE = 1024, BUFFER = 2048, PAGE = 4096, HEAD = sizeof(struct virtio_net_hdr_v1) };
enum { IOVA = 0x10000000 }; /* the address at which the card sees its memory */

struct queue {
    uint16_t number, size;
    uint16_t posted, seen; /* how many descriptors the card was given, and how many of those that it returned were read, modulo 2^16 */
    struct vring_desc *desc;
    struct vring_avail *avail;
    struct vring_used *used;
    volatile uint16_t *doorbell;
    int event; /* its interrupt, an eventfd */
};

struct card {
    int device;
    uint8_t *memory; /* the memory that the card may read and write */
    size_t room, given;
    volatile struct virtio_pci_common_cfg *common;
    uint8_t *notify;
    uint32_t notify_step;
    struct queue queues[QUEUES];
};

static inline void die(const char *what) {
    fprintf(stderr, "virtio: %s: %s\n", what, strerror(errno));
    exit(1);
}

static inline void need(bool is_so, const char *what) {
    if (!is_so) die(what);
}

/* ---- Memory that the card sees, in separate pages. */

static inline void *card_memory(struct card *card, size_t bytes) {
    uint8_t *at = card->memory + card->given;
    card->given += (bytes + PAGE - 1) / PAGE * PAGE;
    need(card->given <= card->room, "the card's memory");
    return at;
}

static inline uint64_t seen_by(const struct card *card, const void *at) { return IOVA + (uint64_t)((const uint8_t *)at - card->memory); }

/* ---- The card. */

static inline struct vfio_region_info region(const struct card *card, uint32_t index) {
    struct vfio_region_info info = {.argsz = sizeof info, .index = index};
    need(!ioctl(card->device, VFIO_DEVICE_GET_REGION_INFO, &info), "a region");
    return info;
}

static inline void read_config(const struct card *card, uint64_t at, void *to, size_t bytes) {
    const struct vfio_region_info config = region(card, VFIO_PCI_CONFIG_REGION_INDEX);
    need(pread(card->device, to, bytes, (off_t)(config.offset + at)) == (ssize_t)bytes, "configuration space");
}

static inline void write_config(const struct card *card, uint64_t at, const void *from, size_t bytes) {
    const struct vfio_region_info config = region(card, VFIO_PCI_CONFIG_REGION_INDEX);
    need(pwrite(card->device, from, bytes, (off_t)(config.offset + at)) == (ssize_t)bytes, "configuration space");
}

/* Maps the registers of a capability. */
static inline void *registers(const struct card *card, const struct virtio_pci_cap *cap) {
    const struct vfio_region_info bar = region(card, cap->bar);
    uint8_t *at = mmap(NULL, bar.size, PROT_READ | PROT_WRITE, MAP_SHARED, card->device, (off_t)bar.offset);
    need(at != MAP_FAILED, "registers");
    return at + cap->offset;
}

static inline void find_registers(struct card *card) {
    struct virtio_pci_notify_cap found;
    uint8_t at;
    for (read_config(card, PCI_CAPABILITY_LIST, &at, 1); at; at = found.cap.cap_next) {
        read_config(card, at, &found, sizeof found);
        if (found.cap.cap_vndr != PCI_CAP_ID_VNDR) continue;
        if (found.cap.cfg_type == VIRTIO_PCI_CAP_COMMON_CFG) card->common = registers(card, &found.cap);
        if (found.cap.cfg_type != VIRTIO_PCI_CAP_NOTIFY_CFG) continue;
        card->notify = registers(card, &found.cap);
        card->notify_step = found.notify_off_multiplier;
    }
    errno = ENODEV;
    need(card->common && card->notify, "registers of virtio 1");
}

/* Opens the card at a PCI address (0000:00:05.0), which is bound to vfio-pci, with this much memory that the card can access. */
static inline void card_open(struct card *card, const char *address, size_t room) {
    char path[128], link[128] = "";
    snprintf(path, sizeof path, "/sys/bus/pci/devices/%s/iommu_group", address);
    need(readlink(path, link, sizeof link - 1) > 0, path);
    snprintf(path, sizeof path, "/dev/vfio/%s", strrchr(link, '/') + 1);
    const int container = open("/dev/vfio/vfio", O_RDWR), group = open(path, O_RDWR);
    need(container >= 0 && group >= 0 && !ioctl(group, VFIO_GROUP_SET_CONTAINER, &container), path);
    need(!ioctl(container, VFIO_SET_IOMMU, VFIO_TYPE1v2_IOMMU), "IOMMU");
    card->room = room;
    card->memory = mmap(NULL, room, PROT_READ | PROT_WRITE, MAP_PRIVATE | MAP_ANONYMOUS, -1, 0);
    need(card->memory != MAP_FAILED, "memory");
    struct vfio_iommu_type1_dma_map map = {.argsz = sizeof map, .flags = VFIO_DMA_MAP_FLAG_READ | VFIO_DMA_MAP_FLAG_WRITE,
        .vaddr = (uintptr_t)card->memory, .iova = IOVA, .size = room};
    need(!ioctl(container, VFIO_IOMMU_MAP_DMA, &map), "mapping of memory");
    need((card->device = ioctl(group, VFIO_GROUP_GET_DEVICE_FD, address)) >= 0, address);
    uint16_t command;
    read_config(card, PCI_COMMAND, &command, sizeof command);
    command |= PCI_COMMAND_MEMORY | PCI_COMMAND_MASTER;
    write_config(card, PCI_COMMAND, &command, sizeof command);
    find_registers(card);
}

static inline void card_reset(struct card *card) {
    card->common->device_status = 0;
    while (card->common->device_status) usleep(1000);
}

/* Resets the card, and accepts only the features that it can't work without. */
static inline void card_begin(struct card *card) {
    volatile struct virtio_pci_common_cfg *common = card->common;
    const uint32_t taken[2] = {0, 1u << (VIRTIO_F_VERSION_1 - 32) | 1u << (VIRTIO_F_ACCESS_PLATFORM - 32)};
    card_reset(card);
    common->device_status = VIRTIO_CONFIG_S_ACKNOWLEDGE | VIRTIO_CONFIG_S_DRIVER;
    for (uint32_t i = 0; i < 2; i++) {
        common->device_feature_select = common->guest_feature_select = i;
        common->guest_feature = common->device_feature & taken[i];
    }
    common->device_status |= VIRTIO_CONFIG_S_FEATURES_OK;
    errno = ENODEV;
    need(common->device_status & VIRTIO_CONFIG_S_FEATURES_OK, "features");
    common->msix_config = VIRTIO_MSI_NO_VECTOR;
}

/* Sets up interrupts: interrupt i of the card (MSI-X) signals the event of queue i. */
static inline void card_interrupts(struct card *card) {
    int events[QUEUES];
    union { struct vfio_irq_set set; uint8_t bytes[sizeof(struct vfio_irq_set) + sizeof events]; } all = {.set = {.argsz = sizeof all,
        .index = VFIO_PCI_MSIX_IRQ_INDEX, .count = QUEUES, .flags = VFIO_IRQ_SET_DATA_EVENTFD | VFIO_IRQ_SET_ACTION_TRIGGER}};
    for (int i = 0; i < QUEUES; i++) need((events[i] = card->queues[i].event = eventfd(0, EFD_NONBLOCK)) >= 0, "eventfd");
    memcpy(all.bytes + sizeof all.set, events, sizeof events);
    need(!ioctl(card->device, VFIO_DEVICE_SET_IRQS, &all), "MSI-X");
}

static inline void card_queue(struct card *card, uint16_t number) {
    volatile struct virtio_pci_common_cfg *common = card->common;
    struct queue *queue = &card->queues[number];
    common->queue_select = queue->number = number;
    queue->size = common->queue_size;
    errno = ENODEV;
    need(queue->size && queue->size <= LARGEST_QUEUE, "a queue's size");
    queue->desc = card_memory(card, queue->size * sizeof *queue->desc);
    queue->avail = card_memory(card, sizeof *queue->avail + (queue->size + 1) * sizeof *queue->avail->ring);
    queue->used = card_memory(card, sizeof *queue->used + queue->size * sizeof *queue->used->ring + 2);
    const uint64_t desc = seen_by(card, queue->desc), avail = seen_by(card, queue->avail), used = seen_by(card, queue->used);
    common->queue_desc_lo = (uint32_t)desc, common->queue_desc_hi = (uint32_t)(desc >> 32);
    common->queue_avail_lo = (uint32_t)avail, common->queue_avail_hi = (uint32_t)(avail >> 32);
    common->queue_used_lo = (uint32_t)used, common->queue_used_hi = (uint32_t)(used >> 32);
    common->queue_msix_vector = number;
    need(common->queue_msix_vector == number, "a queue's interrupt");
    queue->doorbell = (volatile uint16_t *)(void *)(card->notify + (size_t)common->queue_notify_off * card->notify_step);
    common->queue_enable = 1;
}

/* ---- A queue's rings. */

/* Gives a descriptor to the card, which sees it from the next publish on. */
static inline void queue_post(struct queue *queue, uint16_t which, uint64_t address, uint32_t bytes) {
    queue->desc[which] = (struct vring_desc){.addr = address, .len = bytes, .flags = queue->number == RX ? VRING_DESC_F_WRITE : 0};
    queue->avail->ring[queue->posted++ % queue->size] = which;
}

/* Passes everything that was posted to the card, and notifies it if it asks for that. */
static inline void queue_publish(struct queue *queue) {
    __atomic_store_n(&queue->avail->idx, queue->posted, __ATOMIC_RELEASE);
    __sync_synchronize();
    if (!(__atomic_load_n(&queue->used->flags, __ATOMIC_RELAXED) & VRING_USED_F_NO_NOTIFY)) *queue->doorbell = queue->number;
}

/* Returns how many descriptors were returned by the card and not read yet. */
static inline uint16_t queue_back(const struct queue *queue) {
    return (uint16_t)(__atomic_load_n(&queue->used->idx, __ATOMIC_ACQUIRE) - queue->seen);
}

static inline struct vring_used_elem queue_next(struct queue *queue) {
    const struct vring_used_elem next = queue->used->ring[queue->seen++ % queue->size];
    errno = EIO;
    need(next.id < queue->size, "no descriptor of ours");
    return next;
}

/* ---- A queue's interrupt. The card sees a mask with a delay. A look after an unmask finds what came before the unmask. */

static inline void queue_flags(struct queue *queue, uint16_t flags) { __atomic_store_n(&queue->avail->flags, flags, __ATOMIC_RELAXED); }
static inline void queue_mask(struct queue *queue) { queue_flags(queue, VRING_AVAIL_F_NO_INTERRUPT); }
static inline void queue_unmask(struct queue *queue) {
    queue_flags(queue, 0);
    __sync_synchronize();
}
#endif
