/* Four devices are polled by runs of the softirq with a budget of 100 and a weight of 64, until the list is empty. */
#include <fintaqush.h>
#include <stdio.h>

enum { DEVICES = 4, POLLER = 1, CONTROLLER = 2, BUDGET = 100, WEIGHT = 64, WINDOW = 1024 };

struct device {
    struct fq_napi napi;
    uint32_t left; /* the packets in its ring */
};

/* Polls a device, ends the poll, and returns how it ended (enum fq_next). */
static enum fq_next poll_once(struct device *device, uint32_t *work) {
    *work = 0;
    if (fq_napi_take(&device->napi, POLLER, FQ_LIST) != FQ_TAKEN) return FQ_NEXT_ABSENT;
    *work = device->left < WEIGHT ? device->left : WEIGHT;
    device->left -= *work;
    if (*work == WEIGHT) return fq_napi_hand(&device->napi, POLLER, FQ_LIST) == FQ_OK ? FQ_NEXT_REPOLL : FQ_NEXT_ABSENT;
    if (fq_napi_complete(&device->napi, POLLER) != FQ_AGAIN) return FQ_NEXT_GONE;
    return fq_napi_hand(&device->napi, POLLER, FQ_LIST) == FQ_OK ? FQ_NEXT_AGAIN : FQ_NEXT_ABSENT;
}

/* Makes one run, and returns whether it polled anything. */
static bool run(struct fq_list *list, struct device *devices) {
    struct fq_run_report report;
    uint32_t id, work;
    if (fq_run_begin(list, BUDGET, WEIGHT, WINDOW) != FQ_OK) return false;
    printf("run:");
    while (fq_run_next(list, &id) == FQ_OK) {
        const enum fq_next next = poll_once(&devices[id], &work);
        printf(" %u(%u)", id, work);
        if (fq_run_polled(list, work, next) != FQ_OK) return false;
    }
    if (fq_run_end(list, &report) != FQ_OK) return false;
    printf(" - %u polls, %u packets%s\n", report.polls, report.work, report.squeezed ? ", squeezed" : "");
    return report.polls != 0;
}

int main(void) {
    static const uint32_t packets[DEVICES] = {150, 3, 64, 0};
    struct device devices[DEVICES];
    struct fq_list list = FQ_NONE;
    if (fq_list_new(&list) != FQ_OK) return 1;
    for (uint32_t i = 0; i < DEVICES; i++) {
        devices[i] = (struct device){fq_napi_new(CONTROLLER), packets[i]};
        if (fq_napi_enable(&devices[i].napi, CONTROLLER, false) != FQ_OK) return 1;
        if (fq_napi_schedule(&devices[i].napi, 0) != FQ_GRANTED || fq_napi_hand(&devices[i].napi, 0, FQ_LIST) != FQ_OK) return 1;
        if (fq_list_push(&list, i) != FQ_OK) return 1;
    }
    while (run(&list, devices)) {
    }
    return fq_free(&list.handle) == FQ_OK ? 0 : 1;
}
