/* One instance on one thread: two requests for a poll, of which the second one is missed, and two polls. */
#include <fintaqush.h>
#include <stdio.h>

/* Each caller of an instance has a number. The controller's number is an argument when the instance is made. */
enum { INTERRUPT, POLLER, CONTROLLER };

/* The card's interrupt. Returns whether the instance was queued on the poll list now. */
static bool interrupt(struct fq_napi *napi) {
    return fq_napi_schedule(napi, INTERRUPT) == FQ_GRANTED && fq_napi_hand(napi, INTERRUPT, FQ_LIST) == FQ_OK;
}

/* The poller takes the instance from the list, polls the device, and completes. If a request was missed meanwhile, it still
 * owns the instance and queues it on the list again. */
static uint32_t poll_once(struct fq_napi *napi) {
    uint32_t done = fq_napi_take(napi, POLLER, FQ_LIST);
    if (done != FQ_TAKEN) return done;
    done = fq_napi_complete(napi, POLLER);
    if (done == FQ_AGAIN && fq_napi_hand(napi, POLLER, FQ_LIST) != FQ_OK) return FQ_NOT_ALLOWED;
    return done;
}

int main(void) {
    struct fq_napi napi = fq_napi_new(CONTROLLER);
    if (fq_napi_enable(&napi, CONTROLLER, false) != FQ_OK) return 1;
    const bool first = interrupt(&napi), second = interrupt(&napi);
    printf("handed over: %s, %s\n", first ? "true" : "false", second ? "true" : "false");
    for (int i = 0; i < 2; i++) printf("polled: %s\n", fq_status_name(poll_once(&napi)));
    return 0;
}
