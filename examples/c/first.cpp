// One instance on one thread: two requests for a poll, of which the second one is missed, and two polls.
#include <fintaqush.hpp>
#include <cstdio>

// Each caller of an instance has a number. The controller's number is an argument when the instance is made.
enum : std::uint32_t { INTERRUPT, POLLER, CONTROLLER };

// The card's interrupt. Returns whether the instance was queued on the poll list now.
static bool interrupt(fintaqush::SerialNapi &napi) {
    return napi.schedule(INTERRUPT) == FQ_GRANTED && napi.hand(INTERRUPT, FQ_LIST) == FQ_OK;
}

// The poller takes the instance from the list, polls the device, and completes. If a request was missed meanwhile, it still
// owns the instance and queues it on the list again.
static fintaqush::Status poll_once(fintaqush::SerialNapi &napi) {
    auto done = napi.take(POLLER, FQ_LIST);
    if (done != FQ_TAKEN) return done;
    done = napi.complete(POLLER);
    if (done == FQ_AGAIN && napi.hand(POLLER, FQ_LIST) != FQ_OK) return FQ_NOT_ALLOWED;
    return done;
}

int main() {
    fintaqush::SerialNapi napi(CONTROLLER);
    if (napi.enable(CONTROLLER, false) != FQ_OK) return 1;
    const bool first = interrupt(napi), second = interrupt(napi);
    std::printf("handed over: %s, %s\n", first ? "true" : "false", second ? "true" : "false");
    for (int i = 0; i < 2; i++) std::printf("polled: %s\n", fq_status_name(poll_once(napi)));
}
