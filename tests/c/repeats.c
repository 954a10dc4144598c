/* A thread changes the state word all the time (fq_caller_set_threaded), so that attempts of another thread fail: the calls that make
 * one attempt return FQ_CHANGED now and then, those that repeat it never do, and a caller counts each attempt that failed. It ends when
 * attempts of each call have failed, or with 9 if after fifty minutes too few of some call have. */
#include <fintaqush.h>
#include <pthread.h>
#include <stdatomic.h>
#include <stdio.h>
#include <stdlib.h>
#include <time.h>

static struct fq_control control;
static struct fq_caller callers[3];
static struct fq_caller *const irq = &callers[0], *const poller = &callers[1];
static atomic_bool ends;

static void want(bool holds, const char *what) {
    if (holds) return;
    fprintf(stderr, "repeats: %s\n", what);
    exit(9);
}

static void *change(void *caller) {
    for (bool threaded = true; !ends; threaded = !threaded) want(fq_caller_set_threaded(caller, threaded) == FQ_OK, "a change");
    return NULL;
}

static uint64_t changed(struct fq_caller *caller) {
    struct fq_answers answers;
    want(fq_caller_count(caller, &answers) == FQ_OK, "a caller's counts");
    return answers.changed;
}

/* Requests, with a request that is missed, and polls, which end by fq_caller_complete_done or fq_caller_end. Returns how many attempts of
 * the callers failed: of requests, and of the ends of polls. */
static void turn(bool by_end, uint64_t *requests, uint64_t *completions) {
    const uint64_t requested = changed(irq), completed = changed(poller);
    uint32_t next = FQ_NEXT_GONE;
    want(fq_caller_schedule_prep(irq) == FQ_GRANTED && fq_caller_hand_again(irq, &next) == FQ_OK, "a request");
    for (int missed = 1; missed >= 0; missed--) {
        want(next == FQ_NEXT_AGAIN || next == FQ_NEXT_AGAIN_THREAD, "where it is queued");
        want(fq_caller_take(poller, next == FQ_NEXT_AGAIN ? FQ_LIST : FQ_THREAD) == FQ_TAKEN, "it is taken from there");
        if (missed) want(fq_caller_schedule_prep(irq) == FQ_MISSED, "a request that is missed");
        if (by_end) want(fq_caller_end(poller, false, &next) == FQ_OK && (next == FQ_NEXT_GONE) != missed, "the end of a poll");
        else want(fq_caller_complete_done(poller) == (missed ? FQ_AGAIN : FQ_RELEASED), "a completion");
        if (!by_end && missed) want(fq_caller_hand_again(poller, &next) == FQ_OK, "it is queued again");
    }
    *requests += changed(irq) - requested, *completions += changed(poller) - completed;
}

/* Makes a step of the controller by its single attempts, and returns how many of them failed. */
static unsigned attempts(bool on) {
    unsigned failed = 0;
    uint32_t said;
    if (!on) want(fq_control_mark(&control) == FQ_OK, "a mark");
    while ((said = on ? fq_control_enable(&control, false) : fq_control_try_take(&control)) == FQ_CHANGED) failed++;
    want(said == (on ? FQ_OK : FQ_TAKEN), "a step by its attempts");
    return failed;
}

int main(void) {
    const time_t start = time(NULL);
    uint64_t requests = 0, completions = 0, ended = 0, opened = 0, stopped = 0;
    pthread_t thread;
    want(fq_shared_bare(&control, callers, 3) == FQ_OK && pthread_create(&thread, NULL, change, &callers[2]) == 0, "a thread");
    while (requests < 9 || completions < 9 || ended < 9 || opened < 9 || stopped < 9) {
        for (int i = 0; i < 100; i++) {
            want(fq_control_step(&control, true, false) == FQ_OK, "a step of an open");
            turn(false, &requests, &completions);
            turn(true, &requests, &ended);
            want(fq_control_step(&control, false, false) == FQ_OK, "a step of a stop");
            opened += attempts(true), stopped += attempts(false);
        }
        want(time(NULL) < start + 3000, "no attempt of some call fails");
    }
    ends = true;
    want(pthread_join(thread, NULL) == 0 && fq_free(&control.handle) == FQ_OK, "the end");
    for (int i = 0; i < 3; i++) want(fq_free(&callers[i].handle) == FQ_OK, "the end of a caller");
    puts("attempts fail, and each call repeats them");
    return 0;
}
