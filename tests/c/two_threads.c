/* Two threads use one driver without an order between their calls, unless the argument is `locked`: a mistake that ThreadSanitizer reports. Here one
 * waits for the other by a relaxed load, so that the calls don't overlap in fact. */
#include <fintaqush.h>
#include <pthread.h>
#include <sched.h>
#include <stdatomic.h>
#include <stdlib.h>
#include <string.h>

enum { CALLS = 100 };
static struct fq_driver driver;
static pthread_mutex_t lock = PTHREAD_MUTEX_INITIALIZER;
static bool locked;
static atomic_bool over;

static void must(bool holds) {
    if (!holds) exit(9);
}

static void *interrupts(void *none) {
    for (int i = 0; i < CALLS; i++) {
        if (locked) must(pthread_mutex_lock(&lock) == 0);
        must(!fq_is_error(fq_driver_interrupt(&driver, 0)));
        if (locked) must(pthread_mutex_unlock(&lock) == 0);
    }
    atomic_store_explicit(&over, true, memory_order_relaxed);
    return none;
}

int main(int count, char **words) {
    pthread_t thread;
    struct fq_todo todo = FQ_TODO_INIT;
    locked = count > 1 && strcmp(words[1], "locked") == 0;
    must(fq_driver_new(&driver, 1, 300, 64, 1024) == FQ_OK);
    must(fq_driver_set(&driver, 0, (struct fq_device_settings){.weight = 32, .empty_polls = 0}) == FQ_OK);
    must(fq_driver_set(&driver, 0, FQ_DEVICE_INIT) == FQ_OK && fq_driver_open(&driver, 0) == FQ_OK);
    must(pthread_create(&thread, NULL, interrupts, NULL) == 0);
    while (!locked && !atomic_load_explicit(&over, memory_order_relaxed)) sched_yield();
    for (int i = 0; i < CALLS; i++) {
        if (locked) must(pthread_mutex_lock(&lock) == 0);
        must(fq_driver_turn(&driver, 0, &todo) == FQ_OK);
        if (locked) must(pthread_mutex_unlock(&lock) == 0);
    }
    must(pthread_join(thread, NULL) == 0);
    return fq_free(&driver.handle) == FQ_OK ? 0 : 9;
}
