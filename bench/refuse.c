// Makes the call fail whose number, counted from 1, is in REFUSE_MEMORY, REFUSE_READ, REFUSE_WRITE or REFUSE_THREAD. The file
// STARTS gets the numbers of the allocations that starts of threads make: each is the same thread's last one before its start.
#define _GNU_SOURCE
#include <dlfcn.h>
#include <errno.h>
#include <fcntl.h>
#include <pthread.h>
#include <stdio.h>
#include <stdlib.h>
#include <unistd.h>

struct calls { const char *name; long made; };
static struct calls memory = {"REFUSE_MEMORY", 0}, reads = {"REFUSE_READ", 0}, writes = {"REFUSE_WRITE", 0}, threads = {"REFUSE_THREAD", 0};

// Threads that were started and not joined.
static long left = 0;

// The number of this thread's last allocation.
static __thread long last = 0;

// The file REFUSED exists after a call failed.
static int refuses(struct calls *calls) {
    const char *text = getenv(calls->name);
    if (!text) return 0;
    long number = __atomic_add_fetch(&calls->made, 1, __ATOMIC_SEQ_CST);
    if (calls == &memory) last = number;
    if (number != atol(text)) return 0;
    close(open(getenv("REFUSED"), O_CREAT | O_WRONLY, 0600));
    return 1;
}
void *malloc(size_t size) {
    static void *(*next)(size_t);
    if (!next) next = (void *(*)(size_t))dlsym(RTLD_NEXT, "malloc");
    if (refuses(&memory)) { errno = ENOMEM; return NULL; }
    return next(size);
}
void *realloc(void *old, size_t size) {
    static void *(*next)(void *, size_t);
    if (!next) next = (void *(*)(void *, size_t))dlsym(RTLD_NEXT, "realloc");
    if (refuses(&memory)) { errno = ENOMEM; return NULL; }
    return next(old, size);
}
ssize_t read(int file, void *bytes, size_t size) {
    static ssize_t (*next)(int, void *, size_t);
    if (!next) next = (ssize_t (*)(int, void *, size_t))dlsym(RTLD_NEXT, "read");
    if (file == 0 && refuses(&reads)) { errno = EIO; return -1; }
    return next(file, bytes, size);
}
ssize_t write(int file, const void *bytes, size_t size) {
    static ssize_t (*next)(int, const void *, size_t);
    if (!next) next = (ssize_t (*)(int, const void *, size_t))dlsym(RTLD_NEXT, "write");
    if (file == 1 && refuses(&writes)) { errno = EIO; return -1; }
    return next(file, bytes, size);
}
int pthread_create(pthread_t *thread, const pthread_attr_t *attributes, void *(*run)(void *), void *given) {
    static int (*next)(pthread_t *, const pthread_attr_t *, void *(*)(void *), void *);
    if (!next) next = (int (*)(pthread_t *, const pthread_attr_t *, void *(*)(void *), void *))dlsym(RTLD_NEXT, "pthread_create");
    if (refuses(&threads)) return EAGAIN;
    if (getenv("STARTS")) {
        char number[32];
        int file = open(getenv("STARTS"), O_CREAT | O_WRONLY | O_APPEND, 0600);
        if (write(file, number, snprintf(number, sizeof number, "%ld\n", last)) < 0) abort();
        close(file);
    }
    int failed = next(thread, attributes, run, given);
    if (!failed) __atomic_add_fetch(&left, 1, __ATOMIC_SEQ_CST);
    return failed;
}
int pthread_join(pthread_t thread, void **answer) {
    static int (*next)(pthread_t, void **);
    if (!next) next = (int (*)(pthread_t, void **))dlsym(RTLD_NEXT, "pthread_join");
    __atomic_sub_fetch(&left, 1, __ATOMIC_SEQ_CST);
    return next(thread, answer);
}
__attribute__((destructor)) static void tell_left(void) {
    if (left) dprintf(2, "%ld threads aren't joined\n", left);
}
