/* What all parts of the driver share: how it ends after an error, its clock, and its trace. */
#ifndef COMMON_H
#define COMMON_H

#include <errno.h>
#include <fintaqush.h>
#include <stdio.h>
#include <stdlib.h>
#include <string.h>
#include <time.h>

enum { FRAME = 2048, WEIGHT = 64, WINDOW = 1024, MOST_ROWS = 98000 };

static inline void die(const char *what) {
    fprintf(stderr, "tap: %s: %s\n", what, strerror(errno));
    exit(1);
}

static inline void must(const char *what, uint32_t said, uint32_t wanted) {
    if (said == wanted) return;
    fprintf(stderr, "tap: %s: %s\n", what, fq_status_name(said));
    exit(1);
}

static inline uint64_t now_ns(void) {
    struct timespec now;
    if (clock_gettime(CLOCK_MONOTONIC, &now)) die("clock");
    return (uint64_t)now.tv_sec * 1000000000 + (uint64_t)now.tv_nsec;
}

static inline uint64_t now_ms(void) { return now_ns() / 1000000; }

/* The trace that is written, if there is one. Only one thread writes it, so its rows are in the order of the events. */
struct trace {
    FILE *file;
    unsigned long rows;
};

static inline void row(struct trace *trace, uint64_t moment, size_t device, const char *event, uint64_t value) {
    if (!trace->file) return;
    trace->rows++;
    fprintf(trace->file, "%lu,%zu,%s,%lu\n", moment, device, event, value);
}
#endif
