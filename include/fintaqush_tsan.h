/*
 * fintaqush.h for programs under ThreadSanitizer (-fsanitize=thread). ThreadSanitizer doesn't see into the library, and would report
 * what "Memory order" of fintaqush.h orders as a race. Two calls report to it which thread owns a buffer. In other builds they do nothing.
 *
 * The thread that has finished with a buffer releases it before the call that passes it on: the put, or the next poll. The thread that
 * gets it acquires it after the call that returns it: the poll, or the put that finds a place free. A poller's own data passes from
 * poller to poller in the same way, by an address that represents the instance: release it before complete, requeue, hand or an end, and
 * acquire it after take.
 */
#ifndef FINTAQUSH_TSAN_H
#define FINTAQUSH_TSAN_H

#include "fintaqush.h"

#if defined(__SANITIZE_THREAD__)
#define FQ_UNDER_TSAN 1
#elif defined(__has_feature)
#if __has_feature(thread_sanitizer)
#define FQ_UNDER_TSAN 1
#endif
#endif

#ifdef __cplusplus
extern "C" {
#endif

#ifdef FQ_UNDER_TSAN
void __tsan_acquire(void *at);
void __tsan_release(void *at);
static inline void fq_tsan_acquire(void *at) { __tsan_acquire(at); }
static inline void fq_tsan_release(void *at) { __tsan_release(at); }
#else
static inline void fq_tsan_acquire(void *at) { (void)at; }
static inline void fq_tsan_release(void *at) { (void)at; }
#endif

#ifdef __cplusplus
}
#endif
#endif
