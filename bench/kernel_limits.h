// What Linux's lib/dynamic_queue_limits.c takes from other headers of the kernel, for a program: kernel_limits.sh puts this
// file in place of each of them.
#ifndef KERNEL_LIMITS_H
#define KERNEL_LIMITS_H

#include <limits.h>
#include <stdbool.h>
#include <stdlib.h>

#define __KERNEL__
#define BITS_PER_LONG 64
#define BIT_MASK(bit) (1ul << ((bit) % BITS_PER_LONG))
#define ____cacheline_aligned_in_smp __attribute__((aligned(64)))
#define READ_ONCE(x) (*(const volatile __typeof__(x) *)&(x))
#define WRITE_ONCE(x, value) (*(volatile __typeof__(x) *)&(x) = (value))
#define barrier() __asm__ volatile("" ::: "memory")
#define smp_rmb() barrier()
#define smp_wmb() barrier()
#define likely(x) __builtin_expect(!!(x), 1)
#define unlikely(x) __builtin_expect(!!(x), 0)
#define BUG_ON(x) do { if (unlikely(x)) abort(); } while (0)
#define WARN_ON_ONCE(x) unlikely(x)
#define EXPORT_SYMBOL(name)
#define max_t(type, a, b) ((type)(a) > (type)(b) ? (type)(a) : (type)(b))
#define max(a, b) ((a) > (b) ? (a) : (b))
#define clamp(x, low, high) ((x) < (low) ? (low) : (x) > (high) ? (high) : (x))
#define time_after(a, b) ((long)((b) - (a)) < 0)
#define time_before(a, b) time_after(b, a)
#define time_after_eq(a, b) ((long)((a) - (b)) >= 0)
#define time_before_eq(a, b) time_after_eq(b, a)
#define test_bit(bit, map) ((map)[(bit) / BITS_PER_LONG] >> ((bit) % BITS_PER_LONG) & 1)
#define trace_dql_stall_detected(...) ((void)0)

extern unsigned long jiffies;

#endif
