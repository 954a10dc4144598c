// What the extracted functions take from other headers of the kernel, for a program of one thread. What else a machine does
// (interrupts, timers, GRO, other processors) is nothing here; their warnings end the program.
#ifndef KERNEL_STUBS_H
#define KERNEL_STUBS_H

#include <stddef.h>
#include <stdint.h>
#include <stdio.h>
#include "../../bench/kernel_limits.h"

#define CONFIG_BQL
typedef uint16_t u16;
typedef uint32_t u32;

// ---- the queue limit: times are whole numbers of 64 bits

bool after_as_whole(unsigned long now, unsigned long end, unsigned long hold);
#undef time_after
#define time_after(now, end) after_as_whole(now, end, dql->slack_hold_time)
#include <linux/dynamic_queue_limits.h>

// ---- words and lists

#undef WARN_ON_ONCE
#define WARN_ON(x) ({ bool is_wrong = !!(x); if (is_wrong) { fprintf(stderr, "the kernel warns: %s\n", #x); abort(); } is_wrong; })
#define WARN_ON_ONCE(x) WARN_ON(x)
#define pr_err(...) abort()
#define pr_warn_once(...) abort()
#define netdev_err_once(...) abort()

#define BIT(bit) (1ul << (bit))
#undef test_bit
#define test_bit(bit, word) (*(word) >> (bit) & 1)
#define set_bit(bit, word) (*(word) |= BIT(bit))
#define clear_bit(bit, word) (*(word) &= ~BIT(bit))
#define assign_bit(bit, word, value) ((value) ? set_bit(bit, word) : clear_bit(bit, word))
#define test_and_set_bit(bit, word) ({ bool was_set = test_bit(bit, word); set_bit(bit, word); was_set; })
#define test_and_clear_bit(bit, word) ({ bool was_set = test_bit(bit, word); clear_bit(bit, word); was_set; })
#define try_cmpxchg(word, old, value) __atomic_compare_exchange_n(word, old, value, false, __ATOMIC_SEQ_CST, __ATOMIC_SEQ_CST)
#define cmpxchg(word, old, value) __sync_val_compare_and_swap(word, old, value)

struct list_head { struct list_head *next, *prev; };
#define container_of(part, type, member) ((type *)((char *)(part) - offsetof(type, member)))
#define __list_add_valid(...) true
#define __list_del_entry_valid(...) true
#define list_add_rcu(entry, list) list_add_tail(entry, list)

// ---- what else an instance needs

struct task_struct { int is_awake; };
struct hrtimer { void *function; };
struct bpf_net_context { int unused; };
struct gro_node { unsigned long bitmask; };
struct napi_config { unsigned char threaded; };
struct net_device {
    const char *name;
    struct list_head napi_list;
    bool threaded;
    unsigned long gro_flush_timeout;
    u32 napi_defer_hard_irqs;
    int num_napi_configs;
    struct napi_config *napi_config;
};
struct napi_struct {
    struct list_head poll_list, rx_list, dev_list;
    unsigned long state, gro_bitmask;
    int weight, list_owner, rx_count, irq;
    u32 defer_hard_irqs_count;
    int (*poll)(struct napi_struct *, int);
    struct net_device *dev;
    void *skb, *napi_hash_node;
    struct gro_node gro;
    struct napi_config *config; // NULL here: only drivers that keep the settings of each instance have one
    unsigned int napi_id;
    struct hrtimer timer;
    struct task_struct *thread;
};
struct softnet_data {
    struct list_head poll_list;
    bool in_net_rx_action, in_napi_threaded_poll;
    unsigned int time_squeeze;
    struct napi_struct backlog;
};
struct netdev_queue { struct dql dql; unsigned long state, trans_start; };
extern struct softnet_data softnet_data;
extern struct { int netdev_budget; unsigned int netdev_budget_usecs; } net_hotdata;

#define NAPI_POLL_WEIGHT 64
#define INIT_HLIST_NODE(node) ((void)0)
#define init_gro_hash(napi) ((void)0)
#define napi_hash_add(napi) ((void)0)
#define napi_get_frags_check(napi) ((void)0)
#define netif_napi_set_irq(napi, number) ((void)0)
#define napi_watchdog NULL
#define netif_schedule_queue(queue) ((void)0)

#define this_cpu_ptr(place) (place)
#define raw_cpu_read(place) NULL
#define smp_processor_id() 0
#define use_backlog_threads() false
#define lockdep_assert_irqs_disabled() ((void)0)
#define local_irq_save(flags) ((void)(flags))
#define local_irq_restore(flags) ((void)0)
#define local_irq_disable() ((void)0)
#define local_irq_enable() ((void)0)
#define local_bh_disable() ((void)0)
#define local_bh_enable() ((void)0)
#define preempt_disable() ((void)0)
#define preempt_enable() ((void)0)
#define raise_softirq_irqoff(number) ((void)0)
#define __raise_softirq_irqoff(number) (is_raised = true) // devices.c looks at it after a run
#define sd_has_rps_ipi_waiting(data) false
#define net_rps_action_and_irq_enable(data) ((void)0)
#define skb_defer_free_flush(...) ((void)0)
#define bpf_net_ctx_set(context) (context)
#define bpf_net_ctx_clear(context) ((void)0)
#define napi_gro_flush(napi, is_old) ((void)0)
#define netpoll_poll_lock(napi) NULL
#define netpoll_poll_unlock(lock) ((void)0)
#define trace_napi_poll(napi, work, budget) ((void)0)
#define xdp_do_check_flushed(napi) ((void)0)
#define hrtimer_init(timer, clock, mode) ((void)0)
#define hrtimer_start(timer, time, mode) abort()
#define hrtimer_cancel(timer) ((void)0)
#define ns_to_ktime(time) (time)
#define HZ 1000
#define __latent_entropy
#define IS_ENABLED(choice) 0
#define smp_mb() barrier()
#define smp_mb__before_atomic() barrier()
#define rcu_read_lock() ((void)0)
#define rcu_read_unlock() ((void)0)
#define rcu_read_lock_held() true
#define rcu_softirq_qs_periodic(moment) ((void)(moment))

// of kernels after 6.12
#define gro_init(gro) ((void)0)
#define gro_normal_list(gro) ((void)0)
#define gro_flush_normal(gro, is_old) ((void)0)
#define napi_get_gro_flush_timeout(napi) 0
#define napi_get_defer_hard_irqs(napi) 0
#define napi_set_gro_flush_timeout(napi, time) ((void)0)
#define napi_set_defer_hard_irqs(napi, count) ((void)0)
#define napi_get_threaded_config(dev, napi) ((dev)->threaded)
#define napi_restore_config(napi) abort()
#define napi_save_config(napi) abort()
#define napi_hash_del(napi) ((void)0)
#define netif_napi_set_irq_locked(napi, number) ((void)0)
#define netif_napi_dev_list_add(dev, napi) list_add_tail(&(napi)->dev_list, &(dev)->napi_list)
#define netdev_assert_locked(dev) ((void)0)
#define netdev_assert_locked_or_invisible(dev) ((void)0)
#define netdev_lock(dev) ((void)0)
#define netdev_unlock(dev) ((void)0)
#define hrtimer_setup(timer, handler, clock, mode) ((void)0)
#define kthread_stop(thread) ((void)0)
#define DEBUG_NET_WARN_ON_ONCE(x) ((void)(x))
#define smp_mb__after_atomic() barrier()
#define need_resched() false
#define cond_resched() ((void)0)
#define cpu_relax() ((void)0)
#define busy_loop_current_time() 0
#define __NET_ADD_STATS(...) ((void)0)
#define might_sleep() ((void)0)
#define IS_ERR(pointer) false
#define PTR_ERR(pointer) 0
#define usecs_to_jiffies(time) (time)

// ---- sleep, which devices.c has

#define TASK_INTERRUPTIBLE 1
#define TASK_RUNNING 0
#define set_current_state(state) ((void)0)
#define __set_current_state(state) ((void)0)
#define kthread_run(run, instance, ...) (&thread_of_all)
#define wake_up_process(thread) ((thread)->is_awake = 1)
#define kthread_should_stop() is_asleep
#define schedule() (is_asleep = true)
#define usleep_range(least, most) sleep_in_disable()
#define msleep(time) abort() // of a thread that is stopped: devices.c stops none that works
extern struct task_struct thread_of_all;
extern bool is_asleep, is_raised;
void sleep_in_disable(void);
struct napi_struct *napi_by_id(unsigned int number);
static int napi_threaded_poll(void *data);
void __napi_schedule(struct napi_struct *n);

#endif
