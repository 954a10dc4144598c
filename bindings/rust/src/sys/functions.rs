//! The functions of the C library. `scripts/abi.py` writes this file.
use super::*;

extern "C" {
    /// Each call writes a text to an array of `room` bytes, with a terminating 0: the library's `FQ_VERSION`; the
    /// name of a status, or its message ("?" for an unknown number); the name of a trace's fault. It returns the
    /// length of the text; if that isn't below `room`, the array is unchanged.
    pub fn fq_version(to: *mut c_char, room: usize) -> usize;
    /// Each call writes a text to an array of `room` bytes, with a terminating 0: the library's `FQ_VERSION`; the
    /// name of a status, or its message ("?" for an unknown number); the name of a trace's fault. It returns the
    /// length of the text; if that isn't below `room`, the array is unchanged.
    pub fn fq_status_text(status: u32, to: *mut c_char, room: usize) -> usize;
    /// Each call writes a text to an array of `room` bytes, with a terminating 0: the library's `FQ_VERSION`; the
    /// name of a status, or its message ("?" for an unknown number); the name of a trace's fault. It returns the
    /// length of the text; if that isn't below `room`, the array is unchanged.
    pub fn fq_status_message(status: u32, to: *mut c_char, room: usize) -> usize;
    /// Each call writes a text to an array of `room` bytes, with a terminating 0: the library's `FQ_VERSION`; the
    /// name of a status, or its message ("?" for an unknown number); the name of a trace's fault. It returns the
    /// length of the text; if that isn't below `room`, the array is unchanged.
    pub fn fq_fault_text(fault: u32, to: *mut c_char, room: usize) -> usize;
    /// Returns the library's version as a number, as `FQ_VERSION_NUMBER` is that of the header.
    pub fn fq_version_number() -> u32;
    /// The structs that calls read and write and that never grow. `fq_struct_size` returns the size of one in bytes,
    /// so that bindings can check theirs; 0 for an unknown number.
    pub fn fq_struct_size(which: u32) -> usize;
    /// Makes a new limit between `min` and `max` bytes, with the slack hold time `hold_ms` (`dql_init`). `*dql` has
    /// to be all 0 or a limit; it is unchanged if the call returns `FQ_BAD_BOUNDS`. Returns `FQ_OK`; `FQ_BAD_BOUNDS`.
    pub fn fq_dql_init(dql: *mut fq_dql, min: u32, max: u32, hold_ms: u64, now_ms: u64) -> u32;
    /// Adds an object of `count` bytes that was sent to the device (`dql_queued`). Returns `FQ_OK`; `FQ_TOO_LARGE`;
    /// `FQ_TOO_MUCH_IN_FLIGHT`.
    pub fn fq_dql_queued(dql: *mut fq_dql, count: u32) -> u32;
    /// Completes `count` bytes, and adapts the limit (`dql_completed`). Returns `FQ_OK`; `FQ_MORE_THAN_QUEUED`.
    pub fn fq_dql_completed(dql: *mut fq_dql, count: u32, now_ms: u64) -> u32;
    /// Resets the limit: nothing is in flight (`dql_reset`).
    pub fn fq_dql_reset(dql: *mut fq_dql, now_ms: u64);
    /// Returns the limit in bytes.
    pub fn fq_dql_limit(dql: *const fq_dql) -> u32;
    /// Returns the bytes that may still be sent to the device (`dql_avail`); if negative, the queue has to be
    /// stopped.
    pub fn fq_dql_avail(dql: *const fq_dql) -> i64;
    /// Returns the bytes that were queued and aren't completed.
    pub fn fq_dql_in_flight(dql: *const fq_dql) -> u32;
    /// Returns a new instance (`netif_napi_add`), which is disabled.
    pub fn fq_napi_new(controller: u32) -> fq_napi;
    /// Requests a poll (`napi_schedule_prep`). Returns `FQ_GRANTED`; `FQ_MISSED`; `FQ_DISABLED`.
    pub fn fq_napi_schedule(napi: *mut fq_napi, who: u32) -> u32;
    /// Queues a granted instance (`____napi_schedule`), or puts a polled one on the list again. Returns `FQ_OK`;
    /// `FQ_BAD_KIND`; `FQ_NOT_ALLOWED`, also for a polled one and `FQ_THREAD`.
    pub fn fq_napi_hand(napi: *mut fq_napi, who: u32, kind: u32) -> u32;
    /// Takes the instance from the list or as its thread. Returns `FQ_TAKEN`; `FQ_BAD_KIND`; `FQ_NOT_THERE`.
    pub fn fq_napi_take(napi: *mut fq_napi, who: u32, kind: u32) -> u32;
    /// Ends a poll (`napi_complete_done`). Returns `FQ_RELEASED`; `FQ_AGAIN`; `FQ_HELD`; `FQ_NOT_ALLOWED`.
    pub fn fq_napi_complete(napi: *mut fq_napi, who: u32) -> u32;
    /// Ends the caller's poll as the kernel does (`__napi_poll`). `full` says that it returned its whole weight.
    /// After a full poll the instance is on the list again, or stays with its thread (`FQ_HELD`: keep polling),
    /// unless a disable is pending. After any other poll, and if a disable is pending, it is completed, and queued
    /// again if a request was missed: for its thread if `FQ_BIT_THREADED` is set. Sets `*next` to how the poll ended,
    /// for `fq_run_polled`; after `FQ_NEXT_AGAIN_THREAD` wake the thread. Returns `FQ_OK`; `FQ_HELD`, also for a busy
    /// poller; `FQ_NOT_ALLOWED`. `*next` is `FQ_NEXT_GONE` unless it returns `FQ_OK`.
    pub fn fq_napi_end(napi: *mut fq_napi, who: u32, full: bool, next: *mut u32) -> u32;
    /// Takes an idle instance to busy poll it (`napi_busy_loop`). Returns `FQ_TAKEN`; `FQ_BUSY`.
    pub fn fq_napi_busy_take(napi: *mut fq_napi, who: u32) -> u32;
    /// Stops busy polling (`busy_poll_stop`); one poll has to follow. Returns `FQ_OK`; `FQ_NOT_ALLOWED`.
    pub fn fq_napi_busy_stop(napi: *mut fq_napi, who: u32) -> u32;
    /// Sets whether polls are queued for the instance's own thread (`dev_set_threaded`).
    pub fn fq_napi_set_threaded(napi: *mut fq_napi, who: u32, threaded: bool);
    /// The controller's calls. `napi_disable` is `fq_napi_mark_disable`, `fq_napi_take_disable` until it returns
    /// `FQ_TAKEN`, and `fq_napi_unmark`; `napi_enable` is `fq_napi_enable`. `fq_napi_take_disable` returns `FQ_TAKEN`
    /// or `FQ_BUSY`, the others `FQ_OK`; all return `FQ_NOT_ALLOWED` for another caller, or if the state doesn't
    /// allow the call. Call `fq_napi_schedule` once after each enable: an earlier request isn't polled, and a masked
    /// card raises no interrupt.
    pub fn fq_napi_mark_disable(napi: *mut fq_napi, who: u32) -> u32;
    /// The controller's calls. `napi_disable` is `fq_napi_mark_disable`, `fq_napi_take_disable` until it returns
    /// `FQ_TAKEN`, and `fq_napi_unmark`; `napi_enable` is `fq_napi_enable`. `fq_napi_take_disable` returns `FQ_TAKEN`
    /// or `FQ_BUSY`, the others `FQ_OK`; all return `FQ_NOT_ALLOWED` for another caller, or if the state doesn't
    /// allow the call. Call `fq_napi_schedule` once after each enable: an earlier request isn't polled, and a masked
    /// card raises no interrupt.
    pub fn fq_napi_take_disable(napi: *mut fq_napi, who: u32) -> u32;
    /// The controller's calls. `napi_disable` is `fq_napi_mark_disable`, `fq_napi_take_disable` until it returns
    /// `FQ_TAKEN`, and `fq_napi_unmark`; `napi_enable` is `fq_napi_enable`. `fq_napi_take_disable` returns `FQ_TAKEN`
    /// or `FQ_BUSY`, the others `FQ_OK`; all return `FQ_NOT_ALLOWED` for another caller, or if the state doesn't
    /// allow the call. Call `fq_napi_schedule` once after each enable: an earlier request isn't polled, and a masked
    /// card raises no interrupt.
    pub fn fq_napi_unmark(napi: *mut fq_napi, who: u32) -> u32;
    /// The controller's calls. `napi_disable` is `fq_napi_mark_disable`, `fq_napi_take_disable` until it returns
    /// `FQ_TAKEN`, and `fq_napi_unmark`; `napi_enable` is `fq_napi_enable`. `fq_napi_take_disable` returns `FQ_TAKEN`
    /// or `FQ_BUSY`, the others `FQ_OK`; all return `FQ_NOT_ALLOWED` for another caller, or if the state doesn't
    /// allow the call. Call `fq_napi_schedule` once after each enable: an earlier request isn't polled, and a masked
    /// card raises no interrupt.
    pub fn fq_napi_enable(napi: *mut fq_napi, who: u32, threaded: bool) -> u32;
    /// Returns the state word, a sum of `FQ_BIT_..`
    pub fn fq_napi_word(napi: *const fq_napi) -> u64;
    /// Frees the object of a handle, which is unset after that. AN OBJECT IN USE IS NOT FREED: for a caller that
    /// isn't at rest, a controller that isn't off, and a list in a run it returns `FQ_NOT_ALLOWED`, and the handle
    /// still has its object, which leaks unless a later call frees it. The others are freed in any state: a ring with
    /// packets, which are lost, so poll them before; one end of a ring that was split, or the input of an instance's
    /// ring, whose other end stays; a transmit ring with packets; a list with numbers; a driver with open devices.
    /// Returns `FQ_OK`; `FQ_BAD_HANDLE`; `FQ_NOT_ALLOWED`.
    pub fn fq_free(handle: *mut fq_handle) -> u32;
    /// Frees the object of a handle in any state, so nothing leaks. Returns `FQ_OK`; `FQ_BAD_HANDLE`. An instance
    /// whose poller was abandoned is never polled again. The status may be ignored.
    pub fn fq_abandon(handle: *mut fq_handle) -> u32;
    /// Moves the object of `from` to `to`; `from` is unset after that. Returns `FQ_OK`; `FQ_IN_USE` if `to` is set;
    /// `FQ_BAD_HANDLE`.
    pub fn fq_move(from: *mut fq_handle, to: *mut fq_handle) -> u32;
    /// Makes a ring of capacity 1 to 65536. Returns `FQ_OK`; `FQ_IN_USE`; `FQ_BAD_CAPACITY`; `FQ_OUT_OF_MEMORY`.
    pub fn fq_ring_new(ring: *mut fq_ring, capacity: usize) -> u32;
    /// Puts a packet into the ring, after all others. Returns `FQ_OK`; `FQ_FULL`; `FQ_BAD_HANDLE`.
    pub fn fq_ring_put(ring: *mut fq_ring, number: u64, bytes: u32) -> u32;
    /// Puts the packets of an array into the ring, after all others and in order: as many of the first ones as fit.
    /// Sets `*count` to how many. Returns `FQ_OK` if all fit; `FQ_FULL` if not; `FQ_BAD_HANDLE`, and `*count` is 0. A
    /// poll sees all of them at once. A circular pool of buffers needs as many as the ring's capacity, plus 64 for a
    /// poll, plus the longest burst, which is 1 for `fq_ring_put`.
    pub fn fq_ring_put_all(
        ring: *mut fq_ring,
        packets: *const fq_packet,
        len: usize,
        count: *mut usize,
    ) -> u32;
    /// Removes the first packets from the ring, at most `weight` (1 to 64), and writes them to an array of `len`
    /// elements, at least the weight. Returns `FQ_OK`, and sets `*count` to their number. Otherwise `*count` is 0:
    /// `FQ_BAD_WEIGHT`; `FQ_NO_ROOM`; `FQ_BAD_HANDLE`, also for a ring whose poll end belongs to an instance or to
    /// another handle.
    pub fn fq_ring_poll(
        ring: *mut fq_ring,
        weight: usize,
        out: *mut fq_packet,
        len: usize,
        count: *mut usize,
    ) -> u32;
    /// Sets `*counts` to the counts of a ring's polls. The handle has to own the poll end: it is a ring, or the poll
    /// end of one that was split; a caller that polls; the controller of a disabled instance. Returns `FQ_OK`;
    /// `FQ_BAD_HANDLE`; `FQ_NOT_ALLOWED` for any other.
    pub fn fq_count_sized(handle: *const fq_handle, counts: *mut fq_counts) -> u32;
    /// Sets `*shown` to the state of a ring, or of its input. Returns `FQ_OK`; `FQ_BAD_HANDLE`.
    pub fn fq_ring_show_sized(ring: *const fq_ring, shown: *mut fq_ring_shown) -> u32;
    /// Splits a ring without an instance for two threads: after it, `ring` is the ring's input, for puts, and `out`
    /// its poll end, for polls. Each is freed separately. Returns `FQ_OK`; `FQ_IN_USE`; `FQ_BAD_HANDLE`;
    /// `FQ_OUT_OF_MEMORY`.
    pub fn fq_ring_split(ring: *mut fq_ring, out: *mut fq_ring) -> u32;
    /// Frees a ring that was never split, and sets `*totals` to its totals; the handle is unset after that. Returns
    /// `FQ_OK`; `FQ_BAD_HANDLE`, and nothing changes.
    pub fn fq_ring_finish_sized(ring: *mut fq_ring, totals: *mut fq_totals) -> u32;
    /// A ring of places, without copies: its packets, of any type, are in an array of the program's, of `capacity`
    /// elements, and the calls say which elements an end may use. Sets two handles: `ring` is the input end, by which
    /// one thread publishes packets, and `out` the output end, by which one thread takes them. Each is freed
    /// separately. Returns `FQ_OK`; `FQ_IN_USE`; `FQ_BAD_CAPACITY`, unless the capacity is 1 to 65536;
    /// `FQ_OUT_OF_MEMORY`.
    pub fn fq_ring_places(ring: *mut fq_ring, out: *mut fq_ring, capacity: usize) -> u32;
    /// For the input end: publishes the packets in the first `publish` of the elements that it claimed last, and then
    /// claims up to `want` elements, at most 64: `*count` of them, from the index `*first` on. The program may write
    /// them until the end's next call. They are fewer than `want` at the end of the array, where the next claim
    /// begins at index 0, and if the ring is full. Claims that aren't published are claimed again. Returns `FQ_OK`,
    /// also if `*count` is 0. Otherwise nothing changes, and both are 0: `FQ_BAD_HANDLE`; `FQ_NOT_ALLOWED` if fewer
    /// were claimed.
    pub fn fq_ring_claim(
        ring: *mut fq_ring,
        publish: usize,
        want: usize,
        first: *mut usize,
        count: *mut usize,
    ) -> u32;
    /// For the output end: releases the first `release` of the elements that it peeked at last, which may then be
    /// claimed again, and peeks at up to `want` published packets, at most 64, the oldest ones: `*count` of them,
    /// from the index `*first` on. The program may read and write them until the end's next call. They are fewer than
    /// `want` at the end of the array, and if no more are published. Packets that aren't released are peeked at
    /// again. Returns `FQ_OK`, also if `*count` is 0. Otherwise nothing changes, and both are 0: `FQ_BAD_HANDLE`;
    /// `FQ_NOT_ALLOWED` if fewer were peeked at.
    pub fn fq_ring_peek(
        ring: *mut fq_ring,
        release: usize,
        want: usize,
        first: *mut usize,
        count: *mut usize,
    ) -> u32;
    /// Makes a ring of capacity 1 to 65536, not stopped, over a new limit between `min` and `max` bytes, with the
    /// slack hold time `hold_ms` (`dql_init`). `fq_free` frees it, whatever it holds. Returns `FQ_OK`; `FQ_IN_USE`;
    /// `FQ_BAD_BOUNDS`; `FQ_BAD_CAPACITY`; `FQ_OUT_OF_MEMORY`.
    pub fn fq_tx_new(
        tx: *mut fq_tx,
        capacity: usize,
        min: u32,
        max: u32,
        hold_ms: u64,
        now_ms: u64,
    ) -> u32;
    /// Sends a packet of `bytes` bytes to the device (`netdev_tx_sent_queue`): adds it to the ring, and stops the
    /// queue if `avail` becomes negative. Returns `FQ_OK`; otherwise nothing is sent: `FQ_STOPPED`, else `FQ_FULL`,
    /// else `FQ_TOO_LARGE`, else `FQ_TOO_MUCH_IN_FLIGHT`; `FQ_BAD_HANDLE`.
    pub fn fq_tx_send(tx: *mut fq_tx, bytes: u32) -> u32;
    /// Completes the `count` oldest packets (`netdev_tx_completed_queue`). If these have any bytes, the limit adapts,
    /// and the queue is started if the limit has room again. Returns `FQ_OK`; `FQ_MORE_THAN_SENT`, and nothing is
    /// completed; `FQ_BAD_HANDLE`.
    pub fn fq_tx_done(tx: *mut fq_tx, count: u32, now_ms: u64) -> u32;
    /// Sets `*state` to the state of the ring. Returns `FQ_OK`; `FQ_BAD_HANDLE`.
    pub fn fq_tx_state_sized(tx: *const fq_tx, state: *mut fq_tx_shown) -> u32;
    /// Checks a ring at each tick of that timer. Sets `*stuck` to whether the ring has been stopped, with no byte
    /// completed, for `limit_ms` since the first check that found it so; if the clock went back to before that check,
    /// 0 ms have passed. Returns `FQ_OK`; `FQ_BAD_HANDLE`, and `*stuck` is false.
    pub fn fq_tx_watch(
        tx: *const fq_tx,
        watchdog: *mut fq_tx_watchdog,
        limit_ms: u64,
        now_ms: u64,
        stuck: *mut bool,
    ) -> u32;
    /// Makes an instance over the ring's poll end, with its controller and an array of `count` (2 to 8) callers. It
    /// is disabled. After it, `ring` is only the ring's input. Returns `FQ_OK`; `FQ_IN_USE`; `FQ_BAD_COUNT`;
    /// `FQ_BAD_HANDLE`; `FQ_OUT_OF_MEMORY`.
    pub fn fq_shared_new(
        ring: *mut fq_ring,
        control: *mut fq_control,
        callers: *mut fq_caller,
        count: usize,
    ) -> u32;
    /// Makes an instance without a ring, for a card that the program polls itself; `fq_caller_poll` returns no
    /// packets. Otherwise like `fq_shared_new`. Returns `FQ_OK`; `FQ_IN_USE`; `FQ_BAD_COUNT`; `FQ_OUT_OF_MEMORY`.
    pub fn fq_shared_bare(control: *mut fq_control, callers: *mut fq_caller, count: usize) -> u32;
    /// The calls of a caller of a shared instance. Each makes one attempt, after checks for `FQ_BAD_KIND`,
    /// `FQ_BAD_WEIGHT`, `FQ_NO_ROOM` and `FQ_BAD_HANDLE`; `fq_caller_schedule_prep` and `fq_caller_complete_done`
    /// repeat it while another thread changes the instance. A caller at rest, which owns nothing, may request a poll
    /// (`napi_schedule_prep`), take the instance from the list or as its thread, take it to busy poll it
    /// (`napi_busy_loop`), and set whether polls are queued for its thread (`dev_set_threaded`). `FQ_GRANTED`,
    /// `FQ_MISSED`, `FQ_DISABLED`, `FQ_CHANGED`.
    pub fn fq_caller_schedule(caller: *mut fq_caller) -> u32;
    /// The calls of a caller of a shared instance. Each makes one attempt, after checks for `FQ_BAD_KIND`,
    /// `FQ_BAD_WEIGHT`, `FQ_NO_ROOM` and `FQ_BAD_HANDLE`; `fq_caller_schedule_prep` and `fq_caller_complete_done`
    /// repeat it while another thread changes the instance. A caller at rest, which owns nothing, may request a poll
    /// (`napi_schedule_prep`), take the instance from the list or as its thread, take it to busy poll it
    /// (`napi_busy_loop`), and set whether polls are queued for its thread (`dev_set_threaded`). `FQ_GRANTED`,
    /// `FQ_MISSED`, `FQ_DISABLED`.
    pub fn fq_caller_schedule_prep(caller: *mut fq_caller) -> u32;
    /// The calls of a caller of a shared instance. Each makes one attempt, after checks for `FQ_BAD_KIND`,
    /// `FQ_BAD_WEIGHT`, `FQ_NO_ROOM` and `FQ_BAD_HANDLE`; `fq_caller_schedule_prep` and `fq_caller_complete_done`
    /// repeat it while another thread changes the instance. A caller at rest, which owns nothing, may request a poll
    /// (`napi_schedule_prep`), take the instance from the list or as its thread, take it to busy poll it
    /// (`napi_busy_loop`), and set whether polls are queued for its thread (`dev_set_threaded`). `FQ_TAKEN`,
    /// `FQ_NOT_THERE`.
    pub fn fq_caller_take(caller: *mut fq_caller, kind: u32) -> u32;
    /// The calls of a caller of a shared instance. Each makes one attempt, after checks for `FQ_BAD_KIND`,
    /// `FQ_BAD_WEIGHT`, `FQ_NO_ROOM` and `FQ_BAD_HANDLE`; `fq_caller_schedule_prep` and `fq_caller_complete_done`
    /// repeat it while another thread changes the instance. A caller at rest, which owns nothing, may request a poll
    /// (`napi_schedule_prep`), take the instance from the list or as its thread, take it to busy poll it
    /// (`napi_busy_loop`), and set whether polls are queued for its thread (`dev_set_threaded`). `FQ_TAKEN`,
    /// `FQ_BUSY`, `FQ_CHANGED`.
    pub fn fq_caller_busy_take(caller: *mut fq_caller) -> u32;
    /// The calls of a caller of a shared instance. Each makes one attempt, after checks for `FQ_BAD_KIND`,
    /// `FQ_BAD_WEIGHT`, `FQ_NO_ROOM` and `FQ_BAD_HANDLE`; `fq_caller_schedule_prep` and `fq_caller_complete_done`
    /// repeat it while another thread changes the instance. A caller at rest, which owns nothing, may request a poll
    /// (`napi_schedule_prep`), take the instance from the list or as its thread, take it to busy poll it
    /// (`napi_busy_loop`), and set whether polls are queued for its thread (`dev_set_threaded`). `FQ_OK`.
    pub fn fq_caller_set_threaded(caller: *mut fq_caller, threaded: bool) -> u32;
    /// A caller that was granted the instance has to queue it (`____napi_schedule`). `FQ_OK`.
    pub fn fq_caller_hand(caller: *mut fq_caller, kind: u32) -> u32;
    /// A caller that polls may poll the ring, like `fq_ring_poll`, and then requeues the instance or completes
    /// (`napi_complete_done`).
    pub fn fq_caller_poll(
        caller: *mut fq_caller,
        weight: usize,
        out: *mut fq_packet,
        len: usize,
        count: *mut usize,
    ) -> u32;
    /// A caller that polls may poll the ring, like `fq_ring_poll`, and then requeues the instance or completes
    /// (`napi_complete_done`). `FQ_OK`: it is on the list again.
    pub fn fq_caller_requeue(caller: *mut fq_caller) -> u32;
    /// A caller that polls may poll the ring, like `fq_ring_poll`, and then requeues the instance or completes
    /// (`napi_complete_done`). `FQ_RELEASED`, `FQ_AGAIN`, `FQ_CHANGED`; `FQ_HELD` for a busy poller.
    pub fn fq_caller_complete(caller: *mut fq_caller) -> u32;
    /// A caller that polls may poll the ring, like `fq_ring_poll`, and then requeues the instance or completes
    /// (`napi_complete_done`). `FQ_RELEASED`, `FQ_AGAIN`; `FQ_HELD` for a busy poller.
    pub fn fq_caller_complete_done(caller: *mut fq_caller) -> u32;
    /// A caller that busy polls may poll and complete, and stops (`busy_poll_stop`): it then polls once more.
    /// `FQ_OK`, `FQ_CHANGED`.
    pub fn fq_caller_busy_stop(caller: *mut fq_caller) -> u32;
    /// Sets `*word` to the state word, a sum of `FQ_BIT_..`, in any state of the caller. Returns `FQ_OK`;
    /// `FQ_BAD_HANDLE`.
    pub fn fq_caller_look(caller: *const fq_caller, word: *mut u64) -> u32;
    /// Sets `*answers` to how often the caller's calls returned each result since it was made. Returns `FQ_OK`;
    /// `FQ_BAD_HANDLE`.
    pub fn fq_caller_count_sized(caller: *const fq_caller, answers: *mut fq_answers) -> u32;
    /// Queues a granted instance as the kernel does (`____napi_schedule`): for its thread if `FQ_BIT_THREADED` is
    /// set. Sets `*next` to `FQ_NEXT_AGAIN` or `FQ_NEXT_AGAIN_THREAD`. Returns `FQ_OK`; `FQ_BAD_HANDLE`;
    /// `FQ_NOT_ALLOWED`. `*next` is `FQ_NEXT_GONE` unless it returns `FQ_OK`.
    pub fn fq_caller_hand_again(caller: *mut fq_caller, next: *mut u32) -> u32;
    /// Ends a poll as the kernel does (`__napi_poll`). `full` says that it returned its whole weight. After a full
    /// poll, if no disable is pending, a caller that took the instance from the list puts it on the list again, and
    /// one that took it as its thread polls again, at once (`FQ_HELD`). After any other poll the instance is
    /// completed (`fq_caller_complete_done`), and queued again if a request was missed (`fq_caller_hand_again`). Sets
    /// `*next` to how the poll ended, for `fq_run_polled`: `FQ_NEXT_GONE`, `FQ_NEXT_AGAIN`, `FQ_NEXT_AGAIN_THREAD`,
    /// `FQ_NEXT_REPOLL`. After `FQ_NEXT_AGAIN` and `FQ_NEXT_REPOLL` the number still has to be listed, after
    /// `FQ_NEXT_AGAIN_THREAD` the thread still has to be woken; that may follow a poll from the list too. Returns
    /// `FQ_OK`; `FQ_HELD`: the caller keeps polling, as a busy poller does; `FQ_NOT_ALLOWED` if it doesn't poll;
    /// `FQ_BAD_HANDLE`. `*next` is `FQ_NEXT_GONE` unless it returns `FQ_OK`. A caller polls as the thread while
    /// `FQ_BIT_SCHED_THREADED` is set, which `fq_caller_requeue` doesn't clear.
    pub fn fq_caller_end(caller: *mut fq_caller, full: bool, next: *mut u32) -> u32;
    /// The calls of the controller. If the instance is off: enable (`napi_enable`). If it is on: mark. If it is
    /// marked: try to take, until that returns `FQ_TAKEN`, and the instance is off again (`napi_disable`). Request a
    /// poll once after each enable, by a caller (`fq_caller_request`), or enable by `fq_control_open`, which does so:
    /// an earlier request was missed and isn't polled, and a masked card with a full ring would wait forever.
    /// `FQ_OK`, `FQ_CHANGED`.
    pub fn fq_control_enable(control: *mut fq_control, threaded: bool) -> u32;
    /// The calls of the controller. If the instance is off: enable (`napi_enable`). If it is on: mark. If it is
    /// marked: try to take, until that returns `FQ_TAKEN`, and the instance is off again (`napi_disable`). Request a
    /// poll once after each enable, by a caller (`fq_caller_request`), or enable by `fq_control_open`, which does so:
    /// an earlier request was missed and isn't polled, and a masked card with a full ring would wait forever.
    /// `FQ_OK`.
    pub fn fq_control_mark(control: *mut fq_control) -> u32;
    /// The calls of the controller. If the instance is off: enable (`napi_enable`). If it is on: mark. If it is
    /// marked: try to take, until that returns `FQ_TAKEN`, and the instance is off again (`napi_disable`). Request a
    /// poll once after each enable, by a caller (`fq_caller_request`), or enable by `fq_control_open`, which does so:
    /// an earlier request was missed and isn't polled, and a masked card with a full ring would wait forever.
    /// `FQ_TAKEN`, `FQ_BUSY`, `FQ_CHANGED`.
    pub fn fq_control_try_take(control: *mut fq_control) -> u32;
    /// Makes one step of a driver's open (`on`) or stop; repeat it between the driver's polls until it returns
    /// `FQ_OK`. After `FQ_OK` the instance is enabled, and a poll still has to be requested once (`fq_control_open`
    /// does so); or it is off. Returns `FQ_OK`, also to stop an instance that is off; `FQ_BUSY`: a disable is
    /// pending, and the owner has to complete the instance before the next step; `FQ_NOT_ALLOWED` to open one that
    /// isn't off; `FQ_BAD_HANDLE`.
    pub fn fq_control_step(control: *mut fq_control, on: bool, threaded: bool) -> u32;
    /// Returns `FQ_OK` if the caller belongs to the controller's instance, otherwise `FQ_BAD_HANDLE`.
    pub fn fq_control_has(control: *const fq_control, caller: *const fq_caller) -> u32;
    /// Makes a poll list for up to 64 numbers of devices; for more devices use more lists, for example one for each
    /// processor. A number leaves the list when its poll ends with `FQ_NEXT_GONE`, or by `fq_list_remove`. Returns
    /// `FQ_OK`; `FQ_IN_USE`; `FQ_OUT_OF_MEMORY`.
    pub fn fq_list_new(list: *mut fq_list) -> u32;
    /// Puts a number at the list's tail. Returns `FQ_OK`; `FQ_IN_USE` if it is on the list, or waits in the run over
    /// it; `FQ_FULL` if the list and its run hold 64, including the number that is being polled: then end that poll
    /// with `FQ_NEXT_AGAIN` instead of a push.
    pub fn fq_list_push(list: *mut fq_list, id: u32) -> u32;
    /// Removes a number from the list, for a device that goes away; the others keep their order. It may be called
    /// during a run. Returns `FQ_OK`; `FQ_BUSY` if it isn't on the list, but the run over it has it, which polls it,
    /// will poll it, or lists it at its end: then end its poll with `FQ_NEXT_GONE`, or end the run first;
    /// `FQ_NOT_THERE` if neither the list nor its run has it; `FQ_BAD_HANDLE`. Nothing changes unless it returns
    /// `FQ_OK`.
    pub fn fq_list_remove(list: *mut fq_list, id: u32) -> u32;
    /// Sets `*len` to how many numbers the list and its run hold, including the one that is being polled. Returns
    /// `FQ_OK`; `FQ_BAD_HANDLE`.
    pub fn fq_list_len(list: *const fq_list, len: *mut u32) -> u32;
    /// Begins a run with a budget in packets, a weight in packets per poll, and a window in polls, as in struct
    /// `fq_settings`. Returns `FQ_OK`; `FQ_NOT_ALLOWED` if a run is in progress; `FQ_BAD_WEIGHT`; `FQ_BAD_BUDGET`.
    pub fn fq_run_begin(list: *mut fq_list, budget: u32, weight: u32, window: u32) -> u32;
    /// Sets `*id` to the number to poll next. Returns `FQ_OK`; `FQ_DONE` if the run is over; `FQ_NOT_ALLOWED` without
    /// a run, or if the last poll wasn't reported.
    pub fn fq_run_next(list: *mut fq_list, id: *mut u32) -> u32;
    /// Reports the outcome of the poll: its packets, and how it ended. Returns `FQ_OK`; `FQ_NOT_ALLOWED`;
    /// `FQ_BAD_WORK` above the weight; `FQ_BAD_NEXT`; `FQ_IN_USE` if the number would be listed twice, and the poll
    /// still has to be reported. It isn't checked that `FQ_NEXT_REPOLL` follows a whole weight, because a device may
    /// have its own weight, below the run's; nor that `FQ_NEXT_ABSENT` comes without packets.
    pub fn fq_run_polled(list: *mut fq_list, work: u32, next: u32) -> u32;
    /// Ends the run, and sets `*report`. The numbers that weren't polled, and those to be polled again, are on the
    /// list. Returns `FQ_OK`; `FQ_NOT_ALLOWED`.
    pub fn fq_run_end_sized(list: *mut fq_list, report: *mut fq_run_report) -> u32;
    /// Like `fq_driver_new`, for bindings. Drivers with different salts number their actions differently, so that
    /// none takes a report that is another one's.
    pub fn fq_driver_new_salted(
        driver: *mut fq_driver,
        devices: u32,
        budget: u32,
        weight: u32,
        window: u32,
        salt: u16,
    ) -> u32;
    /// Opens a closed device (`napi_enable`): its card will be unmasked and looked at, so that packets which came
    /// before are polled too. Returns `FQ_OK`; `FQ_NOT_DUE` if it isn't closed; `FQ_BAD_DEVICE`; `FQ_BAD_HANDLE`.
    pub fn fq_driver_open(driver: *mut fq_driver, device: u32) -> u32;
    /// Stops an open device (`napi_disable`). Polls that were requested are still made, its card is masked, and then
    /// it is closed, which `fq_driver_show` shows. Packets that stay in the card are polled after the next open.
    /// Returns `FQ_OK`; `FQ_NOT_DUE` if it is closed or being stopped; `FQ_BAD_DEVICE`; `FQ_BAD_HANDLE`.
    pub fn fq_driver_stop(driver: *mut fq_driver, device: u32) -> u32;
    /// Reports the action in `*todo`, unless its number is 0; then the interrupts of the cards of the devices whose
    /// bits are set, device d's at bit d, as `fq_driver_interrupt` does; and sets `*todo` to what has to be done now.
    /// If all that is due is to mask one card, and no device is listed or polled, it is the fetch of that device,
    /// with `mask`. Returns `FQ_OK`, also if the driver didn't wait for this report any more, which `todo->status`
    /// says; otherwise `*todo` is `FQ_TODO_FAILED`: `FQ_BAD_HANDLE`; `FQ_BAD_DEVICE` for a bit without a device, and
    /// nothing changes; `FQ_NOT_REPORTED` if the driver waits for the report of an action and this isn't it, and
    /// `fq_driver_next` returns that action again; `FQ_BAD_WORK` if a fetch took more than `most`. After these two
    /// the action isn't reported, but the interrupts are.
    pub fn fq_driver_turn(driver: *mut fq_driver, interrupts: u64, todo: *mut fq_todo) -> u32;
    /// Reports an interrupt of a card (`napi_schedule`), at any time, also before an action that is due is reported.
    /// Returns `FQ_GRANTED`: a poll was requested, whose first action is to mask the card; `FQ_MISSED`: a poll is
    /// requested already, and one more follows, or the device is closed; `FQ_DISABLED`: it is being stopped;
    /// `FQ_BAD_DEVICE`; `FQ_BAD_HANDLE`. It may be called too often: an interrupt without packets costs one empty
    /// poll.
    pub fn fq_driver_interrupt(driver: *mut fq_driver, device: u32) -> u32;
    /// Sets `*todo` to what has to be done now. It is the same action, with the same number, until that is reported
    /// or isn't due any more; a fetch that is returned again has `mask`. Returns `FQ_OK`; `FQ_BAD_HANDLE`, and
    /// `*todo` is `FQ_TODO_FAILED`.
    pub fn fq_driver_next(driver: *mut fq_driver, todo: *mut fq_todo) -> u32;
    /// Reports that the action in `*todo` was done, with `todo->packets` and `todo->rearm`; only these and its number
    /// are read. Call it before the next call of `fq_driver_next`, or not at all: an action that isn't reported is
    /// returned again. Returns `FQ_OK`; `FQ_BAD_HANDLE`; `FQ_NOT_DUE`: the driver doesn't wait for this report any
    /// more, because of an interrupt, an open, a stop or an earlier report, or it is another driver's, and
    /// `fq_driver_next` says what is due instead; `FQ_BAD_WORK` if a fetch took more than `most`. Nothing changes
    /// unless it returns `FQ_OK`.
    pub fn fq_driver_done(driver: *mut fq_driver, todo: *const fq_todo) -> u32;
    /// Reports the action in `*todo`, unless its number is 0, and sets `*todo` to what has to be done now:
    /// `fq_driver_done` and then `fq_driver_next` in one call. Report interrupts that came meanwhile before it, so
    /// that they count before the next poll. Returns `FQ_OK`, also if the driver didn't wait for this report any
    /// more, which `todo->status` says; otherwise nothing changes, and `*todo` is `FQ_TODO_FAILED`: `FQ_BAD_HANDLE`;
    /// `FQ_NOT_REPORTED` and `FQ_BAD_WORK` as in `fq_driver_turn`.
    pub fn fq_driver_step(driver: *mut fq_driver, todo: *mut fq_todo) -> u32;
    /// Reports that the timer of a device expired (`napi_watchdog`), at any time, also if it isn't set any more.
    /// Returns `FQ_GRANTED`: a poll was requested; `FQ_NOT_DUE`: one is requested already, or the device is closed or
    /// being stopped, and nothing has changed; `FQ_BAD_DEVICE`; `FQ_BAD_HANDLE`.
    pub fn fq_driver_timer(driver: *mut fq_driver, device: u32) -> u32;
    /// Sets the settings of a closed device; begin with `FQ_DEVICE_INIT`. With deferral, a completion leaves the card
    /// masked, and `FQ_TODO_TIMER` follows; with busy polling, the device is polled again until it was empty so often
    /// in a row. A fetch must not unmask the card then, because that ends both. A timer may still be set after a
    /// stop: cancel it, or report it. Returns `FQ_OK`; `FQ_BAD_SIZE`; `FQ_BAD_HANDLE`; `FQ_BAD_DEVICE`;
    /// `FQ_BAD_WEIGHT`; `FQ_BAD_SETTING` for `defer_hard_irqs` without `gro_flush_timeout`; `FQ_NOT_ALLOWED` if the
    /// device isn't closed.
    pub fn fq_driver_set_sized(
        driver: *mut fq_driver,
        device: u32,
        settings: *const fq_device_settings,
    ) -> u32;
    /// Ends the run in progress, for a program with a clock of its own (`netdev_budget_usecs`): a fetch that is due
    /// already is still made, and then `FQ_TODO_ENDED` follows, whose report says that the run was squeezed. Returns
    /// `FQ_OK`; `FQ_NOT_DUE` if no run is in progress; `FQ_BAD_HANDLE`. The status may be ignored if the handle is
    /// right.
    pub fn fq_driver_end_run(driver: *mut fq_driver) -> u32;
    /// Sets `*shown` to the state of a device and the counts of its polls. Returns `FQ_OK`; `FQ_BAD_HANDLE`;
    /// `FQ_BAD_DEVICE`.
    pub fn fq_driver_show_sized(
        driver: *const fq_driver,
        device: u32,
        shown: *mut fq_device_shown,
    ) -> u32;
    /// Replays a trace of `len` bytes, and writes its report to an array of `room` bytes. Returns `FQ_BAD_SIZE` if
    /// `settings->size` is wrong; `FQ_BAD_WEIGHT`, `FQ_BAD_BUDGET` for the settings; `FQ_OUT_OF_MEMORY`;
    /// `FQ_BAD_TRACE`, and `replayed->fault` and `replayed->row` say why; `FQ_NO_ROOM`, and `replayed->length` is the
    /// room that the report needs; `FQ_OK`, and the first `replayed->length` bytes of the array are the report, with
    /// no terminating 0. All other bytes of the array are unchanged, and all of them unless it returns `FQ_OK`. An
    /// instance's thread polls at most 131072 times at a time, which no trace of 100000 rows reaches.
    pub fn fq_replay_sized(
        settings: *const fq_settings,
        trace: *const u8,
        len: usize,
        report: *mut u8,
        room: usize,
        replayed: *mut fq_replayed,
    ) -> u32;
    /// Writes a trace with the runs that the kernel would make, because `net_rx_action` raises the softirq again if
    /// instances are left on the poll list: each softirq row that leaves some is repeated until the list is empty, at
    /// most `restarts` times; with `FQ_UNTIL_EMPTY`, or any number from 100000 on, only the list decides. A softirq
    /// row that is followed by one at the same time isn't repeated. Numbers are written in decimal, and nothing is
    /// quoted. Returns what `fq_replay` returns, and `replayed->length` is the length of the trace that it writes. A
    /// trace that would have more than 100000 rows has fault 9; the row of fault 12 counts added rows.
    pub fn fq_raise_sized(
        settings: *const fq_settings,
        restarts: u32,
        trace: *const u8,
        len: usize,
        out: *mut u8,
        room: usize,
        replayed: *mut fq_replayed,
    ) -> u32;
    /// Sets all settings to the defaults of `napi_machine`. Returns `FQ_OK`.
    pub fn fq_machine_default_sized(settings: *mut fq_machine_settings) -> u32;
    /// Runs the machine on arrivals of `len` bytes, and writes its report to an array of `room` bytes. Returns
    /// `FQ_BAD_SIZE` if `settings->size` is wrong; `FQ_BAD_SETTING`, and `ran->setting` says which;
    /// `FQ_OUT_OF_MEMORY`; `FQ_BAD_ARRIVALS`, and `ran->fault`, `ran->row` and `ran->message` say why; `FQ_NO_ROOM`,
    /// and `ran->length` is the room that the report needs; `FQ_OK`, and the first `ran->length` bytes of the array
    /// are the report, with no terminating 0. All other bytes of the array are unchanged, and all of them unless it
    /// returns `FQ_OK`.
    pub fn fq_machine_sized(
        settings: *const fq_machine_settings,
        arrivals: *const u8,
        len: usize,
        report: *mut u8,
        room: usize,
        ran: *mut fq_machine_ran,
    ) -> u32;
}
