//! `include/fintaqush.h` in Rust: its numbers, structs and functions. The head of the header says what it requires of
//! the program; the other modules of this crate meet that. `scripts/abi.py` writes this file.
#![allow(non_camel_case_types)]

mod functions;

pub use functions::*;
use std::os::raw::{c_char, c_void};

/// Done.
pub const FQ_OK: u32 = 0;
/// Limit: min is above max, or max above 1879048192 bytes.
pub const FQ_BAD_BOUNDS: u32 = 1;
/// Limit, send: an object of more than 268435455 bytes.
pub const FQ_TOO_LARGE: u32 = 2;
/// Limit, send: more than 1073741823 bytes would be in flight.
pub const FQ_TOO_MUCH_IN_FLIGHT: u32 = 3;
/// Limit: more bytes are completed than are in flight.
pub const FQ_MORE_THAN_QUEUED: u32 = 4;
/// Schedule: the caller owns the instance, and has to queue it.
pub const FQ_GRANTED: u32 = 16;
/// Schedule: already scheduled: one more poll follows, unless the instance is disabled.
pub const FQ_MISSED: u32 = 17;
/// Schedule: a disable is pending, and no poll was requested.
pub const FQ_DISABLED: u32 = 18;
/// Take, busy take, take disable: the caller owns the instance.
pub const FQ_TAKEN: u32 = 19;
/// Take, remove: the instance is not queued there, or the number is not on the list.
pub const FQ_NOT_THERE: u32 = 20;
/// Complete: no caller owns the instance any more.
pub const FQ_RELEASED: u32 = 21;
/// Complete: a request was missed: the caller has to queue the instance again.
pub const FQ_AGAIN: u32 = 22;
/// Complete, end: the caller keeps polling.
pub const FQ_HELD: u32 = 23;
/// Busy take, take disable, remove: another caller owns the instance, or a run has the number.
pub const FQ_BUSY: u32 = 24;
/// Shared instances: another thread interfered, and nothing is decided: call again.
pub const FQ_CHANGED: u32 = 25;
/// Put, push, send: there is no room.
pub const FQ_FULL: u32 = 26;
/// Next: no poll is left in the run.
pub const FQ_DONE: u32 = 27;
/// Send: the limit has stopped the queue.
pub const FQ_STOPPED: u32 = 28;
/// Driver: this is not due, and nothing has changed.
pub const FQ_NOT_DUE: u32 = 30;
/// The state of the object does not allow this call.
pub const FQ_NOT_ALLOWED: u32 = 100;
/// The kind is 0 (list) or 1 (thread).
pub const FQ_BAD_KIND: u32 = 101;
/// The handle has no object, or one of another kind.
pub const FQ_BAD_HANDLE: u32 = 110;
/// The handle is set already, or the number is listed already.
pub const FQ_IN_USE: u32 = 111;
/// Out of memory.
pub const FQ_OUT_OF_MEMORY: u32 = 112;
/// The capacity of a ring is 1 to 65536.
pub const FQ_BAD_CAPACITY: u32 = 113;
/// A weight is 1 to 64 packets.
pub const FQ_BAD_WEIGHT: u32 = 114;
/// The array is too short.
pub const FQ_NO_ROOM: u32 = 115;
/// Budget and window are 1 to 65535.
pub const FQ_BAD_BUDGET: u32 = 116;
/// A shared instance has 2 to 8 callers, a driver 1 to 64 devices.
pub const FQ_BAD_COUNT: u32 = 117;
/// How a poll ended is 0 to 4 (enum `fq_next`).
pub const FQ_BAD_NEXT: u32 = 118;
/// A poll is reported with more packets than the weight.
pub const FQ_BAD_WORK: u32 = 119;
/// Replay, raise: the bytes are not a trace, or a row of it can't be processed.
pub const FQ_BAD_TRACE: u32 = 120;
/// The driver has no device with this number.
pub const FQ_BAD_DEVICE: u32 = 121;
/// A struct's size is not one that the library knows.
pub const FQ_BAD_SIZE: u32 = 122;
/// Driver, machine: a setting is out of its range, or doesn't go with another.
pub const FQ_BAD_SETTING: u32 = 123;
/// Machine: the bytes are not arrivals.
pub const FQ_BAD_ARRIVALS: u32 = 124;
/// Done: more packets are completed than were sent.
pub const FQ_MORE_THAN_SENT: u32 = 125;
/// Driver: an action waits for its report, and this is not it.
pub const FQ_NOT_REPORTED: u32 = 126;

/// `FQ_STRUCT_HANDLE` of `enum fq_struct`.
pub const FQ_STRUCT_HANDLE: u32 = 0;
/// `FQ_STRUCT_DQL` of `enum fq_struct`.
pub const FQ_STRUCT_DQL: u32 = 1;
/// `FQ_STRUCT_NAPI` of `enum fq_struct`.
pub const FQ_STRUCT_NAPI: u32 = 2;
/// `FQ_STRUCT_PACKET` of `enum fq_struct`.
pub const FQ_STRUCT_PACKET: u32 = 3;
/// `FQ_STRUCT_TX_WATCHDOG` of `enum fq_struct`.
pub const FQ_STRUCT_TX_WATCHDOG: u32 = 4;
/// `FQ_STRUCT_TODO` of `enum fq_struct`.
pub const FQ_STRUCT_TODO: u32 = 5;

/// On a poll list.
pub const FQ_LIST: u32 = 0;
/// For its own thread.
pub const FQ_THREAD: u32 = 1;

/// The device leaves the list.
pub const FQ_NEXT_GONE: u32 = 0;
/// It has to be listed again.
pub const FQ_NEXT_AGAIN: u32 = 1;
/// It is queued for its thread.
pub const FQ_NEXT_AGAIN_THREAD: u32 = 2;
/// It returned its whole weight, and is polled again after all others.
pub const FQ_NEXT_REPOLL: u32 = 3;
/// Its instance wasn't queued there.
pub const FQ_NEXT_ABSENT: u32 = 4;

/// Nothing, until the next interrupt, open or stop; `fq_todo_run` returns the report of the run that ended, if one
/// did.
pub const FQ_TODO_SLEEP: u32 = 0;
/// Mask the interrupt of the device's card.
pub const FQ_TODO_MASK: u32 = 1;
/// Unmask the interrupt of the device's card.
pub const FQ_TODO_UNMASK: u32 = 2;
/// Look whether the card has packets, and set `packets` to how many, or to 1 if it has any, or to 0: after a full
/// memory fence, if the card works at the same time.
pub const FQ_TODO_LOOK: u32 = 3;
/// Mask the card if `mask` is set; then take packets from it, at most `most` of them, deliver them, and set `packets`
/// to how many. If the card has no more, you may unmask it and then look at it, and set `rearm`: this saves the turns
/// for UNMASK and LOOK.
pub const FQ_TODO_FETCH: u32 = 4;
/// A run ended (`net_rx_action`), whose report `fq_todo_run` returns: it was squeezed, or devices wait for the next
/// run. Do other work first, if there is some.
pub const FQ_TODO_ENDED: u32 = 5;
/// Nothing, because the call failed, with the error `status`: a loop has to end.
pub const FQ_TODO_FAILED: u32 = 6;
/// Set the device's timer, so that it expires once, after `nanoseconds`; one that is still set is replaced. The card
/// stays masked. When it expires, call `fq_driver_timer`. Only for a device with deferral (`fq_driver_set`).
pub const FQ_TODO_TIMER: u32 = 7;

/// It didn't: the card is still masked.
pub const FQ_REARM_NO: u32 = 0;
/// It did, and the card had packets.
pub const FQ_REARM_MORE: u32 = 1;
/// It did, and the card had no packets.
pub const FQ_REARM_EMPTY: u32 = 2;

/// Closed, and its card is masked.
pub const FQ_DEVICE_CLOSED: u32 = 0;
/// Open.
pub const FQ_DEVICE_OPEN: u32 = 1;
/// Being stopped.
pub const FQ_DEVICE_STOPPING: u32 = 2;

/// `FQ_FAULT_BAD_HEADER` of `enum fq_fault`.
pub const FQ_FAULT_BAD_HEADER: u32 = 1;
/// `FQ_FAULT_BAD_FIELDS` of `enum fq_fault`.
pub const FQ_FAULT_BAD_FIELDS: u32 = 2;
/// `FQ_FAULT_BAD_NUMBER` of `enum fq_fault`.
pub const FQ_FAULT_BAD_NUMBER: u32 = 3;
/// `FQ_FAULT_BAD_EVENT` of `enum fq_fault`.
pub const FQ_FAULT_BAD_EVENT: u32 = 4;
/// `FQ_FAULT_OUT_OF_RANGE` of `enum fq_fault`.
pub const FQ_FAULT_OUT_OF_RANGE: u32 = 5;
/// `FQ_FAULT_UNKNOWN_DEVICE` of `enum fq_fault`.
pub const FQ_FAULT_UNKNOWN_DEVICE: u32 = 6;
/// `FQ_FAULT_OPEN_TWICE` of `enum fq_fault`.
pub const FQ_FAULT_OPEN_TWICE: u32 = 7;
/// `FQ_FAULT_WRONG_STATE` of `enum fq_fault`.
pub const FQ_FAULT_WRONG_STATE: u32 = 8;
/// `FQ_FAULT_TOO_MANY_ROWS` of `enum fq_fault`.
pub const FQ_FAULT_TOO_MANY_ROWS: u32 = 9;
/// `FQ_FAULT_READ_FAILED` of `enum fq_fault`.
pub const FQ_FAULT_READ_FAILED: u32 = 10;
/// `FQ_FAULT_OUT_OF_MEMORY` of `enum fq_fault`.
pub const FQ_FAULT_OUT_OF_MEMORY: u32 = 11;
/// `FQ_FAULT_PENDING` of `enum fq_fault`.
pub const FQ_FAULT_PENDING: u32 = 12;

/// Bytes of an array that has room for each text and its terminating 0.
pub const FQ_MESSAGE_ROOM: usize = 96;
/// `NAPI_STATE_SCHED`.
pub const FQ_BIT_SCHED: u64 = 1 << 0;
/// `NAPI_STATE_MISSED`.
pub const FQ_BIT_MISSED: u64 = 1 << 1;
/// `NAPI_STATE_DISABLE`.
pub const FQ_BIT_DISABLE: u64 = 1 << 2;
/// `NAPI_STATE_NPSVC`.
pub const FQ_BIT_NPSVC: u64 = 1 << 3;
/// `NAPI_STATE_IN_BUSY_POLL`.
pub const FQ_BIT_IN_BUSY_POLL: u64 = 1 << 6;
/// `NAPI_STATE_THREADED`.
pub const FQ_BIT_THREADED: u64 = 1 << 8;
/// `NAPI_STATE_SCHED_THREADED`.
pub const FQ_BIT_SCHED_THREADED: u64 = 1 << 9;
/// On a poll list, and not taken yet.
pub const FQ_BIT_QUEUED: u64 = 1 << 32;
/// Queued for its thread, and not taken yet.
pub const FQ_BIT_TO_THREAD: u64 = 1 << 33;
/// As many added runs as empty the list.
pub const FQ_UNTIL_EMPTY: u32 = 4294967295;

/// A byte queue limit. It isn't copied, and only calls write its fields.
#[repr(C)]
#[derive(Debug, Default)]
pub struct fq_dql {
    pub(crate) private_a: [u32; 8],
    pub(crate) private_b: u64,
    pub(crate) private_c: [u32; 2],
    pub(crate) private_d: u64,
}

/// An instance of one thread. Each flag is set unless its byte is 0.
#[repr(C)]
#[derive(Clone, Debug, PartialEq, Eq)]
pub struct fq_napi {
    /// `NAPI_STATE_SCHED`.
    pub sched: u8,
    /// `NAPI_STATE_MISSED`.
    pub missed: u8,
    /// `NAPI_STATE_DISABLE`.
    pub disable: u8,
    /// `NAPI_STATE_NPSVC`.
    pub npsvc: u8,
    /// `NAPI_STATE_IN_BUSY_POLL`.
    pub in_busy_poll: u8,
    /// `NAPI_STATE_THREADED`.
    pub threaded: u8,
    /// `NAPI_STATE_SCHED_THREADED`.
    pub sched_threaded: u8,
    /// 0 no owner, 1 granted, 2 listed, 3 queued for its thread, 4 polled, otherwise: owned by the controller.
    pub place: u8,
    /// The number of its owner.
    pub owner: u32,
    /// The number of the caller that enables and disables it.
    pub controller: u32,
}

/// What the handles of all kinds of objects have in common. It isn't copied, and only calls write its fields.
#[repr(C)]
#[derive(Debug)]
pub struct fq_handle {
    pub(crate) private_set: bool,
    pub(crate) private_at: *mut c_void,
}

/// The handles, with a type for each kind of object. The calls on an object of any kind take its member:
/// `fq_free(&ring.handle)`. A receive ring, or its input or its poll end.
#[repr(C)]
#[derive(Debug)]
pub struct fq_ring {
    pub(crate) handle: fq_handle,
}

/// The handles, with a type for each kind of object. The calls on an object of any kind take its member:
/// `fq_free(&ring.handle)`. A transmit ring.
#[repr(C)]
#[derive(Debug)]
pub struct fq_tx {
    pub(crate) handle: fq_handle,
}

/// The handles, with a type for each kind of object. The calls on an object of any kind take its member:
/// `fq_free(&ring.handle)`. A caller of a shared instance.
#[repr(C)]
#[derive(Debug)]
pub struct fq_caller {
    pub(crate) handle: fq_handle,
}

/// The handles, with a type for each kind of object. The calls on an object of any kind take its member:
/// `fq_free(&ring.handle)`. The controller of a shared instance.
#[repr(C)]
#[derive(Debug)]
pub struct fq_control {
    pub(crate) handle: fq_handle,
}

/// The handles, with a type for each kind of object. The calls on an object of any kind take its member:
/// `fq_free(&ring.handle)`. A poll list, and the run over it.
#[repr(C)]
#[derive(Debug)]
pub struct fq_list {
    pub(crate) handle: fq_handle,
}

/// The handles, with a type for each kind of object. The calls on an object of any kind take its member:
/// `fq_free(&ring.handle)`. A driver.
#[repr(C)]
#[derive(Debug)]
pub struct fq_driver {
    pub(crate) handle: fq_handle,
}

/// A packet.
#[repr(C)]
#[derive(Clone, Copy, Debug, Default, PartialEq, Eq)]
pub struct fq_packet {
    /// A number that the program chooses: an index, a pointer.
    pub number: u64,
    /// Its size in bytes.
    pub bytes: u32,
}

/// The counts of a ring's polls, each of which saturates at its maximum.
#[repr(C)]
#[derive(Clone, Copy, Debug, PartialEq, Eq)]
pub struct fq_counts {
    /// The size of this struct.
    pub size: usize,
    /// The polls.
    pub polls: u64,
    /// The packets that they returned.
    pub packets: u64,
    /// The bytes of these packets.
    pub bytes: u64,
}

impl fq_counts {
    /// Its size, and zeros.
    pub const INIT: fq_counts = fq_counts {
        size: std::mem::size_of::<fq_counts>(),
        polls: 0,
        packets: 0,
        bytes: 0,
    };
}

/// The counts of a whole ring, each of which saturates at its maximum.
#[repr(C)]
#[derive(Clone, Copy, Debug, PartialEq, Eq)]
pub struct fq_totals {
    /// The size of this struct.
    pub size: usize,
    /// The packets that were put.
    pub put: u64,
    /// The packets that polls returned.
    pub polled: u64,
    /// The packets that were left in the ring.
    pub left: u64,
    /// The bytes of all packets that were put.
    pub bytes: u64,
}

impl fq_totals {
    /// Its size, and zeros.
    pub const INIT: fq_totals = fq_totals {
        size: std::mem::size_of::<fq_totals>(),
        put: 0,
        polled: 0,
        left: 0,
        bytes: 0,
    };
}

/// The state of a ring, or of its input.
#[repr(C)]
#[derive(Clone, Copy, Debug, PartialEq, Eq)]
pub struct fq_ring_shown {
    /// The size of this struct.
    pub size: usize,
    /// The packets put so far, a count that saturates; minus the packets of `fq_count`, it is the number in the ring.
    pub put: u64,
    /// In packets.
    pub capacity: usize,
}

impl fq_ring_shown {
    /// Its size, and zeros.
    pub const INIT: fq_ring_shown = fq_ring_shown {
        size: std::mem::size_of::<fq_ring_shown>(),
        put: 0,
        capacity: 0,
    };
}

/// The state of a transmit ring.
#[repr(C)]
#[derive(Clone, Copy, Debug, PartialEq, Eq)]
pub struct fq_tx_shown {
    /// The size of this struct.
    pub size: usize,
    /// The bytes of all packets ever sent, modulo 2^32.
    pub queued: u32,
    /// The bytes of all packets ever completed, modulo 2^32: queued - completed are in flight.
    pub completed: u32,
    /// The limit in bytes.
    pub limit: u32,
    /// The bytes that may still be sent; if negative, the queue is over its limit.
    pub avail: i64,
    /// Whether the limit has stopped the queue, and no completion has started it since.
    pub stopped: bool,
}

impl fq_tx_shown {
    /// Its size, and zeros.
    pub const INIT: fq_tx_shown = fq_tx_shown {
        size: std::mem::size_of::<fq_tx_shown>(),
        queued: 0,
        completed: 0,
        limit: 0,
        avail: 0,
        stopped: false,
    };
}

/// What a driver's watchdog timer keeps about a transmit ring (`dev_watchdog`): all 0 at first.
#[repr(C)]
#[derive(Clone, Copy, Debug, Default, PartialEq, Eq)]
pub struct fq_tx_watchdog {
    pub(crate) private_stopped: u8,
    pub(crate) private_completed: u32,
    pub(crate) private_since: u64,
}

/// How often a caller's calls returned each result. Each count saturates at its maximum.
#[repr(C)]
#[derive(Clone, Copy, Debug, PartialEq, Eq)]
pub struct fq_answers {
    /// The size of this struct.
    pub size: usize,
    /// Requests that were granted.
    pub granted: u64,
    /// Requests that were missed.
    pub missed: u64,
    /// Requests while a disable was pending.
    pub disabled: u64,
    /// Completions that released the instance.
    pub released: u64,
    /// Completions that found a missed request.
    pub again: u64,
    /// Completions of a busy poller.
    pub held: u64,
    /// Attempts of any call that failed because another thread changed the instance.
    pub changed: u64,
}

impl fq_answers {
    /// Its size, and zeros.
    pub const INIT: fq_answers = fq_answers {
        size: std::mem::size_of::<fq_answers>(),
        granted: 0,
        missed: 0,
        disabled: 0,
        released: 0,
        again: 0,
        held: 0,
        changed: 0,
    };
}

/// The report of a polling run.
#[repr(C)]
#[derive(Clone, Copy, Debug, PartialEq, Eq)]
pub struct fq_run_report {
    /// The size of this struct.
    pub size: usize,
    /// The polls, at most the window.
    pub polls: u32,
    /// The packets of all polls.
    pub work: u32,
    /// Whether the run stopped because its budget or its window was used up, whether or not anything was left.
    pub squeezed: bool,
}

impl fq_run_report {
    /// Its size, and zeros.
    pub const INIT: fq_run_report = fq_run_report {
        size: std::mem::size_of::<fq_run_report>(),
        polls: 0,
        work: 0,
        squeezed: false,
    };
}

/// An action that has to be done: 40 bytes, all 0 at first.
#[repr(C)]
#[derive(Clone, Copy, Debug, Default, PartialEq, Eq)]
pub struct fq_todo {
    /// The number under which to report it: each action has another one; 0 if there is nothing to report.
    pub number: u64,
    /// The time of `FQ_TODO_TIMER`; 0 for anything else.
    pub nanoseconds: u64,
    /// What has to be done.
    pub what: u32,
    /// The device; 0 if the action is at none.
    pub device: u32,
    /// The packets that a fetch may take, the device's weight; 0 for any other action at a device. `fq_todo_run`
    /// reads it, `packets` and `squeezed` after `FQ_TODO_ENDED` and `FQ_TODO_SLEEP`.
    pub most: u32,
    /// Set by the program after a look and a fetch; before that 1 for a look, so that packets aren't forgotten, and 0
    /// for any other action at a device.
    pub packets: u32,
    /// Set by the program after a fetch that also unmasked the card and looked at it; before that `FQ_REARM_NO`.
    pub rearm: u32,
    /// The error after `FQ_TODO_FAILED`; `FQ_NOT_DUE` if the driver didn't wait for the last report any more, because
    /// of an interrupt, an open or a stop; otherwise `FQ_OK`.
    pub status: u16,
    /// Whether a fetch has to mask the card first; `fq_driver_step` never sets it.
    pub mask: bool,
    /// Whether the run that ended was squeezed.
    pub squeezed: bool,
}

/// The settings of a device.
#[repr(C)]
#[derive(Clone, Copy, Debug, PartialEq, Eq)]
pub struct fq_device_settings {
    /// The size of this struct.
    pub size: usize,
    /// The packets that a fetch may take (`netif_napi_add_weight`), 1 to the driver's weight, which is its default.
    pub weight: u32,
    /// How many completions in a row defer the interrupt after the last fetch with packets (`napi_defer_hard_irqs`):
    /// 0, or it needs `gro_flush_timeout`.
    pub defer_hard_irqs: u32,
    /// For how many nanoseconds each does (`gro_flush_timeout`); 0, the default, turns deferral off.
    pub gro_flush_timeout: u64,
    /// With busy polling, the empty fetches in a row after which the card is unmasked; 0, the default: none.
    pub empty_polls: u32,
}

impl fq_device_settings {
    /// Its size, and zeros.
    pub const INIT: fq_device_settings = fq_device_settings {
        size: std::mem::size_of::<fq_device_settings>(),
        weight: 0,
        defer_hard_irqs: 0,
        gro_flush_timeout: 0,
        empty_polls: 0,
    };
}

/// The state of a device, and the counts of its polls.
#[repr(C)]
#[derive(Clone, Copy, Debug, PartialEq, Eq)]
pub struct fq_device_shown {
    /// The size of this struct.
    pub size: usize,
    /// The device's state.
    pub state: u32,
    /// Whether a poll is requested and isn't completed (`NAPI_STATE_SCHED`); set for a closed device too, as in the
    /// kernel.
    pub scheduled: bool,
    /// Whether an interrupt came meanwhile (`NAPI_STATE_MISSED`).
    pub missed: bool,
    /// How many fetches were reported; saturates.
    pub polls: u64,
    /// The packets of these fetches; saturates.
    pub packets: u64,
}

impl fq_device_shown {
    /// Its size, and zeros.
    pub const INIT: fq_device_shown = fq_device_shown {
        size: std::mem::size_of::<fq_device_shown>(),
        state: 0,
        scheduled: false,
        missed: false,
        polls: 0,
        packets: 0,
    };
}

/// The settings of a replay.
#[repr(C)]
#[derive(Clone, Copy, Debug, PartialEq, Eq)]
pub struct fq_settings {
    /// The size of this struct.
    pub size: usize,
    /// Packets that a run polls before it is squeezed, 1 to 65535 (`netdev_budget`).
    pub budget: u32,
    /// Packets that one poll returns at most, 1 to 64 (`NAPI_POLL_WEIGHT`).
    pub weight: u32,
    /// Polls that a run makes before it is squeezed, 1 to 65535 (in place of `netdev_budget_usecs`).
    pub window: u32,
}

impl fq_settings {
    /// Its size, and zeros.
    pub const INIT: fq_settings = fq_settings {
        size: std::mem::size_of::<fq_settings>(),
        budget: 0,
        weight: 0,
        window: 0,
    };
}

/// What a replay returns besides its status.
#[repr(C)]
#[derive(Clone, Copy, Debug, PartialEq, Eq)]
pub struct fq_replayed {
    /// The size of this struct.
    pub size: usize,
    /// The length of the report or trace in bytes, even if there is no room for it; 0 if there is none.
    pub length: usize,
    /// The trace's fault: a number of enum `fq_fault`; 0 if it has none.
    pub fault: u32,
    /// The row that the fault names, counted from 1; 0 if it names none.
    pub row: u32,
}

impl fq_replayed {
    /// Its size, and zeros.
    pub const INIT: fq_replayed = fq_replayed {
        size: std::mem::size_of::<fq_replayed>(),
        length: 0,
        fault: 0,
        row: 0,
    };
}

/// The settings of the machine. The members after `size` are the options of `napi_machine`, with their ranges and
/// defaults.
#[repr(C)]
#[derive(Clone, Copy, Debug, PartialEq, Eq)]
pub struct fq_machine_settings {
    /// The size of this struct.
    pub size: usize,
    /// Processors that receive; queue q belongs to processor (q - 1) mod N; each serves at most 64, 1 to 64 (1).
    pub processors: u32,
    /// Queues of each device, chosen by the packet's flow (RSS: ethtool -L, -X), 1 to 64 (1).
    pub queues: u32,
    /// Packets that the ring of a queue holds (ethtool -G); of a backlog net.core.`netdev_max_backlog` plus 1, 1 to
    /// 65536 (256).
    pub ring: u32,
    /// Packets that the socket of a processor's application holds (`SO_RCVBUF`), 1 to 65536 (512).
    pub socket: u32,
    /// 1: polls take packets as a processor's backlog does (RPS: `rps_cpus`, `process_backlog`), 0 to 1 (0).
    pub backlog: u32,
    /// Packets after which a run ends and is squeezed (net.core.`netdev_budget`); 0: no polls, an interrupt for each
    /// packet, 0 to 65535 (300).
    pub budget: u32,
    /// Packets that one poll takes at most (`NAPI_POLL_WEIGHT`; of a backlog net.core.`dev_weight` times
    /// `dev_weight_rx_bias`), 1 to 64 (64).
    pub weight: u32,
    /// Polls after which a run ends and is squeezed; Linux has no such limit, 1 to 65535 (1024).
    pub window: u32,
    /// Time after which a run ends and is squeezed (net.core.`netdev_budget_usecs`, in us there), 1 to 1000000000 ns
    /// (8000000).
    pub time_limit: u32,
    /// Time by which a card delays its interrupt (ethtool -C rx-usecs, in us there), 0 to 1000000000 ns (0).
    pub rx_nsecs: u32,
    /// Packets at which the interrupt comes before that time (ethtool -C rx-frames); 0: never, 0 to 65535 (0).
    pub rx_frames: u32,
    /// Polls without packets, one after each timeout; the last unmasks the queue (`napi_defer_hard_irqs`), 0 to 65535
    /// (0).
    pub defer_hard_irqs: u32,
    /// Time until a queue that stays masked is polled again (`gro_flush_timeout`); 0: none does, 0 to 1000000000 ns
    /// (0).
    pub gro_flush_timeout: u32,
    /// 1: each queue is polled by a thread of its own (/sys/class/net/DEV/threaded), 0 to 1 (0).
    pub threaded: u32,
    /// 1: the application has a processor of its own (taskset), 0 to 1 (0).
    pub apart: u32,
    /// Time from waking the application until it runs; on the processor that polls a part of the use, 0 to 1000000000
    /// ns (0).
    pub app_wake: u32,
    /// Time of an interrupt, 0 to 1000000000 ns (4000).
    pub interrupt: u32,
    /// Time of a poll before its first packet, 0 to 1000000000 ns (1000).
    pub poll: u32,
    /// Time of each packet of a poll, 0 to 1000000000 ns (1000).
    pub packet: u32,
    /// Time that the application takes for a packet, 0 to 1000000000 ns (2000).
    pub use_time: u32,
    /// Time to wake an idle processor, which counts as interrupt time, 0 to 1000000000 ns (0).
    pub wake: u32,
    /// 1: the driver unmasks the queue whatever `napi_complete_done` returns (vmxnet3, tg3, be2net, mana, bnx2,
    /// cxgb4, qede and others), 0 to 1 (0).
    pub heedless: u32,
    /// Least time between two interrupts of a card (ethtool -C rx-usecs of igb, igc, ixgbe, e1000, e1000e, i40e, in
    /// us there); not with rx-nsecs, rx-frames, 0 to 1000000000 ns (0).
    pub rx_gap: u32,
    /// Time of the interrupt of an expired NAPI timer (`napi_watchdog`), 0 to 1000000000 ns (`UINT32_MAX`: that of
    /// interrupt).
    pub timer: u32,
    /// Time to wake an idle processor by an expired NAPI timer, which counts as interrupt time, 0 to 1000000000 ns
    /// (`UINT32_MAX`: that of wake).
    pub timer_wake: u32,
    /// 1: a packet while the interrupt is raised or masked sets a cause, which raises it when the driver unmasks it
    /// (igb, igc, ixgbe, vmxnet3); 2: its handler clears the cause too (e1000, e1000e without MSI-X), 0 to 2 (0).
    pub latched: u32,
    /// Packets that a poll takes before it hands them over (net.core.`gro_normal_batch`), with `napi_gro_receive`; 0:
    /// each at once, 0 to 64 (0).
    pub gro_batch: u32,
    /// With gro-batch the part of packet that taking one from the ring and GRO take, 0 to 1000000000 ns (0).
    pub take: u32,
    /// Time of an interrupt between a driver's asking for it and `napi_complete_done` (`virtio_net`); 0: other
    /// drivers; not with heedless, 0 to 1000000000 ns (0).
    pub early: u32,
    /// Time by which a delivery that wakes the application takes longer (`sock_def_readable`); not with apart, 0 to
    /// 1000000000 ns (0).
    pub poll_wake: u32,
    /// Time by which a poll that starts the NAPI timer takes longer (`hrtimer_start`), 0 to 1000000000 ns (0).
    pub arm: u32,
}

impl fq_machine_settings {
    /// Its size, and zeros.
    pub const INIT: fq_machine_settings = fq_machine_settings {
        size: std::mem::size_of::<fq_machine_settings>(),
        processors: 0,
        queues: 0,
        ring: 0,
        socket: 0,
        backlog: 0,
        budget: 0,
        weight: 0,
        window: 0,
        time_limit: 0,
        rx_nsecs: 0,
        rx_frames: 0,
        defer_hard_irqs: 0,
        gro_flush_timeout: 0,
        threaded: 0,
        apart: 0,
        app_wake: 0,
        interrupt: 0,
        poll: 0,
        packet: 0,
        use_time: 0,
        wake: 0,
        heedless: 0,
        rx_gap: 0,
        timer: 0,
        timer_wake: 0,
        latched: 0,
        gro_batch: 0,
        take: 0,
        early: 0,
        poll_wake: 0,
        arm: 0,
    };
}

/// What a run of the machine returns besides its status.
#[repr(C)]
#[derive(Clone, Copy, Debug, PartialEq, Eq)]
pub struct fq_machine_ran {
    /// The size of this struct.
    pub size: usize,
    /// The length of the report in bytes, even if there is no room for it; 0 if there is none.
    pub length: usize,
    /// The row that the fault of the arrivals names, counted from 1; 0 if it names none.
    pub row: u64,
    /// The number of that fault, 1 to 8; 0 if they have none.
    pub fault: u32,
    /// The first setting that is out of its range, or `rx_gap` if it excludes another, or take if it is above packet,
    /// or early if it excludes heedless: 1 for processors, 2 for queues and so on; 0 if none is rejected.
    pub setting: u32,
    /// The message of the fault of the arrivals, as `napi_machine` prints it, with a terminating 0; otherwise empty.
    pub message: [c_char; 64],
}

impl fq_machine_ran {
    /// Its size, and zeros.
    pub const INIT: fq_machine_ran = fq_machine_ran {
        size: std::mem::size_of::<fq_machine_ran>(),
        length: 0,
        row: 0,
        fault: 0,
        setting: 0,
        message: [0; 64],
    };
}

/// Returns the name of a status, for example "`FQ_GRANTED`"; "?" for an unknown number.
pub fn fq_status_name(status: u32) -> &'static str {
    match status {
        FQ_OK => "FQ_OK",
        FQ_BAD_BOUNDS => "FQ_BAD_BOUNDS",
        FQ_TOO_LARGE => "FQ_TOO_LARGE",
        FQ_TOO_MUCH_IN_FLIGHT => "FQ_TOO_MUCH_IN_FLIGHT",
        FQ_MORE_THAN_QUEUED => "FQ_MORE_THAN_QUEUED",
        FQ_GRANTED => "FQ_GRANTED",
        FQ_MISSED => "FQ_MISSED",
        FQ_DISABLED => "FQ_DISABLED",
        FQ_TAKEN => "FQ_TAKEN",
        FQ_NOT_THERE => "FQ_NOT_THERE",
        FQ_RELEASED => "FQ_RELEASED",
        FQ_AGAIN => "FQ_AGAIN",
        FQ_HELD => "FQ_HELD",
        FQ_BUSY => "FQ_BUSY",
        FQ_CHANGED => "FQ_CHANGED",
        FQ_FULL => "FQ_FULL",
        FQ_DONE => "FQ_DONE",
        FQ_STOPPED => "FQ_STOPPED",
        FQ_NOT_DUE => "FQ_NOT_DUE",
        FQ_NOT_ALLOWED => "FQ_NOT_ALLOWED",
        FQ_BAD_KIND => "FQ_BAD_KIND",
        FQ_BAD_HANDLE => "FQ_BAD_HANDLE",
        FQ_IN_USE => "FQ_IN_USE",
        FQ_OUT_OF_MEMORY => "FQ_OUT_OF_MEMORY",
        FQ_BAD_CAPACITY => "FQ_BAD_CAPACITY",
        FQ_BAD_WEIGHT => "FQ_BAD_WEIGHT",
        FQ_NO_ROOM => "FQ_NO_ROOM",
        FQ_BAD_BUDGET => "FQ_BAD_BUDGET",
        FQ_BAD_COUNT => "FQ_BAD_COUNT",
        FQ_BAD_NEXT => "FQ_BAD_NEXT",
        FQ_BAD_WORK => "FQ_BAD_WORK",
        FQ_BAD_TRACE => "FQ_BAD_TRACE",
        FQ_BAD_DEVICE => "FQ_BAD_DEVICE",
        FQ_BAD_SIZE => "FQ_BAD_SIZE",
        FQ_BAD_SETTING => "FQ_BAD_SETTING",
        FQ_BAD_ARRIVALS => "FQ_BAD_ARRIVALS",
        FQ_MORE_THAN_SENT => "FQ_MORE_THAN_SENT",
        FQ_NOT_REPORTED => "FQ_NOT_REPORTED",
        _ => "?",
    }
}

/// Returns the name of a fault, for example "BadHeader"; "?" for an unknown number.
pub fn fq_fault_name(fault: u32) -> &'static str {
    match fault {
        FQ_FAULT_BAD_HEADER => "BadHeader",
        FQ_FAULT_BAD_FIELDS => "BadFields",
        FQ_FAULT_BAD_NUMBER => "BadNumber",
        FQ_FAULT_BAD_EVENT => "BadEvent",
        FQ_FAULT_OUT_OF_RANGE => "OutOfRange",
        FQ_FAULT_UNKNOWN_DEVICE => "UnknownDevice",
        FQ_FAULT_OPEN_TWICE => "OpenTwice",
        FQ_FAULT_WRONG_STATE => "WrongState",
        FQ_FAULT_TOO_MANY_ROWS => "TooManyRows",
        FQ_FAULT_READ_FAILED => "ReadFailed",
        FQ_FAULT_OUT_OF_MEMORY => "OutOfMemory",
        FQ_FAULT_PENDING => "Pending",
        _ => "?",
    }
}
