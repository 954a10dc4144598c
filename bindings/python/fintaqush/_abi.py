"""What include/fintaqush.h declares, for ctypes: its numbers, structs and calls. scripts/abi.py writes this file."""

from __future__ import annotations

import ctypes
import enum
from typing import Any

u8, u16, u32, u64, i64 = ctypes.c_uint8, ctypes.c_uint16, ctypes.c_uint32, ctypes.c_uint64, ctypes.c_int64
size, boolean, text, pointer = ctypes.c_size_t, ctypes.c_bool, ctypes.c_char_p, ctypes.POINTER
VERSION = "3.0.0"
MESSAGE_ROOM = 96
UNTIL_EMPTY = 4294967295
FAULTS = {
    1: "BadHeader", 2: "BadFields", 3: "BadNumber", 4: "BadEvent", 5: "OutOfRange", 6: "UnknownDevice", 7: "OpenTwice", 8: "WrongState",
    9: "TooManyRows", 10: "ReadFailed", 11: "OutOfMemory", 12: "Pending",
}


class Status(enum.IntEnum):
    """The statuses that calls return, each with the calls that it is of, if not of all, and its message. 0: success. 1 to 15: errors of a
    queue limit; the operation isn't made. 16 to 99: results. After FQ_NOT_THERE, FQ_BUSY, FQ_CHANGED, FQ_STOPPED and FQ_NOT_DUE nothing has
    changed, and after FQ_FULL neither, except for a burst. 100 and above: errors; the operation isn't made."""

    OK = 0
    BAD_BOUNDS = 1
    TOO_LARGE = 2
    TOO_MUCH_IN_FLIGHT = 3
    MORE_THAN_QUEUED = 4
    GRANTED = 16
    MISSED = 17
    DISABLED = 18
    TAKEN = 19
    NOT_THERE = 20
    RELEASED = 21
    AGAIN = 22
    HELD = 23
    BUSY = 24
    CHANGED = 25
    FULL = 26
    DONE = 27
    STOPPED = 28
    NOT_DUE = 30
    NOT_ALLOWED = 100
    BAD_KIND = 101
    BAD_HANDLE = 110
    IN_USE = 111
    OUT_OF_MEMORY = 112
    BAD_CAPACITY = 113
    BAD_WEIGHT = 114
    NO_ROOM = 115
    BAD_BUDGET = 116
    BAD_COUNT = 117
    BAD_NEXT = 118
    BAD_WORK = 119
    BAD_TRACE = 120
    BAD_DEVICE = 121
    BAD_SIZE = 122
    BAD_SETTING = 123
    BAD_ARRIVALS = 124
    MORE_THAN_SENT = 125
    NOT_REPORTED = 126


class Kind(enum.IntEnum):
    """Where an instance is queued. Calls that read the kind from the state word say so."""

    LIST = 0
    THREAD = 1


class Next(enum.IntEnum):
    """How a poll ended."""

    GONE = 0
    AGAIN = 1
    AGAIN_THREAD = 2
    REPOLL = 3
    ABSENT = 4


class Word(enum.IntFlag):
    """The bits of a state word: the kernel's NAPI_STATE_.., and two of this library. The kernel's NAPI_STATE_LISTED is a different flag,
    bit 4, which the library doesn't have."""

    SCHED = 1 << 0
    MISSED = 1 << 1
    DISABLE = 1 << 2
    NPSVC = 1 << 3
    IN_BUSY_POLL = 1 << 6
    THREADED = 1 << 8
    SCHED_THREADED = 1 << 9
    QUEUED = 1 << 32
    TO_THREAD = 1 << 33


class What(enum.IntEnum):
    """What has to be done. After FQ_TODO_SLEEP, FQ_TODO_ENDED and FQ_TODO_FAILED there is nothing to report, and fq_driver_done does
    nothing. A switch over it has no default, so that a compiler names an action that it forgets."""

    SLEEP = 0
    MASK = 1
    UNMASK = 2
    LOOK = 3
    FETCH = 4
    ENDED = 5
    FAILED = 6
    TIMER = 7


class Rearm(enum.IntEnum):
    """Whether a fetch also unmasked the card and then looked at it, as FQ_TODO_UNMASK and FQ_TODO_LOOK do. A fetch that unmasked the card
    has to be reported. FQ_REARM_MORE costs at most one poll without packets, and a number that isn't listed counts as it."""

    NO = 0
    MORE = 1
    EMPTY = 2


class DeviceState(enum.IntEnum):
    """The states of a device."""

    CLOSED = 0
    OPEN = 1
    STOPPING = 2


class Dql(ctypes.Structure):
    _fields_ = [("private_a", u32 * 8), ("private_b", u64), ("private_c", u32 * 2), ("private_d", u64)]


class Napi(ctypes.Structure):
    _fields_ = [
        ("sched", u8), ("missed", u8), ("disable", u8), ("npsvc", u8), ("in_busy_poll", u8), ("threaded", u8), ("sched_threaded", u8),
        ("place", u8), ("owner", u32), ("controller", u32),
    ]


class Handle(ctypes.Structure):
    _fields_ = [("private_set", boolean), ("private_at", ctypes.c_void_p)]


class Ring(ctypes.Structure):
    _fields_ = [("handle", Handle)]


class Tx(ctypes.Structure):
    _fields_ = [("handle", Handle)]


class Caller(ctypes.Structure):
    _fields_ = [("handle", Handle)]


class Control(ctypes.Structure):
    _fields_ = [("handle", Handle)]


class List(ctypes.Structure):
    _fields_ = [("handle", Handle)]


class Driver(ctypes.Structure):
    _fields_ = [("handle", Handle)]


class Packet(ctypes.Structure):
    _fields_ = [("number", u64), ("bytes", u32)]


class Counts(ctypes.Structure):
    _fields_ = [("size", size), ("polls", u64), ("packets", u64), ("bytes", u64)]


class Totals(ctypes.Structure):
    _fields_ = [("size", size), ("put", u64), ("polled", u64), ("left", u64), ("bytes", u64)]


class RingShown(ctypes.Structure):
    _fields_ = [("size", size), ("put", u64), ("capacity", size)]


class TxShown(ctypes.Structure):
    _fields_ = [("size", size), ("queued", u32), ("completed", u32), ("limit", u32), ("avail", i64), ("stopped", boolean)]


class TxWatchdog(ctypes.Structure):
    _fields_ = [("private_stopped", u8), ("private_completed", u32), ("private_since", u64)]


class Answers(ctypes.Structure):
    _fields_ = [
        ("size", size), ("granted", u64), ("missed", u64), ("disabled", u64), ("released", u64), ("again", u64), ("held", u64),
        ("changed", u64),
    ]


class RunReport(ctypes.Structure):
    _fields_ = [("size", size), ("polls", u32), ("work", u32), ("squeezed", boolean)]


class Todo(ctypes.Structure):
    _fields_ = [
        ("number", u64), ("nanoseconds", u64), ("what", u32), ("device", u32), ("most", u32), ("packets", u32), ("rearm", u32),
        ("status", u16), ("mask", boolean), ("squeezed", boolean),
    ]


class DeviceSettings(ctypes.Structure):
    _fields_ = [("size", size), ("weight", u32), ("defer_hard_irqs", u32), ("gro_flush_timeout", u64), ("empty_polls", u32)]


class DeviceShown(ctypes.Structure):
    _fields_ = [("size", size), ("state", u32), ("scheduled", boolean), ("missed", boolean), ("polls", u64), ("packets", u64)]


class Settings(ctypes.Structure):
    _fields_ = [("size", size), ("budget", u32), ("weight", u32), ("window", u32)]


class Replayed(ctypes.Structure):
    _fields_ = [("size", size), ("length", size), ("fault", u32), ("row", u32)]


class MachineSettings(ctypes.Structure):
    _fields_ = [
        ("size", size), ("processors", u32), ("queues", u32), ("ring", u32), ("socket", u32), ("backlog", u32), ("budget", u32),
        ("weight", u32), ("window", u32), ("time_limit", u32), ("rx_nsecs", u32), ("rx_frames", u32), ("defer_hard_irqs", u32),
        ("gro_flush_timeout", u32), ("threaded", u32), ("apart", u32), ("app_wake", u32), ("interrupt", u32), ("poll", u32),
        ("packet", u32), ("use_time", u32), ("wake", u32), ("heedless", u32), ("rx_gap", u32), ("timer", u32), ("timer_wake", u32),
        ("latched", u32), ("gro_batch", u32), ("take", u32), ("early", u32), ("poll_wake", u32), ("arm", u32),
    ]


class MachineRan(ctypes.Structure):
    _fields_ = [("size", size), ("length", size), ("row", u64), ("fault", u32), ("setting", u32), ("message", ctypes.c_char * 64)]


# The structs whose size the library returns, by their numbers.
SIZES: dict[type[ctypes.Structure], int] = {Handle: 0, Dql: 1, Napi: 2, Packet: 3, TxWatchdog: 4, Todo: 5}

# The calls, by their names without fq_: the type of the result, and those of the arguments.
CALLS: dict[str, tuple[Any, dict[str, Any]]] = {
    "version": (size, {"to": text, "room": size}),
    "status_text": (size, {"status": u32, "to": text, "room": size}),
    "status_message": (size, {"status": u32, "to": text, "room": size}),
    "fault_text": (size, {"fault": u32, "to": text, "room": size}),
    "version_number": (u32, {}),
    "struct_size": (size, {"which": u32}),
    "dql_init": (Status, {"dql": pointer(Dql), "min": u32, "max": u32, "hold_ms": u64, "now_ms": u64}),
    "dql_queued": (Status, {"dql": pointer(Dql), "count": u32}),
    "dql_completed": (Status, {"dql": pointer(Dql), "count": u32, "now_ms": u64}),
    "dql_reset": (None, {"dql": pointer(Dql), "now_ms": u64}),
    "dql_limit": (u32, {"dql": pointer(Dql)}),
    "dql_avail": (i64, {"dql": pointer(Dql)}),
    "dql_in_flight": (u32, {"dql": pointer(Dql)}),
    "napi_new": (Napi, {"controller": u32}),
    "napi_schedule": (Status, {"napi": pointer(Napi), "who": u32}),
    "napi_hand": (Status, {"napi": pointer(Napi), "who": u32, "kind": u32}),
    "napi_take": (Status, {"napi": pointer(Napi), "who": u32, "kind": u32}),
    "napi_complete": (Status, {"napi": pointer(Napi), "who": u32}),
    "napi_end": (Status, {"napi": pointer(Napi), "who": u32, "full": boolean, "next": pointer(u32)}),
    "napi_busy_take": (Status, {"napi": pointer(Napi), "who": u32}),
    "napi_busy_stop": (Status, {"napi": pointer(Napi), "who": u32}),
    "napi_set_threaded": (None, {"napi": pointer(Napi), "who": u32, "threaded": boolean}),
    "napi_mark_disable": (Status, {"napi": pointer(Napi), "who": u32}),
    "napi_take_disable": (Status, {"napi": pointer(Napi), "who": u32}),
    "napi_unmark": (Status, {"napi": pointer(Napi), "who": u32}),
    "napi_enable": (Status, {"napi": pointer(Napi), "who": u32, "threaded": boolean}),
    "napi_word": (u64, {"napi": pointer(Napi)}),
    "free": (Status, {"handle": pointer(Handle)}),
    "abandon": (Status, {"handle": pointer(Handle)}),
    "move": (Status, {"from": pointer(Handle), "to": pointer(Handle)}),
    "ring_new": (Status, {"ring": pointer(Ring), "capacity": size}),
    "ring_put": (Status, {"ring": pointer(Ring), "number": u64, "bytes": u32}),
    "ring_put_all": (Status, {"ring": pointer(Ring), "packets": pointer(Packet), "len": size, "count": pointer(size)}),
    "ring_poll": (Status, {"ring": pointer(Ring), "weight": size, "out": pointer(Packet), "len": size, "count": pointer(size)}),
    "count_sized": (Status, {"handle": pointer(Handle), "counts": pointer(Counts)}),
    "ring_show_sized": (Status, {"ring": pointer(Ring), "shown": pointer(RingShown)}),
    "ring_split": (Status, {"ring": pointer(Ring), "out": pointer(Ring)}),
    "ring_finish_sized": (Status, {"ring": pointer(Ring), "totals": pointer(Totals)}),
    "ring_places": (Status, {"ring": pointer(Ring), "out": pointer(Ring), "capacity": size}),
    "ring_claim": (Status, {"ring": pointer(Ring), "publish": size, "want": size, "first": pointer(size), "count": pointer(size)}),
    "ring_peek": (Status, {"ring": pointer(Ring), "release": size, "want": size, "first": pointer(size), "count": pointer(size)}),
    "tx_new": (Status, {"tx": pointer(Tx), "capacity": size, "min": u32, "max": u32, "hold_ms": u64, "now_ms": u64}),
    "tx_send": (Status, {"tx": pointer(Tx), "bytes": u32}),
    "tx_done": (Status, {"tx": pointer(Tx), "count": u32, "now_ms": u64}),
    "tx_state_sized": (Status, {"tx": pointer(Tx), "state": pointer(TxShown)}),
    "tx_watch": (Status, {"tx": pointer(Tx), "watchdog": pointer(TxWatchdog), "limit_ms": u64, "now_ms": u64, "stuck": pointer(boolean)}),
    "shared_new": (Status, {"ring": pointer(Ring), "control": pointer(Control), "callers": pointer(Caller), "count": size}),
    "shared_bare": (Status, {"control": pointer(Control), "callers": pointer(Caller), "count": size}),
    "caller_schedule": (Status, {"caller": pointer(Caller)}),
    "caller_schedule_prep": (Status, {"caller": pointer(Caller)}),
    "caller_take": (Status, {"caller": pointer(Caller), "kind": u32}),
    "caller_busy_take": (Status, {"caller": pointer(Caller)}),
    "caller_set_threaded": (Status, {"caller": pointer(Caller), "threaded": boolean}),
    "caller_hand": (Status, {"caller": pointer(Caller), "kind": u32}),
    "caller_poll": (Status, {"caller": pointer(Caller), "weight": size, "out": pointer(Packet), "len": size, "count": pointer(size)}),
    "caller_requeue": (Status, {"caller": pointer(Caller)}),
    "caller_complete": (Status, {"caller": pointer(Caller)}),
    "caller_complete_done": (Status, {"caller": pointer(Caller)}),
    "caller_busy_stop": (Status, {"caller": pointer(Caller)}),
    "caller_look": (Status, {"caller": pointer(Caller), "word": pointer(u64)}),
    "caller_count_sized": (Status, {"caller": pointer(Caller), "answers": pointer(Answers)}),
    "caller_hand_again": (Status, {"caller": pointer(Caller), "next": pointer(u32)}),
    "caller_end": (Status, {"caller": pointer(Caller), "full": boolean, "next": pointer(u32)}),
    "control_enable": (Status, {"control": pointer(Control), "threaded": boolean}),
    "control_mark": (Status, {"control": pointer(Control)}),
    "control_try_take": (Status, {"control": pointer(Control)}),
    "control_step": (Status, {"control": pointer(Control), "on": boolean, "threaded": boolean}),
    "control_has": (Status, {"control": pointer(Control), "caller": pointer(Caller)}),
    "list_new": (Status, {"list": pointer(List)}),
    "list_push": (Status, {"list": pointer(List), "id": u32}),
    "list_remove": (Status, {"list": pointer(List), "id": u32}),
    "list_len": (Status, {"list": pointer(List), "len": pointer(u32)}),
    "run_begin": (Status, {"list": pointer(List), "budget": u32, "weight": u32, "window": u32}),
    "run_next": (Status, {"list": pointer(List), "id": pointer(u32)}),
    "run_polled": (Status, {"list": pointer(List), "work": u32, "next": u32}),
    "run_end_sized": (Status, {"list": pointer(List), "report": pointer(RunReport)}),
    "driver_new_salted": (Status, {"driver": pointer(Driver), "devices": u32, "budget": u32, "weight": u32, "window": u32, "salt": u16}),
    "driver_open": (Status, {"driver": pointer(Driver), "device": u32}),
    "driver_stop": (Status, {"driver": pointer(Driver), "device": u32}),
    "driver_turn": (Status, {"driver": pointer(Driver), "interrupts": u64, "todo": pointer(Todo)}),
    "driver_interrupt": (Status, {"driver": pointer(Driver), "device": u32}),
    "driver_next": (Status, {"driver": pointer(Driver), "todo": pointer(Todo)}),
    "driver_done": (Status, {"driver": pointer(Driver), "todo": pointer(Todo)}),
    "driver_step": (Status, {"driver": pointer(Driver), "todo": pointer(Todo)}),
    "driver_timer": (Status, {"driver": pointer(Driver), "device": u32}),
    "driver_set_sized": (Status, {"driver": pointer(Driver), "device": u32, "settings": pointer(DeviceSettings)}),
    "driver_end_run": (Status, {"driver": pointer(Driver)}),
    "driver_show_sized": (Status, {"driver": pointer(Driver), "device": u32, "shown": pointer(DeviceShown)}),
    "replay_sized": (Status, {
        "settings": pointer(Settings), "trace": text, "len": size, "report": text, "room": size, "replayed": pointer(Replayed),
    }),
    "raise_sized": (Status, {
        "settings": pointer(Settings), "restarts": u32, "trace": text, "len": size, "out": text, "room": size,
        "replayed": pointer(Replayed),
    }),
    "machine_default_sized": (Status, {"settings": pointer(MachineSettings)}),
    "machine_sized": (Status, {
        "settings": pointer(MachineSettings), "arrivals": text, "len": size, "report": text, "room": size, "ran": pointer(MachineRan),
    }),
}
