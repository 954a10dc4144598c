"""The shared library: where it is, its calls, and a check that it is of this package's version."""

from __future__ import annotations

import ctypes
import operator
import os
import pathlib
import sys
from types import TracebackType
from typing import Any, Callable, TypeVar

from ._abi import CALLS, MESSAGE_ROOM, SIZES, VERSION, Status, size, u32, u64
from ._faults import Fault

SONAME = "libfintaqush.so.3"
MOST: dict[Any, int] = {u32: 2**32 - 1, u64: 2**64 - 1, size: 2**64 - 1}
LONG = ("replay_sized", "raise_sized", "machine_sized")  # they release the interpreter's lock, and return their status whatever it is
Tuple = TypeVar("Tuple")


class Missing(ImportError):
    """The library is missing, or is another version. If this isn't caught, it prints one line."""


def _one_line(kind: type[BaseException], fault: BaseException, trace: TracebackType | None, others: Any = sys.excepthook) -> None:
    if kind is Missing:
        print(f"ImportError: {fault}", file=sys.stderr)
    else:
        others(kind, fault, trace)


def missing(why: object) -> Missing:
    """Returns the exception for a package that can't be loaded."""
    sys.excepthook = _one_line
    return Missing(f"fintaqush: {why}; FINTAQUSH_LIB may name the folder of {SONAME}", name="fintaqush")


def place() -> str:
    """Returns the library's path: in the folder that FINTAQUSH_LIB names, otherwise where it was installed with this package,
    otherwise by the usual search."""
    beside = pathlib.Path(__file__).resolve().parents[3] / SONAME
    if named := os.environ.get("FINTAQUSH_LIB"):
        return os.path.join(named, SONAME)
    return str(beside) if beside.exists() else SONAME


try:
    _short, _long = ctypes.PyDLL(place()), ctypes.CDLL(place())
except OSError as error:
    raise missing(error) from None


def number(value: int, name: str, kind: Any = u32) -> int:
    """Checks that a number fits its type; ctypes would truncate it."""
    if not 0 <= operator.index(value) <= MOST[kind]:
        raise ValueError(f"{name} is 0 to {MOST[kind]}, not {value}")
    return value


def __getattr__(name: str) -> Callable[..., Any]:
    """Returns a call of the library, by its name without fq_. One that returns an error raises Fault, except those of LONG."""
    if name not in CALLS:
        raise AttributeError(f"module {__name__!r} has no attribute {name!r}")
    globals()[name] = call = _declared(name)
    return call


def _declared(name: str) -> Callable[..., Any]:
    exported, (result, arguments) = f"fq_{name}", CALLS[name]
    try:
        function = getattr(_long if name in LONG else _short, exported)
    except AttributeError:
        raise missing(f"{SONAME} hasn't {exported}") from None
    function.restype = u32 if result is Status else result
    function.argtypes = list(arguments.values())
    numbers = [(at, argument, kind) for at, (argument, kind) in enumerate(arguments.items()) if kind in MOST]
    is_checked = result is Status and name not in LONG

    def call(*values: Any) -> Any:
        for at, argument, kind in numbers:
            number(values[at], argument, kind)
        status = function(*values)
        return checked(status) if is_checked else status

    return call


def sized(kind: Any, **members: int) -> Any:
    """Returns a struct that begins with its size, with these members, each of which is checked, and zeros."""
    types = dict(kind._fields_)
    return kind(ctypes.sizeof(kind), **{name: number(value, name, types[name]) for name, value in members.items()})


def grown(call: Callable[[Any, int], Any], room: int, told: Any) -> tuple[Status, bytes]:
    """Returns the status of a call, and what it writes to an array, which grows until there is room; `told` has the length."""
    while True:
        out = ctypes.create_string_buffer(room)
        if (said := Status(call(out, room))) is not Status.NO_ROOM:
            return said, ctypes.string_at(out, told.length)
        room = told.length


def fields(words: list[str], **kinds: Callable[[int], Any]) -> dict[str, Any]:
    """Returns the numbers of a line of a report by name, some of them converted."""
    return {name: kinds.get(name, int)(int(word)) for name, word in zip(words[::2], words[1::2])}


def shown(as_tuple: Callable[..., Tuple], kind: Any, call: Callable[..., Any], *values: Any) -> Tuple:
    """Returns what a call sets in a struct of a kind, its last argument, as a tuple of the members after its size."""
    struct = sized(kind)
    call(*values, struct)
    return as_tuple(*(getattr(struct, name) for name, *_ in kind._fields_[1:]))


def checked(status: int) -> Status:
    """Returns a status that isn't an error, and raises Fault for one that is."""
    if status == Status.OUT_OF_MEMORY:
        raise MemoryError("FQ_OUT_OF_MEMORY")
    if 0 < status < Status.GRANTED or status >= Status.NOT_ALLOWED:
        raise Fault(Status(status))
    return Status(status)


def message(status: int) -> str:
    """Returns the message of a status, or "?" for an unknown number."""
    text = ctypes.create_string_buffer(MESSAGE_ROOM)
    __getattr__("status_message")(status, text, len(text))
    return text.value.decode()


def _check_version() -> None:
    """Raises Missing if the library is older than this package, or its structs have other sizes."""
    struct_size, text = __getattr__("struct_size"), ctypes.create_string_buffer(MESSAGE_ROOM)
    wrong = [f"the size of {kind.__name__}" for kind, at in SIZES.items() if ctypes.sizeof(kind) != struct_size(at)]
    __getattr__("version")(text, len(text))
    have, wanted = ([int(part) for part in version.split(".") if part] for version in (text.value.decode(), VERSION))
    if have[:1] != wanted[:1] or have < wanted[:2]:
        wrong.append(f"it is {text.value.decode() or 'none'}, and not {VERSION}")
    if wrong:
        raise missing(f"{SONAME} is of another version: {', '.join(wrong)}")


_check_version()
