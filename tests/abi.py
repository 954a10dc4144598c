#!/usr/bin/env python3
"""tests/abi.py: the C header and the exports of the crates have the same calls, with the same types of parameters and results, and the same
structs, member by member. The handle of each kind of object is to the crates the one handle of all kinds, and it is const exactly if the
export only reads the object. The header is what scripts/header.py read of it; the exports are the functions `extern "C"` and the structs
`repr(C)` of the crates' sources. It prints each difference. With --planted, or --planted-in-header, which needs clang, it plants faults in
copies of the sources, or of the header, and prints those that it doesn't find. With --python it prints C that compiles only if the package
for Python has the header's structs and numbers.
"""

from __future__ import annotations

import ctypes
import re
import runpy
import sys
import tempfile
from collections.abc import Iterator, Mapping
from pathlib import Path
from typing import Any, NamedTuple

TOP = Path(__file__).resolve().parent.parent
sys.path.insert(0, str(TOP / "scripts"))
import header  # noqa: E402

# The C type of each type of Rattle that a call or a struct has, and its size in bytes on x86-64. A text is bytes to Rattle.
TYPES = {"u8": "uint8_t", "u16": "uint16_t", "u32": "uint32_t", "u64": "uint64_t", "i64": "int64_t", "usize": "size_t", "bool": "bool"}
SIZES = {"uint8_t": 1, "uint16_t": 2, "uint32_t": 4, "uint64_t": 8, "int64_t": 8, "size_t": 8, "bool": 1}
# The structs whose name in C isn't that of Rattle, in small letters.
RENAMED = {"Packet": "fq_packet"}
EMPTY = {"Global"}  # the heap, which has no bytes and is no parameter in C
ONLY_C = {"fq_card", "fq_word"}  # structs that only the header's inline functions use
# The handle that a call's prefix names, if that isn't the handle's own name; and the calls on handles of any kind.
KINDS = {"run": "list"}
OF_ANY = {"fq_free", "fq_abandon", "fq_move", "fq_count_sized"}
# The calls that change only what the proofs know of their object, which has no bytes, and so leave its memory as it is.
ONLY_READ = {"fq_caller_look"}
# Python's enums, and what their names begin with in C.
PREFIXES = {"Status": "FQ_", "Kind": "FQ_", "Next": "FQ_NEXT_", "What": "FQ_TODO_", "Rearm": "FQ_REARM_", "DeviceState": "FQ_DEVICE_",
            "Word": "FQ_BIT_"}
EXPORT = re.compile(r'^pub extern "C" fn (fq_\w+)\(([^)]*)\)(?: -> (\S+))?', re.M)
STRUCT = re.compile(r"^#\[repr\(C\)\]\n(?:#\[[^\n]*\]\n)*pub struct (\w+) \{\n(.*?)\n\}", re.M | re.S)
FIELD = re.compile(r"^    (?:pub(?:\(crate\))? )?(\w+): ([^{}\n]+),$", re.M)
COUNT = re.compile(r"^pub const (\w+): usize = (\d+);", re.M)
SIZE_OF = re.compile(r"^        (\d+) => size_of::<(\w+)>\(\),", re.M)


class Part(NamedTuple):
    """A part of a struct's memory that has no parts of its own."""

    offset: int
    c_type: str
    name: str


class Sources:
    """What the crates export, by the text of each source file."""

    def __init__(self, texts: Mapping[str, str]) -> None:
        every = "\n".join(texts.values())
        self.calls: dict[str, tuple[str, str]] = {name: (parameters, result) for name, parameters, result in EXPORT.findall(every)}
        self.structs = {name: FIELD.findall(body) for name, body in STRUCT.findall(every)}
        self.counts = dict(COUNT.findall(every))
        self.numbers = {int(number): name for number, name in SIZE_OF.findall(every)}
        self.readers = {call for call in self.calls for text in texts.values() if call in ONLY_READ or only_reads(text, call)}

    def c_type(self, rattle: str) -> str:
        """Returns the type of C, without arrays: those are in `parts`."""
        if found := re.fullmatch(r"&(mut )?(\w+)|\*(mut|const) (\w+)", rattle):
            is_written, pointed = found[1] or found[3] == "mut", found[2] or found[4]
            return f"{'' if is_written else 'const '}{self.c_type(pointed)} *"
        return TYPES.get(rattle) or f"struct {c_name(rattle)}"

    def parameters(self, call: str) -> Iterator[tuple[str, str]]:
        """Yields the name and the C type of each parameter; a slice is a pointer and a length."""
        for parameter in filter(None, (one.strip() for one in self.calls[call][0].split(","))):
            name, _, rattle = parameter.partition(": ")
            if found := re.fullmatch(r"&(mut )?\[(\w+)\]", rattle):
                yield from ((name, self.c_type(f"&{found[1] or ''}{found[2]}")), ("", "size_t"))
            elif rattle not in EMPTY:
                yield name, self.c_type(rattle)

    def members(self, struct: str) -> Iterator[tuple[str, str]]:
        """Yields the name and the type of each field, those of an array without a name."""
        for name, rattle in self.structs[struct]:
            if found := re.fullmatch(r"\[(\w+); (\w+)\]", rattle):
                yield from (("", found[1]) for _ in range(int(self.counts.get(found[2], found[2]))))
            elif rattle not in EMPTY:
                yield name, rattle

    def parts(self, struct: str) -> list[Part]:
        """Returns the parts of a struct's memory."""
        kinds = {rattle: self.parts(rattle) for _, rattle in self.members(struct) if rattle in self.structs}
        fields: list[tuple[str, str | list[Part]]] = []
        for name, rattle in self.members(struct):
            fields.append((name, kinds.get(rattle) or self.c_type(rattle)))
        return laid_out(fields)


def only_reads(text: str, call: str) -> bool:
    """Returns whether an export in this source file takes only shared references to its object, or lends it only to functions that can't
    change it."""
    body = re.search(rf'^pub extern "C" fn {call}\(.*?^\}}', text, re.M | re.S)
    lent = re.findall(r"(&\*|\S*?\(?)\bhandle\.held\.as_mut\(\)", body[0]) if body else []
    return bool(lent) and all(one.endswith("&*") or re.search(rf"^fn {one.rstrip('(')}\(\s*\w+: &Object[,)]", text, re.M) for one in lent)


def c_name(rattle: str) -> str:
    return RENAMED.get(rattle) or re.sub(r"(?<!^)([A-Z])", r"_\1", rattle).lower()


def c_parts(structs: Mapping[str, Any], name: str) -> list[Part]:
    """Returns the parts of a struct of the header."""
    fields: list[tuple[str, str | list[Part]]] = []
    for member, c_type, _ in structs[name]["members"]:
        base, _, count = c_type.partition("[")
        inner = structs.get(base[len("struct ") :]) if base.startswith("struct ") else None
        part: str | list[Part] = c_parts(structs, inner["name"]) if inner else plain(base)
        fields += [("" if count else member, part)] * int(count.rstrip("]") or 1)
    return laid_out(fields)


def plain(c_type: str) -> str:
    """Returns a type as the exports have it: a text is bytes, an untyped pointer leads to bytes, and an enum is a number."""
    return re.sub(r"\benum fq_\w+", "uint32_t", re.sub(r"\b(?:char|void)\b", "uint8_t", c_type))


def laid_out(fields: list[tuple[str, str | list[Part]]]) -> list[Part]:
    """Returns the parts of a struct with these members, each at the next offset that its alignment allows."""
    parts: list[Part] = []
    at = 0
    for name, field in fields:
        own = field if isinstance(field, list) else [Part(0, field, name)]
        aligned = max(SIZES.get(part.c_type, 8) for part in own)
        at = -(-at // aligned) * aligned
        parts += [Part(at + part.offset, part.c_type, part.name) for part in own]
        at += -(-(own[-1].offset + SIZES.get(own[-1].c_type, 8)) // aligned) * aligned
    return parts


def differences(read: Mapping[str, Any], texts: Mapping[str, str]) -> Iterator[str]:
    """Yields each difference between the header as it was read, and the exports in these source files."""
    sources = Sources(texts)
    calls = {item["name"]: item for item in header.exports(read)}
    structs = {item["name"]: item for item in header.items_of(read, "struct") if item["name"] not in ONLY_C}
    objects = {name for name, item in structs.items() if header.is_object(item)}
    yield from (f"{name} is only in the header" for name in sorted(calls.keys() - sources.calls.keys()))
    yield from (f"{name} is only in the crates" for name in sorted(sources.calls.keys() - calls.keys()))
    for name in sorted(calls.keys() & sources.calls.keys()):
        yield from of_call(sources, calls[name], objects)
    exported = {c_name(name): name for name in sources.structs}
    for name in sorted(structs.keys() - objects):
        if name not in exported:
            yield f"struct {name} is only in the header"
        else:
            yield from of_struct(name, c_parts(structs, name), sources.parts(exported[name]))
    numbers = header.enum_of(read, "fq_struct")["values"]
    wanted = {value: name.replace("FQ_STRUCT_", "fq_").lower() for name, value, _ in numbers}
    if wanted != {number: c_name(name) for number, name in sources.numbers.items()}:
        yield "enum fq_struct and fq_struct_size number different structs"


def of_call(sources: Sources, call: Mapping[str, Any], objects: set[str]) -> Iterator[str]:
    """Yields how a call differs. A number's name is the same on both sides; in the header it may end with its unit, _ms."""
    name, own = call["name"], list(sources.parameters(call["name"]))
    yield from of_handles(call, objects, name in sources.readers)
    result = sources.calls[name][1]
    if (returned := sources.c_type(result) if result else "void") != plain(call["returns"]).replace("uint8_t", "void"):
        yield f"{name} returns {call['returns']} in the header, and {returned} in the crates"
    if len(own) != len(call["parameters"]):
        yield f"{name} has {len(call['parameters'])} parameters in the header, and {len(own)} in the crates"
    for (parameter, c_type), (own_name, exported) in zip(call["parameters"], own):
        given = plain(c_type)
        if header.handle_of(c_type)[0] in {*objects, "fq_handle"}:
            given = "struct fq_handle *"
        if given != exported:
            yield f"{name}: {parameter} is {c_type} in the header, and {exported} in the crates"
        elif "*" not in c_type and own_name and own_name != parameter.removesuffix("_ms"):
            yield f"{name}: {parameter} in the header is {own_name} in the crates"


def of_handles(call: Mapping[str, Any], objects: set[str], is_reader: bool) -> Iterator[str]:
    """Yields a call whose first handle isn't of the kind that its name says: only some take any kind; or isn't const exactly if the call
    only reads the object."""
    handles = [header.handle_of(c_type) for _, c_type in call["parameters"]]
    handles = [(struct, is_const) for struct, is_const in handles if struct in {*objects, "fq_handle"}]
    kind = call["name"].split("_")[1]
    wanted = "fq_handle" if call["name"] in OF_ANY else f"fq_{KINDS.get(kind, kind)}"
    structs = [struct for struct, _ in handles]
    if "fq_handle" in structs and wanted != "fq_handle" or wanted in {*objects, "fq_handle"} and wanted != structs[0]:
        yield f"{call['name']} takes a {structs[0]}"
    if [is_const for _, is_const in handles] != [is_reader] * len(handles):
        yield f"{call['name']} {'only reads its object' if is_reader else 'takes a const handle, and changes its object'}"


def of_struct(name: str, wanted: list[Part], exported: list[Part]) -> Iterator[str]:
    """Yields how a struct differs; private members, and elements of arrays, need no names in common."""
    if len(wanted) != len(exported):
        yield f"struct {name} has {len(wanted)} parts in the header, and {len(exported)} in the crates"
    for one, other in zip(wanted, exported):
        if (one.offset, one.c_type) != (other.offset, other.c_type):
            places = [f"{part.c_type} at {part.offset}" for part in (one, other)]
            yield f"struct {name}: {one.name} is {places[0]} in the header, and {places[1]} in the crates"
        elif other.name and one.name and one.name != other.name and not one.name.startswith("private_"):
            yield f"struct {name}: {one.name} in the header is {other.name} in the crates"


def c_of_python() -> Iterator[str]:
    """Yields C that compiles only if the structs of the package for Python have the header's sizes and offsets."""
    abi = runpy.run_path(str(TOP / "bindings/python/fintaqush/_abi.py"))
    yield "#include <fintaqush.h>"
    for name, struct in abi.items():
        if isinstance(struct, type) and issubclass(struct, ctypes.Structure):
            own = c_name(f"Fq{name}")
            yield f'_Static_assert(sizeof(struct {own}) == {ctypes.sizeof(struct)}, "{own}");'
            for member, *_ in struct._fields_:
                field = getattr(struct, member)
                yield f'_Static_assert(offsetof(struct {own}, {member}) == {field.offset}, "{own}.{member}");'
                yield f'_Static_assert(sizeof(((struct {own} *)0)->{member}) == {field.size}, "{own}.{member}");'
    for name, prefix in PREFIXES.items():
        yield from (f'_Static_assert({prefix}{one.name} == {one.value}ull, "{one.name}");' for one in abi[name])


# ---- planted faults: a file, what is in it, what takes its place, and what has to be named

PLANTED = [
    ("crates/napi_c/src/ring.rt", "number: u64, bytes: u32", "number: u64, bytes: u64", "fq_ring_put"),
    ("crates/napi_c/src/limit.rt", "fq_dql_init(dql: &mut FqDql, min: u32, max: u32", "fq_dql_init(dql: &mut FqDql, max: u32, min: u32", "fq_dql_init"),
    ("crates/napi_c/src/limit.rt", "avail(dql: &FqDql) -> i64", "avail(dql: &FqDql) -> u64", "fq_dql_avail"),
    ("crates/napi_c/src/limit.rt", "fq_dql_limit(dql: &FqDql)", "fq_dql_limit(dql: &mut FqDql)", "fq_dql_limit"),
    ("crates/napi_c/src/driver.rt", "_open(handle: &mut FqHandle, device", "_open(handle: &FqHandle, device", "fq_driver_open"),
    ("crates/napi_c/src/list.rt", "fn fq_list_len(", "fn fq_list_size(", "fq_list_size"),
    ("crates/napi_c/src/list.rt", "match &*handle.held.as_mut() {", "match handle.held.as_mut() {", "fq_list_len"),
    ("crates/napi_c/src/list.rt", "match handle.held.as_mut() {", "match &*handle.held.as_mut() {", "fq_list_push"),
    ("crates/napi_c/src/counts.rt", "pub polls: u64,", "pub polls: u32,", "fq_counts"),
    ("crates/c_handles/src/lister.rt", "pub polls: u32,", "pub work: u32,", "fq_run_report"),
    ("crates/c_handles/src/drive.rt", "pub scheduled: bool,", "pub scheduled: u32,", "fq_device_shown"),
    ("crates/dql_core/src/queue.rt", "start: u64,\n    min_limit: u32", "start: u32,\n    min_limit: u64", "fq_dql"),
    ("crates/machine_model/src/settings.rt", "OPTION_COUNT: usize = ", "OPTION_COUNT: usize = 1", "fq_machine_settings"),
    ("crates/napi_c/src/sizes.rt", "3 => size_of::<Packet>()", "3 => size_of::<FqCounts>()", "fq_struct_size"),
]


def planted(read: Mapping[str, Any], texts: Mapping[str, str]) -> Iterator[str]:
    """Yields the planted faults that aren't found, in the crates and in the header."""
    before = {*differences(read, texts)}
    for path, old, new, named in PLANTED:
        if old not in texts[path]:
            yield f"{path} has no {old!r}, where a fault would be planted"
        else:
            found = {*differences(read, {**texts, path: texts[path].replace(old, new)})} - before
            if not any(named in line for line in found):
                yield f"{new!r} in {path} isn't found"


# Faults of the header, which clang reads.
PLANTED_IN_HEADER = [
    ("uint64_t number, uint32_t bytes);", "uint32_t number, uint32_t bytes);", "fq_ring_put"),
    ("fq_dql_init(struct fq_dql *dql, uint32_t min, uint32_t max,", "fq_dql_init(struct fq_dql *dql, uint32_t max, uint32_t min,", "fq_dql_init"),
    ("fq_dql_limit(const struct fq_dql *dql);", "fq_dql_limit(struct fq_dql *dql);", "fq_dql_limit"),
    ("fq_list_len(const struct fq_list *", "fq_list_len(const struct fq_ring *", "fq_list_len"),
    ("fq_ring_show_sized(const struct", "fq_ring_show_sized(struct", "fq_ring_show_sized"),
    ("fq_caller_look(const struct", "fq_caller_look(struct", "fq_caller_look"),
    ("fq_caller_requeue(struct", "fq_caller_requeue(const struct", "fq_caller_requeue"),
    ("fq_shared_bare(struct fq_control *", "fq_shared_bare(struct fq_handle *", "fq_shared_bare"),
    ("struct fq_tx { struct fq_handle handle; }", "struct fq_tx { struct fq_handle handle; int more; }", "fq_tx"),
    ("uint64_t private_b;\n    uint32_t private_c[2];", "uint32_t private_c[2];\n    uint64_t private_b;", "fq_dql"),
    ("    uint64_t number; /* a number", "    int64_t number; /* a number", "fq_packet"),
    ("FQ_STRUCT_NAPI = 2, FQ_STRUCT_PACKET = 3", "FQ_STRUCT_NAPI = 3, FQ_STRUCT_PACKET = 2", "fq_struct_size"),
]


def planted_in_header(texts: Mapping[str, str]) -> Iterator[str]:
    """Yields the planted faults of the header that aren't found."""
    text = header.HEADER.read_text()
    yield from differences(header.read_header(), texts)
    for old, new, named in PLANTED_IN_HEADER:
        with tempfile.TemporaryDirectory() as folder:
            wrong = Path(folder) / header.HEADER.name
            wrong.write_text(text.replace(old, new, 1))
            if old not in text:
                yield f"the header has no {old!r}, where a fault would be planted"
            elif not any(named in line for line in differences(header.read_header(wrong), texts)):
                yield f"{new!r} in the header isn't found"


def main() -> int:
    """Prints what the arguments ask for; the status is 1 if anything differs."""
    texts = {str(path.relative_to(TOP)): path.read_text() for path in sorted(TOP.glob("crates/*/src/**/*.rt"))}
    if sys.argv[1:] == ["--planted"]:
        wrong = [*planted(header.abi(), texts)]
    elif sys.argv[1:] == ["--planted-in-header"]:
        wrong = [*planted_in_header(texts)]
    elif sys.argv[1:] == ["--python"]:
        print(*c_of_python(), sep="\n")
        return 0
    else:
        wrong = [*differences(header.abi(), texts)]
    print(*wrong, sep="\n", end="\n" if wrong else "")
    return int(bool(wrong))


if __name__ == "__main__":
    sys.exit(main())
