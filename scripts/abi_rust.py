"""The declarations of include/fintaqush.h for the crate of bindings/rust: its module `sys`, and the constants of `Fault`."""

from __future__ import annotations

import re
import textwrap
from collections.abc import Iterator, Mapping
from typing import Any

from header import NUMBERS, Item, blocks_of, enum_of, exports, faults, is_object, items_of, names_of, prefix_of
from header import sentence, statuses

HEAD = """\
//! `include/fintaqush.h` in Rust: its numbers, structs and functions. The head of the header says what it requires of
//! the program; the other modules of this crate meet that. `scripts/abi.py` writes this file.
#![allow(non_camel_case_types)]

mod functions;

pub use functions::*;
use std::os::raw::{c_char, c_void};
"""
FUNCTIONS_HEAD = """\
//! The functions of the C library. `scripts/abi.py` writes this file.
use super::*;

extern "C" {
"""
CALLS_HEAD = """\
//! The calls of the library by references and slices in place of pointers. `scripts/abi.py` writes this file.
#![allow(dead_code)] // some have no use in this crate

use crate::sys::*;
"""
KEYWORDS = ("move",)  # of Rust, among the names of calls
LENGTHS = ("len", "room", "count")  # the names of a parameter that is the length of the array before it
TYPES = {**NUMBERS, "size_t": "usize", "char": "c_char", "void": "c_void"}
NOT_RUST = {"fq_card", "fq_word"}  # Rust has a trait, and an atomic
ALL = "Clone, Copy, Debug, Default, PartialEq, Eq"
DERIVES = {"fq_handle": "Debug", "fq_dql": "Debug, Default", "fq_napi": "Clone, Debug, PartialEq, Eq"}
# The results after which nothing has changed, so that they are errors in Rust.
FAILING = ("FQ_NOT_THERE", "FQ_BUSY", "FQ_FULL", "FQ_STOPPED", "FQ_NOT_DUE")
CODE = re.compile(r"`[^`]*`|(?P<code>\*?\b(?:\w+->)?\w*_\w*(?:\.\.)?|\*\w+|\w+->\w+|\w+\(\w+\))|(?P<sign>[\[\]<>*])")
WIDEST = 100  # of a declaration, as rustfmt breaks it


def markdown(text: str) -> str:
    """Returns a comment of the header as rustdoc reads it: names as code."""

    def as_code(found: re.Match[str]) -> str:
        return f"`{found['code']}`" if found["code"] else "\\" + found["sign"] if found["sign"] else found[0]

    return CODE.sub(as_code, text)


def doc(text: str, indent: str = "") -> list[str]:
    begin = f"{indent}/// "
    return textwrap.wrap(markdown(text), 118, initial_indent=begin, subsequent_indent=begin, break_long_words=False)


def rust_type(c_type: str) -> str:
    if c_type.endswith("*"):
        pointed = c_type[:-1].strip()
        return f"*const {rust_type(pointed[6:])}" if pointed.startswith("const ") else f"*mut {rust_type(pointed)}"
    base, _, count = c_type.partition("[")
    if count:
        return f"[{rust_type(base)}; {count[:-1]}]"
    if c_type.startswith("enum "):
        return "u32"
    return c_type[len("struct ") :] if c_type.startswith("struct ") else TYPES.get(c_type, c_type)


def numbers(read: Mapping[str, Any]) -> Iterator[str]:
    """Yields a constant for each enumerator, and for each macro that is a number."""
    for item in items_of(read, "enum"):
        yield ""
        for name, value, note in item["values"]:
            yield from doc(sentence(note) if note else f"{name} of `enum {item['name']}`.")
            yield f"pub const {name}: u32 = {value};"
    yield ""
    for item in items_of(read, "macro"):
        name, value = item["name"], item["value"]
        if value is not None:
            yield from doc(sentence(item["note"]))
            if name.startswith("FQ_BIT_"):
                yield f"pub const {name}: u64 = 1 << {value.bit_length() - 1};"
            else:
                yield f"pub const {name}: {'usize' if name.endswith('_ROOM') else 'u32'} = {value};"


def items_with_comments(read: Mapping[str, Any], kind: str) -> Iterator[tuple[Item, str]]:
    """Yields the declarations of a kind, each with the comment of its block and its own note."""
    for block in blocks_of(read):
        for item in (item for item in block["items"] if item["kind"] == kind):
            yield item, f"{block['about']} {item['note'] and sentence(item['note'])}".strip()


def structs(read: Mapping[str, Any]) -> Iterator[str]:
    every = {item["name"]: item for item in items_of(read, "struct")}
    for item, about in items_with_comments(read, "struct"):
        if item["name"] not in NOT_RUST:
            yield from ("", *struct(item, about))
            if has_size(item):
                yield from ("", f"impl {item['name']} {{", "    /// Its size, and zeros.")
                yield from zeros(every, item, f"    pub const INIT: {item['name']} = ", ";")
                yield "}"


def has_size(item: Item) -> bool:
    return bool(item["members"][0][0] == "size")


def zeros(every: Mapping[str, Item], item: Item, head: str, tail: str) -> Iterator[str]:
    """Yields a value of a struct: its size, and zeros."""
    indent = " " * (len(head) - len(head.lstrip()))
    yield f"{head}{item['name']} {{"
    for name, c_type, _ in item["members"]:
        rust, member = rust_type(c_type), f"{indent}    {name}: "
        if rust in every:
            yield from zeros(every, every[rust], member, ",")
        elif name == "size":
            yield f"{member}std::mem::size_of::<{item['name']}>(),"
        else:
            count = rust.partition("; ")[2]
            yield f"{member}[0; {count}," if count else f"{member}{'false' if rust == 'bool' else 0},"
    yield f"{indent}}}{tail}"


def struct(item: Item, about: str) -> Iterator[str]:
    """Yields a struct; a member is public unless its name begins with private_."""
    # with 0 for its size it would be wrong
    usual = "Debug" if is_object(item) else ALL.replace("Default, ", "") if has_size(item) else ALL
    derives = DERIVES.get(item["name"], usual)
    yield from (*doc(about), "#[repr(C)]", f"#[derive({derives})]", f"pub struct {item['name']} {{")
    for name, c_type, note in item["members"]:
        if name.startswith("private_") or is_object(item):
            yield f"    pub(crate) {name}: {rust_type(c_type)},"
        else:
            yield from (*doc(sentence(note), "    "), f"    pub {name}: {rust_type(c_type)},")
    yield "}"


def functions_rs(read: Mapping[str, Any]) -> str:
    """Returns the whole module `functions` of `sys`."""
    own = [(item, about) for item, about in items_with_comments(read, "function") if not item["inline"]]
    lines = [line for item, about in own for line in (*doc(about, "    "), *function(item))]
    return FUNCTIONS_HEAD + "\n".join(lines) + "\n}\n"


def function(item: Item) -> list[str]:
    types = [f"{name}: {rust_type(c_type)}" for name, c_type in item["parameters"]]
    result = "" if item["returns"] == "void" else f" -> {rust_type(item['returns'])}"
    return in_lines(f"    pub fn {item['name']}(", types, f"){result};", "    ")


def arguments(item: Item) -> Iterator[tuple[str, list[str]]]:
    """Yields each parameter of a function over a call, and what it gives to the call: a pointer is a reference, or a slice if a length
    follows it."""
    rest = list(item["parameters"])
    while rest:
        name, c_type = rest.pop(0)
        pointer, _, pointed = rust_type(c_type).partition(" ")
        mutable = "mut " if pointer == "*mut" else ""
        if not pointed:
            yield f"{name}: {pointer}", [name]
        elif rest and rest[0][1] == "size_t" and rest[0][0] in LENGTHS:
            rest.pop(0)
            element, cast = ("u8", ".cast()") if pointed == "c_char" else (pointed, "")
            method = "as_mut_ptr" if mutable else "as_ptr"
            yield f"{name}: &{mutable}[{element}]", [f"{name}.{method}(){cast}", f"{name}.len()"]
        else:
            yield f"{name}: &{mutable}{pointed}", [name]


def safe_function(item: Item) -> Iterator[str]:
    """Yields a function over a call, by references and slices."""
    own = list(arguments(item))
    given = [one for _, parts in own for one in parts]
    result = "" if item["returns"] == "void" else f" -> {rust_type(item['returns'])}"
    call = item["name"][len("fq_") :]
    name = f"{call}_" if call in KEYWORDS else call
    yield from ("", *in_lines(f"pub(crate) fn {name}(", [parameter for parameter, _ in own], f"){result} {{", ""))
    yield "    // SAFETY: the references and slices are valid for their whole types, and a mutable one overlaps no other."
    line = f"    unsafe {{ {item['name']}({', '.join(given)}) }}"
    wider = ["    unsafe {", *in_lines(f"        {item['name']}(", given, ")", "        "), "    }"]
    yield from (*([line] if len(line) <= WIDEST else wider), "}")


def in_lines(head: str, parts: list[str], tail: str, indent: str) -> list[str]:
    """Returns a call or a declaration in one line if it fits, otherwise with a line for each part."""
    line = head + ", ".join(parts) + tail
    return [line] if len(line) <= WIDEST else [head, *(f"{indent}    {part}," for part in parts), indent + tail]


def calls_rs(read: Mapping[str, Any]) -> str:
    """Returns the whole module `calls`."""
    return CALLS_HEAD + "\n".join(line for item in exports(read) for line in safe_function(item)) + "\n"


def names(enum: str, rows: list[tuple[str, str]], example: str) -> list[str]:
    """Returns a function that returns the name of a number."""
    what = enum[len("fq_") :]
    return [
        "",
        *doc(f'Returns the name of a {what}, for example "{example}"; "?" for an unknown number.'),
        f"pub fn {enum}_name({what}: u32) -> &'static str {{",
        f"    match {what} {{",
        *(f'        {constant} => "{name}",' for constant, name in rows),
        '        _ => "?",',
        "    }",
        "}",
    ]


def sys_rs(read: Mapping[str, Any]) -> str:
    """Returns the whole module `sys`."""
    fault_names = list(zip(names_of(read, "fq_fault"), (name for _, name in faults(read))))
    lines = [
        *numbers(read),
        *structs(read),
        *names("fq_status", [(name, name) for _, name, _ in statuses(read)], "FQ_GRANTED"),
        *names("fq_fault", fault_names, "BadHeader"),
    ]
    return HEAD + "\n".join(lines) + "\n"


def faults_rs(read: Mapping[str, Any]) -> Iterator[str]:
    """The constants of `Fault`: the errors."""
    item = enum_of(read, "fq_status")
    for name, number, note in item["values"]:
        if 0 < number < 16 or number >= 100 or name in FAILING:
            yield from doc(sentence(note), "    ")
            yield f"    pub const {name[len(prefix_of(item)) :]}: Fault = Fault(sys::{name});"
