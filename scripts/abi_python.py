"""The declarations of include/fintaqush.h for the package of bindings/python: its module `_abi`."""

from __future__ import annotations

import textwrap
from collections.abc import Iterator, Mapping
from typing import Any

from header import NUMBERS, Item, blocks_of, enum_of, exports, faults, items_of, prefix_of, type_name
from parts import filled

HEAD = '''\
"""What include/fintaqush.h declares, for ctypes: its numbers, structs and calls. scripts/abi.py writes this file."""

from __future__ import annotations

import ctypes
import enum
from typing import Any

u8, u16, u32, u64, i64 = ctypes.c_uint8, ctypes.c_uint16, ctypes.c_uint32, ctypes.c_uint64, ctypes.c_int64
size, boolean, text, pointer = ctypes.c_size_t, ctypes.c_bool, ctypes.c_char_p, ctypes.POINTER
'''
TYPES = {
    **NUMBERS,
    "size_t": "size",
    "bool": "boolean",
    "void": "None",
    "char": "ctypes.c_char",
    "void *": "ctypes.c_void_p",
    "enum fq_status": "Status",
}
NOT_PYTHON = {"fq_card", "fq_word"}  # callbacks and atomics, which only inline functions use
NO_CLASS = {"fq_struct", "fq_fault"}
WIDEST = 140


def ctypes_of(c_type: str) -> str:
    """Returns a type of C in Python; an array of bytes is a text."""
    if c_type in TYPES:
        return TYPES[c_type]
    if c_type.endswith("*"):
        pointed = c_type[:-1].strip().removeprefix("const ")
        return "text" if pointed in ("char", "uint8_t") else f"pointer({ctypes_of(pointed)})"
    if c_type.startswith("enum "):
        return "u32"
    base, _, count = c_type.partition("[")
    return f"{ctypes_of(base)} * {count[:-1]}" if count else type_name(c_type.removeprefix("struct "))


def macros_of(read: Mapping[str, Any], is_bit: bool) -> list[Item]:
    """Returns the macros that are numbers: the bits of the state word, or the others."""
    macros = [item for item in items_of(read, "macro") if item["value"] is not None]
    return [item for item in macros if item["name"].startswith("FQ_BIT_") == is_bit]


def documented(about: str) -> list[str]:
    return textwrap.wrap(f'"""{about}"""', WIDEST, initial_indent="    ", subsequent_indent="    ")


def numbers(read: Mapping[str, Any]) -> Iterator[str]:
    """Yields a class for each enum, and one for the bits of the state word."""
    bits = macros_of(read, True)
    for block in blocks_of(read):
        if bits[0] in block["items"]:
            yield from ("", "", "class Word(enum.IntFlag):", *documented(block["about"]), "")
            yield from (f"    {bit['name'][len('FQ_BIT_'):]} = 1 << {bit['value'].bit_length() - 1}" for bit in bits)
        for item in block["items"]:
            if item["kind"] == "enum" and item["name"] not in NO_CLASS:
                yield from ("", "", f"class {type_name(item['name'])}(enum.IntEnum):", *documented(block["about"]), "")
                yield from (f"    {name[len(prefix_of(item)):]} = {value}" for name, value, _ in item["values"])


def structs(read: Mapping[str, Any]) -> Iterator[str]:
    for item in items_of(read, "struct"):
        if item["name"] not in NOT_PYTHON:
            members = [f'("{name}", {ctypes_of(c_type)})' for name, c_type, _ in item["members"]]
            yield from ("", "", f"class {type_name(item['name'])}(ctypes.Structure):")
            yield from within("    _fields_ = [", members, "]")


def within(head: str, parts: list[str], tail: str) -> list[str]:
    """Returns a list in one line, or with as many parts in each line as fit."""
    line = head + ", ".join(parts) + tail
    indent = " " * (len(head) - len(head.lstrip()))
    rows = filled((f"{part}," for part in parts), f"{indent}    ", WIDEST)
    return [line] if len(line) <= WIDEST else [head, *rows, indent + tail]


def calls(read: Mapping[str, Any]) -> Iterator[str]:
    """Yields the table of the calls."""
    yield from ("", "# The calls, by their names without fq_: the type of the result, and those of the arguments.")
    yield "CALLS: dict[str, tuple[Any, dict[str, Any]]] = {"
    for item in exports(read):
        arguments = [f'"{name}": {ctypes_of(c_type)}' for name, c_type in item["parameters"]]
        head = f'    "{item["name"].removeprefix("fq_")}": ({ctypes_of(item["returns"])}, {{'
        yield from within(head, arguments, "}),")
    yield "}"


def sizes(read: Mapping[str, Any]) -> Iterator[str]:
    values = enum_of(read, "fq_struct")["values"]
    rows = [f"{type_name(name.replace('FQ_STRUCT_', 'fq_').lower())}: {value}" for name, value, _ in values]
    yield from ("", "# The structs whose size the library returns, by their numbers.")
    yield from within("SIZES: dict[type[ctypes.Structure], int] = {", rows, "}")


def module(read: Mapping[str, Any]) -> str:
    """Returns the whole module."""
    lines = [
        f'VERSION = "{read["version"]}"',
        *(f"{item['name'][len('FQ_'):]} = {item['value']}" for item in macros_of(read, False)),
        *within("FAULTS = {", [f'{number}: "{name}"' for number, name in faults(read)], "}"),
        *numbers(read),
        *structs(read),
        "",
        *sizes(read),
        *calls(read),
    ]
    return HEAD + "\n".join(lines) + "\n"
