"""Reads include/fintaqush.h, the description of the C library's ABI, by clang's syntax tree. scripts/abi.py keeps what was read in
scripts/abi.json, so that all others read that file and need no clang.

Its groups begin at a comment `/* ---- NAME: TITLE. MORE`. In a group a comment is about the declarations below it, up to the next comment
or a blank line; a comment at the end of a declaration's line is a note on it. A comment or a note of a call that ends with `Since 3.1.` says
with which version it came.
"""

from __future__ import annotations

import hashlib
import json
import os
import re
import subprocess
from collections.abc import Iterator, Mapping, Sequence
from pathlib import Path
from typing import Any

Node = dict[str, Any]  # of clang's tree
Item = dict[str, Any]  # a declaration: its kind, name, text and note, and what its kind has besides

TOP = Path(__file__).resolve().parent.parent
HEADER = TOP / "include/fintaqush.h"
CPLUSPLUS = TOP / "include/fintaqush.hpp"
ABI = TOP / "scripts/abi.json"
FIRST = "3.0"  # the version of calls that don't say one
BANNER = "---- "
WIDEST = 100  # columns of a line of the headers
# The names of C's whole numbers in the bindings.
NUMBERS = {"uint8_t": "u8", "uint16_t": "u16", "uint32_t": "u32", "uint64_t": "u64", "int64_t": "i64"}
# What isn't part of a declaration's text: macros that say no more than its comment, or that differ by compiler, and a script's marks.
OMITTED = re.compile(
    r"\b(?:FQ_CHECKED(?:_AT\([^)]*\))?|FQ_NONNULL|FQ_RESTRICT|FQ_NUMBER|static inline) |^ */\* scripts/[^\n]*\n", re.M
)
COMMENT_OR_MACRO = re.compile(
    r"/\*(?P<comment>.*?)\*/|^#define (?P<macro>FQ_\w+) (?:\\\n|[^\n])*?(?= */\*|(?<!\\)$)|(?P<blank>\n[ \t]*(?=\n))",
    re.S | re.M,
)


class WrongHeader(Exception):
    """The header isn't as this reader needs it."""


def abi() -> dict[str, Any]:
    """Returns what was read of the header: `version`, `header` (the SHA-256 of its text), and `groups`."""
    read: dict[str, Any] = json.loads(ABI.read_text())
    return read


def items_of(read: Mapping[str, Any], kind: str) -> list[Item]:
    """Returns all declarations of a kind: `function`, `struct`, `enum` or `macro`."""
    return [item for block in blocks_of(read) for item in block["items"] if item["kind"] == kind]


def blocks_of(read: Mapping[str, Any]) -> list[dict[str, Any]]:
    """Returns all blocks: a comment, with the declarations that it is about."""
    return [block for group in read["groups"] for block in group["blocks"]]


def exports(read: Mapping[str, Any]) -> list[Item]:
    return [item for item in items_of(read, "function") if not item["inline"]]


def digest(header: Path = HEADER) -> str:
    return hashlib.sha256(header.read_bytes()).hexdigest()


def check_width() -> None:
    """Fails if a line of the header, or of the one for C++, is too long."""
    for path in HEADER, CPLUSPLUS:
        for number, line in enumerate(path.read_text().splitlines(), 1):
            if len(line) > WIDEST:
                raise WrongHeader(f"line {number} of {path.name} has over {WIDEST} columns")


def read_header(header: Path = HEADER) -> dict[str, Any]:
    """Reads the header with clang."""
    text = header.read_text()
    version = re.search(r'^#define FQ_VERSION "(.*)"$', text, re.M)
    if not version:
        raise WrongHeader("it has no FQ_VERSION")
    if not text.isascii():
        raise WrongHeader("it isn't all ASCII, and clang counts places in bytes")
    groups = groups_of(text, declarations_of(tree(f'#include "{header}"\n')))
    read = {"version": version[1], "header": digest(header), "groups": groups}
    set_values(header, items_of(read, "macro"))
    return read


def tree(program: str) -> list[Node]:
    """Returns the declarations at the top of a C program, as clang's tree has them."""
    command = ["clang", "-x", "c", "-std=c11", "-Xclang", "-ast-dump=json", "-fsyntax-only", "-"]
    ended = subprocess.run(command, input=program, capture_output=True, text=True)
    if ended.returncode:
        raise WrongHeader(ended.stderr)
    nodes: list[Node] = json.loads(ended.stdout)["inner"]
    return nodes


def declarations_of(nodes: Sequence[Node]) -> list[Node]:
    """Returns the header's own declarations: those whose name begins with fq_."""
    kinds = ("FunctionDecl", "RecordDecl", "EnumDecl")
    own = [node for node in nodes if node["kind"] in kinds and node.get("name", "").startswith("fq_")]
    return [node for node in own if node["kind"] != "RecordDecl" or node.get("completeDefinition")]


def begin_of(node: Node) -> int:
    """Returns where a node begins in the header, also if a macro begins it."""
    begin = node["range"]["begin"]
    return int(begin.get("expansionLoc", begin)["offset"])


def end_of(node: Node) -> int:
    end = node["range"]["end"]
    end = end.get("expansionLoc", end)
    return int(end["offset"] + end["tokLen"])


# ---- the groups


def groups_of(text: str, nodes: Sequence[Node]) -> list[dict[str, Any]]:
    """Returns the groups; a comment with its declarations is a block. What is before the first group's comment belongs to none."""
    groups: list[dict[str, Any]] = []
    for part in parts_of(text, nodes):
        if part["kind"] == "comment" and part["text"].startswith(BANNER):
            groups.append(group_of(part["text"]))
        elif not groups or (part["kind"] == "blank" and not groups[-1]["blocks"][-1]["items"]):
            continue
        elif part["kind"] in ("comment", "blank"):
            groups[-1]["blocks"].append({"about": part["text"], "items": []})
        elif part["kind"] == "note":
            groups[-1]["blocks"][-1]["items"][-1]["note"] = part["text"]
        else:
            groups[-1]["blocks"][-1]["items"].append(part)
    for group in groups:
        group["blocks"] = [block for block in group["blocks"] if block["about"] or block["items"]]
        for block in group["blocks"]:
            set_versions(block)
    return groups


def group_of(banner: str) -> dict[str, Any]:
    found = re.fullmatch(r"(\w+): (.*?)\.(?: (.*))?", banner[len(BANNER) :], re.S)
    if not found:
        raise WrongHeader(f"a group begins with `/* {BANNER}NAME: TITLE.`, not with {banner!r}")
    return {"name": found[1], "title": found[2], "about": found[3] or "", "blocks": [{"about": "", "items": []}]}


def parts_of(text: str, nodes: Sequence[Node]) -> Iterator[Item]:
    """Yields, in order: the comments, the notes, the blank lines, the macros and the declarations."""
    at = 0
    for node in nodes:
        yield from between(text[at : begin_of(node)])
        yield declaration(text, node)
        at = end_of(node)
    yield from between(text[at:])


def between(text: str) -> Iterator[Item]:
    """Yields what is between two declarations: a comment that begins in the line of the first is its note."""
    line_ended = False
    at = 0
    for found in COMMENT_OR_MACRO.finditer(text):
        line_ended = line_ended or "\n" in text[at : found.start()]
        at = found.end()
        if found["macro"]:
            yield {"kind": "macro", "name": found["macro"], "text": found[0].rstrip(), "note": ""}
            line_ended = False
        elif found["comment"]:
            yield {"kind": "comment" if line_ended else "note", "text": prose(found["comment"])}
        else:
            line_ended = True
            yield {"kind": "blank", "text": ""}


def prose(comment: str) -> str:
    """Returns a comment's text without the star that begins each line but the first: prose in one line, and each line of code, which is
    indented, in a line of its own that begins with four spaces."""
    first, *lines = comment.strip().splitlines()
    text = first.strip()
    for line in (re.sub(r"^\s*\* ?", "", line).rstrip() for line in lines):
        is_code = line.startswith("    ")
        between = "\n" if is_code or text.rpartition("\n")[2].startswith("    ") else " "
        text += f"{between}{line}" if line else ""
    return text.strip()


def set_versions(block: dict[str, Any]) -> None:
    """Sets the version with which each exported call of a block came."""
    for item in block["items"]:
        if item["kind"] == "function" and not item["inline"]:
            found = re.search(r"[Ss]ince (\d+\.\d+)\.?$", item["note"] or block["about"])
            item["since"] = found[1] if found else FIRST


def set_values(header: Path, macros: Sequence[Item]) -> None:
    """Sets the value of each macro that is a number, and None for the others."""
    numbers = [
        item for item in macros if not re.match(r'#define \w+ (?:\\\s+)?(?:[{"]|FQ_PRIVATE_VALUE)', item["text"])
    ]
    values = "".join(f"    value_of_{item['name']} = {item['name']},\n" for item in numbers)
    nodes = tree(f'#include "{header}"\nenum fq_values {{\n{values}}};\n')
    found = [value for _, value, _ in enumerators("", nodes[-1])]
    for item in macros:
        item["value"] = found[numbers.index(item)] if item in numbers else None


# ---- a declaration


def declaration(text: str, node: Node) -> Item:
    """Returns a declaration, with its text, without a body, as a manual page shows it."""
    inner = node.get("inner", [])
    whole = text[begin_of(node) : end_of(node)]
    item: Item = {"kind": "struct", "name": node["name"], "text": OMITTED.sub("", whole) + ";", "note": ""}
    if node["kind"] == "RecordDecl":
        return {**item, "members": members(text, [one for one in inner if one["kind"] == "FieldDecl"], end_of(node))}
    if node["kind"] == "EnumDecl":
        return {**item, "kind": "enum", "values": enumerators(text, node)}
    bodies = [begin_of(one) for one in inner if one["kind"] == "CompoundStmt"]
    whole = text[begin_of(node) : bodies[0]].rstrip() if bodies else whole
    item["text"] = " ".join(OMITTED.sub("", f"{' '.join(whole.split())} ").split()) + ";"
    return {
        **item,
        "kind": "function",
        "inline": bool(bodies),
        "returns": plain(node["type"]["qualType"].partition("(")[0]),
        "parameters": [[one["name"], type_of(one)] for one in inner if one["kind"] == "ParmVarDecl"],
    }


def type_of(node: Node) -> str:
    return plain(node["type"]["qualType"])


def plain(qualified: str) -> str:
    """Returns a type without restrict; some versions of clang write bool as _Bool."""
    return re.sub(r" ?\b(?:restrict|__restrict)\b", "", qualified).replace("_Bool", "bool").strip()


def members(text: str, fields: Sequence[Node], end: int) -> list[list[str]]:
    """Returns a struct's members: the name, the type and the note of each."""
    ends = [*(begin_of(field) for field in fields[1:]), end]
    return [[field["name"], type_of(field), note(text[end_of(field) : after])] for field, after in zip(fields, ends)]


def enumerators(text: str, node: Node) -> list[list[Any]]:
    """Returns an enum's constants: the name, the value and the note of each."""
    constants = [one for one in node["inner"] if one["kind"] == "EnumConstantDecl"]
    ends = [*(begin_of(one) for one in constants[1:]), end_of(node)]
    return [[one["name"], value_of(one), note(text[end_of(one) : after])] for one, after in zip(constants, ends)]


def value_of(constant: Node) -> int:
    """Returns a constant's value, which is in an expression below casts."""
    node = constant
    while node.get("kind") != "ConstantExpr":
        if not node.get("inner"):
            raise WrongHeader(f"{constant['name']} has no value of its own")
        node = node["inner"][0]
    return int(node["value"])


def note(text: str) -> str:
    """Returns the comment that begins in the first line."""
    found = re.match(r"[;,]? */\*(.*?)\*/", text, re.S)
    return prose(found[1]) if found else ""


# ---- names that scripts/abi.py makes of those of the header


def enum_of(read: Mapping[str, Any], name: str) -> Item:
    return next(item for item in items_of(read, "enum") if item["name"] == name)


def is_object(struct: Item) -> bool:
    """Returns whether a struct is the handle of one kind of object: its only member is what handles of all kinds have."""
    return [member[:2] for member in struct["members"]] == [["handle", "struct fq_handle"]]


def handle_of(c_type: str) -> tuple[str, bool]:
    """Returns the struct to which a pointer leads, or "", and whether it is const."""
    found = re.fullmatch(r"(const )?struct (\w+) \*", c_type)
    return (found[2], bool(found[1])) if found else ("", False)


def names_of(read: Mapping[str, Any], enum: str) -> list[str]:
    return [name for name, _, _ in enum_of(read, enum)["values"]]


def statuses(read: Mapping[str, Any]) -> list[tuple[int, str, str]]:
    """Returns the number, the name and the message of each status. Its note is the calls that it is of, a colon, and the message."""
    values = enum_of(read, "fq_status")["values"]
    return [(number, name, note.partition(": ")[2] or note) for name, number, note in values]


def faults(read: Mapping[str, Any]) -> list[tuple[int, str]]:
    """Returns the number and the name of each fault of a trace, for example BadHeader."""
    item = enum_of(read, "fq_fault")
    return [(number, camel(name[len(prefix_of(item)) :])) for name, number, _ in item["values"]]


def camel(name: str) -> str:
    return "".join(word.capitalize() for word in name.split("_"))


def type_name(name: str) -> str:
    """Returns the name of a struct or an enum in Python, for example RingShown for fq_ring_shown."""
    return camel(name[len("fq_") :])


def prefix_of(enum: Item) -> str:
    """Returns what the names of an enum's constants begin with."""
    common: str = os.path.commonprefix([name for name, _, _ in enum["values"]])
    return common[: common.rindex("_") + 1]


def sentence(text: str) -> str:
    """Returns a note as a sentence."""
    return text[:1].upper() + text[1:] + ("" if text.endswith(".") else ".")
