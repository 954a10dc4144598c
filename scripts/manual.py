"""The reference of the C library, from what scripts/header.py read of include/fintaqush.h.

manual.py FOLDER writes the manual pages of section 3: fintaqush_GROUP.3 for each group, and CALL.3 for each call; calls with one comment
have one page.
manual.py --names prints their names. manual.py --doxygen FILE prints a header with its comments as Doxygen reads them.
"""

from __future__ import annotations

import re
import sys
import textwrap
from collections.abc import Iterator, Mapping, Sequence
from pathlib import Path
from typing import Any

import header
from header import sentence, statuses

Status = tuple[int, str, str]  # its number, its name and its message
# What begins the list of results.
OF_CALL = "Results, and errors, for which\n.BR fq_is_error (3)\nreturns true:"
OF_GROUP = (
    "A call of the type enum fq_status returns a status. Its description above says which; for an error\n.BR fq_is_error (3)\n"
    "returns true. The other calls return what their descriptions say. Results:"
)


def calls_of(group: Mapping[str, Any]) -> list[str]:
    items = [item for block in group["blocks"] for item in block["items"]]
    return [item["name"] for item in items if item["kind"] == "function"]


def roff(text: str) -> str:
    return re.sub(r"^([.'])", r"\\&\1", text.replace("\\", "\\e").replace("-", "\\-"), flags=re.M)


def prose(text: str) -> str:
    """Returns a comment's text; its lines of code, which begin with four spaces, stay as they are."""
    return re.sub(r"(?:^ {4}.*(?:\n|$))+", lambda code: f".nf\n{code[0].rstrip()}\n.fi\n", roff(text), flags=re.M)


def results(blocks: Sequence[Mapping[str, Any]], rows: Sequence[Status], begins: str) -> Iterator[str]:
    """Yields the statuses that comments name, with their messages: results, after a sentence that begins them, and errors."""
    named = {*re.findall(r"\bFQ_[A-Z_]+", " ".join(block["about"] + str(block["items"]) for block in blocks))}
    own = [row for row in rows if row[1] in named]
    if not own:
        return
    yield f".SH RETURN VALUE\n{begins}\n.PD 0"
    for heading, of_errors in (("", False), (".PD\n.SH ERRORS\n.PD 0", True)):
        some = [row for row in own if (0 < row[0] < 16 or row[0] >= 100) == of_errors]
        if some and heading:
            yield heading
        yield from (f'.TP\n.BR {name} " (" {number} )\n{roff(message)}' for number, name, message in some)
    yield ".PD"


def manual(group: Mapping[str, Any], others: Sequence[str], version: str, rows: Sequence[Status]) -> Iterator[str]:
    name = group["name"]
    yield f'.TH FINTAQUSH_{name.upper()} 3 "" "Fintaqush {version}"'
    yield f".SH NAME\n{', '.join([f'fintaqush_{name}', *calls_of(group)])} \\- {group['title']}"
    yield f".SH SYNOPSIS\n.nf\n.B #include <{header.HEADER.name}>\n.fi"
    yield ".SH DESCRIPTION"
    yield prose(f"{sentence(group['title'])} {group['about']}".strip())
    for block in group["blocks"]:
        yield from described(block)
    yield from results(group["blocks"], rows, OF_GROUP)
    yield ".SH SEE ALSO\n.BR fintaqush (3),\n" + ",\n".join(f".BR fintaqush_{other} (3)" for other in others)


def summary(block: Mapping[str, Any], title: str) -> str:
    """Returns what the calls of a block do, in a line: the beginning of their comment, or the title of their group."""
    begin = re.split(r"[.:;,]?(?: \(|[.:;] |[.:]?$)", block["about"], maxsplit=1, flags=re.M)[0] or title
    return roff(begin[0].lower() + begin[1:])


def manual_of(
    block: Mapping[str, Any], names: Sequence[str], group: Mapping[str, Any], version: str, rows: Sequence[Status]
) -> Iterator[str]:
    """Yields the manual page of the calls of a block."""
    yield f'.TH {names[0].upper()} 3 "" "Fintaqush {version}"'
    yield f".SH NAME\n{', '.join(names)} \\- {summary(block, group['title'])}"
    yield f".SH SYNOPSIS\n.nf\n.B #include <{header.HEADER.name}>\n.fi"
    yield from declared(block)
    yield f".SH DESCRIPTION\n{about(block) or sentence(group['title'])}"
    yield from results([block], rows, OF_CALL)
    yield f".SH SEE ALSO\n.BR fintaqush_{group['name']} (3),\n.BR fintaqush (3)"


def declared(block: Mapping[str, Any]) -> Iterator[str]:
    """Yields the declarations of a block."""
    for item in block["items"]:
        text = item["text"]
        lines = text.splitlines() if "\n" in text else textwrap.wrap(text, 72, subsequent_indent="    ")
        yield ".PP\n.nf\n" + roff("\n".join(lines)) + "\n.fi"


def about(block: Mapping[str, Any]) -> str:
    """Returns what a block's comment and notes say about its declarations."""
    notes = [f"{item['name']}: {item['note']}." for item in block["items"] if item["note"]]
    return roff(" ".join(filter(None, [block["about"], *notes])))


def described(block: Mapping[str, Any]) -> Iterator[str]:
    """Yields the declarations of a block, and what is said about them."""
    yield from declared(block)
    if text := about(block):
        yield f".RS 4\n{text}\n.RE" if block["items"] else f".PP\n{text}"


def pages() -> Iterator[tuple[str, str]]:
    """Yields each manual page's name and text."""
    read = header.abi()
    names = [group["name"] for group in read["groups"]]
    for group in read["groups"]:
        name = group["name"]
        lines = manual(group, [other for other in names if other != name], read["version"], statuses(read))
        yield f"fintaqush_{name}.3", "\n".join(lines) + "\n"
        for block in group["blocks"]:
            calls = sorted(
                calls_of({"blocks": [block]}), key=len
            )  # first the one that programs call, which sets the sizes
            for call in calls[:1]:
                text = "\n".join(manual_of(block, calls, group, read["version"], statuses(read)))
                yield f"{call}.3", text + "\n"
            yield from ((f"{call}.3", f".so man3/{calls[0]}.3\n") for call in calls[1:])


def for_doxygen(path: Path) -> str:
    """Returns a header's text with comments that Doxygen reads: the comment before the code becomes the main page, and groups become
    modules."""
    text = path.read_text()
    if path.suffix == ".hpp":
        text = re.sub(r"^( *)// ", r"\1/// ", text, flags=re.M)
        begin = text.index("#ifndef")
        return "/** @file */\n" + linked(text[:begin]) + text[begin:]
    text = re.sub(r"(?<=\S)( +)/\* ", r"\1/**< ", text)
    text = re.sub(r"^( *)/\*(?=[ \n])", r"\1/**", text, flags=re.M)
    text = "/** @file */\n" + text.replace("/**\n", "/** @mainpage Calls of C and C++\n", 1)
    for at, group in enumerate(header.abi()["groups"]):
        module = f"/** @defgroup {group['name']} {group['title'][0].upper()}{group['title'][1:]}\n * @{{\n * "
        text = text.replace(f"/** {header.BANNER}{group['name']}: ", ("/** @} */\n" if at else "") + module, 1)
    end = text.rindex("#ifdef __cplusplus")
    text = f"{text[:end]}/** @}} */\n{text[end:]}"
    return re.sub(r"/\*\*.*?\*/", lambda comment: linked(comment[0]), text, flags=re.S)


def linked(text: str) -> str:
    """Returns a comment's text with each name of the library as a link."""
    return re.sub(r"\b(fq_\w+|FQ_[A-Z_]*[A-Z])\b", r"#\1", text)


def main(words: Sequence[str]) -> None:
    if words[0] == "--names":
        print(*(name for name, _ in pages()), sep="\n")
    elif words[0] == "--doxygen":
        sys.stdout.write(for_doxygen(Path(words[1])))
    else:
        folder = Path(words[0])
        folder.mkdir(parents=True, exist_ok=True)
        for name, text in pages():
            (folder / name).write_text(text)


if __name__ == "__main__":
    main(sys.argv[1:])
