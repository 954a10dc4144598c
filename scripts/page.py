#!/usr/bin/env python3
"""scripts/page.py [FILE | --check]: makes web/index.html, one file that needs no other: of its parts in web/page, web/fintaqush.js with its
module, the example traces, the options of napi_machine, and the sentences on steps. A part is inserted for its name between two @. --check
only compares, whatever version of zlib packed the page. Exit status: 0; 1 the page was made of other parts; 64 bad usage.
"""

from __future__ import annotations

import base64
import gzip
import hashlib
import json
import pathlib
import re
import sys
from typing import Any

TOP = pathlib.Path(__file__).resolve().parent.parent
sys.path.insert(0, str(TOP / "tools"))
from fintaqush_tools import arriving, recording, ring_buffer, timeline  # noqa: E402

TOOLS = TOP / "tools/fintaqush_tools"
EXAMPLES = """two-packets two-queues busy-poll bursts queue-limit linux-veth-small-budget linux-veth-bursts linux-veth-tcp
    linux-veth-threaded linux-virtio-limits linux-napi-disable""".split()


def packed(path: pathlib.Path) -> str:
    """Returns a file in base64, packed by gzip."""
    return base64.b64encode(gzip.compress(path.read_bytes(), 9, mtime=0)).decode()


def known() -> dict[str, object]:
    """Returns what the tools know of recordings: the texts of events, and the patterns of what is read."""
    patterns: dict[str, Any] = {
        "line": recording.LINE,
        "lost": recording.LOST,
        "no_event": recording.NO_EVENT,
        "switched": recording.SWITCHED,
        "short": recording.SHORT,
        "sent": recording.SENT,
        "polled": recording.POLLED,
        "taken": arriving.TAKEN,
        "received": arriving.RECEIVED,
    }
    texts = {name: each.pattern.replace("(?P<", "(?<") for name, each in patterns.items()}
    others = {"texts": ring_buffer.TEXTS, "forms": recording.FORMS, "handlers": sorted(timeline.HANDLERS)}
    return {**texts, **others}


def data() -> str:
    """Returns what the page takes as data, as an expression of JavaScript."""
    keys = ("name", "least", "most", "default", "what")
    options = json.loads((TOOLS / "options.json").read_text())
    parts = {
        "module": packed(TOP / "web/fintaqush.wasm"),
        "examples": {name: packed(TOP / f"examples/{name}.csv") for name in EXAMPLES},
        "options": [{key: option[key] for key in keys} for option in options],
        "sentences": (TOOLS / "sentences.txt").read_text(),
        "known": known(),
    }
    return json.dumps(parts).replace("</", "<\\/")


def whole() -> str:
    """Returns the page."""
    texts = {path.name: path.read_text() for path in (TOP / "web/page").iterdir()}
    texts["fintaqush.js"] = (TOP / "web/fintaqush.js").read_text()
    texts["data"] = data()
    return re.sub(r"@([\w.]+)@", lambda found: texts[found[1]], texts["page.html"])


def opened(page: str) -> str:
    """Returns a page with checksums in place of what is packed in it."""
    sums = lambda found: hashlib.sha256(gzip.decompress(base64.b64decode(found[1]))).hexdigest()
    return re.sub(r'"(H4sI[\w+/=]+)"', sums, page)


if __name__ == "__main__":
    page, given = TOP / "web/index.html", sys.argv[1:]
    if given == ["--help"]:
        print(__doc__, end="")
    elif given == ["--check"]:
        if opened(page.read_text()) != opened(whole()):
            sys.exit("web/index.html was made of other parts: run scripts/page.py")
    elif len(given) > 1 or given and given[0].startswith("-"):
        print("page.py: the argument is a file, --check or --help", file=sys.stderr)
        sys.exit(64)
    else:
        pathlib.Path(given[0] if given else page).write_text(whole())
