"""Pages: a template of this folder with texts and data in it, and web/index.html with a trace in it."""

from __future__ import annotations

import base64
import gzip
import json
import os
import re

from fintaqush_tools.places import TEMPLATES, TOP

NO_TRACE = "const OWN = null;"  # in web/index.html


def in_script(data: object) -> str:
    """Returns data as JSON that can be in a script of a page."""
    return json.dumps(data, separators=(",", ":")).replace("<", "\\u003c")


def filled(template: str, data: object = None, **texts: str) -> str:
    """Returns a template with these texts in place of their names, as @TITLE@, and the data as JSON in place of @DATA@."""
    with open(f"{TEMPLATES}/{template}", encoding="utf-8") as file:
        page = file.read()
    every = {**texts, "DATA": in_script(data)}
    return re.sub(f"@({'|'.join(every)})@", lambda found: every[found[1]], page)


def page_with(trace: bytes, **shown: object) -> str:
    """Returns web/index.html with a trace in it, which the page shows first, in this view and with these settings."""
    packed = base64.b64encode(gzip.compress(trace, 9, mtime=0)).decode()
    own: dict[str, object] = {**shown, "trace": packed}
    places = (f"{TOP}/web/index.html", f"{TEMPLATES}/index.html")  # the second one where pip installed the tools
    with open(next(filter(os.path.exists, places), places[0]), encoding="utf-8") as file:
        return file.read().replace(NO_TRACE, f"const OWN = {in_script(own)};", 1)
