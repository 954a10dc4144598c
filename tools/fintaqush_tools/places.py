"""Where things are: in a checkout, or below the prefix of an installation, whose package is in PREFIX/lib/fintaqush/tools."""

import os

TOP = os.path.dirname(os.path.dirname(os.path.dirname(os.path.realpath(__file__))))
IS_CHECKOUT = os.path.exists(f"{TOP}/crates.txt")
HOME = TOP if IS_CHECKOUT else os.path.dirname(os.path.dirname(TOP))
TEMPLATES = os.path.dirname(os.path.realpath(__file__))
DOCS = f"{TOP}/docs/" if os.path.exists(f"{TOP}/docs/TOOLS.md") and not IS_CHECKOUT else "docs/"


def with_pages(text: str) -> str:
    """Returns a text that names pages as docs/NAME.md, and examples, with their place in an installation."""
    place = f" {DOCS.removesuffix('docs/')}examples"
    return text.replace("docs/", DOCS).replace(" examples/", f"{place}/").replace(" examples --", f"{place} --")


def version() -> str:
    """Returns the version: an installation has it in a file, a checkout in the C header, and what pip installed in its metadata."""
    if os.path.exists(f"{TOP}/version"):
        with open(f"{TOP}/version", encoding="ascii") as file:
            return file.read().strip()
    if os.path.exists(f"{TOP}/include/fintaqush.h"):
        with open(f"{TOP}/include/fintaqush.h", encoding="ascii") as file:
            return next(line.split('"')[1] for line in file if line.startswith("#define FQ_VERSION "))
    from importlib import metadata

    return metadata.version("fintaqush-tools")


def usage_text(called: str) -> str:
    """Returns the usage text of the launcher, with the name that it was called by."""
    with open(f"{TEMPLATES}/replay.txt", encoding="utf-8") as file:
        return with_pages(file.read().replace("./replay", called))
