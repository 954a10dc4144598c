"""What pip builds the tools and the package for Python by: setuptools in a copy of their files, so that the checkout stays as it is."""

from __future__ import annotations

import os
import shutil
import tempfile
from typing import Any

from setuptools import build_meta

PARTS = ("pyproject.toml", "README.md", "include", "tools", "fintaqush")  # which the one or the other has


def build_wheel(folder: str, settings: Any = None, _metadata: Any = None) -> str:
    """Makes a wheel of the project in the working folder, and returns its name."""
    folder, here = os.path.abspath(folder), os.getcwd()
    with tempfile.TemporaryDirectory() as room:
        for part in filter(os.path.exists, PARTS):
            if os.path.isdir(part):
                shutil.copytree(part, os.path.join(room, part))
            else:
                shutil.copy(part, room)
        if os.path.exists("web/index.html"):  # the template of steps
            shutil.copy("web/index.html", os.path.join(room, "tools/fintaqush_tools"))
        try:
            os.chdir(room)
            return str(build_meta.build_wheel(folder, settings))
        finally:
            os.chdir(here)


build_sdist = build_meta.build_sdist
