"""What pip builds this package by: that of the tools. It is read from there, because pip takes a backend only from this folder, and `rt ci`
accepts no link."""

import os
import runpy

TOOLS = runpy.run_path(f"{os.path.dirname(os.path.realpath(__file__))}/../../scripts/backend.py")
build_wheel, build_sdist = TOOLS["build_wheel"], TOOLS["build_sdist"]
