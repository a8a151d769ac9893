#!/usr/bin/env python3
"""Writes the inputs of the programs `resolve` and `ask`: tests/examples.py crates"""
import os
import sys

from form import base, listed, listing, module, name, package, record, requires

# page.frames exports page/frame to page.core alone, and opens nothing
frames = (
    base + package(b"java/lang")
    + module(b"page.core") + requires(b"page.frames")
    + module(b"page.frames") + listed(b"EX", b"page/frame", [b"page.core"]) + package(b"page/frame")
)
root = record(b"RT", name(b"page.core"))
for program, s in ("resolve", listing), ("ask", frames):
    for file, data in ("set", s), ("request", root):
        with open(os.path.join(sys.argv[1], program, "data", file), "wb") as out:
            out.write(data)
