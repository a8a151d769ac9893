#!/usr/bin/env python3
"""Writes the inputs of the program `limits`: tests/limits.py crates/limits/data"""
import os
import sys

from form import base, listing, module, name, package, place, record, requires, with_static


def filled(size):
    """One module and packages of 255 bytes, the last one as long as fits: `size` bytes in all."""
    s = module(b"java.base")
    k = 0
    while size - len(s) > 260 + 6:
        s += package(b"%0255d" % k)
        k += 1
    while size - len(s) > 260:
        s += package(b"p")
    rest = size - len(s)
    s += package(b"q" * (rest - 5))
    assert len(s) == size
    return s


def filled_request():
    """Roots, the last one as long as fits, and ST behind them: 65,535 bytes in all."""
    s = b"".join(record(b"RT", name(b"%0255d" % k)) for k in range(252)) + record(b"RT", name(b"q" * 6)) + with_static
    assert len(s) == 65535
    return s


def many(count):
    return b"".join(module(b"m%03d" % i) for i in range(count))


limit = record(b"LM", b"\0\1" + name(b"a"))
files = {
    "set-listing": listing,
    "set-512-modules": many(512),
    "set-513-modules": many(513),
    "set-8-places": place * 8,
    "set-9-places": place * 9,
    "set-8-places-module-first": base + place * 7,
    "set-9-places-module-first": base + place * 8,
    "set-512-with-hidden": many(256) + place + many(256),
    "set-513-with-hidden": many(256) + place + many(257),
    "set-65535-bytes": filled(65535),
    "set-65536-bytes": filled(65536),
    "set-cut-off": base + package(b"java/lang")[:-1],
    "set-unknown-mark": base + record(b"XX", b""),
    "set-root-in-set": base + record(b"RT", name(b"a")),
    "set-static-in-set": base + with_static,
    "set-no-module-first": package(b"java/lang") + base,
    "set-requires-unnamed": base + requires(b"ALL-UNNAMED"),
    "set-second-main-class": base + record(b"MC", name(b"A")) + record(b"MC", name(b"A")),
    "set-repeated": base + module(b"a") + package(b"a") + module(b"java.base"),
    "set-unnamed": base + module(b"ALL-UNNAMED"),
    "set-place-body": base + record(b"PL", name(b"a")),
    "set-place-requires": place + requires(b"a"),
    "set-repeated-in-place": module(b"a") + place + module(b"a") + module(b"a"),
    "set-repeated-across-places": module(b"a") + place + module(b"b") + place + module(b"a"),
    "request-second-limit": record(b"RT", name(b"a")) + limit + limit,
    "request-module": module(b"a"),
    "request-65535-bytes": filled_request(),
    "request-second-static": with_static + limit + with_static,
    "request-static-body": record(b"RT", name(b"a")) + record(b"ST", name(b"a")),
    "packages-export": package(b"b") + record(b"EX", name(b"b") + b"\0\0"),
    "packages-three": package(b"b/c") + package(b"a") + package(b"b") + package(b"a"),
    "jar-255": b"a" * 251 + b".jar",
    "jar-256": b"a" * 252 + b".jar",
    "jar-foot-notes": b"lib/foot-notes-2.4.jar",
    "jar-two-versions": b"a-1-2.jar",
    "jar-nothing": b".jar",
}
for f, s in files.items():
    with open(os.path.join(sys.argv[1], f), "wb") as out:
        out.write(s)
