#!/usr/bin/env python3
"""Writes the cases of tests/programs/run: tests/programs/cases.py FOLDER, at the repository's root.

A case is FOLDER/PROGRAM/CASE, with the files `set` and `request` (those that it has), the arguments in `args`, one to a line, and
in `stdout` and `stderr` what the program is to write.
"""
import os
import sys

sys.path.insert(0, "tests")
from form import base, listed, listing, module, name, package, place, record, requires, with_static


def root(n):
    return record(b"RT", name(n))


core, foot, notes = (module(b"page." + n) for n in (b"core", b"foot", b"notes"))
of_core, of_foot, of_frames = (root(b"page." + n) for n in (b"core", b"foot", b"frames"))
reader = listed(b"PV", b"page/Reader", [b"page/Impl"])
only_core = record(b"LM", (1).to_bytes(2, "big") + name(b"page.core"))
# page.frames and page.lines are in no set below. page.core requires the first
without = base + core + requires(b"page.frames")
# page.proof is needed by a static requirement alone
proof = (
    base + core + requires(b"page.proof", 0x40)
    + module(b"page.proof") + package(b"page/proof") + listed(b"EX", b"page/proof", [])
)
of_proof = root(b"page.proof")
# an absent static requirement queues nothing; both providers are bound in one round, and page.foot is handled first
bound = (
    base + core + requires(b"page.lines", 0x40) + record(b"US", name(b"page/Reader"))
    + foot + requires(b"page.frames") + reader + notes + requires(b"page.lines") + reader
)
# page.foot stands in the places 1, 2 and 4
hiding = base + foot + place + core + foot + place + place + foot
shared = base + core + package(b"page/foot") + foot + package(b"page/foot")
long = bytes(65536)
# 512 modules; the last requires the one before it
numbered = [module(b"m%d" % i) for i in range(511)]
full = base + b"".join(numbered) + requires(b"m509")
of_last = root(b"m510")
# 512 modules, of which the second half is hidden
twice = (base + b"".join(numbered[:255]) + place) * 2

LISTING = open("crates/resolve/stdout").read()
BASE = "module java.base\nmodule {}\nreads java.base\n"
PROOF = (
    "resolved 3\n" + BASE.format("page.core") + "reads page.proof\nmodule page.proof\nreads java.base\n"
    "owner page/proof page.proof\n"
)
FULL = "resolved 3\n" + BASE.format("m509") + "module m510\nreads java.base\nreads m509\n"
TWICE = "".join("{} of place 2 is hidden by place 1\n".format(n) for n in ["java.base"] + ["m%d" % i for i in range(255)])
ABSENT = "{} is not in the set\n"
HIDDEN = "page.foot of place 2 is hidden by place 1\npage.foot of place 4 is hidden by place 1\n"
MISSING = "{}: cannot read the file {}: No such file or directory\n"
OF_PROOF = "page.core page.proof page/proof"
USAGE = "usage: ask ASKER TARGET PACKAGE\n"

# case: set, request, standard output, standard error
RESOLVE = {
    "the listing": (listing, of_core, LISTING, ""),
    "an absent root": (base, of_core, "refused 5\n", ABSENT.format("page.core")),
    "an absent second root": (base + core, of_core + of_foot, "refused 5\n", ABSENT.format("page.foot")),
    "an absent requirement": (without, of_core, "refused 5\n", ABSENT.format("page.frames")),
    "an absent requirement in a round": (bound, of_core, "refused 5\n", ABSENT.format("page.frames")),
    "an absent requirement in a round, with ST": (bound, of_core + with_static, "refused 5\n", ABSENT.format("page.frames")),
    "an absent requirement that is not permitted": (without, of_core + only_core, "resolved 2\n" + BASE.format("page.core"), ""),
    "a static requirement": (proof, of_core, "resolved 2\n" + BASE.format("page.core"), ""),
    "a static requirement, with ST": (proof, of_core + with_static, PROOF, ""),
    "a static requirement, with ST in front": (proof, with_static + of_core, PROOF, ""),
    "a static requirement of a root": (proof, of_core + of_proof, PROOF, ""),
    "a second ST": (proof, with_static + of_core + with_static, "refused 1\n", ""),
    "hidden modules": (hiding, of_foot, "resolved 2\n" + BASE.format("page.foot"), HIDDEN),
    "hidden modules and an absent root": (hiding, of_frames, "refused 5\n", ABSENT.format("page.frames") + HIDDEN),
    "512 modules": (full, of_last, FULL, ""),
    "513 modules": (full + module(b"m511"), of_last, "refused 2\n", ""),
    "512 modules, half of them hidden": (twice, root(b"m254"), "resolved 2\n" + BASE.format("m254"), TWICE),
    "no java.base": (core, of_core, "refused 6\n", ""),
    "a package of two modules": (shared, of_core + of_foot, "refused 7\n", ""),
    "a malformed set": (b"MO", of_core, "refused 1\n", ""),
    "a set of 65,536 bytes": (long, of_core, "refused 2\n", ""),
    "a request of 65,536 bytes": (base, long, "refused 2\n", ""),
    "no set": (None, of_core, "", MISSING.format("resolve", "set")),
    "no request": (base, None, "", MISSING.format("resolve", "request")),
    "neither": (None, None, "", MISSING.format("resolve", "set")),
}
# case: set, request, arguments, standard output, standard error
ASK = {
    "a question": (listing, of_core, "page.core page.frames page/frame", "access NotExported\nreflection NotOpened\n", ""),
    "a static requirement": (proof, of_core, OF_PROOF, "access NotReadable\nreflection NotReadable\n", ""),
    "a static requirement, with ST": (proof, of_core + with_static, OF_PROOF, "access Allowed\nreflection NotOpened\n", ""),
    "a second ST": (proof, with_static * 2, "a b p", "refused 1\n", ""),
    "an absent root": (base, of_core, "a b p", "refused 5\n", ABSENT.format("page.core")),
    "an absent requirement": (without, of_core, "a b p", "refused 5\n", ABSENT.format("page.frames")),
    "the last of 512 modules asks": (full, of_last, "m510 m509 p", "access NotExported\nreflection NotOpened\n", ""),
    "the last of 512 modules is asked": (full, of_last, "m509 m510 p", "access NotReadable\nreflection NotReadable\n", ""),
    "513 modules": (full + module(b"m511"), of_last, "m510 m509 p", "refused 2\n", ""),
    "no java.base": (core, of_core, "a b p", "refused 6\n", ""),
    "a package of two modules": (shared, of_core + of_foot, "a b p", "refused 7\n", ""),
    "a set of 65,536 bytes": (long, of_core, "a b p", "refused 2\n", ""),
    "a request of 65,536 bytes": (base, long, "a b p", "refused 2\n", ""),
    "two arguments": (listing, of_core, "page.core page.frames", "", USAGE),
    "four arguments": (listing, of_core, "a b p q", "", USAGE),
    "an argument of 4,097 bytes": (listing, of_core, "a" * 4097 + " b p", "", "ask: ASKER: File name too long\n"),
    "no set": (None, of_core, "a b p", "", MISSING.format("ask", "set")),
    "no request": (base, None, "a b p", "", MISSING.format("ask", "request")),
}


def write(program, case, s, request, args, stdout, stderr):
    folder = os.path.join(sys.argv[1], program, case)
    os.makedirs(folder)
    texts = {"args": "".join(a + "\n" for a in args.split()), "stdout": stdout, "stderr": stderr}
    for file, data in {"set": s, "request": request, **{f: t.encode() for f, t in texts.items()}}.items():
        if data is not None:
            with open(os.path.join(folder, file), "wb") as out:
                out.write(data)


for case, (s, request, stdout, stderr) in RESOLVE.items():
    write("resolve", case, s, request, "", stdout, stderr)
for case, what in ASK.items():
    write("ask", case, *what)
