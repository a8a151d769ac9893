"""The byte form of sets and requests (document 01, "The set and the request"; U2 and U6 of document 02)."""


def name(s):
    return bytes([len(s)]) + s


def record(mark, body):
    return mark + len(body).to_bytes(2, "big") + body


def module(n):
    return record(b"MO", b"\0\0\0" + name(n) + b"\0")


# the start of a place
place = record(b"PL", b"")
# static requirements bring modules in
with_static = record(b"ST", b"")


def requires(n, flags=0):
    return record(b"RQ", flags.to_bytes(2, "big") + name(n) + b"\0")


def package(n):
    return record(b"PK", name(n))


def listed(mark, n, names):
    """A record of a name and a list of names."""
    return record(mark, name(n) + len(names).to_bytes(2, "big") + b"".join(map(name, names)))


# the set of document 01's listing
base = module(b"java.base")
listing = (
    base + package(b"java/lang")
    + module(b"page.core") + requires(b"page.frames", 0x20) + record(b"US", name(b"page/Reader"))
    + module(b"page.foot") + requires(b"page.frames") + listed(b"PV", b"page/Reader", [b"page/foot/Impl"]) + package(b"page/foot")
    + module(b"page.frames") + package(b"page/frame")
)
