#!/usr/bin/env python3
"""Class files with what the class reader answers: writes data/cases and stdout of the program `classes`.

The class files are those of tests/classes and those built below. `describe` reads document 01 and the JVM Specification
on its own; for every file built below the answer is also written down by hand, and both must agree.
"""
import os

from form import name, record

# ---- The answer for any bytes ----

# bytes after the tag (4.4); a Utf8 has a length of its own
WIDTHS = {3: 4, 4: 4, 5: 8, 6: 8, 7: 2, 8: 2, 9: 4, 10: 4, 11: 4, 12: 4, 15: 3, 16: 2, 17: 4, 18: 4, 19: 2, 20: 2}
UTF8, LONG, DOUBLE, CLASS, DYNAMIC, MODULE, PACKAGE = 1, 5, 6, 7, 17, 19, 20
KNOWN = b"Module", b"ModulePackages", b"ModuleMainClass"


class Malformed(Exception):
    """Refusal 8; its argument is the offset."""


class Input:
    """Bytes and the place of the next one; `fault` is where a fault met now belongs."""

    def __init__(self, data, fault=0):
        self.data, self.at, self.fault = data, 0, fault

    def need(self, condition):
        if not condition:
            raise Malformed(self.fault)

    def take(self, n):
        self.need(self.at + n <= len(self.data))
        self.at += n
        return self.data[self.at - n:self.at]

    def u2(self):
        return int.from_bytes(self.take(2), "big")

    def u4(self):
        return int.from_bytes(self.take(4), "big")

    def table(self, entry):
        return [entry() for _ in range(self.u2())]


def read_pool(f, major, count):
    """Index to (tag, content). The second index of a Long or Double is absent."""
    pool, index = {}, 1
    while index < count:
        f.fault = f.at
        tag = f.take(1)[0]
        f.need(tag == UTF8 or tag in WIDTHS)
        f.need(tag != DYNAMIC or major >= 55)
        pool[index] = tag, f.take(f.u2() if tag == UTF8 else WIDTHS[tag])
        index += 2 if tag in (LONG, DOUBLE) else 1
        f.need(index <= count)
    return pool


class Attribute(Input):
    """The content of an attribute with the constants that its indices mean."""

    def __init__(self, pool, data, fault):
        super().__init__(data, fault)
        self.pool = pool

    def content(self, tag, index):
        self.need(index in self.pool and self.pool[index][0] == tag)
        return self.pool[index][1]

    def text(self, tag):
        """The name of the Module, Package or Class constant at the next index."""
        inner = int.from_bytes(self.content(tag, self.u2()), "big")
        return self.legal(self.content(UTF8, inner))

    def version(self):
        index = self.u2()
        return self.legal(self.content(UTF8, index)) if index else b""

    def legal(self, s):
        self.need(1 <= len(s) <= 255 and all(0x21 <= b <= 0x7E for b in s))
        return s

    def module(self):
        """(mark, body) of MO, RQ, EX, OP, US, PV (4.7.25)."""
        n, flags, version = self.text(MODULE), self.u2(), self.version()
        out = [(b"MO", (flags & 0x9020).to_bytes(2, "big") + b"\0" + name(n) + name(version))]
        out += self.table(self.requires)
        out += self.table(lambda: self.exports(b"EX"))
        out += self.table(lambda: self.exports(b"OP"))
        out += self.table(lambda: (b"US", name(self.text(CLASS))))
        out += self.table(lambda: self.names(b"PV", self.text(CLASS), CLASS))
        return out

    def requires(self):
        n, flags, version = self.text(MODULE), self.u2(), self.version()
        self.need(n != b"ALL-UNNAMED")
        return b"RQ", (flags & 0x9060).to_bytes(2, "big") + name(n) + name(version)

    def exports(self, mark):
        package = self.text(PACKAGE)
        self.u2()
        return self.names(mark, package, MODULE)

    def names(self, mark, first, tag):
        rest = self.table(lambda: self.text(tag))
        return mark, name(first) + len(rest).to_bytes(2, "big") + b"".join(map(name, rest))

    def records(self, kind):
        if kind == b"Module":
            out = self.module()
        elif kind == b"ModulePackages":
            out = [(b"PK", name(p)) for p in sorted(set(self.table(lambda: self.text(PACKAGE))))]
        else:
            out = [(b"MC", name(self.text(CLASS)))]
        self.need(self.at == len(self.data))
        return out


def read(data):
    f = Input(data)
    f.need(f.u4() == 0xCAFEBABE)
    f.u2()
    major, count = f.u2(), f.u2()
    f.need(major >= 53 and count >= 1)
    pool = read_pool(f, major, count)

    f.fault = f.at
    f.need(f.u2() == 0x8000)
    f.need(Attribute(pool, f.take(2), f.fault).text(CLASS) == b"module-info")
    f.need(f.take(8) == bytes(8))  # super, interfaces, fields, methods

    found = {}
    for _ in range(f.u2()):
        f.fault = f.at
        kind = f.u2()
        attribute = Attribute(pool, f.take(f.u4()), f.fault)
        kind = attribute.content(UTF8, kind)
        if kind in KNOWN:
            f.need(kind not in found)
            found[kind] = attribute.records(kind)
    f.fault = f.at
    f.need(f.at == len(data))
    f.need(b"Module" in found)
    return [r for kind in KNOWN for r in found.get(kind, [])]


def describe(data):
    """("written", the records), ("refused", 8, offset) or ("refused", 2, 0)."""
    if len(data) > 65535:
        return "refused", 2, 0
    try:
        records = read(data)
    except Malformed as fault:
        return "refused", 8, fault.args[0]
    if any(len(body) > 65535 for _, body in records):
        return "refused", 2, 0
    return "written", b"".join(record(*r) for r in records)


# ---- Class files built by hand ----

def u2(*numbers):
    return b"".join(n.to_bytes(2, "big") for n in numbers)


def utf8(s):
    return b"\1" + u2(len(s)) + s


def named(tag, index):
    """A Class, Module or Package constant."""
    return bytes([tag]) + u2(index)


def attribute(index, content, length=None):
    return u2(index) + (len(content) if length is None else length).to_bytes(4, "big") + content


def table(entries):
    return u2(len(entries)) + b"".join(entries)


def indices(numbers):
    return table([u2(n) for n in numbers])


# The pool of all files below; a case's own constants follow: index 18, offset 133.
POOL = (
    utf8(b"module-info") + named(CLASS, 1)  # 1 at 10, 2 at 24
    + utf8(b"Module") + utf8(b"ModulePackages")  # 3 at 27, 4 at 36
    + utf8(b"ModuleMainClass") + utf8(b"SourceFile")  # 5 at 53, 6 at 71
    + utf8(b"a") + named(MODULE, 7)  # 7 at 84, 8 at 88
    + utf8(b"b") + named(MODULE, 9)  # 9 at 91, 10 at 95
    + utf8(b"p/q") + named(PACKAGE, 11)  # 11 at 98, 12 at 104
    + utf8(b"p/q/S") + named(CLASS, 13)  # 13 at 107, 14 at 115
    + utf8(b"1.0")  # 15 at 118
    + b"\5\0\0\0\0\0\0\0\0"  # 16 and 17 at 124
)


def module_content(name=8, flags=0, version=15, requires=[(10, 0, 15)], exports=[(12, 0, [10])], opens=[(12, 0, [10])],
                   uses=[14], provides=[(14, [14])]):
    return (
        u2(name, flags, version)
        + table([u2(*r) for r in requires])
        + table([u2(p, f) + indices(to) for p, f, to in exports])
        + table([u2(p, f) + indices(to) for p, f, to in opens])
        + indices(uses)
        + table([u2(s) + indices(by) for s, by in provides])
    )


source_file = attribute(6, u2(13))  # 8 bytes


def module_info(**changes):
    return attribute(3, module_content(**changes))  # 52 bytes unless changed


def packages(*numbers):
    return attribute(4, indices(numbers))  # 8 bytes and 2 for each


def main_class(index):
    return attribute(5, u2(index))  # 8 bytes


def class_file(attributes, own=b"", count=18, magic=0xCAFEBABE, minor=0, major=53, access=0x8000, this=2, super=0,
               interfaces=0, fields=0, methods=0, attributes_count=None):
    """A class file with the constants `own` behind those of POOL; `count` is the pool's count."""
    if attributes_count is None:
        attributes_count = len(attributes)
    return (
        magic.to_bytes(4, "big") + u2(minor, major, count) + POOL + own
        + u2(access, this, super, interfaces, fields, methods, attributes_count) + b"".join(attributes)
    )


def whole(own=b"", count=18, packs=[12], main=14, **changes):
    """The pool ends at 133; SourceFile is at 147, Module at 155, ModulePackages at 207, ModuleMainClass at 217; the end is
    at 225. Own constants move all of these."""
    return class_file([source_file, module_info(**changes), packages(*packs), main_class(main)], own, count)


def usual(**changes):
    """The whole file with its fields outside the Module attribute changed."""
    return class_file([source_file, module_info(), packages(12), main_class(14)], **changes)


WHOLE = whole()
PLAIN = [module_info(requires=[], exports=[], opens=[], uses=[], provides=[])]  # 22 bytes

# What is written for these
MO = b"MO\0\x09\0\0\0\1a\0031.0"
TABLES = (
    b"RQ\0\x08\0\0\1b\0031.0" + b"EX\0\x08\3p/q\0\1\1b" + b"OP\0\x08\3p/q\0\1\1b" + b"US\0\x06\5p/q/S"
    + b"PV\0\x0e\5p/q/S\0\1\5p/q/S"
)
PK = b"PK\0\4\3p/q"
MC = b"MC\0\6\5p/q/S"
WRITTEN = MO + TABLES + PK + MC

TOO_LARGE = "too large"

# Name of the case, class file, answer: the offset of refusal 8, TOO_LARGE for refusal 2, or the records written.
cases = [
    ("whole", WHOLE, WRITTEN),
    ("plain", class_file(PLAIN), MO),

    # before the pool
    ("empty", b"", 0),
    ("nine-bytes", WHOLE[:9], 0),
    ("magic", usual(magic=0xCAFEBABF), 0),
    ("magic-first-byte", usual(magic=0x4AFEBABE), 0),
    ("major-0", usual(major=0), 0),
    ("major-52", usual(major=52), 0),
    ("major-65535", usual(major=65535), WRITTEN),
    ("minor-65535", usual(minor=65535), WRITTEN),
    ("minor-3-major-61", usual(minor=3, major=61), WRITTEN),
    ("pool-count-0", usual(count=0), 0),

    # the pool
    ("pool-count-1", usual(count=1), 10),
    ("pool-count-short", usual(count=16), 124),
    ("pool-count-long", usual(count=19), 133),
    ("pool-count-65535", usual(count=65535), 133),
    ("pool-of-2047-constants", usual(own=b"\3abcd" * 2030, count=2048), WRITTEN),
    ("pool-of-2048-constants", usual(own=b"\3abcd" * 2031, count=2049), WRITTEN),
    ("bad-tag-behind-2048-constants", usual(own=b"\3abcd" * 2031 + b"\2", count=2050), 133 + 5 * 2031),
    ("pool-due", WHOLE[:10], 10),
    ("utf8-tag-alone", WHOLE[:11], 10),
    ("utf8-length-cut", WHOLE[:12], 10),
    ("utf8-without-text", WHOLE[:13], 10),
    ("utf8-cut", WHOLE[:23], 10),
    ("class-due", WHOLE[:24], 24),
    ("class-cut", WHOLE[:26], 24),
    ("long-cut", WHOLE[:132], 124),
    ("utf8-longer-than-file", usual(own=b"\1\xff\xff", count=19), 133),
    ("long-in-last-slot", usual(count=17), 124),
    ("double-in-last-slot", usual(own=b"\6" + bytes(8), count=19), 133),
    ("double-takes-two", usual(own=b"\6" + bytes(8), count=20), WRITTEN),
    ("long-between", whole(b"\5" + bytes(8) + utf8(b"c") + named(MODULE, 20), 22, name=21),
     b"MO\0\x09\0\0\0\1c\0031.0" + TABLES + PK + MC),
    ("name-behind-its-user", whole(named(MODULE, 19) + utf8(b"c"), 20, name=18),
     b"MO\0\x09\0\0\0\1c\0031.0" + TABLES + PK + MC),
    ("dynamic-in-53", usual(own=b"\x11" + bytes(4), count=19), 133),
    ("dynamic-in-54", usual(own=b"\x11" + bytes(4), count=19, major=54), 133),
    ("dynamic-in-55", usual(own=b"\x11" + bytes(4), count=19, major=55), WRITTEN),
    ("dynamic-in-54-before-unknown-tag", usual(own=b"\x11" + bytes(4) + b"\2", count=20, major=54), 133),
    ("unknown-tag-behind-a-constant", usual(own=utf8(b"") + b"\2\0\0", count=20), 136),
    # every kind of constant, contents without sense: Utf8, Integer, Float, Long, Double, Class, String, three references,
    # NameAndType, MethodHandle, MethodType, InvokeDynamic, Module, Package
    ("unused-constants", usual(
        own=b"\1\0\3\0\xff\xc0" + b"\3abcd" + b"\4abcd" + b"\5abcdefgh" + b"\6abcdefgh" + b"\7\xff\xff" + b"\x08\0\0"
        + b"\x09\0\0\xff\xff" + b"\x0a\0\0\0\0" + b"\x0b\0\0\0\0" + b"\x0c\0\0\0\0" + b"\x0f\x63\0\0" + b"\x10\0\0"
        + b"\x12\0\0\0\0" + b"\x13\0\0" + b"\x14\xff\xff", count=36), WRITTEN),

    # from access flags to attributes_count
    ("access-due", WHOLE[:133], 133),
    ("access-cut", WHOLE[:134], 133),
    ("this-due", WHOLE[:135], 133),
    ("fields-due", WHOLE[:141], 133),
    ("attributes-count-due", WHOLE[:145], 133),
    ("attributes-count-cut", WHOLE[:146], 133),
    ("access-0", usual(access=0), 133),
    ("access-8001", usual(access=0x8001), 133),
    ("access-8020", usual(access=0x8020), 133),
    ("access-9000", usual(access=0x9000), 133),
    ("this-0", usual(this=0), 133),
    ("this-past-pool", usual(this=18), 133),
    ("this-65535", usual(this=65535), 133),
    ("this-second-slot", usual(this=17), 133),
    ("this-utf8", usual(this=1), 133),
    ("this-module", usual(this=18, own=named(MODULE, 1), count=19), 136),
    ("this-other-class", usual(this=14), 133),
    ("this-longer-name", usual(this=19, own=utf8(b"module-info2") + named(CLASS, 18), count=20), 151),
    ("this-shorter-name", usual(this=19, own=utf8(b"module-inf") + named(CLASS, 18), count=20), 149),
    ("this-name-index-0", usual(this=18, own=named(CLASS, 0), count=19), 136),
    ("this-name-past-pool", usual(this=18, own=named(CLASS, 19), count=19), 136),
    ("this-name-no-utf8", usual(this=18, own=named(CLASS, 2), count=19), 136),
    ("this-second-class", usual(this=19, own=utf8(b"module-info") + named(CLASS, 18), count=20), WRITTEN),
    ("super", usual(super=14), 133),
    ("interfaces", usual(interfaces=1), 133),
    ("fields", usual(fields=1), 133),
    ("methods", usual(methods=256), 133),

    # attributes and their places
    ("attribute-due", WHOLE[:147], 147),
    ("attribute-name-cut", WHOLE[:148], 147),
    ("attribute-length-cut", WHOLE[:152], 147),
    ("attribute-skipped-cut", WHOLE[:154], 147),
    ("attribute-module-due", WHOLE[:155], 155),
    ("attribute-module-header", WHOLE[:161], 155),
    ("attribute-module-cut", WHOLE[:206], 155),
    ("attribute-packages-due", WHOLE[:207], 207),
    ("attribute-packages-cut", WHOLE[:216], 207),
    ("attribute-main-class-due", WHOLE[:217], 217),
    ("attribute-main-class-cut", WHOLE[:224], 217),
    ("attribute-due-at-end", usual(attributes_count=5), 225),
    ("attribute-cut-at-end", usual(attributes_count=5) + b"\0\6\0\0\0", 225),
    ("attribute-longer-than-file", class_file([attribute(6, b"", 0xFFFFFFFF)] + PLAIN), 147),
    ("attribute-length-65536", class_file([attribute(6, b"", 0x10000)] + PLAIN), 147),
    ("attribute-length-16777216", class_file([attribute(6, b"", 0x1000000)] + PLAIN), 147),
    ("attribute-module-length-and-65536", class_file([attribute(3, module_content(), 0x10000 + 46)]), 147),
    ("attribute-ends-past-file", class_file([module_info(), attribute(6, b"ab", 3)]), 199),
    ("attribute-skipped-empty", class_file([attribute(6, b"")] + PLAIN), MO),
    ("attribute-skipped-twice", class_file([source_file, source_file] + PLAIN), MO),
    ("attribute-name-not-ascii", class_file([attribute(18, b"xyz")] + PLAIN, utf8(b"\0 \xff"), 19), MO),
    ("attribute-name-empty", class_file(PLAIN + [attribute(18, b"xyz")], utf8(b""), 19), MO),
    ("attribute-name-in-small-letters", class_file([attribute(18, b"")], utf8(b"module"), 19), 162),
    ("attribute-name-longer", class_file(PLAIN + [attribute(18, b"")], utf8(b"Modules"), 19), MO),
    ("attribute-name-second-constant", class_file([attribute(18, module_content())], utf8(b"Module"), 19), MO + TABLES),
    ("skipped-name-0", class_file([attribute(0, b"ab")] + PLAIN), 147),
    ("skipped-name-past-pool", class_file([attribute(18, b"ab")] + PLAIN), 147),
    ("skipped-name-second-slot", class_file([attribute(17, b"ab")] + PLAIN), 147),
    ("skipped-name-no-utf8", class_file([attribute(2, b"ab")] + PLAIN), 147),
    ("skipped-name-behind-module", class_file(PLAIN + [attribute(2, b"ab")]), 169),
    ("module-name-no-utf8", class_file([source_file, attribute(8, module_content())]), 155),
    ("no-attributes", class_file([]), 147),
    ("module-missing", class_file([source_file, packages(12), main_class(14)]), 173),
    ("module-missing-byte-left", class_file([source_file, packages(12), main_class(14)]) + b"\0", 173),
    ("no-attributes-bytes-left", class_file(PLAIN, attributes_count=0), 147),
    ("byte-left", WHOLE + b"\0", 225),
    ("attribute-left", usual(attributes_count=3), 217),
    ("second-module", class_file([source_file, module_info(), source_file, module_info()]), 215),
    ("second-module-empty", class_file(PLAIN + [attribute(3, b"")]), 169),
    ("second-packages", class_file(PLAIN + [packages(12), packages(12)]), 179),
    ("second-main-class", class_file([main_class(14), main_class(14)] + PLAIN), 155),
    ("second-main-class-module-missing", class_file([main_class(14), main_class(14)]), 155),
    ("second-packages-under-another-constant", class_file([packages(12)] + PLAIN + [attribute(18, u2(0))],
                                                          utf8(b"ModulePackages"), 19), 196),
    ("attributes-backwards", class_file([main_class(14), packages(12), module_info(), source_file]), WRITTEN),
    ("packages-alone-empty", class_file(PLAIN + [packages()]), MO),

    # lengths inside the three attributes
    ("module-empty", class_file([attribute(3, b"")]), 147),
    ("module-too-long", class_file([source_file, attribute(3, module_content() + b"\0")]), 155),
    ("module-too-short", class_file([source_file, attribute(3, module_content()[:-1])]), 155),
    ("module-without-provides", class_file([attribute(3, module_content(provides=[])[:-2])]), 147),
    ("module-length-short-by-two", class_file([attribute(3, module_content(), 44)]), 147),
    ("module-requires-count-long", class_file([attribute(3, u2(8, 0, 15, 1, 0, 0, 0, 0))]), 147),
    ("module-counts-65535", class_file([attribute(3, u2(8, 0, 0, 65535) + u2(10, 0, 0) * 9)]), 147),
    ("module-targets-count-long", class_file([attribute(3, u2(8, 0, 0, 0, 1, 12, 0, 9, 10))]), 147),
    ("packages-too-long", class_file([attribute(4, u2(1, 12) + b"\0")] + PLAIN), 147),
    ("packages-too-short", class_file([attribute(4, u2(2, 12))] + PLAIN), 147),
    ("packages-without-count", class_file([attribute(4, b"\0")] + PLAIN), 147),
    ("packages-without-content", class_file(PLAIN + [attribute(4, b"")]), 169),
    ("main-class-too-long", class_file([attribute(5, u2(14) + b"\0")] + PLAIN), 147),
    ("main-class-too-short", class_file([attribute(5, b"\0")] + PLAIN), 147),
    ("main-class-without-content", class_file(PLAIN + [attribute(5, b"")]), 169),

    # two faults
    ("bad-packages-before-bad-module", class_file([packages(0), module_info(name=0)]), 147),
    ("bad-module-before-bad-packages", class_file([module_info(name=0), packages(0)]), 147),
    ("bad-packages-behind-module", class_file([module_info(), packages(12, 0)]), 199),
    ("bad-this-and-module", usual(this=0, attributes_count=9), 133),
    ("bad-major-and-tag", usual(major=52, own=b"\2", count=19), 0),
    ("bad-module-byte-left", whole(name=0) + b"\0", 155),
    ("bad-main-class-before-cut-module", class_file([main_class(13), module_info()])[:-1], 147),

    # names and versions
    ("requires-unnamed", whole(utf8(b"ALL-UNNAMED") + named(MODULE, 18), 20, requires=[(10, 0, 0), (19, 0, 0)]), 172),
    ("requires-unnamed-static", whole(utf8(b"ALL-UNNAMED") + named(MODULE, 18), 20, requires=[(19, 0x40, 0)]), 172),
    ("module-unnamed", class_file([attribute(3, module_content(19, 0, 0, [], [], [], [], []))],
                                  utf8(b"ALL-UNNAMED") + named(MODULE, 18), 20),
     b"MO\0\x10\0\0\0\x0bALL-UNNAMED\0"),
    ("target-unnamed", class_file([module_info(requires=[], exports=[(12, 0, [19])], opens=[], uses=[], provides=[])],
                                  utf8(b"ALL-UNNAMED") + named(MODULE, 18), 20),
     MO + b"EX\0\x12\3p/q\0\1\x0bALL-UNNAMED"),
    # an Integer with the bytes of a name in the place of a Utf8
    ("name-inner-integer", whole(b"\3abcd" + named(MODULE, 18), 20, name=19), 163),
    ("package-inner-integer", whole(b"\3abcd" + named(PACKAGE, 18), 20, packs=[19]), 215),
    ("version-integer", whole(b"\3abcd", 19, version=18), 160),
    ("no-versions", whole(version=0, requires=[(10, 0, 0)]), b"MO\0\6\0\0\0\1a\0" + b"RQ\0\5\0\0\1b\0" + TABLES[12:] + PK + MC),
    ("names-need-not-be-internal", whole(utf8(b"!;[~") + named(MODULE, 18), 20, name=19),
     b"MO\0\x0c\0\0\0\4!;[~\0031.0" + TABLES + PK + MC),
    ("name-of-255-bytes", whole(utf8(b"n" * 255) + named(MODULE, 18), 20, name=19),
     b"MO\1\7\0\0\0\xff" + b"n" * 255 + b"\0031.0" + TABLES + PK + MC),
    ("version-of-255-bytes", whole(utf8(b"9" * 255), 19, version=18),
     b"MO\1\5\0\0\0\1a\xff" + b"9" * 255 + TABLES + PK + MC),

    # what passes
    ("flags-of-module", class_file([module_info(flags=0xFFFF, requires=[], exports=[], opens=[], uses=[], provides=[])]),
     b"MO\0\x09\x90\x20\0\1a\0031.0"),
    ("flags-undefined-in-module", whole(flags=0x6FDF), WRITTEN),
    ("flags-of-requires", whole(requires=[(10, 0xFFFF, 15)]), MO + b"RQ\0\x08\x90\x60\1b\0031.0" + TABLES[12:] + PK + MC),
    ("flags-undefined-in-requires", whole(requires=[(10, 0x6F9F, 15)]), WRITTEN),
    ("flags-of-exports-and-opens", whole(exports=[(12, 0xFFFF, [10])], opens=[(12, 0x9000, [10])]), WRITTEN),
    ("opens-in-open-module", whole(flags=0x20), b"MO\0\x09\0\x20\0\1a\0031.0" + TABLES + PK + MC),
    ("repeats", whole(requires=[(10, 0, 15)] * 2, exports=[(12, 0, [10, 10])] * 2, uses=[14, 14], provides=[(14, [14, 14])] * 2),
     MO + b"RQ\0\x08\0\0\1b\0031.0" * 2 + b"EX\0\x0a\3p/q\0\2\1b\1b" * 2 + b"OP\0\x08\3p/q\0\1\1b" + b"US\0\x06\5p/q/S" * 2
     + b"PV\0\x14\5p/q/S\0\2\5p/q/S\5p/q/S" * 2 + PK + MC),
    ("requires-itself", whole(requires=[(8, 0, 0)]), MO + b"RQ\0\5\0\0\1a\0" + TABLES[12:] + PK + MC),
    ("unqualified", whole(exports=[(12, 0, [])], opens=[(12, 0, [])]),
     MO + TABLES[:12] + b"EX\0\6\3p/q\0\0" + b"OP\0\6\3p/q\0\0" + TABLES[36:] + PK + MC),
    ("no-implementations", whole(provides=[(14, [])]), MO + TABLES[:46] + b"PV\0\x08\5p/q/S\0\0" + PK + MC),
    ("requires-java-base", whole(utf8(b"java.base") + named(MODULE, 18), 20, requires=[(19, 0x8000, 15), (10, 0x60, 0)]),
     MO + b"RQ\0\x10\x80\0\x09java.base\0031.0" + b"RQ\0\5\0\x60\1b\0" + TABLES[12:] + PK + MC),
    # z, a/b, a, a-b, aB, a/b again under another constant, then a and a/b by the same ones
    ("packages-unsorted", whole(
        utf8(b"z") + named(PACKAGE, 18) + utf8(b"a/b") + named(PACKAGE, 20) + named(PACKAGE, 7) + utf8(b"a-b")
        + named(PACKAGE, 23) + utf8(b"aB") + named(PACKAGE, 25) + utf8(b"a/b") + named(PACKAGE, 27), 29,
        packs=[19, 21, 22, 24, 26, 28, 22, 21]),
     MO + TABLES + b"PK\0\2\1a" + b"PK\0\4\3a-b" + b"PK\0\4\3a/b" + b"PK\0\3\2aB" + b"PK\0\2\1z" + MC),
    ("packages-repeated", whole(packs=[12] * 300), WRITTEN),
    ("packages-300-backwards", whole(
        b"".join(utf8(b"p%03d" % (299 - i)) + named(PACKAGE, 18 + 2 * i) for i in range(300)), 618, packs=range(19, 618, 2)),
     MO + TABLES + b"".join(b"PK\0\5\4p%03d" % i for i in range(300)) + MC),
    ("packages-1024-backwards", whole(
        b"".join(utf8(b"p%04d" % (1023 - i)) + named(PACKAGE, 18 + 2 * i) for i in range(1024)), 2066, packs=range(19, 2066, 2)),
     MO + TABLES + b"".join(b"PK\0\6\5p%04d" % i for i in range(1024)) + MC),
    ("packages-1025-and-repeats", whole(packs=[12] * 1025), WRITTEN),
    ("packages-1025-backwards", whole(
        b"".join(utf8(b"p%04d" % (1024 - i)) + named(PACKAGE, 18 + 2 * i) for i in range(1025)), 2068, packs=range(19, 2068, 2)),
     MO + TABLES + b"".join(b"PK\0\6\5p%04d" % i for i in range(1025)) + MC),
    ("targets-300", whole(exports=[(12, 0, [10] * 300)]),
     MO + TABLES[:12] + b"EX\2\x5e\3p/q\1\x2c" + b"\1b" * 300 + TABLES[24:] + PK + MC),
]

# tags that are not known, first in the pool's own part; tags that are known, cut off by one byte as the only constant
for tag in 0, 2, 13, 14, 21, 128, 255:
    cases.append(("tag-%d" % tag, usual(own=bytes([tag]) + bytes(4), count=19), 133))
for tag in sorted(WIDTHS):
    header = b"\xca\xfe\xba\xbe\0\0\0\x37\0\3"
    cases.append(("tag-%d-cut" % tag, header + bytes([tag]) + bytes(WIDTHS[tag] - 1), 10))

# Every index of the three attributes: what it is called, the file with another index there, the offset of its attribute.
# Of the own constants 18 is a Utf8 with its text, 19 a constant of this kind with the index 18.
PLACES = [
    ("name", lambda i, **k: whole(name=i, **k), MODULE, 155),
    ("requires", lambda i, **k: whole(requires=[(10, 0, 15), (i, 0, 0)], **k), MODULE, 155),
    ("exports", lambda i, **k: whole(exports=[(i, 0, [10])], **k), PACKAGE, 155),
    ("exports-target", lambda i, **k: whole(exports=[(12, 0, [10, i])], **k), MODULE, 155),
    ("opens", lambda i, **k: whole(opens=[(i, 0, [10])], **k), PACKAGE, 155),
    ("opens-target", lambda i, **k: whole(opens=[(12, 0, [10, i])], **k), MODULE, 155),
    ("uses", lambda i, **k: whole(uses=[i, 14], **k), CLASS, 155),
    ("provides", lambda i, **k: whole(provides=[(i, [14])], **k), CLASS, 155),
    ("provides-with", lambda i, **k: whole(provides=[(14, [14, i])], **k), CLASS, 155),
    ("package", lambda i, **k: whole(packs=[12, i], **k), PACKAGE, 207),
    ("main-class", lambda i, **k: whole(main=i, **k), CLASS, 217),
]
VERSIONS = [
    ("version", lambda i, **k: whole(version=i, **k), 155),
    ("requires-version", lambda i, **k: whole(requires=[(10, 0, i)], **k), 155),
]
KINDS = {MODULE: ("module", 8), PACKAGE: ("package", 12), CLASS: ("class", 14)}
WRONG = [("past-pool", 18), ("65535", 65535), ("second-slot", 17), ("long", 16)]

for place, at_index, kind, at in PLACES:
    for what, i in [("0", 0), ("utf8", 11)] + WRONG + [KINDS[k] for k in KINDS if k != kind]:
        cases.append((place + "-index-" + what, at_index(i), at))
    for what, i in ("0", 0), ("past-pool", 19), ("second-slot", 17), ("no-utf8", 18):
        cases.append((place + "-inner-" + what, at_index(18, own=named(kind, i), count=19), at + 3))
    for what, text, more in ("empty", b"", 6), ("space", b"p q", 9), ("delete", b"p\x7f", 8), ("accent", b"\xc3\xa9", 8):
        cases.append((place + "-" + what, at_index(19, own=utf8(text) + named(kind, 18), count=20), at + more))
    cases.append((place + "-256-bytes", at_index(19, own=utf8(b"n" * 256) + named(kind, 18), count=20), at + 262))
for place, at_index, at in VERSIONS:
    for what, i in WRONG + list(KINDS.values()):
        cases.append((place + "-index-" + what, at_index(i), at))
    for what, text, more in ("empty", b"", 3), ("space", b"1 0", 6), ("zero", b"\0", 4), ("256-bytes", b"1" * 256, 259):
        cases.append((place + "-" + what, at_index(18, own=utf8(text), count=19), at + more))

# Bodies around 65,535 bytes: a name of 252 or 253 bytes, then 255 of 255 bytes.
# 1 + 252 + 2 + 255 * 256 = 65,535


def long_list(length, mark, main=14, more=b""):
    """The whole file with such a list: own constants of 267 + `length` bytes, and 254 indices more in the Module attribute."""
    tag, user = (CLASS, CLASS) if mark == b"PV" else (PACKAGE, MODULE)
    own = utf8(b"t" * 255) + named(user, 18) + utf8(b"p" * length) + named(tag, 20)
    entry = {b"EX": {"exports": [(21, 0, [19] * 255)]}, b"OP": {"opens": [(21, 0, [19] * 255)]},
             b"PV": {"provides": [(21, [19] * 255)]}}[mark]
    return whole(own, 22, main=main, **entry) + more


LONGEST = b"EX\xff\xff" + b"\xfc" + b"p" * 252 + b"\0\xff" + (b"\xff" + b"t" * 255) * 255
cases += [
    ("body-of-65535-bytes", long_list(252, b"EX"), MO + TABLES[:12] + LONGEST + TABLES[24:] + PK + MC),
    ("exports-body-of-65536-bytes", long_list(253, b"EX"), TOO_LARGE),
    ("opens-body-of-65536-bytes", long_list(253, b"OP"), TOO_LARGE),
    ("provides-body-of-65536-bytes", long_list(253, b"PV"), TOO_LARGE),
    # 217 + 267 + 253 + 254 * 2 = 1,245; the attribute there has 8 bytes
    ("body-of-65536-bytes-bad-main-class", long_list(253, b"EX", main=0), 1245),
    ("body-of-65536-bytes-byte-left", long_list(253, b"EX", more=b"\0"), 1253),
    # 225 - 8 + 6 = 223 bytes around the padding
    ("file-of-65535-bytes", class_file([attribute(6, bytes(65312)), module_info(), packages(12), main_class(14)]), WRITTEN),
    ("file-of-65536-bytes", class_file([attribute(6, bytes(65313)), module_info(), packages(12), main_class(14)]), TOO_LARGE),
    ("magic-in-65536-bytes", bytes(65536), TOO_LARGE),
]


# ---- The test program's data ----

def expected(answer):
    """An answer of the list above in the form of `describe`."""
    if answer == TOO_LARGE:
        return "refused", 2, 0
    return ("refused", 8, answer) if isinstance(answer, int) else ("written", answer)


def main():
    here = os.path.dirname(os.path.abspath(__file__))
    files = []
    for f in sorted(os.listdir(os.path.join(here, "classes"))):
        if f.endswith(".class"):
            with open(os.path.join(here, "classes", f), "rb") as file:
                data = file.read()
            files.append((f[:-len(".class")], data, describe(data)))
    for case, data, answer in cases:
        assert describe(data) == expected(answer), case
        files.append((case, data, expected(answer)))
    assert len({case for case, _, _ in files}) == len(files)

    program = os.path.join(here, "..", "crates", "classes")
    os.makedirs(os.path.join(program, "data"), exist_ok=True)
    with open(os.path.join(program, "data", "cases"), "wb") as out, open(os.path.join(program, "stdout"), "w") as lines:
        for case, data, answer in files:
            # name, class file, number (0: written), then the particular, or the records behind their length
            number, particular, records = (0, len(answer[1]), answer[1]) if answer[0] == "written" else (*answer[1:], b"")
            out.write(name(case.encode()) + len(data).to_bytes(4, "big") + data)
            out.write(bytes([number]) + particular.to_bytes(4, "big") + records)
            lines.write(case + (" refused %d %d\n" % (number, particular) if number else " written %d\n" % particular))


if __name__ == "__main__":
    main()
