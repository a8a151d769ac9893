#!/usr/bin/env python3
"""Spells the repository's own definitions, lemmas and fields as today's Rattle does, once, right after the kit's port.py.

usage: tools/respell.py KIT      at the top of the repository; KIT is the folder of Rattle's library, the folder `rattle` of the kit

A definition or field is in snake case; a lemma keeps a dash between two words that are names of definitions, and has an underscore at
any other place, as `begins-not_one`. Names of src/, exported C names, names of the library and those that Rattle makes stay.
It prints each new name, and stops where two names of a file would fall together.
"""
import collections
import os
import re
import sys

KIT = sys.argv[1]
# what port.py took for a name of the library: the record kind PK of specs/Form of access
GARBLED = {"ParamKind": "PK"}
# lemmas and fields whose new name a definition takes
LEMMAS = {
    "first_body": "first_body_lem",
    "found_in": "found_in_lem",
    "all_short": "all_short_lem",
    "edge_to": "edge_to_lem",
    "member_of": "member_of_lem",
    "read_at": "read_at_lem",
    "with_read": "with_read_lem",
    "position_in": "position_in_lem",
    "owner_at": "owner_at_lem",
    "split_at": "split_at_lem",
    "can-read": "can_read_lem",
    "name-bytes": "name_bytes_lem",
    "jar-name": "jar_name_lem",
    "tables-good": "tables_good_lem",
    "measure-module": "measure_module_lem",
    "package-names": "package_names_lem",
    "is-at": "is_at_lem",
    "queue-fuel": "queue_fuel_lem",
    "base-met": "base_met_lem",
    "provide-from": "provide_from_lem",
    "want-unfound": "want_unfound_lem",
}
# a variable and a field of src/ of one name, which do not meet
APART = {"in_round"}
MADE = re.compile(r"^(invariant|decreases|ghost)-|-(init|preserved|smaller|requires|spec)$|^(After|Then|Else|At|In|Goes|Lts|Fits|WpFn)-|^(loop|returns|overflow|bounds|slice|shared|prove|if|in)-")
TOKEN = re.compile(r"[^\s(){}.,;\[\]]+")
SIGNATURE = re.compile(r"^( *)((?:abbrev |unfoldable |pub )*)([^\s:(){}.,;\[\]]+)((?: \([^\n]*?\)| \{[^\n]*?\})*) : ", re.M)
RULESET = re.compile(r"^ *(?:pub )?ruleset ([^\s=]+) =", re.M)


def read(path):
    with open(path, encoding="utf-8") as f:
        return f.read()


def files(root, *ends):
    for folder, dirs, names in os.walk(root):
        dirs[:] = sorted(d for d in dirs if d not in ("out", ".git", "target"))
        for n in sorted(names):
            if n.endswith(ends):
                yield os.path.join(folder, n)


def code(text):
    return re.sub(r"(?m)(^|\s)--.*", r"\1", text)


def defined(paths):
    """All names with a signature, and those of them that are definitions (abbrev, unfoldable) or fields of a record."""
    every, plain, fields = set(), set(), set()
    for p in paths:
        text = code(read(p))
        for m in SIGNATURE.finditer(text):
            every.add(m.group(3))
            if "abbrev" in m.group(2) or "unfoldable" in m.group(2):
                plain.add(m.group(3))
        every.update(RULESET.findall(text))
        for block in re.finditer(r"(?m)^ *(?:pub )?record \S.* where\n((?:(?: {2,}.*)?\n)+)", text):
            for m in SIGNATURE.finditer(block.group(1)):
                fields.add(m.group(3))
    return every, plain, fields


def snake(name):
    name = re.sub(r"([A-Z])([A-Z][a-z])", r"\1_\2", name)
    name = re.sub(r"([a-z0-9])([A-Z])", r"\1_\2", name)
    return name.lower()


def main():
    own = list(files("crates", ".antt"))
    every, plain, fields = defined(own)
    kit, kit_plain, _ = defined(list(files(KIT, ".antt")))
    words = {snake(n) if not n[0].isupper() else n for n in plain} | {n for n in kit_plain if "-" not in n} | {"cons", "nil", "append"}
    # a piece of a lemma's name that the library joins by dashes is a name
    new = {}
    for n in sorted(every | fields):
        if n in kit or MADE.search(n) or not re.search(r"[-A-Z]", n) or n.startswith("0x"):
            continue
        pieces = [p if p[:1].isupper() else snake(p) for p in n.split("-")]
        if n in plain or n in fields:
            to = "_".join(pieces)
        else:
            to = pieces[0]
            for p in pieces[1:]:
                last = re.split(r"-", to)[-1]
                to += ("-" if last in words and p in words else "_") + p
        if to != n:
            new[n] = to
    # other words in camel case that no signature of these forms gives
    for p in own:
        for t in set(TOKEN.findall(code(read(p)))):
            if re.match(r"[a-z]+[a-z0-9]*[A-Z]", t) and t not in new and t not in kit and "-" not in t:
                new[t] = snake(t)
    bad = 0
    texts = {p: read(p) for p in list(files("crates", ".antt", ".rt", ".edit"))}
    for p, text in texts.items():
        body = code(text) if p.endswith(".antt") else text
        tokens = set(TOKEN.findall(body))
        turned = collections.defaultdict(set)
        for t in tokens:
            turned[LEMMAS.get(t) or new.get(t) or GARBLED.get(t) or t].add(t) if p.endswith(".antt") else turned[new.get(t, t)].add(t)
        for to, of in turned.items():
            if len(of) > 1 and p.endswith(".antt") and not p.endswith("/Proof.antt") and to not in APART:
                print(f"together: {p}: {sorted(of)} are {to}")
                bad += 1
    if bad:
        print(f"{bad} places fall together: nothing was written")
        return 1
    for p, text in texts.items():
        if p.endswith(".antt"):
            out = []
            for line in text.split("\n"):
                m = re.match(r"(.*?)((?:^|\s)--.*)?$", line)
                front, remark = m.group(1), m.group(2) or ""
                front = TOKEN.sub(lambda t: LEMMAS.get(t[0]) or GARBLED.get(t[0]) or new.get(t[0], t[0]), front)
                remark = TOKEN.sub(lambda t: GARBLED.get(t[0]) or new.get(t[0], t[0]), remark)
                remark = re.sub(r"`([^`\s]+)`", lambda t: "`" + (new.get(t[1], t[1])) + "`", remark)
                out.append(front + remark)
            to = "\n".join(out)
        else:
            to = TOKEN.sub(lambda t: new.get(t[0], t[0]), text)
        if to != text:
            with open(p, "w", encoding="utf-8") as f:
                f.write(to)
    for n in sorted(new | LEMMAS):
        print(f"{n} {LEMMAS.get(n) or new[n]}")
    return 0


if __name__ == "__main__":
    raise SystemExit(main())
