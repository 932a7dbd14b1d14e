#!/usr/bin/env python3
"""Brings the repository's own definitions and lemmas to the spelling of today's Rattle.

usage: python3 tools/spell_names.py [--list]      at the top of the repository, once, after the toolchain's own script

Definitions, fields, constructors and lemmas of specs/ and of proofs/ go to snake case, types and facts keep their capitals.
A dash stays where it joins the name of a definition to what a lemma says of it, as in `rows-length`; between plain words it
becomes `_`. The proof of a function f is `f_spec`. Names of src/, exported C names and strings are not touched. It stops
where two names would fall together, and --list prints the pairs and writes nothing.
"""
import fnmatch
import os
import re
import sys

ROOT = os.path.dirname(os.path.dirname(os.path.realpath(__file__)))
CRATES = os.path.join(ROOT, "crates")
# A name of antt: anything but white space, brackets, separators and a field's dot.
TOKEN = re.compile(r"""[^\s(){};.,"@λ⌜⌝]+""")
DECLARED = re.compile(r"^(?: {2,4})?((?:unfoldable |abbrev |pub )*)(data |record |module )?(?:pub )?([^\s:(){};.,\"@λ]+) +:(?= )|^((?:pub |abbrev |unfoldable )*)(data|record) (?:pub )?([^\s:(){};.,]+)")
# What a proof file calls a goal or a loop is Rattle's.
MADE = re.compile(r"^(returns|invariant|decreases|loop|entries)(-|$)")
# Words of std that stand before a dash in a lemma's name.
OF_STD = {"length", "take", "drop", "set", "sets", "get_or", "cond", "replicate"}
# Where the plain rule would give a name of std.
GIVEN = {"bit-and": "bit_of-bit_and", "bit-or": "bit_of-bit_or"}
# A fact is spelled as a type, in the crate that has it.
FACTS = {"short": ("Short", {"recording_stream"})}
# Where the plain rule would give a lemma or a local name that a definition has: the lemma says so at its end. Each has the crates
# in which it is declared or cited, since elsewhere the same word may be a name of src/.
LEMMAS = {
    "end_line": {"recording_feed"},
    "held_by": {"traces"},
    "held_in": {"recording_feed"},
    "home_by": {"board_setup"},
    "no_room": {"recording_step"},
    "one_more": {"recording_stream"},
    "too_short": {"message_*"},
    "view_in": {"record", "call_message"},
}


def files():
    for folder, dirs, names in os.walk(CRATES):
        dirs[:] = sorted(d for d in dirs if d not in ("out", "target"))
        for name in sorted(names):
            yield os.path.join(folder, name)


def read(path):
    with open(path, encoding="utf-8") as f:
        return f.read()


def declared():
    """The names that specs/ and proofs/ declare, and which of them are definitions."""
    names, definitions = set(), set()
    for path in files():
        if not path.endswith(".antt"):
            continue
        for line in read(path).split("\n"):
            m = DECLARED.match(line)
            if not m:
                continue
            name = m[3] or m[6]
            if path.endswith("/Proof.antt") and not name.endswith("-spec"):
                continue
            names.add(name)
            if "unfoldable" in (m[1] or "") or "abbrev" in (m[1] or "") or m[6]:
                definitions.add(name)
    return names, definitions


def humps(name):
    """Camel case to snake case. A capital with its digits, as in `isB8` or `fromN4`, names a row or a class and is kept."""
    if name[:1].isupper():
        return name
    name = name.replace("getD", "get_or")
    parts = re.split(r"(?<=[a-z0-9])(?=[A-Z])", name)
    return "_".join(p if re.fullmatch(r"[ABDNRS][0-9]+", p) else p[:1].lower() + p[1:] for p in parts)


def spelled(name, definitions):
    if name in GIVEN:
        return GIVEN[name]
    if MADE.match(name):
        return name
    if name.endswith("-spec"):
        return humps(name[: -len("-spec")]).replace("-", "_") + "_spec"
    parts = name.split("-")
    if "" in parts:
        return humps(name)
    # The longest run of parts in front that is a definition's name, or a constructor.
    head = int(parts[0][:1].isupper() and len(parts) > 1)
    for n in range(1, len(parts)):
        front = "-".join(parts[:n])
        if front in definitions | OF_STD or humps(front) in definitions | OF_STD:
            head = n
    tail = "_".join(humps(p) for p in parts[head:])
    if not head:
        return tail
    front = "-".join(parts[:head])
    return (spelled(front, definitions) if head > 1 else humps(front)) + "-" + tail


def table():
    names, definitions = declared()
    new = {n: spelled(n, definitions) for n in names if n not in LEMMAS}
    # A lemma in dashes whose plain spelling a definition has.
    taken = {s for n, s in new.items() if "-" not in n}
    new = {n: s + "_lem" if "-" in n and s in taken else s for n, s in new.items()}
    met = {}
    for n, s in new.items():
        met.setdefault(s, []).append(n)
    clash = {s: ns for s, ns in met.items() if len(ns) > 1}
    return {n: s for n, s in new.items() if s != n}, clash, names


def within(path, new):
    """The names for one file: those of LEMMAS count in their crates alone."""
    crate = os.path.relpath(path, CRATES).split(os.sep)[0]
    here = {n: n + "_lem" for n, where in LEMMAS.items() if any(fnmatch.fnmatch(crate, w) for w in where)}
    facts = {n: fact for n, (fact, where) in FACTS.items() if crate in where}
    return {**new, **here, **facts}


def respell(text, new):
    return TOKEN.sub(lambda m: new.get(m[0], m[0]), text)


def in_ticks(text, new):
    return re.sub(r"`([^`\n]+)`", lambda m: "`" + respell(m[1], new) + "`", text)


def source(text, new):
    """Clauses, ghost items and what comments name in ticks; the code and its strings stay."""
    out, deep, clause = [], 0, False
    for line in text.split("\n"):
        if line.lstrip().startswith("//"):
            out.append(in_ticks(line, new))
            continue
        if line.lstrip().startswith("ghost ") or re.match(r"\s*(requires|ensures)\b", line):
            clause, deep = True, 0
        if clause:
            out.append(respell(line, new))
            deep += line.count("{") - line.count("}")
            clause = deep > 0
        else:
            out.append(line)
    return "\n".join(out)


def main():
    new, clash, names = table()
    if "--list" in sys.argv:
        for n in sorted(new):
            print(n, new[n])
        for s, ns in sorted(clash.items()):
            print("CLASH", s, ns)
        return 0
    if clash:
        for s, ns in sorted(clash.items()):
            print("two names fall together:", s, ns)
        return 1
    for path in files():
        if not path.endswith((".antt", ".rt")):
            continue
        text = read(path)
        if path.endswith(".antt"):
            after = respell(text, within(path, new))
        else:
            after = source(text, new)
        if after != text:
            with open(path, "w", encoding="utf-8") as f:
                f.write(after)
    return 0


if __name__ == "__main__":
    sys.exit(main())
