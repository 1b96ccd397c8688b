#!/usr/bin/env python3
"""Respells this repository's own definitions and lemmas from dashes to snake case, as today's Rattle spells names.

usage: python3 tools/snake_names.py            at the top of the repository, once, after /opt/rattle/port/port.py

A name is ours if a file of specs/ or proofs/ defines it at the start of a line, or in a `where`. Names that Rattle makes (goals,
invariants, measures, steps) keep their dashes. Functions of src/, strings and comments of src/ are not touched.
It prints the names that fall together with another one.
"""
import glob
import re

NAME = r"[A-Za-z_][\w'\u2080-\u2089-]*"
TOP = re.compile(rf"^(?:pub |abbrev |unfoldable |opaque )*({NAME})\s*(?:\{{[^}}\n]*\}}\s*)?:(?!:)\s*(.*)$", re.M)
LOCAL = re.compile(rf"^[ \t]+(pub |abbrev )*({NAME})\s*(?:\{{[^}}\n]*\}}\s*)?:(?!:)\s", re.M)
TOKEN = re.compile(rf"(?<![\w'.-])({NAME})|(?<=\.)({NAME})")
GIVEN = ("invariant-", "decreases-", "loop-", "returns", "overflow", "bounds-", "slice", "unreachable", "prove-")


def made(name, kind, in_answers):
    """Whether Rattle asks for this name."""
    if not in_answers:
        return False
    return kind.startswith(("goal.", "need.")) or name.startswith(GIVEN)


def read(p):
    with open(p, encoding="utf-8") as f:
        return f.read()


antt = sorted(glob.glob("crates/*/specs/**/*.antt", recursive=True) + glob.glob("crates/*/proofs/**/*.antt", recursive=True))
rt = sorted(glob.glob("crates/*/src/**/*.rt", recursive=True))
edits = sorted(glob.glob("crates/*/must-fail/*.edit"))

ours, local, fields, every = {}, {}, set(), set()
for p in antt:
    t = read(p)
    for m in re.finditer(rf"(?<![\w'-])({NAME})", t):
        every.add(m[1])
    in_answers = bool(re.search(r"/proofs/.+/", p))
    for m in TOP.finditer(t):
        if "-" in m[1] and not made(m[1], m[2], in_answers):
            ours.setdefault(m[1], []).append(p)
    for m in LOCAL.finditer(t):
        if "-" in m[2] and m[1]:
            ours.setdefault(m[2], []).append(p)
            fields.add(m[2])
        elif "-" in m[2]:
            local.setdefault(p, set()).add(m[2])
for p in rt:
    for line in read(p).split("\n"):
        if re.search(r"ghost|ensures|requires", line):
            every.update(m[1] for m in re.finditer(rf"(?<![\w'-])({NAME})", line))

# Names that would fall together with a word of a library or another local name get another one. Those that are left below mean the same
# as what they fall together with: a fact of `Lawful` and the ghost field of `Map` that states it, a definition and the function that computes it.
APART = {
    "is-nan": "nan_from_test",
    "t-top": "turned_top",
    "low-o": "low_at_o",
    "low-one": "low_at_one",
    "node-o": "node_at_o",
    # the definition, beside the ghost member list_place of RecordTable
    "list-place": "list_start",
    # names that had parts of older names of the library in them
    "ofBits-finite": "of_bits_finite",
    "toBits-back": "to_bits_back",
    "putMid-overwrite": "put_mid_overwrite",
    "getD-content": "get_or_content",
    "run-from-getD": "run_from_get_or",
}


def snake(n):
    return APART.get(n, n.replace("-", "_"))


for n in sorted(n for n in ours if snake(n) in every):
    print(f"falls together: {n} and {snake(n)} ({', '.join(ours[n])})")


def turn(text, names):
    def one(m):
        if m[2] is not None:
            n = m[2]
            before = text[: m.start()]
            module = re.search(r"([A-Za-z_][\w'+-]*)\.$", before)
            if n not in fields and not (module and module[1][0].isupper()):
                return n
        else:
            n = m[1]
        return snake(n) if n in names else n

    return TOKEN.sub(one, text)


def write(p, was, now):
    if now != was:
        with open(p, "w", encoding="utf-8") as f:
            f.write(now)


names = set(ours)
for p in antt:
    t = read(p)
    mine = local.get(p, set())
    for n in sorted(n for n in mine if re.search(rf"(?<![\w'-]){re.escape(snake(n))}(?![\w'-])", t)):
        print(f"falls together in {p}: {n}")
    write(p, t, turn(t, names | mine))
CODE = re.compile(r'("(?:[^"\\\n]|\\.)*")|(//[^\n]*)|((?:[^"/\n]|/(?!/))+)')
for p in rt:
    t = read(p)
    out = []
    for line in t.split("\n"):
        out.append("".join(m[1] or m[2] or turn(m[3], names) for m in CODE.finditer(line)) if line else line)
    write(p, t, "\n".join(out))
for p in edits:
    t = read(p)
    write(p, t, turn(t, names))
print(f"{len(names)} names respelled, {sum(len(v) for v in local.values())} local ones looked at")
