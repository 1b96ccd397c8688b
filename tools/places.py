#!/usr/bin/env python3
"""Lists places of the sources where an older way of writing may stand.

    python3 tools/places.py [FOLDER]          the counts, one line for each kind of place
    python3 tools/places.py [FOLDER] KIND     the places of one kind, with file and line

FOLDER is a checkout; without it, this one. What is listed is a place to look at, not yet a fault.
"""
import re
import sys
from pathlib import Path

# A line is a place of a kind where the expression is found in it; comment lines are passed over.
LINES = {
    "enums": (1, r"^\s*(pub(\([a-z]+\))? )?enum "),
    "arms that hand on": (1, r"(None|_|Err\(\w+\)) => (return )?(None|Err|\"\"|0|false|u64::MAX|Ok\(|Answer::Refused|stop)|Ok\(\w\) => Some"),
    "number in place of a refusal": (1, r"=> u64::MAX|return u64::MAX"),
    "flag parameters": (1, r"^\s*(pub(\([a-z]+\))? )?fn .*: bool[,)]|^\s+\w+: bool,$"),
    "run judged by hand": (2, r"> size - at\b"),
    "taken out and put back": (2, r"std::mem::replace"),
    "while": (3, r"\bwhile\b"),
    "for over a range": (3, r"\bfor \w+ in [^{]*\.\."),
    "functions that compare": (4, r"\bfn (is|are|same|is_new|shares_place|lower_of|higher_of|overlaps|shares_a_ring|are_rings_alone)\b"),
    "functions that convert": (4, r"\bfn (of_letters|by_letter|number|told|tell|tell_side|lend|extent|kind|hand|verb)\b"),
    "fields copied one by one": (4, r"\b(\w+): (self|side|\*\w+|given|options)\.?\1?,?$"),
    "blank rows": (4, r"^\s*node: 0,$|Vertex \{ x: 0.0, y: 0.0 \};"),
    "text by hand": (4, r"format!\(|fn \w+_(name|text|line)\b"),
    "used beside rows": (5, r"\bused: usize\b"),
    "a place beside a buffer": (5, r"\bout: &mut \[u8\],? ?(at: usize)?"),
    "a law taken into a requires": (5, r"^\s*requires "),
    "arrays with a length": (6, r"\[\w+; \d+\],$|\blen: usize,$|\bused: usize,$"),
    "matches on which": (7, r"\bmatch (self|verb|kind|named|letter|\(self)\b"),
}


def sources(root):
    return sorted(root.glob("crates/*/src/*.rt"))


def code_lines(path):
    for n, line in enumerate(path.read_text(encoding="utf-8").splitlines(), 1):
        if not line.lstrip().startswith("//"):
            yield n, line


def by_line(root, pattern):
    found = []
    for path in sources(root):
        for n, line in code_lines(path):
            if re.search(pattern, line):
                found.append((path.relative_to(root), n, line.strip()))
    return found


def refusing_else(root):
    """`else { return None; }`, `else { return Err(..); }` and `else { return Ok(None); }` after a `let`."""
    found = []
    for path in sources(root):
        lines = list(code_lines(path))
        for (n, line), (_, after) in zip(lines, lines[1:]):
            if re.search(r"\blet .*else \{$", line) and re.search(r"^\s*return (None|Err\(.*\)|Ok\(None\));", after):
                found.append((path.relative_to(root), n, line.strip()))
    return found


WORD = re.compile(r"[A-Za-z_]\w*|\d[\w.]*|b?'[^']*'|b?\"[^\"]*\"|\S")
KEPT = set("fn let mut if else match for in while return self Self Ok Err Some None as usize u8 u32 u64 bool true false pub crate impl struct".split())


def shape(text):
    """The words of a piece of code, with each name in the order in which it comes."""
    names = {}
    out = []
    for word in WORD.findall(text):
        if re.match(r"[A-Za-z_]", word) and word not in KEPT:
            out.append("n%d" % names.setdefault(word, len(names)))
        elif re.match(r"\d|b?['\"]", word):
            out.append("0")
        else:
            out.append(word)
    return " ".join(out)


def functions(root):
    for path in sources(root):
        lines = path.read_text(encoding="utf-8").splitlines()
        n = 0
        while n < len(lines):
            head = re.match(r"^(\s*)(pub(\([a-z]+\))? )?(extern \"C\" )?fn (\w+)", lines[n])
            if not head:
                n += 1
                continue
            indent = head.group(1)
            end = n
            while end < len(lines) and lines[end] not in (indent + "}",) and not lines[end].rstrip().endswith(";") or end < len(lines) and lines[end].startswith(indent + " "):
                end += 1
            body = [l for l in lines[n:end + 1] if not re.match(r"\s*(requires|ensures|//)", l)]
            yield path.relative_to(root), n + 1, head.group(5), body
            n = end + 1


def twins(root):
    """Functions whose bodies are the same but for names and values."""
    groups = {}
    for path, n, name, body in functions(root):
        opened = next((i for i, l in enumerate(body) if l.rstrip().endswith("{")), None)
        if opened is None:
            continue
        inner = "\n".join(body[opened + 1:-1])
        if len(WORD.findall(inner)) >= 12:
            groups.setdefault(shape(inner), []).append((path, n, name))
    found = []
    for group in groups.values():
        if len(group) > 1:
            for path, n, name in group:
                found.append((path, n, name + ", one of " + ", ".join(g[2] for g in group)))
    return sorted(found)


def answers(root):
    found = []
    for path in sorted(root.glob("crates/*/proofs/**/Answers.antt")):
        for n, line in enumerate(path.read_text(encoding="utf-8").splitlines(), 1):
            if re.match(r"^(pub )?[\w-]+ : goal\.", line):
                found.append((path.relative_to(root), n, line.strip()))
    return found


def kinds():
    table = [(point, name, (lambda root, p=pattern: by_line(root, p))) for name, (point, pattern) in LINES.items()]
    table.append((1, "else that refuses", refusing_else))
    table.append((2, "functions of one shape", twins))
    table.append((8, "answers by hand", answers))
    return sorted(table, key=lambda row: row[0])


def main(words):
    root = Path(__file__).resolve().parent.parent
    if words and Path(words[0]).is_dir():
        root = Path(words.pop(0)).resolve()
    wanted = " ".join(words)
    if wanted and wanted not in [name for _, name, _ in kinds()]:
        print("places.py: no such kind of place: " + wanted, file=sys.stderr)
        return 1
    for point, name, listing in kinds():
        found = listing(root)
        if not wanted:
            print("%d  %-30s %4d" % (point, name, len(found)))
        elif wanted == name:
            for path, n, line in found:
                print("%s:%d: %s" % (path, n, line))
    return 0


if __name__ == "__main__":
    sys.exit(main(sys.argv[1:]))
