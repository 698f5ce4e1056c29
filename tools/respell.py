#!/usr/bin/env python3
"""Brings the repository's own definitions and lemmas to snake case, as `process-at` to `process_at`.

usage: tools/respell.py [--list]      at the top of the repository; --list writes nothing and shows the table

Own are the names with a dash that a file of specs/ or proofs/ declares: a signature, a field, a constructor, a local. These stay:
names that the library declares, names that the prover makes for its goals (loop-i-preserved), a type at the head of a name
(In-set; a type of its own becomes camel case), and a list function of the library at the head of a lemma (length-put). Functions of src/, strings and must-fail edits are not
touched; of documents only what stands in a code span is. A second run writes nothing more.
"""
import re
import sys
from pathlib import Path

PART = r"[^\W\d][\w'₀-₉]*"
NAME = re.compile(rf"(?<![\w'₀-₉◌-])({PART}(?:-[\w'₀-₉]+)+)(?![\w'₀-₉◌-])")
HEADS = ("length", "get_or", "drop", "take", "map")
ANSWERS = ("Answers.antt", "Invariants.antt", "Proof.antt")
COMMENT = re.compile(r"(?:(?<=\s)|^)--[^\n]*", re.M)


def library(texts):
    """The names with a dash that come from outside of the repository."""
    own = "|".join(sorted(p.name for p in Path("crates").iterdir()))
    found = set()
    for text in texts:
        for m in re.finditer(r"^(?:ghost )?use (\S+?)\.\{([^}]*)\}", text, re.M):
            if not re.match(rf"Rattle\.(?:{own})\.", m[1] + "."):
                found |= set(NAME.findall(m[2]))
    return found


def declared(text):
    """The names with a dash that a file declares, and those that the prover makes for its goals."""
    code = COMMENT.sub("", text)
    made = set(re.findall(rf"\bgoal\.({NAME.pattern})", code)) if "goal." in code else set()
    made = {m[0] if isinstance(m, tuple) else m for m in made}
    own = set()
    for m in NAME.finditer(code):
        line = code[code.rfind("\n", 0, m.start()) + 1 : m.start()]
        after = code[m.end() : m.end() + 3]
        head = re.fullmatch(r"\s*(?:(?:abbrev|unfoldable|pub|data|record) )*", line)
        bound = re.search(r"(?:\(|\{|λ |let | in )(?:[\w'₀-₉-]+ )*$", line)
        field = re.search(r"(?:\{|;) *$", line) and after.startswith(" =")
        if (head and (after.startswith(" :") or after.startswith(" ="))) or (bound and re.match(r"(?: [\w'₀-₉-]+)* ?[:=.]", code[m.end() :])) or field:
            own.add(m[1])
    return own - made, made


def spelled(name, types):
    if name in types:
        return "".join(w[0].upper() + w[1:] for w in name.split("-"))
    name = name.replace("getD-", "get_or-").replace("-getD", "-get_or")
    head, *rest = name.split("-")
    if head[0].isupper() or head in HEADS:
        return head + "-" + "_".join(rest)
    return "_".join([head] + rest)


def in_code(line, turn):
    code, comment, rest = line.partition("//")
    return NAME.sub(turn, code) + comment + rest


def main():
    files = sorted(p for end in ("antt", "rt") for p in Path("crates").rglob("*." + end) if "out" not in p.parts)
    texts = {p: p.read_text() for p in files}
    foreign = library(texts.values())
    own, made = set(), set()
    for p, text in texts.items():
        if p.suffix == ".antt":
            o, m = declared(text)
            # a lemma file and a file of specs/ hold no name that the prover makes
            own |= o if p.name in ANSWERS else set(NAME.findall(COMMENT.sub("", text)))
            made |= m
    types = {n for t in texts.values() for n in re.findall(rf"^(?:(?:abbrev|pub|data|record) )*({PART}(?:-[\w'₀-₉]+)+) :[^\n]*Type \d$", t, re.M) if n[0].isupper()}
    table = {n: spelled(n, types) for n in own - made - foreign if spelled(n, types) != n}
    words = {w for t in texts.values() for w in re.findall(r"[^\W\d][\w'₀-₉-]*", t)}
    if "--list" in sys.argv:
        for n in sorted(table):
            print(n, table[n], "FALLS TOGETHER" if table[n] in words else "")
        print("made:", *sorted(made & own))
        print("left:", *sorted({n for t in texts.values() for n in NAME.findall(t)} - set(table) - foreign - made))
        return
    turn = lambda m: table.get(m[1], m[1])
    for p, text in texts.items():
        if p.suffix == ".antt":
            new = NAME.sub(turn, text)
        else:
            new = "".join(line if '"' in line else in_code(line, turn) for line in text.splitlines(True))
        if new != text:
            p.write_text(new)
    for p in [Path("README.md"), *sorted(Path("docs").glob("*.md"))]:
        text = p.read_text()
        new = re.sub(r"`[^`\n]*`", lambda s: NAME.sub(turn, s[0]), text)
        if new != text:
            p.write_text(new)


main()
