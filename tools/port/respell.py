#!/usr/bin/env python3
"""Brings this repository's own names to today's spelling, once, after the kit's own port script.

usage: tools/port/respell.py        at the top of the repository

Words are in snake case; a dash joins two names and stays, `_` joins a plain word; a lemma that would have its definition's
name gets `_lem`, and a fault's constructor that would have its test's name gets `_fault`. names.tsv has a row for each name:
as it landed, as the kit's script leaves it, and as it is from now on. What turns: definitions, lemmas, fields and
constructors in .antt files, in clauses and `ghost use` lines of .rt files, in code spans of their comments, in must-fail
edits, and in code spans of README.md and docs/ (not docs/landings, which tell what was). Functions, strings, inputs and
outputs stay.
"""
import glob
import os
import re

HERE = os.path.dirname(os.path.realpath(__file__))
WORD = re.compile(r"[^\s(){}.;,@\"«»`]+")
SPAN = re.compile(r"`[^`\n]*`")
CLAUSE = re.compile(r"\b(?:requires|ensures)\*?\s*(?:\w+\s*)?\{|ghost\s+\w+\s*(?::|=)\s*\{")
USE = re.compile(r"ghost use\b[^;]*;")


def rows():
    with open(os.path.join(HERE, "names.tsv"), encoding="utf-8") as f:
        return [line.rstrip("\n").split("\t") for line in f]


ROWS = rows()
PORTED = {ported: new for _, ported, new in ROWS if ported != new}
LANDED = {landed: new for landed, _, new in ROWS}
STD = {"getD": "get_or", "_≡_": "◌≡◌", "_+_": "◌+◌", "_*_": "◌*◌"}


def turn(text, table):
    return WORD.sub(lambda m: table.get(m[0], m[0]), text)


def camel(name):
    return re.search(r"[a-z0-9][A-Z]", name) and name[0].islower()


PORTED_CAMEL = {a: b for a, b in PORTED.items() if camel(a)}
LANDED_CAMEL = {a: b for a, b in LANDED.items() if camel(a)}


def comment(text):
    """A comment: all names in code spans, and such bare ones as are no English."""
    out, at = [], 0
    for m in SPAN.finditer(text):
        out += [turn(text[at : m.start()], LANDED_CAMEL), turn(m[0], LANDED)]
        at = m.end()
    return "".join(out + [turn(text[at:], LANDED_CAMEL)])


def antt(text):
    lines = []
    for line in text.split("\n"):
        m = re.search(r"(?:^|(?<=\s))--(?=\s|$)", line)
        at = m.start() if m else len(line)
        lines.append(turn(line[:at], PORTED) + comment(line[at:]))
    return "\n".join(lines)


def closing(text, at):
    depth = 1
    while depth:
        depth += {"{": 1, "}": -1}.get(text[at], 0)
        at += 1
    return at


def rust(text):
    out, at = [], 0
    while at < len(text):
        ends = [(m.start(), m) for m in (CLAUSE.search(text, at), USE.search(text, at), re.compile(r"//[^\n]*").search(text, at)) if m]
        if not ends:
            break
        start, m = min(ends, key=lambda e: e[0])
        out.append(text[at:start])
        if m[0].startswith("//"):
            out.append(comment(m[0]))
            at = m.end()
        else:
            at = m.end() if m[0].startswith("ghost use") else closing(text, m.end())
            out.append(turn(text[start:at], PORTED))
    return "".join(out + [text[at:]])


def edit(text):
    lines = []
    for line in text.split("\n"):
        m = re.match(r"(old|new): (.*)", line)
        if m and where.endswith(".antt"):
            line = m[1] + ": " + today(m[2])
        elif line.startswith("file: "):
            where = line[6:].strip()
        elif line.startswith("#"):
            line = "#" + comment(line[1:])
        lines.append(line)
    return "\n".join(lines)


def today(text):
    """A piece of an .antt file as it landed: paths, operators, projections and names."""
    text = re.sub(r"Rattle·(\w+)·(specs|proofs)\.\2\b", r"Rattle.\1.\2", text)
    text = re.sub(r"(?<=[\w)′']) \.(?=[a-z0-9])", ".", text)
    text = re.sub(r"\((\w+(?:\.\w+)+)\)", r"\1", text)
    return turn(turn(text, LANDED), STD)


def page(text):
    return SPAN.sub(lambda m: turn(m[0], LANDED), text)


def each(patterns, how):
    for pattern in patterns:
        for path in sorted(glob.glob(pattern, recursive=True)):
            with open(path, encoding="utf-8") as f:
                old = f.read()
            new = how(old)
            if new != old:
                with open(path, "w", encoding="utf-8") as f:
                    f.write(new)


if __name__ == "__main__":
    each(["crates/*/specs/**/*.antt", "crates/*/proofs/**/*.antt"], antt)
    each(["crates/*/src/**/*.rt"], rust)
    each(["crates/*/must-fail/*.edit"], edit)
    each(["README.md", "docs/*.md", "crates/*/README.md"], page)
