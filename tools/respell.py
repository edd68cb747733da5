#!/usr/bin/env python3
"""Spells the definitions, laws and fields of this repository as today's Rattle does, by the table respell.tsv beside this script.

    tools/respell.py [FOLDER]      # default: the repository of this script

A name of a function or of a value that was written in camel case is in snake case, and so is a field or a value whose words were joined by a dash. A law keeps
its dash, which joins its parts. Run once, after the kit's port.py. What turns, word by word: .antt files, but for quoted text; in .rt files the
clauses, ghost items and `ghost use` lines; the lines `old:` and `new:` of must-fail edits, which are read as antt if they edit specs/ and else only where
they stand in a clause; in comments and in pages (.md) the code spans. Functions of src/, exported names, strings, inputs and outputs stay.
Needs python3 and nothing else."""

import re
import sys
from pathlib import Path

HERE = Path(__file__).resolve().parent
TABLE = dict(line.split("\t") for line in (HERE / "respell.tsv").read_text().splitlines())
WORD = re.compile(r"[^\s(){}.;,@\"«»\[\]|`]+")
ANTT = re.compile(r'(?P<comment>(?<![^\s(){}.;,])--[^\n]*)|(?P<quoted>"[^"\n]*")|(?P<code>(?:(?!(?<![^\s(){}.;,])--)[^"])+)', re.S)
SPAN = re.compile(r"`[^`\n]+`")
CLAUSE = re.compile(r"(?:\brequires|\bensures)\s*\*?\s*(?:\w+\s*)?\{|\bghost\s+(?:\w+\s*)?(?::\s*|=\s*)?\{")
GHOST_USE = re.compile(r"\bghost\s+use\b[^;]*;")


def spelt(word):
    """A word by the table; a law's name part by part."""
    if word in TABLE:
        return TABLE[word]
    if "-" in word and re.search(r"(?:^|-)[a-z]+[A-Z]", word):
        return "-".join(TABLE.get(part, re.sub(r"(?<=[a-z0-9])[A-Z]", lambda m: "_" + m[0].lower(), part)) for part in word.split("-"))
    return word


def words(text):
    return WORD.sub(lambda m: spelt(m[0]), text)


def spans(text):
    return SPAN.sub(lambda m: words(m[0]), text)


def antt(text):
    def part(m):
        if m["comment"]:
            return spans(m[0])
        return m[0] if m["quoted"] else words(m[0])

    return ANTT.sub(part, text)


def ends(text, at):
    """Where the braces that open before a place are closed."""
    depth = 1
    while depth:
        depth += (text[at] == "{") - (text[at] == "}")
        at += 1
    return at


def rattle(text):
    found, at = [], 0
    pieces = sorted((m.start(), m.end(), m.re is CLAUSE) for how in (CLAUSE, GHOST_USE) for m in how.finditer(text))
    for start, end, clause in pieces:
        if start < at:
            continue
        found.append(comments(text[at:start]))
        end = ends(text, end) if clause else end
        found.append(words(text[start:end]))
        at = end
    return "".join(found) + comments(text[at:])


def comments(text):
    return re.sub(r"//[^\n]*", lambda m: spans(m[0]), text)


def edit(text):
    of_specs = re.search(r"^file: ?specs/", text, re.M)

    def line(m):
        clause = of_specs or re.search(r"[≡≤×→⌜]|requires|ensures|\.now|\.old|\.new", m[2])
        return m[1] + (words(m[2]) if clause else m[2])

    return re.sub(r"^((?:old|new): ?)(.*)$", line, text, flags=re.M)


def page(text):
    """The code spans of a page, and its blocks that are no commands."""
    parts = re.split(r"(^```.*?^```)", text, flags=re.M | re.S)
    return "".join(words(part) if part.startswith(("```antt", "```text\n--")) else part if part.startswith("```") else spans(part) for part in parts)


def main():
    root = Path(sys.argv[1]) if sys.argv[1:] else HERE.parent
    kinds = [("crates/*/specs/**/*.antt", antt), ("crates/*/proofs/**/*.antt", antt), ("crates/*/src/**/*.rt", rattle), ("crates/*/must-fail/*.edit", edit)]
    kinds += [("*.md", page), ("docs/*.md", page)]
    for pattern, turn in kinds:
        for path in sorted(root.glob(pattern)):
            old = path.read_text()
            new = turn(old)
            if new != old:
                path.write_text(new)


if __name__ == "__main__":
    main()
