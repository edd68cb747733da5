#!/usr/bin/env python3
"""Prints which rules for names (CONTRIBUTING.md, *Names*) the crates do not keep; status 1 if any.

    docs/check_names.py

1. A top-level name of specs/ or proofs/ is defined in one crate only, but for what the prover asks for in Proof.antt and the names of COMMON.
2. No public definition of specs/, and no field of a record there, has a name that contracts or definitions import from the library.
3. No name of a crate, module, type, function, definition or law has a word of GIVEN_UP.
Needs python3 and nothing else."""

import re
import sys
from pathlib import Path

ROOT = Path(__file__).resolve().parents[1]
CRATES = ROOT / "crates"
# names that several crates define: a crate's public calls, and what is proved of all of them; the contract of find and of row as a relation
COMMON = {"calls", "every-call-ends", "no-preconditions", "Find", "Row"}
# a word that names must not have, and the word to use
GIVEN_UP = {
    "Says": "Answer", "Said": "Answer or Reply", "says": "answers", "said": "answer", "saying": "answer", "told": "answered", "Told": "what holds", "Leaves": "Buffer (leaf bytes: LeafBytes)",
    "verdict": "check_result", "Verdict": "CheckResult", "readable": "header", "Enough": "SizeBound", "stretches": "byte_slices", "Demands": "Theorems", "trusts": "no-preconditions",
    "twin": "equal item", "twins": "equal items", "Spot": "BlockPosition", "spot": "position", "Trail": "WalkState", "trail": "state", "worn": "key match",
    "Worn": "KeyMatch", "shelf": "sort", "Stretch": "BlockSpan or substring", "Stretches": "substrings",
    "stretch": "substring", "Standing": "ordering", "standing": "ordering", "Growth": "WritesOnlyTree", "grown": "only-tree", "Noted": "lengths", "noted": "lengths",
    "entrants": "items entered", "took": "processed", "touched": "compared", "untold": "unread", "Say": "Answer", "Gift": "InputKind", "gift": "input",
    "Glide": "ReadMatching", "Glides": "ReadsMatching", "glide": "read_matching", "hop": "pointer", "Prints": "Fingerprints", "Leafing": "LeafBytesUpTo",
    "leafing": "leaf bytes", "Roomy": "what holds",
}
DEFINITION = re.compile(r"^([ ]*)((?:abbrev |unfoldable |pub |opaque )*)(?:(?:record|data) )?([^\s(){}:,.;]+)(?=[\s(:{])(?:[^\n=]*?)(?<![\w-])(?::|where)", re.M)
LIBRARY = re.compile(r"^(?:ghost )?(?:pub )?use (?:(?!Rattle\.)|Rattle\.std\.)[\w.-]+\.\{([^}]*)\}", re.M)
ITEM = re.compile(r"\b(?:fn|struct|enum|const|mod) (\w+)")


def code(path):
    """The text of a file without its comments."""
    return re.sub(r"^\s*(?:--|//).*$|\s(?:--|//)\s.*$", "", path.read_text(), flags=re.M)


def files(*patterns):
    return [path for pattern in patterns for path in sorted(CRATES.glob(pattern))]


def definitions(path):
    """Each definition and field of a file: its name, whether it is at the top level, whether it is public."""
    keywords = {"use", "module", "where", "unfolding", "let", "in", "mod", "infixr", "infixl", "infix"}
    return [(name, not indent, "pub" in marks) for indent, marks, name in DEFINITION.findall(code(path)) if name not in keywords and not name.startswith(("_ ", "--"))]


def twice():
    found = {}
    for path in files("*/specs/*.antt", "*/proofs/*.antt"):
        for name, top, _ in definitions(path):
            if top:
                found.setdefault(name, set()).add(path.relative_to(CRATES).parts[0])
    for name, crates in sorted(found.items()):
        if len(crates) > 1 and name not in COMMON:
            yield f"{name} is defined in {', '.join(sorted(crates))}"


def of_the_library():
    known = {name.strip().split(" as ")[0] for path in files("*/specs/*.antt", "*/src/*.rt") for names in LIBRARY.findall(path.read_text()) for name in names.split(",")}
    for path in files("*/specs/*.antt"):
        for name, _, public in definitions(path):
            if public and name in known:
                yield f"{path.relative_to(ROOT)}: {name} is a name of the library"


def named(path):
    """The names that a file gives: its own, and those of its items or of its definitions and fields."""
    if path.suffix == ".rt":
        return {path.stem, *ITEM.findall(code(path))}
    return {path.stem, *(name for name, top, public in (definitions(path) if path.is_file() else ()) if top or public)}


def given_up():
    for path in files("*", "*/specs/*.antt", "*/proofs/*.antt", "*/src/*.rt"):
        for name in sorted(named(path)):
            for word in re.findall(r"[A-Z]?[a-z0-9]+", name):
                if word in GIVEN_UP:
                    yield f"{path.relative_to(ROOT)}: {name}: not {word} but {GIVEN_UP[word]}"


def main():
    broken = [*twice(), *of_the_library(), *given_up()]
    print("\n".join(broken), end="\n" if broken else "")
    sys.exit(1 if broken else 0)


if __name__ == "__main__":
    main()
