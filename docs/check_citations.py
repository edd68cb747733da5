#!/usr/bin/env python3
"""Prints what is cited and does not exist; status 1 if anything is.

    docs/check_citations.py

Comments in crates and documents cite docs/FORMAT.md by heading, and comments cite a name by its crate (`NAME` of crate `CRATE`). Comments and documents name files;
documents name must-fail edits and items of crates, cite other documents by heading (`docs/NAME.md`, *Heading*) and link to files. The pages of the audit name definitions,
theorems and functions. Each must exist. Sentences are not compared: a comment says things in its own words.
Needs python3 and nothing else."""

import re
from pathlib import Path

ROOT = Path(__file__).resolve().parents[1]
CRATES = ROOT / "crates"
PAGES = ["README.md", "CHANGELOG.md", "CONTRIBUTING.md", *(f"docs/{path.name}" for path in sorted((ROOT / "docs").glob("*.md")))]
AUDIT = ["docs/PROOFS.md", "docs/THEOREMS.md", "docs/CALLS.md", "docs/LINES.md", "docs/MUST_FAIL.md"]


def sources():
    """The files of code, definitions and proofs, without what rt makes."""
    return sorted(path for kind in ("antt", "rt") for path in CRATES.glob(f"**/*.{kind}") if "out" not in path.parts)


def comments(text):
    """The comment lines of a file as one text."""
    return " ".join(re.findall(r"^\s*(?:--|//)\s?(.*)", text, re.M))


def headings_missing(text, headings):
    """The headings of docs/FORMAT.md that a text cites and that the page does not have."""
    for cited in re.findall(r'FORMAT\.md\)?[,:] ("[^"]*"(?:, "[^"]*")*)', text):
        yield from (heading for heading in re.findall(r'"([^"]*)"', cited) if heading not in headings)


def files_missing(text):
    """The files of crates/ and docs/ that a text names and that are not there."""
    for path in re.findall(r"\b(?:crates|docs)/[\w/.*+-]+", text):
        path = path.rstrip("./")
        if "NAME" not in path and not (ROOT / path).exists() and not list(ROOT.glob(path)):
            yield path


def links_missing(name, text):
    """The files that a document links to, and the headings of documents that it cites in italics, that do not exist."""
    for path in re.findall(r"\]\(([^)#:]+)[)#]", text):
        if not (ROOT / name).parent.joinpath(path).exists():
            yield f"there is no {path}"
    for page, heading in re.findall(r"(docs/[A-Z]+\.md)`?, \*([^*]+)\*", re.sub(r"\s+", " ", text)):
        if (ROOT / page).exists() and not re.search(rf"^#+ {re.escape(heading)}\s*$", (ROOT / page).read_text(), re.M):
            yield f"{page} has no heading {heading!r}"


def names_missing():
    """The definitions, theorems, functions, modules and crates that the pages of the audit name and that no crate has."""
    known = set()
    for path in sources():
        known.add(path.stem)
        known.update(path.relative_to(CRATES).parts)
        known.update(re.findall(r"[^\s(){};,.:⌜⌝|&<>*]+", re.sub(r"^\s*(//|--).*$", "", path.read_text(), flags=re.M)))
    for name in AUDIT:
        for word in re.findall(r"`([A-Za-z][\w'-]*)`", (ROOT / name).read_text()):
            if word not in known:
                yield f"{name}: no crate has {word}"


def from_comments(headings):
    definitions = {path.name: "".join(f.read_text() for f in path.glob("*/*.antt")) for path in CRATES.iterdir() if path.is_dir()}
    for path in sources():
        name, text = path.relative_to(ROOT), comments(path.read_text())
        yield from (f"{name}: docs/FORMAT.md has no heading {heading!r}" for heading in headings_missing(text, headings))
        yield from (f"{name}: there is no {file}" for file in files_missing(text))
        for item, crate in re.findall(r"`([^`\s]+)` of crate `(\w+)`", text):
            if not re.search(rf"(?<![\w-]){re.escape(item)}(?![\w-])", definitions.get(crate, "")):
                yield f"{name}: crate {crate} has no {item}"


def from_documents(headings):
    code = {path.name: "".join(f.read_text() for f in path.glob("src/*.rt")) for path in CRATES.iterdir() if path.is_dir()}
    for name in PAGES:
        text = (ROOT / name).read_text()
        yield from (f"{name}: docs/FORMAT.md has no heading {heading!r}" for heading in headings_missing(text, headings))
        yield from (f"{name}: there is no {file}" for file in files_missing(text))
        yield from (f"{name}: {fault}" for fault in links_missing(name, text))
        for crate, label in re.findall(r"`(\w+)/([a-z0-9-]+)`", text):
            if crate in code and not (CRATES / crate / "must-fail" / f"{label}.edit").exists() and not (CRATES / crate / label).exists():
                yield f"{name}: there is no edit {crate}/{label}"
        for crate, item in re.findall(r"`(\w+)::(?:\w+::)*(\w+)", text):
            if crate in code and not re.search(rf"\b{item}\b", code[crate]):
                yield f"{name}: {crate} has no {item}"


def from_format(source, headings):
    """The page's own table of its headings, and those that it cites in italics at the start of a parenthesis."""
    table = source.split("| Subject | Headings |", 1)[1].split("\n\n", 1)[0]
    named = [heading for row in re.findall(r"^\| [^|]+ \| (.*) \|$", table, re.M) for heading in re.split(r", (?=[A-Z])", row)]
    for heading in named + re.findall(r"\(\*([^*]+)\*", re.sub(r"\s+", " ", source)):
        if heading not in headings:
            yield f"docs/FORMAT.md has no heading {heading!r}"


def main():
    source = (ROOT / "docs/FORMAT.md").read_text()
    headings = set(re.findall(r"^#+ (.*?)\s*$", source, re.M))
    missing = [*from_comments(headings), *from_documents(headings), *names_missing(), *from_format(source, headings)]
    if missing:
        raise SystemExit("\n".join(missing))


if __name__ == "__main__":
    main()
