#!/usr/bin/env python3
"""Prints which conventions of CONTRIBUTING.md the crates do not keep; status 1 if any.

    docs/check_conventions.py

No line over 160 characters, but for those that docs/long_lines.txt counts in older files; a module's name in one crate only; crates.txt has each crate after all that it depends on, and a crate lists those that it names and no
other, unless a comment above it says why; each function of the header is exported by abi_c, with the signature and the clauses of abi's. Needs python3 and nothing
else."""

import re
from pathlib import Path

ROOT = Path(__file__).resolve().parents[1]
CRATES = ROOT / "crates"
COMMON = {"Lib", "Theorems", "lib", "main", "Proof", "Invariants", "Answers"}


def sources(folder):
    """The files of code, definitions and proofs below a folder, without what rt makes there."""
    return sorted(path for kind in ("antt", "rt") for path in folder.glob(f"**/*.{kind}") if "out" not in path.parts)


def long_lines():
    """The lines of over 160 characters of a file that has more of them than docs/long_lines.txt allows it."""
    allowed = dict(line.rsplit(": ", 1) for line in (ROOT / "docs/long_lines.txt").read_text().splitlines())
    for path in sources(CRATES):
        name = str(path.relative_to(ROOT))
        found = [(number, len(line)) for number, line in enumerate(path.read_text().splitlines(), 1) if len(line) > 160]
        if len(found) > int(allowed.get(name, 0)):
            yield from (f"{name}:{number}: {length} characters" for number, length in found)


def names_twice():
    found = {}
    for path in sorted([*CRATES.glob("*/specs/*.antt"), *CRATES.glob("*/proofs/*.antt"), *CRATES.glob("*/src/*.rt")]):
        found.setdefault((path.stem, path.suffix), []).append(path)
    for (name, _), paths in found.items():
        if name not in COMMON and len(paths) > 1:
            yield f"{name}: {', '.join(str(path.relative_to(ROOT)) for path in paths)}"


def listed():
    """Each crate of crates.txt with what it depends on, and whether it has a comment of its own."""
    found, last = {}, ""
    for line in (ROOT / "crates.txt").read_text().splitlines():
        name, _, below = line.partition(":")
        name = name.split(" ")[0]
        if line and not line.startswith("#"):
            found[name] = (below.split(), bool(re.match("# [a-z]", last)))
        last = line
    return found


def named(crate, others):
    """The crates that a crate's files name."""
    text = ""
    for path in sources(CRATES / crate):
        text += re.sub(r"^\s*(//|--).*$", "", path.read_text(), flags=re.M)
    modules = {path.stem for path in (CRATES / crate).glob("src/*.rt")}
    code = {name for name in others - modules if re.search(rf"(?<![\w:.]){name}::|^(pub )?use {name};", text, re.M)}
    return (code | set(re.findall(r"Rattle\.([a-z_0-9]+)", text)) & others) - {crate}


def dependencies():
    found = listed()
    for at, (crate, (below, excused)) in enumerate(found.items()):
        for name in below:
            if name in found and name not in list(found)[:at]:
                yield f"crates.txt: {crate} is listed before {name}, on which it depends"
        own = {name for name in below if name in found}
        for name in sorted(own ^ named(crate, set(found))):
            if not excused:
                yield f"crates.txt: {crate} {'lists and does not name' if name in own else 'names and does not list'} {name}"


def calls(crate, head):
    """The signature and the clauses of each call of a crate, without the layout."""
    found = {}
    for path in sources(CRATES / crate / "src"):
        for name, promised in re.findall(rf"^{head}fn (bt_\w+)(.*?)^\{{$", path.read_text(), re.M | re.S):
            found[name] = "".join(promised.split()).replace(",)", ")")
    return found


def exports():
    called, exported = calls("abi", "pub "), calls("abi_c", r'#\[unsafe\(no_mangle\)\]\npub extern "C" ')
    declared = set(re.findall(r"^uint\d+_t (bt_\w+)\(", (ROOT / "include/blocktree.h").read_text(), re.M))
    for name in sorted({*called, *exported, *declared}):
        if name not in declared or called.get(name) != exported.get(name):
            yield f"{name}: its export in abi_c, its function in abi and its line in the header do not agree"


def main():
    broken = [*long_lines(), *names_twice(), *dependencies(), *exports()]
    if broken:
        raise SystemExit("\n".join(broken))


if __name__ == "__main__":
    main()
