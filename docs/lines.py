#!/usr/bin/env python3
"""Makes the tables that the audit (docs/PROOFS.md) refers to, from the sources:

    docs/LINES.md        the files that must be believed, and the lines of each crate
    docs/CALLS.md        each call with its contract's file and the definitions that the contract names
    docs/MUST_FAIL.md    each must-fail edit with its comment

    docs/lines.py            # write the tables between their marks
    docs/lines.py --check    # status 1 if one of them is not current

What must be believed is found, not listed: the definitions that the contract of an outside call names, and those that they name in turn. An outside call is a public function of a facade
(FACADES), its own or handed on. A contract is a `requires` or `ensures` and what it goes on with, and the `ghost use` lines that it needs. Empty lines and comments are not counted.
In .antt files the lines that import (`use`, `pub use`) are counted apart from all others. Needs python3 and nothing else."""

import re
import sys
from pathlib import Path

ROOT = Path(__file__).resolve().parents[1]
CRATES = ROOT / "crates"
# crates with outside calls; for some crates only the calls named here: their other public functions are for crates above them
FACADES = {"tree": (), "query": (), "columns": ("to_columns", "from_columns"), "term": (), "sha256": ("digest_text",), "search": (), "list_lines": (), "abi": ()}
# files of computed examples: no proof depends on them, but they help to read a definition
EXAMPLES = re.compile(r"(Worked\w*|\w+Examples)\.antt$")


# ---- what must be believed

def contracts(path):
    """The text of each public function's `ensures`, by name."""
    found, name = {}, None
    for line in path.read_text().splitlines():
        head = re.match(r"\s*(pub )?fn (\w+)", line)
        if head:
            name = head[2] if head[1] else None
        if line.strip() == "{":
            name = None
        if name:
            found[name] = found.get(name, "") + line.split("//")[0] + "\n"
    return {name: text[text.find("ensures"):] if "ensures" in text else "" for name, text in found.items()}


def imports(path):
    """The modules of specs/ that each name imported by a file comes from."""
    found = {}
    for crate, rest in re.findall(r"^(?:ghost )?(?:pub )?use Rattle\.(?!std\.)(\w+)\.specs\.(.*?);?$", path.read_text(), re.M):
        if ".{" in rest:
            module, names = rest.split(".{")
            names = [name.strip().split(" as ")[-1] for name in names.rstrip("}").split(",")]
        else:
            module, _, alias = rest.partition(" as ")
            names = [alias or module.split(".")[-1]]
        if not module.startswith("declared"):
            for name in names:
                found.setdefault(name, set()).add(CRATES / crate / "specs" / f"{module}.antt")
    return found


def outside():
    """The file and the name of each outside call."""
    for facade, only in FACADES.items():
        for path in sorted((CRATES / facade / "src").glob("*.rt" if facade == "abi" else "lib.rt")):
            for name in contracts(path):
                if not only or name in only:
                    yield path, name
            for words, group, one in re.findall(r"^pub use ([\w:]+)::(?:\{([^}]*)\}|(\w+));", path.read_text(), re.M):
                crate, *inner = words.split("::")
                for name in [one] if one else re.findall(r"\w+", group):
                    if name[0].islower():
                        yield CRATES / crate / "src" / f"{inner[0] if inner else 'lib'}.rt", name


def named(path, name):
    """Each definition that a call's contract names, with its file."""
    known, found = imports(path), []
    for word in re.findall(r"[^\s(){};,.]+", contracts(path)[name]):
        found += [(word, module) for module in sorted(known.get(word, ())) if (word, module) not in found]
    return found


def believed():
    """The files, each after those that it depends on."""
    order = []

    def add(path):
        if path not in order:
            for below in sorted(set().union(*imports(path).values(), set())):
                if below != path:
                    add(below)
            order.append(path)

    for path, name in outside():
        for _, module in named(path, name):
            add(module)
    return order


def says(path):
    """A file's first comment, to its first full stop; a long sentence to its first colon."""
    words = []
    for line in path.read_text().splitlines():
        if not line.startswith("--"):
            break
        words.append(line[2:].strip())
    sentence = re.split(r"\.(?: |$)", " ".join(words))[0].replace("|", "\\|")
    return (sentence if len(sentence) < 120 else sentence.split(": ")[0]).rstrip(":")


def cited(path):
    """The headings of docs/FORMAT.md that the comments at a file's top cite."""
    top = []
    for line in path.read_text().splitlines():
        if not line.startswith("--"):
            break
        top.append(line)
    return [heading for place in re.findall(r'docs/FORMAT\.md[,:]((?:,? "[^"]+")+)', " ".join(top)) for heading in re.findall(r'"([^"]+)"', place)]


def believed_table():
    rank = {heading: at for at, heading in enumerate(re.findall(r"^#+ (.*)$", (ROOT / "docs/FORMAT.md").read_text(), re.M))}
    files = believed()
    files.sort(key=lambda path: min((rank[heading] for heading in cited(path) if heading in rank), default=0))
    rows, sums = [], [0, 0]
    for at, path in enumerate(files, 1):
        sizes = stated(path)
        sums = [a + b for a, b in zip(sums, sizes)]
        rows.append(f"| {at} | `{path.relative_to(ROOT).as_posix()}` | {sizes[0]} | {sizes[1]} | {says(path)} |")
    head = ["| | File | Definitions | Imports | What it says |", "|---:|---|---:|---:|---|"]
    return "\n".join([*head, *rows, f"| | all | {sums[0]:,} | {sums[1]:,} | |"])


# ---- lines by crate

def counted(path, comment):
    return [line for line in path.read_text().splitlines() if line.strip() and not line.strip().startswith(comment)]


def stated(path):
    """Lines of an .antt file that define or prove, and lines that import."""
    lines = counted(path, "--")
    imported = sum(line.startswith(("use ", "pub use ")) for line in lines)
    return len(lines) - imported, imported


def source(folder):
    """Lines of code, and of contracts."""
    code = promised = 0
    for path in sorted(folder.glob("**/*.rt")):
        inside = False
        for line in counted(path, "//"):
            words = line.strip()
            if words.startswith(("requires ", "ensures ", "ghost use ")):
                inside = True
            contract = inside
            if inside and (words.endswith("}") or words.startswith("ghost use ")):
                inside = False
            promised, code = promised + contract, code + (not contract)
    return code, promised


def crates_table():
    read = set(believed())
    rows, sums = [], [0, 0, 0, 0, 0, 0]
    for crate in sorted(path for path in CRATES.iterdir() if path.is_dir()):
        code, promised = source(crate / "src")
        trusted = examples = laws = imported = 0
        for path in (path for path in crate.glob("**/*.antt") if "out" not in path.parts):
            size, used = stated(path)
            imported += used
            if path in read:
                trusted += size
            elif EXAMPLES.search(path.name):
                examples += size
            else:
                laws += size
        row = [code, promised, trusted, examples, laws, imported]
        sums = [a + b for a, b in zip(sums, row)]
        rows.append(f"| `{crate.name}` | " + " | ".join(f"{n:,}" if n else "" for n in row) + " |")
    head = ["| Crate | Code | Contracts | Believed | Examples | Laws and proofs | Imports |", "|---|---:|---:|---:|---:|---:|---:|"]
    return "\n".join([*head, *rows, "| all | " + " | ".join(f"{n:,}" for n in sums) + " |"])


# ---- calls and must-fail edits

def calls_table(exported):
    """A row for each call: of the library, or of the C interface."""
    rows = []
    for path, name in outside():
        if (path.parts[-3] == "abi") == exported:
            owner = re.search(rf"impl (\w+) {{(?:(?!^}}).)*?pub fn {name}\b", path.read_text(), re.M | re.S)
            definitions = ", ".join(f"`{word}` ({module.stem})" for word, module in named(path, name))
            rows.append(f"| {f'{owner[1]}::' if owner else ''}{name} | `{path.relative_to(ROOT).as_posix()}` | {definitions} |")
    return "\n".join(["| Call | Contract | Definitions that it names, each with its file |", "|---|---|---|", *rows])


def edits_table():
    rows = []
    for path in sorted(CRATES.glob("*/must-fail/*.edit")):
        comment = path.read_text().splitlines()[0].lstrip("# ").replace("|", "\\|")
        rows.append(f"| `{path.parts[-3]}/{path.stem}` | {comment} |")
    return "\n".join(["| Edit | The wrong program |", "|---|---|", *rows])


TABLES = {
    "docs/LINES.md": {"believed": believed_table, "lines": crates_table},
    "docs/CALLS.md": {"calls": lambda: calls_table(False), "exports": lambda: calls_table(True)},
    "docs/MUST_FAIL.md": {"edits": edits_table},
}


def main():
    stale = []
    for name, tables in TABLES.items():
        page = new = (ROOT / name).read_text()
        for mark, table in tables.items():
            before, rest = new.split(f"<!-- {mark} -->")
            after = rest.split(f"<!-- end of {mark} -->")[1]
            new = f"{before}<!-- {mark} -->\n{table()}\n<!-- end of {mark} -->{after}"
        if new != page:
            stale.append(name)
            if "--check" not in sys.argv:
                (ROOT / name).write_text(new)
    if stale and "--check" in sys.argv:
        raise SystemExit(f"{', '.join(stale)}: not the tables that docs/lines.py makes; run docs/lines.py")


if __name__ == "__main__":
    main()
