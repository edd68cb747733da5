#!/usr/bin/env python3
"""Prints which must-fail edits show nothing; status 1 if any.

    docs/must_fail_logs.py LOG               # LOG is what `rt ci` or `rt must-fail` printed: every edit
    docs/must_fail_logs.py LOG --record      # first tries the edits again whose refusal in LOG is not the recorded one, and records theirs
    docs/must_fail_logs.py --record NAME..   # tries the edits of these crates, records their refusals and judges them
    docs/must_fail_logs.py --self-test       # only tests on samples of first errors

An edit shows something where it changes code or a definition, keeps the code's shape and is refused because a fact does not hold. rt prints only the
beginning of what was refused first. So docs/first_errors/NAME.txt records it in full, as `rt check` printed it for the edited crate; that rt has just printed
its beginning (the numbers of lines aside) shows that the record is of the edit as it is now. The recorded error is accepted only if it is one of these:

- numbers at which a goal fails, or hypotheses that are not absurd (`omega`); values at which the hypotheses hold and the goal fails (`grind`), or a goal for
  which every way was tried (`search`); two ends that are not equal after all rewrites (`rw`); what is not proved of a function, where no file answers the goal;
- two types that differ only in a term, or two terms that were compared whole, other than in the step of the code at which the term is read;
- an expected type and a found one that are the same relation of other terms, or `<` expected where `≤` is given. For the contract of a
  function (`Reads.Post`, `Reads.Learnt`) the relation is the computed one, or that of its `ensures`.

Every other first error fails: that of a proof file that no longer fits the code, which would come of a right program too, a step limit, a
word that is not known here. An edit of a proof, an edit that adds or takes out a statement or a call, an edit that rt has not refused, and one without a
record fail as well. The script cannot tell a term from another way to write it: `a + b` for `b + a` passes. Needs python3, and rt for --record."""

import concurrent.futures
import os
import re
import shutil
import subprocess
import sys
import tempfile
from pathlib import Path

ROOT = Path(__file__).resolve().parents[1]
RECORDS = ROOT / "docs/first_errors"
# messages of the tactics for a goal that does not hold
REFUTED = [
    r"`omega`: the (?:goal|part `[^`]*` of the goal) does not follow from what it read\. All of that holds, and the (?:goal|part) fails",
    r"`omega`: the hypotheses are not absurd",
    r"`grind`: the goal does not follow\. The hypotheses hold, and the goal fails at",
    r"`search`: no proof of .*? was found\. Every way was tried",
    r"what it leaves must be a path whose two ends are equal, and `[^`]*`\s+is none",
    r"\Ait is not proved ",
]
# the prover gave up before it had computed a side
LIMIT = r"\d+ steps|step limit|ResourceLimit"
DIFFER = (
    r"(?:the two (?:types|sides) differ only|computed as far as they go, the two types first differ) where one has `([^`]*)`\s*\((?:expected|left)\)"
    r".*?and the other has `([^`]*)`\s*\((?:found|right)\)"
)
# two terms that were compared whole, after the `_` that stands for one of them was given its value
TERMS = r"computed as far as they go, the two sides are `([^`]*)`\s*\(left\) and `([^`]*)`\s*\(right\)"
# how an error names two types, and what it calls them
MISMATCHES = [
    (r"expected type `([^`]*)`\s*,?\s*but this has type `([^`]*)`", ("expected", "found")),
    (r"`([^`]*)`\s*≟ `([^`]*)`\s*does not hold", ("left", "right")),
]
# relations that the prover prints under other names
NAMES = {"◌≡◌": "≡", "Path": "≡", "◌<◌": "<", "◌≤◌": "≤"}
RELATIONS = {"≡", "<", "≤", "⊥"}


def first_error(log):
    """What was refused first, from its place on, with the lines that continue it: an error, or a note of what is not proved of a function. That other
    declarations were not checked is none."""
    told = r"^(?:note: )?\S+:\d+:\d+: (?:error: |it is not proved ).*?(?=^(?:note: )?\S+:\d+:\d+: |^(?:note|help): |^(?:fn|struct|enum|logic|rt:) |\Z)"
    for found in re.finditer(told, log, re.M | re.S):
        if not re.search(r"was not admitted|which was rejected", found[0].split("\n")[0]):
            return found[0].rstrip()
    return ""


def without_place(error):
    """An error without its place, and without `error:`."""
    return re.sub(r"\A(?:note: )?\S+:\d+:\d+: (?:error: )?", "", error)


def parts(printed, operator):
    """A printed proposition, cut at the operator outside all brackets."""
    depth, found = 0, [""]
    for token in re.findall(r"[(){}\[\]]|[^\s(){}\[\]]+|\s+", printed):
        depth += (token in "({[") - (token in ")}]")
        if token == operator and depth == 0:
            found.append("")
        else:
            found[-1] += token
    return found


def unwrapped(printed):
    """A printed proposition without brackets around the whole of it."""
    depth = 0
    for at, letter in enumerate(printed):
        depth += (letter in "({[") - (letter in ")}]")
        if depth == 0:
            return printed[1:-1] if printed[0] == "(" and at == len(printed) - 1 else printed
    return printed


def ending(printed):
    """The relation outside all brackets in the end of a proposition that was cut in its middle, if it is the only operator there."""
    depth, found = 0, []
    for token in reversed(re.findall(r"[(){}\[\]]|[^\s(){}\[\]]+", printed)):
        depth += (token in ")}]") - (token in "({[")
        if depth < 0:
            break
        if depth == 0 and token in "≡<≤→×⊎":
            found.append(token)
    return found[0] if len(found) == 1 and found[0] in RELATIONS else ""


def relation(printed):
    """The relation that a printed proposition is about: of several propositions, those of all. A long text is cut in its middle, and read up to there; that
    it ends in a negation, or in one side of a relation, is seen all the same."""
    if "…" in printed:
        first, *_, last = printed.split("…")
        if printed.endswith(("→ ⊥", "→ Prim.⊥")):
            return relation(first) + " → ⊥"
        return ending(last) or relation(first)
    printed = unwrapped(printed.strip())
    for operator in "→×⊎":
        if len(parts(printed, operator)) > 1:
            return f" {operator} ".join(relation(part) for part in parts(printed, operator))
    for operator in "≡<≤":
        if len(parts(printed, operator)) > 1:
            return operator
    head = (printed.split() or [""])[0]
    name = head if head.startswith("(") else head.rsplit(".", 1)[-1]
    return NAMES.get(name, name)


def known(name):
    """Whether a relation contains only relations and definitions, and no variable."""
    return all(part in RELATIONS or part[:1].isupper() and part not in ("Post", "Learnt") for part in re.split(r" [→×⊎] ", name))


def relations(error, contract):
    """The relation that was expected and the one that was found, if an error names two types; `contract` gives that of a function's `ensures`."""
    named = [(types.groups(), sides) for pattern, sides in MISMATCHES for types in [re.search(pattern, error, re.S)] if types]
    printed, sides = named[0] if named else ((), ())
    names = [relation(one) for one in printed]
    for at, side in enumerate(sides):
        if printed and names[at] in ("Post", "Learnt"):
            begins = re.search(rf"the {side} one begins `([^`]*)", error)
            computed, stated, other = relation(begins[1]) if begins else "", contract(printed[at].split()[0]), names[1 - at]
            # the relation of one of several `ensures` may be an abbreviation of the computed one
            names[at] = other if other[:1].isupper() and other in stated.split(" × ") else computed or stated
    return names


def false_fact(error, contract):
    """Whether a first error shows a fact that does not hold."""
    if re.search(LIMIT, error):
        return False
    if any(re.search(word, error, re.S) for word in REFUTED):
        return True
    names = relations(error, contract)
    if names and names[0] != names[1] and set(names) <= RELATIONS:
        return names == ["<", "≤"]
    terms = [pair for pair in re.findall(DIFFER, error, re.S) + re.findall(TERMS, error, re.S) if not any(RELATIONS & set(relation(term).split()) for term in pair)]
    if terms:
        return all(one.replace(".before", "").strip() != other.replace(".before", "").strip() for one, other in terms)
    return bool(names) and names[0] == names[1] and known(names[0])


def read(edit):
    """The files that an edit changes, as they are with it, by their path in the crate."""
    texts, path, old = {}, "", ""
    for word, text in re.findall(r"^(file|old|new): ?(.*)$", edit.read_text(), re.M):
        if word == "file":
            path = text.strip()
        elif word == "old":
            old = text
        else:
            was = texts.get(path) or (edit.parents[1] / path).read_text()
            if was.count(old) != 1:
                raise SystemExit(f"{edit.relative_to(ROOT)}: this stands {was.count(old)} times in {path}: {old}")
            texts[path] = was.replace(old, text)
    return texts


def ensures(edit, name):
    """The relation of the `ensures` of a function that the prover names, read in its crate, with the edit where that is the edit's own."""
    crate, path = re.match(r"Rattle\.(\w+)\.proofs\.(.*)\.Reads\.\w+", name).groups()
    *modules, function = path.split(".")
    inner = "src/" + ("/".join(part for part in modules if part[0].islower()) or "lib") + ".rt"
    file = ROOT / "crates" / crate / inner
    text = (read(edit) if edit and crate == edit.parts[-3] else {}).get(inner) or (file.read_text() if file.exists() else "")
    head = re.search(rf"\bfn {function}\b[(<].*?^\s*\{{$", text, re.M | re.S)
    return " × ".join(relation(clause) for clause in re.findall(r"^\s*ensures \w*\s*\{\s*(.*?)\s*\}$", head[0] if head else "", re.M | re.S))


def shape(code):
    """The statements and calls of a piece of code, in order."""
    return re.findall(r"\b(?:if|else|while|for|loop|match|return|let|break)\b|=>|[;{}]|\b[a-z_]\w*(?=\()", code)


def recorded(crate):
    """The recorded first error of each edit of a crate."""
    path = RECORDS / f"{crate}.txt"
    found = re.split(r"^== (.*)\n", path.read_text() if path.exists() else "", flags=re.M)[1:]
    return dict(zip(found[::2], (error.strip("\n") for error in found[1::2])))


def printed(log):
    """What rt printed for each edit that it refused: the beginning of what was refused first."""
    return {(crate, label): error for crate, label, error in re.findall(r"^rt: must-fail (\w+)/(\S+)\.edit: refused, as it must be(?:: )?(.*)$", log, re.M)}


def same(began, error):
    """Whether an error begins with what rt printed, the numbers of lines aside."""
    place = r":\d+:\d+:"
    began, error = (re.sub(place, ":", text.removeprefix("note: "), count=1) for text in (began, error))
    return bool(began) and error.startswith(began)


def shows_nothing(edit, error, began):
    """Why an edit shows nothing, if it does; `began` is what rt printed for it, or None if nothing was printed."""
    lines = re.findall(r"^(file|old|new): ?(.*)$", edit.read_text(), re.M)
    if any(word == "file" and not text.startswith(("src/", "specs/")) for word, text in lines):
        return "it is no edit of src/ or specs/"
    changes = [text for word, text in lines if word != "file"]
    if any(shape(old) != shape(new) for old, new in zip(changes[::2], changes[1::2])):
        return "it adds or takes out a statement or a call"
    if began is None:
        return "rt has not refused it, as far as the log says"
    if not error:
        return "its first error is not recorded: docs/must_fail_logs.py LOG --record"
    if not same(began, error):
        return f"its recorded first error is not what rt printed (docs/must_fail_logs.py LOG --record): {began}"
    if not false_fact(without_place(error), lambda name: ensures(edit, name)):
        return "its first error is none of a false fact: " + " ".join(error.split())[:300]
    return None


# ---- trying edits again

def first_errors(edits):
    """Checks each edited crate of a list, one after the other in a copy of the repository. Gives the first errors."""
    with tempfile.TemporaryDirectory(prefix="first-errors-") as room:
        shutil.copytree(ROOT / "crates", f"{room}/crates", ignore=shutil.ignore_patterns("out"))
        for name in ("crates.txt", "HANDLES"):
            if (ROOT / name).exists():
                shutil.copy(ROOT / name, room)
        for edit in edits:
            folder, texts = Path(room) / "crates" / edit.parts[-3], read(edit)
            was = {path: (folder / path).read_text() for path in texts}
            for path, text in texts.items():
                (folder / path).write_text(text)
            ran = subprocess.run(["rt", "check", "--jobs", "1"], cwd=folder, stdin=subprocess.DEVNULL, stdout=subprocess.PIPE, stderr=subprocess.STDOUT, text=True)
            for path, text in was.items():
                (folder / path).write_text(text)
            yield edit, first_error(ran.stdout) if ran.returncode == 1 else ""


def record(edits):
    """Tries edits, those of one crate on one processor, and writes what was refused first."""
    RECORDS.mkdir(exist_ok=True)
    crates = sorted({edit.parts[-3] for edit in edits}, key=lambda crate: -sum(edit.parts[-3] == crate for edit in edits))

    def of_crate(crate):
        found = recorded(crate)
        for edit, error in first_errors([edit for edit in edits if edit.parts[-3] == crate]):
            found[edit.stem] = error
            print(f"{crate}/{edit.stem}: {error.splitlines()[0][:160] if error else 'NO ERROR'}", file=sys.stderr, flush=True)
        labels = {edit.stem for edit in ROOT.glob(f"crates/{crate}/must-fail/*.edit")}
        (RECORDS / f"{crate}.txt").write_text("\n".join(f"== {label}\n{found[label]}\n" for label in sorted(found) if label in labels and found[label]))

    with concurrent.futures.ThreadPoolExecutor(max(1, (os.cpu_count() or 2) - 1)) as pool:
        for done in pool.map(of_crate, crates):
            pass


# First errors in the prover's words, shortened, that show a false fact
FACT_SAMPLES = [
    "`write`: `search`: no proof of `◌≡◌ (set c.args.t.now ..)`\n  was found. `grind`: the goal does not follow. The hypotheses hold, and the goal fails at `c.args.at` = `0`",
    "`field-requires`: `search`: no proof of `FieldIn c.args.t.now 3`\n  was found. It stopped 5 lemmas deep, with lemmas still to try. `grind` stopped at its own limit. In its own words: `omega`: the goal does not "
    "follow from what it read. All of that holds, and the goal fails, at `c.args.size` = 0",
    "`empty`: expected type `total no-bytes-tree 0 ≡ 0`, but this has type `total no-bytes-tree 0 ≡ total no-bytes-tree 0`\n"
    "  computed as far as they go, the two types are `Path ℕ 1 0` (expected) and `Path ℕ 1 1` (found)",
    "`long`: computed as far as they go, the two sides are `length c.before.args.prefix.now - 1`\n  (left) and `length c.before.args.prefix.now` (right)",
    "`mask`: as printed, the two types differ only where one has `8` (expected), right after `… c.args.t.now (c.args.at +`\n  and the other has `7` (found)",
    "it is not proved that what the function ensures holds when it returns (`returns`); the facts known there allow values at which this goal is false",
    "`of-length-spec`: `omega`: the goal does not follow from what it read. All of that holds, and the goal fails, at `(c.before.args.n)`\n  = 1, ..",
    "`byte-spec`: `search`: no proof of `Post (c.before .κs) (..)`\n  was found. Every way was tried: a deeper search would find nothing either.",
    "`refused-width`: `rw` has no last argument, so what it leaves must be a path whose two ends are equal, and `Path ℕ 20 (cond b 0 21)` is none",
    "it is not proved that the sum fits",
    "`byte-at-spec`: computed as far as they go, the two types differ only where one has `11` (expected) and the other has `10` (found)",
    "`copy-spec`: computed as far as they go, the two sides differ only where one has `0` (left) and the other has `c.before.loop.i` (right)",
    "`from-spec`: computed as far as they go, the two types first differ where one has `n / width`\n  (expected) and the other has `width` (found)",
    "`found-from`: as printed, the two types differ only where one has `text_of t` (expected), right after `q ≡ first (rows_of (`\n"
    "  and the other has `drop p (text_of t)` (found)",
    "`span-at-spec`: expected type `Rattle.a.proofs.span_at.Reads.Post (c .κs) (..)`\n  but this has type `Rattle.a.specs.IsSpanAnswer (..) (Err AnswerDoesNotFit)`",
    "`span-at-spec`: expected type `Rattle.a.proofs.span_at.Reads.Post (c .κs) (..)`\n  but this has type `Rattle.a.specs.IsSpanAnswer (..) (Err AnswerDoesNotFit)`\n"
    "  computed as far as it goes, the expected one begins `Rattle.b.specs.Answers.Allowed {A = ..} …`",
    "`stands-spec`: expected type `mathlib.Core.Path.◌≡◌ (c.same_at.result) (same_list ..)`\n"
    "  but this has type `Rattle.b.proofs.same_at.Reads.Learnt (c.lifetimes) (..)`\n  computed as far as it goes, the found one begins `Path Bool (c.same_at.result) …`",
    "`fill-spec`: expected type `Prim.Native.Nat.◌<◌ (length (?30 c)) (c.counted)`\n  but this has type `Prim.Native.Nat.◌≤◌ (get 13 (..)) (..)`",
    "`bounds-spec`: expected type `eqb (c.args.q - 1) (c.total.result) ≡ ?1 c`\n"
    "  but this has type `eqb (get 9 (T.locals) …[90 bytes]… (c.before))) ≡ mathlib.Core.Bool.true`",
    "`more`: `Rattle.a.proofs.copy_run.Reads.Learnt (r.lifetimes) …[90 bytes]… (r.last))`\n  ≟ `Rattle.a.specs.RunCopied s.args.0.now …`\n"
    "  does not hold (this comparison had to wait; it turned out false)\n  computed as far as it goes, the left one begins `Rattle.a.specs.RunCopied (g.before …`",
    "`target-spec`: expected type `c.kind ≡ 0 → Prim.⊥`, but this has type `mathlib.Core.Path.◌≡◌ (get 7 …[90 bytes]…) 1 → Prim.⊥`",
]
# First errors that a right program would get too, or that show nothing
FORM_SAMPLES = [
    "`long`: computed as far as they go, the two sides are `length c.before.args.prefix.now`\n  (left) and `length c.before.before.args.prefix.now` (right)",
    "`field-requires`: `search`: no proof of `FieldIn c.args.t.now 3`\n  was found. It stopped 5 lemmas deep, with lemmas still to try (`depth n` at the end of the call sets that bound)",
    "`field-requires`: `grind` stopped at its own limit of instances of lemmas, so the goal may hold. By the facts that it had used, the goal fails at `x` = `0`",
    "`more`: `Rattle.a.specs.RunCopied s.args.0.now …`\n  ≟ `Rattle.a.specs.SpanCopied s.args.0.now …`\n  does not hold (it had to wait)",
    "`total-spec`: record `Rattle.a.proofs.total.Lts.After-shared-slice-known` has no field `pre`",
    "`number-of-spec`: a tuple is checked against `Rattle.a.proofs.number_of.Reads.Post (c .κs) (..)`\n  which is not a `×` type",
    "`copy-spec`: the expected type is not a tuple",
    "`copy-spec`: this λ has 2 binders, but its type has room for only 1",
    "`laid-out`: what is written here computes to `x`. In plain terms: on the face `i = 1` it must be `y`",
    "`row-passed`: `rw`: no occurrence of the path's left endpoint in the goal",
    "`row-at-spec`: `copy` was not admitted (it has holes or was rejected), so this cannot be checked",
    "`Inv-loop`: this pattern needs a function (or path) type to bind, but the signature at this point is `Type 0`",
    "module `Rattle.a.proofs.f.Lts` has no `Need-2` that can be named from here",
    "`sum-spec`: `later` is not in scope",
    "`marked`: expected type `byte_answer tree 19 ≡ answered 0 68 3`, but this has type `byte_answer tree 19 ≡ byte_answer tree 19`\n"
    "  what the two types compute to is not shown, because one could not be computed (found: computing it took more than 200000 steps)",
    "`marked`: ResourceLimit: stopped at the step limit",
    "`starts-spec`: expected type `c.start.result.0 ≡ 4 → Prim.⊥`\n  but this has type `Prim.Native.Nat.◌<◌ 4 (get 10 (..))`",
    "`total-spec`: expected type `mathlib.Core.Path.◌≡◌ (c.result) 0`, but this has type `Prim.Native.Nat.◌<◌ (get 4 (..)) 1`",
    "`total-spec`: expected type `Prim.Native.Nat.◌≤◌ (c.result) 4`, but this has type `Prim.Native.Nat.◌<◌ (c.result) 4`",
    "`total-spec`: expected type `Rattle.a.proofs.total.Reads.Post (c .κs) (..)`\n  but this has type `mathlib.Core.Path.◌≡◌ {A = ℕ} 0 (total ..)`\n"
    "  computed as far as it goes, the expected one begins `Path ℕ 0 (total (c.args.t.now)) × Path …`",
    "`span-at-spec`: expected type `Rattle.a.proofs.span_at.Reads.Post (c .κs) (..)`\n  but this has type `mathlib.Core.Path.◌≡◌ (..) (..)`",
    "`span-at-spec`: expected type `Rattle.a.proofs.span_at.Reads.Post (c .κs) (..)`\n  but this has type `Rattle.a.specs.CopyAnswer (..) (Refused 13)`\n"
    "  computed as far as it goes, the expected one begins `Rattle.b.specs.Answers.Allowed {A = ..} …`",
    "`copy-spec`: computed as far as they go, the two types differ only where one has `c.before.loop.i` (expected) and the other has `c.before.before.loop.i` (found)",
    "`quotient-spec`: computed as far as they go, the two types differ only where one has `64 ≡ ?11 c` (expected) and the other has `64 ≤ c.args.b` (found)",
    "`starts-spec`: computed as far as they go, the two types differ only where one has `x ≡ 0 → Prim.⊥` (expected) and the other has `suc y ≤ x` (found)",
    "`rises-spec`: computed as far as they go, the two types differ only where one has `x` (expected) and the other has `suc x` (found)\n"
    "  expected type `x ≤ get_or s 1 0`\n  but this has type `Prim.Native.Nat.◌<◌ (get 6 (..)) (..)`",
    "`copy-spec`: expected type `c.before.x …[90 bytes]…`, but this has type `c.before.y …[90 bytes]…`",
    "`copy-spec`: expected type `c.x ≡ 0`, but this has type `f (get 7 …[90 bytes]…)) (c.x ≡ 1)`",
    "`copy-spec`: expected type `mathlib.Core.Path.◌≡◌ (c.x) 0`, but this has type `mathlib.Core.Path.◌≡◌ (get 7 …[90 bytes]…) 1 → Prim.⊥`",
]


# Logs, and what was refused first in them
LOG_SAMPLES = [
    ("rt: chose --jobs 2 for a\n./proofs/f/Answers.antt:8:6: error: `returns`: `x`\n  and `y`\n./proofs/f/Answers.antt:9:6: note: `z`\nfn a::f: not proved\n",
     "./proofs/f/Answers.antt:8:6: error: `returns`: `x`\n  and `y`"),
    ("./proofs/A.antt:1:1: error: 2 declarations that depend on `a`, which was rejected, were not checked: b, c\n"
     "note: src/lib.rt:7:1: it is not proved that the sum fits (`x`)\nnote: to see how far a `search` got, write ..\nfn a::f: no proof: expected answers in ..\n",
     "note: src/lib.rt:7:1: it is not proved that the sum fits (`x`)"),
    ("fn a::f: proved\nlogic=proved functions=1\n", ""),
]
# What rt printed, an error, and whether that is its beginning
PRINTED_SAMPLES = [
    ("./proofs/f/Answers.antt:8:6: error: `returns`: `omeg", "./proofs/f/Answers.antt:12:6: error: `returns`: `omega`: the goal", True),
    ("./proofs/f/Answers.antt:8:6: error: `returns`: `omeg", "./proofs/f/Answers.antt:8:6: error: `requires`: `omega`: the goal", False),
    ("note: src/lib.rt:7:1: it is not proved that", "note: src/lib.rt:9:1: it is not proved that the sum fits", True),
    ("", "note: src/lib.rt:9:1: it is not proved that the sum fits", False),
]


def self_test():
    """Whether the samples of a false fact are accepted, and those of a misfit are not; and what is read of a log."""
    contract = {"span_at": "IsSpanAnswer"}
    wrong = [s for s in FACT_SAMPLES if not false_fact(s, lambda name: contract.get(name.split(".")[-3], ""))]
    wrong += [s for s in FORM_SAMPLES if false_fact(s, lambda name: contract.get(name.split(".")[-3], ""))]
    wrong += [code for code in ("return f(x);", "if a { b }") if shape(code) == shape("return x;")]
    wrong += [log for log, first in LOG_SAMPLES if first_error(log) != first]
    wrong += [began for began, error, holds in PRINTED_SAMPLES if same(began, error) != holds]
    if wrong:
        raise SystemExit("\n".join(f"a sample is judged wrong: {s}" for s in wrong))


def main():
    self_test()
    words = [word for word in sys.argv[1:] if word != "--record"]
    if words == ["--self-test"]:
        return
    logs = [word for word in words if Path(word).is_file()]
    names = [word for word in words if word not in logs]
    if len(logs) > 1 or bool(logs) == bool(names) or names and "--record" not in sys.argv:
        raise SystemExit(__doc__)
    edits = sorted({edit for crate in names or ["*"] for edit in ROOT.glob(f"crates/{crate}/must-fail/*.edit")})
    key = lambda edit: (edit.parts[-3], edit.stem)
    began = printed(Path(logs[0]).read_text()) if logs else {}
    if "--record" in sys.argv:
        records = {edit.parts[-3]: recorded(edit.parts[-3]) for edit in edits}
        record([edit for edit in edits if names or key(edit) in began and not same(began[key(edit)], records[edit.parts[-3]].get(edit.stem, ""))])
    records = {edit.parts[-3]: recorded(edit.parts[-3]) for edit in edits}
    errors = {edit: records[edit.parts[-3]].get(edit.stem, "") for edit in edits}
    reasons = [(edit, shows_nothing(edit, errors[edit], began.get(key(edit)) if logs else errors[edit])) for edit in edits]
    broken = [f"{edit.parts[-3]}/{edit.stem}: {why}" for edit, why in reasons if why]
    if broken or not edits:
        raise SystemExit("\n".join(broken) or "no must-fail edit was found")
    print(f"{len(edits)} must-fail edits, each refused because a fact is false")


if __name__ == "__main__":
    main()
