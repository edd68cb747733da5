#!/usr/bin/env python3
"""Runs the cases of this folder with a builder, a check or a reader; README.md describes how.

    conformance/run.py --build 'mybuild {book} {leaf} {arity} {levels} {counted} {tree}'
    conformance/run.py --check 'mycheck {tree}'
    conformance/run.py --ask 'myreader' [--refused]

The status is 0 where no case was wrong, 1 where one was, 2 where a command cannot be run.
"""

import argparse
import os
import re
import shlex
import subprocess
import sys
import tempfile

HERE = os.path.dirname(os.path.abspath(__file__))


def lines(name):
    """The questions of a file with their answers."""
    for line in open(os.path.join(HERE, name), encoding="ascii"):
        if not line.startswith("#"):
            yield line.rstrip("\n").split(" => ")


def stop(words):
    """A command cannot be run."""
    print("run.py: " + words, file=sys.stderr)
    sys.exit(2)


def split(command):
    """The words of a command."""
    try:
        return shlex.split(command) or stop("a command is empty")
    except ValueError as error:
        return stop("'%s' is not a command: %s" % (command, error))


def filled(command, values):
    """The words of a command with its placeholders filled in."""
    try:
        return [word.format(**values) for word in split(command)]
    except (KeyError, IndexError, ValueError):
        return stop("'%s' has a brace that begins none of the placeholders %s" % (command, " ".join("{%s}" % name for name in values)))


def start(words, **options):
    """Run a command in this folder."""
    try:
        return subprocess.run(words, cwd=HERE, stdout=subprocess.PIPE, **options)
    except OSError as error:
        return stop("the command '%s' cannot be run: %s; commands are run in %s" % (words[0], error.strerror, HERE))


class Done:
    """A command that was run: its status, its standard error, and the number that it refused with, if it printed one."""

    def __init__(self, command, **values):
        done = start(filled(command, values), stdin=subprocess.DEVNULL, stderr=subprocess.PIPE)
        self.status = done.returncode
        self.errors = done.stderr.decode(errors="replace")
        told = re.search(r"\brefused \(?(\d+)", self.errors + done.stdout.decode(errors="replace"))
        self.refused = told[1] if told and self.status else None

    def words(self):
        """How the command ended, for a report."""
        return "status %d" % self.status if self.refused is None else "refused %s" % self.refused


def run_build(words):
    """A tree must be that of the case, byte for byte; a refusal has the number of the case, in the words `refused N` or as its status."""
    with tempfile.TemporaryDirectory() as folder:
        for number, (question, answer) in enumerate(lines("build.txt")):
            book, leaf, arity, levels, counted = question.split(" ")
            listed = "none" if counted == "-" else ",".join(str(byte) for byte in bytes.fromhex(counted))
            tree = os.path.join(folder, "%d.tree" % number)
            hexed = "none" if counted == "-" else ",".join("0x%02x" % byte for byte in bytes.fromhex(counted))
            done = Done(words, book=book, leaf=leaf, arity=arity, levels=levels, counted=listed, counted_hex=hexed, tree=tree)
            if not answer.startswith("good/"):
                right = (done.refused or str(done.status)) == answer
                yield question, answer, answer if right else "built" if done.status == 0 else done.words(), done.errors
                continue
            wrong = done.words() if done.status else compared(tree, os.path.join(HERE, answer))
            yield question, answer, wrong or answer, done.errors


def compared(tree, good):
    """How a written tree differs from the one of the case; None if it does not."""
    if not os.path.exists(tree):
        return "no tree"
    made, due = open(tree, "rb").read(), open(good, "rb").read()
    if made == due:
        return None
    at = next((at for at, pair in enumerate(zip(made, due)) if pair[0] != pair[1]), min(len(made), len(due)))
    return "another tree: %d bytes, not %d; byte %d differs first" % (len(made), len(due), at)


def run_check(words):
    """The status is 0 for the accepted trees only; a number printed as `refused N` must be that of the case."""
    for question, answer in lines("check.txt"):
        done = Done(words, tree=question.split(" ")[1])
        right = (done.status == 0) == (answer == "0") and done.refused in (None, answer)
        yield question, answer, answer if right else done.words(), done.errors


def run_ask(words, refused):
    """The reader reads the questions, one to a line, and prints the answers, one to a line."""
    files = ["check.txt", "answers.txt"] + (["answers-refused.txt"] if refused else [])
    asked = [pair for name in files for pair in lines(name)]
    questions = "".join(question + "\n" for question, _ in asked)
    done = start(split(words), input=questions, text=True)
    answers = done.stdout.split("\n")[:-1]
    for at, (question, answer) in enumerate(asked):
        yield question, answer, answers[at] if at < len(answers) else "nothing", ""


def main():
    parser = argparse.ArgumentParser(description=__doc__, formatter_class=argparse.RawDescriptionHelpFormatter)
    for option in ("--build", "--check", "--ask"):
        parser.add_argument(option, metavar="COMMAND")
    parser.add_argument("--refused", action="store_true", help="also run the questions on trees that the check refuses")
    parser.add_argument("--all", action="store_true", help="show every wrong case, not only the first 20")
    given = parser.parse_args()
    runs = [(given.build, run_build), (given.check, run_check), (given.ask, lambda words: run_ask(words, given.refused))]
    if not any(words for words, _ in runs):
        parser.error("give --build, --check or --ask")
    results = [result for words, run in runs if words for result in run(words)]
    wrong = [result for result in results if result[1] != result[2]]
    shown = wrong if given.all else wrong[:20]
    for question, answer, got, errors in shown:
        print("%s => %s, not %s" % (question, answer, got))
        for line in errors.splitlines()[:5]:
            print("    " + line)
    if len(shown) < len(wrong):
        print("%d more are not shown; --all shows them" % (len(wrong) - len(shown)))
    print("%d cases, %d wrong" % (len(results), len(wrong)))
    return 1 if wrong else 0


if __name__ == "__main__":
    sys.exit(main())
