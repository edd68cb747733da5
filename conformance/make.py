#!/usr/bin/env python3
"""Makes the files of this folder from the public cases, host/tests/vectors.txt and crates/cases/stdout: books, trees, questions and answers.

    conformance/make.py            write the files
    conformance/make.py --check    status 1 if one of them is not current
"""

import os
import shutil
import sys

HERE = os.path.dirname(os.path.abspath(__file__))
SOURCES = [("cases", "../crates/cases/stdout"), ("model", "../host/tests/vectors.txt")]
MADE = ["books", "good", "refused", "build.txt", "check.txt", "answers.txt", "answers-refused.txt"]
HEADS = {
    "build.txt": "# BOOK leaf arity levels COUNTED => TREE, byte for byte; or the number of the refusal. COUNTED is hexadecimal, - for none.",
    "check.txt": "# The check's result for each tree: 0 if it is accepted, else the refusal, 5 to 9.",
    "answers.txt": "# Questions on accepted trees. README.md describes the lines.",
    "answers-refused.txt": "# Questions on trees that the check refuses, if the format specifies the answer.",
}
# Books and trees longer than this are left out: the bounds are in docs/FORMAT.md.
LONGEST = 70_000


def from_hex(word):
    return b"" if word == "-" else bytes.fromhex(word)


class Files:
    """The files to write: the bytes of each path."""

    def __init__(self):
        self.bytes = {}
        self.lines = {name: [] for name in HEADS}

    def enter(self, folder, name, data):
        """The path of a file with these bytes; equal bytes have one file."""
        for path, other in self.bytes.items():
            if other == data and path.startswith(folder + "/"):
                return path
        path = "%s/%s" % (folder, name)
        self.bytes[path] = data
        return path

    def line(self, name, words, answer):
        line = "%s => %s" % (" ".join(words), answer)
        if line not in self.lines[name]:
            self.lines[name].append(line)

    def all(self):
        made = dict(self.bytes)
        for name, lines in self.lines.items():
            made[name] = "\n".join([HEADS[name]] + lines + [""]).encode()
        return made


def cases(path):
    """The lines of a file of cases, each as its words and the words of its answer."""
    for line in open(os.path.join(HERE, path), encoding="ascii"):
        if line.startswith("#") or " => wrong" in line or not line.strip():
            continue
        question, _, answer = line.rstrip("\n").partition(" => ")
        yield question.split(" "), answer.split(" ")


def read(path):
    """The texts and trees, the check's numbers by their place among them, and the questions; a name is replaced by its place, since names are used again."""
    data, checks, asked, place = [], {}, [], {}
    for words, answer in cases(path):
        if words[0] in ("text", "tree", "repeat", "pad"):
            if words[0] == "pad":
                made = data[place[words[2]]].ljust(int(words[3]), b"\0")
            else:
                made = from_hex(words[2]) * (int(words[3]) if words[0] == "repeat" else 1)
            place[words[1]] = len(data)
            data.append(made)
        elif words[0] == "check":
            checks[place[words[1]]] = (words[1], int(answer[0]))
        elif words[0] in place_words:
            many = place_words[words[0]]
            asked.append((words[0], words[1 : 1 + many], [place[word] for word in words[1 : 1 + many]], words[1 + many :], answer))
    return data, checks, asked


# how many words of a question are names
place_words = dict.fromkeys("build list byte run count find span row column digest places match prefix guide guidecheck guided without_edges".split(), 1)
place_words["order"] = 2


def build(files, source, name, text, words, answer):
    """A line of build.txt, unless the case is about the buffer or its book is long."""
    leaf, arity, levels, counted, _ = words
    if answer[0] == "4" or len(text) > LONGEST:
        return
    book = files.enter("books", "%s-%s.txt" % (source, name), text)
    result = answer[0]
    if result == "0":
        tree = from_hex(answer[2])[: int(answer[1])]
        result = files.enter("good", "%s-%s-%s-%s-%s-%s.tree" % (source, name, leaf, arity, levels, counted.strip("-") or "none"), tree)
    files.line("build.txt", [book, leaf, arity, levels, counted], result)


def shortened(kind, words, answer):
    """A question's words and its answer without the buffer; None if the case is about the buffer, the table or an unspecified result."""
    number = answer[0]
    if number == "free" or number in ("13", "17", "25"):
        return None
    if kind in ("span", "row", "column"):
        length = {"span": lambda: int(words[1]), "row": lambda: int(answer[1]), "column": lambda: int(words[0])}[kind]()
        answered = answer[2][: 2 * length] or "-" if number == "0" else "-"
        return words[:-1], " ".join([number, answer[1], answered] if kind == "span" else [number, answered])
    if kind == "digest":
        return [], " ".join([number, answer[1][:64] if number == "0" else "-"])
    if kind == "without_edges":
        return words[:-1], " ".join([number, answer[2][: 2 * int(answer[1])] if number == "0" else "-"])
    if kind in ("places", "guide"):
        count = int(answer[1])
        return words[:-1], " ".join([number, ",".join(answer[2].split(",")[:count]) if count else "-"])
    return words, " ".join(answer)


def guides_of(asked):
    """The words of each tree's guide, by the tree's place, if a case has them."""
    return {places[0]: shortened(kind, words, answer)[1].split(" ")[1] for kind, _, places, words, answer in asked if kind == "guide" and answer[0] == "0"}


def with_guide(guides, place, words, answer):
    """A prefix question's words with a guide: the tree's own, or none if the question is refused before the guide is read. None if no guide is known."""
    guide = guides.get(place) if answer.startswith("0 ") else "-"
    return guide and [guide] + words


def enter_trees(files, source, data, checks):
    """Writes the trees that have a check's result; the path of each by its place."""
    paths = {}
    for place, (name, number) in checks.items():
        if len(data[place]) <= LONGEST:
            label = "%d-%s-%s-%d.tree" % (number, source, name, place) if number else "%s-%s-%d.tree" % (source, name, place)
            paths[place] = files.enter("refused" if number else "good", label, data[place])
            files.line("check.txt", ["check", paths[place]], str(number))
    return paths


def made():
    """All files."""
    files = Files()
    for source, path in SOURCES:
        data, checks, asked = read(path)
        paths = enter_trees(files, source, data, checks)
        guides = guides_of(asked)
        for kind, names, places, words, answer in asked:
            if kind == "build":
                build(files, source, names[0], data[places[0]], words, answer)
                continue
            short = shortened(kind, words, answer) if all(place in paths for place in places) else None
            if short:
                trees = [paths[place] for place in places]
                if kind == "without_edges" and trees[0].startswith("good/"):
                    files.enter("good", "%s-%s-without-edges.tree" % (source, names[0]), from_hex(short[1].split(" ")[1]))
                name = "answers.txt" if all(tree.startswith("good/") for tree in trees) else "answers-refused.txt"
                files.line(name, [kind] + trees + short[0], short[1])
                guided = with_guide(guides, places[0], *short) if kind == "prefix" else None
                if guided:
                    files.line(name, ["prefix_guided"] + trees + guided, short[1])
    for path in sorted(files.bytes):
        if path.startswith("good/"):
            files.line("check.txt", ["check", path], "0")
    return files.all()


def main():
    files = made()
    if sys.argv[1:] == ["--check"]:
        there = {os.path.relpath(os.path.join(folder, name), HERE) for part in MADE for folder, _, names in os.walk(os.path.join(HERE, part)) for name in names}
        there |= {part for part in MADE if os.path.isfile(os.path.join(HERE, part))}
        other = sorted(path for path in files if path not in there or open(os.path.join(HERE, path), "rb").read() != files[path])
        other += sorted(there - set(files))
        for path in other:
            print("%s is not current; run conformance/make.py" % path)
        return 1 if other else 0
    for part in MADE:
        shutil.rmtree(os.path.join(HERE, part), ignore_errors=True)
    for path, data in files.items():
        os.makedirs(os.path.dirname(os.path.join(HERE, path)), exist_ok=True)
        with open(os.path.join(HERE, path), "wb") as file:
            file.write(data)
    counts = [sum(path.startswith(part) for path in files) for part in ("books/", "good/", "refused/")]
    print("%d books, %d good trees, %d refused trees" % tuple(counts))
    return 0


if __name__ == "__main__":
    sys.exit(main())
