"""A reader for conformance/run.py over the module: reads questions, one to a line, and prints their answers, one to a line.

    conformance/run.py --ask 'python3 ../python/answer.py' --refused
"""

import sys

from blocktree import MAX_TEXT, RefusedError, Tree, _call


def from_hex(word):
    return b"" if word == "-" else bytes.fromhex(word)


def listed(numbers):
    return ",".join(map(str, numbers)) or "-"


def entries(word):
    """A guide's words as bytes."""
    return b"" if word == "-" else b"".join(int(entry).to_bytes(4, "little") for entry in word.split(","))


def depths(word):
    """LOW-HIGH,LOW-HIGH,.. or the same bytes in hexadecimal."""
    if "-" in word[1:]:
        return bytes(int(depth) for pair in word.split(",") for depth in pair.split("-"))
    return from_hex(word)


def copied(read):
    """0 and the bytes; or the refusal's number and no bytes."""
    try:
        return 0, read().hex() or "-"
    except RefusedError as refused:
        return refused.number, "-"


def span(tree, place, length):
    # a span past the end of the text is refused, whatever the buffer
    room = bytearray(length if place + length <= MAX_TEXT else 0)
    number, entered = _call("bt_span", tree.bytes, place, length, room)
    return number, entered, room.hex() if room and not number else "-"


def match(tree, data, mark):
    number, after, row = _call("bt_next_match", tree.bytes, data, mark)
    return number, row, after


def prefix(tree, data, mark):
    number, after, row = _call("bt_next_with_prefix", tree.bytes, data, mark)
    return number, row, after


def prefix_guided(tree, guide, data, mark):
    number, after, row = _call("bt_next_with_prefix_guided", tree.bytes, guide, data, mark)
    return number, row, after


def order(one, other):
    number, where, shared, first = _call("bt_compare", one.bytes, other.bytes)
    return number, ["-", "before", "same", "after"][where], shared, first


def levels(tree):
    try:
        lines = tree.list()
    except RefusedError as refused:
        lines = "refused %d\n" % refused.number
    return (lines.replace("\n", "/"),)


def tables(read):
    try:
        return 0, listed(read())
    except RefusedError as refused:
        return refused.number, "-"


def guide(tree):
    made = tree.make_guide()
    return [int.from_bytes(made[at : at + 4], "little") for at in range(0, len(made), 4)]


ASKED = {
    "check": lambda tree: _call("bt_check", tree.bytes),
    "list": levels,
    "byte": lambda tree, p: _call("bt_byte", tree.bytes, int(p)),
    "run": lambda tree, p: _call("bt_run_range", tree.bytes, int(p)),
    "count": lambda tree, c, i: _call("bt_count", tree.bytes, int(c), int(i)),
    "find": lambda tree, c, j: _call("bt_find", tree.bytes, int(c), int(j)),
    "span": lambda tree, p, length: span(tree, int(p), int(length)),
    "row": lambda tree, q: copied(lambda: tree.row(int(q))),
    "column": lambda tree, width, a: copied(lambda: tree.row_by_columns(int(width), int(a))),
    "places": lambda tree, pattern: tables(lambda: tree.places(from_hex(pattern))),
    "match": lambda tree, ranges, mark: match(tree, depths(ranges), int(mark)),
    "prefix": lambda tree, word, mark: prefix(tree, from_hex(word), int(mark)),
    "prefix_guided": lambda tree, words, word, mark: prefix_guided(tree, entries(words), from_hex(word), int(mark)),
    "digest": lambda tree: copied(tree.digest),
    "guide": lambda tree: tables(lambda: guide(tree)),
    "guidecheck": lambda tree, words: _call("bt_check_guide", tree.bytes, entries(words)),
    "guided": lambda tree, words, c, j: _call("bt_find_guided", tree.bytes, entries(words), int(c), int(j)),
    "order": lambda tree, other: order(tree, opened(other)),
    "without_edges": lambda tree: copied(tree.without_edges),
}


def opened(path):
    return Tree(open(path, "rb").read(), checked=False)


if __name__ == "__main__":
    for line in sys.stdin:
        kind, path, *words = line.split()
        print(*ASKED[kind](opened(path), *words))
