"""Tests the module with the public cases, each line of host/tests/vectors.txt and crates/cases/stdout that has a call, and the module's own functions.

    python3 python/test_blocktree.py
"""

import doctest
import hashlib
import inspect
import multiprocessing
import os
import pickle
import re
import sys
import typing

HERE = os.path.dirname(os.path.abspath(__file__))
sys.path.insert(0, HERE)

import blocktree  # noqa: E402
from blocktree import _call, _words  # noqa: E402

FILES = ["../host/tests/vectors.txt", "../crates/cases/stdout"]


def from_hex(word):
    return b"" if word == "-" else bytes.fromhex(word)


def to_hex(data):
    return bytes(data).hex() or "-"


def filled(length):
    return bytearray(b"\xee" * length)


def filled_words(number):
    table = _words(number)
    table[:] = [0xEEEEEEEE] * number
    return table


def with_buffer(name, *given, room):
    """The answer, and the buffer afterwards."""
    data = filled(room)
    return (*_call(name, *given, data), to_hex(data))


def places(tree, pattern, words):
    table = filled_words(words)
    answer = _call("bt_places", tree, pattern, table)
    return (*answer, ",".join(map(str, table)) or "-")


def scan(text, m, r, h, counted, words, room):
    data = filled(room)
    return (*_call("bt_build_scanned", text, m, r, h, counted, filled_words(words), data), to_hex(data))


def ranges(word):
    """LOW-HIGH,LOW-HIGH,.. or hexadecimal."""
    if "-" in word[1:]:
        return bytes(int(depth) for pair in word.split(",") for depth in pair.split("-"))
    return from_hex(word)


def match(tree, data, mark):
    number, after, row = _call("bt_next_match", tree, data, mark)
    return number, row, after


def prefix(tree, data, mark):
    number, after, row = _call("bt_next_with_prefix", tree, data, mark)
    return number, row, after


def listed(tree):
    try:
        lines = blocktree.Tree(tree, checked=False).list()
    except blocktree.RefusedError as refused:
        lines = "refused %d\n" % refused.number
    return (lines.replace("\n", "/"),)


def guide(word):
    return b"" if word == "-" else b"".join(int(entry).to_bytes(4, "little") for entry in word.split(","))


def make_guide(tree, words):
    room = filled(4 * words)
    answer = _call("bt_make_guide", tree, room)
    return (*answer, ",".join(str(int.from_bytes(room[at : at + 4], "little")) for at in range(0, len(room), 4)) or "-")


def column(tree, width, a, room):
    number, left = with_buffer("bt_row_by_columns", tree, width, a, room=room)
    return number, 0 if number else width, left


def order(one, other):
    number, where, shared, first = _call("bt_compare", one, other)
    return number, ["-", "before", "same", "after"][where], shared, first


def renew(day):
    data = bytearray(day)
    (number,) = _call("bt_renew", data)
    return number, "-" if number and data == day else to_hex(data)


# the types of a case's words, and the call
ASKED = {
    "build": lambda named, t, m, r, h, c, room: with_buffer("bt_build", named[t], int(m), int(r), int(h), from_hex(c), room=int(room)),
    "scan": lambda named, t, m, r, h, c, words, room: scan(named[t], int(m), int(r), int(h), from_hex(c), int(words), int(room)),
    "check": lambda named, t: _call("bt_check", named[t]),
    "list": lambda named, t: listed(named[t]),
    "byte": lambda named, t, p: _call("bt_byte", named[t], int(p)),
    "run": lambda named, t, p: _call("bt_run_range", named[t], int(p)),
    "count": lambda named, t, b, i: _call("bt_count", named[t], int(b), int(i)),
    "find": lambda named, t, b, j: _call("bt_find", named[t], int(b), int(j)),
    "span": lambda named, t, p, n, room: with_buffer("bt_span", named[t], int(p), int(n), room=int(room)),
    "row": lambda named, t, q, room: with_buffer("bt_row", named[t], int(q), room=int(room)),
    "places": lambda named, t, pattern, words: places(named[t], from_hex(pattern), int(words)),
    "match": lambda named, t, word, mark: match(named[t], ranges(word), int(mark)),
    "prefix": lambda named, t, word, mark: prefix(named[t], from_hex(word), int(mark)),
    "columns": lambda named, t, width, room: with_buffer("bt_to_columns", named[t], int(width), room=int(room)),
    "rows": lambda named, t, width, room: with_buffer("bt_from_columns", named[t], int(width), room=int(room)),
    "column": lambda named, t, width, a, room: column(named[t], int(width), int(a), int(room)),
    "digest": lambda named, t, room: with_buffer("bt_digest", named[t], room=int(room)),
    "digest_text": lambda named, t, room: with_buffer("bt_digest_text", named[t], room=int(room)),
    "guide": lambda named, t, words: make_guide(named[t], int(words)),
    "guidecheck": lambda named, t, word: _call("bt_check_guide", named[t], guide(word)),
    "guided": lambda named, t, word, b, j: _call("bt_find_guided", named[t], guide(word), int(b), int(j)),
    "order": lambda named, t, other: order(named[t], named[other]),
    "without_edges": lambda named, t, room: with_buffer("bt_without_edges", named[t], room=int(room)),
    "renew": lambda named, day: renew(from_hex(day)),
    "open": lambda named, *days: _call("bt_open_on", *map(from_hex, days)),
    "left": lambda named, *days: _call("bt_days_left", *map(from_hex, days)),
}


def run_file(path):
    named, done, wrong = {}, 0, []
    for line in open(os.path.join(HERE, path), encoding="ascii"):
        question, _, answer = line.strip().partition(" => ")
        words = question.split(" ")
        # unspecified results, and lines that are wrong on purpose
        if re.match("free|wrong", answer):
            continue
        if words[0] in ("text", "tree") and len(words) == 3:
            named[words[1]] = from_hex(words[2])
        elif words[0] == "repeat":
            named[words[1]] = from_hex(words[2]) * int(words[3])
        elif words[0] == "pad":
            named[words[1]] = named[words[2]].ljust(int(words[3]), b"\0")
        elif words[0] in ASKED and answer:
            done += 1
            got = " ".join(map(str, ASKED[words[0]](named, *words[1:])))
            if got != answer:
                wrong.append("%s => %s, not %s" % (question[:200], got[:200], answer[:200]))
    assert not wrong, "\n".join(wrong[:10])
    return done


def own_functions():
    """The tree of the small book, read by the module's own functions."""
    text = open(os.path.join(HERE, "../books/small.txt"), "rb").read()
    rows = text.split(b"\n")[:-1]
    book = blocktree.Tree(blocktree.build(text, 24, 8, 3))
    assert (len(book), len(book.bytes), book.row_count(), book.text()) == (2800, 5884, 200, text)
    assert book.info() == {"layout": 2, "length": 2800, "leaf": 24, "arity": 8, "levels": 3, "leaf_bytes": 1072, "totals": {10: 200}, "blocks": [2, 15, 45]}
    assert [book.row_length(number) for number in (1, 40, 200)] == [13, 13, 13]
    assert blocktree.version() == (2, 1, 1)
    guide = book.make_guide()
    book.check_guide(guide)
    for number in range(1, 201, 7):
        assert book.row(number) == book.row(number, guide) == rows[number - 1]
        assert book.find(10, number) == book.find(10, number, guide) == 14 * number - 1
    assert book.places(b"CH0502") == [14, 574, 1134, 1694, 2254]
    assert book.places(b"4") == [place for place in range(2800) if text[place] == ord("4")]
    assert list(book.matches([(5, 5), (2, 2), (1, 1), (6, 6), (1, 2)])) == [39, 40, 79, 80, 119, 120, 159, 160, 199, 200]
    assert list(book.rows_with_prefix(b"CH0502 ")) == [(number, rows[number - 1]) for number in (2, 42, 82, 122, 162)]
    assert [number for number, _ in book.rows_with_prefix(b"CH", guide)] == [number for number in range(1, 201) if rows[number - 1].startswith(b"CH")]
    assert (book.next_with_prefix(b"CH0502 ", 42, guide), book.next_with_prefix(b"CH0502 ", 162, guide)) == (82, None)
    assert (book.next_with_prefix(b"CH0502 ", 42), book.next_with_prefix(b"CH0502 ", 162), book.next_with_prefix(bytearray(b"x"))) == (82, None, None)
    assert (book.byte(14), book.count(10, 1400), book.span(14, 6), book.run(14)[:3]) == (67, 100, b"CH0502", b"CH0")
    assert book.list() == "0 2 2 0\n1 15 6 9\n2 45 45 0\n"
    assert book.digest() == blocktree.digest_text(text) == hashlib.sha256(text).digest()
    small = blocktree.Tree(book.without_edges())
    assert (len(small.bytes), small.info()["layout"], small.text(), small.without_edges()) == (2908, 1, text, small.bytes)
    assert small.compare(book) == (blocktree.SAME, 2800) and small.make_guide() == guide
    turned = blocktree.to_columns(text, 14)
    assert blocktree.from_columns(turned, 14) == text
    columns = blocktree.Tree(blocktree.build(turned, 256, 2, 1))
    assert columns.row_by_columns(14, 119) == rows[119] + b"\n"
    assert book.compare(columns) == (blocktree.AFTER, 1) and book.compare(book) == (blocktree.SAME, 2800)
    assert blocktree.open_on(b"20240101", b"20241231", b"20240301") and blocktree.days_left(b"20191231", b"20300101") == -3654
    assert blocktree.renew(b"20240229") == b"20250228"


def digests():
    """Digests compared with hashlib, on all lengths around the ends of blocks, as texts and as trees."""
    for length in [*range(0, 200), *range(1016, 1034), 4095, 4096, 4097, 1 << 20]:
        text = bytes((place * place >> 3) & 255 for place in range(length))
        due = hashlib.sha256(text).digest()
        assert blocktree.digest_text(text) == due
        assert blocktree.Tree(blocktree.build(text, 64, 2, 2, b"")).digest() == due


def settings_left_out():
    """build without settings makes the smallest tree of the short list; settings that are given only in part are an error."""
    text = open(os.path.join(HERE, "../books/small.txt"), "rb").read()
    trees = [blocktree.build(text, *settings) for settings in blocktree.SHORT_LIST]
    assert blocktree.build(text) == blocktree.build(text, 32, 6, 2) == min(trees, key=len)
    assert blocktree.Tree(blocktree.build(text, counted=b"")).info()["totals"] == {}
    for some in ({"leaf": 24}, {"arity": 8, "levels": 3}):
        try:
            blocktree.build(text, **some)
        except TypeError:
            continue
        raise AssertionError("%r was enough" % some)


def as_a_sequence():
    """Lengths, indices and slices are those of the text's bytes; rows are iterated by number."""
    text = b"A 1\r\nBC 23\n\nD 4"
    book = blocktree.Tree(blocktree.build(text, 2, 2, 2))
    assert len(book) == len(text) and list(book) == list(text)
    for index in range(-len(text), len(text)):
        assert book[index] == text[index]
    bounds = [None, -99, -14, -3, 0, 1, 5, 14, 99]
    for index in [slice(start, stop, step) for start in bounds for stop in bounds for step in (None, 1, 3, -1, -2)]:
        assert book[index] == text[index], index
    for index in (len(text), -len(text) - 1):
        try:
            book[index]
        except IndexError:
            continue
        raise AssertionError("%d is an index" % index)
    assert list(book.iter_rows()) == [b"A 1", b"BC 23", b"", b"D 4"]
    assert list(book.iter_rows(2, 3)) == [b"BC 23", b""] and list(book.iter_rows(5)) == []
    assert list(blocktree.Tree(blocktree.build(b"")).iter_rows()) == []


def hints():
    """Every public function and method has a type for each argument and for its answer, which a type checker can evaluate."""
    functions = [getattr(blocktree, name) for name in blocktree.__all__ if inspect.isfunction(getattr(blocktree, name))]
    functions += [method for name, method in inspect.getmembers(blocktree.Tree, inspect.isfunction)]
    assert len(functions) > 25
    for function in functions:
        known = set(typing.get_type_hints(function)) - {"return"}
        assert known == set(inspect.signature(function).parameters) - {"self"} and "return" in function.__annotations__, function


def refusals():
    """Every refusal raises its number, and an argument that is not a 32-bit number is rejected."""
    book = blocktree.Tree(blocktree.build(b"A 1\n", 2, 2, 2))
    for number, ask in [
        (1, lambda: blocktree.build(bytes(8388609), 2, 2, 2)),
        (2, lambda: blocktree.build(b"", 0, 2, 2)),
        (3, lambda: blocktree.build(b"", 2, 2, 2, b"BA")),
        (5, lambda: blocktree.Tree(b"")),
        (7, lambda: blocktree.Tree(book.bytes + b"\0")),
        (10, lambda: book.byte(4)),
        (11, lambda: book.count(65, 1)),
        (12, lambda: book.row(2)),
        (12, lambda: book.row_length(2)),
        (5, lambda: blocktree.Tree(b"", checked=False).info()),
        (5, lambda: blocktree.Tree(b"", checked=False).digest()),
        (7, lambda: blocktree.Tree(book.bytes + b"\0", checked=False).without_edges()),
        (16, lambda: book.places(b"")),
        (16, lambda: book.next_with_prefix(b"")),
        (16, lambda: book.rows_with_prefix(bytes(257))),
        (19, lambda: book.next_match([])),
        (20, lambda: blocktree.to_columns(b"ABC", 2)),
        (22, lambda: blocktree.renew(b"2024")),
        (24, lambda: book.check_guide(b"")),
    ]:
        try:
            ask()
        except blocktree.RefusedError as refused:
            assert refused.number == number and str(refused).startswith("refused (%d): " % number)
        else:
            raise AssertionError("%d did not come" % number)
    for number in (-1, 1 << 32):
        for ask in (book.row, lambda mark: book.next_match([(1, 1)], mark)):
            try:
                ask(number)
            except OverflowError:
                continue
            raise AssertionError("%d was accepted" % number)


def other_types():
    """A number, a string or a list in place of bytes is a TypeError; any bytes-like object is accepted."""
    book = blocktree.Tree(bytearray(blocktree.build(memoryview(b"A 1\n"), 2, 2, 2)))
    assert book.places(bytearray(b"1")) == book.places(memoryview(b"x1x")[1:2]) == [2]
    for wrong in (5, "5", [5], None):
        for ask in (
            lambda: blocktree.Tree(wrong),
            lambda: blocktree.build(wrong, 2, 2, 2),
            lambda: blocktree.build(b"", 2, 2, 2, wrong),
            lambda: blocktree.size_bound(5, 2, 2, 2, wrong),
            lambda: blocktree.to_columns(wrong, 1),
            lambda: blocktree.from_columns(wrong, 1),
            lambda: blocktree.open_on(wrong, b"20240101", b"20240101"),
            lambda: blocktree.renew(wrong),
            lambda: blocktree.digest_text(wrong),
            lambda: book.places(wrong),
            lambda: book.next_with_prefix(wrong),
            lambda: book.rows_with_prefix(wrong),
            lambda: book.check_guide(wrong),
        ):
            try:
                ask()
            except TypeError:
                continue
            raise AssertionError("%r was taken for bytes" % (wrong,))


def ask_row(tree, number):
    return blocktree.Tree(tree).row(number)


def from_another_process():
    """A refusal survives pickling, and comes back from a worker process."""
    refused = pickle.loads(pickle.dumps(blocktree.RefusedError(12)))
    assert type(refused) is blocktree.RefusedError is blocktree.Refused
    assert (refused.number, str(refused)) == (12, str(blocktree.RefusedError(12)))
    tree = blocktree.build(b"A 1\n", 2, 2, 2)
    with multiprocessing.Pool(1) as pool:
        assert pool.apply_async(ask_row, (tree, 1)).get(timeout=60) == b"A 1"
        try:
            pool.apply_async(ask_row, (tree, 2)).get(timeout=60)
        except blocktree.RefusedError as refused:
            assert refused.number == 12
        else:
            raise AssertionError("row 2 was answered")


if __name__ == "__main__":
    counts = [run_file(path) for path in FILES]
    own_functions()
    digests()
    settings_left_out()
    as_a_sequence()
    hints()
    refusals()
    other_types()
    from_another_process()
    failed, tried = doctest.testmod(blocktree)
    assert (failed, tried > 3) == (0, True)
    print("%s cases passed" % " and ".join(map(str, counts)))
