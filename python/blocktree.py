"""Block trees of code books: build, check and read them.

    >>> import blocktree
    >>> tree = blocktree.build(b"CH0501 1423\\nCH0502 1424\\n")
    >>> book = blocktree.Tree(tree)
    >>> book.row(2)
    b'CH0502 1424'
    >>> list(book.iter_rows()), book[0:6]
    ([b'CH0501 1423', b'CH0502 1424'], b'CH0501')
    >>> book.row(3)
    Traceback (most recent call last):
    blocktree.RefusedError: refused (12): the text has no occurrence or row of this number; numbers start at 1

It calls the proved library by ctypes. libblocktree.so is the one that BLOCKTREE_LIBRARY names, else one beside this file, in ../../lib or ../target, one that
the loader finds, or one in the lib folder of the prefix of `codebook`, of Python, or of /usr/local. `make install` installs it. Python 3.8 or later, Linux
on x86-64.

Texts, trees, rows and patterns are bytes; arguments may be any bytes-like object. Places start at 0; rows and occurrences are numbered from 1. A refused call
raises RefusedError with the library's `number`, which docs/FORMAT.md explains. Tree.digest() identifies the text that a tree represents: compare it with the
SHA-256 that the office published for the book.
"""

import ctypes
import os
import shutil
import sys
from typing import Any, Dict, Iterable, Iterator, List, Optional, Tuple, Union, overload

__version__ = "2.1.1"

__all__ = [
    "RefusedError", "Tree", "build", "size_bound", "scan_words", "to_columns", "from_columns", "digest_text", "open_on", "days_left", "renew", "version",
]

Bytes = Union[bytes, bytearray, memoryview]

REASONS = {
    1: "a text must have at most 8,388,608 bytes",
    2: "the leaf length must be 1 to 256, the arity 2 to 16, the levels 1 to 8, and leaf x arity^(levels-1) at most 8,388,608",
    3: "at most 4 bytes can be counted, and each must be above the one before",
    4: "the tree does not fit the buffer",
    5: "a tree has at least 100 bytes; this is no tree, or cut off",
    6: "the layout is neither 1 nor 2; this is no block tree, or one of another version",
    7: "the header is not right: its settings, unused places or offsets, or the file is longer or shorter than it says",
    8: "the blocks are not right: a start, kind, link or gap, or the number of blocks or leaf bytes",
    9: "a count or an edge in the tree is wrong",
    10: "this is past the end of the text",
    11: "the tree does not count this byte",
    12: "the text has no occurrence or row of this number; numbers start at 1",
    13: "the answer does not fit the buffer",
    14: "the tree is damaged: the path to a byte breaks off, or a count is negative",
    15: "only trees of at most 65,536 bytes are listed",
    16: "a pattern must have 1 to 256 bytes",
    17: "the table has fewer words than the pattern has places",
    18: "the table of words is too short: it needs four words for each leaf length of the text, rounded up",
    19: "a worn key must have 1 to 10 cuts, each with a low and a high depth of 0 to 9, the low one not above the high one",
    20: "the width must be above 0 and divide the text's length",
    21: "the output is shorter than the text",
    22: "a day is eight digits, year, month and day, from 20000101 to 20991231, and a renewal does not pass 2099",
    23: "the last day is before the first",
    24: "this is no guide of this tree: it has too few or too many words, or an entry is wrong",
    25: "the table is too short for the guide",
}

# The settings that build tries if none are given, as leaf, arity and levels: those of `codebook build`.
SHORT_LIST = [(256, 2, 1), (32, 6, 2), (32, 5, 2), (24, 5, 3), (16, 5, 4), (16, 4, 3), (12, 4, 4), (10, 3, 6)]

MAX_TEXT = 8_388_608
DIGEST = 32
LIST_LENGTH = 352
BEFORE, SAME, AFTER = 1, 2, 3


class RefusedError(Exception):
    """The library refused the call; `number` is the reason. It can be pickled, so another process can return it."""

    def __init__(self, number: int) -> None:
        super().__init__(number)
        self.number = number

    def __str__(self) -> str:
        return "refused (%d): %s" % (self.number, REASONS.get(self.number, "a number that this module does not know"))


# deprecated: the name of RefusedError up to 1.14
Refused = RefusedError


# The arguments of each call, in order. bytes: read; buffer: a bytearray, written; words: an array of _words, written; n32: a number; out32, out64, outi32:
# a figure that is written; mark: one that is read and written.
_CALLS = {
    "bt_build": "bytes n32 n32 n32 bytes buffer out32",
    "bt_build_scanned": "bytes n32 n32 n32 bytes words buffer out32 out32",
    "bt_size_bound": "n32 n32 n32 n32 n32 out64",
    "bt_check": "bytes",
    "bt_byte": "bytes n32 out32 out32",
    "bt_run_range": "bytes n32 out64 out32",
    "bt_span": "bytes n32 n32 buffer out32",
    "bt_count": "bytes n32 n32 out64 out32",
    "bt_find": "bytes n32 n32 out32 out32",
    "bt_row": "bytes n32 buffer out32",
    "bt_row_length": "bytes n32 out32",
    "bt_row_count": "bytes out64",
    "bt_places": "bytes bytes words out32",
    "bt_places_words": "bytes n32 out32",
    "bt_next_match": "bytes bytes mark out32",
    "bt_next_with_prefix": "bytes bytes mark out32",
    "bt_to_columns": "bytes n32 buffer",
    "bt_from_columns": "bytes n32 buffer",
    "bt_row_by_columns": "bytes n32 n32 buffer",
    "bt_digest": "bytes buffer",
    "bt_digest_text": "bytes buffer",
    "bt_guide_words": "bytes out64",
    "bt_make_guide": "bytes buffer out64",
    "bt_check_guide": "bytes bytes",
    "bt_find_guided": "bytes bytes n32 n32 out32 out32 out32",
    "bt_row_guided": "bytes bytes n32 buffer out32",
    "bt_next_with_prefix_guided": "bytes bytes bytes mark out32",
    "bt_compare": "bytes bytes out32 out32 out32",
    "bt_list": "bytes buffer out32",
    "bt_without_edges": "bytes buffer out64",
    "bt_open_on": "bytes bytes bytes out32",
    "bt_days_left": "bytes bytes outi32",
    "bt_renew": "buffer",
}

_FIGURES = {"out32": ctypes.c_uint32, "out64": ctypes.c_uint64, "outi32": ctypes.c_int32, "mark": ctypes.c_uint32}


def _opened() -> ctypes.CDLL:
    """The shared library: the one that BLOCKTREE_LIBRARY names, else one beside this file, found by the loader, beside the tool, or below a usual prefix."""
    named = os.environ.get("BLOCKTREE_LIBRARY")
    if named:
        return ctypes.CDLL(named)
    here = os.path.dirname(os.path.abspath(__file__))
    beside = [os.path.join(here, place, "libblocktree.so") for place in (".", "../../lib", "../target")]
    tool = shutil.which("codebook")
    prefixes = ([os.path.join(os.path.dirname(os.path.realpath(tool)), "..")] if tool else []) + [sys.prefix, "/usr/local"]
    installed = [os.path.join(prefix, "lib/libblocktree.so") for prefix in prefixes]
    soname = "libblocktree.so." + __version__.split(".")[0]
    for path in [path for path in beside if os.path.exists(path)] + [soname] + [path for path in installed if os.path.exists(path)]:
        try:
            return ctypes.CDLL(path)
        except OSError:
            if path != soname:
                raise
    raise ImportError("libblocktree.so is not found: install it with `make install`, or name it in BLOCKTREE_LIBRARY")


def _library() -> ctypes.CDLL:
    library = _opened()
    for call in _CALLS:
        getattr(library, call).restype = ctypes.c_uint32
    library.bt_version.restype = ctypes.c_uint32
    library.bt_info.restype = ctypes.c_uint32
    library.bt_scan_words.restype = ctypes.c_uint64
    library.bt_scan_words.argtypes = [ctypes.c_uint32, ctypes.c_uint32]
    return library


_LIBRARY = _library()


def _number(value: int) -> ctypes.c_uint32:
    """A number as an argument of the library: OverflowError if it is negative or has more than 32 bits."""
    if not 0 <= value < 1 << 32:
        raise OverflowError("%d is not a number from 0 to 4294967295" % value)
    return ctypes.c_uint32(value)


def _bytes(value: Bytes) -> bytes:
    """The bytes of a bytes-like object. Anything else raises TypeError: bytes(5) would be five zero bytes."""
    return value if isinstance(value, bytes) else memoryview(value).tobytes()


def _words(number: int) -> Any:
    """A table of this number of words."""
    return (ctypes.c_uint32 * number)()


def _call(name: str, *given: Any) -> Tuple[int, ...]:
    """The returned number and all figures, in order. Buffers and words are written in place. No pointer is null, even if its length is 0."""
    words: List[Any] = []
    figures: List[Any] = []
    rest = iter(given)
    for kind in _CALLS[name].split():
        if kind == "n32":
            words.append(_number(next(rest)))
        elif kind == "bytes":
            data = _bytes(next(rest))
            words += [ctypes.c_char_p(data), ctypes.c_uint64(len(data))]
        elif kind == "buffer":
            data = next(rest)
            room = (ctypes.c_uint8 * len(data)).from_buffer(data) if data else (ctypes.c_uint8 * 1)()
            words += [room, ctypes.c_uint64(len(data))]
        elif kind == "words":
            data = next(rest)
            words += [data if len(data) else _words(1), ctypes.c_uint64(len(data))]
        else:
            figures.append(_number(next(rest)) if kind == "mark" else _FIGURES[kind](0))
            words.append(ctypes.byref(figures[-1]))
    number = getattr(_LIBRARY, name)(*words)
    return (number, *(figure.value for figure in figures))


def _ask(name: str, *given: Any) -> Any:
    """The figures: None, one, or a tuple of all. RefusedError if the number is not 0."""
    number, *figures = _call(name, *given)
    if number:
        raise RefusedError(number)
    return figures[0] if len(figures) == 1 else tuple(figures)


def version() -> Tuple[int, int, int]:
    """The library's version: major, minor, patch."""
    number = _LIBRARY.bt_version()
    return number // 10000, number // 100 % 100, number % 100


def size_bound(n: int, leaf: int, arity: int, levels: int, counted: Bytes = b"\n") -> int:
    """The size bound: no tree of a text of n bytes is larger."""
    return _ask("bt_size_bound", n, leaf, arity, levels, len(_bytes(counted)))


def scan_words(n: int, leaf: int) -> int:
    """The number of words of the table that build uses."""
    return _LIBRARY.bt_scan_words(_number(n), _number(leaf))


def build(text: Bytes, leaf: Optional[int] = None, arity: Optional[int] = None, levels: Optional[int] = None, counted: Bytes = b"\n") -> bytes:
    """The tree of a text; `counted` are the bytes that it can count and find, ascending. Without settings it is the tree of `codebook build`: each of
    SHORT_LIST is tried, and the smallest tree is returned, the first of equal ones. That takes eight builds; give settings if time matters."""
    if leaf is not None and arity is not None and levels is not None:
        return _build(text, leaf, arity, levels, counted)
    if (leaf, arity, levels) != (None, None, None):
        raise TypeError("leaf, arity and levels go together: give all three, or none")
    return min((_build(text, *settings, counted) for settings in SHORT_LIST), key=len)


def _build(text: Bytes, leaf: int, arity: int, levels: int, counted: Bytes) -> bytes:
    text = _bytes(text)
    room = bytearray(size_bound(min(len(text), 0xFFFFFFFF), leaf, arity, levels, counted))
    table = _words(scan_words(len(text), leaf))
    if len(table) > 0:
        table[0] = int.from_bytes(os.urandom(4), "little")  # the seed of the fingerprints: random, so that nobody can make a text that is slow to build
    size, _ = _ask("bt_build_scanned", text, leaf, arity, levels, counted, table, room)
    return bytes(room[:size])


def _turned(name: str, text: Bytes, width: int) -> bytes:
    text = _bytes(text)
    out = bytearray(len(text))
    _ask(name, text, width, out)
    return bytes(out)


def to_columns(text: Bytes, width: int) -> bytes:
    """A text of rows of `width` bytes, end byte included, by columns."""
    return _turned("bt_to_columns", text, width)


def from_columns(text: Bytes, width: int) -> bytes:
    """The inverse of to_columns for the same width."""
    return _turned("bt_from_columns", text, width)


def _digest(name: str, data: Bytes) -> bytes:
    out = bytearray(DIGEST)
    _ask(name, data, out)
    return bytes(out)


def digest_text(text: Bytes) -> bytes:
    """The SHA-256 of any bytes, as 32 bytes; .hex() is what sha256sum prints."""
    return _digest("bt_digest_text", text)


def open_on(first: Bytes, last: Bytes, today: Bytes) -> bool:
    """Whether a book licensed from `first` to `last`, both included, is open on `today`. Days are eight digits, as b"20240229"."""
    return _ask("bt_open_on", first, last, today) == 1


def days_left(last: Bytes, today: Bytes) -> int:
    """Days from `today` to `last`; negative after it."""
    return _ask("bt_days_left", last, today)


def renew(day: Bytes) -> bytes:
    """The same day one year later; 29 February becomes 28 February."""
    data = bytearray(_bytes(day))
    _ask("bt_renew", data)
    return bytes(data)


class Tree:
    """A tree. Its bytes are checked unless `checked` is False: on a tree that the check refuses answers can be wrong, though nothing outside it is read."""

    def __init__(self, tree: Bytes, checked: bool = True) -> None:
        self.bytes = _bytes(tree)
        if checked:
            _ask("bt_check", self.bytes)

    def __len__(self) -> int:
        """The length of the text, from the header."""
        return int.from_bytes(self.bytes[4:8], "little")

    @overload
    def __getitem__(self, index: int) -> int: ...

    @overload
    def __getitem__(self, index: slice) -> bytes: ...

    def __getitem__(self, index: Union[int, slice]) -> Union[int, bytes]:
        """tree[14] and tree[14:20] are bytes of the text; row(number) is a row."""
        places = range(len(self))[index]
        if isinstance(places, int):
            return self.byte(places)
        if not places:
            return b""
        low = min(places[0], places[-1])
        return self.span(low, abs(places[-1] - places[0]) + 1)[places[0] - low :: places.step]

    def info(self) -> Dict[str, Any]:
        """The figures of the tree: layout, text length, settings, leaf bytes, the counted bytes with their totals, the blocks of each level."""
        figures = (ctypes.c_uint64 * 23)()
        number = _LIBRARY.bt_info(ctypes.c_char_p(self.bytes), ctypes.c_uint64(len(self.bytes)), figures)
        if number:
            raise RefusedError(number)
        layout, length, leaf, arity, levels, leaf_bytes, counted = figures[:7]
        totals = dict(zip(figures[7 : 7 + counted], figures[11 : 11 + counted]))
        return {
            "layout": layout,
            "length": length,
            "leaf": leaf,
            "arity": arity,
            "levels": levels,
            "leaf_bytes": leaf_bytes,
            "totals": totals,
            "blocks": figures[15 : 15 + levels],
        }

    def byte(self, place: int) -> int:
        """Access: the byte at a place."""
        return _ask("bt_byte", self.bytes, place)[0]

    def run(self, place: int) -> bytes:
        """The longest contiguous range of leaf bytes that is the text from a place on."""
        offset, length = _ask("bt_run_range", self.bytes, place)
        return self.bytes[offset : offset + length]

    def span(self, place: int, length: int) -> bytes:
        """`length` bytes from a place on."""
        # a span past the end of the text is refused, whatever the buffer
        room = bytearray(length if place + length <= min(len(self), MAX_TEXT) else 0)
        _ask("bt_span", self.bytes, place, length, room)
        return bytes(room)

    def text(self) -> bytes:
        """The whole text."""
        return self.span(0, len(self))

    def count(self, byte: int, length: int) -> int:
        """Rank: how often a counted byte occurs in the first `length` bytes."""
        return _ask("bt_count", self.bytes, byte, length)[0]

    def find(self, byte: int, number: int, guide: Optional[Bytes] = None) -> int:
        """Select: the place of the occurrence of a counted byte with this number, from 1."""
        if guide is None:
            return _ask("bt_find", self.bytes, byte, number)[0]
        return _ask("bt_find_guided", self.bytes, guide, byte, number)[0]

    def row(self, number: int, guide: Optional[Bytes] = None) -> bytes:
        """Row `number`, from 1, without its end."""
        name, data = ("bt_row", []) if guide is None else ("bt_row_guided", [guide])
        # a short buffer is enough for most rows, one as long as the text for every row
        room = bytearray(min(len(self), 256))
        refusal, length = _call(name, self.bytes, *data, number, room)
        if refusal == 13:
            room = bytearray(min(len(self), MAX_TEXT))
            refusal, length = _call(name, self.bytes, *data, number, room)
        if refusal:
            raise RefusedError(refusal)
        return bytes(room[:length])

    def iter_rows(self, first: int = 1, last: Optional[int] = None) -> Iterator[bytes]:
        """The rows from `first` to `last`, both included, in row order; to the last row if `last` is None."""
        for number in range(first, (self.row_count() if last is None else last) + 1):
            yield self.row(number)

    def row_length(self, number: int) -> int:
        """The length of row `number`, from 1, without its end."""
        return _ask("bt_row_length", self.bytes, number)

    def row_count(self) -> int:
        """The number of rows."""
        return _ask("bt_row_count", self.bytes)

    def places(self, pattern: Bytes) -> List[int]:
        """Locate: all places of a pattern of 1 to 256 bytes, ascending."""
        table = _words(min(4096, len(self)))
        number, places = _call("bt_places", self.bytes, pattern, table)
        if number == 17:
            table = _words(_ask("bt_places_words", self.bytes, len(pattern)))
            number, places = _call("bt_places", self.bytes, pattern, table)
        if number:
            raise RefusedError(number)
        return table[:places]

    def next_match(self, ranges: Iterable[Tuple[int, int]], mark: int = 0) -> Optional[int]:
        """The first row after `mark` that matches a worn key; None if there is none. The ranges have a low and a high depth for each cut: [(4, 4), (3, 5)]."""
        data = bytes(depth for low_high in ranges for depth in low_high)
        return _ask("bt_next_match", self.bytes, data, mark)[1] or None

    def matches(self, ranges: Iterable[Tuple[int, int]]) -> Iterator[int]:
        """All rows that match, in row order."""
        row = self.next_match(ranges)
        while row:
            yield row
            row = self.next_match(ranges, row)

    def next_with_prefix(self, prefix: Bytes, mark: int = 0, guide: Optional[Bytes] = None) -> Optional[int]:
        """The first row after `mark` that starts with `prefix`, 1 to 256 bytes; None if there is none."""
        if guide is None:
            return _ask("bt_next_with_prefix", self.bytes, prefix, mark)[1] or None
        return _ask("bt_next_with_prefix_guided", self.bytes, guide, prefix, mark)[1] or None

    def rows_with_prefix(self, prefix: Bytes, guide: Optional[Bytes] = None) -> Iterator[Tuple[int, bytes]]:
        """All rows that start with `prefix`, in row order, each with its number."""

        def rows(number: Optional[int]) -> Iterator[Tuple[int, bytes]]:
            while number:
                yield number, self.row(number, guide)
                number = self.next_with_prefix(prefix, number, guide)

        return rows(self.next_with_prefix(prefix, 0, guide))

    def row_by_columns(self, width: int, a: int) -> bytes:
        """Row a, from 0, all `width` bytes of it, from the tree of a text by columns."""
        room = bytearray(min(width, len(self), MAX_TEXT))
        _ask("bt_row_by_columns", self.bytes, width, a, room)
        return bytes(room)

    def digest(self) -> bytes:
        """The SHA-256 of the tree's text, as 32 bytes."""
        return _digest("bt_digest", self.bytes)

    def make_guide(self) -> bytes:
        """The guide (sampled select directory) to the level 0 blocks."""
        room = bytearray(4 * min(_ask("bt_guide_words", self.bytes), MAX_TEXT // 16 + 4))
        words = _ask("bt_make_guide", self.bytes, room)
        return bytes(room[: 4 * words])

    def check_guide(self, guide: Bytes) -> None:
        """Raises RefusedError if the bytes are not exactly the guide of this tree."""
        _ask("bt_check_guide", self.bytes, guide)

    def without_edges(self) -> bytes:
        """The bytes of the same tree in layout 1, without its edges: never larger, and with the same answers. A tree of layout 1 is copied."""
        room = bytearray(len(self.bytes))
        size = _ask("bt_without_edges", self.bytes, room)
        return bytes(room[:size])

    def list(self) -> str:
        """The lines of the list program, one for each level: level, blocks, kept, pointing."""
        room = bytearray(LIST_LENGTH)
        length = _ask("bt_list", self.bytes, room)
        return room[:length].decode("ascii")

    def compare(self, other: "Tree") -> Tuple[int, int]:
        """BEFORE, SAME or AFTER: the lexicographic order of this tree's text and the other's; and the length of their longest common prefix."""
        order, shared, _ = _ask("bt_compare", self.bytes, other.bytes)
        return order, shared
