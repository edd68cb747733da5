/* blocktree.h - block trees of code books: build, check and read them.
 *
 * C99 and C++. Link with libblocktree.a: -lblocktree after `make install` (pkg-config knows it as blocktree), target/libblocktree.a in the repository after
 * `make` or ./demo. That archive is for x86-64 Linux (x86-64-v2): it needs memcpy and memset and no other symbol, is position independent, and no call uses
 * more than 4 KB of stack. docs/TARGETS.md has the archives for other processors, what they need, and their stack. The format and every question are in
 * docs/FORMAT.md.
 *
 * What all calls have in common
 *
 *  - A call returns BT_OK (0), or the number of the first question that failed (enum bt_refusal): it is refused with that number. A refused call sets every
 *    figure to 0.
 *  - A slice is a pointer and a length in bytes; a table of words has its length in words. A call keeps no pointer, allocates nothing and has no state: calls
 *    may run at the same time in several threads if what they write does not overlap.
 *  - Every length has 64 bits on every processor, as in the contracts.
 *  - A `const` pointer is only read. A buffer that a call writes must not overlap its other arguments.
 *  - Every pointer is non-null, even if its length is 0 (pass the address of any byte), and points to as many bytes, or words of a table, as its length
 *    says. Pointers to figures and to words are aligned.
 *  - A tree need not be checked first: each call is safe on any bytes, reads nothing outside them and terminates. On a tree that bt_check refuses, bt_find may
 *    return any place below n with any number of blocks, bt_row the bytes that the tree's paths give from any place on, bt_row_length any length up to n,
 *    bt_next_match and bt_next_with_prefix any row after the mark or none; or each of them may return BT_PATH (bt_row also BT_BUFFER, if the buffer is
 *    shorter than such bytes). All other results are determined for any bytes, except for the calls with a guide.
 *  - With a guide that bt_check_guide refuses, bt_find_guided may return what bt_find may return on a refused tree, even if bt_check accepts the tree; so may
 *    bt_row_guided (bt_row) and bt_next_with_prefix_guided (bt_next_with_prefix). No other call returns BT_PATH on an accepted tree.
 *  - bt_check shows that a tree represents a text, not which one: a tree with a changed leaf byte, and the counts and edges that depend on it changed too, is a
 *    valid tree of another text, and gives a wrong key. So the office publishes the SHA-256 of the book, 32 bytes, and the machine compares it with the output
 *    of bt_digest (examples/c/check_digest.c). A digest is only as trustworthy as its source: store it where nobody who can change the tree can write.
 *  - Places in the text start at 0; occurrences and rows are numbered from 1, but bt_row_by_columns numbers rows from 0.
 *
 * At each call: `reads` lists the slices that it reads, `writes` what it writes, `returns` the numbers in the order of the questions.
 */
#ifndef BLOCKTREE_H
#define BLOCKTREE_H

#include <stdint.h>

#ifdef __cplusplus
extern "C" {
#endif

/* Bounds. */
#define BT_MAX_TEXT 8388608u /* bytes of a text, and of a block of level 0 */
#define BT_MAX_LEAF 256u     /* leaf length: 1 to this */
#define BT_MIN_ARITY 2u      /* arity: this to BT_MAX_ARITY */
#define BT_MAX_ARITY 16u
#define BT_MAX_LEVELS 8u   /* levels: 1 to this */
#define BT_MAX_COUNTED 4u  /* counted bytes: 0 to this */
#define BT_MAX_PATTERN 256u /* bytes of a pattern: 1 to this */
#define BT_MAX_CUTS 10u    /* cuts of a worn key: 1 to this */
#define BT_LIST_LENGTH 352u /* bytes of a buffer that bt_list always fits */
#define BT_FIGURES 23u     /* figures that bt_info writes */
#define BT_DIGEST 32u      /* bytes of a SHA-256, which bt_digest and bt_digest_text write */
/* Bytes of the largest tree, the most that bt_size_bound returns: 1,111,359,588. It is the tree of the longest text with leaf 1, arity 2, BT_MAX_LEVELS levels and
 * BT_MAX_COUNTED counted bytes: a header of 100 bytes, 2 - 1/128 blocks for each byte of text, a record of 66 bytes for each block, and the text. */
#define BT_MAX_TREE (100u + BT_MAX_TEXT / 128u * 255u * 66u + BT_MAX_TEXT)

/* The version of this header: major * 10000 + minor * 100 + patch. bt_version returns that of the archive. */
#define BT_VERSION 20101u
uint32_t bt_version(void);

/* The refusals. */
enum bt_refusal {
    BT_OK = 0,
    BT_TEXT = 1,        /* the text has more than BT_MAX_TEXT bytes */
    BT_SETTINGS = 2,    /* leaf is not 1 to 256, arity not 2 to 16, levels not 1 to 8, or leaf * arity^(levels-1) is above BT_MAX_TEXT */
    BT_COUNTED = 3,     /* more than 4 counted bytes, or one that is not above the one before */
    BT_SPACE = 4,       /* the tree does not fit the buffer */
    BT_SHORT = 5,       /* the tree has fewer than 100 bytes */
    BT_LAYOUT = 6,      /* the tree's layout is neither 1 nor 2 */
    BT_HEADER = 7,      /* the header is not right: settings, unused places, offsets, or the tree's length */
    BT_LINKS = 8,       /* starts, kinds, links, gaps, or the counts of levels or leaf bytes are not right */
    BT_COUNTS = 9,      /* a count or an edge in the tree is wrong */
    BT_PLACE = 10,      /* the place, or the end of the span, is past the end of the text */
    BT_NOT_COUNTED = 11, /* the byte is not one that the tree counts (for a row: byte 10) */
    BT_NO_SUCH = 12,    /* the byte has no occurrence of this number; there is no such row */
    BT_BUFFER = 13,     /* the answer does not fit the buffer */
    BT_PATH = 14,       /* the tree is damaged: the path of a place breaks, or a count or a row's length would be negative */
    BT_INPUT = 15,      /* list only: the tree has more than 65,536 bytes */
    BT_PATTERN = 16,    /* the pattern does not have 1 to 256 bytes */
    BT_TABLE = 17,      /* the table has fewer words than the pattern has places */
    BT_WORK = 18,       /* bt_build_scanned only: the table has fewer than bt_scan_words words */
    BT_RANGES = 19,     /* a worn key does not have 1 to 10 cuts, a depth is above 9, or a low depth is above its high one */
    BT_WIDTH = 20,      /* the width of rows is 0, or does not divide the text's length */
    BT_OUTPUT = 21,     /* bt_to_columns and bt_from_columns only: the output is shorter than the text */
    BT_DATE = 22,       /* a day is not a date of the years 2000 to 2099 in eight digits, or its renewal is after 2099 */
    BT_TERM = 23,       /* the last day is before the first */
    BT_GUIDE = 24,      /* the guide has another length, or an entry is not the tree's */
    BT_GUIDE_TABLE = 25 /* the table is too short for the guide */
};

/* The meaning of a number, as text for a message, the same as in the tool and the Python module. The texts are in this header, not in the archive. */
static inline const char *bt_refusal_text(uint32_t number)
{
    switch (number) {
    case BT_OK: return "not refused";
    case BT_TEXT: return "a text must have at most 8,388,608 bytes";
    case BT_SETTINGS: return "the leaf length must be 1 to 256, the arity 2 to 16, the levels 1 to 8, and leaf x arity^(levels-1) at most 8,388,608";
    case BT_COUNTED: return "at most 4 bytes can be counted, and each must be above the one before";
    case BT_SPACE: return "the tree does not fit the buffer";
    case BT_SHORT: return "a tree has at least 100 bytes; this is no tree, or cut off";
    case BT_LAYOUT: return "the layout is neither 1 nor 2; this is no block tree, or one of another version";
    case BT_HEADER: return "the header is not right: its settings, unused places or offsets, or the file is longer or shorter than it says";
    case BT_LINKS: return "the blocks are not right: a start, kind, link or gap, or the number of blocks or leaf bytes";
    case BT_COUNTS: return "a count or an edge in the tree is wrong";
    case BT_PLACE: return "this is past the end of the text";
    case BT_NOT_COUNTED: return "the tree does not count this byte";
    case BT_NO_SUCH: return "the text has no occurrence or row of this number; numbers start at 1";
    case BT_BUFFER: return "the answer does not fit the buffer";
    case BT_PATH: return "the tree is damaged: the path to a byte breaks off, or a count is negative";
    case BT_INPUT: return "only trees of at most 65,536 bytes are listed";
    case BT_PATTERN: return "a pattern must have 1 to 256 bytes";
    case BT_TABLE: return "the table has fewer words than the pattern has places";
    case BT_WORK: return "the table of words is too short: it needs four words for each leaf length of the text, rounded up";
    case BT_RANGES: return "a worn key must have 1 to 10 cuts, each with a low and a high depth of 0 to 9, the low one not above the high one";
    case BT_WIDTH: return "the width must be above 0 and divide the text's length";
    case BT_OUTPUT: return "the output is shorter than the text";
    case BT_DATE: return "a day is eight digits, year, month and day, from 20000101 to 20991231, and a renewal does not pass 2099";
    case BT_TERM: return "the last day is before the first";
    case BT_GUIDE: return "this is no guide of this tree: it has too few or too many words, or an entry is wrong";
    case BT_GUIDE_TABLE: return "the table is too short for the guide";
    default: return "a number that this header does not know";
    }
}

/* Build the tree of a text, in layout 2. Trees of layout 1 are read and checked too.
 *   reads     text, counted: the counted bytes, ascending
 *   writes    out: the tree in its first *size bytes, the rest unchanged; all zero on BT_SPACE; unchanged on 1, 2 and 3
 *             *size: the tree's size
 *   returns   0, 1, 2, 3, 4
 * Its time is proportional to the text's length times the number of blocks and pairs of blocks above the last level; for a text that is made to have equal
 * fingerprints it can be quadratic in the length on each level. */
uint32_t bt_build(const uint8_t *text, uint64_t text_len, uint32_t leaf, uint32_t arity, uint32_t levels, const uint8_t *counted, uint64_t counted_len,
                  uint8_t *out, uint64_t out_len, uint32_t *size);

/* Build the same tree by one scan of the text for each level above the last, in a small part of bt_build's time on long texts. It uses the caller's
 * table of words. Fill the table's first word at random before each call: it is the seed of the fingerprints and affects only the time. The expected time is
 * then linear in the text's length, whatever the text; for a text that is made for a known seed it can be quadratic on each level.
 *   reads     text, counted: the counted bytes, ascending; work: a table of bt_scan_words(text_len, leaf) words or more, with any contents
 *   writes    out: the tree in its first *size bytes, the rest unchanged; all zero on BT_SPACE; unchanged on any other refusal
 *             work: anything if the call returns 0 or BT_SPACE; unchanged on any other refusal
 *             *size: the tree's size; *windows: the number of windows of the text that were looked up: on each level above the last,
 *             text_len + 1 - L for each different length L of a block or a pair of blocks
 *   returns   0, 1, 2, 3, 18, 4 */
uint32_t bt_build_scanned(const uint8_t *text, uint64_t text_len, uint32_t leaf, uint32_t arity, uint32_t levels, const uint8_t *counted, uint64_t counted_len,
                          uint32_t *work, uint64_t work_len, uint8_t *out, uint64_t out_len, uint32_t *size, uint32_t *windows);

/* The number of words that the table of bt_build_scanned must have for a text of n bytes: 4 * (n / leaf, rounded up), and 0 if leaf is 0. */
uint64_t bt_scan_words(uint32_t n, uint32_t leaf);

/* Write a tree in layout 1, without its edges. It is never larger; bt_check accepts it if it accepts the tree, and every question then has the same answer,
 * with two exceptions: bt_run_range returns an offset into the written tree, and bt_span finds each byte by its path and reports 0 blocks entered.
 *   reads     tree: any bytes
 *   writes    out: the tree in its first *size bytes, the rest unchanged; unchanged if the call is refused
 *             *size: its size; a buffer of tree_len bytes is always large enough. A tree of layout 1 is copied
 *   returns   0, 5, 6, 7, 13
 * tree and out must not overlap. */
uint32_t bt_without_edges(const uint8_t *tree, uint64_t tree_len, uint8_t *out, uint64_t out_len, uint64_t *size);

/* The size bound: no tree of a text of n bytes with `counted` counted bytes is larger. It holds for the tree that bt_build makes, and for any tree of either
 * layout that bt_check accepts.
 *   writes    *size: the size in bytes
 *   returns   0, 1, 2, 3 */
uint32_t bt_size_bound(uint32_t n, uint32_t leaf, uint32_t arity, uint32_t levels, uint32_t counted, uint64_t *size);

/* Check a tree: whether its layout, header and blocks are right, and its counts and edges are those of its text. It need not be the tree that bt_build makes.
 *   reads     tree
 *   returns   0, 5 to 9 */
uint32_t bt_check(const uint8_t *tree, uint64_t tree_len);

/* The indices of bt_info's figures. */
enum bt_figure {
    BT_FIGURE_LAYOUT = 0,    /* 1 or 2 */
    BT_FIGURE_LENGTH = 1,    /* n, the bytes of the text */
    BT_FIGURE_LEAF = 2,      /* the settings: leaf length, arity, levels */
    BT_FIGURE_ARITY = 3,
    BT_FIGURE_LEVELS = 4,
    BT_FIGURE_LEAF_BYTES = 5, /* leaf bytes that are stored */
    BT_FIGURE_COUNTED = 6,   /* the number of counted bytes */
    BT_FIGURE_BYTE = 7,      /* the first counted byte, then the others, ascending: BT_MAX_COUNTED figures */
    BT_FIGURE_TOTAL = 11,    /* the total of the first counted byte, then of the others: BT_MAX_COUNTED figures */
    BT_FIGURE_BLOCKS = 15    /* the number of blocks of level 0, then of the others: BT_MAX_LEVELS figures */
};

/* The figures of a tree's header, and how often each counted byte occurs in the text by the tree's totals, which are right if bt_check accepts the tree.
 * Figures of counted bytes and levels that the tree does not have are 0. bt_row_count returns the number of rows.
 *   reads     tree
 *   writes    figures: BT_FIGURES of them, by enum bt_figure; all 0 on a refusal
 *   returns   0, 5, 6, 7 */
uint32_t bt_info(const uint8_t *tree, uint64_t tree_len, uint64_t *figures);

/* Access: the byte at a place of the text.
 *   reads     tree
 *   writes    *value: the byte; *entered: the number of blocks entered
 *   returns   0, 5, 6, 7, 10, 14 */
uint32_t bt_byte(const uint8_t *tree, uint64_t tree_len, uint32_t place, uint32_t *value, uint32_t *entered);

/* The longest contiguous range of the tree's leaf bytes that is the text from a place on, to be read without a copy.
 *   reads     tree
 *   writes    *offset: where the range starts in the tree's bytes; *length: its length, at least 1
 *   returns   0, 5, 6, 7, 10, 14 */
uint32_t bt_run_range(const uint8_t *tree, uint64_t tree_len, uint32_t place, uint64_t *offset, uint32_t *length);

/* Copy `length` bytes of the text from a place on. If the tree has layout 2 and `length` is 1 to leaf, one short walk reads them from edges or leaf bytes.
 *   reads     tree
 *   writes    buffer: its first `length` bytes, the rest unchanged; on BT_PATH zeros in the first `length` bytes; unchanged on any other refusal
 *             *entered: the number of blocks that this walk enters, at most twice the levels; 0 for any other span
 *   returns   0, 5, 6, 7, 10, 13, 14 */
uint32_t bt_span(const uint8_t *tree, uint64_t tree_len, uint32_t place, uint32_t length, uint8_t *buffer, uint64_t buffer_len, uint32_t *entered);

/* Rank: how often a byte occurs in the first i bytes of the text.
 *   reads     tree
 *   writes    *count: how often; *entered: the number of blocks entered (0 for i = 0)
 *   returns   0, 5, 6, 7, 10, 11 (also for a byte above 255), 14 */
uint32_t bt_count(const uint8_t *tree, uint64_t tree_len, uint32_t byte, uint32_t i, uint64_t *count, uint32_t *entered);

/* Select: the place of the j-th occurrence of a byte, j from 1.
 *   reads     tree
 *   writes    *place: where it is; *entered: the number of blocks on the path of that place
 *   returns   0, 5, 6, 7, 11 (also for a byte above 255), 12, 14 */
uint32_t bt_find(const uint8_t *tree, uint64_t tree_len, uint32_t byte, uint32_t j, uint32_t *place, uint32_t *entered);

/* Copy row q, q from 1. A row ends with a byte 10, or with a byte 13 and a byte 10; the end is not copied. Bytes after the last byte 10, or a text without
 * any, are a row of their own, which keeps a byte 13 at its end. Byte 10 must be counted. BT_NO_SUCH: the text has no row q.
 *   reads     tree
 *   writes    buffer: the row in its first *length bytes, the rest unchanged; on BT_PATH unchanged, or zeros in its first part; unchanged on any
 *             other refusal
 *             *length: the row's length
 *   returns   0, 5, 6, 7, 11, 12, 13, 14 */
uint32_t bt_row(const uint8_t *tree, uint64_t tree_len, uint32_t q, uint8_t *buffer, uint64_t buffer_len, uint32_t *length);

/* The length of row q: on a tree that bt_check accepts, a buffer of *length bytes is enough for bt_row.
 *   reads     tree
 *   writes    *length: the row's length
 *   returns   0, 5, 6, 7, 11, 12, 14 */
uint32_t bt_row_length(const uint8_t *tree, uint64_t tree_len, uint32_t q, uint32_t *length);

/* The number of rows of the text: the total of byte 10, and one more if the text's last byte is another one.
 *   reads     tree
 *   writes    *rows: the number of rows
 *   returns   0, 5, 6, 7, 11 (byte 10 is not counted), 14 (the last byte's path breaks) */
uint32_t bt_row_count(const uint8_t *tree, uint64_t tree_len, uint64_t *rows);

/* Locate: all places of the text where a pattern of 1 to BT_MAX_PATTERN bytes occurs; occurrences may overlap.
 *   reads     tree, pattern
 *   writes    table: the places in its first *number words, ascending, the rest unchanged; unchanged on any refusal
 *             *number: the number of places, 0 if the pattern does not occur
 *   returns   0, 5, 6, 7, 16, 14, 17
 * A table of bt_places_words words is always enough. With 0 words the call decides whether the pattern occurs in the text: BT_TABLE if it does, BT_OK if
 * not. The text is read once, and once more if there are more than 256 places and the table has fewer words than bt_places_words; the search takes at most two steps on
 * average for each byte read, whatever the pattern. */
uint32_t bt_places(const uint8_t *tree, uint64_t tree_len, const uint8_t *pattern, uint64_t pattern_len, uint32_t *table, uint64_t words, uint32_t *number);

/* A bound of the places of any pattern of `length` bytes: n - length + 1, or 0 if it is longer than the text. With a table of this many words
 * bt_places never returns BT_TABLE.
 *   reads     tree
 *   writes    *words: the number of words
 *   returns   0, 5, 6, 7, 16 */
uint32_t bt_places_words(const uint8_t *tree, uint64_t tree_len, uint32_t length, uint32_t *words);

/* A worn key: move a mark to the next row that matches. Rows are those of bt_row. A row is a key if it has a code of 1 to 12 bytes without a space, one
 * space, and 1 to 10 digits, its cuts. A key matches if it has one cut for each range, with a depth in that range.
 *   reads     tree, ranges: for each cut its low and its high depth, 0 to 9, a byte each; 2 to 2 * BT_MAX_CUTS bytes
 *   writes    *mark is in and out: the number of the last row returned, 0 before the first call. It moves to the returned row; if no row after it matches,
 *             to the number of rows, unless it is there or above already. A refusal leaves it unchanged
 *             *row: the returned row; 0 with BT_OK means that there is no further match
 *   returns   0, 5, 6, 7, 19, 11 (byte 10 is not counted), 14
 * Repeated calls from mark 0 with the same ranges, until *row is 0, return each match once, in row order. A call reads the text from the mark to the match
 * once. */
uint32_t bt_next_match(const uint8_t *tree, uint64_t tree_len, const uint8_t *ranges, uint64_t ranges_len, uint32_t *mark, uint32_t *row);

/* Rows by prefix: moves a mark to the next row that starts with a prefix, say a code and the space after it. Rows are those of bt_row: a byte
 * 13 directly before the byte 10 that ends a row is not part of it. No row starts with a prefix that contains a byte 10.
 *   reads     tree; prefix, 1 to BT_MAX_PATTERN bytes
 *   writes    *mark is in and out, as for bt_next_match: 0 before the first call. It moves to the returned row; if no row after it starts with the prefix,
 *             to the number of rows, unless it is there or above already. A refusal leaves it unchanged
 *             *row: the returned row; 0 with BT_OK means that there is none
 *   returns   0, 5, 6, 7, 16, 11 (byte 10 is not counted), 14
 * Repeated calls from mark 0 with the same prefix, until *row is 0, return each row that starts with the prefix once, in row order. A call finds the end of
 * the mark's row (bt_find) and reads the text from there to the end of the returned row. */
uint32_t bt_next_with_prefix(const uint8_t *tree, uint64_t tree_len, const uint8_t *prefix, uint64_t prefix_len, uint32_t *mark, uint32_t *row);

/* Columns before rows, a matrix transposition: the rows of the text all have `width` bytes, end byte included. With rows and columns counted from 0, the
 * byte of row a and column b moves to place b * rows + a. Columns of such a book often repeat more than rows, so the tree of the result can be smaller.
 *   reads     text, of any length
 *   writes    out: the rearranged text in its first text_len bytes, the rest unchanged; unchanged on a refusal
 *   returns   0, 20 (also width 0 of an empty text), 21
 * text and out must not overlap. */
uint32_t bt_to_columns(const uint8_t *text, uint64_t text_len, uint32_t width, uint8_t *out, uint64_t out_len);

/* The inverse of bt_to_columns for the same width, with the same arguments and results. */
uint32_t bt_from_columns(const uint8_t *text, uint64_t text_len, uint32_t width, uint8_t *out, uint64_t out_len);

/* Row a, from 0, from the tree of a text that bt_to_columns rearranged for this width: all width bytes, the end byte included. A tree does not contain the
 * information that its text is rearranged.
 *   reads     tree
 *   writes    buffer: the row in its first width bytes, the rest unchanged. BT_PATH leaves zeros in the first width bytes; any other refusal leaves it
 *             unchanged
 *   returns   0, 5, 6, 7, 20 (by the tree's text length), 10 (a is not below the number of rows), 13, 14 (the path of one of the row's bytes breaks) */
uint32_t bt_row_by_columns(const uint8_t *tree, uint64_t tree_len, uint32_t width, uint32_t a, uint8_t *buffer, uint64_t buffer_len);

/* The SHA-256 (FIPS 180-4) of a tree's text, read part by part: of the bytes that the tree's paths give, which are the one text that fits a tree that
 * bt_check accepts. Check first: on other trees the paths can give bytes of no text.
 *   reads     tree
 *   writes    out: the digest in its first 32 bytes, the rest unchanged. BT_PATH leaves zeros in the first 32 bytes; any other refusal leaves it unchanged
 *   returns   0, 5, 6, 7, 13 (out has fewer than 32 bytes), 14 (the path of some place of the text breaks) */
uint32_t bt_digest(const uint8_t *tree, uint64_t tree_len, uint8_t *out, uint64_t out_len);

/* The SHA-256 of a text, or of any other bytes. bt_digest of the tree that bt_build makes of a text is the same.
 *   reads     text
 *   writes    out: the digest in its first 32 bytes, the rest unchanged; unchanged on a refusal
 *   returns   0, 13 */
uint32_t bt_digest_text(const uint8_t *text, uint64_t text_len, uint8_t *out, uint64_t out_len);

/* A guide (sampled select directory) is a file in addition to a tree. It has little-endian 32-bit words: for each counted byte in turn, the number
 * of the block of level 0 with occurrence 1, 65, 129, .. of the byte. bt_find and bt_row step through level 0 from its first block; with a guide they
 * start at an entry. The number of words of the guide of a tree:
 *   reads     tree
 *   writes    *words: for each counted byte its total / 64, rounded up, summed; the guide has four bytes for each
 *   returns   0, 5, 6, 7 */
uint32_t bt_guide_words(const uint8_t *tree, uint64_t tree_len, uint64_t *words);

/* Make the guide of a tree that bt_check accepts.
 *   reads     tree, table
 *   writes    table: the guide in its first 4 * *words bytes, the rest unchanged; unchanged on any refusal. *words: its number of words
 *   returns   0, 5 to 9, 25 */
uint32_t bt_make_guide(const uint8_t *tree, uint64_t tree_len, uint8_t *table, uint64_t table_len, uint64_t *words);

/* Check a tree and its guide: 0 exactly for a tree that bt_check accepts and the bytes that bt_make_guide writes for it.
 *   reads     tree, guide
 *   returns   0, 5 to 9, 24 */
uint32_t bt_check_guide(const uint8_t *tree, uint64_t tree_len, const uint8_t *guide, uint64_t guide_len);

/* Find with a guide. For a tree and a guide that bt_check_guide accepts, the place and the blocks are bt_find's. Any bytes may be given as a guide: with
 * another one, or on a tree that bt_check refuses, it may return any place below n with any figures, or BT_PATH.
 *   reads     tree, guide
 *   writes    *place, *entered as bt_find; *steps: the number of steps on level 0: with an accepted guide the number of the level 0 block that contains
 *             the place, minus entry (j - 1) / 64 of the byte
 *   returns   0, 5, 6, 7, 11, 12, 14 */
uint32_t bt_find_guided(const uint8_t *tree, uint64_t tree_len, const uint8_t *guide, uint64_t guide_len, uint32_t byte, uint32_t j, uint32_t *place,
                        uint32_t *entered, uint32_t *steps);

/* Row with a guide, by such finds. For a tree and a guide that bt_check_guide accepts it returns what bt_row returns; else what bt_row may return on a
 * tree that bt_check refuses: on an accepted tree it still copies bytes of the text, but from any place on.
 *   reads     tree, guide, buffer
 *   writes    buffer, *length as bt_row
 *   returns   0, 5, 6, 7, 11, 12, 13, 14 */
uint32_t bt_row_guided(const uint8_t *tree, uint64_t tree_len, const uint8_t *guide, uint64_t guide_len, uint32_t q, uint8_t *buffer, uint64_t buffer_len,
                       uint32_t *length);

/* bt_next_with_prefix with a guide: the end of the mark's row is found from an entry of the guide on. Repeated calls on a tree with many blocks of level 0
 * spend most of their time in that find, which a guide makes short.
 *   reads     tree; guide; prefix, 1 to BT_MAX_PATTERN bytes
 *   writes    *mark, *row: as bt_next_with_prefix
 *   returns   0, 5, 6, 7, 16, 11, 14. If bt_check_guide accepts the guide, what bt_next_with_prefix returns; else any row after the mark, none, or BT_PATH */
uint32_t bt_next_with_prefix_guided(const uint8_t *tree, uint64_t tree_len, const uint8_t *guide, uint64_t guide_len, const uint8_t *prefix,
                                    uint64_t prefix_len, uint32_t *mark, uint32_t *row);

/* The order of the first of two trees, by bt_compare. */
enum bt_ordering { BT_BEFORE = 1, BT_SAME = 2, BT_AFTER = 3 };

/* The lexicographic order of two trees' texts, byte by byte as unsigned numbers; a text that is a prefix of the other comes first. The trees may have any
 * settings and layouts, and may be the same memory.
 *   reads     one, other
 *   writes    *order: the order of one, BT_BEFORE, BT_SAME or BT_AFTER; *shared: the length of the longest common prefix
 *             *first: the tree that comes first, 1 for one (also if the texts are equal) or 2 for other
 *   returns   0, 5, 6, 7 of one, 5, 6, 7 of other, 14
 * On trees that bt_check accepts it is a total order on the texts, so trees can be sorted by it. Both are read from their start until they differ or one
 * ends, and no further: a path that breaks after that gives no BT_PATH. */
uint32_t bt_compare(const uint8_t *one, uint64_t one_len, const uint8_t *other, uint64_t other_len, uint32_t *order, uint32_t *shared, uint32_t *first);

/* The lines of the list program: one for each level, "level blocks kept pointing".
 *   reads     tree
 *   writes    out: the lines in its first *length bytes, at most BT_LIST_LENGTH; *length: their length. A refusal leaves out unchanged
 *   returns   0, 15, 5 to 9, 13 if the lines do not fit out */
uint32_t bt_list(const uint8_t *tree, uint64_t tree_len, uint8_t *out, uint64_t out_len, uint32_t *length);

/* Licence dates. These calls read no tree. A day is eight bytes '0' to '9', year, month and day (ISO 8601, basic form), of the Gregorian
 * calendar and of the years 2000 to 2099: "20240229". Anything else, of any length, is refused with BT_DATE. */

/* Whether a book licensed from a first to a last day, both included, is open on a day.
 *   reads     first, last, today
 *   writes    *is_open: 1 for open, 0 for closed
 *   returns   0, 22 (one of the three is not a date), 23 (the last is before the first) */
uint32_t bt_open_on(const uint8_t *first, uint64_t first_len, const uint8_t *last, uint64_t last_len, const uint8_t *today, uint64_t today_len,
                    uint32_t *is_open);

/* The days left, last minus today.
 *   reads     last, today
 *   writes    *days: 0 on the last day, negative after it; -36,524 to 36,524
 *   returns   0, 22 */
uint32_t bt_days_left(const uint8_t *last, uint64_t last_len, const uint8_t *today, uint64_t today_len, int32_t *days);

/* Renew: move a day by one year, 29 February to 28 February.
 *   writes    day is in and out; unchanged on a refusal
 *   returns   0, 22 (it is not a date, or its year is 2099) */
uint32_t bt_renew(uint8_t *day, uint64_t day_len);

#ifdef __cplusplus
}
#endif

#endif
