/* A reader and a builder for conformance/run.py over the C interface.
 *
 *     answers                                               questions on standard input, answers on standard output, one to a line
 *     answers build BOOK leaf arity levels COUNTED TREE     writes the tree, by both builders, or ends with the refusal's number; COUNTED is 10,65 or none */
#include "os.h"

#include "blocktree.h"

#define ROOM 262144u
#define WORDS 65536u
#define DIFFERENT 99 /* the builders differ, or a file cannot be read or written */

static uint8_t tree[ROOM], other[ROOM], buffer[ROOM], lent[4096];
static uint32_t table[WORDS];
static uint64_t tree_len;

static uint64_t file(const char *path, uint8_t *bytes)
{
    const long n = os_read(path, bytes, ROOM);
    return n < 0 ? 0 : (uint64_t)n;
}

static uint32_t digit(char c) { return (uint32_t)(c <= '9' ? c - '0' : c - 'a' + 10); }

/* Reads bytes in hexadecimal, - for none. Returns their number. */
static uint32_t from_hex(const char *word)
{
    uint32_t n = 0;
    for (; word[0] && word[1]; word += 2) lent[n++] = (uint8_t)(digit(word[0]) << 4 | digit(word[1]));
    return n;
}

/* Reads numbers separated by , or - as little-endian numbers of `width` bytes. Returns the number of bytes. */
static uint32_t from_list(const char *word, uint32_t width)
{
    uint32_t n = 0;
    if (equal(word, "-") || equal(word, "none")) return 0;
    while (*word) {
        const uint32_t x = number_of(word);
        for (uint32_t i = 0; i < width; i++) lent[n++] = (uint8_t)(x >> (8 * i));
        while (*word >= '0' && *word <= '9') word++;
        if (*word) word++;
    }
    return n;
}

/* LOW-HIGH,LOW-HIGH,.. or the same bytes in hexadecimal. */
static uint32_t from_ranges(const char *word)
{
    for (const char *at = word + 1; word[0] && *at; at++) {
        if (*at == '-') return from_list(word, 1);
    }
    return from_hex(word);
}

static void say_figure(uint64_t x)
{
    say(" ");
    say_number(x);
}
static void say_figures(uint32_t number, uint64_t one, uint64_t other_one)
{
    say_number(number);
    say_figure(one);
    say_figure(other_one);
}
/* The refusal, and the bytes of the buffer: none if the call is refused. */
static void say_bytes(uint32_t number, uint64_t n)
{
    say_number(number);
    say(" ");
    if (number || !n) say("-");
    else say_hex(buffer, (uint32_t)n);
}
static void say_words(uint32_t number, const uint32_t *words, uint64_t n)
{
    say_number(number);
    say(" ");
    for (uint64_t i = 0; i < n; i++) {
        if (i) say(",");
        say_number(words[i]);
    }
    if (!n) say("-");
}

static uint32_t first, second, third;
static uint64_t large;

static void ask_check(char **word) { (void)word, say_number(bt_check(tree, tree_len)); }
static void ask_byte(char **word)
{
    const uint32_t number = bt_byte(tree, tree_len, number_of(word[0]), &first, &second);
    say_figures(number, first, second);
}
static void ask_run(char **word)
{
    const uint32_t number = bt_run_range(tree, tree_len, number_of(word[0]), &large, &second);
    say_figures(number, large, second);
}
static void ask_count(char **word)
{
    const uint32_t number = bt_count(tree, tree_len, number_of(word[0]), number_of(word[1]), &large, &second);
    say_figures(number, large, second);
}
static void ask_find(char **word)
{
    const uint32_t number = bt_find(tree, tree_len, number_of(word[0]), number_of(word[1]), &first, &second);
    say_figures(number, first, second);
}
static void ask_span(char **word)
{
    const uint32_t length = number_of(word[1]), number = bt_span(tree, tree_len, number_of(word[0]), length, buffer, ROOM, &first);
    say_number(number);
    say_figure(first);
    say(" ");
    if (number || !length) say("-");
    else say_hex(buffer, length);
}
static void ask_row(char **word)
{
    const uint32_t number = bt_row(tree, tree_len, number_of(word[0]), buffer, ROOM, &first);
    say_bytes(number, first);
}
static void ask_column(char **word)
{
    const uint32_t width = number_of(word[0]);
    say_bytes(bt_row_by_columns(tree, tree_len, width, number_of(word[1]), buffer, ROOM), width);
}
static void ask_places(char **word)
{
    const uint32_t number = bt_places(tree, tree_len, lent, from_hex(word[0]), table, WORDS, &first);
    say_words(number, table, first);
}
static void ask_match(char **word)
{
    const uint32_t n = from_ranges(word[0]);
    first = number_of(word[1]);
    const uint32_t number = bt_next_match(tree, tree_len, lent, n, &first, &second);
    say_figures(number, second, first);
}
static void ask_prefix(char **word)
{
    const uint32_t n = from_hex(word[0]);
    first = number_of(word[1]);
    const uint32_t number = bt_next_with_prefix(tree, tree_len, lent, n, &first, &second);
    say_figures(number, second, first);
}
static void ask_digest(char **word) { (void)word, say_bytes(bt_digest(tree, tree_len, buffer, ROOM), BT_DIGEST); }
static void query_guide(char **word)
{
    const uint32_t number = bt_make_guide(tree, tree_len, buffer, ROOM, &large);
    (void)word;
    for (uint64_t i = 0; i < large; i++) {
        const uint8_t *at = buffer + 4 * i;
        table[i] = at[0] | (uint32_t)at[1] << 8 | (uint32_t)at[2] << 16 | (uint32_t)at[3] << 24;
    }
    say_words(number, table, large);
}
static void ask_guidecheck(char **word) { say_number(bt_check_guide(tree, tree_len, lent, from_list(word[0], 4))); }
static void query_guided(char **word)
{
    const uint32_t n = from_list(word[0], 4);
    say_figures(bt_find_guided(tree, tree_len, lent, n, number_of(word[1]), number_of(word[2]), &first, &second, &third), first, second);
    say_figure(third);
}
static void ask_prefix_guided(char **word)
{
    const uint32_t guide_len = from_list(word[0], 4);
    for (uint32_t i = 0; i < guide_len; i++) buffer[i] = lent[i];
    const uint32_t n = from_hex(word[1]);
    first = number_of(word[2]);
    const uint32_t number = bt_next_with_prefix_guided(tree, tree_len, buffer, guide_len, lent, n, &first, &second);
    say_figures(number, second, first);
}
static void query_compare(char **word)
{
    static const char *const orders[] = {" -", " before", " same", " after"};
    const uint64_t n = file(word[0], other);
    say_number(bt_compare(tree, tree_len, other, n, &first, &second, &third));
    say(orders[first & 3]);
    say_figure(second);
    say_figure(third);
}
static void ask_without_edges(char **word)
{
    const uint32_t number = bt_without_edges(tree, tree_len, buffer, ROOM, &large);
    (void)word;
    say_bytes(number, large);
}
static void ask_list(char **word)
{
    const uint32_t number = bt_list(tree, tree_len, buffer, BT_LIST_LENGTH, &first);
    (void)word;
    if (number) {
        say("refused ");
        say_number(number);
        say("/");
    }
    for (uint32_t i = 0; i < first; i++) os_out(buffer[i] == '\n' ? "/" : (const char *)buffer + i, 1);
}

static const struct {
    const char *name;
    int words; /* after the tree */
    void (*ask)(char **);
} questions[] = {
    {"check", 0, ask_check}, {"byte", 1, ask_byte}, {"run", 1, ask_run}, {"count", 2, ask_count}, {"find", 2, ask_find}, {"span", 2, ask_span},
    {"row", 1, ask_row}, {"column", 2, ask_column}, {"places", 1, ask_places}, {"match", 2, ask_match}, {"prefix", 2, ask_prefix},
    {"digest", 0, ask_digest}, {"guide", 0, query_guide}, {"guidecheck", 1, ask_guidecheck}, {"guided", 3, query_guided},
    {"prefix_guided", 3, ask_prefix_guided}, {"order", 1, query_compare},
    {"without_edges", 0, ask_without_edges}, {"list", 0, ask_list},
};

static void answer(int words, char **word)
{
    for (unsigned i = 0; i < sizeof questions / sizeof *questions; i++) {
        if (!equal(questions[i].name, word[0]) || words != questions[i].words + 2) continue;
        tree_len = file(word[1], tree);
        questions[i].ask(word + 2);
        return;
    }
    say("no such question");
}

static int build(char **word)
{
    const uint64_t n = file(word[0], other);
    const uint32_t leaf = number_of(word[1]), arity = number_of(word[2]), levels = number_of(word[3]), counted = from_list(word[4], 1);
    const uint32_t number = bt_build(other, n, leaf, arity, levels, lent, counted, tree, ROOM, &first);
    const uint32_t again = bt_build_scanned(other, n, leaf, arity, levels, lent, counted, table, WORDS, buffer, ROOM, &second, &third);
    if (number != again || first != second) return DIFFERENT;
    for (uint32_t i = 0; i < first; i++) {
        if (tree[i] != buffer[i]) return DIFFERENT;
    }
    if (number) return (int)number;
    return os_write(word[5], tree, (long)first) ? DIFFERENT : 0;
}

int run(int words, char **word)
{
    static char line[4096];
    if (words == 8 && equal(word[1], "build")) return build(word + 2);
    while (os_line(line, sizeof line) >= 0) {
        char *part[8], *at = line;
        int n = 0;
        while (*at && n < 8) {
            part[n++] = at;
            while (*at && *at != ' ') at++;
            if (*at) *at++ = 0;
        }
        answer(n, part);
        say("\n");
    }
    return 0;
}
