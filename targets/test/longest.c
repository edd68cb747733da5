/* Builds, checks and reads the tree of the longest text, 8 MiB, by every kind of question. The lines must be the same on every processor. */
#include "os.h"

#include "blocktree.h"

#define LEAF 256u
#define ARITY 8u
#define LEVELS 3u
#define TREE 7340032u
#define PLACES 4096u

static uint8_t text[BT_MAX_TEXT + 1], tree[TREE], row[64], guide[131072];
static uint32_t work[4 * (BT_MAX_TEXT / LEAF)], places[PLACES];
static const uint8_t counted[] = {10, '3'};

/* 1 MiB of rows, then long copies: a tree of some 5 MB, which a board with 16 MB holds beside the text. */
static void make_text(void)
{
    uint32_t at = 0;
    while (at < BT_MAX_TEXT) {
        if (at >= 1048576) {
            uint32_t from = below(at - 600000);
            for (uint32_t n = 200000 + below(400000); n && at < BT_MAX_TEXT; n--) text[at++] = text[from++];
            continue;
        }
        text[at++] = 'C', text[at++] = 'H';
        for (int i = 0; i < 4; i++) text[at++] = (uint8_t)('0' + below(10));
        text[at++] = ' ';
        for (int i = 0; i < 6; i++) text[at++] = (uint8_t)('1' + below(5));
        text[at++] = 10;
    }
}

static void say_line(const char *name, uint64_t x)
{
    say(name), say(" "), say_number(x), say("\n");
}

static void ask(uint32_t size)
{
    uint32_t first = 0, second = 0;
    uint64_t large = 0;
    const uint32_t place = below(BT_MAX_TEXT), byte = counted[below(2)], i = below(BT_MAX_TEXT), j = 1 + below(700000), q = 1 + below(700000);
    mix(bt_byte(tree, size, place, &first, &second)), mix(first), mix(second);
    mix(bt_count(tree, size, byte, i, &large, &second)), mix(large), mix(second);
    mix(bt_find(tree, size, byte, j, &first, &second)), mix(first), mix(second);
    mix(bt_span(tree, size, place, 40, row, sizeof row, &second)), mix(second), mix_bytes(row, sizeof row);
    mix(bt_row(tree, size, q, row, sizeof row, &first)), mix(first), mix_bytes(row, sizeof row);
}

int run(int words, char **word)
{
    uint32_t size = 0, windows = 0, number = 0;
    uint64_t large = 0;
    uint8_t digest[BT_DIGEST];
    (void)words, (void)word;
    make_text();
    say_line("one byte too many", bt_build_scanned(text, BT_MAX_TEXT + 1ull, LEAF, ARITY, LEVELS, counted, 2, work, sizeof work / 4, tree, TREE, &size, &windows));
    say_line("build", bt_build_scanned(text, BT_MAX_TEXT, LEAF, ARITY, LEVELS, counted, 2, work, sizeof work / 4, tree, TREE, &size, &windows));
    mix_bytes(tree, size);
    say_line("size", size), say_line("windows", windows), say_line("hash", hash);
    say_line("check", bt_check(tree, size));
    say_line("rows", bt_row_count(tree, size, &large)), say_line("number", large);
    for (uint32_t i = 0; i < 4000; i++) ask(size);
    say_line("answers", hash);
    say_line("digest", bt_digest(tree, size, digest, sizeof digest)), say_hex(digest, sizeof digest), say("\n");
    say_line("places", bt_places(tree, size, (const uint8_t *)"CH0503 3", 8, places, PLACES, &number)), say_line("number", number);
    for (uint32_t i = 0; i < number; i++) mix(places[i]);
    say_line("guide", bt_make_guide(tree, size, guide, sizeof guide, &large)), mix_bytes(guide, sizeof guide), say_line("words", large);
    say_line("hash", hash);
    return 0;
}
