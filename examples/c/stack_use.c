/* Measures the stack of each call: the call runs on a stack that was filled with a pattern, and the overwritten bytes are counted. The
 * trees have eight levels, the maximum. Prints a line for each call: its name and bytes of stack.
 *
 *   gcc -std=gnu99 -Iinclude examples/c/stack_use.c target/libblocktree.a -o stack_use && ./stack_use
 */
#include <stdio.h>
#include <stdlib.h>
#include <string.h>
#include <ucontext.h>

#include "blocktree.h"

#define STACK 262144
#define TEXT 200000
#define TREE 40000000

static uint8_t stack[STACK], text[TEXT], turned[TEXT], row[TEXT], small[65536], *tree, *guide, *smaller;
static uint32_t *table, small_size, size, place, number, third, words32;
static uint64_t large, words;
static ucontext_t here, there;
static const uint8_t counted[] = {10, 48, 49, 50}, ranges[] = {1, 5, 1, 5, 0, 9, 0, 9, 0, 9};
static uint8_t day[] = "20240229";

static void nothing(void) {}
static void build(void) { bt_build(text, 20000, 2, 3, 8, counted, 4, tree, TREE, &size); }
static void build_scanned(void) { bt_build_scanned(text, TEXT, 2, 3, 8, counted, 4, table, words32, tree, TREE, &size, &number); }
static void size_bound(void) { bt_size_bound(TEXT, 2, 3, 8, 4, &large); }
static void scan_words(void) { words32 = (uint32_t)bt_scan_words(TEXT, 2); }
static void check(void) { number = bt_check(tree, size); }
static void byte(void) { for (uint32_t p = 0; p < TEXT; p += 7) bt_byte(tree, size, p, &place, &third); }
static void run(void) { for (uint32_t p = 0; p < TEXT; p += 7) bt_run_range(tree, size, p, &large, &third); }
static void span(void) { for (uint32_t p = 0; p < TEXT - 40; p += 7) bt_span(tree, size, p, 1 + p % 40, row, TEXT, &third); }
static void count(void) { for (uint32_t p = 0; p < TEXT; p += 7) bt_count(tree, size, 49, p, &large, &third); }
static void find(void) { for (uint32_t j = 1; j < 6000; j += 7) bt_find(tree, size, 10, j, &place, &third); }
static void rows(void) { for (uint32_t q = 1; q < 6000; q += 7) bt_row(tree, size, q, row, TEXT, &third); }
static void version(void) { number = bt_version(); }
static void info(void) { uint64_t figures[BT_FIGURES]; bt_info(tree, size, figures); }
static void row_length(void) { for (uint32_t q = 1; q < 6000; q += 7) bt_row_length(tree, size, q, &third); }
static void row_count(void) { bt_row_count(tree, size, &large); }
static void places_words(void) { bt_places_words(tree, size, 1, &third); }
static void places(void) { bt_places(tree, size, (const uint8_t *)"1", 1, table, words32, &number); }
static void next_match(void) { uint32_t mark = 0; do bt_next_match(tree, size, ranges, sizeof ranges, &mark, &number); while (number && mark < 500); }
static void next_with_prefix(void) { uint32_t mark = 0; do bt_next_with_prefix(tree, size, (const uint8_t *)"K0", 2, &mark, &number); while (number && mark < 500); }
static void to_columns(void) { bt_to_columns(text, TEXT, 10, turned, TEXT); }
static void from_columns(void) { bt_from_columns(text, TEXT, 10, turned, TEXT); }
static void column_row(void) { bt_row_by_columns(tree, size, 10, 5, row, TEXT); }
static void digest(void) { uint8_t out[BT_DIGEST]; bt_digest(tree, size, out, sizeof out); }
static void digest_text(void) { uint8_t out[BT_DIGEST]; bt_digest_text(text, TEXT, out, sizeof out); }
static void guide_words(void) { bt_guide_words(tree, size, &words); }
static void make_guide(void) { bt_make_guide(tree, size, guide, 4 * words, &large); }
static void check_guide(void) { bt_check_guide(tree, size, guide, 4 * words); }
static void find_guided(void) { for (uint32_t j = 1; j < 6000; j += 7) bt_find_guided(tree, size, guide, 4 * words, 10, j, &place, &third, &number); }
static void row_guided(void) { for (uint32_t q = 1; q < 6000; q += 7) bt_row_guided(tree, size, guide, 4 * words, q, row, TEXT, &third); }
static void next_with_prefix_guided(void) { uint32_t mark = 0; do bt_next_with_prefix_guided(tree, size, guide, 4 * words, (const uint8_t *)"K0", 2, &mark, &number); while (number && mark < 500); }
static void order(void) { bt_compare(tree, size, tree, size, &place, &third, &number); }
static void without_edges(void) { bt_without_edges(tree, size, smaller, TREE, &large); }
static void list(void) { bt_list(small, small_size, row, TEXT, &third); }
static void open_on(void) { bt_open_on(day, 8, day, 8, day, 8, &number); }
static void days_left(void) { int32_t left; bt_days_left(day, 8, day, 8, &left); }
static void renew(void) { uint8_t lent[8]; memcpy(lent, day, 8); bt_renew(lent, 8); }

static void (*called)(void);
static void on_stack(void) { called(); }

/* Bytes of the stack that a function overwrites. */
static size_t used(void (*function)(void))
{
    memset(stack, 0xA5, STACK);
    called = function;
    getcontext(&there);
    there.uc_stack.ss_sp = stack;
    there.uc_stack.ss_size = STACK;
    there.uc_link = &here;
    makecontext(&there, on_stack, 0);
    swapcontext(&here, &there);
    size_t free_bytes = 0;
    while (free_bytes < STACK && stack[free_bytes] == 0xA5) free_bytes++;
    return STACK - free_bytes;
}

/* Rows that repeat, so that blocks of every level point. */
static void write_text(void)
{
    uint32_t seed = 1;
    size_t at = 0;
    while (at + 10 <= TEXT) {
        seed = seed * 1664525u + 1013904223u;
        if (seed >> 30 && at >= 8000) {
            size_t length = at + 2000 <= TEXT ? 2000 : 10;
            memcpy(text + at, text + seed % 600 * 10, length);
            at += length;
        } else {
            char line[16];
            snprintf(line, sizeof line, "K%02u %05u", (unsigned)(at / 10 % 100), (unsigned)(seed >> 8) % 100000);
            memcpy(text + at, line, 9);
            text[at + 9] = '\n';
            at += 10;
        }
    }
}

int main(void)
{
    static const struct { const char *name; void (*function)(void); } calls[] = {
        {"bt_scan_words", scan_words}, {"bt_size_bound", size_bound}, {"bt_build", build}, {"bt_build_scanned", build_scanned}, {"bt_check", check},
        {"bt_byte", byte}, {"bt_run_range", run}, {"bt_span", span}, {"bt_count", count}, {"bt_find", find}, {"bt_row", rows}, {"bt_places", places},
        {"bt_version", version}, {"bt_info", info}, {"bt_row_length", row_length}, {"bt_row_count", row_count}, {"bt_places_words", places_words},
        {"bt_next_match", next_match}, {"bt_next_with_prefix", next_with_prefix}, {"bt_to_columns", to_columns}, {"bt_from_columns", from_columns}, {"bt_row_by_columns", column_row},
        {"bt_digest", digest}, {"bt_digest_text", digest_text},
        {"bt_guide_words", guide_words}, {"bt_make_guide", make_guide}, {"bt_check_guide", check_guide}, {"bt_find_guided", find_guided},
        {"bt_row_guided", row_guided}, {"bt_next_with_prefix_guided", next_with_prefix_guided}, {"bt_compare", order}, {"bt_without_edges", without_edges}, {"bt_list", list},
        {"bt_open_on", open_on}, {"bt_days_left", days_left}, {"bt_renew", renew},
    };
    tree = (uint8_t *)malloc(TREE);
    guide = (uint8_t *)malloc(TEXT);
    smaller = (uint8_t *)malloc(TREE);
    table = (uint32_t *)malloc(sizeof *table * 2 * TEXT);
    if (!tree || !guide || !smaller || !table) return 1;
    write_text();
    if (bt_build(text, 600, 2, 3, 8, counted, 4, small, sizeof small, &small_size) != BT_OK) return 1;
    const size_t none = used(nothing);
    for (size_t i = 0; i < sizeof calls / sizeof *calls; i++) {
        const size_t bytes = used(calls[i].function);
        printf("%-26s %5lu\n", calls[i].name, (unsigned long)(bytes > none ? bytes - none : 0));
    }
    return bt_check(tree, size) != BT_OK;
}
