/* Builds the tree of a book twice, by bt_build and by one scan a level, and compares.
 *
 *   make
 *   gcc -std=c99 -Iinclude examples/c/build_scanned.c target/libblocktree.a -o build_scanned && ./build_scanned
 */
#include <stdio.h>
#include <stdlib.h>
#include <string.h>

#include "blocktree.h"

enum { LEAF = 8, ARITY = 2, LEVELS = 3 };

static const char book[] =
    "CH0501 324115\nCH0502 324121\nCH0503 324122\nCH0504 324123\n"
    "CH0501 324115\nCH0502 324121\nCH0503 324122\nCH0504 324123\n";

static uint8_t first[4096], tree[4096];

int main(void)
{
    const uint8_t *text = (const uint8_t *)book;
    const uint64_t text_len = strlen(book);
    const uint8_t counted[] = {10}; /* the byte that ends a row */
    const uint64_t work_len = bt_scan_words((uint32_t)text_len, LEAF);
    uint32_t *work = (uint32_t *)malloc((size_t)work_len * sizeof *work);
    FILE *random = fopen("/dev/urandom", "rb");
    uint32_t first_size, size, windows, number;

    if (work == NULL || bt_build(text, text_len, LEAF, ARITY, LEVELS, counted, sizeof counted, first, sizeof first, &first_size) != BT_OK) {
        return 1;
    }
    work[0] = 0; /* the seed of the fingerprints: a random one, so that nobody can make a text that is slow to build */
    if (random != NULL && fread(work, sizeof *work, 1, random) != 1) {
        work[0] = 0;
    }
    number = bt_build_scanned(text, text_len, LEAF, ARITY, LEVELS, counted, sizeof counted, work, work_len, tree, sizeof tree, &size, &windows);
    free(work);
    if (random != NULL) {
        fclose(random);
    }
    if (number != BT_OK) {
        printf("build_scanned: refused %u: %s\n", (unsigned)number, bt_refusal_text(number));
        return 1;
    }
    printf("table of %u words, %u windows looked up\n", (unsigned)work_len, (unsigned)windows);
    printf("%s\n", size == first_size && memcmp(tree, first, size) == 0 ? "both trees are the same" : "the trees differ");
    return 0;
}
