/* Builds the tree of a small book, checks it and reads a row.
 *
 *   make
 *   gcc -std=c99 -Iinclude examples/c/read_row.c target/libblocktree.a -o read_row && ./read_row
 */
#include <stdio.h>
#include <string.h>

#include "blocktree.h"

static const char book[] =
    "CH0501 324115\nCH0502 324121\nCH0503 324122\nCH0504 324123\n"
    "CH0501 324115\nCH0502 324121\nCH0503 324122\nCH0504 324123\n";

static uint8_t tree[4096];

int main(void)
{
    const uint8_t *text = (const uint8_t *)book;
    const uint64_t text_len = strlen(book);
    const uint8_t counted[] = {10}; /* the byte that ends a row */
    uint8_t row[32];
    uint32_t size, length, number;

    number = bt_build(text, text_len, 8, 2, 3, counted, sizeof counted, tree, sizeof tree, &size);
    if (number != BT_OK) {
        printf("build: refused %u: %s\n", (unsigned)number, bt_refusal_text(number));
        return 1;
    }
    number = bt_check(tree, size);
    if (number != BT_OK) {
        printf("check: refused %u: %s\n", (unsigned)number, bt_refusal_text(number));
        return 1;
    }
    number = bt_row(tree, size, 7, row, sizeof row, &length);
    if (number != BT_OK) {
        printf("row 7: refused %u: %s\n", (unsigned)number, bt_refusal_text(number));
        return 1;
    }
    printf("text %u bytes, tree %u bytes\nrow 7: %.*s\n", (unsigned)text_len, (unsigned)size, (int)length, (const char *)row);
    return 0;
}
