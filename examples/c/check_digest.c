/* Shows what a machine does with a tree from anyone: it checks the tree, computes the SHA-256 of the tree's text and compares it with the 32 bytes that the
 * office printed of the book.
 *
 *   make
 *   gcc -std=c99 -Iinclude examples/c/check_digest.c target/libblocktree.a -o check_digest && ./check_digest
 */
#include <stdio.h>
#include <string.h>

#include "blocktree.h"

static const char book[] =
    "CH0501 324115\nCH0502 324121\nCH0503 324122\nCH0504 324123\n"
    "CH0501 324115\nCH0502 324121\nCH0503 324122\nCH0504 324123\n";

/* The output of `sha256sum` for the book. It comes from the office, not with the tree. */
static const uint8_t printed[BT_DIGEST] = {
    0xf8, 0x0c, 0x20, 0x5b, 0x11, 0xb1, 0xc2, 0x2f,
    0xe3, 0x3f, 0x9d, 0xac, 0x98, 0xaa, 0x55, 0x91,
    0xc7, 0x00, 0x0f, 0xd6, 0x46, 0x07, 0x12, 0xa0,
    0x35, 0x4e, 0xf3, 0x80, 0x1c, 0xc9, 0x57, 0x94,
};

static uint8_t tree[4096];

/* Builds the tree that somebody sends. Returns its size, 0 if the build is refused. */
static uint32_t received(const char *text)
{
    const uint8_t counted[] = {10}; /* the byte that ends a row */
    uint32_t size;
    bt_build((const uint8_t *)text, strlen(text), 8, 2, 3, counted, sizeof counted, tree, sizeof tree, &size);
    return size;
}

/* Whether a tree is valid and of the printed text. */
static int trusted(uint32_t size)
{
    uint8_t digest[BT_DIGEST];
    return bt_check(tree, size) == BT_OK && bt_digest(tree, size, digest, sizeof digest) == BT_OK && memcmp(digest, printed, sizeof digest) == 0;
}

int main(void)
{
    char other[sizeof book];
    uint32_t size = received(book);
    if (!trusted(size)) return 1;
    printf("the tree of %u bytes is of the printed text\n", (unsigned)size);

    memcpy(other, book, sizeof book);
    other[12] = '6'; /* one cut of one key: a valid tree, and a wrong key */
    size = received(other);
    if (bt_check(tree, size) != BT_OK || trusted(size)) return 1;
    puts("another text is found out");
    return 0;
}
