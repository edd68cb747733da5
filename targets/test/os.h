/* What the test programs need from a system: os_libc.c has it over a C library, os_wasm.c over imports. Also the code that they share. */
#ifndef OS_H
#define OS_H

#include <stdint.h>

int run(int words, char **word); /* the program */

int os_line(char *line, int room);                            /* a line of the input without its newline; -1 at the end */
void os_out(const char *bytes, int n);                        /* to the output */
long os_read(const char *path, uint8_t *bytes, long room);    /* a whole file: its length, or -1 */
int os_write(const char *path, const uint8_t *bytes, long n); /* 0 if it was written */

static inline void say(const char *words)
{
    int n = 0;
    while (words[n]) n++;
    os_out(words, n);
}

static inline void say_number(uint64_t x)
{
    char digits[20];
    int at = 20;
    do digits[--at] = (char)('0' + x % 10);
    while (x /= 10);
    os_out(digits + at, 20 - at);
}

static inline void say_hex(const uint8_t *bytes, uint32_t n)
{
    for (uint32_t i = 0; i < n; i++) {
        const char pair[2] = {"0123456789abcdef"[bytes[i] >> 4], "0123456789abcdef"[bytes[i] & 15]};
        os_out(pair, 2);
    }
}

static inline uint32_t number_of(const char *digits)
{
    uint32_t x = 0;
    while (*digits >= '0' && *digits <= '9') x = 10 * x + (uint32_t)(*digits++ - '0');
    return x;
}

static inline int equal(const char *one, const char *other)
{
    while (*one && *one == *other) one++, other++;
    return *one == *other;
}

/* A hash of all that calls return and write (FNV-1a, 64 bits). */
static uint64_t hash = 14695981039346656037u;
static inline void mix_byte(uint8_t byte) { hash = (hash ^ byte) * 1099511628211u; }
static inline void mix(uint64_t x)
{
    for (int i = 0; i < 64; i += 8) mix_byte((uint8_t)(x >> i));
}
static inline void mix_bytes(const uint8_t *bytes, uint32_t n)
{
    for (uint32_t i = 0; i < n; i++) mix_byte(bytes[i]);
}

/* Random numbers (xorshift*, 64 bits), the same on every processor. */
static uint64_t random_state = 0x9e3779b97f4a7c15u;
static inline uint32_t rnd(void)
{
    random_state ^= random_state >> 12;
    random_state ^= random_state << 25;
    random_state ^= random_state >> 27;
    return (uint32_t)((random_state * 2685821657736338717u) >> 32);
}
static inline uint32_t below(uint32_t n) { return n ? rnd() % n : 0; }

#endif
