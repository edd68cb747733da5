/* The programs as WebAssembly: they import the library's calls and memory from blocktree.wasm itself, and the rest from wasm.mjs. */
#include "os.h"

#define IMPORT(name) __attribute__((import_module("os"), import_name(name)))
IMPORT("line") int js_line(char *line, int room);
IMPORT("out") void js_out(const char *bytes, int n);
IMPORT("read") int js_read(const char *path, uint8_t *bytes, int room);
IMPORT("write") int js_write(const char *path, const uint8_t *bytes, int n);

int os_line(char *line, int room) { return js_line(line, room); }
void os_out(const char *bytes, int n) { js_out(bytes, n); }
long os_read(const char *path, uint8_t *bytes, long room) { return js_read(path, bytes, (int)room); }
int os_write(const char *path, const uint8_t *bytes, long n) { return js_write(path, bytes, (int)n); }

static char given[4096], *word[16];

/* The arguments of the command line, each with a zero after it. */
__attribute__((export_name("words_at"))) char *words_at(void) { return given; }

__attribute__((export_name("start"))) int start(int words)
{
    char *at = given;
    for (int i = 0; i < words; i++) {
        word[i] = at;
        while (*at) at++;
        at++;
    }
    return run(words, word);
}
