#include "os.h"

#include <stdio.h>
#include <stdlib.h>
#include <string.h>

static FILE *in, *out;

int os_line(char *line, int room)
{
    if (!fgets(line, room, in)) return -1;
    int n = (int)strlen(line);
    if (n && line[n - 1] == '\n') line[--n] = 0;
    return n;
}

void os_out(const char *bytes, int n) { fwrite(bytes, 1, (size_t)n, out); }

long os_read(const char *path, uint8_t *bytes, long room)
{
    FILE *file = fopen(path, "rb");
    if (!file) return -1;
    const long n = (long)fread(bytes, 1, (size_t)room, file);
    fclose(file);
    return n;
}

int os_write(const char *path, const uint8_t *bytes, long n)
{
    FILE *file = fopen(path, "wb");
    if (!file) return 1;
    const int whole = fwrite(bytes, 1, (size_t)n, file) == (size_t)n;
    return fclose(file) || !whole;
}

/* A board has no standard input and output: its first two arguments are @IN and OUT, files of the machine that emulates it. */
int main(int words, char **word)
{
    in = stdin;
    out = stdout;
    if (words > 2 && word[1][0] == '@') {
        in = fopen(word[1] + 1, "rb");
        out = fopen(word[2], "wb");
        if (!in || !out) return 9;
        words -= 2;
        word += 2;
    }
    const int status = run(words, word);
    exit(fclose(out) ? 9 : status);
}
