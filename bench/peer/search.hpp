// The peer: places of a pattern and rows by a predicate, read run by run; the order of two texts; columns; a tree without its edges.
#pragma once
#include "check.hpp"

namespace peer {

inline std::vector<u32> borders(const u8* pattern, u32 n) {
    std::vector<u32> border(n + 1);
    for (u32 i = 1, k = 0; i < n; i++) {
        while (k && pattern[k] != pattern[i]) k = border[k];
        border[i + 1] = k += pattern[k] == pattern[i];
    }
    return border;
}

// All places of a pattern by Knuth, Morris and Pratt, with memchr to the first byte; no memory but the table.
inline u32 places(const View& v, const u8* pattern, u32 n, u32* table, u64 room, u32& number) {
    number = 0;
    if (n < 1 || n > 256) return 16;
    const std::vector<u32> border = borders(pattern, n);
    u32 found = 0, state = 0;
    Run run;
    for (u32 at = 0; at < v.n; at += run.length) {
        if (!walk(v, at, run)) return 14;
        for (const u8 *p = run.from, *end = p + run.length; p < end;) {
            if (state == 0) {
                p = (const u8*)std::memchr(p, pattern[0], (size_t)(end - p));
                if (p == nullptr) break;
                state = 1, p++;
            } else {
                while (state && pattern[state] != *p) state = border[state];
                state += pattern[state] == *p++;
            }
            if (state < n) continue;
            if (found < room) table[found] = at + (u32)(p - run.from) - n;
            found++, state = border[n];
        }
    }
    if (found > room) return 17;
    number = found;
    return 0;
}

// The first row after a mark that f accepts; f sees at most 32 bytes of a row, without its newline. 0 in row: none.
template <class F> inline u32 next_row(const View& v, u32 mark, const Guide& guide, u32& row, F f) {
    row = 0;
    u32 at = 0, q = mark + 1, held = 0;
    u8 bytes[32]; // of a row that several runs have
    if (mark != 0) {
        u32 steps;
        const Answer a = find(v, 10, mark, guide, steps);
        if (a.number) return a.number;
        at = (u32)a.value + 1;
    }
    Run run;
    for (; at < v.n; at += run.length) {
        if (!walk(v, at, run)) return 14;
        for (const u8 *p = run.from, *end = p + run.length; p < end;) {
            const u8* newline = (const u8*)std::memchr(p, 10, (size_t)(end - p));
            const u32 part = (u32)((newline ? newline : end) - p);
            if (held != 0 || newline == nullptr) {
                for (u32 x = 0; x < part && held < 32; x++) bytes[held++] = p[x];
                if (newline == nullptr) break;
                if (f(bytes, held)) return row = q, 0;
            } else if (f(p, std::min(part, 32u)))
                return row = q, 0;
            q++, held = 0, p = newline + 1;
        }
    }
    return 0; // a last row without a newline is left out here
}

// A key: a code without a space, a space, cuts that are digits in their ranges.
inline bool key_matches(const u8* s, u32 n, const u8* ranges, u32 cuts) {
    if (n != 0 && s[n - 1] == 13) n--;
    if (n < cuts + 2 || n > cuts + 13 || s[n - cuts - 1] != 32) return false;
    for (u32 x = 0; x < cuts; x++) {
        const u8 depth = (u8)(s[n - cuts + x] - 48);
        if (depth < ranges[2 * x] || depth > ranges[2 * x + 1]) return false;
    }
    return std::memchr(s, 32, n - cuts - 1) == nullptr;
}

inline u32 next_match(const View& v, const u8* ranges, u32 cuts, u32 mark, u32& row) {
    if (number_of(v, 10) == v.counted) return row = 0, 11;
    return next_row(v, mark, {}, row, [&](const u8* s, u32 n) { return key_matches(s, n, ranges, cuts); });
}

inline u32 next_with_prefix(const View& v, const u8* prefix, u32 size, u32 mark, const Guide& guide, u32& row) {
    if (number_of(v, 10) == v.counted) return row = 0, 11;
    return next_row(v, mark, guide, row, [&](const u8* s, u32 n) { return n >= size && std::memcmp(s, prefix, size) == 0; });
}

// The order of two texts: 1 before, 2 the same, 3 after; and the length of their shared beginning.
inline u32 order(const View& a, const View& b, u32& shared) {
    const u32 most = std::min(a.n, b.n);
    Run x{nullptr, 0, 0}, y{nullptr, 0, 0};
    for (shared = 0; shared < most;) {
        if ((x.length == 0 && !walk(a, shared, x)) || (y.length == 0 && !walk(b, shared, y))) return 14;
        const u32 n = std::min(x.length, y.length);
        if (std::memcmp(x.from, y.from, n) != 0) {
            u32 k = 0;
            while (x.from[k] == y.from[k]) k++;
            shared += k;
            return x.from[k] < y.from[k] ? 1 : 3;
        }
        x.from += n, y.from += n, x.length -= n, y.length -= n, shared += n;
    }
    return a.n < b.n ? 1 : a.n > b.n ? 3 : 2;
}

// A row of a text by columns: a byte of each column.
inline u32 row_by_columns(const View& v, u32 width, u32 a, u8* out, u64 room) {
    if (width == 0 || v.n % width != 0) return 20;
    const u32 rows = v.n / width;
    if (a >= rows) return 10;
    if (width > room) return 13;
    for (u32 b = 0; b < width; b++) {
        Run run;
        if (!walk(v, b * rows + a, run)) return std::memset(out, 0, width), 14;
        out[b] = *run.from;
    }
    return 0;
}

// Rows to columns, 64 rows at a time.
inline void to_columns(const u8* text, u32 n, u32 width, u8* out) {
    const u32 rows = n / width;
    for (u32 from = 0; from < rows; from += 64) {
        const u32 to = std::min(rows, from + 64);
        for (u32 b = 0; b < width; b++)
            for (u32 a = from; a < to; a++) out[b * rows + a] = text[a * width + b];
    }
}

// A tree of layout 2 rewritten in layout 1; returns its size.
inline u64 without_edges(const View& v, u8* out) {
    const u32 record = 16 + 12 * v.counted;
    u64 at = 100;
    std::memcpy(out, v.tree, 100), put(out, 1);
    for (u32 l = 0; l < v.levels; l++) {
        put(out + 32 + 8 * l, (u32)at);
        for (u32 i = 0; i < v.count[l]; i++, at += record) std::memcpy(out + at, v.at(l, i), record);
    }
    put(out + 92, (u32)at);
    std::memcpy(out + at, v.leaves(0), v.leaf_count);
    return at + v.leaf_count;
}

} // namespace peer
