// The peer: find, by steps along level 0 or from a guide's entry; rows by one find and reading on to the next newline.
#pragma once
#include "read.hpp"

namespace peer {

// Where find starts on level 0: at block 0, or at a guide's entry (one entry for 64 occurrences).
struct Guide {
    const u8* bytes = nullptr;
    u64 size = 0;
};

inline u64 total(const View& v, u32 c) {
    if (v.count[0] == 0) return 0;
    const u8* r = v.at(0, v.count[0] - 1) + 16 + 12 * c;
    return (u64)word(r) + word(r + 4);
}

// The guide's entries of the counted bytes before c.
inline u64 entries(const View& v, u32 c) {
    u64 sum = 0;
    for (u32 x = 0; x < c; x++) sum += (total(v, x) + 63) / 64;
    return sum;
}

// The last block from i on before the first one whose `before` is j or more; every block passed is looked at.
inline u64 step_along(const View& v, u32 f, u64 i, u64 j) {
    const u64 n = v.count[0], s = v.record;
    while (i + 4 < n) {
        const u8* r = v.at(0, i + 1) + f;
        if (std::max(std::max(word(r), word(r + s)), std::max(word(r + 2 * s), word(r + 3 * s))) >= j) break;
        i += 4;
    }
    while (i + 1 < n && word(v.at(0, i + 1) + f) < j) i++;
    return i;
}

// The child of a kept block that contains the j-th occurrence in the block.
inline bool child_of(const View& v, u32 l, u32 f, const u8* r, u64 j, u64& i, int64_t& base) {
    const u32 start = word(r), b = v.block[l], below = v.block[l + 1], length = start < v.n ? std::min(b, v.n - start) : 0;
    const u32 children = v.powers ? (length + below - 1) >> v.shift[l + 1] : length == b ? v.arity : (length + below - 1) / below;
    const u64 link = word(r + 8);
    if (children == 0 || link + children > v.count[l + 1]) return false;
    u32 x = 0;
    const u8* q = v.at(l + 1, link) + f + v.record;
    while (x + 1 < children && word(q) < j) x++, q += v.record;
    i = link + x, base += (int64_t)x * below;
    return true;
}

inline Answer in_leaf(const View& v, u32 l, const u8* r, u8 byte, u64 j, int64_t base, u32 entered) {
    const u32 start = word(r), length = start < v.n ? std::min(v.block[l], v.n - start) : 0;
    const u64 link = word(r + 8);
    if (link + length > v.leaf_count) return refused(14);
    const u32 x = nth(v.leaves(link), length, byte, j);
    return x == length || base + x < 0 || base + x >= v.n ? refused(14) : Answer{0, (u64)(base + x), entered};
}

// The j-th occurrence, from block i of level 0 down.
inline Answer find_below(const View& v, u8 byte, u32 f, u64 i, u64 j) {
    int64_t base = (int64_t)i * v.block[0];
    u32 entered = 0;
    for (u32 l = 0;; l++) {
        const u8* r = v.at(l, i);
        const u32 kind = word(r + 4), b = v.block[l];
        if (word(r + f) >= j) return refused(14);
        entered++, j -= word(r + f);
        if (kind != 0) {
            if (kind != 1 || v.last(l) || word(r + 12) >= b) return refused(14);
            j += word(r + f + 8), base -= word(r + 12), i = word(r + 8);
            if (i >= v.count[l]) return refused(14);
            const u32 inside = word(v.at(l, i) + f + 4);
            if (j > inside) j -= inside, base += b, i++;
            if (i >= v.count[l]) return refused(14);
            r = v.at(l, i);
            if (word(r + 4) != 0) return refused(14);
            entered++;
        }
        if (v.last(l)) return in_leaf(v, l, r, byte, j, base, entered);
        if (!child_of(v, l, f, r, j, i, base)) return refused(14);
    }
}

// steps: blocks of level 0 passed.
inline Answer find(const View& v, u8 byte, u64 j, const Guide& guide, u32& steps) {
    steps = 0;
    const u32 c = number_of(v, byte), f = 16 + 12 * c;
    if (c == v.counted) return refused(11);
    if (j < 1 || j > total(v, c)) return refused(12);
    u64 entry = 0;
    if (guide.bytes != nullptr) {
        const u64 e = entries(v, c) + (j - 1) / 64;
        if (e >= guide.size / 4 || word(guide.bytes + 4 * e) >= v.count[0]) return refused(14);
        entry = word(guide.bytes + 4 * e);
    }
    const u64 i = step_along(v, f, entry, j);
    const Answer a = find_below(v, byte, f, i, j);
    if (a.number == 0) steps = (u32)(i - entry);
    return a;
}

// Where row q starts, and its length without a carriage return before its newline. Stores up to 16 of the runs that it reads.
struct Row {
    u32 from = 0, length = 0, runs = 0;
    Run run[16];
};

inline u32 read_row(const View& v, u32 q, const Guide& guide, Row& row) {
    const u32 c = number_of(v, 10);
    if (c == v.counted) return 11;
    if (q < 1 || q > total(v, c)) return 12; // a last row without a newline is left out here
    if (q > 1) {
        u32 steps;
        const Answer a = find(v, 10, q - 1, guide, steps);
        if (a.number) return a.number;
        row.from = (u32)a.value + 1;
    }
    u8 before = 0;
    for (bool ended = false; !ended; row.runs++) {
        Run run;
        if (row.from + row.length >= v.n || !walk(v, row.from + row.length, run)) return 14;
        const u8* end = (const u8*)std::memchr(run.from, 10, run.length);
        const u32 take = end ? (u32)(end - run.from) : run.length;
        if (take != 0) before = run.from[take - 1];
        if (row.runs < 16) row.run[row.runs] = {run.from, take, 0};
        row.length += take, ended = end != nullptr;
    }
    if (row.length != 0 && before == 13) row.length--;
    return 0;
}

inline u32 row(const View& v, u32 q, u8* out, u64 room, u32& length, const Guide& guide) {
    Row row;
    length = 0;
    if (u32 number = read_row(v, q, guide, row)) return number;
    if (row.length > room) return 13;
    if (row.runs > 16) {
        if (!copy(v, row.from, row.length, out)) return std::memset(out, 0, row.length), 14;
    } else {
        for (u32 x = 0, done = 0; done < row.length; x++) {
            const u32 take = std::min(row.run[x].length, row.length - done);
            std::memcpy(out + done, row.run[x].from, take);
            done += take;
        }
    }
    length = row.length;
    return 0;
}

inline u32 row_length(const View& v, u32 q, u32& length) {
    Row row;
    const u32 number = read_row(v, q, {}, row);
    length = number ? 0 : row.length;
    return number;
}

} // namespace peer
