// The peer: the library's calls in plain C++, written for speed, without proofs. It tests the questions of docs/FORMAT.md.
// This file: the header, and the walk down a path.
#pragma once
#include <algorithm>
#include <cstdint>
#include <cstring>
#include <vector>

namespace peer {

using u8 = uint8_t;
using u32 = uint32_t;
using u64 = uint64_t;
using Bytes = std::vector<u8>;

inline u32 word(const u8* p) { // little-endian, as this machine is
    u32 v;
    std::memcpy(&v, p, 4);
    return v;
}

inline void put(u8* p, u32 v) { std::memcpy(p, &v, 4); }

// A header that passes questions 5 to 7, with what the walks need of each level.
struct View {
    const u8* tree;
    u32 layout, n, leaf, arity, levels, counted, record, leaf_offset, leaf_count;
    u32 count[8], offset[8], block[8];
    u8 shift[8];
    bool powers; // every block length is a power of two
    const u8* at(u32 level, u64 i) const { return tree + offset[level] + i * record; }
    const u8* leaves(u64 from) const { return tree + leaf_offset + from; }
    bool last(u32 level) const { return level + 1 == levels; }
};

inline bool settings(View& v) {
    if (v.n > 8388608 || v.leaf < 1 || v.leaf > 256 || v.arity < 2 || v.arity > 16 || v.levels < 1 || v.levels > 8 || v.counted > 4) return false;
    u64 b = v.leaf;
    v.powers = true;
    for (u32 l = v.levels; l-- > 0; b *= v.arity) {
        if (b > 8388608) return false;
        v.block[l] = (u32)b;
        v.shift[l] = (u8)__builtin_ctzll(b);
        v.powers = v.powers && (b & (b - 1)) == 0;
    }
    return true;
}

// 0, or the number of the question that fails.
inline u32 open(const u8* t, u64 len, View& v) {
    if (len < 100) return 5;
    v.layout = word(t);
    if (v.layout != 1 && v.layout != 2) return 6;
    v.tree = t, v.n = word(t + 4), v.leaf = word(t + 8), v.arity = word(t + 12), v.levels = word(t + 16), v.counted = word(t + 20);
    if (!settings(v)) return 7;
    for (u32 i = 0; i < 4; i++)
        if (i < v.counted ? i > 0 && t[24 + i] <= t[23 + i] : t[24 + i] != 0) return 7;
    v.record = 16 + 12 * v.counted + (v.layout == 2 ? 2 * v.leaf : 0);
    u64 end = 100;
    for (u32 l = 0; l < 8; l++) {
        v.count[l] = word(t + 28 + 8 * l), v.offset[l] = word(t + 32 + 8 * l);
        if (l >= v.levels ? v.count[l] != 0 || v.offset[l] != 0 : v.offset[l] != end) return 7;
        end += (u64)v.count[l] * v.record;
    }
    v.leaf_offset = word(t + 92), v.leaf_count = word(t + 96);
    return v.count[0] != (v.n + v.block[0] - 1) / v.block[0] || v.leaf_offset != end || end + v.leaf_count != len ? 7 : 0;
}

struct Answer {
    u32 number;
    u64 value;
    u32 entered;
};

inline Answer refused(u32 number) { return {number, 0, 0}; }

// The child that contains a place; the place becomes the one in the child.
inline u32 part(const View& v, u32 level, u32& place) {
    u32 q = v.powers ? place >> v.shift[level] : place / v.block[level];
    place -= q * v.block[level];
    return q;
}

// Leaf bytes that follow one another in the text.
struct Run {
    const u8* from;
    u32 length, entered;
};

// Follows the path of a place to its leaf byte. Returns false if the path breaks.
inline bool walk(const View& v, u32 place, Run& run) {
    u32 left = v.n - place, entered = 0;
    u64 i = part(v, 0, place);
    for (u32 l = 0;; l++) {
        if (i >= v.count[l]) return false;
        const u8* r = v.at(l, i);
        const u32 kind = word(r + 4), b = v.block[l];
        entered++, left = std::min(left, b - place);
        if (kind != 0) {
            u32 gap = word(r + 12);
            if (kind != 1 || v.last(l) || gap >= b) return false;
            i = word(r + 8), place += gap;
            if (place >= b) place -= b, i++;
            if (i >= v.count[l]) return false;
            r = v.at(l, i);
            if (word(r + 4) != 0) return false;
            entered++, left = std::min(left, b - place);
        }
        const u64 link = word(r + 8);
        if (v.last(l)) {
            if (link + place >= v.leaf_count) return false;
            run = {v.leaves(link + place), (u32)std::min<u64>(left, v.leaf_count - link - place), entered};
            return true;
        }
        i = link + part(v, l + 1, place);
    }
}

inline Answer byte(const View& v, u32 place) {
    if (place >= v.n) return refused(10);
    Run run;
    if (!walk(v, place, run)) return refused(14);
    return {0, *run.from, run.entered};
}

// The index of a counted byte; v.counted if the tree does not count it.
inline u32 number_of(const View& v, u8 byte) {
    u32 c = 0;
    while (c < v.counted && v.tree[24 + c] != byte) c++;
    return c;
}

} // namespace peer
