// The peer: the check of both layouts, a pass a level; a guide made and checked.
#pragma once
#include "find.hpp"

namespace peer {

inline u32 pieces(const View& v, u32 l, u32 length) {
    return length == v.block[l] ? v.arity : (length + v.block[l + 1] - 1) / v.block[l + 1];
}

// Question 8 for a pointing block.
inline bool target_right(const View& v, u32 l, const u8* r, u32 length) {
    const u32 start = word(r), link = word(r + 8), gap = word(r + 12), b = v.block[l];
    if (v.last(l) || gap >= b || link >= v.count[l]) return false;
    const u8* target = v.at(l, link);
    if (word(target + 4) != 0 || (u64)word(target) + gap + length > start) return false;
    if (gap + length <= b) return true;
    if (link + 1 >= v.count[l]) return false;
    const u8* second = v.at(l, link + 1);
    return word(second + 4) == 0 && word(second) == (u64)word(target) + b;
}

// Question 8 for a kept block above the last level: its children follow those of the kept blocks before it.
inline bool children_right(const View& v, u32 l, u32 start, u32 length, u64& children) {
    const u32 below = v.block[l + 1], number = pieces(v, l, length);
    if (children + number > v.count[l + 1]) return false;
    const u8* child = v.at(l + 1, children);
    for (u32 x = 0; x < number; x++, child += v.record)
        if (word(child) != start + x * below) return false;
    children += number;
    return true;
}

inline bool level_links(const View& v, u32 l) {
    const bool last = v.last(l);
    u64 next = 0; // children, or leaf bytes, so far
    for (u32 i = 0; i < v.count[l]; i++) {
        const u8* r = v.at(l, i);
        const u32 start = word(r), kind = word(r + 4);
        if (kind > 1 || start >= v.n) return false;
        const u32 length = std::min(v.block[l], v.n - start);
        if (kind == 1) {
            if (!target_right(v, l, r, length)) return false;
            continue;
        }
        if (word(r + 12) != 0 || word(r + 8) != next) return false;
        if (last) next += length;
        else if (!children_right(v, l, start, length, next)) return false;
    }
    return next == (last ? v.leaf_count : v.count[l + 1]);
}

inline bool links_right(const View& v) {
    for (u32 i = 0; i < v.count[0]; i++)
        if (word(v.at(0, i)) != (u64)i * v.block[0]) return false;
    for (u32 l = 0; l < v.levels; l++)
        if (!level_links(v, l)) return false;
    return true;
}

// How often counted byte c occurs in the first x bytes of kept block i; the counts below are known to be right.
inline u32 prefix(const View& v, u32 c, u32 l, u64 i, u32 x) {
    const u32 f = 16 + 12 * c;
    u32 sum = 0;
    for (; x != 0; l++) {
        const u32 link = word(v.at(l, i) + 8);
        if (v.last(l)) return sum + times(v.leaves(link), x, v.tree[24 + c]);
        u32 place = x - 1;
        i = link + (u64)part(v, l + 1, place);
        const u8* r = v.at(l + 1, i);
        sum += word(r + f), x = place + 1;
        if (word(r + 4) == 0) continue;
        const u64 y = (u64)word(r + 12) + x;
        const u32 b = v.block[l + 1];
        sum -= word(r + f + 8), i = word(r + 8);
        x = (u32)y;
        if (y > b) sum += word(v.at(l + 1, i) + f + 4), i++, x -= b;
    }
    return sum;
}

inline bool kept_counts(const View& v, u32 c, u32 l, const u8* r, u32 length) {
    const u32 f = 16 + 12 * c, link = word(r + 8);
    if (word(r + f + 8) != 0) return false;
    if (v.last(l)) return times(v.leaves(link), length, v.tree[24 + c]) == word(r + f + 4);
    u32 inside = 0;
    const u8* child = v.at(l + 1, link) + f;
    for (u32 x = pieces(v, l, length); x > 0; x--, child += v.record) {
        if (word(child) != inside) return false;
        inside += word(child + 4);
    }
    return inside == word(r + f + 4);
}

inline bool pointing_counts(const View& v, u32 c, u32 l, const u8* r, u32 length) {
    const u32 f = 16 + 12 * c, link = word(r + 8), gap = word(r + 12), b = v.block[l];
    const u32 skip = prefix(v, c, l, link, gap), end = gap + length;
    const u32 upto = end <= b ? prefix(v, c, l, link, end) : word(v.at(l, link) + f + 4) + prefix(v, c, l, link + 1, end - b);
    return word(r + f + 8) == skip && word(r + f + 4) == upto - skip;
}

// Question 9 for the counts, from the last level up.
inline bool counts_right(const View& v, u32 c) {
    const u32 f = 16 + 12 * c;
    for (u32 l = v.levels; l-- > 0;)
        for (u32 i = 0; i < v.count[l]; i++) {
            const u8* r = v.at(l, i);
            const u32 length = std::min(v.block[l], v.n - word(r));
            if (!(word(r + 4) == 0 ? kept_counts(v, c, l, r, length) : pointing_counts(v, c, l, r, length))) return false;
        }
    u32 before = 0;
    for (u32 i = 0; i < v.count[0]; i++) {
        if (word(v.at(0, i) + f) != before) return false;
        before += word(v.at(0, i) + f + 4);
    }
    return true;
}

// One edge of a block that is short or points: by a short span.
inline bool edge_gathered(const View& v, u32 l, u32 i, u32 place, u32 own, const u8* edge) {
    Parts q;
    if (!gather(v, l, i, place, own, q) || std::memcmp(edge, q.one, q.size) != 0) return false;
    return q.size >= own || std::memcmp(edge + q.size, q.two, own - q.size) == 0;
}

inline bool block_edges(const View& v, u32 l, u32 i) {
    const u32 words = 16 + 12 * v.counted, m = v.leaf;
    const u8 *r = v.at(l, i), *e = r + words;
    const u32 link = word(r + 8), length = std::min(v.block[l], v.n - word(r)), own = std::min(m, length);
    for (u32 x = own; x < m; x++)
        if (e[x] | e[m + x]) return false;
    if (v.last(l)) return std::memcmp(e, v.leaves(link), own) == 0 && std::memcmp(e + m, v.leaves(link), own) == 0;
    if (word(r + 4) != 0 || length < v.block[l]) return edge_gathered(v, l, i, 0, own, e) && edge_gathered(v, l, i, length - own, own, e + m);
    const u8 *first = v.at(l + 1, link) + words, *last = v.at(l + 1, link + v.arity - 1) + words;
    return std::memcmp(e, first, m) == 0 && std::memcmp(e + m, last + m, m) == 0;
}

inline bool edges_right(const View& v) {
    for (u32 l = v.levels; l-- > 0;)
        for (u32 i = 0; i < v.count[l]; i++)
            if (!block_edges(v, l, i)) return false;
    return true;
}

inline u32 check(const u8* t, u64 len) {
    View v;
    if (u32 number = open(t, len, v)) return number;
    if (!links_right(v)) return 8;
    for (u32 c = 0; c < v.counted; c++)
        if (!counts_right(v, c)) return 9;
    return v.layout == 2 && !edges_right(v) ? 9 : 0;
}

// Calls f(entry) for each entry of the guide, in order, until f returns false.
template <class F> inline bool each_entry(const View& v, F f) {
    for (u32 c = 0; c < v.counted && v.count[0] != 0; c++) {
        const u8* r = v.at(0, 0) + 16 + 12 * c;
        u64 next = 1;
        for (u32 i = 0; i < v.count[0]; i++, r += v.record)
            for (const u64 end = (u64)word(r) + word(r + 4); next <= end; next += 64)
                if (!f(i)) return false;
    }
    return true;
}

inline u32 make_guide(const u8* t, u64 len, u8* table, u64 room, u64& words) {
    View v;
    words = 0;
    if (u32 number = check(t, len)) return number;
    open(t, len, v);
    const u64 all = entries(v, v.counted);
    if (room < 4 * all) return 25;
    each_entry(v, [&](u32 i) { return put(table, i), table += 4, true; });
    words = all;
    return 0;
}

inline u32 check_guide(const u8* t, u64 len, const u8* guide, u64 size) {
    View v;
    if (u32 number = check(t, len)) return number;
    open(t, len, v);
    if (size != 4 * entries(v, v.counted)) return 24;
    return each_entry(v, [&](u32 i) { return guide += 4, word(guide - 4) == i; }) ? 0 : 24;
}

} // namespace peer
