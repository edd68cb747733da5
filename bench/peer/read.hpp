// The peer: spans, short ones by edges, long ones by descending; counts.
#pragma once
#include "bytes.hpp"

namespace peer {

// The bytes of a short span: in one place of the tree or in two.
struct Parts {
    const u8 *one, *two;
    u32 size, entered; // size: bytes of the first part
};

// A span over the border of blocks i and i + 1: the last edge of one, the first edge of the other.
inline bool over_border(const View& v, u32 l, u64 i, u32 place, u32 entered, Parts& out) {
    if (i + 1 >= v.count[l]) return false;
    const u8* edges = v.at(l, i) + 16 + 12 * v.counted;
    const u32 left = v.block[l] - place;
    out = {edges + 2 * v.leaf - left, edges + v.record, left, entered + 2};
    return true;
}

// A span of at most v.leaf bytes that starts at a place of block i.
inline bool gather(const View& v, u32 l, u64 i, u32 place, u32 length, Parts& out) {
    for (u32 entered = 0;; l++) {
        const u32 b = v.block[l];
        if (place + length > b) return over_border(v, l, i, place, entered, out);
        if (i >= v.count[l]) return false;
        const u8* r = v.at(l, i);
        const u32 kind = word(r + 4);
        entered++;
        if (kind != 0) {
            const u32 gap = word(r + 12);
            if (kind != 1 || v.last(l) || gap >= b) return false;
            i = word(r + 8), place += gap;
            if (place < b && place + length > b) return over_border(v, l, i, place, entered, out);
            if (place >= b) place -= b, i++;
            if (i >= v.count[l]) return false;
            r = v.at(l, i);
            if (word(r + 4) != 0) return false;
            entered++;
        }
        const u64 link = word(r + 8);
        if (v.last(l)) {
            if (link + place + length > v.leaf_count) return false;
            out = {v.leaves(link + place), nullptr, length, entered};
            return true;
        }
        i = link + part(v, l + 1, place);
    }
}

inline bool kept_bytes(const View& v, u32 l, u64 i, u32 place, u32 length, u8* out);

// Bytes of a block, from a place in it: a pointing block's are those of its target and of the block after the target.
inline bool block_bytes(const View& v, u32 l, u64 i, u32 place, u32 length, u8* out) {
    if (i >= v.count[l]) return false;
    const u8* r = v.at(l, i);
    const u32 kind = word(r + 4), b = v.block[l], gap = word(r + 12);
    if (kind == 0) return kept_bytes(v, l, i, place, length, out);
    if (kind != 1 || v.last(l) || gap >= b) return false;
    const u64 target = word(r + 8);
    place += gap;
    const u32 first = place < b ? std::min(length, b - place) : 0;
    if (first != 0 && !kept_bytes(v, l, target, place, first, out)) return false;
    return first == length || kept_bytes(v, l, target + 1, first != 0 ? 0 : place - b, length - first, out + first);
}

// Bytes of leaves that lie below a kept block of the last level but one.
inline bool leaf_bytes(const View& v, u32 l, u64 i, u32 place, u32 take, u8* out) {
    if (i >= v.count[l]) return false;
    const u8* r = v.at(l, i);
    const u64 from = (u64)word(r + 8) + place;
    if (word(r + 4) != 0 || from + take > v.leaf_count) return false;
    std::memcpy(out, v.leaves(from), take);
    return true;
}

inline bool kept_bytes(const View& v, u32 l, u64 i, u32 place, u32 length, u8* out) {
    if (v.last(l)) return leaf_bytes(v, l, i, place, length, out);
    if (i >= v.count[l] || word(v.at(l, i) + 4) != 0) return false;
    u64 child = word(v.at(l, i) + 8) + (u64)part(v, l + 1, place);
    const u32 below = v.block[l + 1];
    const bool leaves = v.last(l + 1);
    for (; length > 0; child++, place = 0) {
        const u32 take = std::min(length, below - place);
        if (!(leaves ? leaf_bytes(v, l + 1, child, place, take, out) : block_bytes(v, l + 1, child, place, take, out))) return false;
        out += take, length -= take;
    }
    return true;
}

// A few runs, each by a walk.
inline bool copy_runs(const View& v, u32 place, u32 length, u8* out) {
    for (u32 done = 0; done < length;) {
        Run run;
        if (!walk(v, place + done, run)) return false;
        const u32 take = std::min(run.length, length - done);
        std::memcpy(out + done, run.from, take);
        done += take;
    }
    return true;
}

inline bool copy(const View& v, u32 place, u32 length, u8* out) {
    if (length < 2 * v.leaf) return copy_runs(v, place, length, out);
    u64 i = part(v, 0, place);
    for (; length > 0; i++, place = 0) {
        const u32 take = std::min(length, v.block[0] - place);
        if (!block_bytes(v, 0, i, place, take, out)) return false;
        out += take, length -= take;
    }
    return true;
}

inline u32 short_span(const View& v, u32 place, u32 length, u8* out, u32& entered) {
    Parts q;
    const u64 i = part(v, 0, place);
    if (!gather(v, 0, i, place, length, q)) return std::memset(out, 0, length), 14;
    std::memcpy(out, q.one, q.size);
    if (q.size < length) std::memcpy(out + q.size, q.two, length - q.size);
    entered = q.entered;
    return 0;
}

inline u32 span(const View& v, u32 place, u32 length, u8* out, u64 room, u32& entered) {
    entered = 0;
    if ((u64)place + length > v.n) return 10;
    if (length > room) return 13;
    if (v.layout == 2 && length >= 1 && length <= v.leaf) return short_span(v, place, length, out, entered);
    return copy(v, place, length, out) ? 0 : (std::memset(out, 0, length), 14);
}

inline Answer count(const View& v, u8 byte, u32 upto) {
    if (upto > v.n) return refused(10);
    const u32 c = number_of(v, byte), f = 16 + 12 * c;
    if (c == v.counted) return refused(11);
    if (upto == 0) return {0, 0, 0};
    u32 place = upto - 1, entered = 0;
    u64 i = part(v, 0, place);
    int64_t sum = 0;
    for (u32 l = 0;; l++) {
        if (i >= v.count[l]) return refused(14);
        const u8* r = v.at(l, i);
        const u32 kind = word(r + 4), b = v.block[l], gap = word(r + 12);
        entered++, sum += word(r + f);
        if (kind != 0) {
            if (kind != 1 || v.last(l) || gap >= b) return refused(14);
            sum -= word(r + f + 8), i = word(r + 8), place += gap;
            if (i >= v.count[l]) return refused(14);
            if (place >= b) place -= b, sum += word(v.at(l, i) + f + 4), i++;
            if (i >= v.count[l]) return refused(14);
            r = v.at(l, i);
            if (word(r + 4) != 0) return refused(14);
            entered++;
        }
        const u64 link = word(r + 8);
        if (v.last(l)) {
            if (link + place >= v.leaf_count) return refused(14);
            sum += times(v.leaves(link), place + 1, byte);
            return sum < 0 ? refused(14) : Answer{0, (u64)sum, entered};
        }
        i = link + part(v, l + 1, place);
    }
}

} // namespace peer
