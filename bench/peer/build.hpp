// The peer: a builder that reads the text once a level and looks up windows of one block and of two in hash tables.
#pragma once
#include "check.hpp"

namespace peer {

struct Block {
    u32 start, length, kind, link, gap, parent;
};

// Strings of one length, equal ones once, and the first place of each in the text. A slot is found by the top bits of a mixed fingerprint; a filter
// with sixteen bits for each string is tested first.
struct Strings {
    static constexpr u64 base = 0x9E3779B97F4A7C15ull;
    struct Entry {
        u64 fingerprint;
        u32 start, first;
    };
    const u8* text;
    u32 length, shift, filter_shift;
    u64 top = 1;        // base to the power of length
    bool clash = false; // two different strings have one fingerprint
    std::vector<Entry> slot;
    std::vector<u64> filter;

    Strings(const u8* t, u32 size, u64 expected) : text(t), length(size) {
        u64 slots = 16, bits = 1024;
        while (slots < 2 * expected) slots *= 2;
        while (bits < 16 * expected) bits *= 2;
        slot.assign(slots, Entry{0, ~0u, ~0u}), filter.assign(bits / 64, 0);
        shift = 64 - (u32)__builtin_ctzll(slots), filter_shift = 64 - (u32)__builtin_ctzll(bits);
        for (u32 i = 0; i < size; i++) top *= base;
    }
    static u64 mix(u64 h) { return (h ^ (h >> 32)) * 0xD6E8FEB86659FD93ull; }
    u64 fingerprint(u32 p, u32 size) const {
        u64 h = 0;
        for (u32 i = 0; i < size; i++) h = h * base + text[p + i];
        return h;
    }
    u64 rolled(u64 h, u32 p) const { return h * base + text[p + length] - top * text[p]; }
    // The slot of a string, which is entered if it is new.
    u32 enter(u32 start, u64 h) {
        const u64 g = mix(h), bit = g >> filter_shift;
        for (u64 s = g >> shift;; s = (s + 1) & (slot.size() - 1)) {
            Entry& e = slot[s];
            if (e.start == ~0u) {
                e = {h, start, ~0u};
                filter[bit / 64] |= 1ull << (bit % 64);
                return (u32)s;
            }
            if (e.fingerprint != h) continue;
            if (std::memcmp(text + e.start, text + start, length) == 0) return (u32)s;
            clash = true;
        }
    }
    // Stores a place as the first one of the string that starts there, unless the string has one.
    void look(u64 h, u32 p) {
        const u64 g = mix(h), bit = g >> filter_shift;
        if (!(filter[bit / 64] >> (bit % 64) & 1)) return;
        for (u64 s = g >> shift;; s = (s + 1) & (slot.size() - 1)) {
            Entry& e = slot[s];
            if (e.start == ~0u) return;
            if (e.fingerprint != h) continue;
            if (e.first != ~0u) {
                if (!clash) return;
            } else if (e.start == p || std::memcmp(text + e.start, text + p, length) == 0) {
                e.first = p;
                return;
            }
        }
    }
};

// The result of a level's pass: the slots of its blocks and pairs, and the first places of the short strings at the text's end.
struct Level {
    std::vector<u32> single, pair;
    u32 short_first = 0, end_first = 0;
};

inline u32 first_place(const u8* t, u32 n, u32 start, u32 length, u64& windows) {
    windows += n - length + 1;
    return (u32)((const u8*)memmem(t, start + length, t + start, length) - t);
}

inline void scan(const Strings& shape, Strings& one, Strings& two, u32 n, bool pairs, u64& windows) {
    const u32 size = shape.length, places = n - size + 1, both = pairs ? n - 2 * size + 1 : 0;
    u64 h = one.fingerprint(0, size), g = both ? two.fingerprint(0, 2 * size) : 0;
    windows += places + both;
    u32 p = 0;
    for (; p + 1 < both; p++) one.look(h, p), two.look(g, p), h = one.rolled(h, p), g = two.rolled(g, p);
    if (both) {
        one.look(h, p), two.look(g, p);
        if (++p < places) h = one.rolled(h, p - 1);
    }
    for (; p < places; p++) {
        one.look(h, p);
        if (p + 1 < places) h = one.rolled(h, p);
    }
}

inline bool follows(const std::vector<Block>& blocks, u32 i) { return i + 1 < blocks.size() && blocks[i + 1].start == blocks[i].start + blocks[i].length; }

inline Level enter_blocks(const u8* t, u32 n, const std::vector<Block>& blocks, u32 size, Strings& one, Strings& two, u64& windows) {
    const u32 number = (u32)blocks.size();
    Level level{std::vector<u32>(number, ~0u), std::vector<u32>(number, ~0u)};
    std::vector<u64> h(number);
    for (u32 i = 0; i < number; i++) h[i] = one.fingerprint(blocks[i].start, blocks[i].length);
    bool pairs = false, any = false;
    for (u32 i = 0; i < number; i++) {
        const Block& x = blocks[i];
        if (x.length == size) level.single[i] = one.enter(x.start, h[i]), any = true;
        else level.short_first = first_place(t, n, x.start, x.length, windows);
        if (!follows(blocks, i)) continue;
        const u32 next = blocks[i + 1].length;
        if (next == size) level.pair[i] = two.enter(x.start, h[i] * one.top + h[i + 1]), pairs = true;
        else level.end_first = first_place(t, n, x.start, size + next, windows);
    }
    if (any) scan(one, one, two, n, pairs, windows);
    return level;
}

// Marks the level's blocks, writes links and gaps, and adds the children of kept blocks to the next level.
inline void mark(std::vector<Block>& blocks, std::vector<Block>& children, u32 below, const Level& level, const Strings& one, const Strings& two) {
    const u32 number = (u32)blocks.size();
    std::vector<u8> keep(number, 0), paired(number, 0);
    for (u32 i = 0; i < number; i++) {
        if (!follows(blocks, i)) continue;
        paired[i] = paired[i + 1] = 1;
        const u32 first = level.pair[i] != ~0u ? two.slot[level.pair[i]].first : level.end_first;
        if (first == blocks[i].start) keep[i] = keep[i + 1] = 1;
    }
    for (u32 i = 0; i < number; i++) {
        Block& x = blocks[i];
        if (keep[i] || !paired[i]) {
            x.link = (u32)children.size();
            for (u32 o = 0; o < x.length; o += below) children.push_back({x.start + o, std::min(below, x.length - o), 0, 0, 0, x.start});
            continue;
        }
        const u32 first = level.single[i] != ~0u ? one.slot[level.single[i]].first : level.short_first;
        const auto after = std::upper_bound(blocks.begin(), blocks.end(), first, [](u32 place, const Block& b) { return place < b.start; });
        x.kind = 1, x.link = (u32)(after - blocks.begin()) - 1, x.gap = first - blocks[x.link].start;
    }
}

inline u32 times_in(const u8* p, u32 n, u8 byte) {
    u32 sum = 0;
    for (; n > 256; p += 256, n -= 256) sum += times(p, 256, byte);
    return sum + times(p, n, byte);
}

struct Written {
    const u8 *text, *counted;
    u32 k, m;
    u64 record() const { return 16 + 12 * k + 2 * m; }
};

inline void write_record(const Written& w, const std::vector<Block>& blocks, u32 level, u64 i, u8* p) {
    const Block& x = blocks[i];
    put(p, x.start), put(p + 4, x.kind), put(p + 8, x.link), put(p + 12, x.gap);
    for (u32 c = 0; c < w.k; c++) {
        u8* f = p + 16 + 12 * c;
        const bool first = level == 0 ? i == 0 : x.start == x.parent;
        put(f, first ? 0 : word(f - w.record()) + word(f - w.record() + 4));
        put(f + 4, times_in(w.text + x.start, x.length, w.counted[c]));
        put(f + 8, x.kind ? times_in(w.text + blocks[x.link].start, x.gap, w.counted[c]) : 0);
    }
    u8* e = p + 16 + 12 * w.k;
    const u32 own = std::min(w.m, x.length);
    std::memset(e, 0, 2 * w.m);
    std::memcpy(e, w.text + x.start, own), std::memcpy(e + w.m, w.text + x.start + x.length - own, own);
}

inline u64 write_tree(const Written& w, u32 n, u32 r, std::vector<std::vector<Block>>& levels, u8* out, u64 room) {
    const u32 H = (u32)levels.size();
    u64 leaves = 0, total = 100, at = 100;
    for (Block& x : levels[H - 1]) x.link = (u32)leaves, leaves += x.length;
    for (const auto& blocks : levels) total += w.record() * blocks.size();
    if (total + leaves > room) return std::memset(out, 0, room), 0;
    std::memset(out, 0, 100);
    const u32 head[] = {2, n, w.m, r, H, w.k};
    std::memcpy(out, head, sizeof head), std::memcpy(out + 24, w.counted, w.k);
    for (u32 l = 0; l < H; l++) {
        put(out + 28 + 8 * l, (u32)levels[l].size()), put(out + 32 + 8 * l, (u32)at);
        for (u64 i = 0; i < levels[l].size(); i++, at += w.record()) write_record(w, levels[l], l, i, out + at);
    }
    put(out + 92, (u32)at), put(out + 96, (u32)leaves);
    for (const Block& x : levels[H - 1]) std::memcpy(out + at, w.text + x.start, x.length), at += x.length;
    return at;
}

// Writes the tree of a text in layout 2. Returns 0 if the buffer is too small.
inline u64 build(const u8* t, u32 n, u32 m, u32 r, u32 H, const u8* counted, u32 k, u8* out, u64 room, u64& windows) {
    std::vector<u32> b(H, m);
    for (u32 l = H - 1; l-- > 0;) b[l] = b[l + 1] * r;
    std::vector<std::vector<Block>> levels(H);
    for (u64 p = 0; p < n; p += b[0]) levels[0].push_back({(u32)p, std::min(b[0], n - (u32)p), 0, 0, 0, 0});
    windows = 0;
    for (u32 l = 0; l + 1 < H; l++) {
        if (levels[l].empty()) continue;
        Strings one(t, b[l], levels[l].size()), two(t, 2 * b[l], levels[l].size());
        const Level level = enter_blocks(t, n, levels[l], b[l], one, two, windows);
        mark(levels[l], levels[l + 1], b[l + 1], level, one, two);
    }
    return write_tree({t, counted, k, m}, n, r, levels, out, room);
}

} // namespace peer
