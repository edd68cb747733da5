// The books of the benchmarks, and their trees.
#pragma once
#include "blocktree.h"
#include "peer/search.hpp"
#include <cstdio>
#include <cstdlib>
#include <string>

using peer::Bytes;
using peer::u32;
using peer::u64;
using peer::u8;

inline void demand(bool holds, const char* what) {
    if (!holds) std::fprintf(stderr, "differs: %s\n", what), std::exit(1);
}

struct Random {
    u64 state;
    u32 below(u32 n) {
        state += 0x9E3779B97F4A7C15ull;
        u64 z = (state ^ (state >> 30)) * 0xBF58476D1CE4E5B9ull;
        z = (z ^ (z >> 27)) * 0x94D049BB133111EBull;
        return (u32)((z ^ (z >> 31)) % n);
    }
};

// A book of rows, each a code and its cuts, that ends in a newline. `relisted` of 100 sections repeat rows of earlier ones, with a cut changed in one row
// of `corrected`.
inline Bytes book(u32 size, u32 relisted, u32 corrected, u64 seed) {
    Random random{seed};
    std::vector<std::string> rows;
    Bytes text;
    for (u32 series = 1000; text.size() < size; series++) {
        std::vector<std::string> section;
        if (!rows.empty() && random.below(100) < relisted) {
            u32 from = random.below((u32)rows.size()), n = std::min<u32>(100 + random.below(400), (u32)rows.size() - from);
            section.assign(rows.begin() + from, rows.begin() + from + n);
            for (auto& row : section)
                if (random.below(corrected) == 0) row[row.size() - 2] = (char)('1' + random.below(5));
        } else {
            std::string cuts = "333333";
            for (u32 k = 0; k < 200; k++) {
                cuts[random.below(6)] = (char)('1' + random.below(5));
                section.push_back("CH" + std::to_string(series * 1000 + k) + " " + cuts + "\n");
            }
        }
        for (auto& row : section) rows.push_back(row), text.insert(text.end(), row.begin(), row.end());
    }
    text.resize(size - 1);
    text.push_back(10);
    return text;
}

inline Bytes repetitive(u32 size) { return book(size, 92, 500, 1); }
inline Bytes mixed(u32 size) { return book(size, 55, 60, 1); }
inline Bytes fresh(u32 size) { return book(size, 0, 1, 1); }

struct Settings {
    u32 leaf, arity, levels;
};

// The library's tree of a text, layout 2, with newlines counted.
inline Bytes tree_of(const Bytes& text, Settings s) {
    const u8 newline = 10;
    u64 room = 0;
    u32 size = 0, windows = 0;
    demand(bt_size_bound((u32)text.size(), s.leaf, s.arity, s.levels, 1, &room) == 0, "enough");
    Bytes tree(room);
    std::vector<u32> work(bt_scan_words((u32)text.size(), s.leaf));
    demand(bt_build_scanned(text.data(), text.size(), s.leaf, s.arity, s.levels, &newline, 1, work.data(), work.size(), tree.data(), tree.size(), &size, &windows) == 0, "build");
    tree.resize(size);
    return tree;
}

// The same tree in layout 1.
inline Bytes without_edges(const Bytes& tree) {
    u64 size = 0;
    Bytes out(tree.size());
    demand(bt_without_edges(tree.data(), tree.size(), out.data(), out.size(), &size) == 0, "without edges");
    out.resize(size);
    return out;
}

inline Bytes guide_of(const Bytes& tree) {
    u64 words = 0;
    demand(bt_guide_words(tree.data(), tree.size(), &words) == 0, "guide words");
    Bytes guide(4 * words);
    demand(bt_make_guide(tree.data(), tree.size(), guide.data(), guide.size(), &words) == 0, "guide");
    return guide;
}
