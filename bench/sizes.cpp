// Times the library's calls on books of 64 KiB, 1 MiB and 8 MiB: repetitive, leaf 64, arity 2, levels 4, layout 2.
//
//   sizes                       times in ns
//   sizes CALL KIB NUMBER       only that many calls of one kind on one book, for a tool that counts instructions
#include "books.hpp"
#include "timing.hpp"

static volatile u64 sink;
static const u32 calls = 20000;

struct Asked {
    Bytes text, tree, guide;
    std::vector<u32> places, ranks;
};

static Asked asked(u32 size) {
    Asked a;
    a.text = repetitive(size), a.tree = tree_of(a.text, {64, 2, 4}), a.guide = guide_of(a.tree);
    Random random{7};
    u64 rows = 0;
    demand(bt_row_count(a.tree.data(), a.tree.size(), &rows) == 0, "rows");
    for (u32 k = 0; k < calls; k++) a.places.push_back(random.below(size - 128)), a.ranks.push_back(1 + random.below((u32)rows));
    return a;
}

struct Call {
    const char* name;
    bool whole; // one call for the whole text
    int rounds;
    u64 (*ask)(const Asked&, u32);
};

static u32 x, y, z;
static u64 w;
static u8 out[4096];
static Bytes all(8388608);
#define TREE a.tree.data(), a.tree.size()
static const Call list[] = {
    {"byte", false, 15, [](const Asked& a, u32 k) -> u64 { return bt_byte(TREE, a.places[k], &x, &y), x; }},
    {"span of 32 bytes", false, 15, [](const Asked& a, u32 k) -> u64 { return bt_span(TREE, a.places[k], 32, out, sizeof out, &y), out[0]; }},
    {"span of 100 bytes", false, 15, [](const Asked& a, u32 k) -> u64 { return bt_span(TREE, a.places[k], 100, out, sizeof out, &y), out[0]; }},
    {"count", false, 15, [](const Asked& a, u32 k) -> u64 { return bt_count(TREE, 10, a.places[k], &w, &y), w; }},
    {"find", false, 3, [](const Asked& a, u32 k) -> u64 { return bt_find(TREE, 10, a.ranks[k], &x, &y), x; }},
    {"find guided", false, 15, [](const Asked& a, u32 k) -> u64 { return bt_find_guided(TREE, a.guide.data(), a.guide.size(), 10, a.ranks[k], &x, &y, &z), x; }},
    {"row", false, 3, [](const Asked& a, u32 k) -> u64 { return bt_row(TREE, a.ranks[k], out, sizeof out, &x), x; }},
    {"row guided", false, 15, [](const Asked& a, u32 k) -> u64 { return bt_row_guided(TREE, a.guide.data(), a.guide.size(), a.ranks[k], out, sizeof out, &x), x; }},
    {"check", true, 7, [](const Asked& a, u32) -> u64 { return bt_check(TREE); }},
    {"whole text", true, 7, [](const Asked& a, u32) -> u64 { return bt_span(TREE, 0, (u32)a.text.size(), all.data(), all.size(), &y), all[0]; }},
};
#undef TREE

static void table() {
    std::vector<Asked> books;
    for (u32 size : {65536u, 1048576u, 8388608u}) books.push_back(asked(size));
    std::printf("| Call | 64 KiB | 1 MiB | 8 MiB |\n|---|---:|---:|---:|\n");
    for (const Call& call : list) {
        std::printf("| %s%s", call.name, call.whole ? ", a byte" : "");
        for (const Asked& a : books) {
            const u64 number = call.whole ? 1 : calls, units = call.whole ? a.text.size() : calls;
            double shortest = 1e18;
            for (int round = 0; round < call.rounds; round++) {
                const double from = processor_seconds();
                for (u32 k = 0; k < number; k++) sink = call.ask(a, k);
                shortest = std::min(shortest, (processor_seconds() - from) / (double)units * 1e9);
            }
            std::printf(" | %.3g", shortest), std::fflush(stdout);
        }
        std::printf(" |\n");
    }
}

int main(int argc, char** argv) {
    if (argc < 4) return table(), 0;
    const Asked a = asked(1024 * (u32)std::atoi(argv[2]));
    for (const Call& call : list)
        if (std::string(argv[1]) == call.name)
            for (u32 k = 0; k < (u32)std::atoi(argv[3]); k++) sink = call.ask(a, k);
}
