// Sizes of trees over settings, to choose the short lists that the tool tries: for each layout a list that comes near the smallest tree on every book.
// Books differ in size, in how much is listed again and corrected, in the width of a row and in how cuts follow one another.
//
//   settings LENGTH KIB,.. [FILE..]   for each layout a list of LENGTH settings, found one by one, each the one that lowers the mean excess over the
//                                     smallest tree most, on generated books of KIB KiB (none if KIB is 0) and on the books of files. Then, for
//                                     each kind of book, the excess of the lists of the tool, before and now
#include "books.hpp"
#include <algorithm>
#include <array>
#include <cstring>
#include <map>
#include <set>
#include <string>

// Rows of one kind: the lengths of codes and cuts, and whether the cuts of a new row are random or differ from the last row in one place.
struct Kind {
    const char* prefix;
    u32 cuts;
    bool drawn;
};

static std::string fresh_row(const Kind& kind, Random& random, u32 number, std::string& cuts) {
    if (kind.drawn)
        for (auto& cut : cuts) cut = (char)('1' + random.below(5));
    else
        cuts[random.below(kind.cuts)] = (char)('1' + random.below(5));
    return kind.prefix + std::to_string(number) + " " + cuts + "\n";
}

// The share of a book that is repeated, the largest number of rows of a repeated part, and how many of its rows there are to one that is corrected.
struct Share {
    const char* name;
    u32 relisted, rows, corrected;
};
static const Share shares[] = {{"nearly all listed again", 98, 2000, 2000}, {"highly repetitive", 92, 400, 500}, {"repetitive", 80, 400, 60},
                               {"medium", 55, 400, 60},                     {"mostly fresh", 30, 400, 20},       {"nearly random", 0, 400, 1}};

static Bytes rows_of(const Kind& kind, u32 size, const Share& share, u64 seed) {
    Random random{seed};
    std::vector<std::string> rows;
    Bytes text;
    std::string cuts(kind.cuts, '3');
    for (u32 series = 1; text.size() < size; series++) {
        const bool again = !rows.empty() && random.below(100) < share.relisted;
        const u32 from = again ? random.below((u32)rows.size()) : 0, n = again ? std::min<u32>(100 + random.below(share.rows), (u32)rows.size() - from) : 200;
        for (u32 k = 0; k < n; k++) {
            std::string row = again ? rows[from + k] : fresh_row(kind, random, series * 1000 + k, cuts);
            if (again && random.below(share.corrected) == 0) row[row.size() - 2] = (char)('1' + random.below(5));
            rows.push_back(row), text.insert(text.end(), row.begin(), row.end());
        }
    }
    text.resize(size - 1);
    text.push_back(10);
    return text;
}

using List = std::vector<std::array<u32, 3>>;
using Sizes = std::map<std::array<u32, 3>, std::array<double, 2>>;

static const std::vector<u32> leaves = {10, 12, 16, 24, 32, 36, 48, 64, 80, 96, 128, 192, 256};

// Layout 2 and layout 1 of one build: records lose their edges, twice the leaf length.
static void measure(const Bytes& text, Settings s, Sizes& sizes) {
    const Bytes tree = tree_of(text, s);
    peer::View v;
    demand(peer::open(tree.data(), tree.size(), v) == 0, "open");
    u64 records = 0;
    for (u32 l = 0; l < v.levels; l++) records += v.count[l];
    sizes[{s.leaf, s.arity, s.levels}] = {(double)tree.size(), (double)(tree.size() - 2 * s.leaf * records)};
}

static Sizes all_sizes(const Bytes& text) {
    Sizes sizes;
    for (u32 leaf : leaves)
        for (u32 arity = 2; arity <= 8; arity++)
            for (u32 levels = 1; levels <= 6; levels++) {
                u64 block = leaf;
                for (u32 l = 1; l < levels; l++) block *= arity;
                if (block > text.size() / 4 || block > 65536 || (levels == 1 && arity > 2)) continue;
                measure(text, {leaf, arity, levels}, sizes);
            }
    return sizes;
}

// The list of one layout, and how far it stays above the smallest tree of all.
static void choose(const std::vector<Sizes>& books, int layout, int length) {
    List list;
    std::set<std::array<u32, 3>> all;
    std::vector<double> smallest, best(books.size(), 1e18);
    for (const Sizes& sizes : books) {
        double least = 1e18;
        for (const auto& [settings, size] : sizes) least = std::min(least, size[layout]), all.insert(settings);
        smallest.push_back(least);
    }
    auto with = [&](const std::array<u32, 3>& settings, double& worst) {
        double sum = 0;
        worst = 0;
        for (size_t b = 0; b < books.size(); b++) {
            const auto found = books[b].find(settings);
            const double size = std::min(best[b], found == books[b].end() ? 1e18 : found->second[layout]), excess = size > 1e17 ? 9 : size / smallest[b] - 1;
            sum += excess, worst = std::max(worst, excess);
        }
        return sum / (double)books.size();
    };
    for (int k = 0; k < length; k++) {
        std::array<u32, 3> chosen{};
        double least = 1e18, worst = 0, w;
        for (const auto& settings : all)
            if (const double mean = with(settings, w); mean < least) least = mean, worst = w, chosen = settings;
        for (size_t b = 0; b < books.size(); b++)
            if (const auto found = books[b].find(chosen); found != books[b].end()) best[b] = std::min(best[b], found->second[layout]);
        list.push_back(chosen);
        std::printf("| %u/%u/%u | %.1f %% | %.1f %% |\n", chosen[0], chosen[1], chosen[2], 100 * least, 100 * worst);
    }
}

// How far the smallest tree of a list is above the smallest of all.
static double excess(const Sizes& sizes, int layout, const List& list) {
    double least = 1e18, own = 1e18;
    for (const auto& [settings, size] : sizes) least = std::min(least, size[layout]);
    for (const auto& settings : list)
        if (const auto found = sizes.find(settings); found != sizes.end()) own = std::min(own, found->second[layout]);
    return own / least - 1;
}

// The lists of the tool: up to version 1.16, and now. host/tests/installed.rs compares the latter with the tool's.
static const List before[] = {
    {{256, 2, 1}, {64, 4, 3}, {48, 2, 5}, {32, 4, 4}, {24, 8, 3}, {16, 4, 4}},
    {{256, 2, 1}, {256, 2, 2}, {192, 2, 2}, {128, 2, 2}, {96, 2, 2}, {96, 2, 4}, {64, 2, 5}},
};
static const List now[] = {
    {{256, 2, 1}, {32, 6, 2}, {32, 5, 2}, {24, 5, 3}, {16, 5, 4}, {16, 4, 3}, {12, 4, 4}, {10, 3, 6}},
    {{256, 2, 1}, {192, 2, 2}, {128, 2, 4}, {96, 2, 2}, {80, 2, 4}, {64, 2, 2}, {64, 2, 4}, {64, 2, 5}},
};

// A row of the table: mean and maximum of both lists of a layout on the books of one kind; on all books if the kind is none.
static void judge(const std::string& name, const std::vector<Sizes>& books, const std::vector<std::string>& kinds, int layout) {
    std::printf("| %s", name.c_str());
    for (const List& list : {before[layout], now[layout]}) {
        double sum = 0, most = 0, number = 0;
        for (size_t b = 0; b < books.size(); b++) {
            if (name != "all" && kinds[b] != name) continue;
            const double e = excess(books[b], layout, list);
            sum += e, most = std::max(most, e), number++;
        }
        std::printf(" | %.1f %% | %.1f %%", 100 * sum / number, 100 * most);
    }
    std::printf(" |\n");
}

static Bytes read_file(const char* name) {
    FILE* file = std::fopen(name, "rb");
    demand(file != nullptr, name);
    Bytes text(8388608);
    text.resize(std::fread(text.data(), 1, text.size(), file));
    std::fclose(file);
    return text;
}

static void make_books(u32 size, std::vector<Bytes>& texts, std::vector<std::string>& kinds) {
    const Kind rows[] = {{"CH", 6, false}, {"K", 5, true}, {"HON-", 8, false}, {"", 10, true}};
    u64 seed = 0;
    for (const Kind& kind : rows)
        for (const Share& share : shares) {
            texts.push_back(rows_of(kind, size, share, ++seed));
            kinds.push_back(share.name);
        }
}

int main(int argc, char** argv) {
    demand(argc > 2, "settings LENGTH KIB,.. [FILE..]");
    const int length = std::atoi(argv[1]);
    std::vector<Bytes> texts;
    std::vector<std::string> kinds;
    for (int k = 3; k < argc; k++) texts.push_back(read_file(argv[k])), kinds.push_back("files");
    for (const char* kib = argv[2]; kib; kib = std::strchr(kib, ',') ? std::strchr(kib, ',') + 1 : nullptr)
        if (const int size = std::atoi(kib)) make_books(1024 * (u32)size, texts, kinds);
    std::vector<Sizes> books;
    for (const Bytes& text : texts) books.push_back(all_sizes(text)), std::fprintf(stderr, ".");
    std::fprintf(stderr, "\n");
    for (int layout = 0; layout < 2; layout++) {
        std::printf("\nLayout %d, %zu books, %zu settings at most\n\n| Settings, added one by one | Mean excess | Most |\n|---|---:|---:|\n", 2 - layout,
                    books.size(), books.back().size());
        choose(books, layout, length);
        std::printf("\n| Books | List before, mean | most | List now, mean | most |\n|---|---:|---:|---:|---:|\n");
        for (const Share& share : shares)
            if (std::find(kinds.begin(), kinds.end(), share.name) != kinds.end()) judge(share.name, books, kinds, layout);
        if (argc > 3) judge("files", books, kinds, layout);
        judge("all", books, kinds, layout);
    }
}
