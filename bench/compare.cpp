// Times the library and the peer (peer/) on the same trees, in one process; both must return the same, or the program stops. bench/run builds and
// runs it. It prints one table: the library's time divided by the peer's, for each call, book and settings.
//
//   compare [ROUNDS [WORD]]     60 rounds by default; with WORD only calls whose name contains it, with their times in ns
#include "books.hpp"
#include "peer/build.hpp"
#include "timing.hpp"

extern "C" void sha256_clang(const u8* text, size_t n, u8* out);

static volatile u64 sink;
static int rounds = 60;
static const char* word_wanted = nullptr;
static Table table;
static const u32 calls = 20000;
static const u8 newline = 10;

// A tree, and the arguments of the calls on it.
struct Asked {
    Bytes text, tree, guide;
    std::vector<u32> places, ranks;
    const u8* t() const { return tree.data(); }
    u64 size() const { return tree.size(); }
    peer::Guide by_guide() const { return {guide.data(), guide.size()}; }
};

static Asked asked(const Bytes& text, const Bytes& tree) {
    Asked a{text, tree, guide_of(tree), {}, {}};
    Random random{7};
    u64 rows = 0;
    demand(bt_check(a.t(), a.size()) == 0, "check");
    demand(bt_row_count(a.t(), a.size(), &rows) == 0, "rows");
    for (u32 k = 0; k < calls; k++) a.places.push_back(random.below((u32)text.size() - 128)), a.ranks.push_back(1 + random.below((u32)rows));
    return a;
}

static void line(const std::string& name, u64 units, int share, const Work& by_peer, const Work& by_library) {
    if (word_wanted != nullptr && name.find(word_wanted) == std::string::npos) return;
    const Times t = timed(units, std::max(3, rounds / share), by_peer, by_library);
    char cell[64];
    std::snprintf(cell, sizeof cell, word_wanted ? "%.2f (%.3g / %.3g)" : "%.2f", t.library / t.peer, t.library, t.peer);
    table.add(name, cell);
}

template <class F> static Work each(const std::vector<u32>& list, F f) {
    return Work([&list, f](u32 chunk, u32 of) mutable {
        const u64 n = list.size();
        u64 sum = 0;
        for (u64 k = n * chunk / of; k < n * (chunk + 1) / of; k++) sum += f(list[k]);
        sink = sum;
    }, 40);
}

// Equal answers: one place and one rank.
static void same_reads(const Asked& a, const peer::View& v, u32 place) {
    u32 x, y;
    u64 w;
    u8 mine[128], theirs[128];
    peer::Answer p = peer::byte(v, place);
    demand(bt_byte(a.t(), a.size(), place, &x, &y) == p.number && x == p.value && y == p.entered && x == a.text[place], "byte");
    p = peer::count(v, newline, place);
    demand(bt_count(a.t(), a.size(), newline, place, &w, &y) == p.number && w == p.value && y == p.entered, "count");
    peer::Run run;
    demand(peer::walk(v, place, run) && bt_run_range(a.t(), a.size(), place, &w, &x) == 0 && v.tree + w == run.from && x == run.length, "run");
    for (u32 length : {8u, 32u, 100u}) {
        demand(bt_span(a.t(), a.size(), place, length, mine, sizeof mine, &x) == 0 && peer::span(v, place, length, theirs, sizeof theirs, y) == 0, "span");
        demand(x == y && std::memcmp(mine, theirs, length) == 0, "span");
    }
}

static void same_rows(const Asked& a, const peer::View& v, u32 j) {
    u32 x, y, z, steps, length;
    u8 mine[4096], theirs[4096];
    peer::Answer p = peer::find(v, newline, j, {}, steps);
    demand(bt_find(a.t(), a.size(), newline, j, &x, &y) == p.number && x == p.value && y == p.entered, "find");
    p = peer::find(v, newline, j, a.by_guide(), steps);
    demand(bt_find_guided(a.t(), a.size(), a.guide.data(), a.guide.size(), newline, j, &x, &y, &z) == p.number && x == p.value && y == p.entered && z == steps, "find guided");
    demand(peer::row(v, j, theirs, sizeof theirs, length, {}) == 0 && bt_row(a.t(), a.size(), j, mine, sizeof mine, &x) == 0, "row");
    demand(length == x && std::memcmp(mine, theirs, x) == 0, "row");
    demand(peer::row(v, j, theirs, sizeof theirs, length, a.by_guide()) == 0 && length == x && std::memcmp(mine, theirs, x) == 0, "row guided");
    demand(bt_row_guided(a.t(), a.size(), a.guide.data(), a.guide.size(), j, mine, sizeof mine, &x) == 0 && length == x && std::memcmp(mine, theirs, x) == 0, "row guided");
    demand(peer::row_length(v, j, length) == 0 && bt_row_length(a.t(), a.size(), j, &y) == 0 && y == length, "row length");
}

// Both refuse damaged trees with the same numbers.
static void same_checks(const Asked& a) {
    Random random{3};
    for (int k = 0; k < (a.text.size() > 2000000 ? 20 : 200); k++) {
        Bytes damaged = a.tree;
        damaged[random.below((u32)damaged.size())] ^= (u8)(1u << random.below(8));
        demand(peer::check(damaged.data(), damaged.size()) == bt_check(damaged.data(), damaged.size()), "check of a damaged tree");
    }
}

static void same(const Asked& a) {
    peer::View v;
    demand(peer::open(a.t(), a.size(), v) == 0 && peer::check(a.t(), a.size()) == 0, "check");
    for (u32 k = 0; k < 5000; k++) same_reads(a, v, a.places[k]), same_rows(a, v, a.ranks[k]);
    same_checks(a);
    Bytes guide(a.guide.size());
    u64 words;
    demand(peer::make_guide(a.t(), a.size(), guide.data(), guide.size(), words) == 0 && guide == a.guide, "guide");
    demand(peer::check_guide(a.t(), a.size(), guide.data(), guide.size()) == 0, "guide check");
}

static void reads(const Asked& a, const std::string& layout) {
    static peer::View v;
    static u32 x, y;
    static u64 w;
    static u8 out[4096];
    const u8* t = a.t();
    const u64 n = a.size();
    line("header" + layout, calls, 1, each(a.places, [=](u32) { return peer::open(t, n, v) + v.block[0]; }), each(a.places, [=](u32 p) { return bt_byte(t, n, p + 100000000, &x, &y); }));
    line("byte" + layout, calls, 1, each(a.places, [=](u32 p) { return peer::open(t, n, v), peer::byte(v, p).value; }), each(a.places, [=](u32 p) { return bt_byte(t, n, p, &x, &y), x; }));
    line("run" + layout, calls, 1, each(a.places, [=](u32 p) { peer::Run run; return peer::open(t, n, v), peer::walk(v, p, run), run.length; }), each(a.places, [=](u32 p) { return bt_run_range(t, n, p, &w, &x), x; }));
    for (u32 length : {8u, 32u, 100u})
        line("span of " + std::to_string(length) + " bytes" + layout, calls, 1, each(a.places, [=](u32 p) { return peer::open(t, n, v), peer::span(v, p, length, out, sizeof out, y), out[0]; }),
             each(a.places, [=](u32 p) { return bt_span(t, n, p, length, out, sizeof out, &y), out[0]; }));
    Bytes all(a.text.size());
    const u32 size = (u32)all.size();
    line("whole text" + layout, size, 3, [&] { peer::open(t, n, v), peer::span(v, 0, size, all.data(), size, y), sink = all[0]; }, [&] { bt_span(t, n, 0, size, all.data(), size, &y), sink = all[0]; });
    demand(word_wanted != nullptr || all == a.text, "text");
    line("count" + layout, calls, 1, each(a.places, [=](u32 p) { return peer::open(t, n, v), peer::count(v, newline, p).value; }), each(a.places, [=](u32 p) { return bt_count(t, n, newline, p, &w, &y), w; }));
}

static void finds(const Asked& a, const std::string& layout) {
    static peer::View v;
    static u32 x, y, z;
    static u8 out[4096];
    const u8 *t = a.t(), *g = a.guide.data();
    const u64 n = a.size(), size = a.guide.size();
    const peer::Guide guide = a.by_guide();
    line("find" + layout, calls, 3, each(a.ranks, [=](u32 j) { return peer::open(t, n, v), peer::find(v, newline, j, {}, z).value; }), each(a.ranks, [=](u32 j) { return bt_find(t, n, newline, j, &x, &y), x; }));
    line("find guided" + layout, calls, 1, each(a.ranks, [=](u32 j) { return peer::open(t, n, v), peer::find(v, newline, j, guide, z).value; }),
         each(a.ranks, [=](u32 j) { return bt_find_guided(t, n, g, size, newline, j, &x, &y, &z), x; }));
    line("row" + layout, calls, 3, each(a.ranks, [=](u32 q) { return peer::open(t, n, v), peer::row(v, q, out, sizeof out, x, {}), x; }), each(a.ranks, [=](u32 q) { return bt_row(t, n, q, out, sizeof out, &x), x; }));
    line("row guided" + layout, calls, 1, each(a.ranks, [=](u32 q) { return peer::open(t, n, v), peer::row(v, q, out, sizeof out, x, guide), x; }),
         each(a.ranks, [=](u32 q) { return bt_row_guided(t, n, g, size, q, out, sizeof out, &x), x; }));
    line("row length" + layout, calls, 3, each(a.ranks, [=](u32 q) { return peer::open(t, n, v), peer::row_length(v, q, x), x; }), each(a.ranks, [=](u32 q) { return bt_row_length(t, n, q, &x), x; }));
    line("check" + layout, a.text.size(), 3, [=] { sink = peer::check(t, n); }, [=] { sink = bt_check(t, n); });
}

static void guides(const Asked& a) {
    const u8* t = a.t();
    const u64 n = a.size(), size = a.text.size();
    static Bytes out;
    static u64 words;
    out.resize(a.guide.size());
    line("guide made, with the check", size, 6, [=] { sink = peer::make_guide(t, n, out.data(), out.size(), words); }, [=] { sink = bt_make_guide(t, n, out.data(), out.size(), &words); });
    line("guide checked, with the check", size, 6, [=, &a] { sink = peer::check_guide(t, n, a.guide.data(), a.guide.size()); }, [=, &a] { sink = bt_check_guide(t, n, a.guide.data(), a.guide.size()); });
}

static void built(const Bytes& text, const Bytes& tree, Settings s) {
    const u32 n = (u32)text.size();
    u64 room = 0, windows = 0;
    u32 size = 0, number = 0;
    demand(bt_size_bound(n, s.leaf, s.arity, s.levels, 1, &room) == 0, "enough");
    Bytes out(room);
    std::vector<u32> work(bt_scan_words(n, s.leaf));
    const u64 own = peer::build(text.data(), n, s.leaf, s.arity, s.levels, &newline, 1, out.data(), room, windows);
    demand(own == tree.size() && std::equal(tree.begin(), tree.end(), out.begin()), "builder");
    line("build by one scan a level", n, 6, [&] { sink = peer::build(text.data(), n, s.leaf, s.arity, s.levels, &newline, 1, out.data(), room, windows); },
         [&] { sink = bt_build_scanned(text.data(), n, s.leaf, s.arity, s.levels, &newline, 1, work.data(), work.size(), out.data(), out.size(), &size, &number); });
    peer::View v;
    u64 plain = 0;
    const Bytes slim = without_edges(tree);
    demand(peer::open(tree.data(), tree.size(), v) == 0 && peer::without_edges(v, out.data()) == slim.size() && std::equal(slim.begin(), slim.end(), out.begin()), "without edges");
    line("without edges", n, 6, [&] { peer::open(tree.data(), tree.size(), v), sink = peer::without_edges(v, out.data()); }, [&] { sink = bt_without_edges(tree.data(), tree.size(), out.data(), out.size(), &plain); });
}

static void places(const Asked& a, const std::string& name, const Bytes& pattern) {
    const u8* t = a.t();
    const u64 n = a.size();
    std::vector<u32> mine(a.text.size()), theirs(a.text.size());
    u32 x = 0, y = 0;
    peer::View v;
    demand(peer::open(t, n, v) == 0 && peer::places(v, pattern.data(), (u32)pattern.size(), theirs.data(), theirs.size(), y) == 0, "places");
    demand(bt_places(t, n, pattern.data(), pattern.size(), mine.data(), mine.size(), &x) == 0 && x == y && std::equal(mine.begin(), mine.begin() + x, theirs.begin()), "places");
    line("places of " + name, a.text.size(), 6, [&] { peer::open(t, n, v), peer::places(v, pattern.data(), (u32)pattern.size(), theirs.data(), theirs.size(), y), sink = y; },
         [&] { bt_places(t, n, pattern.data(), pattern.size(), mine.data(), mine.size(), &x), sink = x; });
}

static void all_places(const Asked& a) {
    u32 p = a.places[0];
    while (p != 0 && a.text[p - 1] != newline) p--;
    places(a, "a code's 8 bytes", Bytes(a.text.begin() + p, a.text.begin() + p + 8));
    places(a, "a digit", Bytes{'1'});
    places(a, "6 bytes that do not occur", Bytes(6, '#'));
}

// 300 consecutive rows from the middle of the book on.
template <class P, class L> static void in_turn(const Asked& a, const std::string& name, P by_peer, L by_library) {
    u64 rows = 0;
    bt_row_count(a.t(), a.size(), &rows);
    const u32 middle = (u32)(rows / 2);
    auto all = [middle](auto next) { return [=] { u64 sum = 0; u32 mark = middle; for (int k = 0; k < 300; k++) sum += mark = next(mark); return sum; }; };
    auto peers = all(by_peer);
    auto librarys = all(by_library);
    demand(peers() == librarys(), name.c_str());
    line(name, 300, 6, [=] { sink = peers(); }, [=] { sink = librarys(); });
}

static void matches(const Asked& a) {
    const u8* t = a.t();
    const u64 n = a.size();
    static peer::View v;
    static const u8 none[20] = {9, 9, 9, 9, 9, 9, 9, 9, 9, 9, 9, 9, 9, 9, 9, 9, 9, 9, 9, 9}, any[12] = {0, 9, 0, 9, 0, 9, 0, 9, 0, 9, 0, 9};
    static u32 row;
    demand(peer::open(t, n, v) == 0, "open");
    line("next match, none in the book", a.text.size(), 6, [=] { peer::open(t, n, v), sink = peer::next_match(v, none, 10, 0, row); }, [=] { u32 mark = 0; sink = bt_next_match(t, n, none, 20, &mark, &row); });
    in_turn(a, "next match, each row", [=](u32 mark) { return peer::open(t, n, v), peer::next_match(v, any, 6, mark, row), row; }, [=](u32 mark) { return bt_next_match(t, n, any, 12, &mark, &row), row; });
}

static void prefixes(const Asked& a) {
    const u8 *t = a.t(), *g = a.guide.data();
    const u64 n = a.size(), size = a.guide.size();
    static peer::View v;
    static const u8 none[4] = {'#', '#', '#', '#'}, all[2] = {'C', 'H'};
    static u32 row;
    const peer::Guide guide = a.by_guide();
    line("next row by prefix, none", a.text.size(), 6, [=] { peer::open(t, n, v), sink = peer::next_with_prefix(v, none, 4, 0, {}, row); }, [=] { u32 mark = 0; sink = bt_next_with_prefix(t, n, none, 4, &mark, &row); });
    in_turn(a, "next row by prefix, each row", [=](u32 mark) { return peer::open(t, n, v), peer::next_with_prefix(v, all, 2, mark, {}, row), row; }, [=](u32 mark) { return bt_next_with_prefix(t, n, all, 2, &mark, &row), row; });
    in_turn(a, "next row by prefix, guided", [=](u32 mark) { return peer::open(t, n, v), peer::next_with_prefix(v, all, 2, mark, guide, row), row; },
            [=](u32 mark) { return bt_next_with_prefix_guided(t, n, g, size, all, 2, &mark, &row), row; });
}

static void columns(const Asked& a) {
    const u8* t = a.t();
    const u64 n = a.size();
    const u32 size = (u32)a.text.size(), width = 16; // books are multiples of it
    static peer::View v;
    static u8 mine[16], theirs[16];
    std::vector<u32> rows;
    for (u32 p : a.places) rows.push_back(p / width);
    demand(peer::open(t, n, v) == 0, "open");
    for (u32 r : rows) demand(peer::row_by_columns(v, width, r, theirs, 16) == 0 && bt_row_by_columns(t, n, width, r, mine, 16) == 0 && std::memcmp(mine, theirs, 16) == 0, "row by columns");
    line("row by columns, width 16", calls, 6, each(rows, [=](u32 r) { return peer::open(t, n, v), peer::row_by_columns(v, width, r, theirs, 16), theirs[0]; }), each(rows, [=](u32 r) { return bt_row_by_columns(t, n, width, r, mine, 16), mine[0]; }));
    Bytes out(size), own(size);
    peer::to_columns(a.text.data(), size, width, own.data());
    demand(bt_to_columns(a.text.data(), size, width, out.data(), size) == 0 && out == own, "columns");
    line("to columns", size, 6, [&] { peer::to_columns(a.text.data(), size, width, out.data()), sink = out[1]; }, [&] { sink = bt_to_columns(a.text.data(), size, width, out.data(), size); });
}

static void orders(const Asked& a) {
    const Bytes other = tree_of(a.text, {128, 4, 3});
    u32 where, shared, first;
    peer::View v, w;
    demand(bt_compare(a.t(), a.size(), other.data(), other.size(), &where, &shared, &first) == 0 && where == 2 && shared == a.text.size(), "order");
    demand(peer::open(a.t(), a.size(), v) == 0 && peer::open(other.data(), other.size(), w) == 0 && peer::order(v, w, shared) == 2, "order");
    line("order, beside 128/4/3", a.text.size(), 6, [&] { peer::open(a.t(), a.size(), v), peer::open(other.data(), other.size(), w), sink = peer::order(v, w, shared); },
         [&] { bt_compare(a.t(), a.size(), other.data(), other.size(), &where, &shared, &first), sink = where; });
}

static void digests(const Asked& a) {
    const u32 n = (u32)a.text.size();
    u8 mine[32], theirs[32];
    Bytes all(n);
    peer::View v;
    u32 y;
    auto by_peer = [&] { peer::open(a.t(), a.size(), v), peer::span(v, 0, n, all.data(), n, y), sha256_clang(all.data(), n, theirs); };
    by_peer();
    demand(bt_digest(a.t(), a.size(), mine, 32) == 0 && std::memcmp(mine, theirs, 32) == 0, "digest");
    line("digest", n, 6, by_peer, [&] { sink = bt_digest(a.t(), a.size(), mine, 32); });
}

static void compare(const std::string& name, const Bytes& text, Settings s) {
    table.columns.push_back(name + " " + std::to_string(s.leaf) + "/" + std::to_string(s.arity) + "/" + std::to_string(s.levels));
    const Bytes edged = tree_of(text, s);
    const Asked plain = asked(text, without_edges(edged)), full = asked(text, edged);
    same(plain), same(full);
    reads(plain, ", layout 1"), finds(plain, ", layout 1");
    reads(full, ", layout 2"), finds(full, ", layout 2");
    guides(full), all_places(full), matches(full), prefixes(full), columns(full), orders(full), digests(full);
    built(text, edged, s);
    std::fprintf(stderr, "%s\n", table.columns.back().c_str());
}

int main(int argc, char** argv) {
    if (argc > 1) rounds = std::max(1, std::atoi(argv[1]));
    if (argc > 2) word_wanted = argv[2];
    const u32 mega = 1048576;
    compare("repetitive", repetitive(mega), {64, 2, 4});
    compare("mixed", mixed(mega), {64, 2, 4});
    compare("fresh", fresh(mega), {64, 2, 4});
    compare("repetitive", repetitive(mega), {24, 3, 5});
    compare("mixed", mixed(mega), {24, 3, 5});
    compare("repetitive", repetitive(mega), {16, 4, 4});
    compare("mixed", mixed(mega), {16, 4, 4});
    compare("repetitive", repetitive(mega), {256, 2, 1});
    compare("mixed", mixed(mega), {256, 2, 1});
    compare("64 KiB", repetitive(65536), {64, 2, 4});
    compare("8 MiB", repetitive(8 * mega), {64, 2, 4});
    table.print();
}
