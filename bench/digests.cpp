// SHA-256 compared with plain C (sha256.c, by two compilers), and a tree's digest with its two parts, on books of 1 MiB.
#include "books.hpp"
#include "timing.hpp"

extern "C" {
void sha256_gcc(const u8* text, size_t n, u8* out);
void sha256_clang(const u8* text, size_t n, u8* out);
}

static volatile u64 sink;

template <class F> static void shortest(double& best, u64 units, F f) {
    const double from = processor_seconds();
    f();
    best = std::min(best, (processor_seconds() - from) / (double)units * 1e9);
}

// digest_text and plain C, ns for a byte of a text.
static void digest_texts(const Bytes& text) {
    u8 ours[32], theirs[32];
    double library = 1e18, gcc = 1e18, clang = 1e18;
    for (int round = 0; round < 25; round++) {
        shortest(library, text.size(), [&] { sink = bt_digest_text(text.data(), text.size(), ours, sizeof ours); });
        shortest(gcc, text.size(), [&] { sha256_gcc(text.data(), text.size(), theirs); });
        demand(!std::memcmp(ours, theirs, 32), "digest by gcc");
        shortest(clang, text.size(), [&] { sha256_clang(text.data(), text.size(), theirs); });
        demand(!std::memcmp(ours, theirs, 32), "digest by clang");
    }
    std::printf("\n| SHA-256 of %zu bytes | ns a byte | Library by it |\n|---|---:|---:|\n| `bt_digest_text` | %.2f | |\n", text.size(), library);
    std::printf("| plain C, gcc -O3 | %.2f | %.2f |\n", gcc, library / gcc);
    std::printf("| plain C, clang -O3 | %.2f | %.2f |\n", clang, library / clang);
}

// digest of a tree, digest_text of its text, and the span of the whole text, ns for a byte of the text.
static void digest_tree(const char* name, const Bytes& text, const Bytes& tree) {
    u8 of_tree[32], of_text[32];
    Bytes all(text.size());
    const u32 n = (u32)text.size();
    u32 entered;
    double digest = 1e18, hashed = 1e18, span = 1e18;
    for (int round = 0; round < 25; round++) {
        shortest(digest, n, [&] { sink = bt_digest(tree.data(), tree.size(), of_tree, sizeof of_tree); });
        shortest(hashed, n, [&] { sink = bt_digest_text(text.data(), n, of_text, sizeof of_text); });
        shortest(span, n, [&] { sink = bt_span(tree.data(), tree.size(), 0, n, all.data(), n, &entered); });
        demand(!std::memcmp(of_tree, of_text, 32) && all == text, "digest of a tree");
    }
    std::printf("| %s | %.2f | %.2f | %.2f | %.2f |\n", name, digest, hashed, span, digest / (hashed + span));
}

static void digests() {
    digest_texts(repetitive(1048576));
    std::printf("\n| Tree of 1 MiB | `bt_digest`, ns a byte | `bt_digest_text` | span of the text | Digest by their sum |\n|---|---:|---:|---:|---:|\n");
    const struct { const char* name; Bytes (*text)(u32); Settings settings; } trees[] = {
        {"repetitive, 64/2/4", repetitive, {64, 2, 4}}, {"repetitive, 24/3/5", repetitive, {24, 3, 5}}, {"repetitive, 16/4/4", repetitive, {16, 4, 4}}, {"mixed, 64/2/4", mixed, {64, 2, 4}},
    };
    for (const auto& t : trees) {
        const Bytes text = t.text(1048576), tree = tree_of(text, t.settings);
        digest_tree(t.name, text, tree);
        digest_tree((std::string(t.name) + ", layout 1").c_str(), text, without_edges(tree));
    }
}

int main() { digests(); }
