//! Trees without edges in the tool: `slim`, `build --small`, and what `stats`, `verify` and `build` print about layouts.

#[path = "support/folder.rs"]
mod folder;
mod model;
mod support;

use codebook::Tree;
use folder::Folder;
use model::{build, Shape};
use support::books::{book, Kind};

/// The part of a line after its first words and before the digest.
fn sizes(printed: &str) -> String {
    printed.lines().filter(|line| line.contains(" bytes, ")).map(|line| line.split("; SHA-256").next().unwrap_or_default()).collect()
}

/// A number with separated thousands.
fn grouped(number: usize) -> String {
    if number < 1000 {
        return number.to_string();
    }
    format!("{},{:03}", grouped(number / 1000), number % 1000)
}

#[test]
fn writes_a_tree_without_edges() {
    let folder = Folder::with_tree("slim");
    let done = folder.run("slim small.tree");
    assert_eq!(sizes(&done.succeeds().says("").printed()), "small.small.tree: 2,544 bytes, 44.8 % of small.tree");
    let small = folder.read("small.small.tree");
    assert_eq!(small, build::plain_tree_in(1, &folder.read("small.txt"), Shape::new(32, 6, 2), b"\n"));
    assert!(folder.run("check small.small.tree").succeeds().printed().starts_with("small.small.tree: valid tree of 2,800 bytes"));
    folder.run("verify small.txt small.small.tree").succeeds().prints("small.small.tree: the block tree, without edges, of small.txt, 2,800 bytes\n");
    for words in ["row ..", "find 0x0a 120", "span 14 6", "places CH0502", "match 5216[1-5]", "count 0x0a 1400"] {
        assert_eq!(folder.run(&format!("{words} small.tree")).printed(), folder.run(&format!("{words} small.small.tree")).printed(), "{words}");
    }
    folder.run("compare small.tree small.small.tree").succeeds();
    // an existing file is not replaced, and the tree that is read never is
    folder.run("slim small.tree").status(2).prints("").says("codebook: small.small.tree: exists; --force overwrites it\n");
    let same = "codebook: small.tree: is the file that is read (small.tree); it is left as it is\n";
    folder.run("slim small.tree -o small.tree --force").status(2).prints("").says(same);
    folder.run("slim small.tree -f -q").succeeds().prints("").says("");
    // in a pipe
    let piped = folder.pipe("slim", &folder.read("small.tree"));
    assert_eq!(piped.succeeds().output.stdout, small);
    assert!(piped.errors().starts_with("standard output: 2,544 bytes, 44.8 % of standard input; SHA-256 of the tree "));
    // a tree that has no edges is copied
    let done = folder.run("slim small.small.tree -o copy.tree");
    done.succeeds().says("codebook: small.small.tree: warning: it has no edges already, and was copied\n");
    assert_eq!(folder.read("copy.tree"), small);
}

#[test]
fn several_trees() {
    let folder = Folder::with_tree("slim-several");
    folder.write("a.txt", b"A 1\n");
    folder.run("build a.txt -q").succeeds();
    let done = folder.run("slim small.tree a.tree");
    assert_eq!(done.succeeds().printed().lines().count(), 2);
    assert!(folder.0.join("a.small.tree").exists());
    folder.run("slim small.tree a.tree -o one.tree").status(2).prints("");
    std::fs::create_dir(folder.0.join("small")).expect("a folder");
    folder.run("slim small.tree a.tree -o small -q").succeeds();
    assert_eq!(folder.read("small/a.small.tree"), folder.read("a.small.tree"));
    let line = folder.run("slim a.tree -f --json").succeeds().printed();
    assert!(
        line.starts_with("{\"tree\":\"a.tree\",\"size\":") && line.contains(",\"written\":\"a.small.tree\",\"written_size\":188,\"sha256\":\""),
        "{line}"
    );
}

/// The tree is checked first, and nothing is written for a refused one.
#[test]
fn refused_trees() {
    let folder = Folder::with_tree("slim-refused");
    let mut tree = folder.read("small.tree");
    let last = tree.len() - 1;
    folder.write("cut.tree", &tree[..last]);
    folder.run("slim cut.tree").status(1).prints("");
    // the first edge of the first block
    tree[128] ^= 1;
    folder.write("edge.tree", &tree);
    folder.run("slim edge.tree").status(1).prints("").says("codebook: edge.tree: refused (9): a count or an edge in the tree is wrong\n");
    assert_eq!(folder.names(), ["cut.tree", "edge.tree", "small.tree", "small.txt"]);
    folder.run("slim no.tree").status(2).prints("");
}

#[test]
fn builds_small_trees() {
    let folder = Folder::new("small");
    folder.write("book.txt", &book(Kind::Mixed, 60_000, 5));
    let report = folder.run("build book.txt --small").succeeds().printed();
    let tree = folder.read("book.tree");
    let built = Tree::checked(&tree).expect("a good tree");
    assert_eq!((built.layout(), built.text().as_deref()), (1, Ok(&folder.read("book.txt")[..])));
    assert!(report.contains(&format!("since its tree is the smallest of these {}\n", codebook::SMALL_LIST.len())), "{report}");
    assert!(report.contains("; bytes counted: 0x0a; without edges\n"), "{report}");
    // each candidate's size is that of its tree, computed or built, and the chosen one is the smallest
    let lines = report.lines().skip(2).take(codebook::SMALL_LIST.len());
    let printed: Vec<usize> = lines.map(|line| line.split_whitespace().last().expect("a size").replace(',', "").parse().expect("a number")).collect();
    assert_eq!(printed.iter().min(), Some(&tree.len()));
    for ((leaf, arity, levels), size) in codebook::SMALL_LIST.into_iter().zip(printed) {
        folder.run(&format!("build book.txt --small -q -o one.tree -f --leaf {leaf} --arity {arity} --levels {levels}")).succeeds();
        assert_eq!(folder.read("one.tree").len(), size, "{leaf}/{arity}/{levels}");
    }
    folder.run("verify book.txt book.tree").succeeds().prints("book.tree: the block tree, without edges, of book.txt, 60,000 bytes\n");
    // by columns too
    folder.run("build small.txt --small --columns auto --allow-larger -o columns.tree").succeeds();
    assert_eq!(Tree::unchecked(&folder.read("columns.tree")).layout(), 1);
    folder.run("row 120 --columns 14 columns.tree").succeeds().prints("HON1012 52162\n");
    folder.pipe("build --small", b"").succeeds();
}

/// The size without edges that `stats` prints is right; `build` prints the size that --small gives if that is smaller than the text and the tree is not.
#[test]
fn sizes_without_edges() {
    let folder = Folder::with_tree("edges-cost");
    folder.run("slim small.tree -q").succeeds();
    let stats = folder.run("stats small.small.tree").succeeds().printed();
    assert!(
        stats.contains("\nlayout      1, without edges\n")
            && stats.contains("\n  edges                0    0.0 %\n")
            && !stats.contains("codebook slim"),
        "{stats}"
    );
    let line = folder.run("stats small.tree small.small.tree --json").succeeds().printed();
    assert!(line.contains("\"layout\":2,\"leaf\"") && line.contains("],\"size_without_edges\":2544}\n") && line.ends_with("}]}\n"), "{line}");
    let text = book(Kind::Repetitive, 65_536, 1);
    folder.write("book.txt", &text);
    let done = folder.run("build book.txt --leaf 64 --arity 2 --levels 4");
    let tree = folder.read("book.tree");
    let small = Tree::unchecked(&tree).without_edges().expect("a tree");
    assert!(tree.len() >= text.len() && small.len() < text.len(), "{} {}", tree.len(), small.len());
    let told = |size: usize| format!(": warning: --small would give {} bytes, ", grouped(size));
    assert!(done.succeeds().errors().contains(&told(small.len())), "{}", done.errors());
    // the smallest size of the list
    assert!(folder
        .run("build small.txt -f")
        .succeeds()
        .errors()
        .ends_with("small.txt: warning: --small would give 1,928 bytes, 68.9 % of the text\n"));
    folder.run("build small.txt -f --small").succeeds().says("");
    assert_eq!(folder.read("small.tree").len(), 1928);
    // not if that is no smaller than the text, or if the tree is smaller
    folder.write("short.txt", b"A 1\n");
    assert!(!folder.run("build short.txt").succeeds().errors().contains("--small"));
    folder.write("same.txt", &b"CH0501 444224\n".repeat(2000));
    folder.run("build same.txt").succeeds().says("");
}

/// --best searches on from the best settings of the list: the tree is never larger, it is of the same text, and each step is smaller than the one before.
#[test]
fn best_searches_on() {
    let folder = Folder::with_tree("best");
    folder.write("same.txt", &b"CH0501 444224\n".repeat(2000));
    // no neighbour of the list's best is smaller for the small book
    for (book, small, further) in [("small", "", false), ("same", "", true), ("same", " --small", true)] {
        let short = folder.run(&format!("build {book}.txt -f{small}")).succeeds().printed();
        let listed = folder.read(&format!("{book}.tree")).len();
        let report = folder.run(&format!("build {book}.txt -f --best{small}")).succeeds().printed();
        let tree = folder.read(&format!("{book}.tree"));
        assert_eq!(tree.len() < listed, further, "{} {listed}", tree.len());
        assert_eq!(Tree::checked(&tree).expect("a valid tree").text().as_deref(), Ok(&folder.read(&format!("{book}.txt"))[..]));
        let sizes = |report: &str| -> Vec<usize> {
            let lines = report.lines().skip(2).take_while(|line| !line.starts_with("chosen"));
            lines.map(|line| line.split_whitespace().last().expect("a size").replace(',', "").parse().expect("a number")).collect()
        };
        let (list, all) = (sizes(&short), sizes(&report));
        assert_eq!(list[..], all[..list.len()]);
        let steps: Vec<usize> = std::iter::once(listed).chain(all[list.len()..].iter().copied()).collect();
        assert!((steps.len() > 1) == further && steps.windows(2).all(|pair| pair[1] < pair[0]) && steps.last() == Some(&tree.len()), "{steps:?}");
    }
    let refused = folder.run("build small.txt -f --best --leaf 64 --arity 2 --levels 4");
    let words = "codebook: --best searches for settings: give it, or --leaf, --arity and --levels\nusage: codebook build ";
    assert!(refused.status(2).errors().starts_with(words), "{}", refused.errors());
}
