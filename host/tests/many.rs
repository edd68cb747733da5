//! Several files in one call: one line for each, all are done, and the status is the highest: 1 where one is refused, 2 where one cannot be read or written.

#[path = "support/folder.rs"]
mod folder;

use folder::Folder;

/// Two books, their trees, a damaged tree, and the name of no file.
fn shelf(name: &str) -> Folder {
    let folder = Folder::new(name);
    folder.write("late.txt", &b"D 1\n".repeat(500));
    folder.run("build small.txt late.txt -q").succeeds().prints("").says("");
    let mut damaged = folder.read("small.tree");
    damaged[104] = 2;
    folder.write("damaged.tree", &damaged);
    folder
}

const LINKS: &str = "refused (8): the blocks are not right: a start, kind, link or gap, or the number of blocks or leaf bytes";
const NONE: &str = "cannot be read: No such file or directory (os error 2)";

#[test]
fn builds() {
    let folder = shelf("many-builds");
    let done = folder.run("build small.txt none.txt late.txt --force");
    let printed = done.status(2).printed();
    assert_eq!(printed.lines().take(2).map(|line| line.split(':').next().unwrap_or("")).collect::<Vec<_>>(), ["small.tree", "late.tree"]);
    assert!(done.errors().contains(&format!("codebook: none.txt: {NONE}\n")));
    // an existing tree is reported, and the others are built
    folder.write("more.txt", b"E 1\n");
    let done = folder.run("build small.txt more.txt -q");
    done.status(2).says("codebook: small.tree: exists; --force overwrites it\n");
    assert_eq!(folder.run("row 1 more.tree").printed(), "E 1\n");
    // into a folder
    std::fs::create_dir(folder.0.join("trees")).expect("a folder");
    folder.run("build small.txt late.txt -q -o trees").succeeds();
    assert_eq!((folder.read("trees/small.tree"), folder.read("trees/late.tree")), (folder.read("small.tree"), folder.read("late.tree")));
    folder.run("build small.txt late.txt -o one.tree").status(2);
    let both = folder.run("build small.txt late.txt trees/../small.csv ./small.txt --force");
    let says = format!("codebook: small.txt and trees/../small.csv would both be written to {}", folder.0.join("small.tree").display());
    assert!(both.status(2).errors().starts_with(&says), "{}", both.errors());
    assert!(!folder.0.join("one.tree").exists());
}

#[test]
fn checks_and_verifies() {
    let folder = shelf("many-checks");
    let done = folder.run("check small.tree damaged.tree none.tree late.tree");
    done.status(2).says(&format!("codebook: damaged.tree: {LINKS}\ncodebook: none.tree: {NONE}\n"));
    let lines: Vec<String> = done.printed().lines().map(|line| line.split(';').next().unwrap_or("").to_owned()).collect();
    assert_eq!(lines, ["small.tree: valid tree of 2,800 bytes of text", "late.tree: valid tree of 2,000 bytes of text"]);
    folder.run("check small.tree late.tree --quiet").succeeds().prints("").says("");
    let done = folder.run("digest small.tree damaged.tree none.tree late.tree");
    done.status(2).says(&format!("codebook: damaged.tree: {LINKS}\ncodebook: none.tree: {NONE}\n"));
    done.prints(&folder.shell("sha256sum small.txt late.txt").printed().replace(".txt", ".tree"));
    let good = "small.tree: the block tree of small.txt, 2,800 bytes\nlate.tree: the block tree of late.txt, 2,000 bytes\n";
    folder.run("verify small.txt small.tree late.txt late.tree").succeeds().prints(good);
    let done = folder.run("verify late.txt small.tree small.txt damaged.tree late.txt late.tree");
    done.status(1).prints("late.tree: the block tree of late.txt, 2,000 bytes\n");
    let differs = "not a tree of late.txt: byte 0, in row 1, differs first: the book has 68 'D', the tree 67 'C'";
    done.says(&format!("codebook: small.tree: {differs}\ncodebook: damaged.tree: {LINKS}\n"));
}

#[test]
fn stats_and_lists() {
    let folder = shelf("many-stats");
    let done = folder.run("stats small.tree damaged.tree late.tree");
    done.status(1).says(&format!("codebook: damaged.tree: {LINKS}\n"));
    assert_eq!(done.printed().lines().count(), 2);
    assert!(done
        .printed()
        .starts_with("small.tree: 5,680 bytes, 202.9 % of the text; 2,800 bytes of text, 200 rows; leaf 32, arity 6, levels 2\nlate.tree: "));
    let done = folder.run("list small.tree damaged.tree");
    done.status(1).prints("small.tree: 0 15 6 9 / 1 34 34 0\ndamaged.tree: refused 8\n").says(&format!("codebook: damaged.tree: {LINKS}\n"));
    let done = folder.run("stats small.tree damaged.tree --json");
    assert_eq!(done.status(1).printed().lines().count(), 2);
    assert!(done.printed().ends_with(&format!("{{\"failed\":\"damaged.tree\",\"status\":1,\"refused\":8,\"words\":\"{LINKS}\"}}\n")));
}

#[test]
fn sorted() {
    let folder = shelf("many-sorted");
    folder.run("sort late.tree small.tree").succeeds().prints("small.tree\nlate.tree\n");
    let done = folder.run("sort late.tree damaged.tree none.tree small.tree");
    done.status(2).prints("small.tree\nlate.tree\n").says(&format!("codebook: damaged.tree: {LINKS}\ncodebook: none.tree: {NONE}\n"));
}
