//! `diff`: rows added, removed and changed between two books or trees, by code.

#[path = "support/folder.rs"]
mod folder;

use folder::Folder;

/// A book and its next edition: a row removed, two changed, one added, the rest in another order.
fn editions(name: &str) -> Folder {
    let folder = Folder::new(name);
    folder.write("old.txt", b"A1 111\nA2 222\nA3 333\nA4 444\nA3 334\nlast");
    folder.write("new.txt", b"A4 444\r\nA1 112\r\nA3 333\r\nA5 555\r\nA3 335\r\nlast\r\n");
    folder.run("build old.txt new.txt -q").succeeds();
    folder
}

const CHANGES: &str = "\
changed row 1: A1 111 -> row 2: A1 112
removed row 2: A2 222
changed row 5: A3 334 -> row 5: A3 335
added   row 4: A5 555
1 row removed, 2 rows changed, 1 row added, 3 rows the same
";

#[test]
fn books_and_trees() {
    let folder = editions("diff-editions");
    for (one, other) in [("old.txt", "new.txt"), ("old.tree", "new.tree"), ("old.tree", "new.txt"), ("old.txt", "new.tree")] {
        folder.run(&format!("diff {one} {other}")).status(1).prints(CHANGES).says("");
    }
    let quiet = folder.run("diff old.txt new.txt -q");
    assert_eq!(quiet.status(1).printed().lines().count(), 4);
    assert_eq!(folder.pipe("diff - new.txt", &folder.read("old.tree")).status(1).printed(), CHANGES);
    let backwards = folder.run("diff new.txt old.txt");
    assert!(backwards.status(1).printed().ends_with("1 row removed, 2 rows changed, 1 row added, 3 rows the same\n"), "{}", backwards.printed());
}

#[test]
fn the_same_rows() {
    let folder = editions("diff-same");
    folder.run("diff old.txt old.tree").succeeds().prints("0 rows removed, 0 rows changed, 0 rows added, 6 rows the same\n").says("");
    folder.run("diff old.txt old.tree -q").succeeds().prints("").says("");
    folder.write("turned.txt", b"last\r\nA3 334\nA3 333\nA1 111\nA2 222\nA4 444\n");
    let same = "0 rows removed, 0 rows changed, 0 rows added, 6 rows the same; in another order, or with other line ends\n";
    folder.run("diff old.txt turned.txt").succeeds().prints(same);
    folder.write("empty", b"");
    folder.run("diff empty empty").succeeds();
    folder.run("diff empty old.txt -q").status(1);
}

#[test]
fn objects() {
    let folder = editions("diff-json");
    folder.write("odd.txt", b"A1 111\n\xFF 1\n");
    let objects = "\
{\"change\":\"changed\",\"old\":{\"row\":1,\"text\":\"A1 111\"},\"new\":{\"row\":2,\"text\":\"A1 112\"}}
{\"change\":\"removed\",\"old\":{\"row\":2,\"text\":\"A2 222\"}}
{\"change\":\"changed\",\"old\":{\"row\":5,\"text\":\"A3 334\"},\"new\":{\"row\":5,\"text\":\"A3 335\"}}
{\"change\":\"added\",\"new\":{\"row\":4,\"text\":\"A5 555\"}}
{\"one\":\"old.tree\",\"other\":\"new.tree\",\"removed\":1,\"changed\":2,\"added\":1,\"same\":3}
";
    folder.run("diff old.tree new.tree --json").status(1).prints(objects);
    assert!(folder
        .run("diff old.txt odd.txt --json")
        .status(1)
        .printed()
        .contains("{\"change\":\"added\",\"new\":{\"row\":2,\"hex\":\"ff2031\"}}\n"));
}

/// Failures have status 2: a tree that the check refuses is not compared, neither as a tree nor as a book.
#[test]
fn failures_have_status_2() {
    let folder = editions("diff-trouble");
    let tree = folder.read("old.tree");
    folder.write("cut.tree", &tree[..tree.len() - 1]);
    folder.write("cut", &tree[..tree.len() - 1]);
    folder.write("book.tree", b"A1 111\n");
    folder.write("long.txt", &vec![b'A'; 8_388_609]);
    for name in ["cut.tree", "cut", "book.tree", "none.txt", "long.txt"] {
        let done = folder.run(&format!("diff old.txt {name}"));
        assert!(done.status(2).prints("").errors().starts_with(&format!("codebook: {name}: ")), "{}", done.errors());
        folder.run(&format!("diff {name} old.txt")).status(2);
    }
    folder.run("diff - -").status(2);
    folder.run("diff old.txt").status(2);
}
