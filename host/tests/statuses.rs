//! The status: 0 done or found, 1 nothing found or refused, 2 a wrong call, or a file that cannot be read or written.

#[path = "support/folder.rs"]
mod folder;

use folder::Folder;

/// The questions that look for something: found, not found, refused, a wrong call, no file.
#[test]
fn searches() {
    let folder = Folder::with_tree("statuses");
    for (found, nothing, refused, wrong) in [
        ("places CH0502", "places CH9", "places ", "places \\q"),
        ("match 5216[1-5]", "match 99999", "match 4[5-3]", "match 4x"),
        ("match 5216[1-5] --after 121", "match 99999 --after 0", "match 5-3 --after 0", "match 4x --after 0"),
        ("code CH0502", "code CH9", "code --prefix ", "code \\q"),
    ] {
        let said = folder.run(&format!("{found} small.tree"));
        said.succeeds().says("");
        assert!(!said.printed().is_empty());
        for json in ["", " --json"] {
            let said = folder.run(&format!("{nothing} small.tree{json}"));
            said.status(1).prints("");
            assert!(said.errors().starts_with("codebook: small.tree: ") && said.errors().lines().count() == 1, "{}", said.errors());
            folder.run(&format!("{nothing} small.tree{json} --quiet")).status(1).prints("").says("");
        }
        let words: Vec<&str> = refused.split(' ').chain(["small.tree"]).collect();
        let output = folder.tool().args(&words).output().expect("the tool ends");
        assert_eq!(output.status.code(), Some(1), "{refused}");
        folder.run(&format!("{wrong} small.tree")).status(2).prints("");
        folder.run(&format!("{found} none.tree")).status(2).prints("");
    }
}

#[test]
fn licences() {
    let folder = Folder::new("licence-statuses");
    folder.run("licence open 20240101 20241231 20240601").status(0).prints("open, 213 days left\n").says("");
    folder.run("licence open 20240101 20241231 20250601").status(1).prints("closed, 152 days past\n").says("");
    folder.run("licence open 20240101 20241231 20250601 --json").status(1).prints("{\"open\":false,\"left\":-152}\n").says("");
    folder.run("licence open 20240101 20241231 20230601").status(1).prints("closed: it opens on 20240101\n").says("");
    folder.run("licence open 20240101 20241231 2025060").status(1).prints("");
    folder.run("licence open 20240101").status(2).prints("");
    folder.run("licence left 20240101 20250601").status(0);
}

/// With several files the status is the highest, whatever the order.
#[test]
fn several_files() {
    let folder = Folder::with_tree("several-statuses");
    let bad = b"no tree".as_slice();
    folder.write("bad.tree", bad);
    for (files, status) in
        [("small.tree small.tree", 0), ("small.tree bad.tree", 1), ("bad.tree none.tree", 2), ("none.tree bad.tree", 2), ("none.tree small.tree", 2)]
    {
        for command in ["check", "stats", "list", "sort", "digest", "code CH0502"] {
            folder.run(&format!("{command} {files}")).status(status);
        }
    }
    folder.run("slim -q small.tree bad.tree").status(1);
    folder.run("slim -q -f small.tree bad.tree none.tree").status(2);
    folder.run("verify small.txt small.tree small.txt bad.tree").status(1);
    folder.run("verify small.txt bad.tree none.txt small.tree").status(2);
    folder.write("other.txt", b"A 1\n");
    folder.run("build small.txt other.txt -q").status(2);
}
