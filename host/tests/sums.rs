//! `check --sums` and `check -c`, compared with the system's sha256sum.

#[path = "support/folder.rs"]
mod folder;

use folder::Folder;
use std::ffi::OsStr;
use std::fs;
use std::os::unix::ffi::OsStrExt;

/// Names that a list must escape, and some that look like parts of a line.
const NAMES: [&[u8]; 9] = [b"plain.tree", b" a b.tree", b"*.tree", b"a\nb.tree", b"a\\b.tree", b"a\rb.tree", b"\\n.tree", b"b\xffk.tree", b"#.tree"];

fn shelf(name: &str) -> Folder {
    let folder = Folder::with_tree(name);
    for name in NAMES {
        fs::copy(folder.0.join("small.tree"), folder.0.join(OsStr::from_bytes(name))).expect("a file");
    }
    folder
}

/// Runs the tool with these trees.
fn check(folder: &Folder, words: &[&str], trees: &[&[u8]]) -> std::process::Output {
    folder.tool().arg("check").args(words).args(trees.iter().map(|name| OsStr::from_bytes(name))).output().expect("the tool ends")
}

/// The output is what sha256sum prints, and sha256sum accepts it.
#[test]
fn lines_of_sha256sum() {
    let folder = shelf("sums");
    let ours = check(&folder, &["--sums"], &NAMES);
    assert_eq!((ours.status.code(), ours.stderr.as_slice()), (Some(0), b"".as_slice()));
    let mut sha256sum = std::process::Command::new("sha256sum");
    let theirs = sha256sum.current_dir(&folder.0).args(NAMES.map(OsStr::from_bytes)).output().expect("sha256sum");
    assert_eq!(String::from_utf8_lossy(&ours.stdout), String::from_utf8_lossy(&theirs.stdout));
    folder.write("list", &ours.stdout);
    folder.shell("sha256sum --strict --quiet -c list").succeeds().prints("").says("");
    let piped = folder.shell("codebook check --sums < small.tree");
    piped.succeeds().prints(&folder.shell("sha256sum < small.tree").printed());
    // a tree that is refused has no line
    folder.write("cut.tree", &folder.read("small.tree")[..5000]);
    let both = folder.run("check --sums cut.tree small.tree");
    both.status(1).prints(&folder.shell("sha256sum small.tree").printed());
    assert!(both.errors().starts_with("codebook: cut.tree: refused (7)"));
    // objects always have the digest
    let object = folder.run("check --sums small.tree --json").succeeds().printed();
    assert_eq!(object, folder.run("check small.tree --json").printed());
}

/// Lists of sha256sum in its three forms are read, and those of the tool.
#[test]
fn lists_are_read() {
    let folder = shelf("sums-read");
    let quoted =
        "plain.tree ' a b.tree' '*.tree' \"$(printf 'a\\nb.tree')\" 'a\\b.tree' \"$(printf 'a\\rb.tree')\" '\\n.tree' \"$(printf 'b\\377k.tree')\"";
    for printed in ["sha256sum", "sha256sum -b", "sha256sum --tag", "codebook check --sums"] {
        folder.shell(&format!("{printed} {quoted} > list")).succeeds();
        let done = folder.run("check -c list");
        assert_eq!((done.succeeds().printed().matches(": valid tree of 2,800 bytes").count(), done.errors()), (8, String::new()), "{printed}");
    }
    folder.shell("sha256sum small.tree plain.tree | codebook check -q -c -").succeeds().prints("").says("");
    folder
        .shell("sha256sum small.tree > list; codebook check --list=list --json")
        .succeeds()
        .prints(&folder.run("check small.tree --json").printed());
}

#[test]
fn differences_are_reported() {
    let folder = Folder::with_tree("sums-wrong");
    let digest = folder.shell("sha256sum < small.tree").printed()[..64].to_owned();
    let other = "0".repeat(64);
    folder.write("damaged.tree", &folder.read("small.tree")[..5000]);
    folder.write("list", format!("{other}  small.tree\n{digest}  none.tree\n{digest}  damaged.tree\n{digest}  ./small.tree\n").as_bytes());
    let done = folder.run("check -c list");
    let lines: Vec<String> = done.status(2).errors().lines().map(str::to_owned).collect();
    assert_eq!(lines[0], format!("codebook: small.tree: valid tree, but its SHA-256 is {digest}, not {other}"));
    assert_eq!(lines[1], "codebook: none.tree: cannot be read: No such file or directory (os error 2)");
    assert!(lines[2].starts_with("codebook: damaged.tree: refused (7)") && lines.len() == 3);
    assert!(done.printed().starts_with("./small.tree: valid tree of 2,800 bytes"));
    folder.write("list", format!("{other}  small.tree\n").as_bytes());
    folder.run("check -c list -q").status(1);
    folder.shell("sha256sum -c list").status(1);
    // a line of another form is refused, and nothing is checked
    let form = "a line is 64 hexadecimal digits, two spaces, and a name, as sha256sum prints it";
    folder.write("list", format!("{digest}  small.tree\nsmall.tree\n").as_bytes());
    folder.run("check -c list").status(2).prints("").says(&format!("codebook: list:2: {form}\n"));
    folder.write("list", b"# none\n\n");
    folder.run("check -c list").status(2).prints("").says("codebook: list: names no tree\n");
    folder.run("check -c gone").status(2).prints("").says("codebook: gone: cannot be read: No such file or directory (os error 2)\n");
    for words in ["small.tree", "--sums", "--sha256 0", "--text-sha256 0"] {
        let done = folder.run(&format!("check -c list {words}"));
        assert!(done.status(2).errors().contains("\nusage: codebook check "), "{}", done.errors());
    }
    folder.shell("codebook check -c list >> list").status(2);
    assert_eq!(folder.read("list"), b"# none\n\n");
}
