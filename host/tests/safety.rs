//! No data is lost: what is written, refused and reported.

#[path = "support/folder.rs"]
mod folder;
#[path = "support/waiting.rs"]
mod waiting;

use folder::Folder;
use std::ffi::OsStr;
use std::fs::{self, File, OpenOptions};
use std::io::{Read, Write};
use std::os::unix::ffi::OsStrExt;
use std::os::unix::fs::{symlink, PermissionsExt};
use std::process::{Child, Stdio};
use std::time::{Duration, Instant};
use waiting::{both_ways, waiting};

const OLD: &[u8] = b"the old file";

/// A folder with the book, and a file in the tree's place.
fn with_old(name: &str) -> Folder {
    let folder = Folder::new(name);
    folder.write("small.tree", OLD);
    folder
}

// 1: the old file is unchanged, and no temporary file is left

#[test]
fn a_full_disk_leaves_the_old_file() {
    both_ways(|named, name| {
        let folder = with_old(&format!("full-{name}"));
        // files are limited to 1,024 bytes, and the signal is ignored: writing fails half way, as on a full disk
        let line = format!("ulimit -f 1; trap '' XFSZ; {named}codebook build small.txt -o small.tree --force");
        let done = folder.shell(&line);
        done.status(2).prints("");
        assert!(done.errors().starts_with("codebook: small.tree: cannot be written: "), "{}", done.errors());
        assert_eq!((folder.read("small.tree").as_slice(), folder.names()), (OLD, vec!["small.tree".to_owned(), "small.txt".to_owned()]));
    });
}

fn signal(child: &Child, signal: &str) {
    let id = child.id().to_string();
    assert!(std::process::Command::new("kill").args([&format!("-{signal}"), &id]).status().expect("kill").success());
}

#[test]
fn an_interrupt_leaves_the_old_file() {
    for (named, signals) in [(false, ["INT", "TERM", "HUP", "KILL"].as_slice()), (true, &["INT", "TERM", "HUP", "QUIT"])] {
        for name in signals {
            let folder = with_old(&format!("interrupt-{name}-{named}"));
            let mut child = waiting(&folder, named, "build - -o small.tree --force");
            signal(&child, name);
            assert_eq!(child.wait().expect("the tool ends").code(), None, "ended by the signal");
            assert_eq!((folder.read("small.tree").as_slice(), folder.names()), (OLD, vec!["small.tree".to_owned(), "small.txt".to_owned()]));
        }
    }
}

#[test]
fn the_new_file_takes_the_place_of_the_old() {
    for named in [false, true] {
        let folder = with_old(&format!("replaced-{named}"));
        fs::set_permissions(folder.0.join("small.tree"), PermissionsExt::from_mode(0o640)).expect("permissions");
        let mut child = waiting(&folder, named, "build - -o small.tree --force");
        assert_eq!(folder.read("small.tree"), OLD);
        child.stdin.take().expect("a pipe").write_all(&folder.read("small.txt")).expect("the book");
        assert!(child.wait().expect("the tool ends").success());
        assert_eq!((folder.read("small.tree").len(), folder.names()), (5680, vec!["small.tree".to_owned(), "small.txt".to_owned()]));
        assert_eq!(fs::metadata(folder.0.join("small.tree")).expect("a file").permissions().mode() & 0o777, 0o640);
    }
}

/// A place that cannot be written is reported before the book is read: here nobody ever writes the book.
#[test]
fn an_unwritable_place_is_reported_at_once() {
    let folder = Folder::new("unwritable");
    let says = |out: &str, words: &str| {
        let mut child = folder.tool().args(["build", "-", "-o", out]).stdin(Stdio::piped()).stderr(Stdio::piped()).spawn().expect("the tool starts");
        assert_eq!(child.wait().expect("the tool ends").code(), Some(2));
        let mut errors = String::new();
        child.stderr.take().expect("a pipe").read_to_string(&mut errors).expect("words");
        assert_eq!(errors, format!("codebook: {out}: {words}\n"));
    };
    says("none/x.tree", "cannot be written: No such file or directory (os error 2)");
    says("none/", "cannot be written: No such file or directory (os error 2)");
    says("small.txt/x.tree", "cannot be written: Not a directory (os error 20)");
    says("small.txt", "exists; --force overwrites it");
    symlink("nothing", folder.0.join("link")).expect("a link");
    says("link", "cannot be written: it is a link to nothing");
}

#[test]
fn devices_are_written_as_they_are() {
    let folder = Folder::new("devices");
    folder.run("build small.txt -o /dev/null").succeeds();
    folder.run("build small.txt -o /dev/full").status(2).says("codebook: /dev/full: cannot be written: No space left on device (os error 28)\n");
    assert_eq!(folder.names(), ["small.txt"]);
    folder.shell("codebook build small.txt -q -o /dev/stdout | codebook check -q").succeeds();
    folder.shell("codebook build small.txt -q -o /dev/stdout > small.tree && codebook check -q small.tree").succeeds();
}

// 2: no file that is read is written, and nothing is overwritten without --force

#[test]
fn a_book_is_not_overwritten_by_its_tree() {
    let folder = Folder::new("itself");
    let book = folder.read("small.txt");
    symlink("small.txt", folder.0.join("link.txt")).expect("a link");
    fs::hard_link(folder.0.join("small.txt"), folder.0.join("hard.txt")).expect("a link");
    let refused = |words: &str, out: &str, source: &str| {
        let says = format!("codebook: {out}: is the file that is read ({source}); it is left as it is\n");
        folder.shell(words).status(2).prints("").says(&says);
        assert_eq!(folder.read("small.txt"), book, "{words}");
    };
    for out in ["small.txt", "./small.txt", "link.txt", "hard.txt"] {
        for force in ["", " --force"] {
            refused(&format!("codebook build small.txt -o {out}{force}"), out, "small.txt");
        }
    }
    refused("codebook build link.txt -o small.txt -f", "small.txt", "link.txt");
    refused("codebook build -o small.txt -f < small.txt", "small.txt", "standard input");
    refused("codebook to-columns 14 small.txt -f -o small.txt", "small.txt", "small.txt");
    refused("codebook from-columns 14 small.txt -f -o link.txt", "link.txt", "small.txt");
    folder.run("build small.txt").succeeds();
    let tree = folder.read("small.tree");
    for command in ["guide make", "picture"] {
        let says = "codebook: small.tree: is the file that is read (small.tree); it is left as it is\n";
        folder.run(&format!("{command} small.tree -f -o small.tree")).status(2).says(says);
    }
    assert_eq!(folder.read("small.tree"), tree);
}

#[test]
fn files_are_overwritten_only_by_force() {
    let folder = with_old("force");
    let exists = "codebook: small.tree: exists; --force overwrites it\n";
    for words in ["build small.txt -o small.tree", "build small.txt", "build small.txt -osmall.tree", "to-columns 14 small.txt --output=small.tree"] {
        folder.run(words).status(2).prints("").says(exists);
        assert_eq!(folder.read("small.tree"), OLD);
    }
    folder.run("build small.txt --force").succeeds();
    assert_eq!(folder.read("small.tree").len(), 5680);
    // through a link: the link stays, and its target is replaced
    symlink("small.tree", folder.0.join("link.tree")).expect("a link");
    folder.run("build small.txt -fo link.tree --leaf 16 --arity 4 --levels 2").succeeds();
    assert!(folder.0.join("link.tree").is_symlink());
    assert_eq!(folder.read("small.tree").len(), folder.read("link.tree").len());
    assert_ne!(folder.read("small.tree").len(), 5680);
}

// 3: no panic

#[test]
fn names_that_are_no_text() {
    let folder = Folder::new("bytes");
    let name = OsStr::from_bytes(b"b\xffk.txt");
    fs::copy(folder.0.join("small.txt"), folder.0.join(name)).expect("a file");
    let run = |words: &[&OsStr]| folder.tool().args(words).stdin(Stdio::null()).output().expect("the tool ends");
    let built = run(&[OsStr::new("build"), name]);
    assert_eq!(built.status.code(), Some(0), "{}", String::from_utf8_lossy(&built.stderr));
    assert!(folder.0.join(OsStr::from_bytes(b"b\xffk.tree")).exists());
    let row = run(&[OsStr::new("row"), OsStr::new("1"), OsStr::from_bytes(b"b\xffk.tree")]);
    assert_eq!(row.stdout, b"CH0501 444224\n");
    for words in
        [["row", "\\xff"], ["\\xff", "1"], ["build", "--\\xff"], ["licence", "\\xff"], ["count", "\\xff"], ["places", "\\xff"], ["help", "\\xff"]]
    {
        let words = words
            .map(|word| word.replace("\\xff", "?").into_bytes())
            .map(|word| word.iter().map(|&byte| if byte == b'?' { 0xff } else { byte }).collect::<Vec<u8>>());
        let words: Vec<&OsStr> = words.iter().map(|word| OsStr::from_bytes(word)).collect();
        let status = run(&words).status.code();
        assert!(matches!(status, Some(1 | 2)), "{words:?}: {status:?}");
    }
}

#[test]
fn standard_error_that_is_full_or_closed() {
    let folder = Folder::with_tree("stderr");
    for to in ["2>/dev/full", "2>&-"] {
        folder.shell(&format!("codebook check none.tree {to}")).status(2);
        folder.shell(&format!("codebook row 0 small.tree {to}")).status(1);
        folder.shell(&format!("codebook build -o - < small.txt {to} | cmp - small.tree")).succeeds();
        folder.shell(&format!("codebook build small.txt -f {to} > /dev/null")).succeeds();
        folder.shell(&format!("codebook {to}")).status(2);
    }
    folder
        .shell("codebook text small.tree > /dev/full")
        .status(2)
        .says("codebook: standard output: cannot be written: No space left on device (os error 28)\n");
    folder.shell("codebook text small.tree >&-").status(0);
}

/// A tree must arrive complete; the reader of other output may close the pipe early.
#[test]
fn a_pipe_that_closes() {
    let folder = Folder::new("closed");
    let book = folder.read("small.txt").repeat(100);
    folder.write("long.txt", &book);
    folder.run("build long.txt -o long.tree --leaf 256 --arity 2 --levels 1").succeeds();
    let run = |words: &[&str]| {
        // a pipe whose reader has ended
        let mut reader = std::process::Command::new("true").stdin(Stdio::piped()).spawn().expect("true");
        let pipe = reader.stdin.take().expect("a pipe");
        reader.wait().expect("true ends");
        let output = folder.tool().args(words).stdout(pipe).stdin(Stdio::null()).output().expect("the tool ends");
        (output.status.code(), String::from_utf8_lossy(&output.stderr).into_owned())
    };
    let broken = "codebook: standard output: cannot be written: Broken pipe (os error 32)\n".to_owned();
    assert_eq!(run(&["build", "long.txt", "-o", "-"]), (Some(2), broken.clone()));
    assert_eq!(run(&["guide", "make", "long.tree"]), (Some(2), broken.clone()));
    assert_eq!(run(&["to-columns", "14", "long.txt"]), (Some(2), broken));
    for words in [["text", "long.tree"].as_slice(), &["row", "1..", "long.tree"], &["places", "4", "long.tree"], &["stats", "long.tree"], &["--help"]]
    {
        assert_eq!(run(words), (Some(0), String::new()));
    }
}

/// Sparse files of a terabyte, which are not read.
#[test]
fn files_that_are_too_long_are_not_read() {
    let folder = Folder::with_tree("terabyte");
    let long = OpenOptions::new().write(true).create_new(true).open(folder.0.join("long")).and_then(|file: File| file.set_len(1 << 40));
    if long.is_err() {
        println!("the file system has no such files: not tried");
        return;
    }
    let start = Instant::now();
    let text = "codebook: long: refused (1): a text must have at most 8,388,608 bytes; it has 1,099,511,627,776\n";
    for words in ["build long", "to-columns 14 long", "from-columns 14 long", "verify long small.tree"] {
        folder.run(words).status(1).says(text);
    }
    let tree = "codebook: long: a tree has at most 1,111,359,588 bytes; it has 1,099,511,627,776\n";
    for words in [
        "check long",
        "list long",
        "stats long",
        "row 1 long",
        "text long",
        "digest long",
        "compare small.tree long",
        "sort long",
        "picture long",
        "guide make long",
    ] {
        folder.run(words).status(1).prints("").says(tree);
    }
    folder.run("guide check long small.tree").status(1).says("codebook: long: a guide has at most 524,304 bytes; it has 1,099,511,627,776\n");
    folder
        .shell("codebook build < /dev/zero")
        .status(1)
        .says("codebook: standard input: refused (1): a text must have at most 8,388,608 bytes; it has more\n");
    assert!(start.elapsed() < Duration::from_secs(20));
}

// 4: which text a tree represents

#[test]
fn a_tree_is_compared_with_its_book() {
    let folder = Folder::with_tree("verify");
    folder.run("verify small.txt small.tree").succeeds().prints("small.tree: the block tree of small.txt, 2,800 bytes\n").says("");
    // one leaf byte changed, and the edges that contain it: a valid tree of another text
    let other = String::from_utf8(folder.read("small.txt")).expect("a text").replacen("HON1012 52162", "HON1012 52163", 3);
    folder.write("other.txt", other.as_bytes());
    folder.run("build other.txt").succeeds();
    folder.run("check other.tree").succeeds();
    let says = "codebook: other.tree: not a tree of small.txt: byte 558, in row 40, differs first: the book has 50 '2', the tree 51 '3'\n";
    folder.run("verify small.txt other.tree").status(1).prints("").says(says);
    folder.write("short.txt", &folder.read("small.txt")[..2000]);
    let says = "codebook: small.tree: not a tree of short.txt: byte 2,000, in row 143, differs first: the book ends there, the tree's text has 2,800 bytes\n";
    folder.run("verify short.txt small.tree").status(1).says(says);
    folder.run("build small.txt -o columns.tree --columns 14 --allow-larger").succeeds();
    folder.run("verify small.txt columns.tree").status(1);
    folder.run("verify small.txt columns.tree --columns auto").succeeds().prints("columns.tree: the block tree of small.txt, 2,800 bytes\n");
    folder.run("verify small.txt").status(2);
    folder.run("verify small.txt small.tree other.txt").status(2);
    folder.run("verify small.txt small.txt").status(1);
}

/// A tree of layout 1, which the builder does not write.
#[test]
fn a_tree_from_another_builder() {
    let folder = Folder::new("foreign");
    folder.write("A.txt", b"A");
    // n 1, leaf 2, arity 2, one level, nothing counted, one block
    let words = [1, 1, 2, 2, 1, 0, 0, 1, 100].into_iter().chain([0; 14]).chain([116, 1, 0, 0, 0, 0]);
    let tree: Vec<u8> = words.flat_map(u32::to_le_bytes).chain(*b"A").collect();
    folder.write("A.tree", &tree);
    folder.run("verify A.txt A.tree").succeeds().prints("A.tree: the block tree, without edges, of A.txt, 1 byte\n");
    // every block kept, though one could point
    folder.write("kept.txt", b"QABCDABCDEFGABCDABCD");
    folder.write("kept.tree", include_bytes!("../../conformance/good/cases-KEEPALL-70.tree"));
    folder.run("verify kept.txt kept.tree").succeeds().prints("kept.tree: valid tree, though not the one that build makes, of kept.txt, 20 bytes\n");
}

#[test]
fn digests() {
    let folder = Folder::with_tree("digests");
    let of = |file: &str| folder.shell(&format!("sha256sum {file}")).printed()[..64].to_owned();
    let (tree, text) = (of("small.tree"), of("small.txt"));
    assert!(folder.run("build small.txt -f").printed().contains(&format!("\nSHA-256 of the tree {tree}\nSHA-256 of its text {text}\n")));
    let good = format!("small.tree: valid tree of 2,800 bytes of text; SHA-256 of the tree {tree}, of its text {text}\n");
    folder.run("check small.tree").succeeds().prints(&good);
    for words in [
        format!("--sha256 {tree}"),
        format!("--sha256={}", tree.to_uppercase()),
        format!("--text-sha256 {text}"),
        format!("--text-sha256={} --sha256 {tree}", text.to_uppercase()),
    ] {
        folder.run(&format!("check {words} small.tree")).succeeds().prints(&good);
    }
    let wrong = "0".repeat(64);
    let says = |what: &str, digest: &str| format!("codebook: small.tree: valid tree, but {what} is {digest}, not {wrong}\n");
    folder.run(&format!("check --sha256 {wrong} small.tree")).status(1).prints("").says(&says("its SHA-256", &tree));
    folder.run(&format!("check --text-sha256 {wrong} small.tree")).status(1).prints("").says(&says("the SHA-256 of its text", &text));
    folder.run(&format!("check --text-sha256 {wrong} --sha256 {wrong} small.tree")).status(1).says(&says("its SHA-256", &tree));
    // one digest for the other
    folder.run(&format!("check --text-sha256 {tree} small.tree")).status(1);
    for option in ["--sha256", "--text-sha256"] {
        let usage = "\nusage: codebook check [TREE]... [--sha256 HEX] [--text-sha256 HEX] [--sums] [-c LIST] [--json]\n";
        for word in [&wrong[1..], &format!("{}g", &wrong[1..]), &format!("{wrong}0")] {
            let says = format!("codebook: {option} is 64 hexadecimal digits, not '{word}'{usage}");
            folder.run(&format!("check {option} {word} small.tree")).status(2).prints("").says(&says);
        }
        let says = format!("codebook: {option} is the digest of one tree{usage}");
        folder.run(&format!("check {option} {wrong} small.tree small.tree")).status(2).prints("").says(&says);
    }
}

/// `digest` prints what sha256sum prints for the book, and no line for a refused tree.
#[test]
fn digests_of_texts() {
    let folder = Folder::with_tree("texts");
    let line = folder.shell("sha256sum small.txt").printed().replace("small.txt", "small.tree");
    folder.run("digest small.tree").succeeds().prints(&line).says("");
    folder.run("digest -q --unchecked small.tree").succeeds().prints(&line);
    folder.shell("codebook digest small.tree | sed s/tree/txt/ | sha256sum -c --quiet").succeeds();
    folder.pipe("digest", &folder.read("small.tree")).succeeds().prints(&line.replace("small.tree", "-"));
    folder.shell("codebook digest - < small.tree").succeeds().prints(&line.replace("small.tree", "-"));
    folder.run("digest --json small.tree").succeeds().prints(&format!("{{\"tree\":\"small.tree\",\"text_sha256\":\"{}\"}}\n", &line[..64]));
    // the digest is of the text, whatever the tree
    folder.run("build small.txt -q -o large.tree --leaf 1 --arity 2 --levels 1").succeeds();
    folder.run("digest large.tree").succeeds().prints(&line.replace("small.tree", "large.tree"));
    // the first block has an invalid kind
    let mut tree = folder.read("small.tree");
    tree[104] = 2;
    folder.write("damaged.tree", &tree);
    assert!(folder.run("digest damaged.tree").status(1).prints("").errors().starts_with("codebook: damaged.tree: refused (8): "));
    assert!(folder.run("digest --unchecked damaged.tree").status(1).prints("").errors().starts_with("codebook: damaged.tree: refused (14): "));
    folder.write("cut.tree", &tree[..99]);
    assert!(folder.run("digest --unchecked cut.tree").status(1).prints("").errors().starts_with("codebook: cut.tree: refused (5): "));
}

// 5: warnings

#[test]
fn warnings() {
    let folder = Folder::new("warnings");
    let larger = "the tree is no smaller than the text: the book is short, or repeats itself too little";
    let warned = |text: &[u8], more: &str, warnings: &[&str]| {
        folder.write("book.txt", text);
        let said: String = warnings.iter().map(|words| format!("codebook: book.txt: warning: {words}\n")).collect();
        folder.run(&format!("build book.txt -f {more}")).succeeds().says(&said);
        folder.run(&format!("build book.txt -f --quiet {more}")).succeeds().prints("").says("");
    };
    let mark = "the book begins with a byte order mark, which is a part of its first code";
    let rows = "2 rows are not code, space, cuts, and no worn key matches there; the first is row 2: 'no key'";
    warned(b"A 1\n", "", &[larger]);
    warned(b"A 1\nno key\nB 2\nA  1\n", "", &[rows, larger]);
    warned(b"\xEF\xBB\xBFA 1\n", "", &[mark, larger]);
    warned(b"", "", &["the book has no rows yet"]);
    warned(b"A 1\n", "--count none", &["byte 10 is not counted, so no row can be read", larger]);
    // a book that repeats itself, without warnings
    warned(&b"CH0501 444224\n".repeat(2000), "", &[]);
}
