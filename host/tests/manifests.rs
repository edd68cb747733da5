//! The manifest beside a tree: `build` writes it, `check` compares it, `slim` and `guide make` update it, and questions use it.

#[path = "support/folder.rs"]
mod folder;
#[path = "support/waiting.rs"]
mod waiting;

use folder::Folder;
use std::fs;
use std::io::Write;
use std::os::unix::fs::{symlink, MetadataExt, PermissionsExt};
use std::process::Command;
use std::time::{Duration, Instant};
use waiting::{both_ways, waiting};

const TREE: &str = "58c9c17dc6d736f67d80edb8d1195a581665615d597ad25f53fb41b435bd57e1";
const TEXT: &str = "e913aa0d736292973c8ab01c65bd84ff6524fb868d54c9621602942b5dfceb6e";

/// The figures of the tree that `build` makes of small.txt.
fn figures() -> String {
    format!(
        "\"size\":5680,\"length\":2800,\"layout\":2,\"leaf\":32,\"arity\":6,\"levels\":2,\"counted\":[10],\"sha256\":\"{TREE}\",\"text_sha256\":\"{TEXT}\""
    )
}

fn licensed(name: &str) -> Folder {
    let folder = Folder::new(name);
    folder.run("build small.txt -q --maker Ilko --edition 3 --first 2024-01-01 --last 2024-12-31").succeeds().prints("").says("");
    folder
}

fn manifest(folder: &Folder, name: &str) -> String {
    String::from_utf8(folder.read(name)).expect("a manifest")
}

fn mode(folder: &Folder, name: &str) -> u32 {
    fs::metadata(folder.0.join(name)).expect("a file").permissions().mode() & 0o777
}

// build

#[test]
fn what_is_written() {
    let folder = licensed("manifest-written");
    let book = "\"maker\":\"Ilko\",\"edition\":\"3\",\"first\":\"2024-01-01\",\"last\":\"2024-12-31\"";
    assert_eq!(manifest(&folder, "small.tree.json"), format!("{{{book},{}}}\n", figures()));
    // each option alone, days in both forms, any letters
    folder.run("build small.txt -q -o a.tree --first 20240229 --last 2099-12-31").succeeds();
    assert_eq!(manifest(&folder, "a.tree.json"), format!("{{\"first\":\"2024-02-29\",\"last\":\"2099-12-31\",{}}}\n", figures()));
    folder.shell("codebook build small.txt -q -o b.tree --edition 'Ü \"1\"\n'").succeeds();
    assert_eq!(manifest(&folder, "b.tree.json"), format!("{{\"edition\":\"Ü \\\"1\\\"\\n\",{}}}\n", figures()));
    folder.run("check a.tree b.tree small.tree -q").succeeds();
    // by columns
    folder.run("build small.txt -q -o c.tree --columns auto --allow-larger --maker M").succeeds();
    assert!(manifest(&folder, "c.tree.json").ends_with(",\"columns\":14}\n"));
    folder.run("check c.tree -q").succeeds();
    // the report, and several books at once
    assert!(folder.run("build small.txt -o d.tree --maker M").succeeds().printed().ends_with("\nmanifest d.tree.json\n"));
    let object = folder.run("build small.txt -o e.tree --maker M --json").succeeds().printed();
    assert!(object.ends_with(",\"rows\":200,\"manifest\":\"e.tree.json\"}\n"), "{object}");
    folder.write("one.txt", b"A 1\n");
    fs::create_dir(folder.0.join("trees")).expect("a folder");
    let both = folder.run("build small.txt one.txt -o trees --maker M").succeeds().printed();
    assert_eq!(both.lines().filter(|line| line.contains("; manifest trees/")).count(), 2, "{both}");
    folder.run("check trees/small.tree trees/one.tree -q").succeeds();
}

#[test]
fn calls_that_are_not_right() {
    let folder = Folder::new("manifest-usage");
    let day = "is a day such as 2024-02-29, from 2000-01-01 to 2099-12-31, not";
    for (words, says) in [
        ("build small.txt --first 2024-01-01", "--first and --last must be given together".to_owned()),
        ("build small.txt --last 2024-01-01 --maker M", "--first and --last must be given together".to_owned()),
        ("build small.txt --first 2024-02-30 --last 2024-12-31", format!("--first {day} '2024-02-30'")),
        ("build small.txt --first 2024-01-02 --last 2024-01-01", "--last 2024-01-01 is before --first 2024-01-02".to_owned()),
        ("build small.txt --maker M -o -", "a manifest is written beside a file, and standard output is none".to_owned()),
        ("build small.txt --maker M -o /dev/null", "a manifest is written beside a file, and /dev/null is none".to_owned()),
        ("row 1 small.tree --today 2024", format!("--today {day} '2024'")),
        ("row 1 small.tree --today 20240101 --any-day", "--today cannot be used with --any-day".to_owned()),
    ] {
        folder.write("small.tree", b"old");
        let done = folder.run(&format!("{words}{}", if words.starts_with("build") { " -f" } else { "" }));
        assert!(done.status(2).errors().starts_with(&format!("codebook: {says}\n")), "{words}: {}", done.errors());
        assert_eq!((folder.read("small.tree").as_slice(), folder.names().len()), (b"old".as_slice(), 2));
    }
    let long = folder.tool().args(["build", "small.txt", "-f", "--maker", &"M".repeat(70_000)]).output().expect("the tool ends");
    assert_eq!(long.status.code(), Some(2));
    assert!(String::from_utf8_lossy(&long.stderr).starts_with("codebook: --maker and --edition are too long for a manifest\n"));
}

/// Neither a tree nor a manifest is replaced without --force; both get the permissions of the book, never wider ones.
#[test]
fn files_are_kept() {
    both_ways(|named, name| {
        let folder = Folder::new(&format!("manifest-files-{name}"));
        let build = |words: &str| folder.shell(&format!("umask 022; {named}codebook build small.txt -q --maker M {words}"));
        fs::set_permissions(folder.0.join("small.txt"), PermissionsExt::from_mode(0o640)).expect("permissions");
        build("").succeeds();
        assert_eq!((mode(&folder, "small.tree"), mode(&folder, "small.tree.json")), (0o640, 0o640));
        build("").status(2).says("codebook: small.tree: exists; --force overwrites it\n");
        fs::remove_file(folder.0.join("small.tree")).expect("a file");
        build("").status(2).says("codebook: small.tree.json: exists; --force overwrites it\n");
        assert_eq!(folder.names(), ["small.tree.json", "small.txt"]);
        // if the replaced tree has narrower permissions, so has the new manifest, and the other way round
        folder.write("small.tree", b"old");
        fs::set_permissions(folder.0.join("small.tree"), PermissionsExt::from_mode(0o600)).expect("permissions");
        build("--force --keep-time").succeeds();
        assert_eq!((mode(&folder, "small.tree"), mode(&folder, "small.tree.json")), (0o600, 0o600));
        let time = |name: &str| fs::metadata(folder.0.join(name)).map(|file| (file.mtime(), file.mtime_nsec())).expect("a file");
        assert_eq!((time("small.tree"), time("small.tree.json")), (time("small.txt"), time("small.txt")));
        assert_eq!(folder.names(), ["small.tree", "small.tree.json", "small.txt"]);
    });
}

/// If the tree cannot be written, no manifest is left, and the other way round.
#[test]
fn both_or_neither() {
    both_ways(|named, name| {
        let folder = Folder::new(&format!("manifest-both-{name}"));
        let full = |words: &str| folder.shell(&format!("ulimit -f 1; trap '' XFSZ; {named}codebook build small.txt --maker M {words}"));
        assert!(full("").status(2).errors().starts_with("codebook: small.tree: cannot be written: "));
        assert_eq!(folder.names(), ["small.txt"]);
        // a file with the tree's or the manifest's name appears while the tool works
        for (late, words) in [("late.tree", "build - -q -o late.tree --maker M"), ("late.tree.json", "build - -q -o late.tree --maker M")] {
            let mut child = waiting(&folder, !named.is_empty(), words);
            waiting::wait_until_ready(&folder, &child, !named.is_empty(), 2);
            folder.write(late, b"late");
            child.stdin.take().expect("a pipe").write_all(&folder.read("small.txt")).expect("the book");
            let done = child.wait_with_output().expect("the tool ends");
            assert_eq!(done.status.code(), Some(2));
            assert_eq!(String::from_utf8_lossy(&done.stderr), format!("codebook: {late}: exists; --force overwrites it\n"));
            assert_eq!((folder.names(), folder.read(late)), (vec![late.to_owned(), "small.txt".to_owned()], b"late".to_vec()));
            fs::remove_file(folder.0.join(late)).expect("a file");
        }
    });
}

/// Whoever looks while a tree and its manifest are written never finds the tree without the manifest.
#[test]
fn the_manifest_comes_first() {
    for named in [false, true] {
        let folder = Folder::new(&format!("manifest-first-{named}"));
        for round in 0..20 {
            let mut child = waiting(&folder, named, &format!("build - -q -o {round}.tree --maker M"));
            child.stdin.take().expect("a pipe").write_all(b"A 1\n").expect("the book");
            let start = Instant::now();
            let (tree, beside) = (folder.0.join(format!("{round}.tree")), folder.0.join(format!("{round}.tree.json")));
            while !tree.exists() {
                assert!(start.elapsed() < Duration::from_secs(60));
            }
            assert!(beside.exists());
            assert!(child.wait().expect("the tool ends").success());
        }
    }
}

/// A manifest that does not describe the new tree is not left beside it.
#[test]
fn no_manifest_of_another_tree_is_left() {
    let folder = licensed("manifest-left");
    let (tree, beside) = (folder.read("small.tree"), folder.read("small.tree.json"));
    let says = "codebook: small.tree: by small.tree.json, which would be left beside it, its size is 5,680, and it is 2,396; it is not written; \
                remove that manifest, or have a new one written\n";
    folder.run("build small.txt -f --small --leaf 64 --arity 2 --levels 5").status(2).prints("").says(says);
    assert!((folder.read("small.tree"), folder.read("small.tree.json")) == (tree.clone(), beside.clone()));
    // the same tree may be built again, and another one with a new manifest
    folder.run("build small.txt -f -q").succeeds();
    assert!((folder.read("small.tree"), folder.read("small.tree.json")) == (tree, beside));
    folder.run("build small.txt -f -q --leaf 16 --arity 4 --levels 2 --edition 4").succeeds();
    assert!(manifest(&folder, "small.tree.json").starts_with("{\"edition\":\"4\",\"size\":6616,"));
    folder.run("check small.tree -q").succeeds();
    // a manifest without a tree, and slim
    fs::rename(folder.0.join("small.tree.json"), folder.0.join("new.tree.json")).expect("a file");
    folder.run("build small.txt -q -o new.tree").status(2);
    folder.run("slim small.tree -q -o new.tree").status(2);
    assert!(!folder.0.join("new.tree").exists());
}

// check

/// Each member of the manifest is compared, and a difference is reported with both values.
#[test]
fn check_compares() {
    let folder = licensed("manifest-check");
    assert!(folder.run("check small.tree").succeeds().printed().ends_with("; described by small.tree.json\n"));
    assert!(folder.run("check small.tree --json").succeeds().printed().ends_with(",\"manifest\":\"small.tree.json\"}\n"));
    let (good, other) = (manifest(&folder, "small.tree.json"), "0".repeat(64));
    for (due, changed, words) in [
        ("\"size\":5680", "\"size\":5681", "its size is 5,681, and it is 5,680".to_owned()),
        ("\"length\":2800", "\"length\":0", "its text's length is 0, and it is 2,800".to_owned()),
        ("\"layout\":2", "\"layout\":1", "its layout is 1, and it is 2".to_owned()),
        ("\"leaf\":32", "\"leaf\":240", "its leaf length is 240, and it is 32".to_owned()),
        ("\"arity\":6", "\"arity\":2", "its arity is 2, and it is 6".to_owned()),
        ("\"levels\":2", "\"levels\":4", "its number of levels is 4, and it is 2".to_owned()),
        ("[10]", "[10,65]", "the list of its counted bytes is 0x0a, A, and it is 0x0a".to_owned()),
        (TEXT, &other, format!("the SHA-256 of its text is {other}, and it is {TEXT}")),
        (TREE, &other, format!("its SHA-256 is {other}, and it is {TREE}")),
    ] {
        folder.write("small.tree.json", good.replacen(due, changed, 1).as_bytes());
        folder.run("check small.tree").status(1).prints("").says(&format!("codebook: small.tree: by small.tree.json {words}\n"));
        // every question compares the figures of the length and the header; only check compares digests
        let status = if words.contains("SHA-256") { 0 } else { 1 };
        for question in ["row 1 small.tree", "text small.tree", "code CH0501 small.tree"] {
            let done = folder.run(&format!("{question} --any-day"));
            assert_eq!(done.status(status).errors().is_empty(), status == 0, "{question}: {}", done.errors());
            folder.run(&format!("{question} --any-day --unchecked")).succeeds();
        }
        assert_eq!(folder.run("diff small.txt small.tree --any-day").output.status.code(), Some(2 * status));
        assert_eq!(folder.run("stats small.tree").succeeds().errors().is_empty(), status == 0);
    }
    folder.write("small.tree.json", good.replacen("]", "],\"columns\":7", 1).as_bytes());
    let says = folder.run("check small.tree").status(1).errors();
    assert!(
        says.starts_with("codebook: small.tree: by small.tree.json its rows are by columns: this is no book by columns, of rows of 7 bytes"),
        "{says}"
    );
    folder.write("small.tree.json", good.replacen("]", "],\"columns\":99999999999", 1).as_bytes());
    folder.run("check small.tree").status(1).prints("");
    folder.write("small.tree.json", b"{\"size\":\"5680\"}");
    let malformed = "codebook: small.tree.json: malformed manifest: its member 'size' is not a whole number\n";
    folder.run("check small.tree").status(1).prints("").says(malformed);
    folder.run("slim small.tree").status(1).prints("").says(malformed);
    folder.run("guide make small.tree -o small.guide").status(1).prints("").says(malformed);
}

/// Things other than a manifest under its name.
#[test]
fn what_is_no_file() {
    let folder = Folder::with_tree("manifest-special");
    assert!(Command::new("mkfifo").arg(folder.0.join("small.tree.json")).status().expect("mkfifo").success());
    // nobody ever writes to the pipe
    folder.run("row 1 small.tree").status(1).says("codebook: small.tree.json: malformed manifest: a value is expected at byte 0, in line 1\n");
    fs::remove_file(folder.0.join("small.tree.json")).expect("a pipe");
    symlink("nothing", folder.0.join("small.tree.json")).expect("a link");
    folder.run("row 1 small.tree").succeeds();
    folder.run("build small.txt -f --maker M").status(2).says("codebook: small.tree.json: cannot be written: it is a link to nothing\n");
    fs::remove_file(folder.0.join("small.tree.json")).expect("a link");
    symlink("/dev/zero", folder.0.join("small.tree.json")).expect("a link");
    folder.run("row 1 small.tree").status(1).says("codebook: small.tree.json: malformed manifest: it has more than 65,536 bytes\n");
    folder.run("build small.txt -f --maker M").status(2).prints("");
    // a tree from standard input has none
    folder.shell("codebook row 1 < small.tree").succeeds().prints("CH0501 444224\n");
}

// questions

const QUESTIONS: [&str; 12] = [
    "row 5 small.tree",
    "row 5..7 small.tree --unchecked",
    "byte 14 small.tree",
    "run 14 small.tree",
    "span 14 6 small.tree",
    "count \\n 1400 small.tree",
    "find \\n 120 small.tree",
    "places CH0502 small.tree",
    "code CH0502 small.tree",
    "match 5216[1-5] small.tree",
    "match 5216[1-5] small.tree --after 121",
    "text small.tree",
];

/// A book is open from the first day to the last, both included; questions refuse a closed one unless --any-day is given.
#[test]
fn closed_books() {
    let folder = licensed("manifest-closed");
    let closed = |day: &str, why: &str| {
        format!("codebook: small.tree: closed on {day}, {why}: by small.tree.json its licence is 2024-01-01 to 2024-12-31; --any-day reads it nevertheless\n")
    };
    for question in QUESTIONS {
        let answer = folder.run(&format!("{question} --any-day")).succeeds().printed();
        assert!(!answer.is_empty());
        for day in ["2024-01-01", "20240229", "2024-12-31"] {
            folder.run(&format!("{question} --today {day}")).succeeds().prints(&answer).says("");
        }
        for (day, why) in [("2023-12-31", "not open yet"), ("2025-01-01", "1 day past"), ("2026-01-01", "366 days past")] {
            folder.run(&format!("{question} --today {day}")).status(1).prints("").says(&closed(day, why));
        }
        let object = folder.run(&format!("{question} --today 2025-01-01 --json")).status(1).printed();
        assert!(object.starts_with("{\"failed\":\"small.tree\",\"status\":1,\"words\":\"closed on 2025-01-01, 1 day past: "), "{object}");
    }
    // diff reads rows too; its failures have status 2
    folder.run("diff small.txt small.tree --today 2024-05-01").succeeds();
    folder.run("diff small.txt small.tree --today 2025-01-01").status(2).prints("").says(&closed("2025-01-01", "1 day past"));
    // of several books those that are open are read
    folder.run("build small.txt -q -o open.tree --first 2024-06-01 --last 2025-06-01").succeeds();
    let both = folder.run("code CH0502 small.tree open.tree --today 2025-02-01");
    assert_eq!((both.status(1).printed().lines().count(), both.errors()), (5, closed("2025-02-01", "32 days past")));
    // commands that print no row do not check the licence
    for words in ["check", "stats", "list", "digest", "verify small.txt"] {
        folder.run(&format!("{words} small.tree")).succeeds();
    }
}

/// The clock's day: a licence that is always open, and one that ended long ago.
#[test]
fn by_the_clock() {
    let folder = Folder::new("manifest-clock");
    folder.run("build small.txt -q --first 2000-01-01 --last 2099-12-31").succeeds();
    folder.run("row 1 small.tree").succeeds().prints("CH0501 444224\n").says("");
    folder.run("build small.txt -q -f --first 2000-01-01 --last 2000-12-31").succeeds();
    let done = folder.run("row 1 small.tree");
    assert!(done.status(1).errors().contains("days past: by small.tree.json its licence is 2000-01-01 to 2000-12-31"), "{}", done.errors());
    // a single day is no licence
    folder.write("small.tree.json", b"{\"last\":\"2000-12-31\"}");
    folder.run("row 1 small.tree").succeeds().prints("CH0501 444224\n").says("");
}

/// A tree by columns is read with the width of its manifest, and in no other way.
#[test]
fn widths() {
    let folder = Folder::new("manifest-widths");
    folder.write("odd.txt", b"A1\nB2\nC3\nD4\n");
    folder.run("build odd.txt -q --columns 3 --allow-larger --leaf 4 --arity 2 --levels 1 --maker M").succeeds();
    folder.run("row 2 odd.tree --columns 3").succeeds().prints("B2\n");
    let by = "by odd.tree.json its rows of 3 bytes are by columns";
    folder.run("row 2 odd.tree --columns 6").status(1).says(&format!("codebook: odd.tree: row 2 --columns 6: {by}, and 6 was given\n"));
    let only = format!("{by}: only row --columns 3 reads them\n");
    folder.run("row 2 odd.tree").status(1).says(&format!("codebook: odd.tree: row 2: {only}"));
    folder.run("match 1 odd.tree").status(1).says(&format!("codebook: odd.tree: match: {only}"));
    folder.run("code A1 odd.tree").status(1).says(&format!("codebook: odd.tree: code: {only}"));
    folder.run("byte 0 odd.tree").succeeds();
    folder.run("build small.txt -q --maker M").succeeds();
    let says = "codebook: small.tree: row 2 --columns 14: by small.tree.json its text is not by columns\n";
    folder.run("row 2 small.tree --columns 14").status(1).says(says);
}

/// Output is not added to a manifest.
#[test]
fn standard_output_is_no_manifest() {
    let folder = licensed("manifest-printed");
    let before = manifest(&folder, "small.tree.json");
    for words in ["row 1 small.tree --any-day", "stats small.tree --json", "check small.txt small.tree", "diff small.txt small.tree"] {
        let says = "codebook: small.tree.json: standard output goes to this file too; it is left as it is\n";
        folder.shell(&format!("codebook {words} >> small.tree.json")).status(2).says(says);
        assert_eq!(manifest(&folder, "small.tree.json"), before, "{words}");
    }
    folder.shell("codebook build small.txt -f -o new.tree --json > small.txt.json").succeeds();
}

// stats, slim, guide

#[test]
fn stats_show_it() {
    let folder = licensed("manifest-stats");
    folder.run("guide make small.tree -q -o small.guide").succeeds();
    let shown = "rows        200\nmanifest    small.tree.json\nmaker       Ilko\nedition     3\nlicence     2024-01-01 to 2024-12-31\nguide       small.guide\n";
    let done = folder.run("stats small.tree");
    assert!(done.succeeds().printed().contains(shown), "{}", done.printed());
    let members = "\"manifest\":\"small.tree.json\",\"maker\":\"Ilko\",\"edition\":\"3\",\"first\":\"2024-01-01\",\"last\":\"2024-12-31\",\"guide\":\"small.guide\"}\n";
    assert!(folder.run("stats small.tree --json").succeeds().printed().ends_with(members));
    folder.run("build small.txt -q -o plain.tree").succeeds();
    let both = folder.run("stats small.tree plain.tree").succeeds().printed();
    assert!(both.starts_with("small.tree: 5,680 bytes, ") && both.contains("levels 2; Ilko; 3; 2024-01-01 to 2024-12-31\n"), "{both}");
    assert!(both.ends_with("levels 2\n"));
    folder.write("small.tree.json", b"{");
    let warned = folder.run("stats small.tree");
    warned.succeeds().says("codebook: small.tree.json: warning: the manifest is not used: a member's name is expected at byte 1, in line 1\n");
    assert_eq!(warned.printed(), folder.run("stats plain.tree").printed().replace("plain", "small"));
}

#[test]
fn slim_keeps_it() {
    let folder = licensed("manifest-slim");
    fs::set_permissions(folder.0.join("small.tree"), PermissionsExt::from_mode(0o600)).expect("permissions");
    let done = folder.run("slim small.tree");
    assert!(done.succeeds().says("").printed().ends_with("; manifest small.small.tree.json\n"));
    let slim = manifest(&folder, "small.small.tree.json");
    let book = "{\"maker\":\"Ilko\",\"edition\":\"3\",\"first\":\"2024-01-01\",\"last\":\"2024-12-31\",\"size\":2544,\"length\":2800,\"layout\":1,";
    assert!(slim.starts_with(book) && slim.contains(TEXT) && !slim.contains(TREE), "{slim}");
    assert_eq!((mode(&folder, "small.small.tree"), mode(&folder, "small.small.tree.json")), (0o600, 0o600));
    folder.run("check small.small.tree -q").succeeds();
    folder.run("row 1 small.small.tree --today 2025-01-01").status(1);
    folder.run("slim small.tree").status(2);
    // members that are not taken over are reported; no manifest is written for a tree on standard output
    folder.run("guide make small.tree -q -o small.guide").succeeds();
    let more = manifest(&folder, "small.tree.json").replacen('{', "{\"blank\":[\"HU66\"],", 1);
    folder.write("small.tree.json", more.as_bytes());
    let says = "codebook: small.tree.json: warning: not carried over to the new manifest: 'guide', 'blank'\n";
    folder.run("slim small.tree -f").succeeds().says(says);
    assert_eq!(manifest(&folder, "small.small.tree.json"), slim);
    let piped = folder.run("slim small.tree -o -");
    assert!(piped.succeeds().errors().ends_with("codebook: small.tree.json: warning: no manifest is written beside what is no file\n"));
    // a tree that the manifest does not describe is not rewritten
    folder.write("small.tree.json", more.replace(TREE, &"0".repeat(64)).as_bytes());
    let done = folder.run("slim small.tree -f");
    assert!(done.status(1).errors().starts_with("codebook: small.tree: by small.tree.json its SHA-256 is 000"), "{}", done.errors());
    assert_eq!(manifest(&folder, "small.small.tree.json"), slim);
}

#[test]
fn guide_enters_itself() {
    let folder = licensed("manifest-guide");
    let before = manifest(&folder, "small.tree.json").replacen('{', "{ \"blank\" : [ 1.50 ] , ", 1);
    folder.write("small.tree.json", before.as_bytes());
    fs::set_permissions(folder.0.join("small.tree.json"), PermissionsExt::from_mode(0o600)).expect("permissions");
    folder.run("guide make small.tree -o ./small.guide").succeeds().says("");
    let after = manifest(&folder, "small.tree.json");
    let guide = "\"guide\":\"small.guide\",\"guide_size\":16,\"guide_sha256\":\"c931454f0942c80046fd3a3cc253dba4c2732e30a3a115022d1676dc9d18e699\"";
    assert!(after.contains(guide) && after.ends_with(",\"blank\":[ 1.50 ]}\n"), "{after}");
    assert_eq!(mode(&folder, "small.tree.json"), 0o600);
    folder.run("check small.tree -q").succeeds();
    // the guide is compared with the manifest, and with the tree
    let good = folder.read("small.guide");
    folder.write("small.guide", &good[..12]);
    folder.run("check small.tree").status(1).says("codebook: small.guide: by small.tree.json its size is 16, and it is 12\n");
    folder.write("small.guide", &[1; 16]);
    assert!(folder.run("check small.tree").status(1).errors().starts_with("codebook: small.guide: by small.tree.json its SHA-256 is c931454f"));
    folder.write("small.tree.json", b"{\"guide\":\"small.guide\"}");
    assert!(folder.run("check small.tree").status(1).errors().starts_with("codebook: small.guide: refused (24)"));
    fs::remove_file(folder.0.join("small.guide")).expect("a file");
    folder.run("check small.tree").status(2).says("codebook: small.guide: cannot be read: No such file or directory (os error 2)\n");
    // the manifest does not name a guide in another folder
    folder.write("small.tree.json", after.as_bytes());
    fs::create_dir(folder.0.join("guides")).expect("a folder");
    let left = "codebook: small.tree.json: warning: left as it is: it names a guide beside the tree alone\n";
    folder.run("guide make small.tree -o guides/small.guide").succeeds().says(left);
    assert_eq!(manifest(&folder, "small.tree.json"), after);
    assert_eq!(folder.run("guide make small.tree").succeeds().output.stdout, good);
    folder.write("small.tree.json", after.replace("5680", "5681").as_bytes());
    folder.run("guide make small.tree -f -o small.guide").status(1).prints("");
    assert!(!folder.0.join("small.guide").exists());
}
