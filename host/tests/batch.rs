//! `build` of several books at a time: the order of files and reports, the table, warnings, progress, signals.

#[path = "support/folder.rs"]
mod folder;
#[path = "support/json.rs"]
mod json;
mod support;
#[path = "support/waiting.rs"]
mod waiting;

use folder::Folder;
use json::Json;
use std::fs::{File, OpenOptions};
use std::io::Write;
use std::os::unix::fs::OpenOptionsExt;
use std::process::{Child, Command};
use std::time::{Duration, Instant};
use support::books::{book, Kind};
use waiting::{started, wait_until_ready};

const NO_SMALLER: &str = "the tree is no smaller than the text: the book is short, or repeats itself too little";

/// Books of different lengths, the longest first.
fn shelf(name: &str) -> Folder {
    let folder = Folder::new(name);
    folder.write("long.txt", &book(Kind::Mixed, 65_536, 7));
    folder.write("late.txt", &b"D 1\n".repeat(500));
    folder.write("empty.txt", b"");
    folder.write("one.txt", b"A 1\n");
    folder
}

const BOOKS: &str = "long.txt late.txt none.txt small.txt empty.txt one.txt";

/// The output and each tree are the same for any number of threads.
#[test]
fn in_the_order_given() {
    let folder = shelf("batch-order");
    let first = folder.run(&format!("build {BOOKS} -j 1 -f"));
    let (printed, said) = (first.status(2).printed(), first.errors());
    let names: Vec<&str> = printed.lines().take(5).map(|line| line.split(':').next().unwrap_or("")).collect();
    assert_eq!(names, ["long.tree", "late.tree", "small.tree", "empty.tree", "one.tree"]);
    let trees = ["long", "late", "small", "empty", "one"].map(|book| folder.read(&format!("{book}.tree")));
    for jobs in ["-j 2", "-j3", "--jobs 64", ""] {
        folder.run(&format!("build {BOOKS} -f {jobs}")).status(2).prints(&printed).says(&said);
        assert!(trees == ["long", "late", "small", "empty", "one"].map(|book| folder.read(&format!("{book}.tree"))), "{jobs}");
    }
    // each tree is the one that the book has when built alone, with one thread and with several
    for (book, tree) in ["long", "late", "small", "empty", "one"].into_iter().zip(&trees) {
        for jobs in ["-j 1", "-j 3"] {
            folder.run(&format!("build {book}.txt -q -f -o alone.tree {jobs}")).succeeds();
            assert!(folder.read("alone.tree") == *tree, "{book} {jobs}");
        }
    }
}

#[test]
fn the_table() {
    let folder = shelf("batch-table");
    let done = folder.run("build small.txt late.txt none.txt empty.txt");
    let printed = done.status(2).printed();
    let table: Vec<&str> = printed.lines().skip(3).collect();
    assert_eq!(
        table,
        [
            "book            rows       text        tree     ratio  warnings",
            "small.txt        200      2,800       5,680   202.9 %         2",
            "late.txt         500      2,000       1,504    75.2 %         0",
            "none.txt           -          -           -         -    failed",
            "empty.txt          0          0         100         -         1",
            "3 of 4 books: 700 rows, 4,800 bytes of text, 7,284 bytes of trees, 151.8 % of the text, 3 warnings",
        ]
    );
    done.says(&format!(
        "codebook: none.txt: cannot be read: No such file or directory (os error 2)\n\
         codebook: small.txt: warning: {NO_SMALLER}\n\
         codebook: small.txt: warning: --small would give 1,928 bytes, 68.9 % of the text\n\
         codebook: empty.txt: warning: the book has no rows yet\n"
    ));
    // no book is built, and there is no report
    folder.run("build none.txt gone.txt").status(2).prints(
        "book           rows       text        tree     ratio  warnings\n\
         none.txt          -          -           -         -    failed\n\
         gone.txt          -          -           -         -    failed\n\
         0 of 2 books: 0 rows, 0 bytes of text, 0 bytes of trees, an empty text, 0 warnings\n",
    );
    folder.run("build small.txt late.txt -f -q").succeeds().prints("").says("");
    let sums = folder.run("build small.txt late.txt -f").succeeds().printed();
    assert!(sums.ends_with("\n2 books: 700 rows, 4,800 bytes of text, 7,184 bytes of trees, 149.7 % of the text, 2 warnings\n"), "{sums}");
}

/// The same warning on several books is one line.
#[test]
fn warnings_are_counted() {
    let folder = Folder::new("batch-warnings");
    for number in 0..12 {
        folder.write(&format!("{number}.txt"), format!("K{number} 1\nnokey{number}\nno key\n").as_bytes());
    }
    folder.write("mark.txt", b"\xEF\xBB\xBFA 1\n");
    let books: Vec<String> = (0..12).map(|number| format!("{number}.txt")).chain(["mark.txt".to_owned()]).collect();
    let done = folder.run(&format!("build {}", books.join(" ")));
    done.succeeds().says(
        "codebook: warning: 24 rows in 12 books are not code, space, cuts, and no worn key matches there; the first is row 2 of 0.txt: 'nokey0'\n\
         codebook: warning: the trees of 13 books are no smaller than their texts, which are short, or repeat themselves too little; the first is 0.txt\n\
         codebook: mark.txt: warning: the book begins with a byte order mark, which is a part of its first code\n",
    );
    assert!(done.printed().ends_with(", 26 warnings\n"), "{}", done.printed());
}

/// An object for each book in the order given, failures too, and one for all.
#[test]
fn objects() {
    let folder = shelf("batch-objects");
    let printed = folder.run("build late.txt none.txt small.txt --json").status(2).printed();
    let objects: Vec<Json> = printed.lines().map(|line| Json::parse(line).expect("an object")).collect();
    let text = |at: usize, name: &str| match objects[at].get(name) {
        Some(Json::Text(text)) => text.clone(),
        other => panic!("{name}: {other:?}"),
    };
    assert_eq!((text(0, "book"), text(1, "failed"), text(2, "book")), ("late.txt".to_owned(), "none.txt".to_owned(), "small.txt".to_owned()));
    assert_eq!((objects[0].get("rows"), objects[2].get("rows")), (Some(&Json::Number(500)), Some(&Json::Number(200))));
    assert_eq!(printed.lines().last(), Some("{\"books\":3,\"built\":2,\"rows\":700,\"length\":4800,\"size\":7184,\"warned\":2}"));
    assert!(objects.len() == 4 && objects.iter().all(|object| object.kind() == "object"));
}

/// If a tree goes to standard output, nothing else does.
#[test]
fn one_from_standard_input() {
    let folder = shelf("batch-standard");
    folder.run("build small.txt -q -o alone.tree").succeeds();
    for json in ["", " --json"] {
        let done = folder.pipe(&format!("build late.txt - one.txt -f{json}"), &folder.read("small.txt"));
        assert_eq!(done.succeeds().output.stdout, folder.read("alone.tree"));
        assert!(done.errors().contains("late.tree") && done.errors().contains("one.tree"), "{}", done.errors());
        let failed = folder.pipe(&format!("build - none.txt{json}"), &folder.read("small.txt"));
        assert_eq!(failed.status(2).output.stdout, folder.read("alone.tree"));
    }
}

#[test]
fn numbers_of_threads() {
    let folder = shelf("batch-threads");
    for (words, says) in [
        ("-j 0", "-j is how many threads build at a time, 1 or more, not 0"),
        ("-j x", "--jobs is a number from 0 to 4294967295, not 'x'"),
        ("-j", "-j needs a value"),
    ] {
        let done = folder.run(&format!("build small.txt late.txt {words}"));
        assert!(done.status(2).errors().starts_with(&format!("codebook: {says}\n")), "{}", done.errors());
    }
    assert!(!folder.names().iter().any(|name| name.ends_with(".tree")));
}

/// Pipes with names, from which books come.
fn pipes(folder: &Folder, names: &[&str]) {
    for name in names {
        assert!(Command::new("mkfifo").arg(folder.0.join(name)).status().expect("mkfifo").success());
    }
}

/// The other end of a pipe; none if the tool has not opened it by then.
fn opened(folder: &Folder, name: &str, within: Duration) -> Option<File> {
    const O_NONBLOCK: i32 = 0o4000;
    let start = Instant::now();
    loop {
        match OpenOptions::new().write(true).custom_flags(O_NONBLOCK).open(folder.0.join(name)) {
            Ok(file) => return Some(file),
            Err(_) if start.elapsed() > within => return None,
            Err(_) => std::thread::sleep(Duration::from_millis(5)),
        }
    }
}

/// -j books are read at once, and a book that waits does not hold up the others.
#[test]
fn at_the_same_time() {
    let folder = Folder::new("batch-parallel");
    pipes(&folder, &["a.txt", "b.txt", "c.txt"]);
    let (long, short) = (Duration::from_secs(60), Duration::from_millis(300));
    let child = started(&folder, false, "build a.txt b.txt c.txt small.txt -q -j 2");
    let (mut a, mut b) = (opened(&folder, "a.txt", long).expect("read"), opened(&folder, "b.txt", long).expect("read"));
    assert!(opened(&folder, "c.txt", short).is_none(), "two at a time");
    b.write_all(b"B 1\n").expect("a pipe");
    drop(b);
    // the second book is built, and is written after the first
    let mut c = opened(&folder, "c.txt", long).expect("read");
    assert!(!folder.0.join("b.tree").exists());
    a.write_all(b"A 1\n").expect("a pipe");
    c.write_all(b"C 1\n").expect("a pipe");
    drop((a, c));
    assert!(child.wait_with_output().expect("the tool ends").status.success());
    for (tree, row) in [("a.tree", "A 1\n"), ("b.tree", "B 1\n"), ("c.tree", "C 1\n"), ("small.tree", "CH0501 444224\n")] {
        folder.run(&format!("row 1 {tree}")).succeeds().prints(row);
    }
    // one after the other
    let child = started(&folder, false, "build a.txt b.txt -q -f -j 1");
    let a = opened(&folder, "a.txt", long).expect("read");
    assert!(opened(&folder, "b.txt", short).is_none(), "one at a time");
    drop(a);
    drop(opened(&folder, "b.txt", long).expect("read"));
    assert!(child.wait_with_output().expect("the tool ends").status.success());
}

/// While the tool waits for the first book, it builds few of the others: each finished tree holds a file open.
#[test]
fn few_books_wait() {
    let folder = Folder::new("batch-waiting");
    pipes(&folder, &["a.txt"]);
    let books: Vec<String> = (0..60).map(|number| format!("{number}.txt")).collect();
    books.iter().for_each(|book| folder.write(book, b"A 1\n"));
    let child = started(&folder, true, &format!("build a.txt {} -q -j 2 --leaf 4 --arity 2 --levels 1", books.join(" ")));
    let mut a = opened(&folder, "a.txt", Duration::from_secs(60)).expect("read");
    // 32 trees wait, and each thread works on one
    wait_until_ready(&folder, &child, true, 34);
    std::thread::sleep(Duration::from_millis(300));
    assert_eq!(folder.names().iter().filter(|name| name.starts_with(".codebook-")).count(), 34);
    assert!(!folder.names().iter().any(|name| name.ends_with(".tree")));
    a.write_all(b"A 1\n").expect("a pipe");
    drop(a);
    assert!(child.wait_with_output().expect("the tool ends").status.success());
    assert_eq!(folder.names().iter().filter(|name| name.ends_with(".tree")).count(), 61);
    assert!(!folder.names().iter().any(|name| name.starts_with('.')));
}

fn end(mut child: Child, signal: &str) {
    assert!(Command::new("kill").args([format!("-{signal}"), child.id().to_string()]).status().expect("kill").success());
    assert_eq!(child.wait().expect("the tool ends").code(), None, "ended by the signal");
}

/// A signal during the work on several books leaves the trees that are written, and no part of another.
#[test]
fn signals() {
    for (named, signals) in [(false, ["INT", "TERM", "HUP", "KILL"].as_slice()), (true, &["INT", "TERM", "HUP", "QUIT"])] {
        for signal in signals {
            let folder = Folder::new(&format!("batch-{signal}-{named}"));
            pipes(&folder, &["a.txt", "b.txt", "c.txt"]);
            folder.write("b.tree", b"old");
            let child = started(&folder, named, "build small.txt a.txt b.txt c.txt -q -f -j 4 --maker M");
            let held = ["a.txt", "b.txt", "c.txt"].map(|name| opened(&folder, name, Duration::from_secs(60)).expect("read"));
            // a tree and a manifest for each book in work
            wait_until_ready(&folder, &child, named, 6);
            let start = Instant::now();
            while !folder.0.join("small.tree").exists() {
                assert!(start.elapsed() < Duration::from_secs(60), "small.txt is built");
                std::thread::sleep(Duration::from_millis(5));
            }
            end(child, signal);
            drop(held);
            assert_eq!(folder.names(), ["a.txt", "b.tree", "b.txt", "c.txt", "small.tree", "small.tree.json", "small.txt"], "{signal} {named}");
            assert_eq!(folder.read("b.tree"), b"old");
            assert!(folder.run("check small.tree").succeeds().printed().ends_with("; described by small.tree.json\n"));
        }
    }
}

/// On a terminal one line says how many books are done; other output is not mixed with it.
#[test]
fn progress() {
    let folder = Folder::new("batch-progress");
    for number in 0..3 {
        folder.write(&format!("{number}.txt"), &book(Kind::NearlyRandom, 2 << 20, number));
    }
    let start = Instant::now();
    let done = folder.shell("script -qec 'codebook build 0.txt 1.txt 2.txt small.txt -j 2' /dev/null < /dev/null");
    let quick = start.elapsed() < Duration::from_millis(1500);
    if done.output.status.code() == Some(127) {
        println!("script is not installed: not tried");
        return;
    }
    let shown = done.succeeds().printed();
    let lines: Vec<&str> = shown.split('\r').filter(|line| line.starts_with("building: ")).collect();
    assert!(quick || lines.iter().any(|line| line.contains(" of 4 books done, ")), "{shown}");
    assert!(!shown.contains("trees done"), "{shown}");
    // a report begins where the line was
    let reports: Vec<&str> = shown.split(['\r', '\n']).filter(|line| line.contains("; SHA-256 of the tree ")).collect();
    let bare = |line: &&str| line.trim_start_matches("\u{1b}[K").to_owned();
    assert!(
        reports.len() == 4 && reports.iter().map(bare).zip(["0.tree", "1.tree", "2.tree", "small.tree"]).all(|(line, tree)| line.starts_with(tree)),
        "{shown}"
    );
    let quiet = folder.shell("codebook build 0.txt 1.txt -f -j 2 --leaf 64 --arity 4 --levels 3");
    assert!(!quiet.succeeds().errors().contains("building: "), "no terminal, no progress");
}
