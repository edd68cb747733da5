//! Written files: their permissions and times, concurrent runs, and files that are both read and written.

#[path = "support/folder.rs"]
mod folder;
#[path = "support/waiting.rs"]
mod waiting;

use folder::Folder;
use std::fs;
use std::io::Write;
use std::os::unix::fs::{MetadataExt, PermissionsExt};
use std::process::{Child, Stdio};
use waiting::{both_ways, waiting};

fn mode(folder: &Folder, name: &str) -> u32 {
    fs::metadata(folder.0.join(name)).expect("a file").permissions().mode() & 0o7777
}

fn set_mode(folder: &Folder, name: &str, mode: u32) {
    fs::set_permissions(folder.0.join(name), PermissionsExt::from_mode(mode)).expect("permissions");
}

// permissions and times

#[test]
fn a_tree_has_the_permissions_of_its_book() {
    both_ways(|named, name| {
        let folder = Folder::new(&format!("permissions-{name}"));
        for bits in [0o600, 0o640, 0o444, 0o400, 0o666, 0o755] {
            set_mode(&folder, "small.txt", bits);
            let tree = format!("{bits:o}.tree");
            folder.shell(&format!("umask 022; {named}codebook build small.txt -q -o {tree}")).succeeds();
            assert_eq!(mode(&folder, &tree), bits, "{tree}");
        }
        // files made from a tree, and from a book by columns
        for (line, made) in [
            ("guide make 600.tree -q -o made.guide", "made.guide"),
            ("picture 600.tree -q -o made.svg", "made.svg"),
            ("slim 600.tree -q", "600.small.tree"),
            ("import secret.txt -q -o imported.txt", "imported.txt"),
            ("to-columns 14 secret.txt -o turned.txt", "turned.txt"),
            ("build -q -o piped.tree < secret.txt", "piped.tree"),
        ] {
            fs::copy(folder.0.join("small.txt"), folder.0.join("secret.txt")).expect("a file");
            set_mode(&folder, "secret.txt", 0o600);
            folder.shell(&format!("umask 022; {named}codebook {line}")).succeeds();
            assert_eq!(mode(&folder, made), 0o600, "{line}");
        }
        // a pipe has no permissions to take over: the file gets the shell's
        folder.shell(&format!("umask 027; cat small.txt | {named}codebook build -q -o pipe.tree")).succeeds();
        assert_eq!(mode(&folder, "pipe.tree"), 0o640);
    });
}

/// A file that replaces another by --force gets only permissions that both the old file and the book have.
#[test]
fn force_makes_no_file_wider() {
    both_ways(|named, name| {
        let folder = Folder::new(&format!("wider-{name}"));
        for (book, old, new) in [(0o600, 0o644, 0o600), (0o644, 0o600, 0o600), (0o640, 0o604, 0o600), (0o644, 0o644, 0o644)] {
            folder.write("small.tree", b"old");
            set_mode(&folder, "small.tree", old);
            set_mode(&folder, "small.txt", book);
            folder.shell(&format!("umask 022; {named}codebook build small.txt -q --force")).succeeds();
            assert_eq!(mode(&folder, "small.tree"), new, "{book:o} {old:o}");
        }
    });
}

#[test]
fn times_are_kept_on_request() {
    let folder = Folder::new("times");
    folder.shell("touch -d @1000000000.25 small.txt").succeeds();
    let written = |name: &str| fs::metadata(folder.0.join(name)).map(|file| (file.mtime(), file.mtime_nsec())).expect("a file");
    folder.run("build small.txt -q -o now.tree").succeeds();
    assert!(written("now.tree").0 > 1_000_000_000);
    folder.run("build small.txt -q --keep-time").succeeds();
    assert_eq!(written("small.tree"), (1_000_000_000, 250_000_000));
    for (line, made) in [
        ("guide make small.tree -o made.guide", "made.guide"),
        ("picture small.tree -o made.svg", "made.svg"),
        ("slim small.tree", "small.small.tree"),
        ("import small.txt -o made.txt", "made.txt"),
    ] {
        folder.run(&format!("{line} -q --keep-time")).succeeds();
        assert_eq!(written(made), (1_000_000_000, 250_000_000));
    }
    folder.shell("codebook build --keep-time -q -o file.tree < small.txt").succeeds();
    assert_eq!(written("file.tree").0, 1_000_000_000);
    let says = "codebook: --keep-time: standard input is not a file, and has no times\n";
    assert!(folder.shell("cat small.txt | codebook build --keep-time -o pipe.tree").status(2).errors().starts_with(says));
    assert!(!folder.0.join("pipe.tree").exists());
}

// concurrent runs

/// Several runs at once, each with its own book, write to one file.
fn at_once(folder: &Folder, named: bool, runs: usize) -> Vec<(usize, Child)> {
    let run = |number: usize| {
        let mut tool = folder.tool();
        if named {
            tool.env("CODEBOOK_NAMED", "1");
        }
        let words = format!("build {number}.txt -q -o one.tree --leaf 4 --arity 2 --levels 1");
        (number, tool.args(words.split(' ')).stdin(Stdio::null()).stderr(Stdio::piped()).spawn().expect("the tool starts"))
    };
    (0..runs).map(run).collect()
}

/// One run writes the file, and the others report that it exists: the file is the first run's.
#[test]
fn no_run_overwrites_the_file_of_another() {
    for named in [false, true] {
        let folder = Folder::new(&format!("parallel-{named}"));
        for number in 0..6 {
            folder.write(&format!("{number}.txt"), format!("CH{number} 12345\n").as_bytes());
        }
        for round in 0..60 {
            let mut first = Vec::new();
            for (number, run) in at_once(&folder, named, 6) {
                let done = run.wait_with_output().expect("the tool ends");
                match done.status.code() {
                    Some(0) => first.push(number),
                    _ => assert_eq!(String::from_utf8_lossy(&done.stderr), "codebook: one.tree: exists; --force overwrites it\n"),
                }
            }
            assert_eq!(first.len(), 1, "round {round}, named {named}: {first:?}");
            folder.run("row 1 one.tree").prints(&format!("CH{} 12345\n", first[0]));
            fs::remove_file(folder.0.join("one.tree")).expect("a file");
        }
        assert!(!folder.names().iter().any(|name| name.starts_with('.')), "{:?}", folder.names());
    }
}

/// A file that appears while the tool works is replaced with --force, and left alone without it.
#[test]
fn a_file_that_appears_meanwhile() {
    for named in [false, true] {
        for (words, replaced) in [("build - -q -o late.tree --force", true), ("build - -q -o late.tree", false)] {
            let folder = Folder::new(&format!("meanwhile-{named}-{replaced}"));
            let mut child = waiting(&folder, named, words);
            folder.write("late.tree", b"late");
            child.stdin.take().expect("a pipe").write_all(&folder.read("small.txt")).expect("the book");
            let done = child.wait_with_output().expect("the tool ends");
            let (status, errors) = (done.status.code(), String::from_utf8_lossy(&done.stderr).into_owned());
            match replaced {
                true => assert_eq!((status, errors.as_str(), folder.read("late.tree").len()), (Some(0), "", 5680)),
                false => {
                    assert_eq!((status, errors.as_str()), (Some(2), "codebook: late.tree: exists; --force overwrites it\n"));
                    assert_eq!(folder.read("late.tree"), b"late");
                }
            }
            assert_eq!(folder.names(), ["late.tree", "small.txt"]);
        }
    }
}

// files that are both read and written

/// If standard output goes to a file that is read or written, nothing is added to it.
#[test]
fn standard_output_is_no_file_of_the_call() {
    let folder = Folder::with_tree("appended");
    fs::hard_link(folder.0.join("small.tree"), folder.0.join("hard.tree")).expect("a link");
    folder.run("guide make small.tree -o small.guide").succeeds();
    let (tree, book, guide) = (folder.read("small.tree"), folder.read("small.txt"), folder.read("small.guide"));
    for (line, name) in [
        ("codebook text small.tree >> small.tree", "small.tree"),
        ("codebook text hard.tree >> small.tree", "hard.tree"),
        ("codebook text --json small.tree >> small.tree", "small.tree"),
        ("codebook text < small.tree >> small.tree", "standard input"),
        ("codebook text --json < small.tree >> small.tree", "standard input"),
        ("codebook row 1 small.tree --json >> ./small.tree", "small.tree"),
        ("codebook check small.txt small.tree >> small.tree", "small.tree"),
        ("codebook verify small.txt small.tree >> small.txt", "small.txt"),
        ("codebook row 1 small.tree --guide=small.guide >> small.guide", "small.guide"),
        ("codebook build small.txt -o - >> small.txt", "small.txt"),
        ("codebook build small.txt -f -o small.tree >> small.tree", "small.tree"),
        ("codebook build -o - < small.txt >> small.txt", "standard input"),
        ("codebook slim small.tree -o - >> small.tree", "small.tree"),
        ("codebook import small.txt >> small.txt", "small.txt"),
        ("codebook digest small.tree >> small.tree", "small.tree"),
        ("codebook diff small.txt small.tree >> small.tree", "small.tree"),
        ("codebook code CH0501 small.tree >> small.tree", "small.tree"),
    ] {
        folder.shell(line).status(2).says(&format!("codebook: {name}: standard output goes to this file too; it is left as it is\n"));
        assert!(
            (folder.read("small.tree"), folder.read("small.txt"), folder.read("small.guide")) == (tree.clone(), book.clone(), guide.clone()),
            "{line}"
        );
    }
    // a wrong call adds no object either
    folder.shell("codebook row none small.tree --json >> small.tree").status(2);
    assert!(folder.read("small.tree") == tree);
    // an argument that is no file may equal a file's name
    folder.shell("codebook row 5 small.tree > 5").succeeds();
    assert_eq!(folder.read("5"), b"CH0505 444233\n");
    // the shell has emptied the book before the tool starts: no tree of the empty text is written to it
    folder.shell("codebook build -o - small.txt > small.txt").status(2);
    assert_eq!(folder.read("small.txt"), b"");
}

/// No file is written that is read later.
#[test]
fn no_tree_is_written_to_another_book() {
    let folder = Folder::new("both");
    folder.write("small.tree", b"A 1\n");
    let says = "codebook: small.tree is read, and what is made of small.txt would be written to it\n";
    let done = folder.run("build small.txt ./small.tree --force");
    assert!(done.status(2).errors().starts_with(&says.replacen("small.tree", "./small.tree", 1)), "{}", done.errors());
    assert_eq!(folder.read("small.tree"), b"A 1\n");
    folder.run("build small.txt -q --force").succeeds();
    folder.run("slim small.tree -q").succeeds();
    let says = "codebook: small.small.tree is read, and what is made of small.tree would be written to it\n";
    assert!(folder.run("slim small.tree small.small.tree --force").status(2).errors().starts_with(says));
}

/// Two books would go to standard output, or one input would be read twice.
#[test]
fn standard_input_twice() {
    let folder = Folder::with_tree("twice");
    folder.run("guide make small.tree -o small.guide").succeeds();
    for words in [
        "build - -",
        "check - small.tree -",
        "compare - -",
        "verify - -",
        "sort - -",
        "guide check - -",
        "row 1 - --guide -",
        "slim - -",
        "digest - -",
        "diff - -",
        "code CH0501 - -",
    ] {
        let done = folder.pipe(words, &folder.read("small.tree"));
        let says = "codebook: - is standard input, which can be read once only\nusage: codebook ";
        assert!(done.status(2).errors().starts_with(says), "{words}: {}", done.errors());
        done.prints("");
    }
    folder.run("build small.txt small.tree -o -").status(2).prints("");
    // a pattern may be -
    folder.write("dash.txt", b"A-B 1\n");
    folder.run("build dash.txt -q").succeeds();
    folder.pipe("places -- - -", &folder.read("dash.tree")).succeeds().prints("1\n");
}

// names

/// An ending that is not .txt or .csv is a part of the name.
#[test]
fn trees_of_books_with_endings() {
    let folder = Folder::new("endings");
    for book in ["Ford.2023", "Ford.2024", "Opel", "Audi.csv"] {
        folder.write(book, format!("{book} 1\n").as_bytes());
    }
    folder.run("build Ford.2023 Ford.2024 Opel Audi.csv -q").succeeds();
    std::fs::create_dir(folder.0.join("trees")).expect("a folder");
    folder.run("build Ford.2023 Ford.2024 -q -o trees").succeeds();
    for (tree, row) in [
        ("Ford.2023.tree", "Ford.2023 1\n"),
        ("Ford.2024.tree", "Ford.2024 1\n"),
        ("Opel.tree", "Opel 1\n"),
        ("Audi.tree", "Audi.csv 1\n"),
        ("trees/Ford.2023.tree", "Ford.2023 1\n"),
        ("trees/Ford.2024.tree", "Ford.2024 1\n"),
    ] {
        folder.run(&format!("row 1 {tree}")).succeeds().prints(row);
    }
    // a tree without edges: .small.tree in place of .tree, or after the whole name
    fs::copy(folder.0.join("Opel.tree"), folder.0.join("Opel.7")).expect("a file");
    folder.run("slim Ford.2023.tree Opel.7 -q").succeeds();
    folder.run("row 1 Ford.2023.small.tree").succeeds().prints("Ford.2023 1\n");
    folder.run("row 1 Opel.7.small.tree").succeeds().prints("Opel 1\n");
}
