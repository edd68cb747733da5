//! `code`: the rows of a key code in one or several books, and the manifest beside a tree.

#[path = "support/folder.rs"]
mod folder;

use folder::Folder;

const USAGE: &str = "usage: codebook code CODE [TREE]... [--prefix] [--guide GUIDE] [--json] [--unchecked] [--any-day] [--today DAY]";

/// The expected output for these rows of the book in `tree`.
fn lines(folder: &Folder, tree: &str, rows: &[usize]) -> String {
    let book = String::from_utf8(folder.read("small.txt")).expect("a book");
    let book: Vec<&str> = book.lines().collect();
    rows.iter().map(|&q| format!("{tree}: row {q}: {}\n", book[q - 1])).collect()
}

#[test]
fn rows_of_a_code() {
    let folder = Folder::with_tree("code");
    let all = lines(&folder, "small.tree", &[2, 42, 82, 122, 162]);
    folder.run("code CH0502 small.tree").succeeds().prints(&all).says("");
    folder.run("code CH050\\x32 small.tree --unchecked").succeeds().prints(&all);
    folder.pipe("code CH0502", &folder.read("small.tree")).succeeds().prints(&all.replace("small.tree", "standard input"));
    folder.pipe("code CH0502 -", &folder.read("small.tree")).succeeds().prints(&all.replace("small.tree", "standard input"));
    // the search includes the space after a code
    folder.run("code CH050 small.tree").status(1).prints("").says("codebook: small.tree: no row starts with 'CH050 '\n");
    let first = lines(&folder, "small.tree", &[1, 2, 3, 4, 5, 6, 7, 8, 9]);
    let found = folder.run("code --prefix CH050 small.tree").succeeds().printed();
    assert!(found.starts_with(&first) && found.lines().count() == 45, "{found}");
    folder.run("code --prefix CH0502\\x204 small.tree").succeeds().prints(&all);
    folder.run("code --prefix \\n small.tree").status(1).prints("").says("codebook: small.tree: no row starts with '\\n'\n");
}

/// With a guide, and with one that is made on the way.
#[test]
fn many_rows() {
    let folder = Folder::with_tree("many-rows");
    let book = String::from_utf8(folder.read("small.txt")).expect("a book");
    let rows: Vec<usize> = (1..=200).filter(|&q| book.lines().nth(q - 1).is_some_and(|row| row.starts_with("CH"))).collect();
    assert_eq!(rows.len(), 140);
    folder.run("guide make small.tree -o small.guide").succeeds();
    for words in ["", " --guide small.guide", " --unchecked --guide small.guide"] {
        folder.run(&format!("code --prefix CH small.tree{words}")).succeeds().prints(&lines(&folder, "small.tree", &rows));
    }
    let many: String = (0..3000).map(|row| format!("K{row} {}\n", row % 10)).collect();
    folder.write("many.txt", many.as_bytes());
    folder.run("build many.txt --leaf 16 --arity 4 --levels 2 -q").succeeds();
    let all: String = many.lines().zip(1..).map(|(row, q)| format!("many.tree: row {q}: {row}\n")).collect();
    folder.run("code --prefix K many.tree").succeeds().prints(&all).says("");
    folder.write("wrong.guide", b"\0\0\0\0");
    let done = folder.run("code --prefix CH small.tree --guide wrong.guide");
    assert!(done.status(1).errors().starts_with("codebook: wrong.guide: refused (24)"));
}

#[test]
fn several_books() {
    let folder = Folder::with_tree("code-books");
    folder.write("other.txt", b"CH0502 1\nK01159 24\nCH0502\n");
    folder.run("build other.txt -o other.tree --leaf 4 --arity 2 --levels 3").succeeds();
    let both = lines(&folder, "small.tree", &[2, 42, 82, 122, 162]) + "other.tree: row 1: CH0502 1\n";
    folder.run("code CH0502 small.tree other.tree").succeeds().prints(&both).says("");
    // found in one of the books
    folder.run("code K01159 small.tree other.tree").succeeds().prints("other.tree: row 2: K01159 24\n").says("");
    folder.run("code X small.tree other.tree").status(1).prints("").says("codebook: no row starts with 'X '\n");
    // a refused tree and a missing file: the others are read, and the status is the highest
    folder.write("cut.tree", &folder.read("other.tree")[..90]);
    let short = "codebook: cut.tree: refused (5): a tree has at least 100 bytes; this is no tree, or cut off; it has 90 bytes\n";
    folder.run("code K01159 cut.tree other.tree").status(1).prints("other.tree: row 2: K01159 24\n").says(short);
    let none = "codebook: none.tree: cannot be read: No such file or directory (os error 2)\n";
    folder.run("code K01159 none.tree cut.tree other.tree").status(2).prints("other.tree: row 2: K01159 24\n").says(&format!("{none}{short}"));
    folder.run("code K01159 none.tree").status(2).prints("").says(none);
    folder.run("code K01159 small.tree other.tree --guide g").status(2).says(&format!("codebook: --guide is the guide of one tree\n{USAGE}\n"));
}

#[test]
fn what_is_refused() {
    let folder = Folder::with_tree("refused-code");
    folder.run("code").status(2).says(&format!("codebook: CODE is missing\n{USAGE}\n"));
    let escapes = "a backslash begins \\n, \\r, \\t, \\\\ or \\xHH, a byte in hexadecimal";
    folder.run("code K\\q small.tree").status(2).prints("").says(&format!("codebook: {escapes}, not '\\q'\n{USAGE}\n"));
    let empty = folder.shell("codebook code '' small.tree");
    empty.status(2).says(&format!("codebook: CODE is empty\n{USAGE}\n"));
    let long = |length| format!("codebook: small.tree: code: refused (16): a prefix of a row must have 1 to 256 bytes; this one has {length}\n");
    folder.shell("codebook code --prefix '' small.tree").status(1).says(&long(0));
    folder.run(&format!("code {} small.tree", "C".repeat(256))).status(1).prints("").says(&long(257));
    let none = format!("codebook: small.tree: no row starts with '{} '\n", "C".repeat(255));
    folder.run(&format!("code {} small.tree", "C".repeat(255))).status(1).prints("").says(&none);
    folder.run("build small.txt -o none.tree --leaf 16 --arity 4 --levels 2 --count none").succeeds();
    let uncounted = "codebook: none.tree: code: refused (11): the tree does not count byte 10, which ends a row; build must count it\n";
    folder.run("code CH0502 none.tree").status(1).prints("").says(uncounted);
    let mut tree = folder.read("small.tree");
    tree[104] = 2;
    folder.write("kind.tree", &tree);
    let path = "codebook: kind.tree: code: refused (14): the tree is damaged: the path to a byte breaks off, or a count is negative\n";
    folder.run("code CH0502 kind.tree --unchecked").status(1).prints("").says(path);
}

#[test]
fn objects() {
    let folder = Folder::with_tree("code-json");
    let rows: String =
        [2, 42, 82, 122, 162].iter().map(|q| format!("{{\"tree\":\"small.tree\",\"row\":{q},\"text\":\"CH0502 444225\"}}\n")).collect();
    folder.run("code CH0502 small.tree --json").succeeds().prints(&rows).says("");
    folder.run("code X small.tree --json").status(1).prints("").says("codebook: small.tree: no row starts with 'X '\n");
    folder.write("small.tree.json", b"{\"maker\":\"Ilko\",\"edition\":\"3\"}");
    let with = rows.replace("\"}", "\",\"maker\":\"Ilko\",\"edition\":\"3\"}");
    folder.run("code CH0502 small.tree --json").succeeds().prints(&with).says("");
}

/// The manifest beside a tree is shown; one that is malformed is refused.
#[test]
fn manifests() {
    let folder = Folder::with_tree("manifest");
    let plain = lines(&folder, "small.tree", &[2, 42, 82, 122, 162]);
    let shown = |known: &str| plain.replace("small.tree:", &format!("small.tree ({known}):"));
    for (manifest, known) in
        [(r#"{"maker":"Ilko & Sons","edition":"3"}"#, "Ilko & Sons, 3"), (r#"{"edition":"3"}"#, "3"), (r#"{"maker":"a\nb\u001b"}"#, "a\\nb\\u{1b}")]
    {
        folder.write("small.tree.json", manifest.as_bytes());
        folder.run("code CH0502 small.tree").succeeds().prints(&shown(known)).says("");
    }
    folder.write("small.tree.json", b"{\"length\":2800}");
    folder.run("code CH0502 small.tree").succeeds().prints(&plain).says("");
    // the manifest may have licence dates: a malformed one is refused, and --any-day reads the tree without it
    let long = [b"{".as_slice(), &[b' '; 65_536]].concat();
    for (manifest, wrong) in [
        (b"".as_slice(), "a value is expected at byte 0, in line 1"),
        (b"{\"maker\":3}", "its member 'maker' is not a string"),
        (b"{\"maker\":\"\xff\"}", "it is not UTF-8"),
        (&long, "it has more than 65,536 bytes"),
        (&[b'['; 65_536], "it is nested more than 32 deep"),
    ] {
        folder.write("small.tree.json", manifest);
        folder.run("code CH0502 small.tree").status(1).prints("").says(&format!("codebook: small.tree.json: malformed manifest: {wrong}\n"));
        let says = format!("codebook: small.tree.json: warning: the manifest is not used: {wrong}\n");
        folder.run("code CH0502 small.tree --any-day").succeeds().prints(&plain).says(&says);
        folder.run("code CH0502 small.tree --any-day -q").succeeds().prints(&plain).says("");
    }
    std::fs::remove_file(folder.0.join("small.tree.json")).expect("a file");
    std::fs::create_dir(folder.0.join("small.tree.json")).expect("a folder");
    let says = "codebook: small.tree.json: cannot be read: Is a directory (os error 21)\n";
    folder.run("code CH0502 small.tree").status(2).prints("").says(says);
    let says = "codebook: small.tree.json: warning: the manifest is not used: Is a directory (os error 21)\n";
    folder.run("code CH0502 small.tree --any-day").succeeds().prints(&plain).says(says);
}
