//! The tool from end to end: what it prints, and its status.

#[path = "support/folder.rs"]
mod folder;
mod support;

use folder::Folder;
use support::books::{book, Kind};

const NO_SMALLER: &str = "the tree is no smaller than the text: the book is short, or repeats itself too little";

/// The part of the output before the digest.
fn before_digest(done: &folder::Done) -> String {
    done.printed().split("SHA-256 of the tree ").next().unwrap_or_default().to_owned()
}

#[test]
fn builds_with_chosen_settings() {
    let folder = Folder::new("chosen");
    let report = "\
small.txt: 2,800 bytes
leaf  arity  levels  tree's bytes
 256      2       1         8,840
  32      6       2         5,680
  32      5       2         6,452
  24      5       3         6,116
  16      5       4         6,320
  16      4       3         6,076
  12      4       4         6,380
  10      3       6         7,222
chosen: leaf 32, arity 6, levels 2, since its tree is the smallest of these 8
";
    let ending = "5,680 bytes, 202.9 % of the text; leaf 32, arity 6, levels 2; bytes counted: 0x0a\n\
                  SHA-256 of the tree 58c9c17dc6d736f67d80edb8d1195a581665615d597ad25f53fb41b435bd57e1\n\
                  SHA-256 of its text e913aa0d736292973c8ab01c65bd84ff6524fb868d54c9621602942b5dfceb6e\n";
    let warning = |book: &str| {
        let small = "--small would give 1,928 bytes, 68.9 % of the text";
        format!("codebook: {book}: warning: {NO_SMALLER}\ncodebook: {book}: warning: {small}\n")
    };
    folder.run("build small.txt -o small.tree").succeeds().prints(&format!("{report}small.tree: {ending}")).says(&warning("small.txt"));
    assert_eq!(folder.read("small.tree").len(), 5680);
    // in a pipe the tree goes to standard output and the report to standard error
    let piped = folder.pipe("build", &folder.read("small.txt"));
    piped.succeeds().says(&format!("{}standard output: {ending}{}", report.replace("small.txt", "standard input"), warning("standard input")));
    assert_eq!(piped.output.stdout, folder.read("small.tree"));
}

#[test]
fn builds_with_given_settings() {
    let folder = Folder::new("given");
    let done = folder.run("build small.txt -o small.tree --leaf 16 --arity=4 --levels 2 --count none");
    let sizes = "small.tree: 5,476 bytes, 195.6 % of the text; leaf 16, arity 4, levels 2; bytes counted: none\n";
    assert_eq!(before_digest(done.succeeds()), format!("small.txt: 2,800 bytes\n{sizes}"));
    let uncounted = "refused (11): the tree does not count byte 10, which ends a row; build must count it";
    folder.run("row 1 small.tree").status(1).says(&format!("codebook: small.tree: row 1: {uncounted}\n"));
    folder.run("build small.txt -o two.tree --leaf 16 --arity 4 --levels 2 --count \\n,C").succeeds();
    let done = folder.run("build small.txt --output large.tree --leaf 1 --arity 2 --levels 1");
    let sizes = "large.tree: 86,900 bytes, 3103.6 % of the text; leaf 1, arity 2, levels 1; bytes counted: 0x0a\n";
    assert_eq!(before_digest(done.succeeds()), format!("small.txt: 2,800 bytes\n{sizes}"));
    folder.run("find C 41 two.tree").succeeds().prints("728 (3 blocks entered)\n");
    // named after the book, or in a folder
    folder.run("build small.txt -q -f").succeeds().prints("").says("");
    std::fs::create_dir(folder.0.join("trees")).expect("a folder");
    folder.run("build small.txt -q -o trees").succeeds();
    assert_eq!(folder.read("small.tree"), folder.read("trees/small.tree"));
}

/// Settings of one level: the size is computed, and is the tree's.
#[test]
fn one_level() {
    for (leaf, counted) in [(1, 0), (2, 4), (64, 1), (255, 2), (256, 4)] {
        for length in [0, 1, 2, 63, 64, 65, 255, 256, 257, 5000] {
            let settings = codebook::Settings { leaf, arity: 2, levels: 1, counted: (0..counted).collect() };
            let tree = codebook::build_scanned(&vec![b'A'; length], &settings).expect("a tree").tree;
            assert_eq!(codebook::one_level_size(length, &settings), Ok(Some(tree.len())));
        }
    }
    let settings = codebook::Settings { leaf: 2, arity: 2, levels: 2, counted: vec![] };
    assert_eq!(codebook::one_level_size(10, &settings), Ok(None));
    assert_eq!(codebook::one_level_size(10, &codebook::Settings { leaf: 0, ..settings }), Err(codebook::Refusal::Settings));
}

#[test]
fn answers() {
    let folder = Folder::with_tree("answers");
    folder.run("list small.tree").succeeds().prints("0 15 6 9\n1 34 34 0\n");
    folder.run("row 1 small.tree").succeeds().prints("CH0501 444224\n");
    folder.run("row 200 small.tree").succeeds().prints("HON1012 52162\n");
    folder.run("row 199.. small.tree").succeeds().prints("HON1011 52161\nHON1012 52162\n");
    folder.run("row ..2 small.tree").succeeds().prints("CH0501 444224\nCH0502 444225\n");
    folder.run("row 5..7 small.tree").succeeds().prints("CH0505 444233\nCH0506 444234\nCH0507 444235\n");
    assert_eq!(folder.run("row .. small.tree").output.stdout, folder.read("small.txt"));
    folder.run("run 14 small.tree").succeeds().prints("offset 4622, 18 bytes: 'CH0502 444225\\nCH05'\n");
    folder.run("byte 0 small.tree").succeeds().prints("67 'C' (2 blocks entered)\n");
    folder.run("byte 13 small.tree").succeeds().prints("10 '\\n' (2 blocks entered)\n");
    folder.run("span 14 6 small.tree").succeeds().prints("CH0502");
    folder.run("span 2800 0 small.tree").succeeds().prints("");
    folder.run("count 0x0a 2800 small.tree").succeeds().prints("200 (2 blocks entered)\n");
    folder.run("count \\n 0 small.tree").succeeds().prints("0 (0 blocks entered)\n");
    folder.run("find \\x0a 1 small.tree").succeeds().prints("13 (2 blocks entered)\n");
    let text = folder.run("text small.tree");
    text.succeeds().says("");
    assert_eq!(text.output.stdout, folder.read("small.txt"));
    folder.run("stats small.tree").succeeds().prints(
        "\
small.tree: 5,680 bytes, 202.9 % of the text
text        2,800 bytes
layout      2, with edges, for short spans in one walk
settings    leaf 32, arity 6, levels 2
counted     10 '\\n': 200 times
rows        200
the tree's bytes
  header             100    1.8 %
  records          1,372   24.2 %
  edges            3,136   55.2 %
  leaf bytes       1,072   18.9 %
without edges 2,544 bytes, 90.9 % of the text: codebook slim
level  block length    blocks      kept  pointing
    0           192        15         6         9
    1            32        34        34         0
",
    );
}

/// A byte by its number is 0x35 or \x35; a digit is the character.
#[test]
fn digits_are_characters() {
    let folder = Folder::new("digits");
    folder.write("five.txt", b"A 55\x05\n");
    folder.run("build five.txt -q --leaf 4 --arity 2 --levels 1 --count 0x05,5").succeeds();
    for (byte, times) in [("5", 2), ("0x35", 2), ("\\x35", 2), ("0x05", 1), ("\\x05", 1)] {
        folder.run(&format!("count {byte} 6 five.tree")).succeeds().prints(&format!("{times} (1 block entered)\n"));
    }
    folder.run("find 5 2 five.tree").succeeds().prints("3 (1 block entered)\n");
}

#[test]
fn places() {
    let folder = Folder::with_tree("places");
    folder.run("places CH0502 small.tree").succeeds().prints("14\n574\n1134\n1694\n2254\n").says("");
    folder.run("places 4\\nHON1003 small.tree").succeeds().prints("418\n978\n1538\n2098\n2658\n");
    folder.run("places \\x43H0502\\x20 small.tree --unchecked").succeeds().prints("14\n574\n1134\n1694\n2254\n");
    folder.run("places CH9 small.tree").status(1).prints("").says("codebook: small.tree: 'CH9' does not occur\n");
    folder.pipe("places -- -", &folder.read("small.tree")).status(1).prints("").says("codebook: standard input: '-' does not occur\n");
    // more places than the first table has words
    folder.write("a.txt", &[b'A'; 5000]);
    folder.run("build a.txt -o a.tree --leaf 64 --arity 2 --levels 6").succeeds();
    let all: String = (0..4999).map(|place| format!("{place}\n")).collect();
    folder.run("places AA a.tree").succeeds().prints(&all);
}

#[test]
fn places_that_are_refused() {
    let folder = Folder::with_tree("refused-places");
    let bounds = "small.tree: places: refused (16): a pattern must have 1 to 256 bytes; this one has 257";
    folder.run(&format!("places {} small.tree", "C".repeat(257))).status(1).prints("").says(&format!("codebook: {bounds}\n"));
    folder.run(&format!("places {} small.tree", "C".repeat(256))).status(1).prints("");
    let mut tree = folder.read("small.tree");
    tree[104] = 2;
    folder.write("kind.tree", &tree);
    let path = "refused (14): the tree is damaged: the path to a byte breaks off, or a count is negative";
    folder.run("places CH0502 kind.tree --unchecked").status(1).prints("").says(&format!("codebook: kind.tree: places: {path}\n"));
    let usage = "usage: codebook places TEXT [TREE] [--json] [--unchecked] [--any-day] [--today DAY]";
    folder.run("places").status(2).says(&format!("codebook: TEXT is missing\n{usage}\n"));
    for (pattern, given) in [("CH\\", "\\"), ("CH\\q", "\\q"), ("\\x4", "\\x4"), ("\\x+4", "\\x+4"), ("\\xg0AB", "\\xg0")] {
        let escapes = format!("a backslash begins \\n, \\r, \\t, \\\\ or \\xHH, a byte in hexadecimal, not '{given}'");
        folder.run(&format!("places {pattern} small.tree")).status(2).prints("").says(&format!("codebook: {escapes}\n{usage}\n"));
    }
}

#[test]
fn matches() {
    let folder = Folder::with_tree("matches");
    let last = "row 159: HON1011 52161\nrow 160: HON1012 52162\nrow 199: HON1011 52161\nrow 200: HON1012 52162\n";
    for cuts in ["5216[1-5]", "5,2,1,6,1-5", "52161-2", "5,[2-2],1,6[1-2]"] {
        folder.run(&format!("match {cuts} small.tree --from 121")).succeeds().prints(last).says("");
    }
    folder.run("match 5216[1-5] small.tree --after 121").succeeds().prints("row 159: HON1011 52161\n");
    folder.run("match 5216[1-5] small.tree --after 159").succeeds().prints("row 160: HON1012 52162\n");
    folder.run("match 5216[1-5] small.tree --after 200").status(1).prints("").says("codebook: small.tree: no row matches\n");
    folder.run("match ????? small.tree --from 200 --unchecked").succeeds().prints("row 200: HON1012 52162\n");
    for none in ["9", "???", "44422[6-9]", "????? --from 201", "????? --from 4294967295"] {
        folder.run(&format!("match {none} small.tree")).status(1).prints("").says("codebook: small.tree: no row matches\n");
    }
    // the last row has no end byte, and a byte 13 at its end is no cut
    folder.write("open.txt", b"A 12\r\nB 12\nC 12\r");
    folder.run("build open.txt -o open.tree --leaf 4 --arity 2 --levels 2").succeeds();
    folder.run("match 1? open.tree").succeeds().prints("row 1: A 12\nrow 2: B 12\n");
}

#[test]
fn matches_that_are_refused() {
    let folder = Folder::with_tree("refused-matches");
    let (many, above) = ("a worn key has 1 to 10 cuts; this one has", "the low depth of a cut must not be above the high one, as 5-3 is");
    for (cuts, why) in [("12345678901", format!("{many} 11")), (",", format!("{many} 0")), ("4[5-3]", above.to_owned())] {
        let says = format!("codebook: small.tree: match: refused (19): {why}\n");
        folder.run(&format!("match {cuts} small.tree")).status(1).prints("").says(&says);
    }
    folder.run("build small.txt -o none.tree --leaf 16 --arity 4 --levels 2 --count none").succeeds();
    let uncounted = "refused (11): the tree does not count byte 10, which ends a row; build must count it";
    folder.run("match 444224 none.tree").status(1).says(&format!("codebook: none.tree: match: {uncounted}\n"));
    let usage = "usage: codebook match CUTS [TREE] [--from ROW] [--after ROW] [--json] [--unchecked] [--any-day] [--today DAY]";
    folder.run("match").status(2).says(&format!("codebook: CUTS is missing\n{usage}\n"));
    folder.run("match 1 --from 1 --after 1").status(2).says(&format!("codebook: --from cannot be used with --after\n{usage}\n"));
    for (cuts, rest) in [("44x", "x"), ("4[35]", "[35]"), ("3-", "-"), ("4[1-2", "[1-2")] {
        let says = format!("codebook: a cut is a depth from 0 to 9, a range such as [3-5], or ?, not '{rest}'\n{usage}\n");
        folder.run(&format!("match {cuts} small.tree")).status(2).prints("").says(&says);
    }
}

/// The book's rows all have 14 bytes.
#[test]
fn by_columns() {
    let folder = Folder::new("columns");
    let report = "\
small.txt, 200 rows of 14 bytes by columns: 2,800 bytes
leaf  arity  levels  tree's bytes
 256      2       1         8,840
  32      6       2        12,376
  32      5       2        12,652
  24      5       3        13,804
  16      5       4        15,660
  16      4       3        16,168
  12      4       4        16,444
  10      3       6        15,994
chosen: leaf 256, arity 2, levels 1, since its tree is the smallest of these 8
columns.tree: 8,840 bytes, 315.7 % of the text; leaf 256, arity 2, levels 1; bytes counted: 0x0a
";
    let compared = "by columns 8,840 bytes, by rows 5,680 (leaf 32, arity 6, levels 2): columns do not make it smaller\n";
    let built = folder.run("build small.txt -o columns.tree --columns auto --allow-larger");
    assert_eq!(before_digest(built.succeeds()), report);
    assert!(built.printed().ends_with(compared));
    folder.run("build small.txt -o given.tree --columns 14 --allow-larger").succeeds();
    assert_eq!(folder.read("columns.tree"), folder.read("given.tree"));
    let text = String::from_utf8(folder.read("small.txt")).expect("a text");
    for (at, row) in text.lines().enumerate().step_by(17) {
        folder.run(&format!("row {} --columns 14 columns.tree", at + 1)).succeeds().prints(&format!("{row}\n"));
    }
    folder.run("row .. --columns 14 columns.tree").succeeds().prints(&text);
    folder.run("row 3..2 --columns 14 columns.tree").status(2);
    folder.run("to-columns auto small.txt -o turned.txt").succeeds().prints("").says("");
    assert_eq!(folder.run("text columns.tree").output.stdout, folder.read("turned.txt"));
    assert_eq!(folder.run("from-columns 14 turned.txt").succeeds().output.stdout, folder.read("small.txt"));
    folder.pipe("to-columns 4", b"AB1\nAB2\nAC3\n").succeeds().prints("AAABBC123\n\n\n").says("");
    folder.pipe("to-columns 3", b"").succeeds().prints("");
    // a row's end is left out as row has it
    folder.write("ends.txt", b"AB\r\nA\r\r\nABC\n");
    folder.run("build ends.txt --columns 4 --leaf 4 --arity 2 --levels 1").succeeds();
    folder.run("row .. --columns 4 ends.tree").succeeds().prints("AB\nA\r\nABC\n");
}

/// Rows that all differ in a number, in columns that repeat.
#[test]
fn columns_that_make_it_smaller() {
    let folder = Folder::new("series");
    let series: Vec<String> = (0..300).map(|row| format!("SERIES-A {:05} 44444\n", row * 7919 % 100_000)).collect();
    folder.write("series.txt", series.concat().as_bytes());
    let report = folder.run("build series.txt -o series.tree --columns auto --leaf 16 --arity 4 --levels 3").succeeds().printed();
    assert!(
        report.starts_with("series.txt, 300 rows of 21 bytes by columns: 6,300 bytes\n") && report.ends_with(": columns make it smaller\n"),
        "{report}"
    );
    folder.run("row 300 --columns 21 series.tree").succeeds().prints(&series[299]);
}

#[test]
fn by_columns_that_is_refused() {
    let folder = Folder::new("refused-columns");
    folder.run("build small.txt -o columns.tree --columns 14 --leaf 16 --arity 4 --levels 3 --allow-larger").succeeds();
    let width = "refused (20): the width must be above 0 and divide the text's length";
    for given in [0, 13, 2801] {
        let says = format!("codebook: small.txt: {width}; given: {given}, of 2,800 bytes\n");
        folder.run(&format!("to-columns {given} small.txt")).status(1).prints("").says(&says);
        folder.run(&format!("build small.txt -o no.tree --columns {given}")).status(1).prints("").says(&says);
        let says = format!("codebook: columns.tree: row 1 --columns {given}: {width}, 2,800\n");
        folder.run(&format!("row 1 --columns {given} columns.tree")).status(1).prints("").says(&says);
    }
    let past = "refused (10): rows of 14 bytes go from 1 to 200";
    for row in ["0", "201", "199..201", "201.."] {
        folder
            .run(&format!("row {row} --columns 14 columns.tree"))
            .status(1)
            .prints("")
            .says(&format!("codebook: columns.tree: row {row} --columns 14: {past}\n"));
    }
    folder.write("uneven.txt", b"AB\nABC\n");
    let uneven = "codebook: uneven.txt: the rows do not all have one width: with its end row 1 has 3 bytes, row 2 has 4\n";
    folder.run("to-columns auto uneven.txt").status(1).prints("").says(uneven);
    folder.run("build uneven.txt -o no.tree --columns auto").status(1).prints("").says(uneven);
    let usage = "usage: codebook to-columns WIDTH [BOOK] [-o FILE] [-f] [--keep-time] [--json]";
    folder.run("to-columns").status(2).says(&format!("codebook: WIDTH is missing\n{usage}\n"));
    folder
        .run("to-columns wide small.txt")
        .status(2)
        .says(&format!("codebook: WIDTH is a number from 0 to 4294967295, or auto, not 'wide'\n{usage}\n"));
    folder.run("from-columns auto small.txt").status(2);
    assert!(!folder.0.join("no.tree").exists());
}

/// A guide is made and checked; finds and rows with it return the same.
#[test]
fn guides() {
    let folder = Folder::with_tree("guides");
    folder.run("guide make small.tree -o small.guide").succeeds().prints("small.tree: a guide of 4 entries to small.guide\n").says("");
    folder.run("guide check small.guide small.tree").succeeds().prints("small.tree: valid tree, and small.guide is its guide\n");
    assert_eq!(folder.run("guide make small.tree").output.stdout, folder.read("small.guide"));
    let row = "HON1012 52162\n";
    folder.run("row 120 small.tree --guide small.guide").succeeds().prints(row);
    folder.run("row 120 small.tree --guide=small.guide --unchecked").succeeds().prints(row);
    for number in [1, 64, 65, 200] {
        let plain = folder.run(&format!("find \\n {number} small.tree")).printed();
        let guided = folder.run(&format!("find \\n {number} small.tree --guide small.guide")).printed();
        assert!(guided.starts_with(plain.trim_end_matches(")\n")) && guided.ends_with(" on level 0)\n"), "{plain}{guided}");
    }
    // a guide with a word too many, of another tree, and none
    let wrong = "refused (24): this is no guide of this tree: it has too few or too many words, or an entry is wrong; it has 20 bytes, and the tree's guide 16";
    folder.write("wrong.guide", &[0; 20]);
    let says = format!("codebook: wrong.guide: {wrong}\n");
    folder.run("guide check wrong.guide small.tree").status(1).prints("").says(&says);
    for question in ["row 120", "find \\n 1"] {
        folder.run(&format!("{question} small.tree --guide wrong.guide")).status(1).prints("").says(&says);
    }
    folder.run("row 1 small.tree --guide none.guide").status(2);
    folder.run("guide make small.txt -o none.guide").status(1).prints("");
    folder.run("guide").status(2).says("codebook: make or check is missing; see codebook help guide\n");
    folder.run("guide small.tree").status(2).says("codebook: guide is followed by make or check, not 'small.tree'; see codebook help guide\n");
    assert_eq!(folder.run("guide --help").output.stdout, folder.run("help guide").output.stdout);
}

#[test]
fn every_row() {
    let folder = Folder::with_tree("rows");
    let text = String::from_utf8(folder.read("small.txt")).expect("a text");
    for (at, row) in text.lines().enumerate().step_by(7) {
        folder.run(&format!("row {} small.tree", at + 1)).succeeds().prints(&format!("{row}\n"));
    }
}

/// A book whose last row has no end byte.
#[test]
fn last_row_without_end() {
    let folder = Folder::new("open");
    folder.write("open.txt", b"CH1 12\nCH2 34");
    folder.run("build open.txt -o open.tree --leaf 4 --arity 2 --levels 2").succeeds();
    folder.run("row 1 open.tree").succeeds().prints("CH1 12\n");
    folder.run("row 2 open.tree").succeeds().prints("CH2 34\n");
    folder.run("row 3 open.tree").status(1).says("codebook: open.tree: row 3: refused (12): rows go from 1 to 2\n");
    let printed = folder.run("stats open.tree").succeeds().output.stdout.clone();
    assert!(String::from_utf8_lossy(&printed).contains("counted     10 '\\n': 1 times\nrows        2\n"));
}

/// A book whose rows end in bytes 13 and 10.
#[test]
fn rows_that_end_in_two_bytes() {
    let folder = Folder::new("seller");
    folder.write("seller.txt", b"CH1 12\r\nCH2 34\r\r\n\r\nCH3 56\r");
    folder.run("build seller.txt -o seller.tree --leaf 4 --arity 2 --levels 2").succeeds();
    let rows = ["CH1 12\n", "CH2 34\r\n", "\n", "CH3 56\r\n"];
    for first in 1..=4 {
        folder.run(&format!("row {first} seller.tree")).succeeds().prints(rows[first - 1]);
        for last in first..=4 {
            folder.run(&format!("row {first}..{last} seller.tree")).succeeds().prints(&rows[first - 1..last].concat());
        }
        folder.run(&format!("row {first}..5 seller.tree")).status(1).prints("");
    }
}

#[test]
fn trees_from_standard_input() {
    let folder = Folder::with_tree("stdin");
    let tree = folder.read("small.tree");
    folder.pipe("row 2", &tree).succeeds().prints("CH0502 444225\n");
    folder.pipe("row 2 -", &tree).succeeds().prints("CH0502 444225\n");
    assert!(folder.pipe("check", &tree).succeeds().printed().starts_with("standard input: valid tree of 2,800 bytes of text; SHA-256 of the tree "));
    folder
        .pipe("check", b"")
        .status(1)
        .says("codebook: standard input: refused (5): a tree has at least 100 bytes; this is no tree, or cut off; it has 0 bytes\n");
}

#[test]
fn refused_questions() {
    let folder = Folder::with_tree("refused");
    let refused = |words: &str, says: &str| {
        folder.run(words).status(1).prints("").says(&format!("codebook: small.tree: {says}\n"));
    };
    let past = "refused (10): this is past the end of the text; the text has 2,800 bytes";
    for row in ["0", "201", "0..3", "199..201", "201.."] {
        refused(&format!("row {row} small.tree"), &format!("row {row}: refused (12): rows go from 1 to 200"));
    }
    refused("find \\n 201 small.tree", "find 0x0a 201: refused (12): byte 10 occurs 200 times");
    refused("byte 2800 small.tree", "byte 2800: refused (10): places go from 0 to 2,799");
    refused("run 2800 small.tree", "run 2800: refused (10): places go from 0 to 2,799");
    refused("span 2799 2 small.tree", &format!("span 2799 2: {past}"));
    refused("span 4294967295 4294967295 small.tree", &format!("span 4294967295 4294967295: {past}"));
    refused("count 0x0a 2801 small.tree", &format!("count 0x0a 2801: {past}"));
    refused("count A 5 small.tree", "count A 5: refused (11): the tree does not count this byte; it counts: 0x0a");
    // a digit is a character
    refused("count 5 100 small.tree", "count 5 100: refused (11): the tree does not count this byte; it counts: 0x0a");
}

#[test]
fn damaged_trees() {
    let folder = Folder::with_tree("damaged");
    let tree = folder.read("small.tree");
    let damaged = |name: &str, at: usize, value: u32| {
        let mut tree = tree.clone();
        tree[at..at + 4].copy_from_slice(&value.to_le_bytes());
        folder.write(name, &tree);
    };
    damaged("kind.tree", 104, 2);
    let links = "refused (8): the blocks are not right: a start, kind, link or gap, or the number of blocks or leaf bytes";
    for words in ["check", "row 1", "byte 0", "text", "stats"] {
        folder.run(&format!("{words} kind.tree")).status(1).prints("").says(&format!("codebook: kind.tree: {links}\n"));
    }
    folder.run("list kind.tree").status(1).prints("refused 8\n").says(&format!("codebook: kind.tree: {links}\n"));
    let path = "refused (14): the tree is damaged: the path to a byte breaks off, or a count is negative";
    folder.run("byte 0 kind.tree --unchecked").status(1).says(&format!("codebook: kind.tree: byte 0: {path}\n"));
    folder.run("text kind.tree --unchecked").status(1).prints("").says(&format!("codebook: kind.tree: {path}\n"));
    damaged("count.tree", 120, 7);
    folder.run("check count.tree").status(1).says("codebook: count.tree: refused (9): a count or an edge in the tree is wrong\n");
    damaged("layout.tree", 0, 3);
    folder.run("row 1 layout.tree").status(1).says(
        "codebook: layout.tree: refused (6): the layout is neither 1 nor 2; this is no block tree, or one of another version; its layout is 3\n",
    );
    folder.write("cut.tree", &tree[..tree.len() - 1]);
    folder.run("check cut.tree").status(1).says(
        "codebook: cut.tree: refused (7): the header is not right: its settings, unused places or offsets, or the file is longer or shorter than it says; it has 5,679 bytes, and by its header 5,680\n",
    );
}

#[test]
fn texts_that_are_refused() {
    let folder = Folder::new("texts");
    let bounds = "refused (1): a text must have at most 8,388,608 bytes";
    folder.write("long.txt", &vec![b'A'; 8_388_609]);
    folder.run("build long.txt -o no.tree").status(1).says(&format!("codebook: long.txt: {bounds}; it has 8,388,609\n"));
    folder
        .run("build long.txt -o no.tree --leaf 256 --arity 16 --levels 3")
        .status(1)
        .says(&format!("codebook: long.txt: {bounds}; it has 8,388,609\n"));
    let settings =
        "refused (2): the leaf length must be 1 to 256, the arity 2 to 16, the levels 1 to 8, and leaf x arity^(levels-1) at most 8,388,608";
    folder
        .run("build small.txt -o no.tree --leaf 256 --arity 16 --levels 5")
        .status(1)
        .says(&format!("codebook: small.txt: {settings}; given: leaf 256, arity 16, levels 5\n"));
    let counted = "refused (3): at most 4 bytes can be counted, and each must be above the one before";
    folder.run("build small.txt -o no.tree --count 0x41,0x0a").status(1).says(&format!("codebook: small.txt: {counted}; given: A, 0x0a\n"));
    folder.run("build small.txt -o no.tree --count 1,2,3,4,5").status(1).says(&format!("codebook: small.txt: {counted}; given: 1, 2, 3, 4, 5\n"));
    assert!(!folder.0.join("no.tree").exists());
}

#[test]
fn book_without_rows() {
    let folder = Folder::new("empty");
    folder.write("empty.txt", b"");
    let built = folder.run("build empty.txt -o empty.tree --leaf 2 --arity 2 --levels 2");
    let sizes = "empty.txt: 0 bytes\nempty.tree: 100 bytes, an empty text; leaf 2, arity 2, levels 2; bytes counted: 0x0a\n";
    assert_eq!(before_digest(built.succeeds()), sizes);
    assert!(folder.run("check empty.tree").succeeds().printed().starts_with("empty.tree: valid tree of 0 bytes of text; "));
    folder.run("list empty.tree").succeeds().prints("0 0 0 0\n1 0 0 0\n");
    folder.run("text empty.tree").succeeds().prints("");
    folder.run("count \\n 0 empty.tree").succeeds().prints("0 (0 blocks entered)\n");
    folder.run("match 4 empty.tree").status(1).prints("").says("codebook: empty.tree: no row matches\n");
    folder.run("places A empty.tree").status(1).prints("").says("codebook: empty.tree: 'A' does not occur\n");
    folder.run("stats empty.tree").succeeds().prints(
        "empty.tree: 100 bytes, an empty text\ntext        0 bytes\nlayout      2, with edges, for short spans in one walk\nsettings    leaf 2, arity 2, levels 2\n\
         counted     10 '\\n': 0 times\nrows        0\nthe tree's bytes\n  header             100  100.0 %\n  records              0    0.0 %\n\
         \x20 edges                0    0.0 %\n  leaf bytes           0    0.0 %\nwithout edges 100 bytes, an empty text: codebook slim\nlevel  block length    blocks      kept  pointing\n    0             4         0         0         0\n    1             2         0         0         0\n",
    );
    folder.run("row 1 empty.tree").status(1).says("codebook: empty.tree: row 1: refused (12): the book has no rows\n");
    folder.run("row .. empty.tree").succeeds().prints("");
    folder.run("picture empty.tree -o empty.svg").succeeds();
    folder
        .run("byte 0 empty.tree")
        .status(1)
        .says("codebook: empty.tree: byte 0: refused (10): this is past the end of the text; the text has 0 bytes\n");
    // all of the short list: the header alone each time
    folder.pipe("build -o piped.tree", b"").succeeds();
    assert_eq!(folder.read("piped.tree").len(), 100);
}

/// On a terminal a long build shows its progress, and removes the line at its end.
#[test]
fn progress() {
    let folder = Folder::new("progress");
    folder.write("long.txt", &book(Kind::NearlyRandom, 8 << 20, 1));
    let start = std::time::Instant::now();
    let done = folder.shell("script -qec 'codebook build long.txt' /dev/null < /dev/null");
    let quick = start.elapsed() < std::time::Duration::from_millis(1500);
    if done.output.status.code() == Some(127) {
        println!("script is not installed: not tried");
        return;
    }
    let shown = done.succeeds().printed();
    let lines: Vec<&str> = shown.split('\r').filter(|line| line.starts_with("building: ")).collect();
    assert!(quick || lines.iter().any(|line| line.contains(" of 8 trees done, ") && line.contains(" s left")), "{shown}");
    folder.shell("script -qec 'codebook build -qf long.txt' /dev/null < /dev/null").succeeds().prints("");
}

#[test]
fn longest_book() {
    let folder = Folder::new("longest");
    let text = folder.read("small.txt").repeat(2996)[..8_388_608].to_vec();
    folder.write("long.txt", &text);
    folder.run("build long.txt -o long.tree --leaf 256 --arity 16 --levels 3").succeeds();
    folder.run("row 599000 long.tree").succeeds();
    let read = folder.run("text long.tree");
    read.succeeds();
    assert!(read.output.stdout == text);
    folder.pipe("build - -o one.tree --leaf 256 --arity 2 --levels 1", &text).succeeds();
    folder.run("list one.tree").status(1).prints("refused 15\n");
    folder.run("stats one.tree").succeeds();
}

#[test]
fn calls_that_are_not_right() {
    let folder = Folder::new("usage");
    let usage = |words: &str, says: &str| {
        folder.run(words).status(2).prints("").says(&format!("codebook: {says}\n"));
    };
    usage("", "no command given; see codebook --help");
    usage("--quiet stats x", "'--quiet' is before the command; options follow it; see codebook --help");
    usage("print small.tree", "there is no command 'print'; see codebook --help");
    let row = "usage: codebook row ROWS [TREE] [--guide GUIDE] [--columns W] [--json] [--unchecked] [--any-day] [--today DAY]";
    usage("row", &format!("ROWS is missing\n{row}"));
    usage("row one small.tree", &format!("ROWS is a row's number, or a range such as 5..20, not 'one'\n{row}"));
    usage("row 4294967296 x", &format!("ROWS is a row's number, or a range such as 5..20, not '4294967296'\n{row}"));
    usage("row -1 small.tree", &format!("rows go from 1; -1 is negative\n{row}"));
    usage("row 20..5 x", &format!("20..5: row 20 is after row 5\n{row}"));
    let byte = "usage: codebook byte PLACE [TREE] [--json] [--unchecked] [--any-day] [--today DAY]";
    usage("byte -14 x", &format!("PLACE is a number from 0 to 4294967295; -14 is negative\n{byte}"));
    usage("byte 1 a.tree b.tree", &format!("unexpected argument 'b.tree'\n{byte}"));
    usage(
        "check --all",
        "there is no option '--all'\nusage: codebook check [TREE]... [--sha256 HEX] [--text-sha256 HEX] [--sums] [-c LIST] [--json]",
    );
    usage(
        "check --json=1",
        "--json has no value; given: '1'\nusage: codebook check [TREE]... [--sha256 HEX] [--text-sha256 HEX] [--sums] [-c LIST] [--json]",
    );
    usage("text -x", "there is no option '-x'\nusage: codebook text [TREE] [--json] [--unchecked] [--any-day] [--today DAY]");
    let count = "usage: codebook count BYTE LENGTH [TREE] [--json] [--unchecked] [--any-day] [--today DAY]";
    let byte = "a byte is one character, 0x00 to 0xff, \\n, \\r, \\t, \\\\ or \\xHH";
    usage("count 256 4 x", &format!("{byte}, not '256'\n{count}"));
    usage("count 10 4 x", &format!("{byte}, not '10'; byte 10 is 0x0a\n{count}"));
    usage("count -1 4 x", &format!("{byte}, not '-1'\n{count}"));
    let build = "usage: codebook build [BOOK]... [-o FILE] [-f] [--keep-time] [--small] [--best] [--leaf M] [--arity R] [--levels H] [--count BYTES] [--columns W] [--allow-larger] [--maker NAME] [--edition NAME] [--first DAY] [--last DAY] [-j N] [--json]";
    usage("build small.txt -o", &format!("-o needs a value\n{build}"));
    usage("build --leaf 64", &format!("--leaf, --arity and --levels must be given together; without them a short list is tried\n{build}"));
    usage("build -o .", &format!("-o is a file where standard input is read\n{build}"));
    usage("check none.tree", "none.tree: cannot be read: No such file or directory (os error 2)");
    usage("build none.txt -o x", "none.txt: cannot be read: No such file or directory (os error 2)");
    usage("check .", ".: is a directory, not a file");
}

#[test]
fn orders() {
    let folder = Folder::with_tree("orders");
    folder.run("build small.txt -o other.tree --leaf 16 --arity 4 --levels 2 --count none").succeeds();
    let small = folder.read("small.txt");
    folder.write("short.txt", &small[..2000]);
    folder.run("build short.txt -o short.tree --leaf 8 --arity 2 --levels 3").succeeds();
    folder.write("late.txt", b"D");
    folder.run("build late.txt -o late.tree --leaf 1 --arity 2 --levels 1").succeeds();
    folder.write("near.txt", b"CI");
    folder.run("build near.txt -o near.tree --leaf 1 --arity 2 --levels 1").succeeds();
    folder.run("compare small.tree other.tree").succeeds().prints("small.tree has the same book as other.tree; 2,800 bytes shared\n").says("");
    folder.run("compare small.tree short.tree").succeeds().prints("small.tree comes after short.tree; 2,000 bytes shared\n");
    folder.run("compare small.tree near.tree").succeeds().prints("small.tree comes before near.tree; 1 byte shared\n");
    folder.run("compare late.tree small.tree --unchecked").succeeds().prints("late.tree comes after small.tree; 0 bytes shared\n");
    folder.pipe("compare - short.tree", &folder.read("small.tree")).succeeds().prints("standard input comes after short.tree; 2,000 bytes shared\n");
    folder
        .run("sort late.tree small.tree near.tree short.tree other.tree")
        .succeeds()
        .prints("short.tree\nsmall.tree\nother.tree\nnear.tree\nlate.tree\n")
        .says("");
    folder.write("empty.txt", b"");
    folder.run("build empty.txt -o empty.tree --leaf 1 --arity 2 --levels 1").succeeds();
    folder.run("compare empty.tree small.tree").succeeds().prints("empty.tree comes before small.tree; 0 bytes shared\n");
    folder.run("sort late.tree empty.tree small.tree").succeeds().prints("empty.tree\nsmall.tree\nlate.tree\n");
    folder.run("sort other.tree").succeeds().prints("other.tree\n");
}

#[test]
fn orders_that_are_refused() {
    let folder = Folder::with_tree("refused-orders");
    let mut damaged = folder.read("small.tree");
    damaged[104] = 2;
    folder.write("damaged.tree", &damaged);
    let links = "refused (8): the blocks are not right: a start, kind, link or gap, or the number of blocks or leaf bytes";
    for words in ["compare small.tree damaged.tree", "compare damaged.tree small.tree", "sort damaged.tree"] {
        folder.run(words).status(1).prints("").says(&format!("codebook: damaged.tree: {links}\n"));
    }
    folder.run("sort small.tree damaged.tree").status(1).prints("small.tree\n").says(&format!("codebook: damaged.tree: {links}\n"));
    let path = "refused (14): the tree is damaged: the path to a byte breaks off, or a count is negative";
    folder.run("compare small.tree damaged.tree --unchecked").status(1).says(&format!("codebook: small.tree and damaged.tree: {path}\n"));
    let usage = "usage: codebook compare ONE OTHER [--json] [--unchecked]";
    folder.run("compare small.tree").status(2).says(&format!("codebook: OTHER is missing\n{usage}\n"));
    folder.run("compare a b c").status(2).says(&format!("codebook: unexpected argument 'c'\n{usage}\n"));
    folder.run("sort").status(2).says("codebook: TREE is missing\nusage: codebook sort TREE... [--json]\n");
    folder.run("sort --unchecked small.tree").status(2).says("codebook: there is no option '--unchecked'\nusage: codebook sort TREE... [--json]\n");
    folder.run("sort none.tree").status(2).says("codebook: none.tree: cannot be read: No such file or directory (os error 2)\n");
}

#[test]
fn help() {
    let folder = Folder::new("help");
    let overview = folder.run("--help");
    overview.succeeds().says("");
    let text = overview.printed();
    let commands: Vec<&str> = text.lines().filter(|line| line.starts_with("  ")).map(|line| line[2..17].trim_end()).collect();
    assert_eq!(commands.len(), 35);
    for command in commands {
        let help = folder.run(&format!("{command} --help"));
        help.succeeds().says("");
        assert!(help.printed().replace('\n', " ").starts_with(&format!("codebook {command} ")), "{command}");
        assert_eq!(folder.run(&format!("help {command}")).output.stdout, help.output.stdout);
    }
    let version = folder.run("--version").succeeds().printed();
    assert!(version.starts_with("codebook ") && version.ends_with("\nblock trees: builds layout 2, and layout 1 with --small; reads both\n"));
    assert_eq!((folder.run("-V").printed(), folder.run("version").printed()), (version.clone(), version));
}

#[test]
fn help_names_the_short_list() {
    let help = Folder::new("list").run("build --help").output.stdout;
    for (leaf, arity, levels) in codebook::SHORT_LIST.into_iter().chain(codebook::SMALL_LIST) {
        assert!(String::from_utf8_lossy(&help).contains(&format!("{leaf}/{arity}/{levels}")));
    }
}

/// Licence dates: no file is read, and today is always given here.
#[test]
fn licences() {
    let folder = Folder::new("licences");
    let prints = |words: &str, line: &str| {
        folder.run(&format!("licence {words}")).succeeds().prints(&format!("{line}\n")).says("");
    };
    prints("open 20240101 20241231 20240101", "open, 365 days left");
    prints("open 20240101 20241231 20241230", "open, 1 day left");
    prints("open 20240101 20241231 20241231", "open, 0 days left");
    for (today, line) in [("20250101", "closed, 1 day past\n"), ("20231231", "closed: it opens on 20240101\n")] {
        folder.run(&format!("licence open 20240101 20241231 {today}")).status(1).prints(line).says("");
    }
    prints("left 20240301 20240228", "2");
    prints("left 20191231 20300101", "-3654");
    prints("left 20240229 20240229", "0");
    prints("renew 20240229", "20250228");
    prints("renew 20230228", "20240228");
    let refused = |words: &str, says: &str| {
        folder.run(&format!("licence {words}")).status(1).prints("").says(&format!("codebook: licence: refused {says}\n"));
    };
    let date = "(22): a day is eight digits, year, month and day, from 20000101 to 20991231, and a renewal does not pass 2099; given: ";
    refused("left 20010229 20240101", &format!("{date}'20010229'"));
    refused("open 20240102 20240101 2024010", &format!("{date}'2024010'"));
    refused("renew 20991231", &format!("{date}20991231"));
    refused("open 20240102 20240101 20240101", "(23): the last day is before the first; given: 20240102 20240101 20240101");
    let (open, left) = ("usage: codebook licence open FIRST LAST [TODAY] [--json]", "usage: codebook licence left LAST [TODAY] [--json]");
    let renew = "usage: codebook licence renew DAY [--json]";
    for (words, says) in [
        ("", "open, left or renew is missing; see codebook help licence".to_owned()),
        ("close 20240101", "licence is followed by open, left or renew, not 'close'; see codebook help licence".to_owned()),
        ("open 20240101", format!("LAST is missing\n{open}")),
        ("renew", format!("DAY is missing\n{renew}")),
        ("renew 20240101 20240101", format!("unexpected argument '20240101'\n{renew}")),
        ("left 20240101 20240101 x", format!("unexpected argument 'x'\n{left}")),
        ("left 20240101 --unchecked", format!("there is no option '--unchecked'\n{left}")),
    ] {
        folder.run(&format!("licence {words}")).status(2).prints("").says(&format!("codebook: {says}\n"));
    }
}
