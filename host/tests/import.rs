//! `import`: tables as spreadsheets and databases write them, to rows of code, space, cuts.

#[path = "support/folder.rs"]
mod folder;

use folder::{Done, Folder};

const BOOK: &str = "CH0501 444224\nCH0502 444225\n";

fn import(folder: &Folder, words: &str, table: &[u8]) -> Done {
    folder.pipe(&format!("import {words}"), table)
}

/// The same two rows in different forms.
#[test]
fn one_book_from_many_tables() {
    let folder = Folder::new("import-forms");
    let wide = |text: &str, unit: fn(u16) -> [u8; 2]| text.encode_utf16().flat_map(unit).collect::<Vec<u8>>();
    let plain = "CH0501,444224\nCH0502,444225\n";
    let tables: [Vec<u8>; 12] = [
        plain.into(),
        plain.replace(',', "\t").into(),
        plain.replace(',', ";").replace('\n', "\r\n").into(),
        plain.replace(',', " ").into(),
        plain.replace('\n', "\r").into(),
        format!("\u{feff}{plain}").into(),
        "CH0501;4-4-4-2-2-4\n\n;\nCH0502; 4 4 4 2 2 5".into(),
        "\"CH0501\",\"4-4-4-2-2-4\"\n\"CH0502\",\"444225\"\n".into(),
        wide(&format!("\u{feff}Code\tCuts\r\n{}", plain.replace(',', "\t")), u16::to_le_bytes),
        wide(&format!("\u{feff}{plain}"), u16::to_be_bytes),
        wide(plain, u16::to_le_bytes),
        "Edition 3 of the list\n\nMaker;CODE;Note;cuts\nChicago;CH0501;\"found;\nagain\";444224\nChicago;CH0502;;444225\n".into(),
    ];
    for table in tables {
        let done = import(&folder, "-q", &table);
        done.succeeds().prints(BOOK).says("");
    }
    import(&folder, "", b"").succeeds().prints("");
}

/// Columns by number or by name; a table of more than two columns that names none is not guessed at.
#[test]
fn columns_are_named() {
    let folder = Folder::new("import-columns");
    let table = "Nr;Key;Depths\n1;CH0501;444224\n2;CH0502;444225\n".as_bytes();
    let done = import(&folder, "", table);
    done.status(2).prints("").says(
        "codebook: standard input: no header line names the columns; give --code and --cuts, by number or by name; \
         the first line has: 'Nr', 'Key', 'Depths'\n",
    );
    import(&folder, "-q --code key --cuts Depths", table).succeeds().prints(BOOK);
    import(&folder, "-q --code 2 --cuts=3", table).succeeds().prints(BOOK);
    import(&folder, "-q --code 2 --cuts Depths --separator ;", table).succeeds().prints(BOOK);
    import(&folder, "--code other --cuts Depths", table).status(2);
    import(&folder, "--code 0 --cuts 2", table).status(2);
    // another separator
    import(&folder, "-q --separator |", b"CH0501|444224\nCH0502|444225\n").succeeds().prints(BOOK);
    let pages = import(&folder, "--code 2 --cuts 3", table);
    pages.succeeds().says(
        "codebook: standard input:1: header line: 'Nr', 'Key', 'Depths'\n\
         standard input: 2 rows to standard output; code from column 2, cuts from column 3, separated by semicolons; 1 header line, 0 lines dropped\n",
    );
}

const MIXED: &[u8] =
    b"Code;Cuts\nCH0501;444224\nCH 502;444225\nCH0503;4-10-2\n;444\nCH0505\nABCDEFGHIJKLM;1\nCH0507;12345678901\n\"CH0508;1\nCH0502;444225\n";

const DROPPED: &str = "\
codebook: table.csv:3: dropped: its code 'CH 502' has a space in it
codebook: table.csv:4: dropped: its cuts '4-10-2' have the cut 10, and a cut is one digit
codebook: table.csv:5: dropped: it has no code
codebook: table.csv:6: dropped: it has no column 2
codebook: table.csv:7: dropped: its code 'ABCDEFGHIJKLM' has 13 bytes, and a code at most 12
codebook: table.csv:8: dropped: it has 11 cuts, and a row at most 10
codebook: table.csv:9: dropped: its quotes are not those of a field
";

/// A line that is not read is listed with its number and the reason, and changes the status; the others are read.
#[test]
fn what_is_dropped_is_listed() {
    let folder = Folder::new("import-dropped");
    folder.write("table.csv", MIXED);
    folder.run("import table.csv -q").status(1).prints(BOOK).says(DROPPED);
    folder.run("import table.csv -q --lenient").succeeds().prints(BOOK).says(DROPPED);
    let done = folder.run("import table.csv -o book.txt");
    let summary = "table.csv: 2 rows to book.txt; code from column 1, cuts from column 2, separated by semicolons; 1 header line, 7 lines dropped\n";
    done.status(1).prints(summary).says(&format!("codebook: table.csv:1: header line: 'Code', 'Cuts'\n{DROPPED}"));
    assert_eq!(folder.read("book.txt"), BOOK.as_bytes());
    // an existing book is not replaced, nor is one replaced by an empty book
    folder.run("import table.csv -o book.txt").status(2).prints("").says("codebook: book.txt: exists; --force overwrites it\n");
    folder.write("none.csv", b"Code;Cuts\nCH0501;4x\n");
    let done = folder.run("import none.csv -o book.txt --force --lenient");
    done.status(1).says(
        "codebook: none.csv:1: header line: 'Code', 'Cuts'\n\
         codebook: none.csv:2: dropped: its cuts '4x' are not digits\n\
         codebook: none.csv: no line has a code and cuts; nothing is written\n",
    );
    assert_eq!(folder.read("book.txt"), BOOK.as_bytes());
    folder.write("odd.csv", b"\xFF\xFEA");
    folder.run("import odd.csv").status(2).prints("").says("codebook: odd.csv: is UTF-16, and ends in the middle of a character\n");
    // an invalid UTF-16 character is not part of a code
    let unpaired: Vec<u8> = [0xFEFF, 0xD800, 0x3B, 0x31, 0x0A].into_iter().flat_map(u16::to_le_bytes).collect();
    let done = import(&folder, "-q", &[unpaired, "A;1\n".encode_utf16().flat_map(u16::to_le_bytes).collect()].concat());
    done.status(1).prints("A 1\n");
    assert!(done.errors().starts_with("codebook: standard input:1: dropped: its code '\\xef\\xbf\\xbd' has "), "{}", done.errors());
}

/// An imported book is built and read like any other.
#[test]
fn from_a_table_to_a_row() {
    let folder = Folder::new("import-tree");
    folder.write("table.csv", MIXED);
    let done = folder.shell("codebook import -q --lenient table.csv 2> dropped | codebook build -q -o table.tree && codebook row 2 table.tree");
    done.succeeds().prints("CH0502 444225\n");
}
