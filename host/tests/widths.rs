//! Books by columns: a wrong width is refused, and no tree is written that is larger than the one by rows.

#[path = "support/folder.rs"]
mod folder;

use folder::Folder;

/// The book's rows have 14 bytes; each other width that divides the text's length would give 1 to 2,800 rows that are no keys of the book.
#[test]
fn wrong_widths_are_refused() {
    let folder = Folder::new("wrong-widths");
    for counted in ["\\n", "none"] {
        folder.run(&format!("build small.txt -f -q -o columns.tree --columns 14 --allow-larger --count {counted}")).succeeds();
        folder.run("row 120 --columns 14 columns.tree").succeeds().prints("HON1012 52162\n");
        for width in (1..=2800).filter(|width| 2800 % width == 0 && *width != 14) {
            let rows = if width == 1 { "1 byte".to_owned() } else { format!("{} bytes", folder::grouped(width)) };
            let why = format!("this is no book by columns, of rows of {rows}: byte 10, which ends a row, is not the last column alone");
            let says = format!("{why}; its 200 occurrences would end rows of 14 bytes\n");
            let done = folder.run(&format!("row 1 --columns {width} columns.tree"));
            done.status(1).prints("").says(&format!("codebook: columns.tree: row 1 --columns {width}: {says}"));
        }
        // a tree by rows is no tree by columns
        folder.run(&format!("build small.txt -f -q -o rows.tree --count {counted}")).succeeds();
        folder.run("row 1 --columns 14 rows.tree").status(1).prints("");
    }
    folder.run("to-columns 14 small.txt -o turned.txt").succeeds();
    folder.run("from-columns 14 turned.txt -o back.txt").succeeds();
    assert_eq!(folder.read("back.txt"), folder.read("small.txt"));
    for width in [1, 7, 28, 2800] {
        let done = folder.run(&format!("from-columns {width} turned.txt"));
        assert!(done.status(1).errors().ends_with("; its 200 occurrences would end rows of 14 bytes\n"), "{}", done.errors());
        done.prints("");
    }
}

/// A book whose rows do not have the width that is given is not rearranged.
#[test]
fn books_of_another_width() {
    let folder = Folder::new("other-widths");
    for (text, width, why) in [
        ("AB 1\nAB 2\n", 10, "these are not rows of 10 bytes: row 1 has 5 bytes, its end included"),
        ("AB 12\nA 1\nA 1\nAB 12\n", 4, "these are not rows of 4 bytes: row 1 does not end in byte 10"),
        ("AB 1\nAB 2\nAB 34", 5, "these are not rows of 5 bytes: row 3 does not end in byte 10"),
        ("AB 1", 2, "these are not rows of 2 bytes: row 1 does not end in byte 10"),
    ] {
        folder.write("book.txt", text.as_bytes());
        for words in [format!("to-columns {width} book.txt"), format!("build book.txt -o no.tree --columns {width}")] {
            folder.run(&words).status(1).prints("").says(&format!("codebook: book.txt: {why}\n"));
        }
    }
    for (text, why) in [
        ("AB\nAB", "the rows do not all have one width: with its end row 1 has 3 bytes, row 2 has 2"),
        ("A", "the last row does not end in byte 10"),
        ("", "the book has no rows, and so no width"),
    ] {
        folder.write("book.txt", text.as_bytes());
        folder.run("build book.txt -o no.tree --columns auto").status(1).prints("").says(&format!("codebook: book.txt: {why}\n"));
    }
    assert!(!folder.0.join("no.tree").exists());
}

/// The book lists whole series again, so that its tree by rows is the smaller one.
#[test]
fn no_larger_tree_by_columns() {
    let folder = Folder::new("larger");
    let compared = "by columns 8,840 bytes, by rows 5,680 (leaf 32, arity 6, levels 2): columns do not make it smaller";
    let says = format!("codebook: small.txt: {compared}; it is not written; --allow-larger writes it\n");
    folder.run("build small.txt --columns auto").status(1).prints("").says(&says);
    assert_eq!(folder.names(), ["small.txt"]);
    // the option does not apply to a tree by rows
    let done = folder.run("build small.txt --allow-larger");
    assert!(done.status(2).errors().starts_with("codebook: --allow-larger can only be used with --columns\nusage: "), "{}", done.errors());
    assert_eq!(folder.names(), ["small.txt"]);
    let done = folder.run("build small.txt --columns auto --allow-larger");
    assert!(done.succeeds().printed().ends_with(&format!("{compared}\n")));
    assert_eq!(folder.read("small.tree").len(), 8840);
}
