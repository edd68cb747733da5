//! The manual page, in the form of man(7).

use crate::help::{capital, ENDING, LAYOUTS};
use crate::table::{Command, Opt, COMMANDS, COMMON};

const HEAD: &str = "\
.SH NAME
codebook \\- build, check and read block trees of code books
.SH SYNOPSIS
.B codebook
.I COMMAND
.RI [ word ]...
.RI [ option ]...
.SH DESCRIPTION
A block tree stores long repeats of a text once and is read without unpacking it.
.B codebook
builds the trees of code books, checks trees from anyone, and reads from them, with a library in which every function is proved.
";

const TAIL: &str = "\
.SH EXAMPLES
.nf
codebook build book.txt                     # book.tree, its SHA\\-256 and that of its text
codebook check \\-\\-text\\-sha256 HEX book.tree # is it a valid tree, and of that text?
codebook row 5..20 book.tree
codebook match '4[3\\-5]22[1\\-3]' book.tree    # rows with cuts 4, 3 to 5, 2, 2, 1 to 3
codebook picture book.tree \\-o book.svg
.fi
.SH FILES
A tree's file ends in
.BR .tree ,
a guide's in
.BR .guide .
A new file is written without a name, or with a hidden one, in the same folder, and gets its name when it is complete and stored. So an interrupt or a full disk leaves an older file as it was. It has the permissions of the file that it is made from, never wider ones.
.SH ENVIRONMENT
.TP
.B CODEBOOK_NAMED
If set, files are written with a hidden name, as on file systems that have no files without a name.
.SH NOTES
A tree with one leaf byte changed, and its edges with it, is a valid tree of another text, and gives a wrong key. Keep the SHA-256 of the text that
.B build
prints, apart from the tree, and give it to
.BR \"check \\-\\-text\\-sha256\" ;
or compare the tree with its book by
.BR verify .
A digest is only as trustworthy as its source.
";

/// All of codebook.1.
pub fn page() -> String {
    let common: String = COMMON.iter().copied().map(option).collect();
    let mut page = format!(".TH CODEBOOK 1 \"\" \"codebook {}\" \"User Commands\"\n{HEAD}", env!("CARGO_PKG_VERSION"));
    page += &format!(
        ".SH OPTIONS\nOf every command:\n{common}.PP\nThe options of one command are listed with it. A word after \\-\\- is not an option.\n.SH COMMANDS\n"
    );
    for command in &COMMANDS {
        page += &section(command);
    }
    page + &format!("{TAIL}.SH EXIT STATUS\n{}\n.SH FORMAT\n{}.\n", plain(ENDING), plain(&capital(LAYOUTS)))
}

fn section(command: &Command) -> String {
    let mut section = format!(".SS \"{}\"\n{}.\n.PP\n", plain(&command.usage()), plain(&capital(command.summary)));
    for paragraph in command.details.lines() {
        section += &format!("{}\n.PP\n", plain(paragraph));
    }
    section + &command.options.iter().copied().map(option).collect::<String>()
}

fn option(option: &Opt) -> String {
    format!(".TP\n.B {}\n{}\n", plain(&option.forms()), plain(option.help))
}

/// Words with the bytes that have a meaning in a manual page escaped.
fn plain(words: &str) -> String {
    let words = words.replace('\\', "\\e").replace('-', "\\-").replace('"', "\\(dq");
    if words.starts_with(['.', '\'']) {
        return format!("\\&{words}");
    }
    words
}
