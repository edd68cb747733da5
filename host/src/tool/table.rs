//! The one table of commands and options: calls are read by it, and help, the manual page and the completions are printed from it.

use crate::{
    build, by_columns, check, code, diff, digest, given::Given, guide, help, import, licence, page, picture, questions, slim, sort, stats, Failure,
};

/// What the commands on licences share.
macro_rules! licence_days {
    ($words:literal) => {
        concat!(
            $words,
            " A day is eight digits, year, month and day, as 20240229, from 20000101 to 20991231. Without TODAY the clock's day in universal time is used. No tree is read."
        )
    };
}

/// An option.
#[derive(Debug)]
pub struct Opt {
    pub long: &'static str,
    pub short: Option<char>,
    /// The name of its value; None for a flag.
    pub value: Option<&'static str>,
    /// The value is a file.
    pub file: bool,
    pub help: &'static str,
}

/// How often a word may be given.
#[derive(Clone, Copy, Debug, PartialEq, Eq)]
pub enum Due {
    Once,
    AtMostOnce,
    AnyTimes,
    AtLeastOnce,
}

/// A word of a call that is no option.
#[derive(Debug)]
pub struct Word {
    pub name: &'static str,
    pub due: Due,
}

/// A command; those of a group have two words in their name.
pub struct Command {
    pub name: &'static str,
    pub words: &'static [Word],
    pub options: &'static [&'static Opt],
    pub summary: &'static str,
    pub details: &'static str,
    pub run: fn(&Given) -> Result<(), Failure>,
}

const fn flag(long: &'static str, short: Option<char>, help: &'static str) -> Opt {
    Opt { long, short, value: None, file: false, help }
}

const fn valued(long: &'static str, value: &'static str, help: &'static str) -> Opt {
    Opt { long, short: None, value: Some(value), file: false, help }
}

pub static HELP: Opt = flag("--help", Some('h'), "print help");
pub static QUIET: Opt = flag("--quiet", Some('q'), "print no report, warning or progress; answers and errors are still printed");
pub static JSON: Opt = flag("--json", None, "print one JSON object a line; docs/JSON.md describes them");
pub static OUTPUT: Opt = Opt { long: "--output", short: Some('o'), value: Some("FILE"), file: true, help: "the file to write; - is standard output" };
pub static FORCE: Opt = flag("--force", Some('f'), "overwrite a file that exists");
pub static KEEP_TIME: Opt = flag("--keep-time", None, "give the file the times of the one that is read");
pub static LEAF: Opt = valued("--leaf", "M", "bytes of a block of the last level, 1 to 256");
pub static ARITY: Opt = valued("--arity", "R", "children of a block, 2 to 16");
pub static LEVELS: Opt = valued("--levels", "H", concat!("levels, 1 to 8; M x R^(H-1) is at most ", codebook::longest!()));
pub static COUNT: Opt = valued(
    "--count",
    "BYTES",
    "the bytes to count and find: at most 4, in rising order, separated by commas, as \\n,A or 0x0a,0x41; or none. Otherwise \\n, which ends a row",
);
pub static COLUMNS: Opt =
    valued("--columns", "W", "store rows of W bytes, end byte included, by columns; auto finds the width if all rows have the same one");
pub static ALLOW_LARGER: Opt = flag("--allow-larger", None, "write the tree by columns even if the tree by rows is smaller");
pub static ROW_COLUMNS: Opt = valued("--columns", "W", "the tree's text is a book by columns, with rows of W bytes, end byte included");
pub static SMALL: Opt = flag("--small", None, "build a tree without edges (layout 1): smaller; spans of nearly a leaf length take longer");
pub static BEST: Opt = flag("--best", None, "search further from the best settings of the list: a smaller tree in about ten times the time");
pub static JOBS: Opt = Opt {
    long: "--jobs",
    short: Some('j'),
    value: Some("N"),
    file: false,
    help: "build with N threads at a time; otherwise as many as there are processors",
};
pub static MAKER: Opt = valued("--maker", "NAME", "write a manifest: who made the book");
pub static EDITION: Opt = valued("--edition", "NAME", "write a manifest: the book's edition");
pub static FIRST: Opt = valued("--first", "DAY", "write a manifest: the first day of the licence, as 2024-02-29; with --last");
pub static LAST: Opt = valued("--last", "DAY", "write a manifest: the last day of the licence, on which the book is still open");
pub static ANY_DAY: Opt = flag("--any-day", None, "answer even if the book's licence is not open today or its manifest is malformed");
pub static TODAY: Opt = valued("--today", "DAY", "use this day as today, as 2024-02-29; otherwise the clock's day in universal time");
pub static SUMS: Opt = flag("--sums", None, "print for each tree a line in the form of sha256sum, which sha256sum -c reads");
pub static LIST: Opt = Opt {
    long: "--list",
    short: Some('c'),
    value: Some("LIST"),
    file: true,
    help: "check the trees that LIST names, lines in the form of sha256sum; each must have its SHA-256",
};
pub static SHA256: Opt = valued("--sha256", "HEX", "the SHA-256 that the tree must have");
pub static TEXT_SHA256: Opt = valued("--text-sha256", "HEX", "the SHA-256 that the tree's text must have");
pub static GUIDE: Opt = Opt {
    long: "--guide",
    short: None,
    value: Some("GUIDE"),
    file: true,
    help: "the tree's guide, made by guide make: start at its entry, not at the first block",
};
pub static MODULE: Opt = Opt {
    long: "--module",
    short: None,
    value: Some("FILE"),
    file: true,
    help: "the library's WebAssembly module, made by targets/make wasm32; otherwise the one that the tool was built with",
};
pub static FROM: Opt = valued("--from", "ROW", "start at this row; rows are numbered from 1");
pub static AFTER: Opt = valued("--after", "ROW", "print only the next match after this row; 0 is before the first row");
pub static PREFIX: Opt = flag("--prefix", None, "CODE is a prefix of a row, not a whole code");
pub static UNCHECKED: Opt = flag("--unchecked", None, "do not check the tree first; on a tree that the check refuses the answer can be wrong");
pub static CODE: Opt = valued("--code", "COLUMN", "the column of the codes: its number, from 1, or its name in the header line; otherwise code");
pub static CUTS: Opt = valued("--cuts", "COLUMN", "the column of the cuts, in the same way; otherwise cuts");
pub static SEPARATOR: Opt =
    valued("--separator", "BYTE", "the byte that separates columns, as ';' or '\\t'; otherwise the first tab, semicolon or comma");
pub static LENIENT: Opt = flag("--lenient", None, "status 0 even if lines are dropped");

/// Options of every command.
pub static COMMON: [&Opt; 2] = [&QUIET, &HELP];

const fn one(name: &'static str) -> Word {
    Word { name, due: Due::Once }
}

const fn maybe(name: &'static str) -> Word {
    Word { name, due: Due::AtMostOnce }
}

const fn any(name: &'static str) -> Word {
    Word { name, due: Due::AnyTimes }
}

static TREE: [Word; 1] = [maybe("TREE")];
static TREES: [Word; 1] = [any("TREE")];

pub static COMMANDS: [Command; 35] = [
    Command {
        name: "build",
        words: &[any("BOOK")],
        options: &[&OUTPUT, &FORCE, &KEEP_TIME, &SMALL, &BEST, &LEAF, &ARITY, &LEVELS, &COUNT, &COLUMNS, &ALLOW_LARGER, &MAKER, &EDITION, &FIRST, &LAST, &JOBS, &JSON],
        summary: "build the trees of books",
        details: concat!(
            "A BOOK is any text of up to ",
            codebook::longest!(),
            " bytes. Its tree goes to FILE, or into it if FILE is a folder; without -o to a file with the book's name, in which .tree replaces .txt or .csv or follows any other ending. The tree of standard input goes to standard output. \
             An existing file is replaced only with --force, and then whole or not at all. The tree gets the permissions of its book, never wider ones.\n\
             Without settings a short list is tried (256/2/1, 32/6/2, 32/5/2, 24/5/3, 16/5/4, 16/4/3, 12/4/4 and 10/3/6 as leaf/arity/levels), the smallest tree is kept, and what each gave is printed. \
             With --small the tree has no edges, and the list is that of such trees (256/2/1, 192/2/2, 128/2/4, 96/2/2, 80/2/4, 64/2/2, 64/2/4 and 64/2/5). With --best the search continues from the smallest tree: settings that differ a little in one number are tried, as long as one of them makes the tree smaller. \
             The SHA-256 of the tree and of its text are printed: publish them with the book, or keep them apart from the tree, for check to compare.\n\
             Warnings report rows that are not code, space, cuts; a byte order mark; a book without rows; a tree that is no smaller than its text, and the size with --small if that is smaller.\n\
             With --columns the tree is that of the book by columns: all rows have W bytes, and byte 10 is the last byte of each and occurs nowhere else. If the tree by rows is smaller, nothing is written, unless --allow-larger is given. row --columns reads such a tree. The tree does not contain the information that its text is rearranged; its manifest does.\n\
             Several books are built N at a time (-j N), and written and reported in the order given. A table with the sums follows, and each kind of warning once. A book that fails does not stop the others.\n\
             With --maker, --edition, or --first and --last, a manifest is written beside each tree, TREE.json: the values of these options, the tree's settings, and the lengths and SHA-256 of the tree and of its text. check compares the tree with it; questions refuse a book whose licence is not open today. \
             The manifest gets its name just before the tree does, so that no tree is without it. If an existing manifest does not describe the new tree, the tree is not written."
        ),
        run: build::build,
    },
    Command {
        name: "slim",
        words: &TREES,
        options: &[&OUTPUT, &FORCE, &KEEP_TIME, &JSON],
        summary: "write trees without their edges",
        details: "Checks each TREE and writes it in layout 1, without its edges: the same tree of the same text, never larger. It goes to FILE, or into it if FILE is a folder; without -o to a file with the tree's name, in which .small.tree replaces .tree or follows any other ending. TREE is never overwritten, and the new file gets its permissions, never wider ones. The tree of standard input goes to standard output. \
                  Every question has the same answer; spans of nearly a leaf length take longer. A TREE without edges is copied. \
                  If a manifest TREE.json describes the tree, the new tree gets one with the same maker, edition, licence and columns, and its own figures; a guide and other members are not copied.",
        run: slim::slim,
    },
    Command {
        name: "import",
        words: &[maybe("FILE")],
        options: &[&OUTPUT, &FORCE, &KEEP_TIME, &CODE, &CUTS, &SEPARATOR, &LENIENT, &JSON],
        summary: "make a book from a CSV or TAB file",
        details: "Each line of FILE becomes a row of code, space, cuts. Columns are separated by tabs, semicolons or commas, and may be quoted; in a file without any of these, spaces separate the cuts from the code. \
                  Byte order marks, UTF-16, line ends of any kind, blank lines and header lines are recognised. A header line names the columns code and cuts, or the options do; a file of two columns needs neither.\n\
                  Cuts are written 442231, 4-4-2-2-3-1 or 4 4 2 2 3 1. Nothing is guessed: a line whose code is not 1 to 12 bytes other than space, or whose cuts are not 1 to 10 digits, is dropped and listed with its number and the reason, and the status is 1. \
                  Without -o the book goes to standard output; a file gets the permissions of FILE, never wider ones.",
        run: import::import,
    },
    Command {
        name: "check",
        words: &TREES,
        options: &[&SHA256, &TEXT_SHA256, &SUMS, &LIST, &JSON],
        summary: "check whether files are valid trees",
        details: "A valid tree represents exactly one text, and its counts and edges are right. Prints the SHA-256 of the tree and of its text. \
                  A tree with one leaf byte changed, and its edges with it, is a valid tree of another book, and gives a wrong key. So compare the text with the digest that the maker of the book published (--text-sha256), or the file with the digest of the tree (--sha256). \
                  A digest is only as trustworthy as its source: one that came with the tree shows nothing.\n\
                  If there is a manifest TREE.json, the tree must have all its figures, and a guide that it names must be the tree's. \
                  With --sums a line is printed for each tree, as sha256sum prints it for the file; -c LIST checks the trees of such a list, from codebook or from sha256sum. Names are relative to the current folder, as with sha256sum -c; a line of another form is refused.",
        run: check::check,
    },
    Command {
        name: "verify",
        words: &[one("BOOK"), one("TREE"), any("BOOK TREE")],
        options: &[&COLUMNS, &JSON],
        summary: "compare trees with their books",
        details: "Checks that TREE is a valid tree of the text BOOK, and prints whether it is the tree that build makes, byte for byte. If TREE has another text, prints the first byte that differs.",
        run: check::verify,
    },
    Command {
        name: "digest",
        words: &TREES,
        options: &[&JSON, &UNCHECKED],
        summary: "print the SHA-256 of trees' texts",
        details: "One line for each tree, as sha256sum prints it: the SHA-256 of the tree's text, two spaces, the tree's name. It is the digest that sha256sum prints for the book.",
        run: digest::digest,
    },
    Command {
        name: "diff",
        words: &[one("ONE"), one("OTHER")],
        options: &[&JSON, &ANY_DAY, &TODAY],
        summary: "print the rows that differ between two books or trees",
        details: "Rows are compared by code, the bytes before the first space: a row is removed, added, or changed (the same code with other cuts). The order of rows does not matter, and a code may have several rows. ONE and OTHER are books, or trees, which are checked first. \
                  For a tree by columns, restore the book first with text and from-columns.\n\
                  The status is that of diff(1): 0 the rows are the same, 1 they differ, 2 trouble, a refused tree included.",
        run: diff::diff,
    },
    Command {
        name: "list",
        words: &TREES,
        options: &[&JSON],
        summary: "list a tree's levels",
        details: "One line for each level: level, blocks, kept, pointing. For a refused tree the line is 'refused N'. With several trees, one line for each, with / between the levels. For trees of at most 65,536 bytes; stats is for all trees.",
        run: stats::list,
    },
    Command {
        name: "stats",
        words: &TREES,
        options: &[&JSON],
        summary: "describe trees",
        details: "Prints sizes, settings, rows, counted bytes, the manifest TREE.json, how the tree's bytes are used, and the blocks of each level. With several trees, one line for each.",
        run: stats::stats,
    },
    Command {
        name: "picture",
        words: &TREE,
        options: &[&OUTPUT, &FORCE, &KEEP_TIME, &JSON],
        summary: "draw a tree's levels as an SVG file",
        details: "Each level is a bar of its blocks in the text's order. Kept blocks are tall and dark; pointing blocks are low, in the colour of the place that they point to, which the strip at the top shows. If there are few, each also has an arrow. Where blocks are too narrow to be drawn, the heights in each pixel are the shares of its text that are kept and that point.",
        run: picture::picture,
    },
    Command {
        name: "page",
        words: &[Word { name: "TREE", due: Due::AtLeastOnce }],
        options: &[&OUTPUT, &FORCE, &MODULE, &JSON],
        summary: "write trees as one HTML file that needs no server",
        details: "The file contains the trees and the library, compiled to WebAssembly from the proved code. A browser opens it without a network: it checks the trees, shows their facts and digests, answers rows, codes, counts, places and worn keys, and draws the path of each answer. \
                  Other trees can be dropped on it, and books, whose trees it builds. Each TREE is checked first, and a refused one is not written. \
                  If there is a manifest TREE.json, maker, edition, and the first and last day of the licence are shown too. \
                  The file gets the permissions that all trees have, never wider ones. A tree by columns is shown as it is.",
        run: page::page,
    },
    Command {
        name: "row",
        words: &[one("ROWS"), maybe("TREE")],
        options: &[&GUIDE, &ROW_COLUMNS, &JSON, &UNCHECKED, &ANY_DAY, &TODAY],
        summary: "print a row of the book, or several",
        details: "ROWS is a number from 1 to the number of rows, or a range such as 5..20, both included, 5.. or ..20. A row ends in byte 10, or in bytes 13 and 10; the tree must count byte 10, as it does unless build --count excludes it. \
                  A row is printed with byte 10 alone at its end. If the book does not end in byte 10, the bytes after the last byte 10 are a row too. With --columns a width is refused if not all rows then end in byte 10, or if it differs from the manifest's.",
        run: questions::ask,
    },
    Command {
        name: "byte",
        words: &[one("PLACE"), maybe("TREE")],
        options: &[&JSON, &UNCHECKED, &ANY_DAY, &TODAY],
        summary: "print the byte at a place",
        details: "Places go from 0 to the text's length less one. Prints the byte's number, the byte, and how many blocks were entered to reach it.",
        run: questions::ask,
    },
    Command {
        name: "run",
        words: &[one("PLACE"), maybe("TREE")],
        options: &[&JSON, &UNCHECKED, &ANY_DAY, &TODAY],
        summary: "print the leaf bytes of the tree from a place on",
        details: "Prints the longest contiguous range of the tree's leaf bytes that is the text from this place on: its offset in the tree, its length, and the bytes.",
        run: questions::ask,
    },
    Command {
        name: "span",
        words: &[one("PLACE"), one("LENGTH"), maybe("TREE")],
        options: &[&JSON, &UNCHECKED, &ANY_DAY, &TODAY],
        summary: "print LENGTH bytes from a place",
        details: "Places start at 0. Prints the bytes as they are, and nothing else.",
        run: questions::ask,
    },
    Command {
        name: "count",
        words: &[one("BYTE"), one("LENGTH"), maybe("TREE")],
        options: &[&JSON, &UNCHECKED, &ANY_DAY, &TODAY],
        summary: "print how often a byte occurs in the first LENGTH bytes",
        details: "BYTE is one character, its number as 0x0a, or \\n, \\r, \\t, \\\\ or \\xHH; the tree must count it. Prints how often, and how many blocks were entered.",
        run: questions::ask,
    },
    Command {
        name: "find",
        words: &[one("BYTE"), one("NUMBER"), maybe("TREE")],
        options: &[&GUIDE, &JSON, &UNCHECKED, &ANY_DAY, &TODAY],
        summary: "print the place of the NUMBER-th occurrence of a byte",
        details: "NUMBER goes from 1 to how often the byte occurs in the book. BYTE is one character, its number as 0x0a, or \\n, \\r, \\t, \\\\ or \\xHH; the tree must count it. Prints the place, and how many blocks were entered.",
        run: questions::ask,
    },
    Command {
        name: "places",
        words: &[one("TEXT"), maybe("TREE")],
        options: &[&JSON, &UNCHECKED, &ANY_DAY, &TODAY],
        summary: "print all places of a code fragment, one to a line",
        details: "TEXT is 1 to 256 bytes, as they are in the book; \\n is byte 10, \\r byte 13, \\t byte 9, \\xHH the byte of that hexadecimal number, \\\\ a backslash. Places start at 0; occurrences may overlap. If there is none, the status is 1. \
                  Write -- before a TEXT that begins with -.",
        run: questions::ask,
    },
    Command {
        name: "code",
        words: &[one("CODE"), any("TREE")],
        options: &[&PREFIX, &GUIDE, &JSON, &UNCHECKED, &ANY_DAY, &TODAY],
        summary: "print the rows of a code, in one or several books",
        details: "Prints the rows that start with CODE and one space; with --prefix those that start with CODE. CODE has 1 to 255 bytes, with --prefix 1 to 256; \\n, \\r, \\t, \\\\ and \\xHH are one byte each, as in places. The tree must count byte 10. \
                  Before each row are the tree's name, maker and edition if the manifest TREE.json has them, and the row's number.\n\
                  The status is 0 if a row was printed and no tree failed, 1 if no row starts with CODE or a tree is refused, 2 if the call is wrong or a file cannot be read.",
        run: code::code,
    },
    Command {
        name: "match",
        words: &[one("CUTS"), maybe("TREE")],
        options: &[&FROM, &AFTER, &JSON, &UNCHECKED, &ANY_DAY, &TODAY],
        summary: "print the rows whose cuts are in given ranges (a worn key)",
        details: "CUTS has, for each of 1 to 10 cuts, a depth from 0 to 9, a range of depths such as [3-5], or ? for any depth: 44[3-5]22? or 4,4,3-5,2,2,0-9. A key is a row with a code of 1 to 12 bytes without a space, one space, and 1 to 10 digits, its cuts. \
                  It matches if it has as many cuts as CUTS, each in its range. The tree must count byte 10. Prints each row that matches, with its number. If there is none, the status is 1.",
        run: questions::ask,
    },
    Command {
        name: "text",
        words: &TREE,
        options: &[&JSON, &UNCHECKED, &ANY_DAY, &TODAY],
        summary: "print the whole book",
        details: "Prints the bytes as they are, and nothing else.",
        run: questions::ask,
    },
    Command {
        name: "to-columns",
        words: &[one("WIDTH"), maybe("BOOK")],
        options: &[&OUTPUT, &FORCE, &KEEP_TIME, &JSON],
        summary: "rearrange a book's rows of one width by columns",
        details: "WIDTH includes the byte that ends a row; auto finds it. All rows must have this width. The text is transposed as a matrix: with rows and columns numbered from 0, the byte of row a and column b moves to place b x rows + a. Without -o the bytes go to standard output.",
        run: by_columns::to_columns,
    },
    Command {
        name: "from-columns",
        words: &[one("WIDTH"), maybe("FILE")],
        options: &[&OUTPUT, &FORCE, &KEEP_TIME, &JSON],
        summary: "rearrange a book by columns back to rows",
        details: "The inverse of to-columns for the same width; a width is refused if not all rows then end in byte 10. Without -o the bytes go to standard output.",
        run: by_columns::from_columns,
    },
    Command {
        name: "guide make",
        words: &TREE,
        options: &[&OUTPUT, &FORCE, &KEEP_TIME, &JSON],
        summary: "make the guide of a tree",
        details: "A guide (sampled select directory) lists the level 0 blocks that contain the 1st, 65th, 129th occurrence and so on of each byte that the tree counts. find, row and code with --guide start there, not at the first block. Without -o the guide goes to standard output. A guide in the folder of TREE is added to TREE's manifest, if there is one.",
        run: guide::make,
    },
    Command {
        name: "guide check",
        words: &[one("GUIDE"), maybe("TREE")],
        options: &[&JSON],
        summary: "check a tree and its guide",
        details: "Checks that TREE is valid and GUIDE is exactly its guide. find, row and code check this first, unless --unchecked is given.",
        run: guide::check,
    },
    Command {
        name: "compare",
        words: &[one("ONE"), one("OTHER")],
        options: &[&JSON, &UNCHECKED],
        summary: "print which of two trees' books comes first",
        details: "Books are in lexicographic order of their bytes; a book that is the beginning of another comes before it. The trees may have any settings and layouts. Prints whether ONE comes before or after OTHER, and the length of their longest common prefix.",
        run: sort::compare,
    },
    Command {
        name: "sort",
        words: &[Word { name: "TREE", due: Due::AtLeastOnce }],
        options: &[&JSON],
        summary: "sort trees by their books and print their names",
        details: "One name a line, in the order of compare; trees of the same book keep the order given. A tree that the check refuses is reported and left out, and the status is 1.",
        run: sort::sort,
    },
    Command {
        name: "licence open",
        words: &[one("FIRST"), one("LAST"), maybe("TODAY")],
        options: &[&JSON],
        summary: "print whether a book is open, and the days left",
        details: licence_days!("A book is open from the first day to the last, both included. Otherwise prints why it is closed; the status is 1."),
        run: licence::open,
    },
    Command {
        name: "licence left",
        words: &[one("LAST"), maybe("TODAY")],
        options: &[&JSON],
        summary: "print the days left",
        details: licence_days!("The days from today to the last day: 0 on the last day, negative after it."),
        run: licence::left,
    },
    Command {
        name: "licence renew",
        words: &[one("DAY")],
        options: &[&JSON],
        summary: "print the same day one year later",
        details: "29 February becomes 28 February. A day is eight digits, year, month and day, as 20240229, from 20000101 to 20991231. No tree is read.",
        run: licence::renewed,
    },
    Command {
        name: "sizes",
        words: &[one("LENGTH")],
        options: &[&LEAF, &ARITY, &LEVELS, &COUNT, &JSON],
        summary: "print the sizes of the buffers that a caller needs",
        details: "For a text of LENGTH bytes: an upper bound of the size of its tree, and the words of the table for bt_build_scanned. --leaf, --arity and --levels are required.",
        run: stats::sizes,
    },
    Command {
        name: "help",
        words: &[any("COMMAND")],
        options: &[&JSON],
        summary: "print help on the tool or on a command",
        details: "The same as COMMAND --help.",
        run: help::show,
    },
    Command {
        name: "version",
        words: &[],
        options: &[&JSON],
        summary: "print the tool's version and the layouts that it knows",
        details: "The same as codebook --version.",
        run: help::version,
    },
    Command {
        name: "manual",
        words: &[],
        options: &[&JSON],
        summary: "print the manual page, codebook.1",
        details: "In the form of man(7).",
        run: help::manual,
    },
    Command {
        name: "completion",
        words: &[one("SHELL")],
        options: &[&JSON],
        summary: "print the completion for a shell",
        details: "SHELL is bash or zsh.",
        run: help::completion,
    },
];

impl Word {
    /// Whether the word can name a tree.
    pub fn is_tree(&self) -> bool {
        matches!(self.name, "TREE" | "BOOK TREE" | "ONE" | "OTHER")
    }

    /// Whether the word names a file that is read; `-` is standard input.
    pub fn is_file(&self) -> bool {
        matches!(self.name, "BOOK" | "TREE" | "BOOK TREE" | "FILE" | "GUIDE" | "ONE" | "OTHER")
    }
}

impl Command {
    pub fn named(name: &str) -> Option<&'static Command> {
        COMMANDS.iter().find(|command| command.name == name)
    }

    /// The second words of a group's commands.
    pub fn group(first: &str) -> Vec<&'static str> {
        COMMANDS.iter().filter_map(|command| command.name.split_once(' ')).filter(|(group, _)| *group == first).map(|(_, second)| second).collect()
    }

    /// Its own options and those of every command.
    pub fn all_options(&self) -> impl Iterator<Item = &'static Opt> {
        self.options.iter().chain(&COMMON).copied()
    }

    /// The usage line.
    pub fn usage(&self) -> String {
        let mut usage = format!("codebook {}", self.name);
        for Word { name, due } in self.words {
            usage += &match due {
                Due::Once => format!(" {name}"),
                Due::AtMostOnce => format!(" [{name}]"),
                Due::AnyTimes => format!(" [{name}]..."),
                Due::AtLeastOnce => format!(" {name}..."),
            };
        }
        for option in self.options {
            usage += &format!(" [{}]", option.shape());
        }
        usage
    }
}

impl Opt {
    /// The option and its value, the short form first.
    pub fn shape(&self) -> String {
        let short = self.short.map_or(String::new(), |short| format!("-{short}"));
        match (self.value, self.short) {
            (Some(value), Some(_)) => format!("{short} {value}"),
            (None, Some(_)) => short,
            (Some(value), None) => format!("{} {value}", self.long),
            (None, None) => self.long.to_owned(),
        }
    }

    /// All its forms.
    pub fn forms(&self) -> String {
        let short = self.short.map_or(String::new(), |short| format!("-{short}, "));
        let value = self.value.map_or(String::new(), |value| format!(" {value}"));
        format!("{short}{}{value}", self.long)
    }
}
