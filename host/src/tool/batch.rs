//! `build` of several books: some at a time, written and reported in the order in which they are given, with a table at the end.

use crate::book::{self, Warning};
use crate::build::{make, share, target, Made, Order, TREES};
use crate::given::Given;
use crate::json::Object;
use crate::ordered::in_order;
use crate::report::Report;
use crate::say::{self, grouped, several};
use crate::trials::{Request, LONG};
use crate::{progress, Failure};
use std::fs;
use std::path::Path;

/// A book in the table: what was built, or none if the book failed.
struct Line {
    book: String,
    built: Option<Figures>,
}

/// Rows and bytes of a book, or of several.
#[derive(Clone, Copy, Default)]
struct Figures {
    rows: u64,
    text: usize,
    tree: usize,
    warnings: usize,
}

/// What was done so far.
struct Batch<'a> {
    given: &'a Given,
    /// A tree goes to standard output, so all reports go to standard error.
    standard: bool,
    lines: Vec<Line>,
    warnings: Vec<(String, Warning)>,
    status: u8,
}

pub fn build(given: &Given, order: Order, jobs: usize) -> Result<(), Failure> {
    let books: Vec<&Path> = given.words.iter().map(Path::new).collect();
    let mut standard = false;
    for book in &books {
        standard |= target(given, Some(book), &TREES)?.is_none();
    }
    let mut batch = Batch { given, standard, lines: Vec::new(), warnings: Vec::new(), status: 0 };
    // with fewer books than processors, the other processors share the trials of each book
    let request = Request { silent: true, jobs: (jobs / books.len()).max(1), ..order.request };
    let order = Order { request, ..order };
    let costs: Vec<u64> = books.iter().map(|book| fs::metadata(book).map_or(1, |file| file.len().max(1))).collect();
    if order.request.search && !given.quiet() && costs.iter().sum::<u64>() >= LONG as u64 {
        say::tell(&format!(
            "codebook: --best searches for the settings of {}, some ten times as long as without it\n",
            several(books.len() as u64, "book")
        ));
    }
    progress::show("books", &costs, given.quiet(), |progress| {
        let work = |at: usize| make(given, &order, Some(books[at]));
        in_order(books.len(), jobs.min(books.len()), work, |at, made| {
            let report = made.and_then(Made::write);
            progress.done(at);
            progress.above(|| batch.enter(books[at], report));
        });
    });
    batch.end()
}

impl Batch<'_> {
    /// Report that a book is written, or has failed.
    fn enter(&mut self, book: &Path, report: Result<Report, Failure>) {
        let done = report.and_then(|report| {
            let text = if self.given.json() { report.object().line() } else { report.line() };
            if self.given.json() || !self.given.quiet() {
                say::to(self.standard, &text)?;
            }
            let figures = Figures { rows: report.rows, text: report.length, tree: report.size, warnings: report.warnings.len() };
            self.warnings.extend(report.warnings.into_iter().map(|warning| (report.book.clone(), warning)));
            Ok(figures)
        });
        let built = done.map_err(|failure| {
            failure.tell_to(self.given.json(), self.standard);
            self.status = self.status.max(failure.status());
        });
        self.lines.push(Line { book: book.to_string_lossy().into_owned(), built: built.ok() });
    }

    /// The table, the sums, and each kind of warning once.
    fn end(self) -> Result<(), Failure> {
        let sums = self.lines.iter().filter_map(|line| line.built).fold(Figures::default(), Figures::and);
        match (self.given.json(), self.given.quiet()) {
            (true, _) => say::to(self.standard, &self.object(&sums).line())?,
            (false, true) => {}
            (false, false) => say::to(self.standard, &(self.table() + &self.sum_line(&sums)))?,
        }
        book::lines(&self.warnings).iter().filter(|_| !self.given.quiet()).for_each(|line| say::tell(line));
        match self.status {
            0 => Ok(()),
            status => Err(Failure::reported(status)),
        }
    }

    fn built(&self) -> usize {
        self.lines.iter().filter(|line| line.built.is_some()).count()
    }

    fn object(&self, sums: &Figures) -> Object {
        let object = Object::new().number("books", self.lines.len()).number("built", self.built()).number("rows", sums.rows);
        object.number("length", sums.text).number("size", sums.tree).number("warned", sums.warnings)
    }

    fn table(&self) -> String {
        let width = self.lines.iter().map(|line| line.book.chars().count()).max().unwrap_or(0).max(4);
        let row = |book: &str, cells: [String; 5]| {
            let [rows, text, tree, ratio, warnings] = cells;
            format!("{book:<width$}  {rows:>9}  {text:>9}  {tree:>10}  {ratio:>8}  {warnings:>8}\n")
        };
        let mut table = row("book", ["rows", "text", "tree", "ratio", "warnings"].map(str::to_owned));
        for Line { book, built } in &self.lines {
            let cells = match built {
                Some(Figures { rows, text, tree, warnings }) => {
                    [grouped(*rows), grouped(*text as u64), grouped(*tree as u64), ratio(*tree, *text), grouped(*warnings as u64)]
                }
                None => ["-", "-", "-", "-", "failed"].map(str::to_owned),
            };
            table += &row(book, cells);
        }
        table
    }

    fn sum_line(&self, sums: &Figures) -> String {
        let (built, books) = (self.built(), several(self.lines.len() as u64, "book"));
        let built = if built == self.lines.len() { books } else { format!("{} of {books}", grouped(built as u64)) };
        format!(
            "{built}: {}, {} of text, {} of trees, {}, {}\n",
            several(sums.rows, "row"),
            several(sums.text as u64, "byte"),
            several(sums.tree as u64, "byte"),
            share(sums.tree, sums.text),
            several(sums.warnings as u64, "warning")
        )
    }
}

impl Figures {
    fn and(self, other: Figures) -> Self {
        Figures { rows: self.rows + other.rows, text: self.text + other.text, tree: self.tree + other.tree, warnings: self.warnings + other.warnings }
    }
}

/// A tree's size beside its text's.
fn ratio(tree: usize, text: usize) -> String {
    match text {
        0 => "-".to_owned(),
        _ => format!("{:.1} %", 100.0 * tree as f64 / text as f64),
    }
}
