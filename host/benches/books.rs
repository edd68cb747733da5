//! Times the library and the independent model on the same books in the same run: build, check and every question. Compares tree sizes with gzip and xz.
//!
//!     cargo bench               books of 64 KiB and 1 MiB
//!     cargo bench -- quick      books of 64 KiB only
//!     cargo bench -- builders   the two builders only
//!     cargo bench -- columns    columns before rows only
//!     cargo bench -- guides     find and row with a guide and without, on books of 1 MiB
//!     cargo bench -- sizes      the library's calls on books of 64 KiB, 1 MiB and 8 MiB, and the first builder on 8 MiB (slow)
//!     cargo bench -- licence    licence dates only
//!     cargo bench -- orders     the order of two trees only
//!     cargo bench -- layouts    trees with edges and without: sizes, short spans, the rewriting
//!     cargo bench -- lists      the sizes alone, also of books by columns and of 8 MiB
//!     cargo bench -- write      writes books for `bench/run settings` to target/bench/books, and times nothing
//!     cargo bench -- prefixes   rows by prefix, on books of 1 MiB and 8 MiB
//!     cargo bench -- hostile    texts that are made to be slow beside honest books, of 1 MiB and 8 MiB, by the second builder
//!
//! Prints tables; docs/BENCHMARKS.md has the most important ones. Times are not asserted; that both return the same is.

#[path = "../tests/model/mod.rs"]
mod model;
#[path = "../tests/support/mod.rs"]
mod support;

use codebook::{build_scanned, calls, Settings, MAX_TEXT, SHORT_LIST, SMALL_LIST};
use model::{check, columns, dates, fast, guides, keys, order, prefix, read, without_edges, Shape};
use std::hint::black_box;
use std::io::Write;
use std::path::Path;
use std::process::{Command, Stdio};
use std::time::{Duration, Instant};
use support::books::{book, even_book, Kind, EVEN_WIDTH};
use support::{hostile, Rng};

const KINDS: [(Kind, &str); 3] = [(Kind::Repetitive, "highly repetitive"), (Kind::Mixed, "mixed"), (Kind::NearlyRandom, "nearly random")];
const COUNTED: &[u8] = b"\n";

fn main() {
    let told = |wanted: &str| std::env::args().any(|word| word == wanted);
    let (quick, builders) = (told("quick"), told("builders"));
    if told("write") {
        return write_books();
    }
    describe_machine();
    if told("columns") {
        return by_columns(quick);
    }
    if told("guides") {
        time_guides();
        return;
    }
    if told("sizes") {
        time_sizes();
        time_longest();
        return;
    }
    if told("licence") {
        return time_licences();
    }
    if told("orders") {
        time_orders();
        return;
    }
    if told("layouts") {
        return by_layouts(quick);
    }
    if told("lists") {
        return size_lists();
    }
    if told("prefixes") {
        return time_prefixes();
    }
    if told("hostile") {
        return time_hostile();
    }
    for &size in &[65_536, 1_048_576][..if quick { 1 } else { 2 }] {
        time_builders(size);
    }
    if builders {
        return;
    }
    // larger blocks for the longer books: the builder searches the text once for each block and each pair
    let sizes: &[(usize, Shape)] = &[(65_536, Shape { m: 64, r: 2, h: 4 }), (1_048_576, Shape { m: 128, r: 4, h: 3 })];
    for &(size, shape) in &sizes[..if quick { 1 } else { 2 }] {
        println!("\n## Books of {} KiB: leaf {}, arity {}, levels {}, byte 10 counted\n", size / 1024, shape.m, shape.r, shape.h);
        println!("| Book | Question | Library | Model | Ratio |\n|---|---|---:|---:|---:|");
        let texts: Vec<(Vec<u8>, &str)> = KINDS.iter().map(|&(kind, name)| (book(kind, size, 1), name)).collect();
        for (text, name) in &texts {
            time_book(text, name, shape);
        }
        println!("\n| Text | Pattern | Places | Library | Model | Ratio | In the text itself |\n|---|---|---:|---:|---:|---:|---:|");
        for (text, name) in &texts {
            time_patterns(text, name, shape, &book_patterns(text));
        }
        time_patterns(&vec![b'A'; size], "all A", shape, &letter_patterns());
        println!("\n| Book | Worn key | Matches | Library, all calls | A call | Model | Whole text by span |\n|---|---|---:|---:|---:|---:|---:|");
        for (text, name) in &texts {
            time_matches(text, name, shape);
        }
        println!("\n| Book | Text | Tree above | Smallest tree of the tool's list | gzip -9 | xz -9e |\n|---|---:|---:|---|---:|---:|");
        for (text, name) in &texts {
            size_row(text, name, shape);
        }
    }
    by_columns(quick);
    by_layouts(quick);
    time_licences();
    if !quick {
        time_guides();
        time_orders();
        time_prefixes();
    }
}

/// Books with rows of one width: how columns change the size of the tree, and the times of rearranging and of reading a row.
fn by_columns(quick: bool) {
    let sizes = &[65_536, 1_048_576][..if quick { 1 } else { 2 }];
    println!("\n## Columns before rows: books with rows of {EVEN_WIDTH} bytes, byte 10 counted\n");
    println!("| Book | Text | Smallest tree of the tool's list, by rows | By columns | Ratio |\n|---|---:|---|---|---:|");
    for &size in sizes {
        for (kind, name) in EVEN_KINDS {
            let text = even_book(kind, size, 1);
            let turned = columns::columns_of(&text, EVEN_WIDTH as u32).expect("rows of one width");
            let [(rows, by_rows), (cells, by_cells)] = [&text, &turned].map(|text| smallest(text));
            let ratio = cells as f64 / rows as f64;
            println!("| {name} | {} | {rows} with {by_rows} | {cells} with {by_cells} | {ratio:.2} |", text.len());
        }
    }
    println!("\n| Text | Width | To columns | From columns | Model, to columns |\n|---:|---:|---:|---:|---:|");
    for &size in sizes {
        for width in [4, 16, 64, 1024] {
            time_rearranging(&even_book(Kind::Mixed, size, 1), width);
        }
    }
    println!("\n| Book | Text | Row by columns | Model | Ratio | A row's bytes by span, from the tree by rows |\n|---|---:|---:|---:|---:|---:|");
    for &size in sizes {
        for (kind, name) in EVEN_KINDS {
            time_rows(&even_book(kind, size, 1), name);
        }
    }
}

/// Trees with edges and without: the sizes that the tool's lists give, short spans at the same settings, and the rewriting.
fn by_layouts(quick: bool) {
    let sizes = &[65_536, 1_048_576][..if quick { 1 } else { 2 }];
    let books = || sizes.iter().flat_map(|&size| KINDS.map(|(kind, name)| (book(kind, size, 1), name)));
    println!(
        "\n## With edges and without\n\n| Book | Text | Layout 2 | The same without edges | Layout 1, by its own list |\n|---|---:|---:|---:|---:|"
    );
    let small = (include_bytes!("../../books/small.txt").to_vec(), "`books/small.txt`");
    for (text, name) in std::iter::once(small).chain(books()) {
        size_layouts(&text, name);
    }
    println!("\n| Book | Text | Span of | Layout 2 | Layout 1 | Ratio |\n|---|---:|---:|---:|---:|---:|");
    for (text, name) in books() {
        time_layouts(&text, name);
    }
    println!("\n| Book | Text | Tree | `without_edges` | Model | Ratio |\n|---|---:|---:|---:|---:|---:|");
    for (text, name) in books() {
        time_without_edges(&text, name);
    }
}

/// Books of all kinds, by rows and by columns, for the program that finds the tool's lists.
fn write_books() {
    let folder = Path::new(env!("CARGO_MANIFEST_DIR")).join("../target/bench/books");
    std::fs::create_dir_all(&folder).expect("a folder");
    let write = |name: &str, size: usize, text: &[u8]| {
        std::fs::write(folder.join(format!("{}-{}.txt", name.replace([' ', ','], "_"), size / 1024)), text).expect("a file");
    };
    for size in [65_536, 524_288] {
        KINDS.iter().for_each(|&(kind, name)| write(name, size, &book(kind, size, 1)));
    }
    for (kind, name) in EVEN_KINDS {
        let text = even_book(kind, 65_536, 1);
        let turned = columns::columns_of(&text, EVEN_WIDTH as u32).expect("rows of one width");
        write(name, 65_536, &text);
        write(&format!("{name}, by columns"), 65_536, &turned);
    }
}

/// The sizes that the tool's lists give.
fn size_lists() {
    println!("\n| Book | Text | Layout 2 | The same without edges | Layout 1, by its own list |\n|---|---:|---:|---:|---:|");
    size_layouts(include_bytes!("../../books/small.txt"), "`books/small.txt`");
    for size in [65_536, 1_048_576, 8_388_608] {
        KINDS.iter().for_each(|&(kind, name)| size_layouts(&book(kind, size, 1), name));
        for (kind, name) in EVEN_KINDS.into_iter().filter(|_| size < MAX_TEXT) {
            let text = even_book(kind, size, 1);
            size_layouts(&text, name);
            let turned = columns::columns_of(&text, EVEN_WIDTH as u32).expect("rows of one width");
            size_layouts(&turned, &format!("{name}, by columns"));
        }
    }
}

const BOTH_LAYOUTS: Shape = Shape { m: 128, r: 2, h: 4 };

fn size_layouts(text: &[u8], name: &str) {
    let percent = |part: usize| format!("{part} ({:.1} %)", 100.0 * part as f64 / text.len() as f64);
    let sized = |(m, r, h): (u32, u32, u32)| {
        let tree = build_scanned(text, &Settings { leaf: m, arity: r, levels: h, counted: COUNTED.to_vec() }).expect("a tree").tree;
        let size = without_edges::without_edges(&tree, &mut vec![0; tree.len()]).1 as usize;
        (tree.len(), size, format!("{m}/{r}/{h}"))
    };
    let (edged, same, by) = SHORT_LIST.into_iter().map(sized).min_by_key(|(size, ..)| *size).expect("a list");
    let (_, smallest, small_by) = SMALL_LIST.into_iter().map(sized).min_by_key(|(_, size, _)| *size).expect("a list");
    println!("| {name} | {} | {} with {by} | {} | {} with {small_by} |", text.len(), percent(edged), percent(same), percent(smallest));
}

/// Spans at random places, by both trees, in turn.
fn time_layouts(text: &[u8], name: &str) {
    let edged = fast::tree(text, BOTH_LAYOUTS, COUNTED);
    let mut small = vec![0; edged.len()];
    let (number, size) = calls::without_edges(&edged, &mut small);
    assert_eq!((number, calls::check(&small[..size as usize])), (0, 0));
    let small = &small[..size as usize];
    let mut rng = Rng::new(text.len() as u64);
    let places: Vec<u32> = (0..4000).map(|_| rng.below(text.len() - 100) as u32).collect();
    for length in [8, 32, 100] {
        let [mut one, mut other] = [[0; 100]; 2];
        let span = |tree: &[u8], place: u32, buffer: &mut [u8; 100]| {
            assert_eq!(calls::span(black_box(tree), place, length, buffer).0, 0);
            *buffer
        };
        let times = each(&places, |place| span(small, place, &mut one), |place| span(&edged, place, &mut other));
        let ratio = times[0].as_secs_f64() / times[1].as_secs_f64();
        println!("| {name} | {} | {length} | {} | {} | {ratio:.2} |", text.len(), shown(times[1]), shown(times[0]));
    }
}

fn time_without_edges(text: &[u8], name: &str) {
    let tree = fast::tree(text, BOTH_LAYOUTS, COUNTED);
    let [mut ours, mut theirs] = [vec![0; tree.len()], vec![0; tree.len()]];
    let times = both(9, || calls::without_edges(black_box(&tree), &mut ours), || without_edges::without_edges(black_box(&tree), &mut theirs));
    assert!(ours == theirs, "both write the same");
    let ratio = times[0].as_secs_f64() / times[1].as_secs_f64();
    println!("| {name} | {} | {} | {} | {} | {ratio:.2} |", text.len(), tree.len(), shown(times[0]), shown(times[1]));
}

const EVEN_KINDS: [(Kind, &str); 3] =
    [(Kind::Repetitive, "500 rows listed again"), (Kind::Mixed, "one series, cuts rising"), (Kind::NearlyRandom, "one series, cuts drawn")];

/// The size of the smallest tree of the tool's list, and its settings.
fn smallest(text: &[u8]) -> (usize, String) {
    let size = |(m, r, h): (u32, u32, u32)| (fast::tree(text, Shape::new(m, r, h), COUNTED).len(), format!("{m}/{r}/{h}"));
    SHORT_LIST.into_iter().map(size).min_by_key(|(size, _)| *size).expect("a list")
}

fn time_rearranging(text: &[u8], width: u32) {
    let [mut ours, mut theirs, mut back] = [vec![0; text.len()], vec![0; text.len()], vec![0; text.len()]];
    let [there, model] =
        both(9, || calls::to_columns(black_box(text), width, &mut ours), || columns::to_columns(black_box(text), width, &mut theirs));
    assert!(ours == theirs, "both rearrange the same");
    let from = fastest(9, &mut || {
        black_box(calls::from_columns(black_box(&ours), width, &mut back));
    });
    assert!(back == text);
    println!("| {} | {width} | {} | {} | {} |", text.len(), shown(there), shown(from), shown(model));
}

/// Row by columns next to the model's, and the same bytes by one span of the tree of the original text.
fn time_rows(text: &[u8], name: &str) {
    let shape = Shape { m: 64, r: 2, h: 4 };
    let width = EVEN_WIDTH as u32;
    let turned = columns::columns_of(text, width).expect("rows of one width");
    let [by_rows, by_columns] = [text, &turned].map(|text| fast::tree(text, shape, COUNTED));
    let [by_rows, by_columns] = [&by_rows, &by_columns].map(|tree| move || black_box(tree.as_slice()));
    let mut rng = Rng::new(text.len() as u64);
    let rows: Vec<u32> = (0..1000).map(|_| rng.below(text.len() / EVEN_WIDTH) as u32).collect();
    let [mut ours, mut theirs, mut span] = [[0; EVEN_WIDTH]; 3];
    let [library, model] = each(
        &rows,
        |a| (calls::row_by_columns(by_columns(), width, a, &mut ours), ours),
        |a| (columns::row(by_columns(), width, a, &mut theirs).0, theirs),
    );
    let [plain, _] = each(
        &rows,
        |a| (calls::span(by_rows(), a * width, width, &mut span).0, span),
        |a| (0, text[(a * width) as usize..][..EVEN_WIDTH].try_into().expect("a row")),
    );
    let ratio = library.as_secs_f64() / model.as_secs_f64();
    println!("| {name} | {} | {} | {} | {ratio:.2} | {} |", text.len(), shown(library), shown(model), shown(plain));
}

/// Licence dates, over days of the whole range.
fn time_licences() {
    println!("\n## Licence dates\n\n| Question | Library | Model | Ratio |\n|---|---:|---:|---:|");
    let mut rng = Rng::new(112);
    let numbers: Vec<u32> = (0..10_000).map(|_| rng.below(36_525) as u32).collect();
    let day = |number: u32| dates::calendar()[number as usize % 36_525].as_bytes();
    // a first, a last and another day
    let days = |number: u32| (day(number / 2), day(number), day(number.wrapping_mul(31)));
    let row = |question: &str, [library, model]: [Duration; 2]| {
        println!("| {question} | {} | {} | {:.2} |", shown(library), shown(model), library.as_secs_f64() / model.as_secs_f64());
    };
    let open = each(
        &numbers,
        |number| {
            let (first, last, today) = days(number);
            calls::open_on(first, last, today)
        },
        |number| {
            let (first, last, today) = days(number);
            dates::open_on(first, last, today)
        },
    );
    row("open", open);
    let left = each(&numbers, |number| calls::days_left(days(number).1, days(number).2), |number| dates::days_left(days(number).1, days(number).2));
    row("left", left);
    let library = |number| {
        let mut lent: [u8; 8] = day(number).try_into().expect("eight digits");
        (calls::renew(&mut lent), lent)
    };
    let model = |number| {
        let (refusal, renewed) = dates::renew(day(number));
        (refusal, renewed.try_into().expect("eight digits"))
    };
    row("renew", each(&numbers, library, model));
}

/// Two trees of one book of 1 MiB by two settings compared, next to reading one of them by span; and two that differ at the first place.
fn time_orders() {
    let (one, others) = (Shape::new(64, 2, 4), [Shape::new(64, 2, 4), Shape::new(128, 4, 3), Shape::new(32, 4, 4), Shape::new(16, 4, 4)]);
    println!("\n## The order of two trees of one book of 1024 KiB: leaf {}, arity {}, levels {} beside others\n", one.m, one.r, one.h);
    println!("| Book | Beside leaf/arity/levels | Library | One by span | The other by span | Ratio to the faster | Model | First byte differs |");
    println!("|---|---|---:|---:|---:|---:|---:|---:|");
    for (kind, name) in KINDS {
        let text = book(kind, 1_048_576, 1);
        let mut changed = text.clone();
        changed[0] ^= 1;
        for other in others {
            let trees = [fast::tree(&text, one, COUNTED), fast::tree(&text, other, b""), fast::tree(&changed, other, b"")];
            let tree = |at: usize| black_box(trees[at].as_slice());
            let [library, model] = both(9, || calls::compare(tree(0), tree(1)), || order::order(tree(0), tree(1)));
            let mut buffer = vec![0; text.len()];
            let spans = [0, 1].map(|at| {
                fastest(9, &mut || {
                    black_box(calls::span(tree(at), 0, text.len() as u32, &mut buffer));
                })
            });
            let early = fastest(1000, &mut || {
                black_box(calls::compare(tree(0), tree(2)));
            });
            let ratio = library.as_secs_f64() / spans[0].min(spans[1]).as_secs_f64();
            println!(
                "| {name} | {}/{}/{} | {} | {} | {} | {ratio:.2} | {} | {} |",
                other.m,
                other.r,
                other.h,
                shown(library),
                shown(spans[0]),
                shown(spans[1]),
                shown(model),
                shown(early)
            );
        }
    }
}

fn time_book(text: &[u8], name: &str, shape: Shape) {
    let expected = fast::tree(text, shape, COUNTED);
    let mut tree = vec![0; expected.len()];
    let line = |question: &str, [library, model]: [Duration; 2]| {
        println!("| {name} | {question} | {} | {} | {:.2} |", shown(library), shown(model), library.as_secs_f64() / model.as_secs_f64());
    };
    let times = [
        once(|| calls::build(text, shape.m, shape.r, shape.h, COUNTED, &mut tree)),
        fastest(3, &mut || drop(black_box(fast::tree(text, shape, COUNTED)))),
    ];
    assert!(tree == expected, "both build the same tree");
    line("build", times);
    // the compiler must know nothing about the bytes, or it would test the header's questions once for all calls of the model
    let tree = || black_box(tree.as_slice());
    line("check", both(5, || calls::check(tree()), || check::check(tree())));

    let n = text.len();
    let rows = text.iter().filter(|&&byte| byte == 10).count();
    let mut rng = Rng::new(n as u64);
    let places: Vec<u32> = (0..4000).map(|_| rng.below(n - 100) as u32).collect();
    let numbers: Vec<u32> = (0..4000).map(|_| rng.within(1, rows) as u32).collect();
    line("byte", each(&places, |p| calls::byte(tree(), p), |p| read::byte(tree(), p)));
    line("run", each(&places, |p| calls::run_range(tree(), p), |p| read::run(tree(), p)));
    let [mut ours, mut theirs] = [[0; 100]; 2];
    line(
        "span of 100 bytes",
        each(&places[..500], |p| (calls::span(tree(), p, 100, &mut ours), ours[99]), |p| (read::span(tree(), p, 100, &mut theirs), theirs[99])),
    );
    line(
        "span of 16 bytes",
        each(&places, |p| (calls::span(tree(), p, 16, &mut ours), ours[15]), |p| (read::span(tree(), p, 16, &mut theirs), theirs[15])),
    );
    line("row", each(&numbers[..1000], |q| calls::row(tree(), q, &mut ours), |q| fast::row(tree(), q, &mut theirs)));
    line("count", each(&places, |i| calls::count(tree(), 10, i), |i| read::count(tree(), 10, i)));
    line("find", each(&numbers, |j| calls::find(tree(), 10, j), |j| fast::find(tree(), 10, j)));
}

type Pattern = (&'static str, Vec<u8>);

/// The code of a row, one that no row has, and a digit.
fn book_patterns(text: &[u8]) -> Vec<Pattern> {
    let rows: Vec<&[u8]> = text.split(|&byte| byte == 10).collect();
    let code = rows[rows.len() / 2].split(|&byte| byte == b' ').next().expect("a code");
    vec![("a code", code.to_vec()), ("no row's code", [code, b"#"].concat()), ("a digit", b"1".to_vec())]
}

/// Patterns for a text of letters A: one that occurs at every place, the longest, and the one with the most backtracking.
fn letter_patterns() -> Vec<Pattern> {
    let mut last = vec![b'A'; 255];
    last.push(b'B');
    vec![("A", b"A".to_vec()), ("256 A", vec![b'A'; 256]), ("255 A and B", last)]
}

/// All places of patterns: by the library; by the model, which reads the text back and compares at every place; and that comparison alone.
fn time_patterns(text: &[u8], name: &str, shape: Shape, patterns: &[Pattern]) {
    let tree = fast::tree(text, shape, COUNTED);
    let tree = || black_box(tree.as_slice());
    let [mut ours, mut theirs] = [vec![0; text.len()], vec![0; text.len()]];
    for (words, pattern) in patterns {
        let number = calls::places(tree(), pattern, &mut ours);
        assert!(number == read::places(tree(), pattern, &mut theirs) && ours == theirs, "both find the same places");
        let [library, model] = both(9, || calls::places(tree(), pattern, &mut ours), || read::places(tree(), pattern, &mut theirs));
        let alone = fastest(9, &mut || drop(black_box(read::places_in(black_box(text), pattern))));
        let ratio = library.as_secs_f64() / model.as_secs_f64();
        println!("| {name} | {words} | {} | {} | {} | {ratio:.2} | {} |", number.1, shown(library), shown(model), shown(alone));
    }
}

/// The two builders next to the model's on books of one size.
fn time_builders(size: usize) {
    let shape = Shape { m: 64, r: 2, h: 4 };
    println!("\n## Builders, {} KiB: leaf {}, arity {}, levels {}, byte 10 counted\n", size / 1024, shape.m, shape.r, shape.h);
    println!("| Book | `build` | `build_scanned` | Windows | Model | Ratio to `build` | Ratio to the model |\n|---|---:|---:|---:|---:|---:|---:|");
    let mut texts: Vec<(Vec<u8>, &str)> = KINDS.iter().map(|&(kind, name)| (book(kind, size, 1), name)).collect();
    texts.push((vec![b'A'; size], "one byte repeated"));
    texts.push((equal_blocks(size), "two blocks of 512 bytes by turns, at random"));
    for (text, name) in &texts {
        let expected = fast::tree(text, shape, COUNTED);
        let [mut first, mut tree] = [vec![0; expected.len()], vec![0; expected.len()]];
        let mut work = vec![0; calls::scan_words(size as u32, shape.m) as usize];
        let mut windows = 0;
        let build = once(|| calls::build(text, shape.m, shape.r, shape.h, COUNTED, &mut first));
        let scanned = fastest(5, &mut || windows = calls::build_scanned(text, shape.m, shape.r, shape.h, COUNTED, &mut work, &mut tree).2);
        let model = fastest(5, &mut || drop(black_box(fast::tree(text, shape, COUNTED))));
        assert!(first == expected && tree == expected, "all build the same tree");
        let ratio = |other: Duration| scanned.as_secs_f64() / other.as_secs_f64();
        println!("| {name} | {} | {} | {windows} | {} | {:.4} | {:.2} |", shown(build), shown(scanned), shown(model), ratio(build), ratio(model));
    }
}

/// Each call on books of three sizes, the longest among them.
fn time_sizes() {
    let shape = Shape { m: 64, r: 2, h: 4 };
    let sizes = [65_536, 1_048_576, MAX_TEXT];
    println!("\n## Calls by the size of the book: leaf {}, arity {}, levels {}, byte 10 counted\n", shape.m, shape.r, shape.h);
    println!("| Book | Call | 64 KiB | 1 MiB | 8 MiB |\n|---|---|---:|---:|---:|");
    for (kind, name) in KINDS {
        let columns = sizes.map(|size| time_calls(&book(kind, size, 1), shape));
        for (call, (title, _)) in columns[0].iter().enumerate() {
            let [small, middle, large] = [0, 1, 2].map(|column: usize| shown(columns[column][call].1));
            println!("| {name} | {title} | {small} | {middle} | {large} |");
        }
    }
}

fn time_calls(text: &[u8], shape: Shape) -> Vec<(&'static str, Duration)> {
    let expected = fast::tree(text, shape, COUNTED);
    let mut tree = vec![0; expected.len()];
    let mut work = vec![0; calls::scan_words(text.len() as u32, shape.m) as usize];
    let build = fastest(3, &mut || used(calls::build_scanned(text, shape.m, shape.r, shape.h, COUNTED, &mut work, &mut tree)));
    assert!(tree == expected, "the model builds the same tree");
    let tree = || black_box(tree.as_slice());
    let check = fastest(5, &mut || assert_eq!(calls::check(tree()), 0));
    let mut whole = vec![0; text.len()];
    let read = fastest(3, &mut || used(calls::span(tree(), 0, text.len() as u32, &mut whole)));
    assert!(whole == text, "the whole text is read back");
    let rows = text.iter().filter(|&&byte| byte == 10).count();
    let mut rng = Rng::new(text.len() as u64);
    let places: Vec<u32> = (0..4000).map(|_| rng.below(text.len() - 100) as u32).collect();
    let numbers: Vec<u32> = (0..1000).map(|_| rng.within(1, rows) as u32).collect();
    let mut buffer = [0; 100];
    vec![
        ("build_scanned", build),
        ("check", check),
        ("span of the whole text", read),
        ("byte", alone(&places, |p| used(calls::byte(tree(), p)))),
        ("span of 16 bytes", alone(&places, |p| used(calls::span(tree(), p, 16, &mut buffer)))),
        ("count", alone(&places, |i| used(calls::count(tree(), 10, i)))),
        ("find", alone(&numbers, |j| used(calls::find(tree(), 10, j)))),
        ("row", alone(&numbers, |q| used(calls::row(tree(), q, &mut buffer)))),
    ]
}

/// Keeps the compiler from dropping a result.
fn used<T>(answer: T) {
    black_box(answer);
}

/// The time of one question, from the shortest of ten runs through all arguments.
fn alone(arguments: &[u32], mut question: impl FnMut(u32)) -> Duration {
    fastest(10, &mut || arguments.iter().for_each(|&argument| question(black_box(argument)))) / arguments.len() as u32
}

/// The first builder on the longest book, with large blocks.
fn time_longest() {
    let shape = Shape { m: 256, r: 16, h: 3 };
    println!("\n## The first builder, 8 MiB: leaf {}, arity {}, levels {}, byte 10 counted\n", shape.m, shape.r, shape.h);
    println!("| Book | `build` | `build_scanned` |\n|---|---:|---:|");
    for (text, name) in [(vec![b'A'; MAX_TEXT], "one byte repeated"), (book(Kind::Repetitive, MAX_TEXT, 1), "highly repetitive")] {
        let expected = fast::tree(&text, shape, COUNTED);
        let [mut first, mut tree] = [vec![0; expected.len()], vec![0; expected.len()]];
        let mut work = vec![0; calls::scan_words(text.len() as u32, shape.m) as usize];
        let build = once(|| calls::build(&text, shape.m, shape.r, shape.h, COUNTED, &mut first));
        let scanned = once(|| calls::build_scanned(&text, shape.m, shape.r, shape.h, COUNTED, &mut work, &mut tree));
        assert!(first == expected && tree == expected, "all build the same tree");
        println!("| {name} | {} | {} |", shown(build), shown(scanned));
    }
}

/// A text of blocks of 512 bytes, each one of two.
fn equal_blocks(size: usize) -> Vec<u8> {
    let mut rng = Rng::new(9);
    let blocks: Vec<Vec<u8>> = (0..2).map(|_| (0..512).map(|_| rng.next() as u8).collect()).collect();
    (0..size / 512).flat_map(|_| blocks[rng.below(2)].clone()).collect()
}

/// All matches of worn keys, a call for each and one that returns none: by the library; by the model, which reads the text back once and tests each
/// row; and the whole text read by one span.
fn time_matches(text: &[u8], name: &str, shape: Shape) {
    let tree = fast::tree(text, shape, COUNTED);
    let tree = || black_box(tree.as_slice());
    let mut buffer = vec![0; text.len()];
    let span = fastest(9, &mut || {
        black_box(calls::span(tree(), 0, text.len() as u32, &mut buffer));
    });
    // as many cuts as the row in the middle has
    let rows: Vec<&[u8]> = text.split(|&byte| byte == 10).collect();
    let many = rows[rows.len() / 2].split(|&byte| byte == b' ').nth(1).expect("cuts").len();
    for (words, range, cuts) in [("ten cuts of 9", [9, 9], 10), ("its cuts, 2 to 4", [2, 4], many), ("its cuts, any depth", [0, 9], many)] {
        let ranges = range.repeat(cuts);
        let all = || {
            let (mut mark, mut matches) = (0, 0);
            while calls::next_match(tree(), &ranges, &mut mark).1 != 0 {
                matches += 1;
            }
            matches
        };
        let plain = || keys::matches_in(&read::text(&read::Tree::open(tree()).expect("a tree")), &ranges).len();
        let [library, model] = both(5, all, plain);
        let call = library / (all() as u32 + 1);
        println!("| {name} | {words} | {} | {} | {} | {} | {} |", plain(), shown(library), shown(call), shown(model), shown(span));
    }
}

/// All rows that start with a prefix, a call for each and one that returns none: by the library, without a guide and with one; and by the model, which reads the text back once and compares
/// the beginning of each row. The trees of 8 MiB have 32,768 blocks of level 0.
fn time_prefixes() {
    println!("\n## Rows by prefix, byte 10 counted\n");
    println!("| Book | Text | Leaf/arity/levels | Prefix | Rows | All calls | A call | All calls with a guide | A call | Model |");
    println!("|---|---:|---|---|---:|---:|---:|---:|---:|---:|");
    for (size, shape) in [(1_048_576, Shape { m: 64, r: 2, h: 4 }), (8_388_608, Shape { m: 256, r: 2, h: 1 })] {
        for (kind, name) in KINDS {
            let text = book(kind, size, 1);
            let tree = fast::tree(&text, shape, COUNTED);
            let rows = read::rows_of(&text);
            let space = |row: &[u8]| row.iter().position(|&byte| byte == b' ').expect("a code");
            let middle = rows[rows.len() / 2];
            for (words, wanted) in [("a code and its space", &middle[..=space(middle)]), ("two letters", &middle[..2])] {
                let line = time_prefix(&tree, &guides::guide(&tree).expect("an accepted tree"), wanted);
                println!("| {name} | {size} | {}/{}/{} | {words} | {line} |", shape.m, shape.r, shape.h);
            }
        }
    }
}

/// The time that this thread was on a processor: a busy machine disturbs it less than the clock's.
fn processor_time() -> Duration {
    let times = std::fs::read_to_string("/proc/thread-self/schedstat").expect("times of this thread");
    Duration::from_nanos(times.split(' ').next().and_then(|word| word.parse().ok()).expect("nanoseconds"))
}

/// The second builder's time on a text: the median of three, each with another seed.
fn scan_time(rng: &mut Rng, text: &[u8], shape: Shape) -> Duration {
    let (number, room) = calls::size_bound(text.len() as u32, shape.m, shape.r, shape.h, 1);
    assert_eq!(number, 0);
    let mut tree = vec![0; room as usize];
    let mut work = vec![0; calls::scan_words(text.len() as u32, shape.m) as usize];
    let mut times = [Duration::ZERO; 3];
    for time in &mut times {
        work[0] = rng.next() as u32;
        let before = processor_time();
        assert_eq!(calls::build_scanned(black_box(text), shape.m, shape.r, shape.h, COUNTED, &mut work, &mut tree).0, 0);
        *time = processor_time() - before;
    }
    times.sort();
    times[1]
}

/// Texts that are made to be slow, compared with books of the same size and settings.
fn time_hostile() {
    println!("\n## Hostile texts beside books, by build_scanned, processor time\n");
    println!("| Text | Size | Leaf/arity/levels | Time | To the mixed book | To the nearly random book |\n|---|---:|---|---:|---:|---:|");
    let mut rng = Rng::new(40);
    for size in [1_048_576, 8_388_608] {
        let books = [Kind::Mixed, Kind::NearlyRandom].map(|kind| book(kind, size, 1));
        let hostile =
            [(Shape { m: 16, r: 4, h: 4 }, hostile::texts(size)), (Shape { m: 1, r: 2, h: 2 }, vec![("random bytes", hostile::random_bytes(size))])];
        for (shape, texts) in hostile {
            let honest = [&books[0], &books[1]].map(|text| scan_time(&mut rng, text, shape));
            let line = |name: &str, time: Duration| {
                let [mixed, random] = honest.map(|book| time.as_secs_f64() / book.as_secs_f64());
                println!("| {name} | {size} | {}/{}/{} | {} | {mixed:.2} | {random:.2} |", shape.m, shape.r, shape.h, shown(time));
            };
            line("mixed book", honest[0]);
            line("nearly random book", honest[1]);
            for (name, text) in &texts {
                line(name, scan_time(&mut rng, text, shape));
            }
        }
    }
}

/// The rows, and the times, of one prefix.
fn time_prefix(tree: &[u8], guide: &[u8], wanted: &[u8]) -> String {
    let (tree, guide) = (|| black_box(tree), || black_box(guide));
    let count = |next: &dyn Fn(&mut u32) -> (u32, u32)| {
        let (mut mark, mut rows) = (0, 0);
        while next(&mut mark).1 != 0 {
            rows += 1;
        }
        rows
    };
    let all = || count(&|mark| calls::next_with_prefix(tree(), wanted, mark));
    let guided = || count(&|mark| calls::next_with_prefix_guided(tree(), guide(), wanted, mark));
    let plain = || prefix::rows_with_prefix(&read::text(&read::Tree::open(tree()).expect("a tree")), wanted).len();
    let ([library, model], [with, _]) = (both(3, all, plain), both(3, guided, all));
    let a_call = |all: Duration| shown(all / (plain() as u32 + 1));
    format!("{} | {} | {} | {} | {} | {}", plain(), shown(library), a_call(library), shown(with), a_call(with), shown(model))
}

/// Find and row with a guide and without, next to the model's find with a binary search over level 0; and making and checking a guide.
fn time_guides() {
    let shape = Shape { m: 64, r: 2, h: 4 };
    println!("\n## Guides: books of 1 MiB, leaf 64, arity 2, levels 4, byte 10 counted\n");
    println!("| Book | Entries | Make | Check | Find | Find with a guide | Binary search | Ratio | Row | Row with a guide |\n|---|---:|---:|---:|---:|---:|---:|---:|---:|---:|");
    for (kind, name) in KINDS {
        let text = book(kind, 1_048_576, 1);
        let tree = fast::tree(&text, shape, COUNTED);
        let guide = guides::guide(&tree).expect("an accepted tree");
        let (tree, guide) = (|| black_box(tree.as_slice()), || black_box(guide.as_slice()));
        let mut table = vec![0; guide().len()];
        let make = fastest(5, &mut || {
            black_box(calls::make_guide(tree(), &mut table));
        });
        assert!(table == guide(), "both make the same guide");
        let right = fastest(5, &mut || {
            black_box(calls::check_guide(tree(), guide()));
        });
        let rows = text.iter().filter(|&&byte| byte == 10).count();
        let mut rng = Rng::new(rows as u64);
        let numbers: Vec<u32> = (0..4000).map(|_| rng.within(1, rows) as u32).collect();
        let found = |(number, place, entered, _): (u32, u32, u32, u32)| (number, place, entered);
        let [guided, bisected] = each(&numbers, |j| found(calls::find_guided(tree(), guide(), 10, j)), |j| fast::find_bisected(tree(), 10, j));
        let [find, _] = each(&numbers, |j| calls::find(tree(), 10, j), |j| fast::find(tree(), 10, j));
        let [mut ours, mut theirs] = [[0; 200]; 2];
        let [row, row_guided] = each(&numbers, |q| calls::row(tree(), q, &mut ours), |q| calls::row_guided(tree(), guide(), q, &mut theirs));
        println!(
            "| {name} | {} | {} | {} | {} | {} | {} | {:.2} | {} | {} |",
            guide().len() / 4,
            shown(make),
            shown(right),
            shown(find),
            shown(guided),
            shown(bisected),
            guided.as_secs_f64() / bisected.as_secs_f64(),
            shown(row),
            shown(row_guided)
        );
    }
}

/// The time of one run.
fn once<T>(work: impl FnOnce() -> T) -> Duration {
    let start = Instant::now();
    black_box(work());
    start.elapsed()
}

/// The shortest of some runs.
fn fastest(runs: usize, work: &mut dyn FnMut()) -> Duration {
    (0..runs).map(|_| once(&mut *work)).min().expect("some runs")
}

/// The shortest run of each, taken in turn.
fn both<T: PartialEq>(runs: usize, mut library: impl FnMut() -> T, mut model: impl FnMut() -> T) -> [Duration; 2] {
    assert!(library() == model(), "both answer the same");
    let mut shortest = [Duration::MAX; 2];
    for _ in 0..runs {
        shortest[0] = shortest[0].min(once(&mut library));
        shortest[1] = shortest[1].min(once(&mut model));
    }
    shortest
}

/// The time of one question, from the shortest of ten runs through all arguments.
fn each<T: PartialEq>(arguments: &[u32], mut library: impl FnMut(u32) -> T, mut model: impl FnMut(u32) -> T) -> [Duration; 2] {
    assert!(arguments.iter().all(|&argument| library(argument) == model(argument)), "both answer the same");
    let all = |question: &mut dyn FnMut(u32) -> T| {
        for &argument in arguments {
            black_box(question(black_box(argument)));
        }
    };
    let times = both(10, || all(&mut library), || all(&mut model));
    times.map(|time| time / arguments.len() as u32)
}

fn shown(time: Duration) -> String {
    let nanoseconds = time.as_secs_f64() * 1e9;
    match nanoseconds {
        below if below < 1e4 => format!("{below:.0} ns"),
        below if below < 1e7 => format!("{:.1} µs", below / 1e3),
        below if below < 1e10 => format!("{:.1} ms", below / 1e6),
        above => format!("{:.1} s", above / 1e9),
    }
}

fn size_row(text: &[u8], name: &str, shape: Shape) {
    let size = |shape: Shape| fast::tree(text, shape, COUNTED).len();
    let percent = |part: usize| format!("{part} ({:.1} %)", 100.0 * part as f64 / text.len() as f64);
    let (smallest, (m, r, h)) = SHORT_LIST.into_iter().map(|(m, r, h)| (size(Shape::new(m, r, h)), (m, r, h))).min().expect("a list");
    let packed = |program: &str, level: &str| compressed(text, program, level).map_or("not installed".to_owned(), percent);
    println!(
        "| {name} | {} | {} | {} with {m}/{r}/{h} | {} | {} |",
        text.len(),
        percent(size(shape)),
        percent(smallest),
        packed("gzip", "-9"),
        packed("xz", "-9e")
    );
}

/// The size of the text compressed by a program; none if it is not installed.
fn compressed(text: &[u8], program: &str, level: &str) -> Option<usize> {
    let mut child = Command::new(program).args([level, "-c"]).stdin(Stdio::piped()).stdout(Stdio::piped()).spawn().ok()?;
    let mut stdin = child.stdin.take()?;
    let text = text.to_vec();
    let writer = std::thread::spawn(move || stdin.write_all(&text));
    let output = child.wait_with_output().ok()?;
    writer.join().ok()?.ok()?;
    output.status.success().then_some(output.stdout.len())
}

fn describe_machine() {
    let field = |path: &str, name: &str| {
        let text = std::fs::read_to_string(path).unwrap_or_default();
        let value = text.lines().find(|line| line.starts_with(name)).and_then(|line| line.split_once(':'));
        value.map_or("unknown".to_owned(), |(_, value)| value.trim().to_owned())
    };
    let processors = std::thread::available_parallelism().map_or(1, usize::from);
    println!("Machine: {}, {processors} processors, memory {}.", field("/proc/cpuinfo", "model name"), field("/proc/meminfo", "MemTotal"));
}
