//! Runs the cases of vectors.txt and of the program `cases` on the library and on the model. The head of vectors.txt describes its lines.

#[path = "support/judge.rs"]
mod judge;
mod model;
mod support;

use codebook::calls;
use judge::{find_agrees, match_agrees, row_agrees, FILL, FILL_WORD};
use model::read::Answer;
use model::{build, check, columns, dates, guides, keys, order, prefix, read, sha256, without_edges, Shape};
use std::collections::HashMap;
use std::fmt::Display;
use support::{from_hex, to_hex};

const VECTORS: &str = include_str!("vectors.txt");
/// The expected output of the program `cases`; its lines that are wrong on purpose concern only that program.
const CASES: &str = include_str!("../../crates/cases/stdout");

/// A search for the next row after a mark, by the bytes of its ranges or prefix.
type NextRow = fn(&[u8], &[u8], u32) -> Answer<(u32, u32, u32)>;

/// The calls of one implementation.
#[allow(clippy::type_complexity)]
struct Calls {
    build: fn(&[u8], Shape, &[u8], &mut [u8]) -> (u32, u32),
    scan: fn(&[u8], Shape, &[u8], usize, &mut [u8]) -> (u32, u32, u32),
    check: fn(&[u8]) -> u32,
    list: fn(&[u8]) -> String,
    byte: fn(&[u8], u32) -> (u32, u32, u32),
    run: fn(&[u8], u32) -> (u32, u64, u32),
    span: fn(&[u8], u32, u32, &mut [u8]) -> (u32, u32),
    count: fn(&[u8], u32, u32) -> (u32, u64, u32),
    find: fn(&[u8], u32, u32) -> Answer<(u32, u32, u32)>,
    row: fn(&[u8], u32, &mut [u8]) -> Answer<(u32, u32)>,
    places: fn(&[u8], &[u8], &mut [u32]) -> (u32, u32),
    next_match: NextRow,
    next_with_prefix: NextRow,
    to_columns: fn(&[u8], u32, &mut [u8]) -> u32,
    from_columns: fn(&[u8], u32, &mut [u8]) -> u32,
    column_row: fn(&[u8], u32, u32, &mut [u8]) -> (u32, u32),
    digest: fn(&[u8], &mut [u8]) -> u32,
    digest_text: fn(&[u8], &mut [u8]) -> u32,
    open_on: fn(&[u8], &[u8], &[u8]) -> (u32, u32),
    days_left: fn(&[u8], &[u8]) -> (u32, i32),
    renew: fn(&[u8]) -> (u32, Vec<u8>),
    make_guide: fn(&[u8], &mut [u8]) -> (u32, u64),
    check_guide: fn(&[u8], &[u8]) -> u32,
    find_guided: fn(&[u8], &[u8], u32, u32) -> Answer<(u32, u32, u32, u32)>,
    order: fn(&[u8], &[u8]) -> (u32, u32, u32, u32),
    without_edges: fn(&[u8], &mut [u8]) -> (u32, u64),
}

#[test]
fn library() {
    run_all(&Calls {
        build: |text, shape, counted, out| calls::build(text, shape.m, shape.r, shape.h, counted, out),
        scan: library_scan,
        check: calls::check,
        list: |tree| codebook::list(tree).0,
        byte: calls::byte,
        run: calls::run_range,
        span: calls::span,
        count: calls::count,
        find: |tree, byte, j| Answer::Exact(calls::find(tree, byte, j)),
        row: |tree, q, buffer| Answer::Exact(calls::row(tree, q, buffer)),
        places: calls::places,
        next_match: |tree, ranges, mark| {
            let mut after = mark;
            let (number, row) = calls::next_match(tree, ranges, &mut after);
            Answer::Exact((number, row, after))
        },
        next_with_prefix: |tree, prefix, mark| {
            let mut after = mark;
            let (number, row) = calls::next_with_prefix(tree, prefix, &mut after);
            Answer::Exact((number, row, after))
        },
        to_columns: calls::to_columns,
        from_columns: calls::from_columns,
        // the call reports no length: it is the width
        column_row: |tree, width, a, buffer| match calls::row_by_columns(tree, width, a, buffer) {
            0 => (0, width),
            number => (number, 0),
        },
        digest: calls::digest,
        digest_text: calls::digest_text,
        open_on: calls::open_on,
        days_left: calls::days_left,
        renew: |day| {
            let mut lent = day.to_vec();
            let number = calls::renew(&mut lent);
            (number, lent)
        },
        make_guide: calls::make_guide,
        check_guide: calls::check_guide,
        find_guided: |tree, guide, byte, j| Answer::Exact(calls::find_guided(tree, guide, byte, j)),
        order: calls::compare,
        without_edges: calls::without_edges,
    });
}

#[test]
fn model() {
    run_all(&Calls {
        build: build::build,
        scan: build::scan,
        check: check::check,
        list: |tree| check::list(tree).1,
        byte: read::byte,
        run: read::run,
        span: read::span,
        count: read::count,
        find: read::find,
        row: read::row,
        places: read::places,
        next_match: keys::next_match,
        next_with_prefix: prefix::next_with_prefix,
        to_columns: columns::to_columns,
        from_columns: columns::from_columns,
        column_row: columns::row,
        digest: sha256::digest,
        digest_text: sha256::digest_text,
        open_on: dates::open_on,
        days_left: dates::days_left,
        renew: dates::renew,
        make_guide: guides::make,
        check_guide: guides::check_guide,
        find_guided: guides::find,
        order: order::order,
        without_edges: without_edges::without_edges,
    });
}

/// The builder with one scan a level, in a table of this many words, filled with one value. Afterwards it is unspecified, except on a refusal other than 4.
fn library_scan(text: &[u8], shape: Shape, counted: &[u8], words: usize, out: &mut [u8]) -> (u32, u32, u32) {
    let filled = u32::from_le_bytes([FILL; 4]);
    let mut work = vec![filled; words];
    let answer = calls::build_scanned(text, shape.m, shape.r, shape.h, counted, &mut work, out);
    assert!(answer.0 == 0 || answer.0 == 4 || work.iter().all(|&word| word == filled));
    answer
}

fn run_all(calls: &Calls) {
    run_file(calls, VECTORS);
    run_file(calls, CASES);
}

fn run_file(calls: &Calls, file: &str) {
    let mut bytes: HashMap<&str, Vec<u8>> = HashMap::new();
    let mut in_force = true;
    let (mut run, mut wrong) = (0, Vec::new());
    for line in file.lines().filter(|line| !line.is_empty() && !line.starts_with('#') && !line.contains(" => wrong: ")) {
        let tokens: Vec<&str> = line.split(' ').collect();
        match tokens[..] {
            ["landed", request] => in_force = request == "114",
            ["text" | "tree", name, hex] => {
                bytes.insert(name, from_hex(hex));
            }
            ["repeat", name, hex, times] => {
                bytes.insert(name, from_hex(hex).repeat(times.parse().expect("a number")));
            }
            ["pad", name, tree, length] => {
                let mut padded = bytes[tree].clone();
                padded.resize(length.parse().expect("a number"), 0);
                bytes.insert(name, padded);
            }
            _ if !in_force => {}
            _ => {
                let arrow = tokens.iter().position(|&token| token == "=>").expect("every item has an answer");
                let got = item(calls, &bytes, &tokens[..arrow], &tokens[arrow + 1..]);
                run += 1;
                if let Err(got) = got {
                    wrong.push(format!("{line}\n    got {got}"));
                }
            }
        }
    }
    assert!(run >= 500, "only {run} items were run");
    assert!(wrong.is_empty(), "{} of {run} items are wrong:\n{}", wrong.len(), wrong.join("\n"));
}

/// Runs one item. Returns the result if it is not the expected one.
fn item(calls: &Calls, bytes: &HashMap<&str, Vec<u8>>, item: &[&str], expected: &[&str]) -> Result<(), String> {
    let number = |at: usize| item[at].parse::<u32>().expect("a number");
    let lent = |at: usize| vec![FILL; item[at].parse().expect("a length")];
    if let Some(got) = on_days(calls, item) {
        return if got == expected.join(" ") { Ok(()) } else { Err(got) };
    }
    let subject = &bytes[item[1]];
    let got = match item[0] {
        "build" => {
            let mut out = lent(6);
            let (refusal, size) = (calls.build)(subject, Shape::new(number(2), number(3), number(4)), &from_hex(item[5]), &mut out);
            format!("{refusal} {size} {}", to_hex(&out))
        }
        "scan" => {
            let mut out = lent(7);
            let words = item[6].parse().expect("a number");
            let (refusal, size, windows) = (calls.scan)(subject, Shape::new(number(2), number(3), number(4)), &from_hex(item[5]), words, &mut out);
            format!("{refusal} {size} {windows} {}", to_hex(&out))
        }
        "check" => (calls.check)(subject).to_string(),
        "list" => (calls.list)(subject).replace('\n', "/"),
        "byte" => figures((calls.byte)(subject, number(2))),
        "run" => figures((calls.run)(subject, number(2))),
        "count" => figures((calls.count)(subject, number(2), number(3))),
        "span" => {
            let mut buffer = lent(4);
            let (refusal, entered) = (calls.span)(subject, number(2), number(3), &mut buffer);
            format!("{refusal} {entered} {}", to_hex(&buffer))
        }
        "places" => {
            let mut table = vec![FILL_WORD; item[3].parse().expect("a length")];
            let (refusal, places) = (calls.places)(subject, &from_hex(item[2]), &mut table);
            format!("{refusal} {places} {}", words(&table))
        }
        "digest" | "digest_text" => {
            let mut out = lent(2);
            let refusal = if item[0] == "digest" { (calls.digest)(subject, &mut out) } else { (calls.digest_text)(subject, &mut out) };
            format!("{refusal} {}", to_hex(&out))
        }
        "columns" | "rows" => {
            let mut out = lent(3);
            let refusal = if item[0] == "columns" {
                (calls.to_columns)(subject, number(2), &mut out)
            } else {
                (calls.from_columns)(subject, number(2), &mut out)
            };
            format!("{refusal} {}", to_hex(&out))
        }
        "column" => {
            let mut buffer = lent(4);
            let (refusal, length) = (calls.column_row)(subject, number(2), number(3), &mut buffer);
            format!("{refusal} {length} {}", to_hex(&buffer))
        }
        "guide" => {
            let mut table = vec![FILL; 4 * number(2) as usize];
            let (refusal, entries) = (calls.make_guide)(subject, &mut table);
            format!("{refusal} {entries} {}", words(&table.chunks(4).map(|word| model::word(word, 0)).collect::<Vec<u32>>()))
        }
        "guidecheck" => (calls.check_guide)(subject, &guide(item[2])).to_string(),
        "guided" => return find_guided(calls, subject, &guide(item[2]), number(3), number(4), expected),
        "order" => order::words((calls.order)(subject, &bytes[item[2]])),
        "without_edges" => {
            let mut buffer = lent(2);
            let (refusal, size) = (calls.without_edges)(subject, &mut buffer);
            format!("{refusal} {size} {}", to_hex(&buffer))
        }
        "match" => return next_row(calls.next_match, subject, &ranges(item[2]), number(3), expected),
        "prefix" => return next_row(calls.next_with_prefix, subject, &from_hex(item[2]), number(3), expected),
        "find" => return find(calls, subject, number(2), number(3), expected),
        "row" => return row(calls, subject, number(2), lent(3), expected),
        other => panic!("no such item: {other}"),
    };
    if got == expected.join(" ") {
        Ok(())
    } else {
        Err(got)
    }
}

/// An item on licence dates: its days are in hexadecimal, and it has no tree.
fn on_days(calls: &Calls, item: &[&str]) -> Option<String> {
    let day = |at: usize| from_hex(item[at]);
    Some(match item[0] {
        "open" => {
            let (number, open) = (calls.open_on)(&day(1), &day(2), &day(3));
            format!("{number} {open}")
        }
        "left" => {
            let (number, days) = (calls.days_left)(&day(1), &day(2));
            format!("{number} {days}")
        }
        // a refusal leaves the day unchanged, and the item has `-`
        "renew" => match (calls.renew)(&day(1)) {
            (0, after) => format!("0 {}", to_hex(&after)),
            (number, after) if after == day(1) => format!("{number} -"),
            (number, after) => format!("{number} {}", to_hex(&after)),
        },
        _ => return None,
    })
}

fn figures((number, first, second): (u32, impl Display, u32)) -> String {
    format!("{number} {first} {second}")
}

/// Words in decimal, separated by commas.
fn words(table: &[u32]) -> String {
    if table.is_empty() {
        return "-".to_owned();
    }
    table.iter().map(u32::to_string).collect::<Vec<_>>().join(",")
}

fn find(calls: &Calls, tree: &[u8], byte: u32, j: u32, expected: &[&str]) -> Result<(), String> {
    let number = |at: usize| expected[at].parse::<u32>().expect("a number");
    let expected = match expected {
        ["free", n] => Answer::Unspecified(n.parse().expect("a number")),
        _ => Answer::Exact((number(0), number(1), number(2))),
    };
    let got = (calls.find)(tree, byte, j);
    let agrees = match got {
        Answer::Exact(got) => find_agrees(expected, got),
        Answer::Unspecified(_) => got == expected,
    };
    if agrees {
        Ok(())
    } else {
        Err(format!("{got:?}"))
    }
}

fn row(calls: &Calls, tree: &[u8], q: u32, mut buffer: Vec<u8>, expected: &[&str]) -> Result<(), String> {
    let number = |at: usize| expected[at].parse::<u32>().expect("a number");
    let (answer, expected_buffer) = match expected {
        ["free", n] => (Answer::Unspecified(n.parse().expect("a number")), Vec::new()),
        _ => (Answer::Exact((number(0), number(1))), from_hex(expected[2])),
    };
    let got = (calls.row)(tree, q, &mut buffer);
    let agrees = match got {
        Answer::Exact(got) => row_agrees(tree, (answer, &expected_buffer), (got, &buffer)),
        Answer::Unspecified(_) => got == answer,
    };
    if agrees {
        Ok(())
    } else {
        Err(format!("{got:?} {}", to_hex(&buffer)))
    }
}

/// The ranges of a worn key as the call takes them: in hexadecimal, or as LOW-HIGH,LOW-HIGH,..
fn ranges(token: &str) -> Vec<u8> {
    let pair = |range: &str| range.split_once('-').and_then(|(low, high)| Some([low.parse().ok()?, high.parse().ok()?]));
    let pairs: Option<Vec<[u8; 2]>> = token.split(',').map(pair).collect();
    pairs.map_or_else(|| from_hex(token), |pairs| pairs.concat())
}

fn next_row(call: NextRow, tree: &[u8], wanted: &[u8], mark: u32, expected: &[&str]) -> Result<(), String> {
    let number = |at: usize| expected[at].parse::<u32>().expect("a number");
    let expected = match expected {
        ["free"] => Answer::Unspecified(u64::MAX),
        _ => Answer::Exact((number(0), number(1), number(2))),
    };
    let got = call(tree, wanted, mark);
    let agrees = match got {
        Answer::Exact(got) => match_agrees(expected, mark, got),
        Answer::Unspecified(_) => matches!(expected, Answer::Unspecified(_)),
    };
    if agrees {
        Ok(())
    } else {
        Err(format!("{got:?}"))
    }
}

/// The bytes of a guide: its words in decimal, separated by commas, or `-`.
fn guide(token: &str) -> Vec<u8> {
    let words = token.split(',').filter(|&word| word != "-");
    words.flat_map(|word| word.parse::<u32>().expect("a word").to_le_bytes()).collect()
}

fn find_guided(calls: &Calls, tree: &[u8], guide: &[u8], byte: u32, j: u32, expected: &[&str]) -> Result<(), String> {
    let number = |at: usize| expected[at].parse::<u32>().expect("a number");
    let got = (calls.find_guided)(tree, guide, byte, j);
    let agrees = match (expected[0], got) {
        ("free", Answer::Exact((refusal, place, entered, steps))) => {
            find_agrees(Answer::Unspecified(number(1).into()), (refusal, place, entered)) && (refusal == 0 || steps == 0)
        }
        ("free", Answer::Unspecified(n)) => u64::from(number(1)) == n,
        (_, Answer::Exact(got)) => got == (number(0), number(1), number(2), number(3)),
        _ => false,
    };
    if agrees {
        Ok(())
    } else {
        Err(format!("{got:?}"))
    }
}
