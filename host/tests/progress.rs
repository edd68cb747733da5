//! Long work is announced: a search for settings before it starts, and a build on a terminal while it runs.

#[path = "support/folder.rs"]
mod folder;
mod support;

use folder::Folder;
use std::time::{Duration, Instant};
use support::books::{even_book, Kind};

/// The search of --best is announced for a long book, with the time that it is likely to take; not for a short one, and not with -q.
#[test]
fn a_search_is_announced() {
    let folder = Folder::new("announced");
    folder.write("long.txt", &even_book(Kind::NearlyRandom, 2 << 20, 1));
    let said = folder.run("build long.txt --best").succeeds().errors();
    let line = said.lines().find(|line| line.starts_with("codebook: the list of settings took ")).unwrap_or_else(|| panic!("{said}"));
    let (list, search) = line.split_once(" s; --best searches on, some ").expect("two times");
    let list: f64 = list.rsplit(' ').next().and_then(|seconds| seconds.parse().ok()).expect("seconds");
    let search: f64 = search.strip_suffix(" s more").and_then(|seconds| seconds.parse().ok()).expect("seconds");
    assert!(search >= 1.0 && (search - 10.0 * list).abs() <= 1.5, "{line}");
    for silent in ["build long.txt -f -q --best", "build long.txt -f", "build small.txt --best"] {
        assert!(!folder.run(silent).succeeds().errors().contains("--best"), "{silent}");
    }
}

/// With several books it is announced once, before the first.
#[test]
fn a_search_of_several_books() {
    let folder = Folder::new("announced-batch");
    folder.write("one.txt", &even_book(Kind::NearlyRandom, 1 << 20, 1));
    folder.write("two.txt", &even_book(Kind::NearlyRandom, 1 << 20, 2));
    let said = folder.run("build one.txt two.txt --best").succeeds().errors();
    assert!(said.starts_with("codebook: --best searches for the settings of 2 books, some ten times as long as without it\n"), "{said}");
    assert_eq!(said.matches("--best").count(), 1, "{said}");
    for silent in ["build one.txt two.txt -f -q --best", "build one.txt small.txt -f --best"] {
        assert!(!folder.run(silent).succeeds().errors().contains("--best"), "{silent}");
    }
}

/// verify builds the tree again and shows the progress on a terminal, as build does.
#[test]
fn a_build_on_a_terminal() {
    let folder = Folder::new("terminal");
    folder.write("long.txt", &even_book(Kind::NearlyRandom, 4 << 20, 1));
    for command in ["build long.txt -o long.tree --leaf 1 --arity 2 --levels 8", "verify long.txt long.tree"] {
        let start = Instant::now();
        let done = folder.shell(&format!("script -qec 'codebook {command}' /dev/null < /dev/null"));
        let quick = start.elapsed() < Duration::from_millis(1500);
        if done.output.status.code() == Some(127) {
            println!("script is not installed: not tried");
            return;
        }
        let shown = done.succeeds().printed();
        let lines: Vec<&str> = shown.split('\r').filter(|line| line.starts_with("building: ")).collect();
        assert!(quick || lines.iter().any(|line| line.contains(" s left") || line.contains(" s, soon done")), "{command}: {shown}");
    }
    assert!(!folder.run("verify long.txt long.tree").succeeds().errors().contains("building: "), "no terminal, no progress");
}
