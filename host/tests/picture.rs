//! `codebook picture`: a well-formed SVG drawing with the expected contents.

#[path = "support/folder.rs"]
mod folder;
mod support;

use folder::Folder;
use support::books::{book, Kind};

/// Tags that are opened are closed, in order; quotes of attributes are even.
fn well_formed(svg: &str) {
    let mut open = Vec::new();
    for tag in svg.split('<').skip(1).map(|tag| tag.split('>').next().unwrap_or_default()) {
        assert_eq!(tag.matches('"').count() % 2, 0, "{tag}");
        let name = tag.split([' ', '/']).next().unwrap_or_default();
        match (tag.strip_prefix('/'), tag.ends_with('/')) {
            (Some(name), _) => assert_eq!(open.pop(), Some(name)),
            (None, true) => {}
            (None, false) => open.push(name),
        }
    }
    assert!(open.is_empty());
}

/// The number of blocks of a height.
fn blocks(svg: &str, height: usize) -> usize {
    svg.matches(&format!("height=\"{height}\" fill=\"")).count()
}

#[test]
fn the_small_book() {
    let folder = Folder::with_tree("picture");
    folder.run("picture small.tree -o small.svg").succeeds().prints("small.tree: its picture to small.svg\n").says("");
    let svg = String::from_utf8(folder.read("small.svg")).expect("a text");
    well_formed(&svg);
    // 40 kept blocks and 9 that point, with an arrow each, and one of each in the legend
    assert_eq!((blocks(&svg, 40), blocks(&svg, 18), svg.matches("marker-end").count()), (41, 10, 10));
    for words in [
        ">small.tree<",
        ">level 0<",
        ">level 1<",
        "blocks of 192 bytes: 6 kept, 9 pointing",
        "the tree's bytes: header 100, records 1,372, edges 3,136, leaf bytes 1,072",
    ] {
        assert!(svg.contains(words), "{words}");
    }
    folder.run("picture small.tree -o small.svg").status(2);
    assert_eq!(folder.run("picture small.tree").output.stdout, svg.as_bytes());
    folder.run("picture small.txt").status(1).prints("");
}

/// The value of an attribute.
fn attribute(tag: &str, name: &str) -> usize {
    let value = tag.split(&format!(" {name}=\"")).nth(1).and_then(|rest| rest.split('"').next());
    value.and_then(|value| value.parse().ok()).unwrap_or_else(|| panic!("no {name}: {tag}"))
}

/// Blocks narrower than a pixel are drawn as the shares of the pixel's text that are kept and that point, so that areas are proportional to bytes.
#[test]
fn a_long_book() {
    let folder = Folder::new("long-picture");
    for (kind, name) in [(Kind::Repetitive, "a"), (Kind::Mixed, "b"), (Kind::NearlyRandom, "c")] {
        folder.write(&format!("{name}.txt"), &book(kind, 1 << 20, 1));
        folder.run(&format!("build {name}.txt -q --leaf 16 --arity 4 --levels 4")).succeeds();
        folder.run(&format!("picture {name}.tree -q -o {name}.svg")).succeeds().prints("");
        let svg = String::from_utf8(folder.read(&format!("{name}.svg"))).expect("a text");
        well_formed(&svg);
        assert!(svg.len() < 1_000_000, "{}", svg.len());
        // no block is drawn by itself, and the legend does not name one; a few pointing blocks have arrows
        assert!(!svg.contains("fill=\"#37404a\"") && !svg.contains("kept: cut") && !svg.contains("pointing: its"));
        assert_eq!(svg.contains("to that place"), svg.contains("marker-end"));
        assert!(svg.contains("the share of a pixel's text that is kept"));
        assert_eq!(svg.contains("the share that points"), kind != Kind::NearlyRandom);
        let shares: Vec<&str> = svg.lines().filter(|line| line.starts_with("<rect ") && line.contains("#9aa7b5")).collect();
        let area: usize = shares.iter().map(|tag| attribute(tag, "width") * attribute(tag, "height")).sum();
        let bytes = folder.read(&format!("{name}.tree"));
        let tree = codebook::Tree::checked(&bytes).expect("a tree");
        let kept = (0..4).flat_map(|level| tree.blocks(level).collect::<Vec<_>>()).filter(|block| block.points_to.is_none());
        let kept = kept.map(|block| f64::from(block.length)).sum::<f64>() / f64::from(tree.text_length());
        // less the sample in the legend
        let drawn = (area - 24 * 18) as f64 / (1100.0 * 40.0);
        assert!((drawn - kept).abs() < 0.02 * kept, "{name}: {drawn} and {kept}");
    }
}

/// The legend names what is drawn.
#[test]
fn legends() {
    let folder = Folder::with_tree("legends");
    let legend = |tree: &str| {
        let svg = folder.run(&format!("picture {tree}")).succeeds().printed();
        let named = ["kept: cut", "pointing: its", "to that place", "share of a pixel", "share that points"].map(|words| svg.contains(words));
        named.map(usize::from)
    };
    assert_eq!(legend("small.tree"), [1, 1, 1, 0, 0]);
    folder.run("build small.txt -q -o one.tree --leaf 256 --arity 2 --levels 1").succeeds();
    assert_eq!(legend("one.tree"), [1, 0, 0, 0, 0]);
    folder.run("build small.txt -q -o narrow.tree --leaf 1 --arity 2 --levels 1").succeeds();
    assert_eq!(legend("narrow.tree"), [0, 0, 0, 1, 0]);
    folder.write("empty.txt", b"");
    folder.run("build empty.txt -q").succeeds();
    assert_eq!(legend("empty.tree"), [0, 0, 0, 0, 0]);
}

/// A name is escaped: it adds no tags.
#[test]
fn names() {
    let folder = Folder::new("tags");
    folder.write("a<b>&c.txt", b"A 1\n");
    folder.run("build a<b>&c.txt -q").succeeds();
    let svg = folder.run("picture a<b>&c.tree").printed();
    well_formed(&svg);
    assert!(svg.contains("a&lt;b&gt;&amp;c.tree"));
}
