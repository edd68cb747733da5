//! `picture`: a tree's levels as an SVG drawing.

use crate::build::{shape, share};
use crate::check::open;
use crate::given::Given;
use crate::input::{Source, TREE};
use crate::json::Object;
use crate::output::{self, Output};
use crate::say::{grouped, several};
use crate::stats::parts;
use crate::Failure;
use codebook::{Block, Tree};

/// The text's width, and where it begins.
const WIDTH: usize = 1100;
const LEFT: usize = 80;
/// Heights of a kept block, of one that points, and of the arrows above a level.
const TALL: usize = 40;
const LOW: usize = 18;
const ARROWS: usize = 44;
/// A level with no more pointing blocks has arrows.
const FEW: usize = 40;
const KEPT: &str = "#37404a";
/// The share of a pixel's text that is kept, where blocks are too narrow to be drawn one by one.
const KEPT_SHARE: &str = "#9aa7b5";

/// What the drawing has, for the legend to name.
#[derive(Clone, Copy, Default)]
struct Shown {
    kept: bool,
    pointing: bool,
    arrows: bool,
    kept_share: bool,
    pointing_share: bool,
}

pub fn picture(given: &Given) -> Result<(), Failure> {
    let source = Source::open(given.file(0))?;
    let output = Output::of(given, &source)?;
    let input = source.read(&TREE)?;
    let svg = draw(&input.name, open(&input, false)?);
    let (name, standard) = (output.name.clone(), output.is_standard());
    output.write(svg.as_bytes())?;
    let words = if standard { String::new() } else { format!("{}: its picture to {name}\n", input.name) };
    output::report(given, standard, &Object::new().text("tree", &input.name).text("picture", &name), &words)
}

/// The whole drawing.
fn draw(name: &str, tree: Tree) -> String {
    let (mut body, mut y, mut shown) = (head(name, tree), 96, Shown::default());
    for (number, level) in tree.levels().iter().enumerate() {
        let blocks: Vec<Block> = tree.blocks(number as u32).collect();
        let figures = format!(
            "blocks of {}: {} kept, {} pointing",
            several(level.block_length, "byte"),
            grouped(level.blocks - level.pointing),
            grouped(level.pointing)
        );
        y += if (1..=FEW as u32).contains(&level.pointing) { ARROWS } else { 0 };
        body += &words(LEFT - 8, y + 26, "end", &format!("level {number}"));
        body += &words(LEFT, y + TALL + 15, "start", &figures);
        body += &lane(&blocks, tree.text_length().max(1).into(), y, &mut shown);
        y += TALL + 34;
    }
    let parts: Vec<String> = parts(tree).iter().map(|(part, bytes)| format!("{part} {}", grouped(*bytes))).collect();
    let (legend, y) = legend(y + 10, shown);
    body += &(legend + &words(LEFT, y + 10, "start", &format!("the tree's bytes: {}", parts.join(", "))));
    let (width, height) = (LEFT + WIDTH + 50, y + 26);
    format!(
        "<svg xmlns=\"http://www.w3.org/2000/svg\" viewBox=\"0 0 {width} {height}\" width=\"{width}\" height=\"{height}\" font-family=\"sans-serif\" font-size=\"13\">\n\
         <defs><marker id=\"end\" markerWidth=\"7\" markerHeight=\"7\" refX=\"6\" refY=\"3.5\" orient=\"auto\"><path d=\"M0 0L7 3.5L0 7z\" fill=\"#555\"/></marker></defs>\n\
         <rect width=\"{width}\" height=\"{height}\" fill=\"#fff\"/>\n{body}</svg>\n"
    )
}

/// The tree's figures, and the strip that has the colours of the text's places.
fn head(name: &str, tree: Tree) -> String {
    let (size, length) = (tree.size(), tree.text_length());
    let figures = format!(
        "{} of text; tree {}, {}; {}",
        several(length, "byte"),
        several(size as u64, "byte"),
        share(size, length as usize),
        shape(&tree.settings())
    );
    let mut text = format!("<text x=\"{LEFT}\" y=\"26\" font-size=\"17\" font-weight=\"bold\">{}</text>\n", escaped(name));
    text += &words(LEFT, 46, "start", &figures);
    for column in (0..WIDTH).step_by(10) {
        text += &rect(column, 10, 56, 12, &colour(column as f64 / WIDTH as f64));
    }
    let ends = [(LEFT, "start", "place 0".to_owned()), (LEFT + WIDTH, "end", grouped(length))];
    text + &ends.map(|(x, anchor, place)| words(x, 84, anchor, &place)).concat() + &words(LEFT - 8, 67, "end", "the text")
}

/// A level's blocks, one by one where there is room, else as shares of pixels.
fn lane(blocks: &[Block], length: u64, y: usize, shown: &mut Shown) -> String {
    let scale = |place: u32| (u64::from(place) * WIDTH as u64 / length) as usize;
    let pointing: Vec<(&Block, u32)> = blocks.iter().filter_map(|block| Some((block, block.points_to?))).collect();
    let mut text = format!("<path d=\"M{LEFT} {}h{WIDTH}\" stroke=\"#bbb\"/>\n", y + TALL);
    if blocks.iter().all(|block| block.length as usize * WIDTH >= 3 * length as usize || block.start + block.length == length as u32) {
        for block in blocks {
            let (from, to) = (scale(block.start), scale(block.start + block.length));
            text += &drawn(from, (to - from).saturating_sub(1).max(1), y, block.points_to.map(|place| f64::from(place) / length as f64));
        }
        shown.kept |= pointing.len() < blocks.len();
        shown.pointing |= !pointing.is_empty();
    } else {
        text += &shares_drawn(&shares(blocks, length), length, y);
        shown.kept_share |= pointing.len() < blocks.len();
        shown.pointing_share |= !pointing.is_empty();
    }
    if pointing.len() <= FEW {
        let middle = |place: u32, block: &Block| scale(place) + (scale(block.start + block.length) - scale(block.start)) / 2;
        text += &pointing.iter().map(|&(block, place)| arrow(middle(block.start, block), middle(place, block), y)).collect::<String>();
        shown.arrows |= !pointing.is_empty();
    }
    text
}

/// How much of a pixel's text is kept on a level and how much points, in parts of the text's length, and where the first of these blocks points to.
#[derive(Clone, Copy, Default)]
struct Share {
    kept: u64,
    pointing: u64,
    place: Option<u32>,
}

/// The shares of all pixels. A pixel's text is the text's length divided by `WIDTH`, so that places are counted in `WIDTH`-ths of a byte.
fn shares(blocks: &[Block], length: u64) -> Vec<Share> {
    let mut pixels = vec![Share::default(); WIDTH];
    for block in blocks {
        let (from, to) = (u64::from(block.start) * WIDTH as u64, u64::from(block.start + block.length) * WIDTH as u64);
        let (first, last) = ((from / length) as usize, to.div_ceil(length) as usize);
        for (at, share) in pixels.iter_mut().enumerate().take(last).skip(first) {
            let pixel = at as u64 * length;
            let overlap = to.min(pixel + length) - from.max(pixel);
            match block.points_to {
                None => share.kept += overlap,
                Some(place) => (share.pointing, share.place) = (share.pointing + overlap, share.place.or(Some(place))),
            }
        }
    }
    pixels
}

/// Draws the share that is kept at the bottom, and above it the share that points, in the colour of its place. Equal neighbours are one shape.
fn shares_drawn(pixels: &[Share], length: u64, y: usize) -> String {
    let height = |share: u64| ((TALL as u64 * share + length / 2) / length) as usize;
    let look = |share: &Share| {
        let (kept, both) = (height(share.kept), height(share.kept + share.pointing));
        (kept, both - kept, share.place.map_or(0, |place| u64::from(place) * 32 / length))
    };
    let mut text = String::new();
    let mut from = 0;
    while from < pixels.len() {
        let (kept, pointing, place) = look(&pixels[from]);
        let same = pixels[from..].iter().take_while(|share| look(share) == (kept, pointing, place)).count();
        let bottom = y + TALL - kept;
        text += &if kept > 0 { rect(from, same, bottom, kept, KEPT_SHARE) } else { String::new() };
        text += &if pointing > 0 { rect(from, same, bottom - pointing, pointing, &colour(place as f64 / 32.0)) } else { String::new() };
        from += same;
    }
    text
}

/// A kept block, tall; or one that points, low and in the colour of its target.
fn drawn(from: usize, width: usize, y: usize, target: Option<f64>) -> String {
    match target {
        None => rect(from, width, y, TALL, KEPT),
        Some(place) => rect(from, width, y + TALL - LOW, LOW, &colour(place)),
    }
}

/// From a pointing block to the place where its occurrence begins.
fn arrow(from: usize, to: usize, y: usize) -> String {
    let (from, to, start) = (from + LEFT, to + LEFT, y + TALL - LOW);
    let high = y - 10 - (from.abs_diff(to) * (ARROWS - 14) / WIDTH).min(ARROWS - 14);
    format!(
        "<path d=\"M{from} {start}V{y}Q{} {} {to} {y}\" fill=\"none\" stroke=\"#555\" stroke-width=\"1\" marker-end=\"url(#end)\"/>\n",
        (from + to) / 2,
        2 * high - y
    )
}

/// Draws a sample of what the legend names, at a place.
type Sample<'a> = &'a dyn Fn(usize, usize) -> String;

/// The legend, with samples, in as many lines as needed. Returns where it ends.
fn legend(y: usize, shown: Shown) -> (String, usize) {
    let arrow_at = |x: usize, y: usize| arrow(x + 58, x, y + 22).replace(&format!("V{}", y + 22), "");
    let entries: [(bool, usize, Sample, &str); 5] = [
        (shown.kept, 24, &|x, y| drawn(x, 24, y, None), "kept: cut into children, or leaf bytes"),
        (shown.pointing, 24, &|x, y| drawn(x, 24, y, Some(0.2)), "pointing: its bytes occur where the strip has its colour"),
        (shown.arrows, 60, &arrow_at, "to that place"),
        (shown.kept_share, 24, &|x, y| rect(x, 24, y + TALL - LOW, LOW, KEPT_SHARE), "the share of a pixel's text that is kept"),
        (shown.pointing_share, 24, &|x, y| rect(x, 24, y + TALL - LOW, LOW, &colour(0.2)), "the share that points, in the colour of the place"),
    ];
    let (mut text, mut x, mut y) = (String::new(), 0, y);
    for (_, width, sample, meaning) in entries.into_iter().filter(|(shown, ..)| *shown) {
        let end = x + width + 8 + 7 * meaning.len();
        if x > 0 && end > WIDTH {
            (x, y) = (0, y + TALL + 10);
        }
        text += &(sample(x, y) + &words(LEFT + x + width + 8, y + 35, "start", meaning));
        x += width + 30 + 7 * meaning.len();
    }
    (text, y + TALL + 16)
}

fn rect(x: usize, width: usize, y: usize, height: usize, fill: &str) -> String {
    format!("<rect x=\"{}\" y=\"{y}\" width=\"{width}\" height=\"{height}\" fill=\"{fill}\"/>\n", x + LEFT)
}

fn words(x: usize, y: usize, anchor: &str, words: &str) -> String {
    format!("<text x=\"{x}\" y=\"{y}\" text-anchor=\"{anchor}\">{}</text>\n", escaped(words))
}

/// Text escaped for use between tags.
fn escaped(words: &str) -> String {
    let plain: String = words.chars().filter(|letter| !letter.is_control()).collect();
    plain.replace('&', "&amp;").replace('<', "&lt;").replace('>', "&gt;")
}

/// The colour of a share of the text: from orange over red and violet to blue and green.
fn colour(share: f64) -> String {
    const STOPS: [[f64; 3]; 5] = [[245.0, 158.0, 11.0], [220.0, 38.0, 38.0], [168.0, 60.0, 200.0], [37.0, 99.0, 235.0], [16.0, 160.0, 110.0]];
    let at = share.clamp(0.0, 1.0) * 4.0;
    let stop = (at as usize).min(3);
    let mix = |channel: usize| (STOPS[stop][channel] + (at - stop as f64) * (STOPS[stop + 1][channel] - STOPS[stop][channel])) as u8;
    format!("#{:02x}{:02x}{:02x}", mix(0), mix(1), mix(2))
}
