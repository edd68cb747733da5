//! SHA-256 of texts and of trees' texts: the library compared with the model and the system's sha256sum.
//!
//! ROUNDS sets the number of rounds of the differential test, SEED the start of the random numbers.

#[path = "support/damage.rs"]
mod damage;
mod model;
mod support;

use codebook::{build_scanned, calls, digest_text, Settings, Tree};
use model::{fast, read, sha256};
use std::collections::BTreeSet;
use std::fs;
use std::path::{Path, PathBuf};
use std::process::Command;
use support::{rounds, setting, to_hex, Rng};

/// The value of every byte of a buffer before a call.
const FILL: u8 = 0xEE;

/// The model on the examples published for the standard, the empty message, a million letters, and lengths around the ends of blocks.
#[test]
fn published_vectors() {
    let two = "abcdbcdecdefdefgefghfghighijhijkijkljklmklmnlmnomnopnopq";
    let four = "abcdefghbcdefghicdefghijdefghijkefghijklfghijklmghijklmnhijklmnoijklmnopjklmnopqklmnopqrlmnopqrsmnopqrstnopqrstu";
    let letters = |length: usize| "a".repeat(length);
    for (message, digest) in [
        (String::new(), "e3b0c44298fc1c149afbf4c8996fb92427ae41e4649b934ca495991b7852b855"),
        ("abc".to_owned(), "ba7816bf8f01cfea414140de5dae2223b00361a396177a9cb410ff61f20015ad"),
        (two.to_owned(), "248d6a61d20638b8e5c026930c3e6039a33ce45964ff2167f6ecedd419db06c1"),
        (four.to_owned(), "cf5b16a778af8380036ce59e7b0492370b249b11e8f07a51afac45037afee9d1"),
        (letters(1_000_000), "cdc76e5c9914fb9281a1c7e284d73e67f1809a48a497200e046d39ccc7112cd0"),
        (letters(55), "9f4390f8d30c2dd92ec9f095b65e2b9ae9b0a925a5258e241c9f1e910f734318"),
        (letters(56), "b35439a4ac6f0948b6d6f9e3c6af0f5f590ce20f1bde7090ef7970686ec6738a"),
        (letters(63), "7d3e74a05d7db15bce4ad9ec0658ea98e3f06eeecf16b4c6fff2da457ddc2f34"),
        (letters(64), "ffe054fe7ae0cb6dc65c3af9b61d5209f439851db43d0ba5997337df154668eb"),
        (letters(119), "31eba51c313a5c08226adf18d4a359cfdfd8d2e816b13f4af952f7ea6584dcfb"),
        (letters(120), "2f3d335432c70b580af0e8e1b3674a7c020d683aa5f73aaaedfdc55af904c21c"),
    ] {
        assert_eq!(to_hex(&sha256::sha256(message.as_bytes())), digest, "{} bytes", message.len());
        assert_eq!(digest_text(message.as_bytes()).to_string(), digest, "{} bytes", message.len());
    }
}

/// The lengths at which padding and blocks can go wrong: 0 to 300, around each multiple of 64 up to 4,096, around 1 and 8 MiB.
fn lengths() -> BTreeSet<usize> {
    let around = |length: usize| [length - 1, length, length + 1];
    let multiples = (5..=64).flat_map(|k| [64 * k - 9, 64 * k - 8]).chain((5..=64).flat_map(|k| around(64 * k)));
    let megabytes = around(1 << 20).into_iter().chain([(8 << 20) - 65, (8 << 20) - 64, (8 << 20) - 9, (8 << 20) - 8, (8 << 20) - 1, 8 << 20]);
    (0..=300).chain(multiples).chain(megabytes).collect()
}

/// A folder with a file for each length, and its name.
fn messages() -> (PathBuf, Vec<(String, Vec<u8>)>) {
    let folder = Path::new(env!("CARGO_TARGET_TMPDIR")).join("messages");
    fs::create_dir_all(&folder).expect("a folder");
    let mut rng = Rng::new(setting("SEED", 1));
    let noise: Vec<u8> = (0..(8 << 20) / 8).flat_map(|_| rng.next().to_le_bytes()).collect();
    let files = lengths().into_iter().map(|length| (format!("{length}.txt"), noise[noise.len() - length..].to_vec())).collect::<Vec<_>>();
    for (name, message) in &files {
        fs::write(folder.join(name), message).expect("a file");
    }
    (folder, files)
}

/// digest_text and the model on messages of these lengths, and digest on a tree of each, compared with sha256sum.
#[test]
fn every_length() {
    let (folder, files) = messages();
    let printed = Command::new("sha256sum").args(files.iter().map(|(name, _)| name)).current_dir(&folder).output().expect("sha256sum");
    let printed = String::from_utf8(printed.stdout).expect("lines");
    assert_eq!(printed.lines().count(), files.len());
    let settings = Settings { leaf: 256, arity: 2, levels: 1, counted: Vec::new() };
    for (line, (name, message)) in printed.lines().zip(&files) {
        let digest = digest_text(message);
        assert_eq!(line, format!("{digest}  {name}"));
        assert_eq!(sha256::sha256(message), digest.0, "{name}");
        // short texts by a tree with pointing blocks too
        let levels = if message.len() <= 4200 { [1, 3].as_slice() } else { &[1] };
        for &levels in levels {
            let tree = build_scanned(message, &Settings { levels, ..settings.clone() }).expect("a tree").tree;
            assert_eq!(Tree::unchecked(&tree).digest(), Ok(digest), "{name}, {levels} levels");
        }
    }
    fs::remove_dir_all(folder).expect("a folder");
}

/// Both calls compared with the model, in buffers of 0 to 40 bytes. Returns the refusals that occurred.
fn ask(rng: &mut Rng, tree: &[u8], reached: &mut BTreeSet<u32>) {
    for room in [rng.below(41), rng.within(31, 33), 32] {
        let (mut ours, mut theirs) = (vec![FILL; room].into_boxed_slice(), vec![FILL; room]);
        let got = calls::digest(tree, &mut ours);
        assert_eq!(got, sha256::digest(tree, &mut theirs), "in {room} {}", to_hex(tree));
        assert!(*ours == *theirs, "in {room} {}", to_hex(tree));
        reached.insert(got);
        // the tree's own bytes as a text
        let got = calls::digest_text(tree, &mut ours);
        assert_eq!(got, sha256::digest_text(tree, &mut theirs), "in {room} {}", to_hex(tree));
        assert!(*ours == *theirs, "in {room} {}", to_hex(tree));
    }
}

/// A valid tree of either layout gives the digest of its text.
#[test]
fn valid_trees() {
    let mut reached = BTreeSet::new();
    rounds(3000, |rng| {
        // sometimes more than one part of 1,024 bytes
        let longest = if rng.one_in(8) { 3100 } else { 200 };
        let (text, shape, counted) = (damage::text(rng, longest), damage::shape(rng), damage::counted(rng));
        let tree = match rng.one_in(2) && text.len() < 200 {
            true => damage::other_tree(rng, &text, shape, &counted),
            false => fast::tree(&text, shape, &counted),
        };
        ask(rng, &tree, &mut reached);
        let tree = Tree::checked(&tree).expect("a valid tree");
        assert_eq!(tree.digest(), Ok(digest_text(&text)));
    });
    if setting("ROUNDS", 3000) >= 100 {
        assert_eq!(reached, [0, 13].into());
    }
}

/// Any bytes: damaged trees and wild ones, of both layouts.
#[test]
fn damaged_trees() {
    let mut reached = BTreeSet::new();
    rounds(12_000, |rng| {
        let tree = damage::hurt_tree(rng, |rng| {
            let (text, shape, counted) = (damage::text(rng, 150), damage::shape(rng), damage::counted(rng));
            if rng.one_in(2) {
                damage::other_tree(rng, &text, shape, &counted)
            } else {
                fast::tree(&text, shape, &counted)
            }
        });
        ask(rng, &tree, &mut reached);
    });
    if setting("ROUNDS", 12_000) >= 1000 {
        assert_eq!(reached, [0, 5, 6, 7, 13, 14].into());
    }
}

/// A path that breaks in the last part, after whole parts were hashed: 14 and zeros, and nothing past them.
#[test]
fn broken_late() {
    let text: Vec<u8> = (0..5000u32).map(|place| (place * place / 7) as u8).collect();
    let mut tree = fast::tree(&text, model::Shape::new(16, 2, 2), b"");
    let blocks = read::Tree::open(&tree).expect("a tree").blocks(0) as usize;
    // the kind of the last block of level 0
    let kind = 100 + (blocks - 1) * model::record_length(model::WITH_EDGES, 16, 0) + 4;
    tree[kind] = 2;
    let mut out = [FILL; 40];
    assert_eq!(calls::digest(&tree, &mut out), 14);
    assert!(out[..32].iter().all(|&byte| byte == 0) && out[32..].iter().all(|&byte| byte == FILL));
    assert_eq!(Tree::unchecked(&tree).digest().map_err(|refusal| refusal.number()), Err(14));
}
