//! Texts that make a builder with predictable fingerprints slow, and texts with many repeats.

use super::Rng;

/// The base of fingerprints in releases up to 1.15, modulo 2^32.
const OLD_BASE: u32 = 1_540_483_477;
const LETTERS: &[u8; 36] = b"0123456789ABCDEFGHIJKLMNOPQRSTUVWXYZ";
/// Words of four letters.
const WORDS: u32 = 36 * 36 * 36 * 36;

/// The texts, each of `size` bytes, with their names.
pub fn texts(size: usize) -> Vec<(&'static str, Vec<u8>)> {
    let mut rng = Rng::new(40);
    let digits: Vec<u8> = (0..511).map(|_| b'0' + rng.below(10) as u8).collect();
    vec![
        ("codes of one old fingerprint", old_codes(&mut rng, size)),
        ("Thue-Morse words, complements", thue_morse_words(&mut rng, size)),
        ("Thue-Morse", (0..size).map(thue_morse).collect()),
        ("all equal", vec![b'A'; size]),
        ("period 511", repeated(&digits, size)),
        ("de Bruijn", repeated(&de_bruijn(10), size)),
    ]
}

pub fn random_bytes(size: usize) -> Vec<u8> {
    let mut rng = Rng::new(122);
    (0..size).map(|_| rng.next() as u8).collect()
}

fn repeated(period: &[u8], size: usize) -> Vec<u8> {
    period.iter().copied().cycle().take(size).collect()
}

fn thue_morse(place: usize) -> u8 {
    b'A' + (place.count_ones() % 2) as u8
}

/// Words of 128 letters and their complements: their fingerprints agree modulo a power of two for every odd base.
fn thue_morse_words(rng: &mut Rng, size: usize) -> Vec<u8> {
    let word: Vec<u8> = (0..128).map(thue_morse).collect();
    let complement: Vec<u8> = word.iter().map(|letter| b'A' + b'B' - letter).collect();
    let mut text = Vec::new();
    while text.len() < size {
        text.extend_from_slice(if rng.below(2) == 0 { &word } else { &complement });
    }
    text.truncate(size);
    text
}

fn word(number: u32) -> [u8; 4] {
    [46_656, 1_296, 36, 1].map(|place| LETTERS[(number / place % 36) as usize])
}

fn old_fingerprint(bytes: &[u8]) -> u32 {
    bytes.iter().fold(0, |print, &byte| print.wrapping_mul(OLD_BASE).wrapping_add(u32::from(byte)))
}

/// Strings of eight letters that had one fingerprint: a first half, and the second halves that complete it.
fn old_units() -> Vec<[u8; 8]> {
    let mut halves: Vec<(u32, u32)> = (0..WORDS).map(|number| (old_fingerprint(&word(number)), number)).collect();
    halves.sort_unstable();
    let shift = OLD_BASE.wrapping_pow(4);
    let mut units = Vec::new();
    for first in 0..WORDS {
        let missing = 12_345u32.wrapping_sub(old_fingerprint(&word(first)).wrapping_mul(shift));
        let from = halves.partition_point(|&(print, _)| print < missing);
        for &(_, second) in halves[from..].iter().take_while(|&&(print, _)| print == missing) {
            units.push([word(first), word(second)].concat().try_into().expect("eight letters"));
        }
    }
    units
}

/// Rows of 16 bytes, each a code and five cuts.
fn old_codes(rng: &mut Rng, size: usize) -> Vec<u8> {
    let units = old_units();
    let mut text = Vec::new();
    while text.len() < size {
        text.push(b'C');
        text.extend_from_slice(&units[rng.below(units.len())]);
        text.extend_from_slice(b" 33333\n");
    }
    text.truncate(size);
    text
}

/// Every word of `order` letters out of four, once: the Lyndon words whose length divides the order.
fn de_bruijn(order: usize) -> Vec<u8> {
    let mut text = Vec::new();
    let mut lyndon = vec![0u8];
    while !lyndon.is_empty() {
        if order % lyndon.len() == 0 {
            text.extend(lyndon.iter().map(|letter| b'A' + letter));
        }
        let length = lyndon.len();
        while lyndon.len() < order {
            lyndon.push(lyndon[lyndon.len() - length]);
        }
        while lyndon.last() == Some(&3) {
            lyndon.pop();
        }
        if let Some(last) = lyndon.last_mut() {
            *last += 1;
        }
    }
    text
}
