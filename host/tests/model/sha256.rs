//! SHA-256, written from FIPS 180-4 with its names; and the digests of trees' texts.

use super::read::{byte_at, Tree};

/// The first 32 bits of the fractional parts of the cube roots of the first 64 primes (4.2.2).
const K: [u32; 64] = [
    0x428a2f98, 0x71374491, 0xb5c0fbcf, 0xe9b5dba5, 0x3956c25b, 0x59f111f1, 0x923f82a4, 0xab1c5ed5, 0xd807aa98, 0x12835b01, 0x243185be, 0x550c7dc3,
    0x72be5d74, 0x80deb1fe, 0x9bdc06a7, 0xc19bf174, 0xe49b69c1, 0xefbe4786, 0x0fc19dc6, 0x240ca1cc, 0x2de92c6f, 0x4a7484aa, 0x5cb0a9dc, 0x76f988da,
    0x983e5152, 0xa831c66d, 0xb00327c8, 0xbf597fc7, 0xc6e00bf3, 0xd5a79147, 0x06ca6351, 0x14292967, 0x27b70a85, 0x2e1b2138, 0x4d2c6dfc, 0x53380d13,
    0x650a7354, 0x766a0abb, 0x81c2c92e, 0x92722c85, 0xa2bfe8a1, 0xa81a664b, 0xc24b8b70, 0xc76c51a3, 0xd192e819, 0xd6990624, 0xf40e3585, 0x106aa070,
    0x19a4c116, 0x1e376c08, 0x2748774c, 0x34b0bcb5, 0x391c0cb3, 0x4ed8aa4a, 0x5b9cca4f, 0x682e6ff3, 0x748f82ee, 0x78a5636f, 0x84c87814, 0x8cc70208,
    0x90befffa, 0xa4506ceb, 0xbef9a3f7, 0xc67178f2,
];

/// The first hash value (5.3.3).
const H0: [u32; 8] = [0x6a09e667, 0xbb67ae85, 0x3c6ef372, 0xa54ff53a, 0x510e527f, 0x9b05688c, 0x1f83d9ab, 0x5be0cd19];

/// The refusal; the SHA-256 of the bytes of all paths goes to the first 32 bytes of the buffer, and 14 writes zeros there.
pub fn digest(bytes: &[u8], out: &mut [u8]) -> u32 {
    let text = |room: usize| -> Result<Vec<u8>, u32> {
        let tree = Tree::open(bytes)?;
        if room < 32 {
            return Err(13);
        }
        (0..tree.n).map(|place| byte_at(&tree, place).map(|(byte, _)| byte).ok_or(14)).collect()
    };
    match text(out.len()) {
        Ok(text) => digest_text(&text, out),
        Err(14) => {
            out[..32].fill(0);
            14
        }
        Err(number) => number,
    }
}

/// The refusal; the SHA-256 goes to the first 32 bytes of the buffer.
pub fn digest_text(text: &[u8], out: &mut [u8]) -> u32 {
    if out.len() < 32 {
        return 13;
    }
    out[..32].copy_from_slice(&sha256(text));
    0
}

/// The SHA-256 of a message.
pub fn sha256(message: &[u8]) -> Vec<u8> {
    let blocks = message.chunks_exact(64);
    let last = padded(blocks.remainder(), message.len() as u64);
    blocks.chain(last.chunks_exact(64)).fold(H0, compress).iter().flat_map(|word| word.to_be_bytes()).collect()
}

/// The message's last bytes, a one bit, zeros, and its length in bits (5.1.1): one block or two.
fn padded(rest: &[u8], length: u64) -> Vec<u8> {
    let mut last = rest.to_vec();
    last.push(0x80);
    last.resize(if rest.len() < 56 { 56 } else { 120 }, 0);
    last.extend((8 * length).to_be_bytes());
    last
}

/// The hash value after one more block (6.2.2).
fn compress(hash: [u32; 8], block: &[u8]) -> [u32; 8] {
    let w = schedule(block);
    let [mut a, mut b, mut c, mut d, mut e, mut f, mut g, mut h] = hash;
    for t in 0..64 {
        let sum1 = e.rotate_right(6) ^ e.rotate_right(11) ^ e.rotate_right(25);
        let ch = (e & f) ^ (!e & g);
        let t1 = h.wrapping_add(sum1).wrapping_add(ch).wrapping_add(K[t]).wrapping_add(w[t]);
        let sum0 = a.rotate_right(2) ^ a.rotate_right(13) ^ a.rotate_right(22);
        let maj = (a & b) ^ (a & c) ^ (b & c);
        (h, g, f, e, d, c, b, a) = (g, f, e, d.wrapping_add(t1), c, b, a, t1.wrapping_add(sum0.wrapping_add(maj)));
    }
    let mut next = hash;
    for (word, more) in next.iter_mut().zip([a, b, c, d, e, f, g, h]) {
        *word = word.wrapping_add(more);
    }
    next
}

/// The message schedule of a block of 64 bytes.
fn schedule(block: &[u8]) -> [u32; 64] {
    let mut w = [0; 64];
    for (word, bytes) in w.iter_mut().zip(block.chunks_exact(4)) {
        *word = u32::from_be_bytes([bytes[0], bytes[1], bytes[2], bytes[3]]);
    }
    for t in 16..64 {
        let sigma0 = w[t - 15].rotate_right(7) ^ w[t - 15].rotate_right(18) ^ (w[t - 15] >> 3);
        let sigma1 = w[t - 2].rotate_right(17) ^ w[t - 2].rotate_right(19) ^ (w[t - 2] >> 10);
        w[t] = sigma1.wrapping_add(w[t - 7]).wrapping_add(sigma0).wrapping_add(w[t - 16]);
    }
    w
}
