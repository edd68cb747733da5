//! SHA-256 (FIPS 180-4) of bytes, and of a tree's text.

use crate::calls;
use crate::refusal::{answer, Refusal};
use crate::Tree;
use std::fmt::{self, Display, Formatter};

/// A SHA-256, 32 bytes. It is displayed as 64 hexadecimal digits.
#[derive(Clone, Copy, Debug, PartialEq, Eq)]
pub struct Digest(pub [u8; 32]);

impl Digest {
    /// Reads 64 hexadecimal digits.
    pub fn from_hex(word: &str) -> Option<Self> {
        let digits: Vec<u8> = word.chars().map(|digit| digit.to_digit(16).map(|value| value as u8)).collect::<Option<_>>()?;
        let bytes: Vec<u8> = digits.chunks(2).map(|pair| pair.iter().fold(0, |byte, digit| 16 * byte + digit)).collect();
        (digits.len() == 64).then(|| bytes.try_into().ok().map(Digest)).flatten()
    }
}

impl Display for Digest {
    fn fmt(&self, formatter: &mut Formatter) -> fmt::Result {
        self.0.iter().try_for_each(|byte| write!(formatter, "{byte:02x}"))
    }
}

/// The SHA-256 of any bytes: a text, or a file.
///
/// ```
/// let digest = codebook::digest_text(b"abc");
/// assert_eq!(digest.to_string(), "ba7816bf8f01cfea414140de5dae2223b00361a396177a9cb410ff61f20015ad");
/// ```
pub fn digest_text(text: &[u8]) -> Digest {
    let mut out = [0; 32];
    let number = calls::digest_text(text, &mut out);
    answer(number, Digest(out)).expect("32 bytes are enough for a digest")
}

impl Tree<'_> {
    /// The SHA-256 of the tree's text, which is not unpacked: on a tree that the check accepts, that of the one text that fits it.
    ///
    /// ```
    /// let settings = codebook::Settings { leaf: 64, arity: 2, levels: 4, counted: vec![10] };
    /// let bytes = codebook::build(b"CH0501 1423\nCH0502 1424\n", &settings)?;
    /// let digest = codebook::Tree::checked(&bytes)?.digest()?;
    /// assert_eq!(digest, codebook::digest_text(b"CH0501 1423\nCH0502 1424\n"));
    /// # Ok::<(), codebook::Refusal>(())
    /// ```
    pub fn digest(&self) -> Result<Digest, Refusal> {
        let mut out = [0; 32];
        let number = calls::digest(self.bytes, &mut out);
        answer(number, Digest(out))
    }
}

#[cfg(test)]
mod tests {
    use super::Digest;

    #[test]
    fn hexadecimal() {
        let digest = Digest(std::array::from_fn(|at| 7 * at as u8));
        let shown = digest.to_string();
        assert_eq!((shown.len(), &shown[..8]), (64, "00070e15"));
        assert_eq!((Digest::from_hex(&shown), Digest::from_hex(&shown.to_uppercase())), (Some(digest), Some(digest)));
        for word in ["", &shown[1..], &format!("{shown}0"), &format!("{shown}00"), &format!("+{}", &shown[1..]), &format!("é{}", &shown[1..])] {
            assert_eq!(Digest::from_hex(word), None, "{word}");
        }
    }
}
