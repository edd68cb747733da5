//! The refusals of the library, by name, number and text.

use std::fmt;

macro_rules! refusals {
    ($($name:ident = $number:literal: $words:expr,)*) => {
        /// The question that failed. Its number is the library's.
        #[derive(Clone, Copy, Debug, PartialEq, Eq)]
        pub enum Refusal {
            $(#[doc = $words] $name = $number,)*
        }

        impl Refusal {
            /// The refusal with a number; None if there is none.
            pub fn from_number(number: u32) -> Option<Self> {
                match number {
                    $($number => Some(Refusal::$name),)*
                    _ => None,
                }
            }

            fn words(self) -> &'static str {
                match self {
                    $(Refusal::$name => $words,)*
                }
            }
        }
    };
}

refusals! {
    Text = 1: concat!("a text must have at most ", crate::longest!(), " bytes"),
    Settings = 2: concat!(
        "the leaf length must be 1 to 256, the arity 2 to 16, the levels 1 to 8, and leaf x arity^(levels-1) at most ",
        crate::longest!()
    ),
    Counted = 3: "at most 4 bytes can be counted, and each must be above the one before",
    Space = 4: "the tree does not fit the buffer",
    Short = 5: "a tree has at least 100 bytes; this is no tree, or cut off",
    Layout = 6: "the layout is neither 1 nor 2; this is no block tree, or one of another version",
    Header = 7: "the header is not right: its settings, unused places or offsets, or the file is longer or shorter than it says",
    Links = 8: "the blocks are not right: a start, kind, link or gap, or the number of blocks or leaf bytes",
    Counts = 9: "a count or an edge in the tree is wrong",
    Place = 10: "this is past the end of the text",
    NotCounted = 11: "the tree does not count this byte",
    NoSuch = 12: "the text has no occurrence or row of this number; numbers start at 1",
    Buffer = 13: "the answer does not fit the buffer",
    Path = 14: "the tree is damaged: the path to a byte breaks off, or a count is negative",
    Input = 15: "only trees of at most 65,536 bytes are listed",
    Pattern = 16: "a pattern must have 1 to 256 bytes",
    Table = 17: "the table has fewer words than the pattern has places",
    Work = 18: "the table of words is too short: it needs four words for each leaf length of the text, rounded up",
    Ranges = 19: "a worn key must have 1 to 10 cuts, each with a low and a high depth of 0 to 9, the low one not above the high one",
    Width = 20: "the width must be above 0 and divide the text's length",
    Output = 21: "the output is shorter than the text",
    Date = 22: "a day is eight digits, year, month and day, from 20000101 to 20991231, and a renewal does not pass 2099",
    Term = 23: "the last day is before the first",
    Guide = 24: "this is no guide of this tree: it has too few or too many words, or an entry is wrong",
    GuideTable = 25: "the table is too short for the guide",
}

impl Refusal {
    /// The number of the refusal, as in `include/blocktree.h`.
    pub fn number(self) -> u32 {
        self as u32
    }
}

impl fmt::Display for Refusal {
    fn fmt(&self, f: &mut fmt::Formatter<'_>) -> fmt::Result {
        write!(f, "refused ({}): {}", self.number(), self.words())
    }
}

impl std::error::Error for Refusal {}

/// The answer if `number` is 0, else the refusal.
pub(crate) fn answer<T>(number: u32, value: T) -> Result<T, Refusal> {
    match Refusal::from_number(number) {
        None if number == 0 => Ok(value),
        None => panic!("the library returned {number}, which include/blocktree.h does not list"),
        Some(refusal) => Err(refusal),
    }
}

#[cfg(test)]
mod tests {
    use super::Refusal;

    /// Whether this line of the header declares that number.
    fn declares(line: &str, number: u32) -> bool {
        line.split_once(" = ").is_some_and(|(_, value)| value.split([',', ' ']).next() == Some(&number.to_string()))
    }

    #[test]
    fn numbers_are_those_of_the_header() {
        let header = include_str!("../../include/blocktree.h");
        let numbers = header.split("enum bt_refusal {").nth(1).and_then(|rest| rest.split("};").next()).expect("the numbers");
        for number in 1..=25 {
            let refusal = Refusal::from_number(number).expect("a refusal");
            assert_eq!(refusal.number(), number);
            assert!(refusal.to_string().starts_with(&format!("refused ({number}): ")));
            assert_eq!(numbers.lines().filter(|line| declares(line, number)).count(), 1);
        }
        assert!(Refusal::from_number(0).is_none() && Refusal::from_number(26).is_none());
    }
}
