//! Suggestions for misspelled words.

/// The known word that is nearest: it begins with the word, or few letters differ.
pub fn nearest<'a>(word: &str, known: impl IntoIterator<Item = &'a str>) -> Option<&'a str> {
    let away = |known: &str| match word.len() > 1 && known.starts_with(word) {
        true => 1,
        false => distance(word, known),
    };
    let near = known.into_iter().map(|known| (away(known), known)).filter(|(away, known)| *away <= 1 + known.len() / 6);
    near.min_by_key(|(away, _)| *away).map(|(_, known)| known)
}

/// `; did you mean 'build'?`, or nothing.
pub fn suggestion<'a>(word: &str, known: impl IntoIterator<Item = &'a str>) -> Option<String> {
    nearest(word, known).map(|known| format!("; did you mean '{known}'?"))
}

/// How many letters are added, left out, changed, or swapped with the next one (optimal string alignment).
fn distance(one: &str, other: &str) -> usize {
    let (one, other): (Vec<char>, Vec<char>) = (one.chars().collect(), other.chars().collect());
    // row i has the distances of the first i letters of `one` to each beginning of `other`
    let mut rows: Vec<Vec<usize>> = vec![(0..=other.len()).collect()];
    for i in 1..=one.len() {
        let mut row = vec![i];
        for j in 1..=other.len() {
            let changed = rows[i - 1][j - 1] + usize::from(one[i - 1] != other[j - 1]);
            let mut least = changed.min(rows[i - 1][j] + 1).min(row[j - 1] + 1);
            if i > 1 && j > 1 && one[i - 1] == other[j - 2] && one[i - 2] == other[j - 1] {
                least = least.min(rows[i - 2][j - 2] + 1);
            }
            row.push(least);
        }
        rows.push(row);
    }
    rows[one.len()][other.len()]
}

#[cfg(test)]
mod tests {
    use super::{distance, nearest};

    #[test]
    fn distances() {
        for (one, other, away) in [("", "", 0), ("", "abc", 3), ("abc", "abc", 0), ("abc", "abd", 1), ("abc", "acb", 1), ("kitten", "sitting", 3)] {
            assert_eq!((distance(one, other), distance(other, one)), (away, away), "{one} {other}");
        }
    }

    #[test]
    fn nearest_words() {
        let meant = |word: &str| nearest(word, ["build", "check", "places", "stats", "from-columns"]);
        assert_eq!(
            [meant("biuld"), meant("chek"), meant("stat"), meant("place"), meant("pl")],
            [Some("build"), Some("check"), Some("stats"), Some("places"), Some("places")]
        );
        assert_eq!((meant("fromcolums"), meant("print"), meant("x"), meant("")), (Some("from-columns"), None, None, None));
    }
}
