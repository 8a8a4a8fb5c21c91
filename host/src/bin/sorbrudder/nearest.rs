//! The word that somebody may have meant.

/// How many letters have to be put in, taken out, exchanged for another or with their neighbour.
fn distance(one: &str, other: &str) -> usize {
    let (one, other): (Vec<char>, Vec<char>) = (one.chars().collect(), other.chars().collect());
    let mut rows = vec![(0..=other.len()).collect::<Vec<usize>>()];
    for (i, a) in one.iter().enumerate() {
        let mut row = vec![i + 1];
        for (j, b) in other.iter().enumerate() {
            let mut least = (rows[i][j] + usize::from(a != b))
                .min(rows[i][j + 1] + 1)
                .min(row[j] + 1);
            if i > 0 && j > 0 && *a == other[j - 1] && one[i - 1] == *b {
                least = least.min(rows[i - 1][j - 1] + 1);
            }
            row.push(least);
        }
        rows.push(row);
    }
    rows[one.len()][other.len()]
}

/// The known word that is nearest to one that is not, if it is near enough: a third of its letters, or its beginning.
fn nearest<'k>(word: &str, known: impl Iterator<Item = &'k str>) -> Option<&'k str> {
    // Of a word of more letters than any known one has it need not be asked, and it would take long.
    let short: String = word.chars().take(64).collect();
    let begins = |known: &str| short.len() > 2 && known.starts_with(&short);
    let near = known.map(|known| match begins(known) {
        true => (0, known),
        false => (distance(&short, known), known),
    });
    let (far, known) = near.min_by_key(|(far, _)| *far)?;
    let letters = known.trim_start_matches('-').chars().count();
    (far <= (letters / 3).max(1) && far < letters).then_some(known)
}

/// What is said of a word that is not known: the nearest one, or nothing.
pub fn did_you_mean<'k>(word: &str, known: impl Iterator<Item = &'k str>) -> String {
    let meant = nearest(word, known);
    meant.map_or(String::new(), |meant| format!(" (did you mean `{meant}`?)"))
}

#[cfg(test)]
mod tests {
    use super::{distance, nearest};

    #[test]
    fn a_slip_is_found_and_another_word_is_not() {
        assert_eq!(distance("chekc", "check"), 1);
        assert_eq!(distance("kitten", "sitting"), 3);
        let known = || ["check", "diff", "lift", "--json", "-o", "--in-place"].into_iter();
        let of = |word: &str| nearest(word, known());
        assert_eq!(of("chek"), Some("check"));
        assert_eq!(of("dif"), Some("diff"));
        assert_eq!(of("--jsn"), Some("--json"));
        assert_eq!(of("--in"), Some("--in-place"));
        assert_eq!(of("--inplace"), Some("--in-place"));
        assert_eq!(of("frobnicate"), None);
        assert_eq!(of(""), None);
        assert_eq!(of("-x"), None);
    }
}
