//! Words that somebody may have meant.

/// How many letters have to be added, taken away, changed, or put in each other's place, to make one word of the other.
fn distance(one: &str, other: &str) -> usize {
    let (one, other): (Vec<char>, Vec<char>) = (one.chars().collect(), other.chars().collect());
    let mut before = Vec::new();
    let mut last: Vec<usize> = (0..=other.len()).collect();
    for (i, &a) in one.iter().enumerate() {
        let mut row = vec![i + 1];
        for (j, &b) in other.iter().enumerate() {
            let mut least = (last[j] + usize::from(a != b)).min(last[j + 1] + 1).min(row[j] + 1);
            if i > 0 && j > 0 && a == other[j - 1] && one[i - 1] == b {
                least = least.min(before[j - 1] + 1);
            }
            row.push(least);
        }
        before = std::mem::replace(&mut last, row);
    }
    last[other.len()]
}

/// The known word that is nearest to this one, if one is near.
pub fn nearest<'a>(word: &str, known: impl IntoIterator<Item = &'a str>) -> Option<&'a str> {
    let most = (word.chars().count() / 3).clamp(1, 3);
    let near = known.into_iter().map(|known| (distance(word, known), known)).filter(|(away, _)| *away <= most);
    near.min_by_key(|(away, _)| *away).map(|(_, known)| known)
}

/// `; did you mean web?`, or nothing.
pub fn question<'a>(word: &str, known: impl IntoIterator<Item = &'a str>) -> String {
    nearest(word, known).map_or_else(String::new, |known| format!("; did you mean {known}?"))
}

#[cfg(test)]
mod tests {
    use super::*;

    #[test]
    fn near_words_are_found_and_others_are_not() {
        let known = ["status", "start", "stop", "shutdown", "restart", "which"];
        for (word, wanted) in [
            ("satus", Some("status")),
            ("shutdwon", Some("shutdown")),
            ("restrat", Some("restart")),
            ("stop", Some("stop")),
            ("stpo", Some("stop")),
            ("whihc", Some("which")),
            ("x", None),
            ("reload", None),
            ("", None),
        ] {
            assert_eq!(nearest(word, known), wanted, "{word}");
        }
        assert_eq!(question("stpo", known), "; did you mean stop?");
        assert_eq!(question("nonsense", known), "");
    }
}
