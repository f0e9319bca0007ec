//! Which names a word that is none of them may have meant.

/// The names that a word may have meant: those that it begins, or else those that the fewest slips turn it into, where
/// these are few for its length, and fewer than its characters. None where no name is near.
pub fn near<'n>(word: &str, names: impl IntoIterator<Item = &'n str>) -> Vec<&'n str> {
    let names: Vec<&str> = names.into_iter().collect();
    let begun: Vec<_> = names.iter().copied().filter(|name| word.len() > 1 && name.starts_with(word)).collect();
    if !begun.is_empty() {
        return begun;
    }
    let length = word.chars().count();
    let most = (length / 3).clamp(1, 3);
    let least = names.iter().map(|name| slips(word, name)).min().filter(|least| *least <= most && *least < length);
    names.into_iter().filter(|name| Some(slips(word, name)) == least).collect()
}

/// How many characters are to be put in, left out, exchanged for another, or exchanged with the next one, to make the
/// second word of the first (optimal string alignment).
fn slips(from: &str, to: &str) -> usize {
    let (from, to): (Vec<char>, Vec<char>) = (from.chars().collect(), to.chars().collect());
    // The rows of the table for the last two beginnings of the first word. To make a beginning of the other of nothing
    // takes as many characters as it has.
    let mut before = vec![];
    let mut last: Vec<usize> = (0..=to.len()).collect();
    for (i, character) in from.iter().enumerate() {
        let mut row = vec![i + 1];
        for (j, other) in to.iter().enumerate() {
            let exchanged = last[j] + usize::from(character != other);
            let turned = i > 0 && j > 0 && from[i - 1] == *other && to[j - 1] == *character;
            let turned = if turned { before[j - 1] + 1 } else { usize::MAX };
            row.push(exchanged.min(last[j + 1] + 1).min(row[j] + 1).min(turned));
        }
        before = std::mem::replace(&mut last, row);
    }
    last[to.len()]
}

#[cfg(test)]
mod tests {
    use super::*;

    #[test]
    fn slips_between_words() {
        let pairs = [
            ("book", "book", 0),
            ("", "book", 4),
            ("book", "", 4),
            ("bok", "book", 1),
            ("bookk", "book", 1),
            ("bock", "book", 1),
            ("obok", "book", 1),
            ("boko", "book", 1),
            ("kitten", "sitting", 3),
            ("ca", "abc", 3),
            ("\u{e9}", "e", 1),
        ];
        for (from, to, number) in pairs {
            assert_eq!((slips(from, to), slips(to, from)), (number, number), "{from} {to}");
        }
    }

    #[test]
    fn names_that_are_near() {
        let names = ["book", "build", "commit", "collect", "cancel", "settle", "settle-deal", "new"];
        let cases: [(&str, &[&str]); 12] = [
            ("bok", &["book"]),
            ("biuld", &["build"]),
            ("comit", &["commit"]),
            ("cancle", &["cancel"]),
            ("settel", &["settle"]),
            ("co", &["commit", "collect"]),
            ("settle-", &["settle-deal"]),
            ("nwe", &["new"]),
            ("remove", &[]),
            ("x", &[]),
            ("", &[]),
            ("ls", &[]),
        ];
        for (word, near_names) in cases {
            assert_eq!(near(word, names), near_names, "{word}");
        }
        assert_eq!((near("a", ["b", "ab"]), near("ab", ["b", "cb"])), (vec![], vec!["b", "cb"]));
    }
}
