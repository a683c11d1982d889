//! Names that a user types.

use std::fmt;

/// A word that names nothing, with the names that there are.
///
/// It is shown as one line, which suggests the name that was meant or else has them all:
///
/// ```
/// use calicofern::VertexComponentType;
/// let error = "Float33".parse::<VertexComponentType>().unwrap_err();
/// assert_eq!(error.to_string(), "'Float33' is no type; did you mean Float3?");
/// assert_eq!((error.word(), error.nearest()), ("Float33", Some("Float3")));
/// let error = "matrix".parse::<VertexComponentType>().unwrap_err();
/// assert!(error.to_string().starts_with("'matrix' is no type; there are Nothing, Half2, Float, "));
/// ```
#[derive(Debug, Clone, PartialEq, Eq, Hash)]
pub struct UnknownName {
    /// What a name would be of: a semantic, a type.
    what: &'static str,
    word: String,
    names: Vec<&'static str>,
}

impl UnknownName {
    /// The word.
    pub fn word(&self) -> &str {
        &self.word
    }

    /// The names that there are.
    pub fn names(&self) -> &[&'static str] {
        &self.names
    }

    /// The name that was meant, if one is near.
    pub fn nearest(&self) -> Option<&'static str> {
        nearest(&self.word, &self.names)
    }
}

impl fmt::Display for UnknownName {
    fn fmt(&self, out: &mut fmt::Formatter<'_>) -> fmt::Result {
        let (word, what) = (&self.word, self.what);
        match self.nearest() {
            Some(name) => write!(out, "'{word}' is no {what}; did you mean {name}?"),
            None => write!(out, "'{word}' is no {what}; there are {}", self.names.join(", ")),
        }
    }
}

impl std::error::Error for UnknownName {}

/// What has this name, whatever its case.
pub fn find<T: Copy, const N: usize>(what: &'static str, word: &str, table: [(&'static str, T); N]) -> Result<T, UnknownName> {
    let found = table.iter().find(|(name, _)| name.eq_ignore_ascii_case(word));
    let unknown = || UnknownName { what, word: word.to_string(), names: table.map(|(name, _)| name).to_vec() };
    found.map(|(_, item)| *item).ok_or_else(unknown)
}

/// The name that a word was probably meant for: the one with the fewest letters wrong, missing, too many or exchanged with the next. At most a third of the
/// name's letters may be, though always one; of names that are equally near the first is taken. Case does not matter.
///
/// ```
/// use calicofern::nearest;
/// assert_eq!(nearest("lsit", &["list", "vertices", "save"]), Some("list"));
/// assert_eq!(nearest("draw", &["list", "vertices", "save"]), None);
/// ```
pub fn nearest<'a>(word: &str, names: &[&'a str]) -> Option<&'a str> {
    let word: Vec<char> = word.to_lowercase().chars().collect();
    let near = |name: &&'a str| {
        let letters: Vec<char> = name.to_lowercase().chars().collect();
        let most = (letters.len() / 3).max(1);
        if word.len().abs_diff(letters.len()) > most {
            return None;
        }
        let wrong = distance(&word, &letters);
        // words that have no letter in common are not alike, however short they are
        (wrong <= most && wrong < letters.len()).then_some((wrong, *name))
    };
    names.iter().filter_map(near).min_by_key(|(wrong, _)| *wrong).map(|(_, name)| name)
}

/// How many letters must be changed, put in, left out or exchanged with the next to make one word of the other.
fn distance(one: &[char], other: &[char]) -> usize {
    // row i: the distances of the first i letters of the one to the beginnings of the other
    let mut rows: Vec<Vec<usize>> = vec![(0..=other.len()).collect()];
    for i in 1..=one.len() {
        let mut row = vec![i];
        for j in 1..=other.len() {
            let changed = rows[i - 1][j - 1] + usize::from(one[i - 1] != other[j - 1]);
            let mut least = changed.min(rows[i - 1][j] + 1).min(row[j - 1] + 1);
            if i > 1 && j > 1 && one[i - 1] == other[j - 2] && one[i - 2] == other[j - 1] {
                least = least.min(rows[i - 2][j - 2] + 1);
            }
            row.push(least);
        }
        rows.push(row);
    }
    rows[one.len()][other.len()]
}

#[cfg(test)]
mod tests {
    use super::*;

    fn distance_of(one: &str, other: &str) -> usize {
        let letters = |word: &str| word.chars().collect::<Vec<_>>();
        assert_eq!(distance(&letters(one), &letters(other)), distance(&letters(other), &letters(one)));
        distance(&letters(one), &letters(other))
    }

    #[test]
    fn letters_are_counted() {
        assert_eq!((distance_of("", ""), distance_of("", "abc"), distance_of("abc", "abc")), (0, 3, 0));
        assert_eq!((distance_of("kitten", "sitting"), distance_of("flaw", "lawn")), (3, 2));
        assert_eq!((distance_of("ab", "ba"), distance_of("abcd", "acbd"), distance_of("ca", "abc")), (1, 1, 3));
    }

    #[test]
    fn a_third_of_the_letters_may_be_wrong() {
        let names = ["Position", "Normal", "Float", "Float2", "Float3", "save", "x"];
        assert_eq!(nearest("Postion", &names), Some("Position"));
        assert_eq!(nearest("POSITOIN", &names), Some("Position"));
        assert_eq!(nearest("Psitin", &names), Some("Position"));
        assert_eq!(nearest("Psitn", &names), None);
        assert_eq!(nearest("Float4", &names), Some("Float"));
        assert_eq!(nearest("Floot3", &names), Some("Float3"));
        assert_eq!(nearest("sav", &names), Some("save"));
        assert_eq!(nearest("sv", &names), None);
        // one letter for another is no likeness
        assert_eq!((nearest("y", &names), nearest("", &names), nearest("X", &names)), (None, None, Some("x")));
        assert_eq!(nearest(&"Position".repeat(100_000), &names), None);
        assert_eq!(nearest("Ähre", &["ähren"]), Some("ähren"));
        assert_eq!(nearest("word", &[]), None);
    }

    #[test]
    fn all_names_are_told_where_none_is_near() {
        let error = find("thing", "zzzz", [("one", 1), ("two", 2)]).unwrap_err();
        assert_eq!(error.to_string(), "'zzzz' is no thing; there are one, two");
        assert_eq!((error.names(), error.nearest()), (&["one", "two"][..], None));
        assert_eq!(find("thing", "TWO", [("one", 1), ("two", 2)]), Ok(2));
    }
}
