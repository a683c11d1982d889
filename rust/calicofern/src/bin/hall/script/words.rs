//! The words of a line.

use crate::failure::Failure;
use std::str::SplitWhitespace;

/// The words of a line, up to a #.
pub struct Words<'a> {
    words: SplitWhitespace<'a>,
}

impl<'a> Words<'a> {
    pub fn of(line: &'a str) -> Self {
        let line = line.split_once('#').map_or(line, |(before, _)| before);
        Words { words: line.split_whitespace() }
    }

    pub fn next(&mut self) -> Option<&'a str> {
        self.words.next()
    }

    pub fn word(&mut self, what: &str) -> Result<&'a str, Failure> {
        self.next().ok_or_else(|| Failure::Usage(format!("the {what} is missing")))
    }

    /// The next word before one of this name, which must come and is taken too.
    pub fn before(&mut self, name: &str) -> Result<Option<&'a str>, Failure> {
        let word = self.next().ok_or_else(|| Failure::Usage(format!("the word '{name}' is missing")))?;
        Ok(Some(word).filter(|word| *word != name))
    }

    /// The next word as a whole number.
    pub fn number<T: Whole>(&mut self, what: &str) -> Result<T, Failure> {
        whole(self.word(what)?, what)
    }

    /// All other words as whole numbers.
    pub fn numbers<T: Whole>(self, what: &str) -> Result<Vec<T>, Failure> {
        self.words.map(|word| whole(word, what)).collect()
    }

    /// All other words.
    pub fn rest(self) -> impl Iterator<Item = &'a str> {
        self.words
    }

    pub fn finish(mut self) -> Result<(), Failure> {
        match self.next() {
            Some(word) => Err(Failure::Usage(format!("'{}' is too much here; 'hall help script' says what the call takes", cut(word)))),
            None => Ok(()),
        }
    }
}

/// The whole numbers that calls take.
pub trait Whole: TryFrom<u64> {
    const MOST: u64;
}

impl Whole for u16 {
    const MOST: u64 = u16::MAX as u64;
}

impl Whole for u32 {
    const MOST: u64 = u32::MAX as u64;
}

impl Whole for u64 {
    const MOST: u64 = u64::MAX;
}

/// A whole number, decimal or hexadecimal after 0x.
fn whole<T: Whole>(word: &str, what: &str) -> Result<T, Failure> {
    let parsed: Option<u64> = match word.strip_prefix("0x").or(word.strip_prefix("0X")) {
        Some(digits) => u64::from_str_radix(digits, 16).ok(),
        None => word.parse().ok(),
    };
    let wrong = || Failure::Usage(format!("'{}' is no {what}: a whole number from 0 to {}", cut(word), T::MOST));
    parsed.and_then(|number| T::try_from(number).ok()).ok_or_else(wrong)
}

/// A word for a message: of a long one the beginning.
pub fn cut(word: &str) -> String {
    match word.char_indices().nth(40) {
        Some((at, _)) => format!("{}..", word.get(..at).unwrap_or_default()),
        None => word.to_string(),
    }
}

#[cfg(test)]
mod tests {
    use super::*;

    fn number<T: Whole>(word: &str) -> Result<T, String> {
        Words::of(word).number("mask").map_err(|failure| failure.to_string())
    }

    #[test]
    fn whole_numbers() {
        for (word, value) in [("0", 0u16), ("+7", 7), ("65535", 65535), ("0xfF", 255), ("0X10", 16), ("007", 7)] {
            assert_eq!(number(word), Ok(value));
        }
        for word in ["65536", "-1", "1_0", "0x", "0x10000", "1.0", "x", "99999999999999999999", "0x1_0"] {
            assert_eq!(number::<u16>(word), Err(format!("'{word}' is no mask: a whole number from 0 to 65535")));
        }
        assert_eq!(number::<u32>("4294967296"), Err("'4294967296' is no mask: a whole number from 0 to 4294967295".to_string()));
        assert_eq!(number("0xffffffffffffffff"), Ok(u64::MAX));
        assert_eq!(number::<u64>(""), Err("the mask is missing".to_string()));
        assert_eq!(Words::of("0 0x1 +2").numbers::<u32>("index").ok(), Some(vec![0, 1, 2]));
    }

    #[test]
    fn comments_and_names() {
        assert_eq!(Words::of(" \t ").next(), None);
        assert_eq!(Words::of("# a b").next(), None);
        let mut words = Words::of("a b vertices c#d");
        assert_eq!(words.before("vertices").ok(), Some(Some("a")));
        assert_eq!(words.before("vertices").ok(), Some(Some("b")));
        assert_eq!(words.before("vertices").ok(), Some(None));
        assert_eq!(words.next(), Some("c"));
        assert_eq!(words.before("vertices").unwrap_err().to_string(), "the word 'vertices' is missing");
        assert!(Words::of("").finish().is_ok());
    }

    #[test]
    fn a_long_word_is_cut() {
        let said = number::<u16>(&"é".repeat(1 << 20)).unwrap_err();
        assert_eq!(said, format!("'{}..' is no mask: a whole number from 0 to 65535", "é".repeat(40)));
    }
}
