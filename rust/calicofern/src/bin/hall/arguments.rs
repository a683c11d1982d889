//! The words behind the command.

use crate::failure::Failure;
use calicofern::nearest;

/// Words that a command takes one after another; `finish` refuses those that nothing took.
pub struct Arguments {
    words: Vec<String>,
    /// The options that were asked for.
    known: Vec<&'static str>,
}

impl Arguments {
    pub fn new(words: Vec<String>) -> Self {
        Arguments { words, known: Vec::new() }
    }

    /// Whether an option without a value is there.
    pub fn flag(&mut self, name: &'static str) -> Result<bool, Failure> {
        Ok(self.values(name, 0)?.is_some())
    }

    /// The value behind an option.
    pub fn option(&mut self, name: &'static str) -> Result<Option<String>, Failure> {
        Ok(self.values(name, 1)?.and_then(|values| values.into_iter().next()))
    }

    /// The number behind an option, decimal or hexadecimal after 0x.
    pub fn number(&mut self, name: &'static str) -> Result<Option<u64>, Failure> {
        let Some(word) = self.option(name)? else {
            return Ok(None);
        };
        let parsed = match word.strip_prefix("0x").or(word.strip_prefix("0X")) {
            Some(digits) => u64::from_str_radix(digits, 16),
            None => word.parse(),
        };
        parsed.map(Some).map_err(|_| Failure::Usage(format!("{name} wants a number below 2^64, and '{word}' is none")))
    }

    /// The values behind an option that has several.
    pub fn values(&mut self, name: &'static str, count: usize) -> Result<Option<Vec<String>>, Failure> {
        self.known.push(name);
        let Some(at) = self.words.iter().position(|word| word == name) else {
            return Ok(None);
        };
        if self.words.iter().skip(at + 1).any(|word| word == name) {
            return Err(Failure::Usage(format!("{name} is given twice")));
        }
        let values: Vec<String> = self.words.iter().skip(at + 1).take(count).cloned().collect();
        if values.len() < count || values.iter().any(|value| value.starts_with("--")) {
            return Err(Failure::Usage(format!("{name} wants {count} value{} behind it", if count == 1 { "" } else { "s" })));
        }
        self.words.drain(at..=at + count);
        Ok(Some(values))
    }

    /// The first word that is no option. Options with values are taken first.
    pub fn word(&mut self) -> Option<String> {
        let at = self.words.iter().position(|word| !word.starts_with("--"))?;
        Some(self.words.remove(at))
    }

    /// Refuses the words that nothing took.
    pub fn finish(self) -> Result<(), Failure> {
        match self.words.first() {
            Some(word) => {
                let near = nearest(word, &self.known).map_or(String::new(), |name| format!("; did you mean {name}?"));
                Err(Failure::Usage(format!("'{word}' is not known here{near}; --help behind the command says what is")))
            }
            None => Ok(()),
        }
    }
}

#[cfg(test)]
mod tests {
    use super::*;

    fn arguments(line: &str) -> Arguments {
        Arguments::new(line.split_whitespace().map(String::from).collect())
    }

    #[test]
    fn options_and_words_in_any_order() {
        let mut given = arguments("--at 0x60000010 name --all --count 12");
        assert_eq!(given.number("--count").ok(), Some(Some(12)));
        assert_eq!(given.number("--at").ok(), Some(Some(0x6000_0010)));
        assert_eq!(given.flag("--all").ok(), Some(true));
        assert_eq!(given.flag("--obj").ok(), Some(false));
        assert_eq!(given.word().as_deref(), Some("name"));
        assert!(given.finish().is_ok());
    }

    #[test]
    fn wrong_words_are_refused() {
        assert!(arguments("--at").number("--at").is_err());
        assert!(arguments("--at --all").number("--at").is_err());
        assert!(arguments("--at -1").number("--at").is_err());
        assert!(arguments("--at 0x10000000000000000").number("--at").is_err());
        assert!(arguments("--at 1 --at 2").number("--at").is_err());
        assert!(arguments("--what").finish().is_err());
        let mut near = arguments("--strickt");
        assert_eq!(near.flag("--strict").ok(), Some(false));
        assert!(near.finish().unwrap_err().to_string().contains("did you mean --strict?"));
    }
}
