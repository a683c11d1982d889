//! What a command that did its work has to say.

use crate::failure::Failure;

/// The text for standard output; and with `--strict` why the exit status is 1 all the same.
pub struct Said {
    pub text: String,
    pub failure: Option<Failure>,
}

impl Said {
    /// The text, and a failure where `--strict` was given and something is wrong.
    pub fn strictly(text: String, strict: bool, wrong: &[String]) -> Said {
        Said { text, failure: (strict && !wrong.is_empty()).then(|| Failure::Strict(wrong.join("; "))) }
    }
}

impl From<String> for Said {
    fn from(text: String) -> Self {
        Said { text, failure: None }
    }
}
