//! Why a command ended without doing its work.

use calicofern::Refusal;
use std::fmt;
use std::io;

pub enum Failure {
    /// The library refused.
    Refused(Refusal),
    /// The words of the command line make no sense.
    Usage(String),
    /// A file that cannot be read.
    File(String, io::Error),
    /// A file that could not be written, and whether there was one already.
    Unwritten { path: String, there: bool, error: io::Error },
    /// A line of a script, and why it failed.
    Line(String, Box<Failure>),
    /// With `--strict`: something that is left out, or disagrees.
    Strict(String),
}

impl Failure {
    /// The program's exit status.
    pub fn status(&self) -> u8 {
        match self {
            Failure::Refused(_) | Failure::Strict(_) => 1,
            Failure::Usage(_) | Failure::File(..) | Failure::Unwritten { .. } => 2,
            Failure::Line(_, why) => why.status(),
        }
    }
}

impl fmt::Display for Failure {
    fn fmt(&self, out: &mut fmt::Formatter<'_>) -> fmt::Result {
        match self {
            Failure::Refused(refusal) => write!(out, "{refusal}"),
            Failure::Usage(text) => out.write_str(text),
            Failure::File(path, error) => write!(out, "{path}: {error}"),
            Failure::Unwritten { path, there: true, error } => write!(out, "{path} could not be written, and is as it was: {error}"),
            Failure::Unwritten { path, there: false, error } => write!(out, "{path} could not be written: {error}"),
            Failure::Line(place, why) => write!(out, "{place}: {why}"),
            Failure::Strict(text) => write!(out, "--strict: {text}"),
        }
    }
}

impl From<Refusal> for Failure {
    fn from(refusal: Refusal) -> Self {
        Failure::Refused(refusal)
    }
}
