//! Stands for the crate of this name where none can be fetched: an error is its text.
use std::fmt;

pub struct Error(String);

pub type Result<T, E = Error> = std::result::Result<T, E>;

impl Error {
    pub fn msg(text: impl fmt::Display) -> Self {
        Self(text.to_string())
    }
}

impl fmt::Display for Error {
    fn fmt(&self, formatter: &mut fmt::Formatter<'_>) -> fmt::Result {
        formatter.write_str(&self.0)
    }
}

impl fmt::Debug for Error {
    fn fmt(&self, formatter: &mut fmt::Formatter<'_>) -> fmt::Result {
        formatter.write_str(&self.0)
    }
}

/// The outermost text, as the crate of this name displays it.
pub trait Context<T> {
    fn context<C: fmt::Display>(self, text: C) -> Result<T>;
    fn with_context<C: fmt::Display>(self, text: impl FnOnce() -> C) -> Result<T>;
}

impl<T> Context<T> for Option<T> {
    fn context<C: fmt::Display>(self, text: C) -> Result<T> {
        self.ok_or_else(|| Error::msg(text))
    }

    fn with_context<C: fmt::Display>(self, text: impl FnOnce() -> C) -> Result<T> {
        self.ok_or_else(|| Error::msg(text()))
    }
}

impl<T> Context<T> for Result<T> {
    fn context<C: fmt::Display>(self, text: C) -> Result<T> {
        self.map_err(|_| Error::msg(text))
    }

    fn with_context<C: fmt::Display>(self, text: impl FnOnce() -> C) -> Result<T> {
        self.map_err(|_| Error::msg(text()))
    }
}

#[macro_export]
macro_rules! bail {
    ($($text:tt)*) => {
        return Err($crate::Error::msg(format!($($text)*)))
    };
}

#[macro_export]
macro_rules! anyhow {
    ($($text:tt)*) => {
        $crate::Error::msg(format!($($text)*))
    };
}
