//! The numbers of a vertex, as they are typed and as they are stored.

use super::words::cut;
use crate::failure::Failure;
use crate::table::counted;
use calicofern::{convert, VertexComponentType};

/// How a type stores each of its numbers.
#[derive(Clone, Copy, PartialEq)]
pub enum Form {
    Float,
    Half,
    Byte,
    SignedByte,
}

impl Form {
    pub fn of(component_type: VertexComponentType) -> Form {
        match component_type {
            VertexComponentType::Half2 | VertexComponentType::Half4 => Form::Half,
            VertexComponentType::UByte4 | VertexComponentType::Colour => Form::Byte,
            VertexComponentType::Rgba8Snorm => Form::SignedByte,
            _ => Form::Float,
        }
    }

    /// The bytes of a number.
    pub fn size(self) -> usize {
        match self {
            Form::Float => 4,
            Form::Half => 2,
            Form::Byte | Form::SignedByte => 1,
        }
    }

    /// A typed number that is to be stored like this. One that becomes infinite by that is noted.
    pub fn read(self, word: &str, infinite: &mut Infinite) -> Result<f32, Failure> {
        let number: f32 = word.parse().map_err(|_| Failure::Usage(format!("'{}' is no number", cut(word))))?;
        match self {
            Form::Byte => {
                byte(word, number)?;
            }
            // what is beyond 1 is clamped, and nothing infinite is stored
            Form::SignedByte => {}
            // inf is typed without a digit; no decimal number is
            _ if number.is_infinite() && word.bytes().any(|letter| letter.is_ascii_digit()) => infinite.note(word, "float"),
            Form::Half if number.is_finite() && convert::f32_to_f16(number) & 0x7FFF == 0x7C00 => infinite.note(word, "half"),
            _ => {}
        }
        Ok(number)
    }

    /// A number's bytes, at the beginning of these.
    pub fn store(self, number: f32, place: &mut [u8]) {
        let bytes = match self {
            Form::Float => number.to_le_bytes(),
            Form::Half => {
                let [low, high] = convert::f32_to_f16(number).to_le_bytes();
                [low, high, 0, 0]
            }
            Form::Byte => [number as u8, 0, 0, 0],
            Form::SignedByte => [convert::f32_to_snorm8(number), 0, 0, 0],
        };
        for (to, from) in place.iter_mut().zip(bytes).take(self.size()) {
            *to = from;
        }
    }
}

fn byte(word: &str, number: f32) -> Result<(), Failure> {
    let whole = (0.0..=255.0).contains(&number) && number.fract() == 0.0;
    if whole {
        Ok(())
    } else {
        Err(Failure::Usage(format!("{} is no byte: a whole number from 0 to 255", cut(word))))
    }
}

/// The numbers of a line that are finite as they are typed, and infinite as they are stored.
#[derive(Default)]
pub struct Infinite {
    /// The first, and as what.
    first: Option<(String, &'static str)>,
    more: u64,
}

impl Infinite {
    fn note(&mut self, word: &str, stored: &'static str) {
        match self.first {
            Some(_) => self.more += 1,
            None => self.first = Some((cut(word), stored)),
        }
    }

    /// What is to be said of the line, if anything.
    pub fn said(&self) -> Option<String> {
        let (word, stored) = self.first.as_ref()?;
        let more = match self.more {
            0 => String::new(),
            more => format!(" (and {} of this line)", counted(more, "more number", "more numbers")),
        };
        Some(format!("{word} becomes infinite as a {stored}{more}"))
    }
}

#[cfg(test)]
mod tests {
    use super::*;

    /// What is said of some numbers.
    fn said(form: Form, words: &str) -> Option<String> {
        let mut infinite = Infinite::default();
        for word in words.split(' ') {
            assert!(form.read(word, &mut infinite).is_ok(), "{word}");
        }
        infinite.said()
    }

    #[test]
    fn infinite_as_a_float() {
        let line = |word: &str| Some(format!("{word} becomes infinite as a float"));
        for word in ["1e39", "-1e39", "3.4028236e38", "1e400", "-9e999999999", "340282400000000000000000000000000000000"] {
            assert_eq!((said(Form::Float, word), said(Form::Half, word)), (line(word), line(word)));
        }
        assert_eq!(said(Form::Float, "3.4028235e38 -3.4028235e38 inf -inf +inf Infinity nan -NaN 1e-400 0"), None);
        assert_eq!(said(Form::Half, "inf -inf INFINITY nan"), None);
    }

    #[test]
    fn infinite_as_a_half() {
        assert_eq!(said(Form::Half, "65519.99 -65519.99 65504 1e-9"), None);
        for word in ["65520", "-65520", "70000", "3e38"] {
            assert_eq!(said(Form::Half, word), Some(format!("{word} becomes infinite as a half")));
            assert_eq!(said(Form::Float, word), None);
        }
        // the float nearest to it is 65520
        assert_eq!(said(Form::Half, "65519.999").as_deref(), Some("65519.999 becomes infinite as a half"));
    }

    #[test]
    fn more_than_one() {
        assert_eq!(
            said(Form::Half, "1 70000 2 1e39").as_deref(),
            Some("70000 becomes infinite as a half (and 1 more number of this line)")
        );
        assert_eq!(
            said(Form::Float, "1e39 1e40 1e41 1e42").as_deref(),
            Some("1e39 becomes infinite as a float (and 3 more numbers of this line)")
        );
        assert_eq!(said(Form::SignedByte, "1e39 70000"), None);
    }

    #[test]
    fn bytes_have_limits() {
        let mut infinite = Infinite::default();
        for word in ["256", "-1", "1.5", "1e39", "nan", "inf"] {
            let failure = Form::Byte.read(word, &mut infinite).unwrap_err();
            assert_eq!(failure.to_string(), format!("{word} is no byte: a whole number from 0 to 255"));
        }
        assert_eq!(Form::Byte.read("255", &mut infinite).ok(), Some(255.0));
        assert_eq!(Form::Byte.read("x", &mut infinite).unwrap_err().to_string(), "'x' is no number");
    }
}
