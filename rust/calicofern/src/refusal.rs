//! What a call that cannot be done answers.

use crate::calls::Told;
use crate::detail::{behind, Detail};
use crate::Check;
use std::fmt;

/// Where in a hall a check failed. Models, the geometries of a model, and vertices are counted from 0.
#[derive(Debug, Clone, Copy, PartialEq, Eq, PartialOrd, Ord, Hash)]
#[non_exhaustive]
pub struct Place {
    /// The model's number.
    pub model: u64,
    /// The number of the geometry in its model.
    pub geometry: Option<u64>,
    /// The number of the vertex in its geometry.
    pub vertex: Option<u64>,
}

impl Place {
    /// A model, a geometry of it or a vertex of that one.
    ///
    /// ```
    /// let place = calicofern::Place::new(1, Some(2), None);
    /// assert_eq!(place.to_string(), "model 1, geometry 2");
    /// ```
    pub fn new(model: u64, geometry: Option<u64>, vertex: Option<u64>) -> Self {
        Place { model, geometry, vertex }
    }
}

/// `model 1, geometry 2, vertex 3`.
impl fmt::Display for Place {
    fn fmt(&self, out: &mut fmt::Formatter<'_>) -> fmt::Result {
        write!(out, "model {}", self.model)?;
        self.geometry.map_or(Ok(()), |geometry| write!(out, ", geometry {geometry}"))?;
        self.vertex.map_or(Ok(()), |vertex| write!(out, ", vertex {vertex}"))
    }
}

/// A refused call: the number of the check that failed, the bytes that its output would have needed, and where it failed, if that is known. No byte
/// of the output was changed.
///
/// It is shown as one line in plain words:
///
/// ```
/// use calicofern::Sections;
/// # let system = std::fs::read(concat!(env!("CARGO_MANIFEST_DIR"), "/samples/shoebox.system")).unwrap();
/// let refusal = Sections::new(&system, &[]).hall_list_into(Sections::SYSTEM, &mut [0; 100]).unwrap_err();
/// assert_eq!(refusal.number(), 7);
/// let needed = refusal.needed().unwrap();
/// assert_eq!(
///     refusal.to_string(),
///     format!("check 7: the buffer for the list is too short: {needed} bytes are needed, 100 were lent")
/// );
/// ```
#[derive(Debug, Clone, Copy, PartialEq, Eq, Hash)]
pub struct Refusal {
    check: Check,
    place: Option<Place>,
    detail: Detail,
}

impl Refusal {
    /// The check that failed.
    pub fn check(&self) -> Check {
        self.check
    }

    /// The number of the check that failed, 1 to 24 or 27.
    pub fn number(&self) -> u8 {
        self.check.number()
    }

    /// Where it failed, if that is known: what a call named, or for checks 12, 14 to 18 and 27 of a list the first place that
    /// fails it.
    pub fn place(&self) -> Option<Place> {
        self.place
    }

    /// The bytes that the output needs, for checks 7, 10, 20 and 24.
    pub fn needed(&self) -> Option<u64> {
        match self.detail {
            Detail::Bytes { needed, .. } => Some(needed),
            _ => None,
        }
    }

    /// The bytes that the output had, or was allowed to have, for checks 7, 10, 20 and 24.
    pub fn lent(&self) -> Option<u64> {
        match self.detail {
            Detail::Bytes { lent, .. } => Some(lent),
            _ => None,
        }
    }

    /// What the check asks for, in words, without its number, the place and the numbers that are wrong.
    pub fn text(&self) -> &'static str {
        match self.detail {
            Detail::Words(words) => words,
            _ => self.check.text(),
        }
    }

    /// The library's answer as a result: the bytes written, or the refusal of a call that lent so many bytes.
    pub(crate) fn told(told: Told, lent: usize) -> Result<usize, Refusal> {
        // what was written lies in the output, so its length is a usize
        let check = match told.check {
            0 => return Ok(told.size as usize),
            number => Check::from_number(number),
        };
        Err(match check.needs_bytes() {
            true => Refusal::of(check).because(Detail::Bytes { needed: told.size, lent: lent as u64, limit: false }),
            false => Refusal::of(check),
        })
    }

    /// A refusal of which no more is known.
    pub(crate) fn of(check: Check) -> Refusal {
        Refusal { check, place: None, detail: Detail::Nothing }
    }

    /// The same refusal where no more than so many bytes may be allocated.
    pub(crate) fn with_limit(self, limit: usize) -> Refusal {
        match self.detail {
            Detail::Bytes { needed, .. } => self.because(Detail::Bytes { needed, lent: limit as u64, limit: true }),
            _ => self,
        }
    }

    /// The same refusal at a place.
    pub(crate) fn at(self, place: Place) -> Refusal {
        Refusal { place: Some(place), ..self }
    }

    /// The same refusal with what else is known of it.
    pub(crate) fn because(self, detail: Detail) -> Refusal {
        Refusal { detail, ..self }
    }
}

impl fmt::Display for Refusal {
    fn fmt(&self, out: &mut fmt::Formatter<'_>) -> fmt::Result {
        match self.detail.line(self.place) {
            Some(line) => write!(out, "{}: {line}", self.check),
            None => write!(out, "{}: {}{}{}", self.check, self.check.text(), behind(self.place), self.detail),
        }
    }
}

impl std::error::Error for Refusal {}

#[cfg(test)]
mod tests {
    use super::*;

    fn refusal(check: u8, size: u64, lent: usize) -> Refusal {
        Refusal::told(Told { check, size }, lent).unwrap_err()
    }

    #[test]
    fn an_acceptance_is_the_length() {
        assert_eq!(Refusal::told(Told { check: 0, size: 127 }, 200), Ok(127));
    }

    #[test]
    fn bytes_are_told_where_an_output_is_too_short() {
        let line = "check 7: the buffer for the list is too short: 127 bytes are needed, 100 were lent";
        assert_eq!(refusal(7, 127, 100).to_string(), line);
        assert_eq!(refusal(7, 127, 100).needed(), Some(127));
        assert_eq!(refusal(10, 84, 0).to_string(), "check 10: the output is too short: 84 bytes are needed, 0 were lent");
        let line = "check 7: the buffer for the list is too short: 127 bytes are needed, and the limit is 99";
        assert_eq!(refusal(7, 127, 0).with_limit(99).to_string(), line);
        assert_eq!((refusal(6, 0, 9).needed(), refusal(6, 0, 9).lent()), (None, None));
        let line = "check 24: the buffer for the hall is too short: 139 bytes are needed, 130 were lent";
        assert_eq!(refusal(24, 139, 130).to_string(), line);
        assert_eq!(refusal(20, 576, 0).needed(), Some(576));
    }

    #[test]
    fn a_place_and_closer_words_are_told() {
        let place = Place { model: 1, geometry: Some(2), vertex: Some(3) };
        assert_eq!(place.to_string(), "model 1, geometry 2, vertex 3");
        assert_eq!(Place { geometry: None, vertex: None, ..place }.to_string(), "model 1");
        let refused = refusal(18, 0, 0).at(place);
        assert_eq!(refused.place(), Some(place));
        let line = "check 18: an index names no vertex: each must be below the number of vertices: model 1, geometry 2, vertex 3";
        assert_eq!(refused.to_string(), line);
        assert_eq!(refused.because(Detail::Words("other words")).to_string(), "check 18: other words");
        assert_eq!(refused.because(Detail::Words("other words")).text(), "other words");
    }

    #[test]
    fn the_doubled_index_of_a_triangle_is_told() {
        let line = |corners| refusal(27, 0, 0).because(Detail::Triangle { at: 4, corners }).to_string();
        let text = "check 27: a triangle is degenerate: its three indices must be different: triangle 4 of the geometry is";
        assert_eq!(line([7, 7, 2]), format!("{text} 7, 7, 2, with index 7 twice"));
        assert_eq!(line([2, 7, 7]), format!("{text} 2, 7, 7, with index 7 twice"));
        assert_eq!(line([7, 2, 7]), format!("{text} 7, 2, 7, with index 7 twice"));
        assert_eq!(line([7, 7, 7]), format!("{text} 7, 7, 7, with index 7 three times"));
        assert_eq!(refusal(27, 0, 0).needed(), None);
    }

    #[test]
    fn a_refusal_is_small() {
        assert!(size_of::<Refusal>() <= 104, "{}", size_of::<Refusal>());
    }
}
