//! The records of a hall list: body length u32, kind u16, body.

use crate::bytes::{u16_at, u32_at};

pub const MODEL: u16 = 1;
pub const GEOMETRY: u16 = 2;
pub const DECLARATION: u16 = 3;
pub const VERTICES: u16 = 4;
pub const INDICES: u16 = 5;

#[derive(Debug, Clone, Copy, PartialEq, Eq)]
pub struct Record<'a> {
    pub kind: u16,
    pub body: &'a [u8],
}

/// The records of some bytes, up to the first that is not whole.
#[derive(Debug, Clone, Copy)]
pub struct Records<'a> {
    rest: &'a [u8],
}

impl<'a> Records<'a> {
    pub fn of(bytes: &'a [u8]) -> Self {
        Records { rest: bytes }
    }

    /// The next record, left in its place.
    pub fn peek(&self) -> Option<Record<'a>> {
        let length = usize::try_from(u32_at(self.rest, 0)).ok()?;
        let body = self.rest.get(6..)?.get(..length)?;
        Some(Record { kind: u16_at(self.rest, 4), body })
    }

    /// The records before the first of one of the kinds; what is left begins with that one.
    pub fn split_before(&mut self, kinds: &[u16]) -> Records<'a> {
        let whole = self.rest;
        while self.peek().is_some_and(|record| !kinds.contains(&record.kind)) {
            self.next();
        }
        // the rest is the end of what was there
        Records { rest: whole.get(..whole.len() - self.rest.len()).unwrap_or_default() }
    }
}

impl<'a> Iterator for Records<'a> {
    type Item = Record<'a>;

    fn next(&mut self) -> Option<Record<'a>> {
        let record = self.peek()?;
        self.rest = self.rest.get(6 + record.body.len()..)?;
        Some(record)
    }
}

#[cfg(test)]
mod tests {
    use super::*;

    const THREE: [u8; 21] = [1, 0, 0, 0, 1, 0, 9, 0, 0, 0, 0, 5, 1, 2, 0, 0, 0, 2, 0, 7, 8];

    #[test]
    fn records_one_behind_the_other() {
        let found: Vec<(u16, &[u8])> = Records::of(&THREE).map(|record| (record.kind, record.body)).collect();
        assert_eq!(found, [(1, &[9][..]), (0x105, &[]), (2, &[7, 8])]);
    }

    #[test]
    fn a_record_that_is_not_whole_ends_them() {
        assert_eq!(Records::of(&THREE[..20]).count(), 2);
        assert_eq!(Records::of(&THREE[..18]).count(), 2);
        assert_eq!(Records::of(&THREE[..5]).count(), 0);
        assert_eq!(Records::of(&[255; 5000]).count(), 0);
    }

    #[test]
    fn records_are_split_before_a_kind() {
        let mut records = Records::of(&THREE);
        assert_eq!(records.split_before(&[2]).count(), 2);
        assert_eq!(records.split_before(&[2]).count(), 0);
        assert_eq!(records.count(), 1);
    }
}
