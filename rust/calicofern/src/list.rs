//! The list of a drawable's models and geometries.

use crate::{calls, Models};

/// The list of a drawable's models and geometries. It owns the list's bytes; models and geometries are views of them.
#[derive(Debug, Clone, Default, PartialEq, Eq, Hash)]
pub struct HallList {
    bytes: Vec<u8>,
}

impl HallList {
    /// A list of bytes that are at hand, such as a file written earlier. Any bytes will do: a record that is not whole ends the list, and numbers that a
    /// record lacks are 0.
    pub fn from_bytes(bytes: Vec<u8>) -> Self {
        HallList { bytes }
    }

    /// The list's bytes: records of body length u32, kind u16, body.
    pub fn as_bytes(&self) -> &[u8] {
        &self.bytes
    }

    /// The list's bytes, without a copy.
    pub fn into_bytes(self) -> Vec<u8> {
        self.bytes
    }

    /// Its models, in order.
    pub fn models(&self) -> Models<'_> {
        Models::of(&self.bytes)
    }

    /// The triangles of all geometries: a third of each stored index count, or of the indices that are there where that is 0.
    pub fn triangle_count(&self) -> u64 {
        calls::triangle_count(&self.bytes)
    }
}
