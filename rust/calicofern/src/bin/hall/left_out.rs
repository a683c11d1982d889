//! What an output leaves out, for its closing line.

use crate::table::{counted, grouped};
use std::fmt::Display;

/// The most geometries that a line names.
const NAMED: usize = 8;

/// What an output leaves out of the list that it shows.
#[derive(Default)]
pub struct LeftOut {
    /// The first geometries, each with the reason, and how many there are.
    named: Vec<String>,
    geometries: u64,
    /// Triangles with an index beyond the vertices.
    pub beyond: u64,
    /// Triangles with a coordinate that is a NaN or an infinity.
    pub no_number: u64,
}

impl LeftOut {
    pub fn geometry(&mut self, name: impl Display, why: impl Display) {
        self.geometries += 1;
        if self.named.len() < NAMED {
            self.named.push(format!("{name} ({why})"));
        }
    }

    /// In plain words, a sentence for each kind; none where nothing is left out.
    pub fn said(&self) -> Vec<String> {
        let mut said = Vec::new();
        if self.geometries > 0 {
            let more = match self.geometries - self.named.len() as u64 {
                0 => String::new(),
                more => format!(" and {} more", grouped(more)),
            };
            said.push(format!("{}: {}{more}", are_left_out(self.geometries, "geometry", "geometries", ""), self.named.join(", ")));
        }
        let triangles = [(self.beyond, " with an index beyond the vertices"), (self.no_number, " with a coordinate that is no number")];
        let some = triangles.into_iter().filter(|(count, _)| *count > 0);
        said.extend(some.map(|(count, which)| are_left_out(count, "triangle", "triangles", which)));
        said
    }
}

/// `2 triangles at it are left out`.
pub fn are_left_out(count: u64, one: &str, many: &str, which: &str) -> String {
    format!("{}{which} {} left out", counted(count, one, many), if count == 1 { "is" } else { "are" })
}

#[cfg(test)]
mod tests {
    use super::*;

    #[test]
    fn what_is_left_out_is_said() {
        let mut left = LeftOut::default();
        assert!(left.said().is_empty());
        left.geometry("model 0 geometry 3", "no vertices");
        left.no_number = 1;
        left.beyond = 2;
        assert_eq!(
            left.said(),
            [
                "1 geometry is left out: model 0 geometry 3 (no vertices)",
                "2 triangles with an index beyond the vertices are left out",
                "1 triangle with a coordinate that is no number is left out"
            ]
        );
        for geometry in 0..1009 {
            left.geometry(format!("model 1 geometry {geometry}"), "no indices");
        }
        let line = &left.said()[0];
        assert!(line.starts_with("1,010 geometries are left out: ") && line.ends_with("geometry 6 (no indices) and 1,002 more"), "{line}");
    }
}
