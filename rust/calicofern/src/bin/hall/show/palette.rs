//! How each material is drawn.

use std::collections::BTreeMap;

/// Colours that are told apart on white, as thin lines too.
pub const COLOURS: [[u8; 3]; 24] = [
    [0x8c, 0x51, 0x0a],
    [0x1b, 0x78, 0x37],
    [0x21, 0x66, 0xac],
    [0xb2, 0x18, 0x2b],
    [0x76, 0x2a, 0x83],
    [0x00, 0x80, 0x80],
    [0xd0, 0x87, 0x00],
    [0x4d, 0x4d, 0x4d],
    [0x00, 0x00, 0xff],
    [0xff, 0x00, 0xf0],
    [0xff, 0x1e, 0x96],
    [0x3c, 0x69, 0xff],
    [0x00, 0xb4, 0x00],
    [0xd2, 0x87, 0xa5],
    [0xff, 0x00, 0x00],
    [0x96, 0xa5, 0x00],
    [0x78, 0x00, 0xc3],
    [0x5a, 0x0f, 0x2d],
    [0x96, 0x96, 0x69],
    [0xd2, 0x78, 0xff],
    [0x3c, 0x3c, 0x00],
    [0xff, 0x78, 0x4b],
    [0x87, 0x96, 0xb4],
    [0x00, 0x1e, 0x96],
];

/// The width of lines.
pub const LINE: f64 = 0.6;
/// How opaque a surface is, and a line of its hatching.
pub const SURFACE: f64 = 0.08;
pub const HATCHED: f64 = 0.4;

/// The angles of hatchings in degrees, the space between their lines, and the dashes of outlines.
const HATCHINGS: [(f64, f64, &str); 8] = [
    (45.0, 8.0, "5 2"),
    (135.0, 8.0, "2 2"),
    (0.0, 8.0, "8 2 2 2"),
    (90.0, 8.0, "1 2"),
    (45.0, 4.0, "5 4"),
    (135.0, 4.0, "2 4"),
    (0.0, 4.0, "8 4 2 4"),
    (90.0, 4.0, "1 4"),
];

/// How a material is drawn: a colour, and from the 25th material on a hatching too.
#[derive(Debug, Clone, Copy, PartialEq, Eq)]
pub struct Style {
    slot: usize,
    hatching: Option<usize>,
}

impl Style {
    pub fn rgb(self) -> [u8; 3] {
        COLOURS[self.slot]
    }

    pub fn colour(self) -> String {
        let [red, green, blue] = self.rgb();
        format!("#{red:02x}{green:02x}{blue:02x}")
    }

    /// The attributes of a path with lines of a width.
    pub fn attributes(self, line: f64) -> String {
        let colour = self.colour();
        let stroke = format!("stroke=\"{colour}\" stroke-width=\"{line:.2}\"");
        match self.hatching {
            None => format!("fill=\"{colour}\" fill-opacity=\"{SURFACE}\" {stroke}"),
            Some(kind) => format!("fill=\"url(#hatching-{}-{kind})\" {stroke} stroke-dasharray=\"{}\"", self.slot, HATCHINGS[kind].2),
        }
    }

    /// The definition of its hatching, for the head of the drawing.
    pub fn definition(self) -> Option<String> {
        let (kind, colour) = (self.hatching?, self.colour());
        let (angle, space, _) = HATCHINGS[kind];
        Some(format!(
            "<pattern id=\"hatching-{}-{kind}\" width=\"{space}\" height=\"{space}\" patternUnits=\"userSpaceOnUse\" \
             patternTransform=\"rotate({angle})\"><rect width=\"{space}\" height=\"{space}\" fill=\"{colour}\" fill-opacity=\"{SURFACE}\"/>\
             <path d=\"M0.5 0V{space}\" stroke=\"{colour}\" stroke-opacity=\"{HATCHED}\"/></pattern>\n",
            self.slot
        ))
    }

    /// Whether a line of its hatching goes through a point of the drawing, where it has one.
    pub fn hatching(self) -> Option<impl Fn(f64, f64) -> bool> {
        let (angle, space, _) = HATCHINGS[self.hatching?];
        let (sine, cosine) = angle.to_radians().sin_cos();
        Some(move |x: f64, y: f64| {
            let along = (x * cosine + y * sine) / space;
            (along - along.floor()) * space < 1.0
        })
    }
}

/// A style for each shader id, in ascending order. An id has its own colour where no smaller one has it too; the others fill the gaps, and what is left when
/// all colours are used begins anew with the next hatching.
pub fn styles(shaders: impl Iterator<Item = u16>) -> BTreeMap<u16, Style> {
    let mut styles = BTreeMap::new();
    let mut left: Vec<u16> = shaders.collect();
    let mut round = 0usize;
    while !left.is_empty() {
        let hatching = round.checked_sub(1).map(|round| round % HATCHINGS.len());
        let mut free = [true; COLOURS.len()];
        for own in [true, false] {
            left.retain(|shader| {
                let first = usize::from(*shader) % COLOURS.len();
                let slots = (first..COLOURS.len()).chain(0..first);
                let slot = slots.take(if own { 1 } else { COLOURS.len() }).find(|slot| free[*slot]);
                if let Some(slot) = slot {
                    free[slot] = false;
                    styles.insert(*shader, Style { slot, hatching });
                }
                slot.is_none()
            });
        }
        round += 1;
    }
    styles
}

#[cfg(test)]
mod tests {
    use super::*;

    #[test]
    fn colours_are_apart_and_show_on_white() {
        // differences weighted as the eye has it, roughly
        let apart = |one: [u8; 3], other: [u8; 3]| {
            let mean = (f64::from(one[0]) + f64::from(other[0])) / 2.0;
            let [red, green, blue] = std::array::from_fn(|at| (f64::from(one[at]) - f64::from(other[at])).powi(2));
            ((2.0 + mean / 256.0) * red + 4.0 * green + (2.0 + (255.0 - mean) / 256.0) * blue).sqrt()
        };
        for (at, one) in COLOURS.iter().enumerate() {
            assert!(apart(*one, [255; 3]) > 200.0, "{at}");
            for other in &COLOURS[..at] {
                assert!(apart(*one, *other) > 90.0, "{one:?} {other:?}");
            }
        }
    }

    #[test]
    fn a_material_keeps_its_colour() {
        let few = styles([3, 5, 27, 28].into_iter());
        assert_eq!((few[&3].slot, few[&5].slot, few[&28].slot, few[&27].slot), (3, 5, 4, 6));
        let more = styles([3, 4, 5].into_iter());
        assert_eq!((more[&3], more[&5]), (few[&3], few[&5]));
    }

    #[test]
    fn every_material_has_a_style_of_its_own() {
        let all = styles(0..24 * 9);
        for (shader, style) in &all {
            assert_eq!((style.slot, style.hatching.is_some()), (usize::from(*shader) % 24, *shader >= 24));
            assert_eq!((style.definition().is_some(), style.hatching().is_some()), (*shader >= 24, *shader >= 24));
            assert!(!all.iter().any(|(other, same)| other < shader && same == style), "{shader}");
        }
        assert_eq!(styles((0..=u16::MAX).step_by(24)).len(), 2731);
    }
}
