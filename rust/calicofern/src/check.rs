//! The checks that a call may be refused by.

use std::fmt;

/// The one table of the checks: number, name, and what is asked in words.
macro_rules! checks {
    ($($number:literal $name:ident $text:literal,)*) => {
        /// What a refused call was asked: a check by its number, as docs/FORMAT.md of the repository lists them.
        ///
        /// Checks compare by their numbers, and those that this version does not know come last. They are asked in the order of their numbers, but for
        /// 27, which comes after 18 and before 19.
        ///
        /// ```
        /// use calicofern::Check;
        /// assert_eq!(Check::from_number(18), Check::IndexRange);
        /// assert_eq!(Check::IndexRange.number(), 18);
        /// assert_eq!(Check::IndexRange.to_string(), "check 18");
        /// assert_eq!(Check::from_number(255), Check::Unknown(255));
        /// ```
        #[derive(Debug, Clone, Copy, PartialEq, Eq, PartialOrd, Ord, Hash)]
        #[non_exhaustive]
        pub enum Check {
            $(#[doc = concat!("Check ", $number, ": ", $text, ".")] $name,)*
            /// A number that this version does not know.
            Unknown(u8),
        }

        impl Check {
            /// Every check that this version knows, in the order of their numbers.
            pub const ALL: &'static [Check] = &[$(Check::$name),*];

            /// The check with a number.
            pub fn from_number(number: u8) -> Self {
                match number {
                    $($number => Self::$name,)*
                    other => Self::Unknown(other),
                }
            }

            /// Its number.
            pub fn number(self) -> u8 {
                match self {
                    $(Self::$name => $number,)*
                    Self::Unknown(other) => other,
                }
            }

            /// What it asks for, in words that tell a user why a call was refused.
            pub fn text(self) -> &'static str {
                match self {
                    $(Self::$name => $text,)*
                    Self::Unknown(_) => "a check that this version does not know",
                }
            }
        }
    };
}

checks! {
    1 SectionLength "a section is too long: the system and the graphics section may have 67108864 bytes each",
    2 ModelPointers "the list of model pointers is not inside its section: the address and the count in the LOD header must lead to it",
    3 ModelBlock "a model is not inside its section: each model pointer that is not 0 must lead to 48 bytes",
    4 GeometryPointers "a model's list of geometry pointers is not inside its section: the model's address and count must lead to it",
    5 GeometryLimit "there are too many geometries: a list holds at most 16384",
    6 GeometryBlock "a geometry is not inside its section: each geometry pointer that is not 0 must lead to 152 bytes",
    7 ListBuffer "the buffer for the list is too short",
    8 VertexIndex "there is no such vertex: its index must be below the number of vertices",
    9 VertexData "a vertex is not inside its data: every component that has bytes must end inside the vertex data",
    10 Output "the output is too short",
    11 Records "the list is not made of whole records in order: a model, then its geometries as kinds 2, 3, 4 and 5, each record as long as its own numbers say",
    12 Mapping "a model's mapping is not the list of its geometries' shader ids: it needs one entry for each geometry, in their order",
    13 Limits "there are too many models or geometries: a hall has at most 256 models and 16384 geometries",
    14 Strides "strides or layout disagree: the strides of geometry, declaration and vertex buffer must be equal and the layout 0, Legacy",
    15 Declaration "a declaration does not fit its vertices: it must declare a position that has bytes, and all components must fit into the stride",
    16 VertexCount "vertex counts disagree: a geometry and its vertex buffer must have the same count, 1 to 65535",
    17 IndexCounts "index counts disagree: a geometry's count, its index buffer's count, the indices there are and 3 for each triangle must be equal, and at least 3",
    18 IndexRange "an index names no vertex: each must be below the number of vertices",
    19 ImageLength "the hall is too large to be saved: its image may have 67108864 bytes",
    20 ImageBuffer "the buffer for the image is too short",
    21 Target "there is no such model, geometry or vertex: each is counted from 0, and a geometry can only be added where there is a model",
    22 Semantic "the vertices have no such attribute: the geometry's declaration must have this semantic, with a type that has bytes",
    23 Shape "the value has not the shape of the attribute's type: Float wants one float, Half2 and Float2 two, Float3 three, Half4, Float4 and RGBA8SNorm four, UByte4 and Colour four bytes",
    24 HallBuffer "the buffer for the hall is too short",
    27 DegenerateTriangle "a triangle is degenerate: its three indices must be different",
}

impl Check {
    /// What is asked of a hall as a whole, in the order in which it is asked.
    const OF_HALLS: [Check; 10] = [
        Self::Records,
        Self::Mapping,
        Self::Limits,
        Self::Strides,
        Self::Declaration,
        Self::VertexCount,
        Self::IndexCounts,
        Self::IndexRange,
        Self::DegenerateTriangle,
        Self::ImageLength,
    ];

    /// Whether a list that is no hall can be refused by it.
    pub(crate) fn is_of_halls(self) -> bool {
        Self::OF_HALLS.contains(&self)
    }

    /// Whether its refusal says how many bytes were needed.
    pub(crate) fn needs_bytes(self) -> bool {
        matches!(self, Self::ListBuffer | Self::Output | Self::ImageBuffer | Self::HallBuffer)
    }
}

/// `check 18`.
impl fmt::Display for Check {
    fn fmt(&self, out: &mut fmt::Formatter<'_>) -> fmt::Result {
        out.pad(&format!("check {}", self.number()))
    }
}

#[cfg(test)]
mod tests {
    use super::*;

    #[test]
    fn numbers_go_both_ways() {
        assert!((0..=255).all(|number| Check::from_number(number).number() == number));
        assert_eq!(Check::ALL.iter().map(|check| check.number()).collect::<Vec<_>>(), (1..=24).chain([27]).collect::<Vec<_>>());
        assert!([0, 25, 26, 28].iter().all(|number| Check::from_number(*number) == Check::Unknown(*number)));
    }

    #[test]
    fn halls_are_asked_ten_checks() {
        let asked: Vec<u8> = Check::OF_HALLS.iter().map(|check| check.number()).collect();
        assert_eq!(asked, [11, 12, 13, 14, 15, 16, 17, 18, 27, 19]);
        let of_halls: Vec<u8> = (0..=255).filter(|number| Check::from_number(*number).is_of_halls()).collect();
        assert_eq!(of_halls, [11, 12, 13, 14, 15, 16, 17, 18, 19, 27]);
    }

    #[test]
    fn each_check_has_its_own_line() {
        for check in Check::ALL {
            let text = check.text();
            assert!(!text.contains('\n') && text != Check::Unknown(0).text(), "{check}: {text}");
            assert_eq!(Check::ALL.iter().filter(|other| other.text() == text).count(), 1, "{check}: {text}");
        }
    }

    #[test]
    fn checks_are_ordered_by_their_numbers() {
        assert!(Check::ALL.windows(2).all(|pair| pair[0] < pair[1]));
        assert!(Check::HallBuffer < Check::DegenerateTriangle && Check::DegenerateTriangle < Check::Unknown(28));
    }
}
