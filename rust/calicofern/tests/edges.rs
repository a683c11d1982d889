//! The numbers at which the conversions turn, and runs of every length around the blocks in which numbers are converted. tests/expected/edges.py makes edges.txt.

use calicofern::convert::*;
use calicofern::Refusal;

const EDGES: &str = include_str!("edges.txt");

/// The lines of one kind, each as its numbers.
fn lines(kind: &str) -> Vec<Vec<u32>> {
    let of_kind = EDGES.lines().filter_map(|line| line.strip_prefix(kind));
    of_kind.map(|line| line.split_whitespace().map(|word| u32::from_str_radix(word, 16).unwrap()).collect()).collect()
}

/// The numbers of a column, in `width` bytes each.
fn column(lines: &[Vec<u32>], place: usize, width: usize) -> Vec<u8> {
    lines.iter().flat_map(|line| line[place].to_le_bytes()[..width].to_vec()).collect()
}

#[test]
fn single_numbers() {
    for line in lines("half") {
        assert_eq!(f16_to_f32(line[0] as u16).to_bits(), line[1], "the half {:x}", line[0]);
    }
    for line in lines("float") {
        let value = f32::from_bits(line[0]);
        assert_eq!(
            [f32_to_f16(value) as u32, f32_to_snorm8(value) as u32, f32_to_unorm8(value) as u32],
            line[1..],
            "the float {:x}",
            line[0]
        );
    }
}

type Run = fn(&[u8], &mut [u8]) -> Result<usize, Refusal>;

/// The conversion of one column of the edges to another, with the bytes of a number in each.
struct Conversion {
    kind: &'static str,
    from: usize,
    column: usize,
    to: usize,
    run: Run,
}

const CONVERSIONS: [Conversion; 4] = [
    Conversion { kind: "half", from: 2, column: 1, to: 4, run: halves_to_floats },
    Conversion { kind: "float", from: 4, column: 1, to: 2, run: floats_to_halves },
    Conversion { kind: "float", from: 4, column: 2, to: 1, run: floats_to_snorm8 },
    Conversion { kind: "float", from: 4, column: 3, to: 1, run: floats_to_unorm8 },
];

impl Conversion {
    /// A run gives the expected numbers and leaves the bytes behind them.
    fn check(&self, run: &[Vec<u32>]) {
        let mut out = vec![0xA5; run.len() * self.to + 3];
        assert_eq!((self.run)(&column(run, 0, self.from), &mut out), Ok(run.len() * self.to));
        assert_eq!(out[..run.len() * self.to], column(run, self.column, self.to), "{} numbers from {:x?} on", run.len(), run.first());
        assert!(out[run.len() * self.to..].iter().all(|byte| *byte == 0xA5));
    }
}

#[test]
fn runs_of_every_length() {
    for conversion in CONVERSIONS {
        let edges = lines(conversion.kind);
        let many: Vec<Vec<u32>> = edges.iter().cycle().take(2000).cloned().collect();
        for length in (0..=200).chain(250..=260).chain(510..=516).chain(766..=770) {
            conversion.check(&many[length..2 * length]);
        }
    }
}

/// Each edge alone among ones, in one of two blocks of 64 or behind them.
#[test]
fn one_edge_in_a_run() {
    for conversion in CONVERSIONS {
        let edges = lines(conversion.kind);
        let one = edges.iter().find(|line| line[0] == if conversion.from == 2 { 0x3C00 } else { 0x3F80_0000 }).unwrap();
        for (number, edge) in edges.iter().enumerate() {
            let mut run = vec![one.clone(); 130];
            run[number * 37 % 130] = edge.clone();
            conversion.check(&run);
        }
    }
}
