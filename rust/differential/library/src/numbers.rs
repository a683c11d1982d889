//! Numbers from a seed, and those at which conversions and lookups change their case.

/// SplitMix64: the same numbers from the same seed, everywhere.
#[derive(Clone)]
pub struct Random(u64);

impl Random {
    pub fn new(seed: u64) -> Self {
        Self(seed)
    }

    pub fn next(&mut self) -> u64 {
        self.0 = self.0.wrapping_add(0x9E37_79B9_7F4A_7C15);
        let mut z = self.0;
        z = (z ^ (z >> 30)).wrapping_mul(0xBF58_476D_1CE4_E5B9);
        z = (z ^ (z >> 27)).wrapping_mul(0x94D0_49BB_1331_11EB);
        z ^ (z >> 31)
    }

    /// A number below `end`, 0 where there is none.
    pub fn below(&mut self, end: usize) -> usize {
        if end == 0 {
            return 0;
        }
        (self.next() % end as u64) as usize
    }

    pub fn between(&mut self, low: usize, high: usize) -> usize {
        low + self.below(high - low + 1)
    }

    pub fn percent(&mut self, chance: usize) -> bool {
        self.below(100) < chance
    }

    pub fn pick<T: Copy>(&mut self, from: &[T]) -> T {
        from[self.below(from.len())]
    }

    pub fn bytes(&mut self, count: usize) -> Vec<u8> {
        let mut bytes: Vec<u8> = (0..count.div_ceil(8)).flat_map(|_| self.next().to_le_bytes()).collect();
        bytes.truncate(count);
        bytes
    }

    /// The bits of a float: an edge, a value as vertices have, or anything.
    pub fn float(&mut self) -> u32 {
        match self.below(4) {
            0 => self.pick(&FLOATS),
            1 => ((self.below(4001) as f32 - 2000.0) / 1000.0).to_bits(),
            2 => self.pick(&FLOATS).wrapping_add(self.below(5) as u32).wrapping_sub(2),
            _ => self.next() as u32,
        }
    }

    /// A triangle of three different vertices, of at least three; now and then the last one is among them.
    pub fn triangle(&mut self, vertices: usize) -> [u32; 3] {
        let mut corners = [0; 3];
        for place in 0..3 {
            corners[place] = loop {
                let drawn = if self.percent(10) { vertices - 1 } else { self.below(vertices) } as u32;
                if !corners[..place].contains(&drawn) {
                    break drawn;
                }
            };
        }
        corners
    }

    /// A length near a multiple of a block's.
    pub fn near_blocks(&mut self, block: usize, most: usize) -> usize {
        let middle = block * self.between(1, most);
        (middle + self.below(7)).saturating_sub(3)
    }
}

/// Zeros, subnormals, the ends of each case of rounding to a half, steps between bytes, infinities, and NaNs of both kinds.
pub const FLOATS: [u32; 44] = [
    0,
    0x8000_0000,
    1,
    0x8000_0001,
    0x007F_FFFF,
    0x0080_0000,
    0x3300_0000,
    0x3300_0001,
    0x3380_0000,
    0x33C0_0000,
    0x387F_C000,
    0x387F_E000,
    0x387F_F000,
    0x3880_0000,
    0x3880_1000,
    0x3880_3000,
    0x3F00_0000,
    0x3F7F_FFFF,
    0x3F80_0000,
    0x3F80_1000,
    0x3F80_1001,
    0x3F80_3000,
    0xBF80_0000,
    0xBF80_0001,
    0x3F81_0204,
    0x3C01_0204,
    0x3C01_0205,
    0x3B80_8081,
    0x3B80_8080,
    0x4000_0000,
    0x477F_E000,
    0x477F_EFFF,
    0x477F_F000,
    0x4780_0000,
    0xC77F_F000,
    0x7F7F_FFFF,
    0x7F80_0000,
    0xFF80_0000,
    0x7F80_0001,
    0x7F80_2000,
    0x7FC0_0000,
    0xFFC0_0000,
    0x7FFF_FFFF,
    0xFF80_2001,
];
