//! Drawables from a seed: well-formed ones of every layout, declaration and index form, odd ones, and damaged ones.
use std::fmt;

use crate::numbers::Random;

pub const SYSTEM: u64 = 0x5000_0000;
pub const GRAPHICS: u64 = 0x6000_0000;

/// Two sections and the address of a LOD header.
#[derive(Clone)]
pub struct Drawable {
    pub system: Vec<u8>,
    pub graphics: Vec<u8>,
    pub va: u64,
}

impl fmt::Debug for Drawable {
    fn fmt(&self, formatter: &mut fmt::Formatter<'_>) -> fmt::Result {
        let shown = |bytes: &[u8]| match bytes.len() {
            0..=65_536 => bytes.iter().map(|byte| format!("{byte:02x}")).collect(),
            length => format!("({length} bytes)"),
        };
        write!(formatter, "system {} graphics {} address {:x}", shown(&self.system), shown(&self.graphics), self.va)
    }
}

/// How a drawable was made.
#[derive(Debug, Clone, Copy, PartialEq, Eq)]
pub enum Kind {
    WellFormed,
    Odd,
    Long,
    Crowded,
    Words,
    Damaged,
}

pub const KINDS: [Kind; 6] = [Kind::WellFormed, Kind::Odd, Kind::Long, Kind::Crowded, Kind::Words, Kind::Damaged];

/// The drawable with this number.
pub fn drawable(seed: u64, number: u64) -> (Kind, Drawable) {
    let random = &mut Random::new(seed.wrapping_mul(0x1_0000_0001).wrapping_add(number));
    random.next();
    match random.below(1000) {
        0 => (Kind::Crowded, crowded(random)),
        1..=20 => (Kind::Long, Builder::new(random, 0, true).drawable()),
        21..=300 => (Kind::WellFormed, Builder::new(random, 0, false).drawable()),
        301..=600 => {
            let odds = random.pick(&[2, 5, 15]);
            (Kind::Odd, Builder::new(random, odds, false).drawable())
        }
        601..=700 => (Kind::Words, words(random)),
        _ => {
            let odds = random.pick(&[0, 0, 3]);
            let whole = Builder::new(random, odds, false).drawable();
            (Kind::Damaged, damaged(random, whole))
        }
    }
}

/// A small well-formed drawable, for changes of each byte.
pub fn small(seed: u64, most: usize) -> Drawable {
    let mut number = seed;
    loop {
        let random = &mut Random::new(number);
        let made = Builder::new(random, 0, false).drawable();
        let length = made.system.len() + made.graphics.len();
        if (700..most).contains(&length) {
            return made;
        }
        number += 1_000_003;
    }
}

pub fn put(bytes: &mut [u8], at: usize, value: u64, width: usize) {
    bytes[at..at + width].copy_from_slice(&value.to_le_bytes()[..width]);
}

/// Sizes in bytes by type nibble.
pub const SIZES: [usize; 16] = [0, 4, 4, 8, 0, 8, 12, 16, 4, 4, 4, 0, 0, 0, 0, 0];

/// The bytes of a vertex with this declaration.
pub fn declared_size(flags: u32, types: u64) -> usize {
    (0..16).filter(|index| flags >> index & 1 == 1).map(|index| SIZES[(types >> (index * 4) & 15) as usize]).sum()
}

/// Flags and types.
pub fn declaration(random: &mut Random) -> (u32, u64) {
    let named = [0x7755_5555_5599_6996, 0x0300_0000_0199_A006, 0x0300_0000_0199_6006, 0x7655_5555_5599_6996, 6];
    let types = match random.below(5) {
        0 => random.pick(&named),
        1..=3 => (0..16).fold(0, |types, index| types | (random.pick(&[1, 2, 3, 5, 6, 7, 8, 9, 10]) as u64) << (index * 4)),
        _ => random.next(),
    };
    let flags = match random.below(6) {
        0 => 1,
        1 => 0xFFFF,
        2 => random.next() as u32,
        3 => random.pick(&[0x4059, 0x40DF, 0x005F, 0x0019, 0, 0xFFFF_0000, 0x7F]),
        _ => random.next() as u32 & random.next() as u32 & 0xFFFF | 1,
    };
    (flags, types)
}

/// Bytes of floats, of halves, or any.
pub fn vertex_bytes(random: &mut Random, count: usize) -> Vec<u8> {
    let mut bytes: Vec<u8> = Vec::with_capacity(count + 8);
    while bytes.len() < count {
        let word = match random.below(4) {
            0 => random.next() as u32,
            1 => random.pick(&[0x0001_8001, 0x03FF_0400, 0x7BFF_7C00, 0xFC00_7C01, 0x7E00_FE01, 0x3C00_BC00, 0x8081_7F00, 0xFF01_8000]),
            _ => random.float(),
        };
        bytes.extend(word.to_le_bytes());
    }
    bytes.truncate(count);
    bytes
}

struct Builder<'a> {
    random: &'a mut Random,
    /// How many pointers and counts of a hundred are odd.
    odds: usize,
    /// Whether data and indices are about as long as the blocks that copies go by.
    long: bool,
    /// Whether a block lies before what it points to, so that a cut takes the inner parts first.
    outer_first: bool,
    sections: [Vec<u8>; 2],
    placed: Vec<u64>,
}

/// Where a block will lie, if that is settled before its contents are.
struct Slot(Option<u64>);

impl<'a> Builder<'a> {
    fn new(random: &'a mut Random, odds: usize, long: bool) -> Self {
        let outer_first = random.percent(60);
        Self { random, odds, long, outer_first, sections: [Vec::new(), Vec::new()], placed: Vec::new() }
    }

    fn odd(&mut self) -> bool {
        self.odds > 0 && self.random.percent(self.odds)
    }

    /// Puts bytes at the end of a section and says their address.
    fn place(&mut self, bytes: &[u8]) -> u64 {
        let graphics = self.random.percent(35) as usize;
        let section = &mut self.sections[graphics];
        while section.len() % 16 != 0 && self.random.percent(90) {
            section.push(0xEE);
        }
        let address = [SYSTEM, GRAPHICS][graphics] + section.len() as u64;
        section.extend(bytes);
        self.placed.push(address);
        address
    }

    fn slot(&mut self, length: usize) -> Slot {
        Slot(self.outer_first.then(|| self.place(&vec![0xDD; length])))
    }

    fn settle(&mut self, slot: Slot, bytes: &[u8]) -> u64 {
        let Some(address) = slot.0 else { return self.place(bytes) };
        let graphics = address >= GRAPHICS;
        let at = (address - [SYSTEM, GRAPHICS][graphics as usize]) as usize;
        self.sections[graphics as usize][at..at + bytes.len()].copy_from_slice(bytes);
        address
    }

    /// The pointer, or one that is null, aliased, or leads out of its section.
    fn pointer(&mut self, right: u64) -> u64 {
        if !self.odd() {
            return right;
        }
        let lengths = [self.sections[0].len() as u64, self.sections[1].len() as u64];
        match self.random.below(12) {
            0 | 1 => 0,
            2 | 3 if !self.placed.is_empty() => self.random.pick(&self.placed),
            4 => right | 1 << self.random.between(31, 63),
            5 => right | 0x7000_0000,
            6 => 0x7000_0000,
            7 => SYSTEM + lengths[0],
            8 => GRAPHICS + lengths[1].saturating_sub(1),
            9 => right.wrapping_add(self.random.below(9) as u64).wrapping_sub(4),
            10 => right & !0x4000_0000,
            _ => self.random.next() >> self.random.below(64),
        }
    }

    /// The count, or another.
    fn count(&mut self, right: usize) -> usize {
        if !self.odd() {
            return right;
        }
        match self.random.below(5) {
            0 => 0,
            1 => right + 1,
            2 => right.saturating_sub(1),
            3 => self.random.below(200),
            _ => self.random.next() as usize & 0xFFFF_FFFF,
        }
    }

    fn noise(&mut self, length: usize) -> Vec<u8> {
        if self.random.percent(50) {
            vec![0; length]
        } else {
            self.random.bytes(length)
        }
    }

    fn drawable(mut self) -> Drawable {
        let noise = self.random.below(40);
        let bytes = self.random.bytes(noise);
        self.place(&bytes);
        let models = self.random.pick(&[0, 1, 1, 1, 1, 1, 2, 2, 2, 3, 3, 5]);
        let slots = (self.slot(16), self.slot(8 * models));
        let mut pointers: Vec<u64> = Vec::new();
        for _ in 0..models {
            let alias = !pointers.is_empty() && self.random.percent(8);
            let model = if alias { self.random.pick(&pointers) } else { self.model() };
            let null = self.random.percent(6);
            let pointer = if null { 0 } else { self.pointer(model) };
            pointers.push(pointer);
        }
        let va = self.header(&pointers, slots);
        let [system, graphics] = self.sections;
        Drawable { system, graphics, va }
    }

    fn header(&mut self, models: &[u64], slots: (Slot, Slot)) -> u64 {
        let list: Vec<u8> = models.iter().flat_map(|pointer| pointer.to_le_bytes()).collect();
        let pointer = if models.is_empty() { 0 } else { self.settle(slots.1, &list) };
        let pointer = self.pointer(pointer);
        let count = self.count(models.len());
        let capacity = self.random.pick(&[count, count, count, 0, 9]);
        let (count, capacity) = if self.random.percent(15) { (0, count) } else { (count, capacity) };
        let mut header = self.noise(16);
        put(&mut header, 0, pointer, 8);
        put(&mut header, 8, count as u64 & 0xFFFF, 2);
        put(&mut header, 10, capacity as u64 & 0xFFFF, 2);
        let va = self.settle(slots.0, &header);
        self.pointer(va)
    }

    fn model(&mut self) -> u64 {
        let count = if self.long { 2 } else { self.random.pick(&[0, 1, 1, 2, 3, 4]) };
        let slots = (self.slot(0x30), self.slot(8 * count));
        let mut geometries: Vec<u64> = Vec::new();
        for _ in 0..count {
            let alias = !geometries.is_empty() && self.random.percent(8);
            let geometry = if alias { self.random.pick(&geometries) } else { self.geometry() };
            let null = self.random.percent(8);
            let pointer = if null { 0 } else { self.pointer(geometry) };
            geometries.push(pointer);
        }
        let list: Vec<u8> = geometries.iter().flat_map(|pointer| pointer.to_le_bytes()).collect();
        let geometries = self.settle(slots.1, &list);
        let ids = self.random.bytes(2 * count);
        let mapping = self.place(&ids);
        let absent = self.random.percent(10);
        let mut block = self.noise(0x30);
        put(&mut block, 0x08, self.pointer(geometries), 8);
        put(&mut block, 0x10, self.count(count) as u64 & 0xFFFF, 2);
        put(&mut block, 0x20, if absent { 0 } else { self.pointer(mapping) }, 8);
        put(&mut block, 0x28, self.random.next() & 0xFFFF_FFFF, 4);
        put(&mut block, 0x2C, self.random.next() & 0xFFFF, 2);
        self.settle(slots.0, &block)
    }

    fn geometry(&mut self) -> u64 {
        let slot = self.slot(0x98);
        let (flags, types) = declaration(self.random);
        let stride = self.stride(declared_size(flags, types));
        let count = self.vertices(stride);
        let block = self.slot(0x80);
        let data = vertex_bytes(self.random, count * stride);
        let data = self.place(&data);
        let layout = self.random.below(6);
        let vertices = self.vertex_block(block, layout, (data, count, stride), (flags, types));
        let (indices, held) = self.index_block(count);
        let mut block = self.noise(0x98);
        put(&mut block, 0x18, self.pointer(vertices), 8);
        put(&mut block, 0x38, self.pointer(indices), 8);
        put(&mut block, 0x58, self.count(held) as u64, 4);
        put(&mut block, 0x5C, self.count(held / 3) as u64, 4);
        let zero = layout != 3 && self.random.percent(15);
        put(&mut block, 0x60, if zero { 0 } else { self.count(count) as u64 & 0xFFFF }, 2);
        put(&mut block, 0x70, self.count(stride) as u64 & 0xFFFF, 2);
        let inline = if layout == 3 || self.random.percent(20) { data } else { 0 };
        put(&mut block, 0x78, self.pointer(inline), 8);
        self.settle(slot, &block)
    }

    fn stride(&mut self, declared: usize) -> usize {
        match self.random.below(8) {
            0..=4 => declared.max(1),
            5 => declared + self.random.below(9),
            6 => declared.saturating_sub(1),
            _ => self.random.below(40),
        }
    }

    fn vertices(&mut self, stride: usize) -> usize {
        if self.long {
            let bytes = self.random.near_blocks(4096, 4);
            return (bytes / stride.max(1)).clamp(1, 9000);
        }
        self.random.pick(&[0, 1, 1, 2, 3, 3, 4, 5, 8, 12])
    }

    fn vertex_block(&mut self, slot: Slot, layout: usize, stream: (u64, usize, usize), declared: (u32, u64)) -> u64 {
        let mut block = self.noise(0x80);
        for at in [0x10, 0x20] {
            put(&mut block, at, 0, 8);
        }
        let (data, count, stride) = (self.pointer(stream.0), self.count(stream.1) as u64, self.count(stream.2) as u64 & 0xFFFF);
        match layout {
            3 => return self.random.pick(&[0, 0, 0x7000_0000, 0x5FFF_FFF0]),
            2 => {
                put(&mut block, 0x08, count & 0xFFFF_FFFF, 4);
                put(&mut block, 0x0C, stride, 2);
                put(&mut block, 0x18, data, 8);
            }
            4 => {}
            _ => {
                let second = layout == 1;
                put(&mut block, 0x08, stride, 2);
                put(&mut block, 0x18, count & 0xFFFF_FFFF, 4);
                put(&mut block, if second { 0x20 } else { 0x10 }, data, 8);
                if self.random.percent(25) {
                    let other = self.random.pick(&[data, 0x6FFF_0000, 0x5FFF_0000, 7]);
                    put(&mut block, if second { 0x10 } else { 0x20 }, if second { other | 0x0F00_0000 } else { other }, 8);
                }
            }
        }
        let info = self.declaration(declared.0, declared.1);
        put(&mut block, 0x30, info, 8);
        self.settle(slot, &block)
    }

    fn declaration(&mut self, flags: u32, types: u64) -> u64 {
        if self.random.percent(8) {
            return self.random.pick(&[0, 0x7000_0010, 0x5FFF_FFFF]);
        }
        let mut bytes = self.noise(16);
        put(&mut bytes, 0, flags as u64, 4);
        put(&mut bytes, 8, types, 8);
        if self.random.percent(70) {
            put(&mut bytes, 4, declared_size(flags, types) as u64, 2);
            put(&mut bytes, 7, (flags & 0xFFFF).count_ones() as u64, 1);
        }
        let placed = self.place(&bytes);
        self.pointer(placed)
    }

    /// The block's address and how many indices are held.
    fn index_block(&mut self, vertices: usize) -> (u64, usize) {
        let count = if self.long { self.random.near_blocks(512, 9) } else { self.random.pick(&[0, 1, 3, 3, 6, 7, 12, 30]) };
        let form = self.random.below(8);
        let width = if form == 3 || form == 4 { 4 } else { 2 };
        let slot = self.slot(0x60);
        let mut data = Vec::new();
        for _ in 0..count {
            let index = self.random.below(vertices.max(1)) as u64;
            let index = if self.random.percent(5) { self.random.next() } else { index };
            data.extend(&index.to_le_bytes()[..width]);
        }
        let data = self.place(&data);
        if form == 7 {
            return (self.random.pick(&[0, 0x7000_0000]), count);
        }
        let mut block = self.noise(0x60);
        for at in [0x10, 0x18] {
            put(&mut block, at, 0, 8);
        }
        put(&mut block, 0x08, self.count(count) as u64 & 0xFFFF_FFFF, 4);
        put(&mut block, 0x0C, self.random.pick(&[2, 4, 0, 1, 3, 8]), 2);
        match form {
            2 => {
                put(&mut block, 0x0C, 2, 2);
                put(&mut block, 0x18, self.pointer(data), 8);
            }
            3 => {
                put(&mut block, 0x0C, 4, 2);
                put(&mut block, 0x18, self.pointer(data), 8);
            }
            4 => {
                put(&mut block, 0x0C, 4, 2);
                put(&mut block, 0x10, self.random.pick(&[0x5FFF_FFFE, 1, 0x7000_0000]), 8);
                put(&mut block, 0x18, self.pointer(data), 8);
            }
            5 => put(&mut block, 0x18, self.pointer(data), 8),
            _ => put(&mut block, 0x10, self.pointer(data), 8),
        }
        (self.settle(slot, &block), count)
    }
}

/// About 16,384 geometries behind few blocks.
fn crowded(random: &mut Random) -> Drawable {
    let models = random.pick(&[1, 2, 4, 8, 64]);
    let wanted = random.pick(&[16_383, 16_384, 16_385, 16_386]);
    let mut system = vec![0; 0x100];
    let geometry = random.pick(&[0, 0, 0, SYSTEM - 16]);
    put(&mut system, 0x58, random.next() & 0xFFFF, 4);
    let (mut blocks, mut left) = (Vec::new(), wanted);
    for model in 0..models {
        let count = if model + 1 == models { left } else { wanted / models };
        left -= count;
        let at = system.len();
        for number in 0..count {
            let last = left == 0 && number + 1 == count;
            system.extend((if last && geometry != 0 { geometry } else { SYSTEM }).to_le_bytes());
            if random.percent(1) {
                system.extend([0; 8]);
            }
        }
        let stored = (system.len() - at) / 8;
        let block = system.len();
        system.extend([0; 0x30]);
        put(&mut system, block + 0x08, SYSTEM + at as u64, 8);
        put(&mut system, block + 0x10, stored as u64, 2);
        blocks.push(SYSTEM + block as u64);
    }
    let at = system.len();
    system.extend(blocks.iter().flat_map(|block| block.to_le_bytes()));
    let mut graphics = vec![0; 16];
    put(&mut graphics, 0, SYSTEM + at as u64, 8);
    put(&mut graphics, 8, models as u64, 2);
    Drawable { system, graphics, va: GRAPHICS }
}

/// Sections of words that are pointers, small numbers or anything, at random.
fn words(random: &mut Random) -> Drawable {
    let lengths = [random.between(0, 250) * 8, random.between(0, 120) * 8];
    let mut sections = lengths.map(|length| Vec::with_capacity(length));
    for (section, length) in sections.iter_mut().zip(lengths) {
        while section.len() < length {
            section.extend(word(random, lengths).to_le_bytes());
        }
        let cut = random.below(8);
        section.truncate(length.saturating_sub(cut));
    }
    let va = address(random, lengths);
    let [system, graphics] = sections;
    Drawable { system, graphics, va }
}

fn address(random: &mut Random, lengths: [usize; 2]) -> u64 {
    let graphics = random.percent(35) as usize;
    [SYSTEM, GRAPHICS][graphics] + (random.below(lengths[graphics].max(8)) as u64 & !7)
}

fn word(random: &mut Random, lengths: [usize; 2]) -> u64 {
    match random.below(10) {
        0..=4 => address(random, lengths),
        5 => 0,
        6 | 7 => random.below(12) as u64 | (random.below(8) as u64) << 32,
        8 => random.below(5) as u64 | (random.pick(&[2, 4, 12, 16]) as u64) << 32,
        _ => random.next(),
    }
}

/// A copy that is cut, or whose bytes or words are changed.
pub fn damaged(random: &mut Random, whole: Drawable) -> Drawable {
    let mut made = whole;
    for _ in 0..random.between(1, 3) {
        let lengths = [made.system.len(), made.graphics.len()];
        let chosen = random.percent(35);
        let section = if chosen { &mut made.graphics } else { &mut made.system };
        let length = section.len();
        match random.below(6) {
            0 => section.truncate(random.below(length + 1)),
            1 => section.truncate(length.saturating_sub(random.below(40))),
            2 | 3 if length > 0 => {
                for _ in 0..random.between(1, 6) {
                    section[random.below(length)] ^= 1 << random.below(8);
                }
            }
            4 if length >= 8 => {
                let at = random.below(length - 7) & !7;
                put(section, at, word(random, lengths), 8);
            }
            5 if length > 0 => section[random.below(length)] = random.next() as u8,
            _ => made.va = made.va.wrapping_add(random.pick(&[1, 8, 16, 0u64.wrapping_sub(16), 1 << 32, 1 << 28])),
        }
    }
    made
}
