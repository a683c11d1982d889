//! What lists of calls are made of: geometries that are sound or have a fault, and drawables of such geometries in every layout and index form.
use library::drawables::{put, vertex_bytes, Drawable, GRAPHICS, SIZES, SYSTEM};
use library::numbers::Random;

use crate::book::{Declaration, Given};

/// A declaration with a position, and the bytes of its components.
pub fn declaration(random: &mut Random) -> (Declaration, usize) {
    const SIZED: [u64; 9] = [1, 2, 3, 5, 6, 7, 8, 9, 10];
    let mut types = random.next();
    for place in 0..16 {
        if place == 0 || random.percent(80) {
            types = types & !(15 << (4 * place)) | random.pick(&SIZED) << (4 * place);
        }
    }
    let flags = match random.below(5) {
        0 => 1,
        1 => random.next() as u32 | 1,
        2 => random.pick(&[0x4059, 0x40DF, 0x005F, 0x0019, 0xFFFF, 0xFFFF_0001]),
        _ => random.next() as u32 & random.next() as u32 & random.next() as u32 & 0xFFFF | 1,
    };
    let size = (0..16).filter(|place| flags >> place & 1 == 1).map(|place| SIZES[(types >> (4 * place) & 15) as usize]).sum();
    (Declaration { flags, stride: 0, unknown: random.next() as u8, count: random.next() as u8, types }, size)
}

/// A sound geometry.
pub fn geometry(random: &mut Random) -> Given {
    let (mut declaration, size) = declaration(random);
    let stride = size + random.pick(&[0, 0, 0, 0, 1, 3, 8, 17]);
    declaration.stride = stride as u16;
    let count = match random.below(400) {
        0 => random.pick(&[65_535, 40_000]),
        1..=4 => random.between(50, 900),
        _ => random.pick(&[3, 3, 3, 4, 5, 8, 12]),
    };
    let triangles = match random.below(200) {
        0 => random.pick(&[22_000, 1_365, 1_366, 341, 342]),
        1..=6 => random.between(20, 400),
        _ => random.pick(&[1, 1, 2, 3, 4, 7]),
    };
    Given {
        shader: random.next() as u16,
        declaration,
        stride: stride as u16,
        count: count as u32,
        bytes: vertex_bytes(random, count * stride),
        indices: indices(random, count, 3 * triangles),
    }
}

/// Triangles of three different vertices, of at least three.
pub fn indices(random: &mut Random, vertices: usize, count: usize) -> Vec<u32> {
    (0..count / 3).flat_map(|_| random.triangle(vertices)).collect()
}

/// Makes a triangle degenerate: two of its indices become equal.
pub fn make_degenerate(random: &mut Random, items: &mut [u32]) {
    let triangles = items.len() / 3;
    if triangles == 0 {
        return;
    }
    // at both ends, about a block of 64, and anywhere
    let whole_blocks = triangles / 64 * 64;
    let place =
        random.pick(&[0, triangles - 1, whole_blocks.saturating_sub(1), whole_blocks.min(triangles - 1), random.clone().below(triangles)]);
    let (to, from) = random.pick(&[(0, 1), (1, 2), (0, 2), (1, 0), (2, 1), (2, 0)]);
    items[3 * place + to] = items[3 * place + from];
}

/// Puts an index that names no vertex at a place.
pub fn put_beyond(random: &mut Random, vertices: usize, items: &mut [u32]) {
    if !items.is_empty() {
        let place = random.pick(&[0, items.len() - 1, random.clone().below(items.len())]);
        items[place] = random.pick(&[vertices as u32, vertices as u32 + 1, u32::MAX, 65_536, 1 << 31]);
    }
}

/// Indices, at times with a fault.
pub fn replacement(random: &mut Random, vertices: usize) -> Vec<u32> {
    let triangles = random.pick(&[1, 1, 2, 3, 5, 9, 40]);
    let mut items = indices(random, vertices, 3 * triangles);
    if random.percent(15) {
        spoil_indices(random, vertices, &mut items);
    }
    items
}

fn spoil_indices(random: &mut Random, vertices: usize, items: &mut Vec<u32>) {
    match random.below(8) {
        0 => items.truncate(random.pick(&[0, 1, 2])),
        1 => items.push(0),
        2..=3 => put_beyond(random, vertices, items),
        4..=5 => make_degenerate(random, items),
        6 => {
            make_degenerate(random, items);
            put_beyond(random, vertices, items);
        }
        // in this order both may be in one triangle, and the index that names no vertex may be there twice
        _ => {
            put_beyond(random, vertices, items);
            make_degenerate(random, items);
        }
    }
}

/// A fault or two in a geometry, so that a question of 11 to 18 or 27 is answered with no; at times harmless.
pub fn spoil(random: &mut Random, given: &mut Given) {
    for _ in 0..random.pick(&[1, 1, 1, 2, 3]) {
        match random.below(15) {
            0 => given.bytes.push(7),
            1 => {
                given.bytes.pop();
            }
            2 => {
                given.count =
                    random.pick(&[0, given.count.wrapping_add(1), given.count.wrapping_sub(1), 0x8000_0000, u32::MAX, 65_536, 1 << 30])
            }
            3 => given.declaration.stride = given.declaration.stride.wrapping_add(random.pick(&[1, 4, 0xFFFF, 256])),
            4 => given.stride = given.stride.wrapping_add(random.pick(&[1, 4, 0xFFFF, 256])),
            5 => given.declaration.flags &= !1,
            6 => given.declaration.types = given.declaration.types & !15 | random.pick(&[0, 4, 11, 12, 13, 14, 15]),
            7 => {
                // all three strides agree, and the components do not fit
                let stride = given.stride - given.stride.min(random.pick(&[1, 2, 4, 100]));
                (given.stride, given.declaration.stride) = (stride, stride);
                given.bytes.truncate(given.count as usize % 65_536 * stride as usize);
            }
            8 => (given.count, given.bytes) = (0, Vec::new()),
            9 => {
                // a product that is the length only where it wraps at 32 bits
                (given.count, given.stride, given.declaration.stride, given.bytes) = (0x4000_0000, 64, 64, Vec::new());
            }
            10 if random.percent(5) => {
                (given.count, given.bytes) = (65_536, vec![1; 65_536 * given.stride as usize]);
            }
            11 if given.count > 2 => few_vertices(random, given),
            _ => spoil_indices(random, given.count as usize % 65_536, &mut given.indices),
        }
    }
}

/// One or two vertices, which question 16 allows and no triangle can be made of. The indices name these vertices, or are left as they are.
fn few_vertices(random: &mut Random, given: &mut Given) {
    given.count = random.pick(&[1, 2]);
    given.bytes.truncate(given.count as usize * given.stride as usize);
    if random.percent(70) {
        given.indices.iter_mut().for_each(|index| *index %= given.count);
    }
}

/// A drawable whose reading is a sound hall, or nearly.
pub struct Maker<'a> {
    random: &'a mut Random,
    sections: [Vec<u8>; 2],
    /// How many geometries of a hundred have a fault.
    faults: usize,
    /// How many geometries of a hundred have a degenerate triangle and no other fault.
    degenerate: usize,
}

impl<'a> Maker<'a> {
    pub fn new(random: &'a mut Random) -> Self {
        let (faults, degenerate) = random.pick(&[(0, 0), (0, 0), (0, 0), (0, 0), (0, 20), (10, 0), (10, 0)]);
        Self { random, sections: [Vec::new(), Vec::new()], faults, degenerate }
    }

    fn place(&mut self, bytes: &[u8]) -> u64 {
        let which = self.random.percent(40) as usize;
        let section = &mut self.sections[which];
        while section.len() % 8 != 0 {
            section.push(0xEE);
        }
        let at = section.len() as u64;
        section.extend(bytes);
        [SYSTEM, GRAPHICS][which] + at
    }

    /// Fields that are not named hold anything.
    fn block(&mut self, length: usize, fields: &[(usize, u64, usize)]) -> u64 {
        let mut bytes = self.random.bytes(length);
        for (at, value, width) in fields {
            put(&mut bytes, *at, *value, *width);
        }
        self.place(&bytes)
    }

    fn pointers(&mut self, pointers: &[u64]) -> u64 {
        let bytes: Vec<u8> = pointers.iter().flat_map(|pointer| pointer.to_le_bytes()).collect();
        self.place(&bytes)
    }

    pub fn drawable(mut self) -> Drawable {
        let mut pointers = Vec::new();
        for _ in 0..self.random.pick(&[0, 1, 1, 1, 2, 3]) {
            if self.random.percent(10) {
                pointers.push(0);
            }
            let model = self.model();
            pointers.push(model);
        }
        let list = self.pointers(&pointers);
        self.header(list, pointers.len())
    }

    fn header(mut self, list: u64, models: usize) -> Drawable {
        let (count, capacity) = self.random.pick(&[(models, models), (models, 0), (0, models), (models, 9)]);
        let va = self.block(16, &[(0, list, 8), (8, count as u64, 2), (10, capacity as u64, 2)]);
        let [system, graphics] = self.sections;
        Drawable { system, graphics, va }
    }

    fn model(&mut self) -> u64 {
        let mut pointers = Vec::new();
        for _ in 0..self.random.pick(&[0, 1, 1, 2, 3]) {
            if self.random.percent(12) {
                pointers.push(0);
            }
            let geometry = self.geometry();
            pointers.push(geometry);
        }
        self.model_of(&pointers)
    }

    fn model_of(&mut self, pointers: &[u64]) -> u64 {
        let list = self.pointers(pointers);
        let ids = self.random.bytes(2 * pointers.len());
        let placed = self.place(&ids);
        let mapping = self.random.pick(&[placed, placed, placed, 0, 0x5FFF_FFFF]);
        self.block(0x30, &[(0x08, list, 8), (0x10, pointers.len() as u64, 2), (0x20, mapping, 8)])
    }

    fn geometry(&mut self) -> u64 {
        let mut given = geometry(self.random);
        if self.faults > 0 && self.random.percent(self.faults) {
            spoil(self.random, &mut given);
        }
        if self.random.percent(self.degenerate) {
            make_degenerate(self.random, &mut given.indices);
        }
        self.geometry_of(&given)
    }

    fn geometry_of(&mut self, given: &Given) -> u64 {
        let (stride, count, held) = (u64::from(given.stride), u64::from(given.count), given.indices.len() as u64);
        let data = self.place(&given.bytes);
        // without a declaration a position of three floats is taken
        let bare = stride >= 12 && self.random.percent(40);
        let declaration = self.place(&declaration_bytes(&given.declaration));
        let info = if bare { self.random.pick(&[0, 0x5FFF_0000, 0x10]) } else { declaration };
        let layout = if bare { self.random.below(4) } else { self.random.below(2) };
        let vertices = match layout {
            0 => self.block(0x80, &[(0x08, stride, 2), (0x10, data, 8), (0x18, count, 4), (0x30, info, 8)]),
            1 => self.block(0x80, &[(0x08, stride, 2), (0x10, 0, 8), (0x18, count, 4), (0x20, data, 8), (0x30, info, 8)]),
            2 => self.block(0x80, &[(0x08, count, 4), (0x0C, stride, 2), (0x10, 0, 8), (0x18, data, 8), (0x20, 0, 8)]),
            _ => self.random.pick(&[0, 0x5FFF_FFF0]),
        };
        let inline = if layout == 3 { data } else { self.random.pick(&[0, data, 77]) };
        let indices = self.index_block(&given.indices);
        let zero = layout != 3 && self.random.percent(20);
        let wrong = |random: &mut Random, faults: usize| if faults > 0 && random.percent(3) { random.pick(&[1, 3, 65_535]) } else { 0 };
        let wrongs: Vec<u64> = (0..4).map(|_| wrong(self.random, self.faults)).collect();
        self.block(
            0x98,
            &[
                (0x18, vertices, 8),
                (0x38, indices, 8),
                (0x58, held + wrongs[0], 4),
                (0x5C, held / 3 + wrongs[1], 4),
                (0x60, if zero { 0 } else { count + wrongs[2] }, 2),
                (0x70, stride + wrongs[3], 2),
                (0x78, inline, 8),
            ],
        )
    }

    fn index_block(&mut self, indices: &[u32]) -> u64 {
        if self.faults > 0 && self.random.percent(3) {
            return 0;
        }
        let form = self.random.below(3);
        let width = if form == 2 || indices.iter().any(|index| *index > 65_535) { 4 } else { 2 };
        let bytes: Vec<u8> = indices.iter().flat_map(|index| index.to_le_bytes()[..width].to_vec()).collect();
        let data = self.place(&bytes);
        let held = indices.len() as u64;
        if form == 0 && width == 2 {
            return self.block(0x60, &[(0x08, held, 4), (0x10, data, 8)]);
        }
        let first = self.random.pick(&[0, 0x5FFF_FFFE, 9]);
        self.block(0x60, &[(0x08, held, 4), (0x0C, width as u64, 2), (0x10, first, 8), (0x18, data, 8)])
    }

    /// Models and geometries about as many as a hall may have, all of one block; one of twelve cases.
    pub fn crowded(mut self, which: usize) -> Drawable {
        const CASES: [(usize, usize); 12] = [
            (255, 0),
            (255, 1),
            (256, 0),
            (256, 2),
            (257, 0),
            (257, 1),
            (1, 16_383),
            (1, 16_384),
            (1, 16_385),
            (256, 64),
            (257, 64),
            (128, 128),
        ];
        let mut given = geometry(self.random);
        while given.bytes.len() + given.indices.len() > 300 {
            given = geometry(self.random);
        }
        self.faults = 0;
        let geometry = self.geometry_of(&given);
        let (models, each) = CASES[which % CASES.len()];
        let model = self.model_of(&vec![geometry; each]);
        let list = self.pointers(&vec![model; models]);
        self.header(list, models)
    }

    /// One geometry, as often in one model as is said.
    pub fn repeated(mut self, given: &Given, times: usize, last: &Given) -> Drawable {
        self.faults = 0;
        let mut pointers = vec![self.geometry_of(given); times];
        pointers.push(self.geometry_of(last));
        let model = self.model_of(&pointers);
        let list = self.pointers(&[model]);
        self.header(list, 1)
    }
}

fn declaration_bytes(declaration: &Declaration) -> Vec<u8> {
    let mut bytes = vec![0; 16];
    put(&mut bytes, 0, u64::from(declaration.flags), 4);
    put(&mut bytes, 4, u64::from(declaration.stride), 2);
    put(&mut bytes, 6, u64::from(declaration.unknown), 1);
    put(&mut bytes, 7, u64::from(declaration.count), 1);
    put(&mut bytes, 8, declaration.types, 8);
    bytes
}
