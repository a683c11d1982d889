//! The library and the original Rust in one process on the same buffers, as a table of ratios.
//!
//! Time is the thread's processor time, so that other programs on the machine count less. In each round the two and `memcpy` run one after the other;
//! of all rounds the least time is shown, and ratios of the least times and of the medians. Outputs were written once before the first round and are
//! not cleared between rounds; what the Rust allocates by itself it allocates in each call. Which goals are met is printed first, then the tables.
//!
//!     bench [--quick | --once] [PART]
//!
//! `--quick` takes fewer rounds, `--once` makes each call of the library once and times nothing, for callgrind; PART names the rows that hold it.
mod checks;
mod edits;
mod report;

use std::cell::RefCell;
use std::hint::black_box;

use library::drawables::{put, Drawable, GRAPHICS, SYSTEM};
use library::numbers::Random;
use library::{floats_to_halves, floats_to_snorm8, hall_list, halves_to_floats, snorm8_to_floats, unified_vertices, Told, Vertices};
use oracle::math::{Vec2, Vec3, Vec4};
use oracle::resource::{u16_le, u32_le, ResReader};
use oracle::vertex::{parse_vertex_buffer_at, UnifiedVertex};

use crate::report::Report;

fn main() {
    let words: Vec<String> = std::env::args().skip(1).collect();
    let has = |name: &str| words.iter().any(|word| word == name);
    let rounds = if has("--once") {
        0
    } else if has("--quick") {
        5
    } else {
        25
    };
    let only = words.into_iter().find(|word| !word.starts_with("--"));
    let bench = Bench { rounds, only, report: RefCell::default() };
    let head = ["work", "bytes out", "Rattle ms", "Rust ms", "memcpy ms", "of the Rust: least, median", "of memcpy: least, median"];
    bench.report.borrow_mut().table(&head);
    for (size, vertices) in [("small", 4_000), ("large", 480_000)] {
        let goal = if vertices > 4_000 { Goal { rust: Some(0.25), memcpy: Some(1.3) } } else { Goal { rust: None, memcpy: None } };
        for width in [2, 4] {
            bench_list(&bench, &format!("hall list, {size}, {width}-byte indices"), vertices, width, goal);
        }
    }
    for (size, vertices) in [("small", 4_000), ("large", 480_000)] {
        for (name, flags, types) in DECLARATIONS {
            bench_unified(&bench, &format!("unified vertices, {size}, {name}"), vertices, flags, types);
        }
    }
    for (size, count) in [("small", 16_000), ("large", 1_920_000)] {
        for kind in [Numbers::Usual, Numbers::SomeTiny, Numbers::Any] {
            bench_numbers(&bench, size, count, kind);
        }
    }
    checks::bench_checks(&bench);
    edits::bench_edits(&bench);
    edits::bench_saves(&bench);
    if rounds > 0 {
        bench.report.borrow().print();
    }
}

/// Names, flags and types.
const DECLARATIONS: [(&str, u32, u64); 5] = [
    ("position alone", 0x0001, 6),
    ("floats (GTAV1)", 0x4059, 0x7755_5555_5599_6996),
    ("halves (GTAV3)", 0x4059, 0x0300_0000_0199_6006),
    ("halves, snorm normal (GTAV2)", 0x4059, 0x0300_0000_0199_A006),
    ("floats, skinned (GTAV1)", 0x405F, 0x7755_5555_5599_6996),
];

/// The greatest ratios that are wanted, to the Rust and to `memcpy`.
#[derive(Clone, Copy)]
struct Goal {
    rust: Option<f64>,
    memcpy: Option<f64>,
}

impl Goal {
    fn of_rust(most: f64) -> Self {
        Self { rust: Some(most), memcpy: None }
    }
}

struct Bench {
    rounds: usize,
    /// A part of the names of the rows that are wanted.
    only: Option<String>,
    report: RefCell<Report>,
}

#[repr(C)]
struct Timespec {
    seconds: i64,
    nanoseconds: i64,
}

extern "C" {
    fn clock_gettime(clock: i32, time: *mut Timespec) -> i32;
}

/// The thread's processor time in milliseconds.
fn now() -> f64 {
    const THREAD: i32 = 3;
    let mut time = Timespec { seconds: 0, nanoseconds: 0 };
    // SAFETY: the struct is the C library's.
    assert_eq!(unsafe { clock_gettime(THREAD, &mut time) }, 0);
    time.seconds as f64 * 1e3 + time.nanoseconds as f64 / 1e6
}

/// Least and median time of one call.
struct Times {
    least: f64,
    median: f64,
}

impl Times {
    fn of(mut times: Vec<f64>) -> Self {
        times.sort_by(f64::total_cmp);
        Self { least: times[0], median: times[times.len() / 2] }
    }

    /// The least, in milliseconds.
    fn said(&self) -> String {
        format!("{:.4}", self.least)
    }
}

impl Bench {
    fn leaves_out(&self, name: &str) -> bool {
        self.only.as_ref().is_some_and(|part| !name.contains(part))
    }

    /// The times of three works, one after the other in each round.
    fn times(&self, works: &mut [&mut dyn FnMut(); 3]) -> [Times; 3] {
        let calls = works.each_mut().map(|work| calls_of(*work));
        let mut found = [const { Vec::new() }; 3];
        for _ in 0..self.rounds {
            for (place, work) in works.iter_mut().enumerate() {
                let start = now();
                (0..calls[place]).for_each(|_| work());
                found[place].push((now() - start) / calls[place] as f64);
            }
        }
        found.map(Times::of)
    }

    fn row(&self, name: &str, bytes: usize, goal: Goal, works: &mut [&mut dyn FnMut(); 3]) {
        if self.rounds == 0 {
            return;
        }
        let [here, rust, memcpy] = self.times(works);
        let (of_rust, of_memcpy) = (here.least / rust.least, here.least / memcpy.least);
        let goals: Vec<_> = [("the Rust", of_rust, goal.rust), ("memcpy", of_memcpy, goal.memcpy)]
            .into_iter()
            .filter_map(|(of, found, most)| Some((of, found, most?)))
            .collect();
        let cells = vec![
            name.to_owned(),
            bytes.to_string(),
            here.said(),
            rust.said(),
            memcpy.said(),
            format!("{of_rust:.2}, {:.2}", here.median / rust.median),
            format!("{of_memcpy:.2}, {:.2}", here.median / memcpy.median),
        ];
        self.report.borrow_mut().row(cells, &goals);
    }
}

/// How many calls make about two milliseconds.
fn calls_of(work: &mut dyn FnMut()) -> usize {
    work();
    let start = now();
    work();
    ((2.0 / (now() - start).max(1e-5)) as usize).clamp(1, 10_000)
}

/// Models of one geometry each, of at most 60,000 vertices, with data and indices in the graphics section.
fn drawable(vertices: usize, index_width: usize) -> Drawable {
    let (_, flags, types) = DECLARATIONS[1];
    let stride = library::drawables::declared_size(flags, types);
    let each = vertices.min(60_000);
    let models = vertices / each;
    let random = &mut Random::new(7);
    let (mut system, mut graphics) = (vec![0; 16 + models * 8], Vec::new());
    put(&mut system, 0, SYSTEM + 16, 8);
    put(&mut system, 8, models as u64, 2);
    for model in 0..models {
        let data = GRAPHICS + graphics.len() as u64;
        for _ in 0..each * stride / 4 {
            graphics.extend(((random.below(4001) as f32 - 2000.0) / 1000.0).to_bits().to_le_bytes());
        }
        let indices = GRAPHICS + graphics.len() as u64;
        for _ in 0..each * 2 {
            random.triangle(each).iter().for_each(|index| graphics.extend(&index.to_le_bytes()[..index_width]));
        }
        let at = system.len();
        system.resize(at + 0x200, 0);
        let address = |offset: usize| SYSTEM + (at + offset) as u64;
        put(&mut system, 16 + model * 8, address(0), 8);
        // model, geometry pointer, mapping, geometry, vertex block, declaration, index block
        for (offset, value, width) in [
            (0x08, address(0x30), 8),
            (0x10, 1, 2),
            (0x20, address(0x38), 8),
            (0x30, address(0x40), 8),
            (0x40 + 0x18, address(0xE0), 8),
            (0x40 + 0x38, address(0x180), 8),
            (0x40 + 0x58, each as u64 * 6, 4),
            (0x40 + 0x5C, each as u64 * 2, 4),
            (0x40 + 0x60, each as u64, 2),
            (0x40 + 0x70, stride as u64, 2),
            (0xE0 + 0x08, stride as u64, 2),
            (0xE0 + 0x10, data, 8),
            (0xE0 + 0x18, each as u64, 4),
            (0xE0 + 0x30, address(0x160), 8),
            (0x160, flags as u64, 4),
            (0x164, stride as u64, 2),
            (0x168, types, 8),
            (0x180 + 0x08, each as u64 * 6, 4),
            (0x180 + 0x0C, index_width as u64, 2),
            (if index_width == 2 { 0x190 } else { 0x198 }, indices, 8),
        ] {
            put(&mut system, at + offset, value, width);
        }
    }
    Drawable { system, graphics, va: SYSTEM }
}

fn bench_list(bench: &Bench, name: &str, vertices: usize, index_width: usize, goal: Goal) {
    if bench.leaves_out(name) {
        return;
    }
    let Drawable { system, graphics, va } = &drawable(vertices, index_width);
    let expected = oracle::list::written(&oracle::models(system, graphics, *va).unwrap().models);
    let (mut here, mut rust, mut copy) = (vec![1; expected.len()], vec![1; expected.len()], vec![1; expected.len()]);
    assert_eq!(hall_list(system, graphics, *va, &mut here), Told { check: 0, size: expected.len() as u64 });
    assert!(here == expected);
    let mut list = || {
        black_box(hall_list(black_box(system), graphics, *va, &mut here));
    };
    let mut original = || {
        let lod = oracle::models(black_box(system), graphics, *va).unwrap();
        black_box(oracle::list::write(&mut rust, &lod.models));
    };
    let mut memcpy = || black_box(&mut copy).copy_from_slice(black_box(&expected));
    bench.row(name, expected.len(), goal, &mut [&mut list, &mut original, &mut memcpy]);
}

/// Vertices of usual values, alone in the system section.
fn vertex_data(count: usize, types: u64, flags: u32) -> Vec<u8> {
    let random = &mut Random::new(9);
    let mut data = Vec::new();
    for _ in 0..count {
        for index in (0..16).filter(|index| flags >> index & 1 == 1) {
            match types >> (index * 4) & 15 {
                kind @ (1 | 3) => (0..2 * kind.min(2)).for_each(|_| data.extend(usual_half(random).to_le_bytes())),
                kind @ (2 | 5 | 6 | 7) => {
                    (0..[0, 0, 1, 0, 0, 2, 3, 4][kind as usize]).for_each(|_| data.extend(usual(random).to_bits().to_le_bytes()))
                }
                8..=10 => data.extend((random.next() as u32).to_le_bytes()),
                _ => {}
            }
        }
    }
    data
}

fn usual(random: &mut Random) -> f32 {
    (random.below(4001) as f32 - 2000.0) / 1000.0
}

fn usual_half(random: &mut Random) -> u16 {
    oracle::blocks::xml::f32_to_f16(usual(random))
}

fn bench_unified(bench: &Bench, name: &str, count: usize, flags: u32, types: u64) {
    if bench.leaves_out(name) {
        return;
    }
    let stride = library::drawables::declared_size(flags, types);
    let data = vertex_data(count, types, flags);
    assert_eq!(data.len(), count * stride);
    // the original's own buffer, read from a section that ends in a vertex block and a declaration
    let mut system = data.clone();
    system.resize(data.len() + 0x90, 0);
    put(&mut system, data.len() + 0x08, stride as u64, 2);
    put(&mut system, data.len() + 0x10, SYSTEM, 8);
    put(&mut system, data.len() + 0x18, count as u64, 4);
    put(&mut system, data.len() + 0x30, SYSTEM + data.len() as u64 + 0x80, 8);
    put(&mut system, data.len() + 0x80, flags as u64, 4);
    put(&mut system, data.len() + 0x88, types, 8);
    let buffer = parse_vertex_buffer_at(&ResReader { system: &system, graphics: &[] }, SYSTEM + data.len() as u64, 0, 0, 0).unwrap();
    assert!(buffer.declaration.is_some() && buffer.data == data);
    let vertices = Vertices { data: &data, stride: stride as u16, count: count as u32, flags, types };
    let (mut here, mut rust, mut copy) = (vec![1; 84 * count], vec![1; 84 * count], vec![1; 84 * count]);
    assert_eq!(unified_vertices(vertices, &mut here), Told { check: 0, size: 84 * count as u64 });
    write_unified(&mut rust, &buffer.to_unified_vertices().unwrap_or_else(|e| panic!("{e}")));
    assert!(here == rust);
    let expected = here.clone();
    let mut unify = || {
        black_box(unified_vertices(black_box(vertices), &mut here));
    };
    let mut original = || write_unified(&mut rust, &black_box(&buffer).to_unified_vertices().unwrap_or_else(|e| panic!("{e}")));
    let mut memcpy = || black_box(&mut copy).copy_from_slice(black_box(&expected));
    bench.row(name, expected.len(), Goal::of_rust(0.2), &mut [&mut unify, &mut original, &mut memcpy]);
}

/// 84 bytes a vertex, in field order.
fn write_unified(out: &mut [u8], vertices: &[UnifiedVertex]) {
    for (to, vertex) in out.chunks_exact_mut(84).zip(vertices) {
        put_floats(&mut to[0..12], three(vertex.position));
        put_floats(&mut to[12..24], three(vertex.normal));
        to[24..28].copy_from_slice(&vertex.color0);
        to[28..32].copy_from_slice(&vertex.color1);
        put_floats(&mut to[32..40], two(vertex.texcoord0));
        put_floats(&mut to[40..48], two(vertex.texcoord1));
        put_floats(&mut to[48..64], four(vertex.tangent));
        put_floats(&mut to[64..80], four(vertex.blend_weights));
        to[80..84].copy_from_slice(&vertex.blend_indices);
    }
}

fn put_floats<const N: usize>(to: &mut [u8], values: [f32; N]) {
    for (bytes, value) in to.chunks_exact_mut(4).zip(values) {
        bytes.copy_from_slice(&value.to_bits().to_le_bytes());
    }
}

fn two(v: Vec2) -> [f32; 2] {
    [v.x, v.y]
}

fn three(v: Vec3) -> [f32; 3] {
    [v.x, v.y, v.z]
}

fn four(v: Vec4) -> [f32; 4] {
    [v.x, v.y, v.z, v.w]
}

/// What is converted.
#[derive(Clone, Copy, PartialEq)]
enum Numbers {
    /// Multiples of 0.001 up to 2.
    Usual,
    /// The same, with one number in a hundred below the normal halves.
    SomeTiny,
    Any,
}

impl Numbers {
    fn name(self) -> &'static str {
        match self {
            Self::Usual => "usual values",
            Self::SomeTiny => "1 in 100 tiny",
            Self::Any => "any bits",
        }
    }

    fn float(self, random: &mut Random) -> u32 {
        match self {
            Self::Any => random.next() as u32,
            Self::SomeTiny if random.below(100) == 0 => 1e-5f32.to_bits(),
            _ => usual(random).to_bits(),
        }
    }

    fn half(self, random: &mut Random) -> u16 {
        match self {
            Self::Any => random.next() as u16,
            _ => oracle::blocks::xml::f32_to_f16(f32::from_bits(self.float(random))),
        }
    }
}

fn bench_numbers(bench: &Bench, size: &str, count: usize, kind: Numbers) {
    let name = format!("{size}, {}", kind.name());
    let random = &mut Random::new(11);
    let halves: Vec<u8> = (0..count).flat_map(|_| kind.half(random).to_le_bytes()).collect();
    let floats: Vec<u8> = (0..count).flat_map(|_| kind.float(random).to_le_bytes()).collect();
    let bytes = random.bytes(count);
    bench_run(bench, &format!("halves to floats, {name}"), Goal::of_rust(0.45), &halves, 4 * count, halves_to_floats, |from, to| {
        for (to, from) in to.chunks_exact_mut(4).zip(from.chunks_exact(2)) {
            to.copy_from_slice(&oracle::vertex::f16_to_f32(u16_le(from, 0)).to_bits().to_le_bytes());
        }
    });
    bench_run(bench, &format!("floats to halves, {name}"), Goal::of_rust(0.35), &floats, 2 * count, floats_to_halves, |from, to| {
        for (to, from) in to.chunks_exact_mut(2).zip(from.chunks_exact(4)) {
            to.copy_from_slice(&oracle::blocks::xml::f32_to_f16(f32::from_bits(u32_le(from, 0))).to_le_bytes());
        }
    });
    if kind == Numbers::Usual {
        bench_run(bench, &format!("snorm to floats, {name}"), Goal::of_rust(1.1), &bytes, 4 * count, snorm8_to_floats, |from, to| {
            for (to, from) in to.chunks_exact_mut(4).zip(from) {
                to.copy_from_slice(&oracle::vertex::snorm8_to_f32(*from).to_bits().to_le_bytes());
            }
        });
    }
    if kind != Numbers::SomeTiny {
        bench_run(bench, &format!("floats to snorm, {name}"), Goal::of_rust(0.8), &floats, count, floats_to_snorm8, |from, to| {
            for (to, from) in to.iter_mut().zip(from.chunks_exact(4)) {
                *to = oracle::encode::snorm_byte(f32::from_bits(u32_le(from, 0)));
            }
        });
    }
}

type Run = fn(&[u8], &mut [u8]) -> Told;

fn bench_run(bench: &Bench, name: &str, goal: Goal, from: &[u8], length: usize, run: Run, original: impl Fn(&[u8], &mut [u8])) {
    if bench.leaves_out(name) {
        return;
    }
    let (mut here, mut rust, mut copy) = (vec![1; length], vec![1; length], vec![1; length]);
    assert_eq!(run(from, &mut here), Told { check: 0, size: length as u64 });
    original(from, &mut rust);
    assert!(here == rust);
    let expected = here.clone();
    let mut convert = || {
        black_box(run(black_box(from), &mut here));
    };
    let mut loops = || original(black_box(from), black_box(&mut rust));
    let mut memcpy = || black_box(&mut copy).copy_from_slice(black_box(&expected));
    bench.row(name, length, goal, &mut [&mut convert, &mut loops, &mut memcpy]);
}
