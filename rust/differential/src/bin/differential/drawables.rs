//! Whole drawables: the list, what is asked of lists and models, each vertex buffer, and the vertices in it.
use library::drawables::{drawable, put, small, Drawable, GRAPHICS, KINDS, SYSTEM};
use library::numbers::Random;
use library::{bone_index, hall_list, is_skinned, triangle_count, vertex_buffer, Stream, Told};
use oracle::list::{declaration_bytes, layout_number, written};
use oracle::resource::{u16_le, u64_le, ResReader};
use oracle::vertex::{parse_vertex_buffer_at, VertexBuffer};
use oracle::ydd::DrawableLod;

use crate::vertices;

/// Lists above this length are not compared: aliased pointers make them as long as one likes.
const LONGEST: u64 = 32 << 20;
const GEOMETRIES: usize = 16_384;
/// What the outputs hold before a call.
const FILL: u8 = 0xA5;

#[derive(Default)]
pub struct Tally {
    lists: u64,
    bytes: u64,
    empty: u64,
    too_long: u64,
    refusals: [u64; 8],
    models: u64,
    layouts: [u64; 5],
    declared: u64,
    pub vertices: vertices::Tally,
}

impl Tally {
    fn said(&self) -> String {
        let refusals: Vec<String> =
            (1..8).filter(|check| self.refusals[*check] > 0).map(|check| format!("{} by {check}", self.refusals[check])).collect();
        format!(
            "lists {} ({} bytes; {} empty), refused {}, left out as too long {}; models {}; buffers by layout 0 to 3 {:?}, none {}, with a declaration {}; {}",
            self.lists,
            self.bytes,
            self.empty,
            refusals.join(", "),
            self.too_long,
            self.models,
            &self.layouts[..4],
            self.layouts[4],
            self.declared,
            self.vertices.said()
        )
    }
}

pub fn generated(seed: u64, count: u64) -> String {
    let mut tally = Tally::default();
    let mut kinds = [0; KINDS.len()];
    for number in 0..count {
        let (kind, made) = drawable(seed, number);
        kinds[KINDS.iter().position(|known| *known == kind).unwrap()] += 1;
        compare(&mut tally, &made, &format!("seed {seed} drawable {number} {kind:?}"));
    }
    let kinds: Vec<String> = KINDS.iter().zip(kinds).map(|(kind, count)| format!("{kind:?} {count}")).collect();
    format!("{count} drawables ({}): {}", kinds.join(", "), tally.said())
}

/// Every truncation of each section, and some changes of every byte.
pub fn changed(seed: u64, count: u64) -> String {
    let mut tally = Tally::default();
    let (mut truncations, mut changes, mut lengths) = (0u64, 0u64, Vec::new());
    for number in 0..count {
        let whole = small(seed + number, 2200);
        let random = &mut Random::new(seed + number);
        lengths.push(whole.system.len() + whole.graphics.len());
        for which in 0..2 {
            for place in 0..[whole.system.len(), whole.graphics.len()][which] {
                let mut cut = whole.clone();
                let byte = section(&mut cut, which)[place];
                section(&mut cut, which).truncate(place);
                compare(&mut tally, &cut, &format!("small drawable {number}, section {which} cut to {place}"));
                truncations += 1;
                for value in [byte ^ 1, byte ^ 0x10, byte ^ 0x80, byte.wrapping_add(1), byte.wrapping_sub(1), 0, 0xFF, random.next() as u8]
                {
                    let mut other = whole.clone();
                    section(&mut other, which)[place] = value;
                    compare(&mut tally, &other, &format!("small drawable {number}, section {which} byte {place} = {value}"));
                    changes += 1;
                }
            }
        }
    }
    format!("{count} of {lengths:?} bytes, {truncations} truncations, {changes} changes: {}", tally.said())
}

fn section(drawable: &mut Drawable, which: usize) -> &mut Vec<u8> {
    if which == 0 {
        &mut drawable.system
    } else {
        &mut drawable.graphics
    }
}

/// Check 1, which the original does not have: at the limit both sections are read, one byte above it either is refused.
pub fn limits() -> String {
    const LIMIT: usize = 67_108_864;
    let base = small(1, 2200);
    let grown = |bytes: &[u8], length: usize| {
        let mut grown = vec![0; length];
        grown[..bytes.len()].copy_from_slice(bytes);
        grown
    };
    let mut tally = Tally::default();
    let mut full = Drawable { system: grown(&base.system, LIMIT), graphics: grown(&base.graphics, LIMIT), va: base.va };
    compare(&mut tally, &full, "both sections at the limit");
    // the last 16 bytes of a full section, as a header without models
    for va in [SYSTEM + LIMIT as u64 - 16, GRAPHICS + LIMIT as u64 - 16, SYSTEM + LIMIT as u64 - 15] {
        full.va = va;
        compare(&mut tally, &full, "a header at the end of a full section");
    }
    for which in 0..2 {
        let mut over = Drawable { va: base.va, system: base.system.clone(), graphics: base.graphics.clone() };
        let bytes = section(&mut over, which).clone();
        *section(&mut over, which) = grown(&bytes, LIMIT + 1);
        let mut list = vec![FILL; 4096];
        let told = hall_list(&over.system, &over.graphics, over.va, &mut list);
        assert_eq!(told, Told { check: 1, size: 0 }, "section {which} one byte above the limit");
        assert!(list.iter().all(|byte| *byte == FILL));
    }
    let mut tally = Tally::default();
    all_three_bits(&mut tally);
    format!("67,108,864 bytes read in both sections, 67,108,865 in either refused with 1; buffers at 0x70000000 {:?}", &tally.layouts[..4])
}

/// 0x70000000 is graphics. Only sections above the limit reach so far, and `vertex_buffer` takes them.
fn all_three_bits(tally: &mut Tally) {
    const AT: usize = 0x1000_0000;
    let mut far = Drawable { system: vec![0; 2 * AT + 0x100], graphics: vec![0; AT + 0x100], va: 0 };
    far.system[2 * AT..].fill(0x11);
    far.graphics[AT + 0x80..].fill(0x22);
    put(&mut far.graphics, AT + 0x08, 4, 2);
    put(&mut far.graphics, AT + 0x10, 0x7000_0080, 8);
    put(&mut far.graphics, AT + 0x18, 3, 4);
    let Drawable { system, graphics, .. } = &far;
    let reader = ResReader { system, graphics };
    for va in [0, 0x7000_0000] {
        let stream = Stream { va, inline_pointer: 0x7000_0080, inline_count: 2, inline_stride: 4 };
        compare_buffer(tally, &far, &reader, stream, "sections above the limit");
    }
}

pub fn compare(tally: &mut Tally, drawable: &Drawable, name: &str) {
    let Drawable { system, graphics, va } = drawable;
    let empty = hall_list(system, graphics, *va, &mut []);
    if empty.check == 7 && empty.size > LONGEST {
        tally.too_long += 1;
        return;
    }
    let reader = ResReader { system, graphics };
    let walk = walk(&reader, *va);
    let read = if walk.geometries > GEOMETRIES { Err(5) } else { oracle::models(system, graphics, *va) };
    match &read {
        Ok(lod) => compare_list(tally, drawable, lod, empty, name),
        Err(check) => {
            tally.refusals[*check as usize] += 1;
            let refused = Told { check: *check, size: 0 };
            let mut list = vec![FILL; 64];
            assert_eq!(empty, refused, "{name}: {drawable:?}");
            assert_eq!(hall_list(system, graphics, *va, &mut list), refused, "{name}: {drawable:?}");
            assert!(list.iter().all(|byte| *byte == FILL), "{name}: a refusal wrote: {drawable:?}");
        }
    }
    if walk.geometries <= 64 {
        for stream in &walk.streams {
            compare_buffer(tally, drawable, &reader, *stream, name);
        }
    }
    for stream in other_streams(drawable, &walk) {
        compare_buffer(tally, drawable, &reader, stream, name);
    }
}

/// Calls that no geometry of the drawable makes: blocks anywhere, counts above 16 bits.
fn other_streams(drawable: &Drawable, walk: &Walk) -> [Stream; 2] {
    let random = &mut Random::new(drawable.va ^ (drawable.system.len() as u64) << 32 ^ drawable.graphics.len() as u64);
    let mut addresses = vec![0, SYSTEM, GRAPHICS, 0x7000_0000, SYSTEM + drawable.system.len() as u64, random.next()];
    for (base, length) in [(SYSTEM, drawable.system.len()), (GRAPHICS, drawable.graphics.len())] {
        addresses.extend([base + random.below(length + 1) as u64, base + (random.below(length + 1) as u64 & !15)]);
    }
    addresses.extend(walk.streams.iter().map(|stream| stream.va));
    let counts = [0, 1, 3, 17, 70_000, u32::MAX, random.next() as u32, drawable.system.len() as u32 / 4];
    [(); 2].map(|_| Stream {
        va: random.pick(&addresses),
        inline_pointer: random.pick(&addresses),
        inline_count: random.pick(&counts),
        inline_stride: random.pick(&[0, 1, 4, 12, 0xFFFF]),
    })
}

fn compare_list(tally: &mut Tally, drawable: &Drawable, lod: &DrawableLod, empty: Told, name: &str) {
    let Drawable { system, graphics, va } = drawable;
    let expected = written(&lod.models);
    let length = expected.len();
    tally.lists += 1;
    tally.empty += expected.is_empty() as u64;
    tally.bytes += length as u64;
    let short = Told { check: if length == 0 { 0 } else { 7 }, size: length as u64 };
    assert_eq!(empty, short, "{name}: {drawable:?}");
    let mut list = vec![FILL; length + 24];
    let told = hall_list(system, graphics, *va, &mut list);
    assert_eq!(told, Told { check: 0, size: length as u64 }, "{name}: {drawable:?}");
    assert!(list[..length] == expected[..], "{name}: lists differ: {drawable:?}\nhere {:?}\nRust {expected:?}", &list[..length]);
    assert!(list[length..].iter().all(|byte| *byte == FILL), "{name}: written beyond the list: {drawable:?}");
    if length > 0 {
        let mut list = vec![FILL; length - 1];
        assert_eq!(hall_list(system, graphics, *va, &mut list), short, "{name}: {drawable:?}");
        assert!(list.iter().all(|byte| *byte == FILL), "{name}: a refusal wrote: {drawable:?}");
    }
    assert_eq!(triangle_count(&expected), oracle::triangle_count(lod) as u64, "{name}: {drawable:?}");
    for model in &lod.models {
        tally.models += 1;
        assert_eq!(bone_index(model.skeleton_binding) as usize, model.bone_index(), "{name}: {:x}", model.skeleton_binding);
        assert_eq!(is_skinned(model.skeleton_binding), model.is_skinned(), "{name}: {:x}", model.skeleton_binding);
    }
}

/// The streams of the geometries whose blocks resolve, up to the refusal, and how many geometries the walk came to.
struct Walk {
    streams: Vec<Stream>,
    geometries: usize,
}

fn walk(reader: &ResReader, va: u64) -> Walk {
    let mut walk = Walk { streams: Vec::new(), geometries: 0 };
    walk_models(reader, va, &mut walk);
    walk
}

/// Nothing where the walk ends in a refusal.
fn walk_models(reader: &ResReader, va: u64, walk: &mut Walk) -> Option<()> {
    let header = reader.read_pointer_list_header(va)?;
    let count = if header.count == 0 { header.capacity } else { header.count };
    for model in reader.read_u64_list(header.pointer, count as usize)? {
        if model == 0 {
            continue;
        }
        let block = reader.resolve(model, 0x30)?;
        for geometry in reader.read_u64_list(u64_le(block, 0x08), u16_le(block, 0x10) as usize)? {
            if geometry != 0 {
                walk.geometries += 1;
                let block = reader.resolve(geometry, 0x98)?;
                walk.streams.push(Stream {
                    va: u64_le(block, 0x18),
                    inline_pointer: u64_le(block, 0x78),
                    inline_count: u16_le(block, 0x60) as u32,
                    inline_stride: u16_le(block, 0x70),
                });
            }
        }
    }
    Some(())
}

fn compare_buffer(tally: &mut Tally, drawable: &Drawable, reader: &ResReader, stream: Stream, name: &str) {
    let Stream { va, inline_pointer, inline_count, inline_stride } = stream;
    let found = parse_vertex_buffer_at(reader, va, inline_pointer, inline_count, inline_stride);
    let expected = found.as_ref().map_or(Vec::new(), |buffer| buffer_bytes(drawable, buffer));
    let mut out = vec![FILL; 64];
    let told = vertex_buffer(&drawable.system, &drawable.graphics, stream, &mut out);
    assert_eq!(told, Told { check: 0, size: expected.len() as u64 }, "{name}: {stream:x?} of {drawable:?}");
    assert!(out[..expected.len()] == expected[..], "{name}: {stream:x?} of {drawable:?}\nhere {out:?}\nRust {expected:?}");
    assert!(out[expected.len()..].iter().all(|byte| *byte == FILL), "{name}: written beyond: {stream:x?} of {drawable:?}");
    if !expected.is_empty() {
        let mut out = vec![FILL; expected.len() - 1];
        let told = vertex_buffer(&drawable.system, &drawable.graphics, stream, &mut out);
        assert_eq!(told, Told { check: 10, size: expected.len() as u64 }, "{name}: {stream:x?} of {drawable:?}");
        assert!(out.iter().all(|byte| *byte == FILL), "{name}: a refusal wrote: {stream:x?} of {drawable:?}");
    }
    match &found {
        Some(buffer) => {
            tally.layouts[layout_number(buffer.layout) as usize] += 1;
            tally.declared += buffer.declaration.is_some() as u64;
            vertices::compare(&mut tally.vertices, buffer, name);
        }
        None => tally.layouts[4] += 1,
    }
}

fn buffer_bytes(drawable: &Drawable, buffer: &VertexBuffer) -> Vec<u8> {
    let graphics = buffer.data_pointer & GRAPHICS == GRAPHICS;
    let section = if graphics { &drawable.graphics } else { &drawable.system };
    let offset = buffer.data_pointer - if graphics { GRAPHICS } else { SYSTEM };
    assert!(section[offset as usize..][..buffer.data.len()] == buffer.data[..], "the data is where its pointer leads");
    let mut bytes = vec![layout_number(buffer.layout)];
    bytes.extend(buffer.vertex_stride.to_le_bytes());
    bytes.extend(buffer.vertex_count.to_le_bytes());
    bytes.extend(buffer.data_pointer.to_le_bytes());
    bytes.extend(buffer.info_pointer.to_le_bytes());
    bytes.push(graphics as u8);
    bytes.extend(offset.to_le_bytes());
    if let Some(declaration) = &buffer.declaration {
        bytes.extend(declaration_bytes(declaration));
    }
    bytes
}
