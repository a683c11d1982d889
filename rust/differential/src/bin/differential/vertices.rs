//! The vertices of a buffer: every attribute, all vertices unified, and the declaration's id.
use library::drawables::{declaration, declared_size, vertex_bytes};
use library::numbers::Random;
use library::{declaration_id, unified_vertices, vertex_attributes, Told, Vertices};
use oracle::check_of;
use oracle::math::{Vec2, Vec3, Vec4};
use oracle::resource::{ResReader, SYSTEM_BASE};
use oracle::vertex::{
    parse_vertex_declaration_at, UnifiedVertex, VertexAttribute, VertexAttributeValue, VertexBuffer, VertexBufferLayout, VertexDeclaration,
};

const FILL: u8 = 0x5A;

#[derive(Default)]
pub struct Tally {
    attributes: u64,
    attribute_calls: u64,
    outside_count: u64,
    outside_data: u64,
    unified: u64,
    unify_calls: u64,
    unify_outside: u64,
}

impl Tally {
    pub fn said(&self) -> String {
        format!(
            "attributes {} in {} calls, refused {} by 8, {} by 9; unified vertices {} in {} calls, refused {} by 9",
            self.attributes,
            self.attribute_calls,
            self.outside_count,
            self.outside_data,
            self.unified,
            self.unify_calls,
            self.unify_outside
        )
    }
}

pub fn generated(seed: u64, count: u64) -> String {
    let mut tally = Tally::default();
    let random = &mut Random::new(seed ^ 0x5645_5254);
    for number in 0..count {
        let (flags, types) = declaration(random);
        let size = declared_size(flags, types);
        let strides = [size, size, size + random.below(5), size.saturating_sub(1 + random.below(4)), random.below(300), 0];
        let stride = random.pick(&strides);
        let counts = [0, 1, 2, 3, 5, random.below(60)];
        let count = random.pick(&counts);
        let whole = if count == 0 { 0 } else { (count - 1) * stride + size };
        let lengths = [count * stride, whole, whole.saturating_sub(1), whole + random.below(3), random.below(whole + 8)];
        let length = random.pick(&lengths);
        let buffer = VertexBuffer {
            vertex_stride: stride as u16,
            vertex_count: count as u32,
            data_pointer: 0,
            info_pointer: 0,
            declaration: random.percent(95).then(|| declared(random, flags, types)),
            data: vertex_bytes(random, length),
            layout: VertexBufferLayout::Legacy,
        };
        compare(&mut tally, &buffer, &format!("seed {seed} vertices {number}"));
    }
    format!("{count} buffers: {}", tally.said())
}

/// The original's reading of 16 bytes.
fn declared(random: &mut Random, flags: u32, types: u64) -> VertexDeclaration {
    let mut bytes = random.bytes(16);
    bytes[0..4].copy_from_slice(&flags.to_le_bytes());
    bytes[8..16].copy_from_slice(&types.to_le_bytes());
    parse_vertex_declaration_at(&ResReader { system: &bytes, graphics: &[] }, SYSTEM_BASE).unwrap()
}

pub fn compare(tally: &mut Tally, buffer: &VertexBuffer, name: &str) {
    let synthetic = VertexDeclaration::position_only(buffer.vertex_stride);
    let declaration = buffer.declaration.as_ref().unwrap_or(&synthetic);
    let (flags, types) = (declaration.flags, declaration.types);
    assert_eq!(declaration_id(flags, types), declaration.declaration_id(), "{name}: flags {flags:x} types {types:x}");
    let vertices = Vertices { data: &buffer.data, stride: buffer.vertex_stride, count: buffer.vertex_count, flags, types };
    let count = buffer.vertex_count as u64;
    let beyond = [count.saturating_sub(1), count, count + 1, 1 << 32, u64::MAX];
    for index in (0..count.min(12)).chain(beyond) {
        compare_attributes(tally, buffer, vertices, index, name);
    }
    compare_unified(tally, buffer, vertices, name);
}

fn compare_attributes(tally: &mut Tally, buffer: &VertexBuffer, vertices: Vertices, index: u64, name: &str) {
    tally.attribute_calls += 1;
    let expected: Result<Vec<u8>, u8> = match buffer.read_vertex_attributes(index as usize) {
        Ok(attributes) => Ok(attributes.iter().flat_map(attribute_bytes).collect()),
        Err(error) => Err(check_of(&error.to_string())),
    };
    let mut out = [FILL; 16 * 20 + 8];
    let told = vertex_attributes(vertices, index, &mut out);
    match expected {
        Ok(bytes) => {
            tally.attributes += bytes.len() as u64 / 20;
            assert_eq!(told, Told { check: 0, size: bytes.len() as u64 }, "{name}: attributes of {index} of {vertices:x?}");
            assert!(out[..bytes.len()] == bytes[..], "{name}: attributes of {index} of {vertices:x?}\nhere {out:?}\nRust {bytes:?}");
            assert!(out[bytes.len()..].iter().all(|byte| *byte == FILL), "{name}: written beyond: {index} of {vertices:x?}");
            if !bytes.is_empty() {
                let mut out = vec![FILL; bytes.len() - 1];
                let told = vertex_attributes(vertices, index, &mut out);
                assert_eq!(told, Told { check: 10, size: bytes.len() as u64 }, "{name}: attributes of {index} of {vertices:x?}");
                assert!(out.iter().all(|byte| *byte == FILL), "{name}: a refusal wrote: {index} of {vertices:x?}");
            }
        }
        Err(check) => {
            tally.outside_count += (check == 8) as u64;
            tally.outside_data += (check == 9) as u64;
            assert_eq!(told, Told { check, size: 0 }, "{name}: attributes of {index} of {vertices:x?}");
            assert!(out.iter().all(|byte| *byte == FILL), "{name}: a refusal wrote: {index} of {vertices:x?}");
        }
    }
}

fn attribute_bytes(attribute: &VertexAttribute) -> [u8; 20] {
    let component = attribute.component;
    let mut bytes = [0; 20];
    bytes[0] = component.semantic_index;
    bytes[1] = component.component_type.nibble();
    bytes[2..4].copy_from_slice(&component.offset.to_le_bytes());
    let mut floats = |values: &[f32]| {
        for (to, value) in bytes[4..].chunks_exact_mut(4).zip(values) {
            to.copy_from_slice(&value.to_bits().to_le_bytes());
        }
    };
    match attribute.value {
        VertexAttributeValue::Float(x) => floats(&[x]),
        VertexAttributeValue::Half2(v) | VertexAttributeValue::Float2(v) => floats(&v),
        VertexAttributeValue::Float3(v) => floats(&[v.x, v.y, v.z]),
        VertexAttributeValue::Float4(v) => floats(&[v.x, v.y, v.z, v.w]),
        VertexAttributeValue::Half4(v) | VertexAttributeValue::Rgba8Snorm(v) => floats(&v),
        VertexAttributeValue::UByte4(v) | VertexAttributeValue::Colour(v) => bytes[4..8].copy_from_slice(&v),
        VertexAttributeValue::Unsupported => {}
    }
    bytes
}

fn compare_unified(tally: &mut Tally, buffer: &VertexBuffer, vertices: Vertices, name: &str) {
    tally.unify_calls += 1;
    let count = vertices.count as usize;
    let mut out = vec![FILL; 84 * count + 5];
    let told = unified_vertices(vertices, &mut out);
    match buffer.to_unified_vertices() {
        Ok(unified) => {
            tally.unified += unified.len() as u64;
            let bytes: Vec<u8> = unified.iter().flat_map(unified_bytes).collect();
            assert_eq!(told, Told { check: 0, size: 84 * count as u64 }, "{name}: {vertices:x?}");
            assert!(out[..bytes.len()] == bytes[..], "{name}: unified {vertices:x?}\nhere {out:?}\nRust {bytes:?}");
            assert!(out[bytes.len()..].iter().all(|byte| *byte == FILL), "{name}: written beyond: {vertices:x?}");
            if count > 0 {
                let mut out = vec![FILL; bytes.len() - 1];
                assert_eq!(unified_vertices(vertices, &mut out), Told { check: 10, size: bytes.len() as u64 }, "{name}: {vertices:x?}");
                assert!(out.iter().all(|byte| *byte == FILL), "{name}: a refusal wrote: {vertices:x?}");
            }
        }
        Err(error) => {
            tally.unify_outside += 1;
            assert_eq!(told, Told { check: check_of(&error.to_string()), size: 0 }, "{name}: {vertices:x?}");
            assert!(out.iter().all(|byte| *byte == FILL), "{name}: a refusal wrote: {vertices:x?}");
        }
    }
}

fn unified_bytes(vertex: &UnifiedVertex) -> Vec<u8> {
    let mut bytes = Vec::with_capacity(84);
    let mut floats = Vec::new();
    let three = |v: Vec3| [v.x, v.y, v.z];
    let two = |v: Vec2| [v.x, v.y];
    let four = |v: Vec4| [v.x, v.y, v.z, v.w];
    floats.extend(three(vertex.position));
    floats.extend(three(vertex.normal));
    bytes.extend(floats.drain(..).flat_map(|value: f32| value.to_bits().to_le_bytes()));
    bytes.extend(vertex.color0);
    bytes.extend(vertex.color1);
    floats.extend(two(vertex.texcoord0));
    floats.extend(two(vertex.texcoord1));
    floats.extend(four(vertex.tangent));
    floats.extend(four(vertex.blend_weights));
    bytes.extend(floats.drain(..).flat_map(|value: f32| value.to_bits().to_le_bytes()));
    bytes.extend(vertex.blend_indices);
    bytes
}
