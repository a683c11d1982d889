//! Document 01's hall book, written from that document alone: the state is structs and Vecs, each call gives the book that it leads to or the number of the
//! question that refuses it. Nothing here is fast, and nothing is shared with the library or with the original.

/// The most bytes of a section or an image.
pub const LIMIT: u64 = 67_108_864;
const MODELS: usize = 256;
const GEOMETRIES: usize = 16_384;
/// Where an image's first byte is addressed.
const BASE: u64 = 0x5000_0000;

#[derive(Clone, Copy, Debug, PartialEq)]
pub struct Declaration {
    pub flags: u32,
    pub stride: u16,
    pub unknown: u8,
    pub count: u8,
    pub types: u64,
}

/// Sizes by type nibble.
const SIZES: [u64; 16] = [0, 4, 4, 8, 0, 8, 12, 16, 4, 4, 4, 0, 0, 0, 0, 0];

impl Declaration {
    fn position_only(stride: u16) -> Self {
        Self { flags: 1, stride, unknown: 0, count: 1, types: 6 }
    }

    pub fn nibble(&self, semantic: u64) -> usize {
        (self.types >> (4 * semantic) & 15) as usize
    }

    fn has(&self, semantic: u64) -> bool {
        self.flags >> semantic & 1 == 1
    }

    /// The bytes of the components before this semantic; of all for 16.
    fn size_before(&self, semantic: u64) -> u64 {
        (0..semantic).filter(|place| self.has(*place)).map(|place| SIZES[self.nibble(place)]).sum()
    }

    fn bytes(&self) -> Vec<u8> {
        let mut bytes = self.flags.to_le_bytes().to_vec();
        bytes.extend(self.stride.to_le_bytes());
        bytes.extend([self.unknown, self.count]);
        bytes.extend(self.types.to_le_bytes());
        bytes
    }

    fn read(bytes: &[u8]) -> Self {
        Self {
            flags: number(bytes, 0, 4) as u32,
            stride: number(bytes, 4, 2) as u16,
            unknown: bytes[6],
            count: bytes[7],
            types: number(bytes, 8, 8),
        }
    }
}

/// A value to be set.
#[derive(Clone, Copy, Debug, PartialEq)]
pub enum Value {
    Float([f32; 1]),
    Vec2([f32; 2]),
    Vec3([f32; 3]),
    Vec4([f32; 4]),
    Bytes([u8; 4]),
    /// What the C function takes for no value of any type.
    NoType,
}

#[derive(Clone, Debug, PartialEq)]
pub struct Geometry {
    pub shader: u16,
    pub declaration: Declaration,
    pub stride: u16,
    pub vertices: Vec<u8>,
    pub indices: Vec<u32>,
}

impl Geometry {
    pub fn count(&self) -> u64 {
        self.vertices.len() as u64 / u64::from(self.stride)
    }
}

#[derive(Clone, Debug, PartialEq)]
pub struct Model {
    pub binding: u32,
    pub mask: u16,
    pub geometries: Vec<Geometry>,
}

#[derive(Clone, Debug, Default, PartialEq)]
pub struct Book {
    pub models: Vec<Model>,
}

/// A geometry to be added, with the counts and strides that are given.
#[derive(Clone, Debug)]
pub struct Given {
    pub shader: u16,
    pub declaration: Declaration,
    pub stride: u16,
    pub count: u32,
    pub bytes: Vec<u8>,
    pub indices: Vec<u32>,
}

/// What a call or save answers: 0 or the number of a question, and the length written or needed.
#[derive(Clone, Copy, Debug, PartialEq)]
pub struct Answer {
    pub check: u8,
    pub size: u64,
}

type Judged = Result<Book, u8>;

impl Book {
    pub fn add_model(&self, binding: u32, mask: u16) -> Judged {
        let mut result = self.claims();
        result.push(ModelClaim { binding, mask, mapping: Vec::new(), geometries: Vec::new() });
        judge(result)
    }

    pub fn add_geometry(&self, given: &Given) -> Judged {
        let mut result = self.claims();
        let last = result.last_mut().ok_or(21)?;
        let held = given.indices.len() as u64;
        last.mapping.push(given.shader);
        last.geometries.push(GeometryClaim {
            shader: given.shader,
            indices: held,
            triangles: held / 3,
            vertices: u64::from(given.count),
            stride: u64::from(given.stride),
            declaration: Some(given.declaration),
            buffer: Some(BufferClaim {
                layout: 0,
                stride: u64::from(given.stride),
                count: u64::from(given.count),
                data: given.bytes.clone(),
            }),
            held: Some((held, given.indices.clone())),
        });
        judge(result)
    }

    pub fn remove_geometry(&self, model: u64, geometry: u64) -> Judged {
        self.geometry(model, geometry).ok_or(21)?;
        let mut result = self.clone();
        result.models[model as usize].geometries.remove(geometry as usize);
        judge(result.claims())
    }

    pub fn remove_model(&self, model: u64) -> Judged {
        if model >= self.models.len() as u64 {
            return Err(21);
        }
        let mut result = self.clone();
        result.models.remove(model as usize);
        judge(result.claims())
    }

    pub fn set_attribute(&self, model: u64, geometry: u64, vertex: u64, semantic: u64, value: Value) -> Judged {
        let found = self.geometry(model, geometry).ok_or(21)?;
        if vertex >= found.count() {
            return Err(21);
        }
        let declaration = found.declaration;
        if semantic > 15 || !declaration.has(semantic) || SIZES[declaration.nibble(semantic)] == 0 {
            return Err(22);
        }
        let bytes = encoded(declaration.nibble(semantic), value).ok_or(23)?;
        let at = (vertex * u64::from(found.stride) + declaration.size_before(semantic)) as usize;
        let mut result = self.clone();
        result.models[model as usize].geometries[geometry as usize].vertices[at..at + bytes.len()].copy_from_slice(&bytes);
        judge(result.claims())
    }

    pub fn replace_indices(&self, model: u64, geometry: u64, indices: &[u32]) -> Judged {
        self.geometry(model, geometry).ok_or(21)?;
        let mut result = self.clone();
        result.models[model as usize].geometries[geometry as usize].indices = indices.to_vec();
        judge(result.claims())
    }

    pub fn take_in(&self, system: &[u8], graphics: &[u8], address: u64) -> Judged {
        let mut result = Sections { system, graphics }.models(address)?;
        for model in &mut result {
            model.mapping = model.geometries.iter().map(|geometry| geometry.shader).collect();
            for geometry in &mut model.geometries {
                if let Some(buffer) = &mut geometry.buffer {
                    buffer.layout = 0;
                    geometry.declaration = geometry.declaration.or(Some(Declaration::position_only(buffer.stride as u16)));
                }
            }
        }
        judge(result)
    }

    /// Question 24, and the book after the call.
    pub fn settle(&mut self, judged: Judged, buffer_length: usize) -> Answer {
        match judged {
            Err(check) => Answer { check, size: 0 },
            Ok(result) if result.length() > buffer_length as u64 => Answer { check: 24, size: result.length() },
            Ok(result) => {
                *self = result;
                Answer { check: 0, size: self.length() }
            }
        }
    }

    /// Question 20, and the image where it is written.
    pub fn save(&self, buffer_length: usize) -> (Answer, Vec<u8>) {
        let image = self.image();
        let size = image.len() as u64;
        if image.len() > buffer_length {
            return (Answer { check: 20, size }, Vec::new());
        }
        (Answer { check: 0, size }, image)
    }

    pub fn geometry(&self, model: u64, geometry: u64) -> Option<&Geometry> {
        let model = self.models.get(usize::try_from(model).ok()?)?;
        model.geometries.get(usize::try_from(geometry).ok()?)
    }

    /// The written length.
    pub fn length(&self) -> u64 {
        let of_geometry = |geometry: &Geometry| 65 + geometry.vertices.len() as u64 + 4 * geometry.indices.len() as u64;
        let of_model = |model: &Model| 12 + 2 * model.geometries.len() as u64 + model.geometries.iter().map(of_geometry).sum::<u64>();
        self.models.iter().map(of_model).sum()
    }

    /// The list.
    pub fn written(&self) -> Vec<u8> {
        let mut list = Vec::new();
        for model in &self.models {
            let mut body = model.binding.to_le_bytes().to_vec();
            body.extend(model.mask.to_le_bytes());
            body.extend(model.geometries.iter().flat_map(|geometry| geometry.shader.to_le_bytes()));
            record(&mut list, 1, &body);
            for geometry in &model.geometries {
                let held = geometry.indices.len() as u32;
                let mut body = geometry.shader.to_le_bytes().to_vec();
                body.extend(held.to_le_bytes());
                body.extend((held / 3).to_le_bytes());
                body.extend((geometry.count() as u16).to_le_bytes());
                body.extend(geometry.stride.to_le_bytes());
                record(&mut list, 2, &body);
                record(&mut list, 3, &geometry.declaration.bytes());
                let mut body = vec![0];
                body.extend(geometry.stride.to_le_bytes());
                body.extend((geometry.count() as u32).to_le_bytes());
                body.extend(&geometry.vertices);
                record(&mut list, 4, &body);
                let mut body = held.to_le_bytes().to_vec();
                body.extend(geometry.indices.iter().flat_map(|index| index.to_le_bytes()));
                record(&mut list, 5, &body);
            }
        }
        list
    }

    fn claims(&self) -> Vec<ModelClaim> {
        let of_geometry = |geometry: &Geometry| {
            let held = geometry.indices.len() as u64;
            let stride = u64::from(geometry.stride);
            GeometryClaim {
                shader: geometry.shader,
                indices: held,
                triangles: held / 3,
                vertices: geometry.count(),
                stride,
                declaration: Some(geometry.declaration),
                buffer: Some(BufferClaim { layout: 0, stride, count: geometry.count(), data: geometry.vertices.clone() }),
                held: Some((held, geometry.indices.clone())),
            }
        };
        let of_model = |model: &Model| ModelClaim {
            binding: model.binding,
            mask: model.mask,
            mapping: model.geometries.iter().map(|geometry| geometry.shader).collect(),
            geometries: model.geometries.iter().map(of_geometry).collect(),
        };
        self.models.iter().map(of_model).collect()
    }

    /// The bytes of the image: every part is put at the next multiple of 16, and pointers are filled in where their parts were put.
    pub fn image(&self) -> Vec<u8> {
        let mut image = Image(Vec::new());
        let header = image.part(&[0; 16]);
        let models = image.part(&vec![0; 8 * self.models.len()]);
        image.set(header, if self.models.is_empty() { 0 } else { address(models) }, 8);
        image.set(header + 8, self.models.len() as u64, 2);
        image.set(header + 10, self.models.len() as u64, 2);
        for (place, model) in self.models.iter().enumerate() {
            let count = model.geometries.len();
            let block = image.part(&[0; 0x30]);
            let pointers = image.part(&vec![0; 8 * count]);
            let ids: Vec<u8> = model.geometries.iter().flat_map(|geometry| geometry.shader.to_le_bytes()).collect();
            let mapping = image.part(&ids);
            image.set(models + 8 * place, address(block), 8);
            image.set(block + 0x08, if count == 0 { 0 } else { address(pointers) }, 8);
            image.set(block + 0x10, count as u64, 2);
            image.set(block + 0x20, if count == 0 { 0 } else { address(mapping) }, 8);
            image.set(block + 0x28, u64::from(model.binding), 4);
            image.set(block + 0x2C, u64::from(model.mask), 2);
            for (place, geometry) in model.geometries.iter().enumerate() {
                let block = image.geometry(geometry);
                image.set(pointers + 8 * place, address(block), 8);
            }
        }
        image.part(&[]);
        image.0
    }
}

fn address(offset: usize) -> u64 {
    BASE + offset as u64
}

struct Image(Vec<u8>);

impl Image {
    fn part(&mut self, bytes: &[u8]) -> usize {
        while self.0.len() % 16 != 0 {
            self.0.push(0);
        }
        let at = self.0.len();
        self.0.extend(bytes);
        at
    }

    fn set(&mut self, at: usize, value: u64, width: usize) {
        self.0[at..at + width].copy_from_slice(&value.to_le_bytes()[..width]);
    }

    fn geometry(&mut self, geometry: &Geometry) -> usize {
        let held = geometry.indices.len() as u64;
        let block = self.part(&[0; 0x98]);
        let vertices = self.part(&[0; 0x80]);
        let declaration = self.part(&geometry.declaration.bytes());
        let data = self.part(&geometry.vertices);
        let indices = self.part(&[0; 0x60]);
        let short: Vec<u8> = geometry.indices.iter().flat_map(|index| (*index as u16).to_le_bytes()).collect();
        let short = self.part(&short);
        for (at, value, width) in [
            (block + 0x18, address(vertices), 8),
            (block + 0x38, address(indices), 8),
            (block + 0x58, held, 4),
            (block + 0x5C, held / 3, 4),
            (block + 0x60, geometry.count(), 2),
            (block + 0x70, u64::from(geometry.stride), 2),
            (vertices + 0x08, u64::from(geometry.stride), 2),
            (vertices + 0x10, address(data), 8),
            (vertices + 0x18, geometry.count(), 4),
            (vertices + 0x30, address(declaration), 8),
            (indices + 0x08, held, 4),
            (indices + 0x10, address(short), 8),
        ] {
            self.set(at, value, width);
        }
        block
    }
}

fn record(list: &mut Vec<u8>, kind: u16, body: &[u8]) {
    list.extend((body.len() as u32).to_le_bytes());
    list.extend(kind.to_le_bytes());
    list.extend(body);
}

fn number(bytes: &[u8], at: usize, width: usize) -> u64 {
    bytes[at..at + width].iter().rev().fold(0, |value, byte| value << 8 | u64::from(*byte))
}

// ---- Values as bytes

/// None where the value has not the shape of the type.
fn encoded(nibble: usize, value: Value) -> Option<Vec<u8>> {
    match (nibble, value) {
        (2, Value::Float(v)) => Some(floats(&v)),
        (5, Value::Vec2(v)) => Some(floats(&v)),
        (6, Value::Vec3(v)) => Some(floats(&v)),
        (7, Value::Vec4(v)) => Some(floats(&v)),
        (1, Value::Vec2(v)) => Some(v.iter().flat_map(|x| half(*x).to_le_bytes()).collect()),
        (3, Value::Vec4(v)) => Some(v.iter().flat_map(|x| half(*x).to_le_bytes()).collect()),
        (10, Value::Vec4(v)) => Some(v.iter().map(|x| (x * 127.0).clamp(-127.0, 127.0) as i8 as u8).collect()),
        (8 | 9, Value::Bytes(v)) => Some(v.to_vec()),
        _ => None,
    }
}

fn floats(values: &[f32]) -> Vec<u8> {
    values.iter().flat_map(|value| value.to_bits().to_le_bytes()).collect()
}

/// The nearest half, of two the even one, found by scaling in f64, where it is exact.
fn half(value: f32) -> u16 {
    let bits = value.to_bits();
    let sign = (bits >> 16 & 0x8000) as u16;
    if value.is_nan() {
        return sign | 0x7C00 | 0x200 | (bits >> 13 & 0x3FF) as u16;
    }
    let size = f64::from(value).abs();
    // the step between halves about this size is 2^power
    let power = (-24..=5).rev().find(|power| *power == -24 || size >= 2f64.powi(power + 10)).unwrap();
    let steps = (size / 2f64.powi(power)).round_ties_even();
    // steps from 1,024 to 2,048 stand for exponent power + 25; a carry to 2,048 is the next exponent's first
    let magnitude =
        if steps.is_infinite() || steps * 2f64.powi(power) >= 65_536.0 { 0x7C00 } else { ((power + 24) as u16) * 1024 + steps as u16 };
    sign | magnitude
}

// ---- The questions about a whole hall

/// What is judged: a hall as it would stand in a list, with all its counts as they are given or read.
pub struct ModelClaim {
    binding: u32,
    mask: u16,
    mapping: Vec<u16>,
    geometries: Vec<GeometryClaim>,
}

struct GeometryClaim {
    shader: u16,
    indices: u64,
    triangles: u64,
    vertices: u64,
    stride: u64,
    declaration: Option<Declaration>,
    buffer: Option<BufferClaim>,
    /// The index buffer's count, and the indices that it holds.
    held: Option<(u64, Vec<u32>)>,
}

struct BufferClaim {
    layout: u8,
    stride: u64,
    count: u64,
    data: Vec<u8>,
}

/// A geometry with all four kinds.
struct Whole<'a> {
    claim: &'a GeometryClaim,
    declaration: Declaration,
    buffer: &'a BufferClaim,
    count: u64,
    indices: &'a [u32],
}

/// 11 to 18, 27 and 19 in this order, question by question.
fn judge(models: Vec<ModelClaim>) -> Judged {
    let mut all = Vec::new();
    for claim in models.iter().flat_map(|model| &model.geometries) {
        let (Some(declaration), Some(buffer), Some((count, indices))) = (claim.declaration, &claim.buffer, &claim.held) else {
            return Err(11);
        };
        all.push(Whole { claim, declaration, buffer, count: *count, indices });
    }
    let ids = |model: &ModelClaim| model.geometries.iter().map(|geometry| geometry.shader).collect::<Vec<u16>>();
    let in_range = |g: &Whole| g.indices.iter().all(|index| u64::from(*index) < g.buffer.count);
    let distinct = |g: &Whole| g.indices.chunks_exact(3).all(|t| t[0] != t[1] && t[1] != t[2] && t[0] != t[2]);
    let questions = [
        (11, all.iter().all(|g| g.buffer.data.len() as u64 == g.buffer.count * g.buffer.stride)),
        (12, models.iter().all(|model| model.mapping == ids(model))),
        (13, models.len() <= MODELS && all.len() <= GEOMETRIES),
        (
            14,
            all.iter()
                .all(|g| g.buffer.layout == 0 && g.claim.stride == g.buffer.stride && u64::from(g.declaration.stride) == g.buffer.stride),
        ),
        (
            15,
            all.iter()
                .all(|g| g.declaration.has(0) && SIZES[g.declaration.nibble(0)] > 0 && g.declaration.size_before(16) <= g.buffer.stride),
        ),
        (16, all.iter().all(|g| g.claim.vertices == g.buffer.count && (1..=65_535).contains(&g.buffer.count))),
        (
            17,
            all.iter().all(|g| {
                let held = g.indices.len() as u64;
                g.claim.indices == held && g.count == held && held == 3 * g.claim.triangles && held >= 3
            }),
        ),
        (18, all.iter().all(in_range)),
        (27, all.iter().all(distinct)),
        (19, image_length(&models) <= LIMIT),
    ];
    if let Some((number, _)) = questions.iter().find(|(_, yes)| !yes) {
        return Err(*number);
    }
    drop(all);
    let of_geometry = |claim: GeometryClaim| Geometry {
        shader: claim.shader,
        declaration: claim.declaration.unwrap(),
        stride: claim.stride as u16,
        vertices: claim.buffer.unwrap().data,
        indices: claim.held.unwrap().1,
    };
    let of_model = |claim: ModelClaim| Model {
        binding: claim.binding,
        mask: claim.mask,
        geometries: claim.geometries.into_iter().map(of_geometry).collect(),
    };
    Ok(Book { models: models.into_iter().map(of_model).collect() })
}

fn image_length(models: &[ModelClaim]) -> u64 {
    let up = |length: u64| length.div_ceil(16) * 16;
    let mut length = 16 + up(8 * models.len() as u64);
    for model in models {
        let count = model.geometries.len() as u64;
        length += 0x30 + up(8 * count) + up(2 * count);
        for geometry in &model.geometries {
            let data = geometry.buffer.as_ref().map_or(0, |buffer| buffer.data.len() as u64);
            let held = geometry.held.as_ref().map_or(0, |(_, indices)| indices.len() as u64);
            length += up(0x98) + 0x80 + 16 + up(data) + 0x60 + up(2 * held);
        }
    }
    length
}

/// The questions about a whole hall of the first n bytes of a buffer, and the book that they hold.
pub fn check(buffer: &[u8], n: usize) -> Judged {
    let list = buffer.get(..n).ok_or(11)?;
    judge(models_of(list).ok_or(11)?)
}

/// The models of a list; None where its records are not whole, ordered and exact in length.
fn models_of(list: &[u8]) -> Option<Vec<ModelClaim>> {
    let mut records = Vec::new();
    let mut rest = list;
    while !rest.is_empty() {
        let length = number(rest.get(..6)?, 0, 4) as usize;
        let kind = number(rest, 4, 2);
        records.push((kind, rest[6..].get(..length)?));
        rest = &rest[6 + length..];
    }
    let mut models: Vec<ModelClaim> = Vec::new();
    let mut place = 0;
    while place < records.len() {
        let (kind, body) = records[place];
        match kind {
            1 if body.len() >= 6 && body.len() % 2 == 0 => {
                models.push(ModelClaim {
                    binding: number(body, 0, 4) as u32,
                    mask: number(body, 4, 2) as u16,
                    mapping: body[6..].chunks(2).map(|id| number(id, 0, 2) as u16).collect(),
                    geometries: Vec::new(),
                });
                place += 1;
            }
            2 => {
                let four = records.get(place..place + 4)?;
                if four.iter().map(|(kind, _)| *kind).ne(2..=5) {
                    return None;
                }
                models.last_mut()?.geometries.push(geometry_of(four[0].1, four[1].1, four[2].1, four[3].1)?);
                place += 4;
            }
            _ => return None,
        }
    }
    Some(models)
}

fn geometry_of(two: &[u8], three: &[u8], four: &[u8], five: &[u8]) -> Option<GeometryClaim> {
    if two.len() != 14 || three.len() != 16 || four.len() < 7 || five.len() < 4 || five.len() % 4 != 0 {
        return None;
    }
    Some(GeometryClaim {
        shader: number(two, 0, 2) as u16,
        indices: number(two, 2, 4),
        triangles: number(two, 6, 4),
        vertices: number(two, 10, 2),
        stride: number(two, 12, 2),
        declaration: Some(Declaration::read(three)),
        buffer: Some(BufferClaim { layout: four[0], stride: number(four, 1, 2), count: number(four, 3, 4), data: four[7..].to_vec() }),
        held: Some((number(five, 0, 4), five[4..].chunks(4).map(|index| number(index, 0, 4) as u32).collect())),
    })
}

// ---- Reading two sections

struct Sections<'a> {
    system: &'a [u8],
    graphics: &'a [u8],
}

impl<'a> Sections<'a> {
    fn range(&self, address: u64, length: u64) -> Option<&'a [u8]> {
        let has = |bit: u32| address >> bit & 1 == 1;
        let (section, offset) = if address == 0 {
            return None;
        } else if has(30) && has(29) {
            (self.graphics, address - 0x6000_0000)
        } else if has(30) && has(28) {
            (self.system, address - 0x5000_0000)
        } else {
            return None;
        };
        let end = offset.checked_add(length)?;
        if end > section.len() as u64 {
            return None;
        }
        Some(&section[offset as usize..end as usize])
    }

    /// The numbers of a list; empty where its count or its pointer is 0, None where it does not resolve.
    fn list(&self, pointer: u64, count: u64, width: usize) -> Option<Vec<u64>> {
        if count == 0 || pointer == 0 {
            return Some(Vec::new());
        }
        let bytes = self.range(pointer, count * width as u64)?;
        Some(bytes.chunks(width).map(|item| number(item, 0, width)).collect())
    }

    /// Questions 1 to 6.
    fn models(&self, va: u64) -> Result<Vec<ModelClaim>, u8> {
        if self.system.len() as u64 > LIMIT || self.graphics.len() as u64 > LIMIT {
            return Err(1);
        }
        let Some(header) = self.range(va, 16) else { return Ok(Vec::new()) };
        let count = if number(header, 8, 2) == 0 { number(header, 10, 2) } else { number(header, 8, 2) };
        let pointers = self.list(number(header, 0, 8), count, 8).ok_or(2)?;
        let (mut models, mut before) = (Vec::new(), 0);
        for pointer in pointers.into_iter().filter(|pointer| *pointer != 0) {
            let block = self.range(pointer, 0x30).ok_or(3)?;
            let count = number(block, 0x10, 2);
            let pointers = self.list(number(block, 0x08, 8), count, 8).ok_or(4)?;
            let mapping = self.list(number(block, 0x20, 8), count, 2).unwrap_or_default();
            let mut geometries = Vec::new();
            for (place, pointer) in pointers.into_iter().enumerate().filter(|(_, pointer)| *pointer != 0) {
                if before >= GEOMETRIES {
                    return Err(5);
                }
                before += 1;
                let block = self.range(pointer, 0x98).ok_or(6)?;
                geometries.push(self.geometry(block, mapping.get(place).copied().unwrap_or(0) as u16));
            }
            models.push(ModelClaim {
                binding: number(block, 0x28, 4) as u32,
                mask: number(block, 0x2C, 2) as u16,
                mapping: mapping.into_iter().map(|id| id as u16).collect(),
                geometries,
            });
        }
        Ok(models)
    }

    fn geometry(&self, block: &[u8], shader: u16) -> GeometryClaim {
        let stored = number(block, 0x60, 2);
        let stride = number(block, 0x70, 2);
        let found = self.vertices(number(block, 0x18, 8), (number(block, 0x78, 8), stored, stride));
        let (buffer, declaration) = found.map_or((None, None), |(buffer, declaration)| (Some(buffer), declaration));
        let vertices = match &buffer {
            Some(buffer) if stored == 0 => buffer.count.min(65_535),
            _ => stored,
        };
        GeometryClaim {
            shader,
            indices: number(block, 0x58, 4),
            triangles: number(block, 0x5C, 4),
            vertices,
            stride,
            declaration,
            buffer,
            held: self.indices(number(block, 0x38, 8)),
        }
    }

    fn vertices(&self, va: u64, inline: (u64, u64, u64)) -> Option<(BufferClaim, Option<Declaration>)> {
        // layout, pointer, count, stride, info pointer
        let mut tries = Vec::new();
        if let Some(block) = self.range(va, 0x80) {
            let (stride, count, info) = (number(block, 0x08, 2), number(block, 0x18, 4), number(block, 0x30, 8));
            tries.push((0, number(block, 0x10, 8), count, stride, info));
            tries.push((1, number(block, 0x20, 8), count, stride, info));
            tries.push((2, number(block, 0x18, 8), number(block, 0x08, 4), number(block, 0x0C, 2), 0));
        }
        tries.push((3, inline.0, inline.1, inline.2, 0));
        tries.into_iter().find_map(|(layout, pointer, count, stride, info)| {
            if pointer == 0 || count == 0 || stride == 0 {
                return None;
            }
            let data = self.range(pointer, count * stride)?.to_vec();
            Some((BufferClaim { layout, stride, count, data }, self.range(info, 16).map(Declaration::read)))
        })
    }

    fn indices(&self, va: u64) -> Option<(u64, Vec<u32>)> {
        let block = self.range(va, 0x60)?;
        let count = number(block, 0x08, 4);
        let size = number(block, 0x0C, 2);
        for (pointer, width) in [(number(block, 0x10, 8), 2), (number(block, 0x18, 8), size)] {
            if pointer == 0 || count == 0 || (width != 2 && width != 4) {
                continue;
            }
            if let Some(bytes) = self.range(pointer, count * width) {
                return Some((count, bytes.chunks(width as usize).map(|item| number(item, 0, width as usize) as u32).collect()));
            }
        }
        Some((count, Vec::new()))
    }
}
