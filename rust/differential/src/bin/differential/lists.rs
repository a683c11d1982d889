//! Lists of calls, made at random from a seed: the library beside the hall book of `book.rs`. After each call are compared its answer, n and the whole buffer;
//! of save its answer and the whole image buffer. The original reads each image that the library saved, and must give the hall's list.
use std::fmt;

use library::drawables::{damaged, drawable, Drawable, SYSTEM};
use library::numbers::Random;
use library::{add_geometry, add_model, hall_check, remove_geometry, remove_model, replace_indices, save, set_attribute, take_in, Told};

use oracle::list::written;

use crate::book::{self, Answer, Book, Declaration, Given, Value, LIMIT};
use crate::sound::{self, Maker};

/// A list has at most this many calls.
const LONGEST: usize = 60;

#[derive(Clone, Debug)]
enum Call {
    AddModel { binding: u32, mask: u16 },
    AddGeometry(Given),
    RemoveGeometry { model: u64, geometry: u64 },
    RemoveModel { model: u64 },
    SetAttribute { place: [u64; 4], shape: u8, value: [u32; 4] },
    ReplaceIndices { model: u64, geometry: u64, indices: Vec<u32> },
    TakeIn(Drawable),
}

const NAMES: [&str; 7] = ["add model", "add geometry", "remove geometry", "remove model", "set attribute", "replace indices", "take in"];

impl Call {
    fn place(&self) -> usize {
        match self {
            Self::AddModel { .. } => 0,
            Self::AddGeometry(_) => 1,
            Self::RemoveGeometry { .. } => 2,
            Self::RemoveModel { .. } => 3,
            Self::SetAttribute { .. } => 4,
            Self::ReplaceIndices { .. } => 5,
            Self::TakeIn(_) => 6,
        }
    }

    fn in_book(&self, book: &Book) -> Result<Book, u8> {
        match self {
            Self::AddModel { binding, mask } => book.add_model(*binding, *mask),
            Self::AddGeometry(given) => book.add_geometry(given),
            Self::RemoveGeometry { model, geometry } => book.remove_geometry(*model, *geometry),
            Self::RemoveModel { model } => book.remove_model(*model),
            Self::SetAttribute { place: [model, geometry, vertex, semantic], shape, value } => {
                book.set_attribute(*model, *geometry, *vertex, *semantic, value_of(*shape, *value))
            }
            Self::ReplaceIndices { model, geometry, indices } => book.replace_indices(*model, *geometry, indices),
            Self::TakeIn(Drawable { system, graphics, va }) => book.take_in(system, graphics, *va),
        }
    }

    fn in_library(&self, hall: &mut [u8], n: usize) -> Told {
        match self {
            Self::AddModel { binding, mask } => add_model(hall, n, *binding, *mask),
            Self::AddGeometry(Given { shader, declaration, stride, count, bytes, indices }) => {
                let Declaration { flags, stride: declared_stride, unknown, count: declared_count, types } = *declaration;
                let given = library::Given {
                    shader: *shader,
                    flags,
                    declared_stride,
                    unknown_6h: unknown,
                    declared_count,
                    types,
                    stride: *stride,
                    count: *count,
                    content: bytes,
                    indices,
                };
                add_geometry(hall, n, given)
            }
            Self::RemoveGeometry { model, geometry } => remove_geometry(hall, n, *model, *geometry),
            Self::RemoveModel { model } => remove_model(hall, n, *model),
            Self::SetAttribute { place, shape, value } => set_attribute(hall, n, *place, *shape, *value),
            Self::ReplaceIndices { model, geometry, indices } => replace_indices(hall, n, *model, *geometry, indices),
            Self::TakeIn(Drawable { system, graphics, va }) => take_in(hall, n, system, graphics, *va),
        }
    }
}

/// The value that shape and numbers stand for, as include/calicofern.h says.
fn value_of(shape: u8, value: [u32; 4]) -> Value {
    let [x, y, z, w] = value.map(f32::from_bits);
    match shape {
        1 => Value::Float([x]),
        2 => Value::Vec2([x, y]),
        3 => Value::Vec3([x, y, z]),
        4 => Value::Vec4([x, y, z, w]),
        5 if value.iter().all(|byte| *byte <= 255) => Value::Bytes(value.map(|byte| byte as u8)),
        _ => Value::NoType,
    }
}

#[derive(Default)]
struct Tally {
    accepted: [u64; 7],
    refused: [[u64; 28]; 7],
    /// Calls on a buffer whose bytes were changed by hand before.
    changed: u64,
    still_sound: u64,
    greatest: usize,
    bytes: u64,
    saved: u64,
    not_saved: [u64; 28],
    image_bytes: u64,
    longest_image: usize,
}

impl fmt::Display for Tally {
    fn fmt(&self, formatter: &mut fmt::Formatter<'_>) -> fmt::Result {
        for (place, name) in NAMES.iter().enumerate() {
            write!(formatter, "{name} {} accepted", self.accepted[place])?;
            for (number, count) in self.refused[place].iter().enumerate().filter(|(_, count)| **count > 0) {
                write!(formatter, ", {count} by {number}")?;
            }
            write!(formatter, "; ")?;
        }
        write!(formatter, "save {} accepted", self.saved)?;
        for (number, count) in self.not_saved.iter().enumerate().filter(|(_, count)| **count > 0) {
            write!(formatter, ", {count} by {number}")?;
        }
        write!(formatter, "; {} bytes of images, each read by the original, the longest {}; ", self.image_bytes, self.longest_image)?;
        write!(
            formatter,
            "of the calls {} on a hall changed by hand, {} of them still sound; {} bytes of halls compared, the longest hall {}",
            self.changed, self.still_sound, self.bytes, self.greatest
        )
    }
}

/// The library's hall beside what it must be.
#[derive(Clone)]
struct Hall {
    book: Book,
    n: usize,
    buffer: Vec<u8>,
    expected: Vec<u8>,
}

impl Hall {
    fn new(buffer: Vec<u8>) -> Self {
        Self { book: Book::default(), n: 0, expected: buffer.clone(), buffer }
    }

    /// The same hall in a buffer of another length; new bytes are a pattern.
    fn lend(&mut self, random: &mut Random, length: usize) {
        let before = self.expected.len();
        if length > before {
            self.expected.extend(random.bytes(length - before));
        }
        self.expected.truncate(length);
        self.buffer = self.expected.clone();
    }

    /// The book's part: its answer, and the buffer afterwards.
    fn expect(&mut self, judged: Result<Book, u8>) -> Answer {
        let answer = self.book.settle(judged, self.buffer.len());
        if answer.check == 0 {
            let list = self.book.written();
            assert_eq!(list.len() as u64, answer.size, "the book's own length");
            if list.len() < self.n {
                self.expected[list.len()..self.n].fill(0);
            }
            self.expected[..list.len()].copy_from_slice(&list);
            self.n = list.len();
        }
        answer
    }

    /// Makes a call on both sides; says where they differ.
    fn compare(&mut self, call: &Call, judged: Result<Book, u8>, tally: &mut Tally) -> Result<Answer, String> {
        let n = self.n;
        let answer = self.expect(judged);
        let told = call.in_library(&mut self.buffer, n);
        if told != (Told { check: answer.check, size: answer.size }) {
            return Err(format!("the library answers {told:?}, the book {answer:?}; n before {n}, buffer {}", self.buffer.len()));
        }
        if self.buffer != self.expected {
            let place = self.buffer.iter().zip(&self.expected).position(|(here, there)| here != there);
            return Err(format!("answer {answer:?}, n before {n}: the buffers differ from byte {place:?}"));
        }
        match answer.check {
            0 => {
                tally.accepted[call.place()] += 1;
                tally.greatest = tally.greatest.max(self.n);
            }
            number => tally.refused[call.place()][number as usize] += 1,
        }
        tally.bytes += self.buffer.len() as u64;
        Ok(answer)
    }
}

/// Saves the hall into a buffer of this length, filled with a pattern; the image.
fn compare_save(hall: &Hall, held: &Result<Book, u8>, room: usize, tally: &mut Tally) -> Result<Option<Vec<u8>>, String> {
    let (answer, image) = match held {
        Ok(book) => book.save(room),
        Err(check) => (Answer { check: *check, size: 0 }, Vec::new()),
    };
    let first: Vec<u8> = (0..room).map(|place| (place * 7 + 1) as u8).collect();
    let mut out = first.clone();
    let told = save(&hall.buffer, hall.n, &mut out);
    if told != (Told { check: answer.check, size: answer.size }) {
        return Err(format!("save answers {told:?}, the book {answer:?}; image buffer {room}"));
    }
    if out[..image.len()] != image || out[image.len()..] != first[image.len()..] {
        let place = out.iter().zip(image.iter().chain(&first[image.len()..])).position(|(here, there)| here != there);
        return Err(format!("save answers {answer:?}: the image buffers differ from byte {place:?}"));
    }
    if answer.check > 0 {
        tally.not_saved[answer.check as usize] += 1;
        return Ok(None);
    }
    out.truncate(told.size as usize);
    match oracle::models(&out, &[], SYSTEM) {
        Ok(lod) if written(&lod.models) == hall.buffer[..hall.n] => {}
        Ok(_) => return Err("the original reads another list from the image".to_owned()),
        Err(check) => return Err(format!("the original refuses the image with {check}")),
    }
    tally.saved += 1;
    tally.image_bytes += told.size;
    tally.longest_image = tally.longest_image.max(out.len());
    Ok(Some(out))
}

/// A length of the image buffer: mostly exact or one short.
fn image_room(random: &mut Random, needed: usize) -> usize {
    match random.below(6) {
        0..=2 => needed,
        3 => needed - 1,
        4 => random.below(needed),
        _ => needed + random.between(1, 70),
    }
}

pub fn generated(seed: u64, count: u64) -> String {
    let mut tally = Tally::default();
    let mut calls = 0;
    for number in 0..count {
        calls += list(seed, number, &mut tally);
    }
    format!("{count} lists of {calls} calls: {tally}")
}

/// One list; how many calls it had.
fn list(seed: u64, number: u64, tally: &mut Tally) -> usize {
    let random = &mut Random::new(seed.wrapping_mul(0x1_0000_0003).wrapping_add(number) ^ 0x4C49_5354);
    random.next();
    // the first lists, and some later, start with about as many models or geometries as a hall may have
    let crowded = number < 12 || number % 500 == 499;
    let length = if crowded { random.between(3, 8) } else { random.between(1, LONGEST) };
    // a buffer of one length for the whole list, or one that is as tight as each call needs it
    let tight = random.percent(60);
    let room = if tight { 0 } else { random.pick(&[0, 11, 300, 3_000, 10_000, 30_000, 100_000]) };
    let room = if crowded && !tight { 8_000_000 } else { random.between(room / 2, room) };
    let first = random.bytes(room);
    let mut hall = Hall::new(first.clone());
    let (mut log, mut images, mut greatest) = (Vec::new(), Vec::new(), 0);
    for place in 0..length {
        let call = match place {
            0 if crowded => {
                let which = if number < 12 { number as usize } else { random.below(12) };
                Call::TakeIn(Maker::new(random).crowded(which))
            }
            1 if crowded => Call::AddModel { binding: random.next() as u32, mask: 1 },
            2 if crowded => Call::AddGeometry(sound::geometry(random)),
            _ => any_call(random, &hall.book, &images),
        };
        log.push(call.clone());
        let judged = call.in_book(&hall.book);
        if tight {
            let length = room_for(random, &judged, hall.n, hall.buffer.len());
            hall.lend(random, length);
        }
        let report = |what: String| -> ! {
            let log: Vec<String> = log.iter().enumerate().map(|(place, call)| format!("  {place}: {call:?}\n")).collect();
            panic!("seed {seed} list {number} call {place}: {what}\ncalls up to it:\n{}", log.concat())
        };
        if random.percent(4) && !crowded {
            if let Err(what) = by_hand(random, &hall, &call, tally) {
                report(format!("on a hall changed by hand: {what}"));
            }
        }
        if let Err(what) = hall.compare(&call, judged, tally) {
            report(what);
        }
        greatest = greatest.max(hall.n);
        if !tight && (hall.buffer[hall.n..greatest].iter().any(|byte| *byte != 0) || hall.buffer[greatest..] != first[greatest..]) {
            report("the bytes behind the hall".to_owned());
        }
        if random.percent(if crowded { 100 } else { 25 }) {
            let room = image_room(random, hall.book.image().len());
            match compare_save(&hall, &Ok(hall.book.clone()), room, tally) {
                Ok(Some(image)) if image.len() < 50_000 => images.push(image),
                Ok(_) => {}
                Err(what) => report(what),
            }
        }
    }
    length
}

/// A length of the buffer: mostly exact or one short.
fn room_for(random: &mut Random, judged: &Result<Book, u8>, n: usize, now: usize) -> usize {
    let needed = judged.as_ref().map_or(n, |result| result.length() as usize);
    let length = match random.below(8) {
        0..=2 => needed,
        3 => needed.saturating_sub(1),
        4 => random.below(needed + 1),
        5 | 6 => needed + random.between(1, 70),
        _ => now,
    };
    length.max(n)
}

/// The call on a copy of the hall with changed bytes, or another n. Where it is a hall no more, the call is refused with the number of the first question that
/// is answered with no.
fn by_hand(random: &mut Random, hall: &Hall, call: &Call, tally: &mut Tally) -> Result<(), String> {
    let mut copy = hall.clone();
    if random.percent(30) {
        make_degenerate(random, &mut copy);
    }
    for _ in 0..random.pick(&[0, 1, 1, 1, 2, 3]) {
        if copy.n > 0 {
            let at = random.below(copy.n);
            let old = copy.buffer[at];
            copy.buffer[at] = random.pick(&[old ^ 1, old.wrapping_add(1), old.wrapping_sub(1), 0, 0xFF, old ^ 0x80]);
        }
    }
    match random.below(6) {
        0 => copy.n = random.below(copy.n + 1),
        1 => copy.n = random.pick(&[copy.n + 1, copy.buffer.len() + 1, usize::MAX, copy.buffer.len()]),
        _ => {}
    }
    copy.expected = copy.buffer.clone();
    tally.changed += 1;
    let held = book::check(&copy.buffer, copy.n);
    let check = held.as_ref().map_or_else(|number| *number, |_| 0);
    if copy.n <= copy.buffer.len() && hall_check(&copy.buffer[..copy.n]) != check {
        return Err(format!("hall_check is not {check} of {:?}", &copy.buffer[..copy.n]));
    }
    let bytes = copy.buffer.clone();
    let room = image_room(random, held.as_ref().map_or(100, |book| book.image().len()));
    compare_save(&copy, &held, room, tally)?;
    let judged = match held {
        Ok(held) => {
            tally.still_sound += 1;
            copy.book = held;
            call.in_book(&copy.book)
        }
        Err(number) => Err(number),
    };
    copy.compare(call, judged, tally).map(|_| ()).map_err(|what| format!("{what}; n {} of {bytes:?}", copy.n))
}

/// Writes degenerate triangles into one or two geometries of a hall, and at times an index that names no vertex into another or the same.
fn make_degenerate(random: &mut Random, hall: &mut Hall) {
    let mut changed = hall.book.clone();
    let mut all: Vec<&mut book::Geometry> = changed.models.iter_mut().flat_map(|model| &mut model.geometries).collect();
    if all.is_empty() {
        return;
    }
    for _ in 0..random.pick(&[1, 1, 2]) {
        let place = random.below(all.len());
        sound::make_degenerate(random, &mut all[place].indices);
    }
    if random.percent(25) {
        let place = random.below(all.len());
        let vertices = all[place].count() as usize;
        sound::put_beyond(random, vertices, &mut all[place].indices);
    }
    hall.buffer[..hall.n].copy_from_slice(&changed.written());
}

fn any_call(random: &mut Random, book: &Book, images: &[Vec<u8>]) -> Call {
    let any = random.below(100);
    let chosen = if random.percent(15) {
        any
    } else if book.models.is_empty() {
        random.pick(&[0, 0, 99])
    } else if book.models.iter().all(|model| model.geometries.is_empty()) {
        random.pick(&[0, 20, 20, 20, 99])
    } else {
        any
    };
    match chosen {
        0..=13 => Call::AddModel { binding: random.next() as u32, mask: random.next() as u16 },
        14..=43 => {
            let mut given = sound::geometry(random);
            if random.percent(25) {
                sound::spoil(random, &mut given);
            }
            Call::AddGeometry(given)
        }
        44..=51 => {
            let (model, geometry) = geometry_place(random, book);
            Call::RemoveGeometry { model, geometry }
        }
        52..=56 => Call::RemoveModel { model: any_place(random, book.models.len()) },
        57..=78 => any_attribute(random, book),
        79..=91 => {
            let (model, geometry) = geometry_place(random, book);
            let vertices = book.geometry(model, geometry).map_or(3, |geometry| geometry.count() as usize);
            Call::ReplaceIndices { model, geometry, indices: sound::replacement(random, vertices) }
        }
        _ => Call::TakeIn(any_drawable(random, images)),
    }
}

/// Mostly a place that is there.
fn any_place(random: &mut Random, count: usize) -> u64 {
    if random.percent(88) {
        return random.below(count) as u64;
    }
    random.pick(&[count as u64, count as u64 + 1, u64::MAX, 1 << 32, 1 << 63, 0])
}

/// Mostly a geometry that is there.
fn geometry_place(random: &mut Random, book: &Book) -> (u64, u64) {
    let filled: Vec<usize> = (0..book.models.len()).filter(|model| !book.models[*model].geometries.is_empty()).collect();
    if filled.is_empty() || random.percent(10) {
        return (any_place(random, book.models.len()), any_place(random, 2));
    }
    let model = random.pick(&filled);
    (model as u64, any_place(random, book.models[model].geometries.len()))
}

fn any_attribute(random: &mut Random, book: &Book) -> Call {
    let (model, geometry) = geometry_place(random, book);
    let found = book.geometry(model, geometry);
    let vertex = any_place(random, found.map_or(1, |geometry| geometry.count() as usize));
    let declared: Vec<u64> =
        found.map_or(vec![0], |geometry| (0..16).filter(|place| geometry.declaration.flags >> place & 1 == 1).collect());
    let semantic = if random.percent(90) {
        random.pick(&declared)
    } else {
        random.pick(&[random.clone().below(16) as u64, 16, 31, 32, 63, 64, 1 << 32, u64::MAX])
    };
    let nibble = found.map_or(6, |geometry| geometry.declaration.nibble(semantic % 16));
    let right = [0, 2, 1, 4, 0, 2, 3, 4, 5, 5, 4, 0, 0, 0, 0, 0][nibble];
    let shape = if random.percent(90) { right } else { random.pick(&[0, 1, 2, 3, 4, 5, 6, 255]) };
    let mut value = [0; 4].map(|_: u32| random.float());
    if shape == 5 {
        value = value.map(|bits| bits & 255);
        if random.percent(8) {
            value[random.below(4)] = random.pick(&[256, 0x101, u32::MAX]);
        }
    }
    Call::SetAttribute { place: [model, geometry, vertex, semantic], shape, value }
}

fn any_drawable(random: &mut Random, images: &[Vec<u8>]) -> Drawable {
    let saved = |random: &mut Random| {
        let place = random.below(images.len());
        Drawable { system: images[place].clone(), graphics: Vec::new(), va: SYSTEM }
    };
    match random.below(10) {
        0 | 1 => drawable(random.next(), 0).1,
        2 | 3 if !images.is_empty() => saved(random),
        4 if !images.is_empty() => {
            let whole = saved(random);
            damaged(random, whole)
        }
        5 => {
            let whole = Maker::new(random).drawable();
            damaged(random, whole)
        }
        _ => Maker::new(random).drawable(),
    }
}

/// Question 19: a hall whose image has exactly the greatest length, taken in, and calls that would make it longer; 27 and 18 beside it.
pub fn limits(seed: u64) -> String {
    let random = &mut Random::new(seed ^ 0x4C49_4D49);
    let mut tally = Tally::default();
    let declaration = Declaration { flags: 1, stride: 16, unknown: 0, count: 1, types: 6 };
    let geometry = |random: &mut Random, vertices: usize, indices: usize| Given {
        shader: 5,
        declaration,
        stride: 16,
        count: vertices as u32,
        bytes: random.bytes(16 * vertices),
        indices: sound::indices(random, vertices, indices),
    };
    let large = geometry(random, 65_535, 3 * 40_000);
    let least = geometry(random, 3, 3);
    let length = |times: usize, last: &Given| {
        let add = |book: Book, given: &Given| book.add_geometry(given).unwrap();
        let one = add(Book::default().add_model(1, 2).unwrap(), &large).image().len() as u64;
        let two = add(add(Book::default().add_model(1, 2).unwrap(), &large), last).image().len() as u64;
        // pointers and mapping grow by 16 bytes for 2 and for 8 geometries
        let lists = |count: u64| (8 * count).div_ceil(16) * 16 + (2 * count).div_ceil(16) * 16;
        let each = one - 16 - 16 - 0x30 - lists(1);
        two + (times as u64 - 1) * each + lists(times as u64 + 1) - lists(2)
    };
    let times = (1..).take_while(|times| length(*times, &least) <= LIMIT).last().unwrap();
    let missing = LIMIT - length(times, &least);
    // eight indices are 16 bytes of an image
    let held = (3 + missing as usize / 2) / 3 * 3;
    let last = geometry(random, 3, held);
    let full = Maker::new(random).repeated(&large, times, &last);
    // the fewest indices more that make the image longer, by 16 bytes
    let more = [3, 6, 9].into_iter().find(|more| (2 * (held + more)).div_ceil(16) > (2 * held).div_ceil(16)).unwrap();
    let mut over = last.clone();
    over.indices.extend([0, 1, 2].iter().cycle().take(more));
    let longer = over.indices.clone();
    // the same with a degenerate triangle, and with an index that names no vertex behind it
    let mut degenerate = over.clone();
    degenerate.indices[2] = degenerate.indices[0];
    let mut beyond = degenerate.clone();
    *beyond.indices.last_mut().unwrap() = 3;
    let [over, with_degenerate, with_beyond] = [&over, &degenerate, &beyond].map(|last| Maker::new(random).repeated(&large, times, last));
    let mut large_degenerate = large.clone();
    large_degenerate.indices[1] = large_degenerate.indices[2];
    let mut hall = Hall::new(Vec::new());
    let (mut calls, mut saves) = (0, Tally::default());
    let mut make = |hall: &mut Hall, call: Call, wanted: u8| {
        let judged = call.in_book(&hall.book);
        let needed = judged.as_ref().map_or(hall.n, |result| result.length() as usize).max(hall.n);
        hall.lend(&mut Random::new(3), needed);
        let answer =
            hall.compare(&call, judged, &mut tally).unwrap_or_else(|what| panic!("at the greatest image, {}: {what}", NAMES[call.place()]));
        assert_eq!(answer.check, wanted, "at the greatest image, {}", NAMES[call.place()]);
        calls += 1;
    };
    let geometries = times as u64 + 1;
    make(&mut hall, Call::TakeIn(over), 19);
    make(&mut hall, Call::TakeIn(with_degenerate), 27);
    make(&mut hall, Call::TakeIn(with_beyond), 18);
    make(&mut hall, Call::TakeIn(full), 0);
    assert_eq!(hall.book.image().len() as u64, LIMIT);
    for room in [LIMIT as usize, LIMIT as usize - 1] {
        compare_save(&hall, &Ok(hall.book.clone()), room, &mut saves).unwrap_or_else(|what| panic!("at the greatest image: {what}"));
    }
    make(&mut hall, Call::AddModel { binding: 0, mask: 0 }, 19);
    make(&mut hall, Call::AddGeometry(least.clone()), 19);
    make(&mut hall, Call::ReplaceIndices { model: 0, geometry: times as u64, indices: longer }, 19);
    make(&mut hall, Call::ReplaceIndices { model: 0, geometry: times as u64, indices: degenerate.indices }, 27);
    make(&mut hall, Call::ReplaceIndices { model: 0, geometry: times as u64, indices: beyond.indices }, 18);
    make(&mut hall, Call::ReplaceIndices { model: 0, geometry: times as u64, indices: last.indices.clone() }, 0);
    make(&mut hall, Call::SetAttribute { place: [0, 0, 65_534, 0], shape: 3, value: [1, 2, 3, 0] }, 0);
    make(&mut hall, Call::RemoveGeometry { model: 0, geometry: geometries }, 21);
    make(&mut hall, Call::RemoveGeometry { model: 0, geometry: 0 }, 0);
    make(&mut hall, Call::AddModel { binding: 0, mask: 0 }, 0);
    make(&mut hall, Call::AddGeometry(large), 19);
    make(&mut hall, Call::AddGeometry(large_degenerate), 27);
    make(&mut hall, Call::AddGeometry(least), 0);
    make(&mut hall, Call::RemoveModel { model: 0 }, 0);
    tally.saved = saves.saved;
    tally.not_saved = saves.not_saved;
    tally.image_bytes = saves.image_bytes;
    tally.longest_image = saves.longest_image;
    format!("{calls} calls about an image of {LIMIT} bytes: {tally}")
}
