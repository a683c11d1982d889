//! The calls that edit a hall, beside the hall check and the plain moving of the bytes that move; save, beside the check and a copy of the image.
use std::hint::black_box;
use std::ops::Range;

use library::drawables::Drawable;
use library::{
    add_geometry, add_model, hall_check, remove_geometry, remove_model, replace_indices, save, set_attribute, take_in, Given, Told,
};

use crate::checks::hall;
use crate::{drawable, now, Bench, Times};

/// An edit is to cost its check and the moving of bytes; a tenth more counts as the same.
const GOAL: f64 = 1.1;

pub fn bench_edits(bench: &Bench) {
    let head =
        ["work", "hall bytes", "bytes moved and written", "Rattle ms", "check ms", "memmove ms", "of check and memmove: least, median"];
    bench.report.borrow_mut().table(&head);
    for (size, models, geometries, vertices, triangles) in SIZES {
        if NAMES.iter().all(|name| bench.leaves_out(&format!("{name}, {size}"))) {
            continue;
        }
        let list = hall(models, geometries, vertices, triangles).list;
        let one_model = hall(1, models * geometries, vertices, triangles).list;
        bench_hall(bench, size, &list, &one_model);
    }
    for (size, vertices) in [("small", 4_000), ("large", 480_000)] {
        bench_take_in(bench, &format!("take in, {size}"), &drawable(vertices, 2));
    }
}

/// Models, geometries of each, vertices and triangles of each geometry.
const SIZES: [(&str, usize, usize, usize, usize); 3] =
    [("small", 4, 4, 300, 1_280), ("large", 4, 4, 60_000, 327_680), ("crowded", 64, 255, 3, 1)];

const NAMES: [&str; 11] = [
    "add model",
    "add geometry, to one model of all",
    "add geometry, to an empty model",
    "remove geometry, first",
    "remove geometry, last",
    "remove model, first",
    "remove model, last",
    "set attribute, first",
    "set attribute, last",
    "replace indices, first",
    "replace indices, last",
];

pub fn bench_saves(bench: &Bench) {
    let head = [
        "work",
        "hall bytes",
        "image bytes",
        "Rattle ms",
        "check ms",
        "memcpy ms",
        "indices halved ms",
        "without the check, of memcpy: least, median",
    ];
    bench.report.borrow_mut().table(&head);
    for (size, models, geometries, vertices, triangles) in SIZES {
        let name = format!("save, {size}");
        if !bench.leaves_out(&name) {
            bench_save(bench, &name, &hall(models, geometries, vertices, triangles).list);
        }
    }
    for (size, vertices) in [("small", 4_000), ("large", 480_000)] {
        let name = format!("save, {size}, vertices of 52 bytes");
        if !bench.leaves_out(&name) {
            let Drawable { system, graphics, va } = drawable(vertices, 2);
            let size = take_in(&mut [], 0, &system, &graphics, va).size;
            let mut list = vec![0; size as usize];
            assert_eq!(take_in(&mut list, 0, &system, &graphics, va), Told { check: 0, size });
            bench_save(bench, &name, &list);
        }
    }
}

/// The greatest ratio to `memcpy` that is wanted of save without its check: narrowing takes plain x86-64 longer than copying, which shows where indices are
/// most of an image that the processor's caches hold.
fn save_goal(image: usize, indices: usize) -> f64 {
    if image < 1_000_000 && image < 2 * indices {
        1.8
    } else {
        1.3
    }
}

fn bench_save(bench: &Bench, name: &str, list: &[u8]) {
    let n = list.len();
    let size = save(list, n, &mut []).size as usize;
    let (mut image, mut copy) = (vec![1; size], vec![1; size]);
    assert_eq!(save(list, n, &mut image), Told { check: 0, size: size as u64 });
    if bench.rounds == 0 {
        return;
    }
    let expected = image.clone();
    let mut call = || {
        black_box(save(black_box(list), n, &mut image));
    };
    let mut check = || {
        black_box(hall_check(black_box(list)));
    };
    let mut memcpy = || black_box(&mut copy).copy_from_slice(black_box(&expected));
    // a plain loop over the indices, four bytes read and two written for each: that much of save is no copy
    let geometries: Vec<Range<usize>> = Parts::of(list).models.into_iter().flat_map(|model| model.geometries).collect();
    let indices: Vec<Range<usize>> = geometries.iter().map(|range| range.end - 4 * word(list, range.start + 8)..range.end).collect();
    let mut short = vec![1; indices.iter().map(|range| range.len() / 2).max().unwrap_or(0)];
    let mut halve = || {
        for range in &indices {
            let from = black_box(&list[range.clone()]).chunks_exact(4);
            short.chunks_exact_mut(2).zip(from).for_each(|(to, index)| to.copy_from_slice(&index[..2]));
            black_box(&mut short);
        }
    };
    let [here, check, memcpy] = bench.times(&mut [&mut call, &mut check, &mut memcpy]);
    let [halved, _, _] = bench.times(&mut [&mut halve, &mut || {}, &mut || {}]);
    let found = (here.least - check.least) / memcpy.least;
    let most = save_goal(size, indices.iter().map(|range| range.len() / 2).sum());
    let cells = vec![
        name.to_owned(),
        n.to_string(),
        size.to_string(),
        here.said(),
        check.said(),
        memcpy.said(),
        halved.said(),
        format!("{found:.2}, {:.2}", (here.median - check.median) / memcpy.median),
    ];
    bench.report.borrow_mut().row(cells, &[("memcpy", found, most)]);
}

/// Where a list's parts stand.
struct Parts {
    models: Vec<Model>,
}

struct Model {
    at: usize,
    end: usize,
    geometries: Vec<Range<usize>>,
}

impl Parts {
    fn of(list: &[u8]) -> Self {
        let mut models: Vec<Model> = Vec::new();
        let mut at = 0;
        while at < list.len() {
            let end = at + 6 + word(list, at);
            match list[at + 4] {
                1 => models.push(Model { at, end: 0, geometries: Vec::new() }),
                2 => models.last_mut().unwrap().geometries.push(at..0),
                _ => {}
            }
            let model = models.last_mut().unwrap();
            model.end = end;
            if let Some(geometry) = model.geometries.last_mut() {
                geometry.end = end;
            }
            at = end;
        }
        Self { models }
    }
}

fn word(bytes: &[u8], at: usize) -> usize {
    u32::from_le_bytes([bytes[at], bytes[at + 1], bytes[at + 2], bytes[at + 3]]) as usize
}

/// What an edit comes to: bytes that move, bytes that are written, and the new n; from there to a longer old n bytes become zero.
struct Plan {
    moves: Vec<(Range<usize>, usize)>,
    puts: Vec<(usize, Vec<u8>)>,
    n: usize,
}

impl Plan {
    fn run(&self, buffer: &mut [u8], old: usize) {
        for (from, to) in &self.moves {
            buffer.copy_within(from.clone(), *to);
        }
        for (at, bytes) in &self.puts {
            buffer[*at..at + bytes.len()].copy_from_slice(bytes);
        }
        if self.n < old {
            buffer[self.n..old].fill(0);
        }
    }

    fn bytes(&self, old: usize) -> usize {
        let moved: usize = self.moves.iter().map(|(from, _)| from.len()).sum();
        moved + self.puts.iter().map(|(_, bytes)| bytes.len()).sum::<usize>() + old.saturating_sub(self.n)
    }
}

struct Edit<'a> {
    name: &'a str,
    list: &'a [u8],
    plan: Plan,
    /// A list whose one geometry is what the call is given, and is checked beside the hall.
    piece: &'a [u8],
    call: &'a dyn Fn(&mut [u8], usize) -> Told,
}

fn bench_hall(bench: &Bench, size: &str, list: &[u8], one_model: &[u8]) {
    let parts = Parts::of(list);
    let n = list.len();
    let (first, last) = (&parts.models[0], parts.models.last().unwrap());
    let model = parts.models.len() as u64 - 1;
    let geometry = last.geometries.len() as u64 - 1;
    // the geometry that is added is the hall's last
    let records = list[last.geometries.last().unwrap().clone()].to_vec();
    let content_end = records.len() - 10 - 4 * word(&records, 8);
    let content = &records[55..content_end];
    let indices: Vec<u32> = records[content_end + 10..].chunks_exact(4).map(|index| word(index, 0) as u32).collect();
    let mut piece = record_of_one_model();
    piece.extend(&records);
    assert_eq!(hall_check(&piece), 0);
    let given = Given {
        shader: 0,
        flags: 1,
        declared_stride: 12,
        unknown_6h: 0,
        declared_count: 1,
        types: 6,
        stride: 12,
        count: content.len() as u32 / 12,
        content,
        indices: &indices,
    };
    let run = |edit: Edit| bench_edit(bench, size, edit);

    let empty = vec![6, 0, 0, 0, 1, 0, 0, 0, 0, 0, 0, 0];
    let plan = Plan { moves: vec![], puts: vec![(n, empty.clone())], n: n + 12 };
    run(Edit { name: NAMES[0], list, plan, piece: &[], call: &|hall, n| add_model(hall, n, 0, 0) });

    let add = |hall: &mut [u8], n: usize| add_geometry(hall, n, given);
    let whole = &Parts::of(one_model).models[0];
    let mapping = 12 + 2 * whole.geometries.len();
    let long = one_model.len();
    let length = (word(one_model, 0) as u32 + 2).to_le_bytes().to_vec();
    let plan = Plan {
        moves: vec![(mapping..long, mapping + 2)],
        puts: vec![(0, length), (mapping, vec![0; 2]), (long + 2, records.clone())],
        n: long + 2 + records.len(),
    };
    run(Edit { name: NAMES[1], list: one_model, plan, piece: &piece, call: &add });

    let mut with_empty = list.to_vec();
    with_empty.extend(&empty);
    let plan = Plan { moves: vec![], puts: vec![(n, vec![8]), (n + 12, vec![0; 2]), (n + 14, records.clone())], n: n + 14 + records.len() };
    run(Edit { name: NAMES[2], list: &with_empty, plan, piece: &piece, call: &add });

    let removal = |model: &Model, place: usize| {
        let range = &model.geometries[place];
        let entry = model.at + 12 + 2 * place;
        Plan {
            moves: vec![(entry + 2..range.start, entry), (range.end..n, range.start - 2)],
            puts: vec![(model.at, (word(list, model.at) as u32 - 2).to_le_bytes().to_vec())],
            n: n - 2 - range.len(),
        }
    };
    let plan = removal(first, 0);
    run(Edit { name: NAMES[3], list, plan, piece: &[], call: &|hall, n| remove_geometry(hall, n, 0, 0) });
    let plan = removal(last, geometry as usize);
    run(Edit { name: NAMES[4], list, plan, piece: &[], call: &|hall, n| remove_geometry(hall, n, model, geometry) });

    let plan = Plan { moves: vec![(first.end..n, 0)], puts: vec![], n: n - first.end };
    run(Edit { name: NAMES[5], list, plan, piece: &[], call: &|hall, n| remove_model(hall, n, 0) });
    let plan = Plan { moves: vec![], puts: vec![], n: last.at };
    run(Edit { name: NAMES[6], list, plan, piece: &[], call: &|hall, n| remove_model(hall, n, model) });

    let value = [1, 2, 3, 0];
    let bytes: Vec<u8> = [1u32, 2, 3].iter().flat_map(|bits| bits.to_le_bytes()).collect();
    let vertex = given.count as usize - 1;
    let plan = Plan { moves: vec![], puts: vec![(first.geometries[0].start + 55, bytes.clone())], n };
    run(Edit { name: NAMES[7], list, plan, piece: &[], call: &|hall, n| set_attribute(hall, n, [0; 4], 3, value) });
    let at = last.geometries.last().unwrap().start + 55 + 12 * vertex;
    let plan = Plan { moves: vec![], puts: vec![(at, bytes)], n };
    let place = [model, geometry, vertex as u64, 0];
    run(Edit { name: NAMES[8], list, plan, piece: &[], call: &|hall, n| set_attribute(hall, n, place, 3, value) });

    // one triangle more
    let longer: Vec<u32> = indices.iter().chain(&[0, 1, 2]).copied().collect();
    let replacement = |range: &Range<usize>| {
        let held = (longer.len() as u32).to_le_bytes();
        let body = (longer.len() as u32 * 4 + 4).to_le_bytes();
        let items: Vec<u8> = longer.iter().flat_map(|index| index.to_le_bytes()).collect();
        let five = [&body[..], &[5, 0], &held, &items].concat();
        let counts = [held, (longer.len() as u32 / 3).to_le_bytes()].concat();
        Plan {
            moves: vec![(range.end..n, range.end + 12)],
            puts: vec![(range.start + 8, counts), (range.start + 55 + content.len(), five)],
            n: n + 12,
        }
    };
    let plan = replacement(&first.geometries[0]);
    run(Edit { name: NAMES[9], list, plan, piece: &piece, call: &|hall, n| replace_indices(hall, n, 0, 0, &longer) });
    let plan = replacement(last.geometries.last().unwrap());
    run(Edit { name: NAMES[10], list, plan, piece: &piece, call: &|hall, n| replace_indices(hall, n, model, geometry, &longer) });
}

/// A model of one geometry.
fn record_of_one_model() -> Vec<u8> {
    vec![8, 0, 0, 0, 1, 0, 0, 0, 0, 0, 0, 0, 0, 0]
}

/// Prints a row: the call on a hall that is put back before each round, the check alone, and the plan alone.
fn bench_edit(bench: &Bench, size: &str, edit: Edit) {
    let name = format!("{}, {size}", edit.name);
    if bench.leaves_out(&name) {
        return;
    }
    let n = edit.list.len();
    let mut first = edit.list.to_vec();
    first.resize(n.max(edit.plan.n), 0xA5);
    let (mut here, mut there) = (first.clone(), first.clone());
    assert_eq!((edit.call)(&mut here, n), Told { check: 0, size: edit.plan.n as u64 }, "{name}");
    edit.plan.run(&mut there, n);
    assert!(here == there, "{name}: the plan");
    if bench.rounds == 0 {
        return;
    }
    drop((here, there));
    let mut call = |buffer: &mut [u8]| {
        black_box((edit.call)(black_box(buffer), n));
    };
    let mut check = |buffer: &mut [u8]| {
        black_box(hall_check(black_box(&buffer[..n])));
        if !edit.piece.is_empty() {
            black_box(hall_check(black_box(edit.piece)));
        }
    };
    let mut plan = |buffer: &mut [u8]| edit.plan.run(black_box(buffer), n);
    let found = bench.times_restored(&first, &mut [&mut call, &mut check, &mut plan]);
    bench.edit_row(&name, n, edit.plan.bytes(n), found);
}

/// Taken in over the hall without models; the check is that of the result.
fn bench_take_in(bench: &Bench, name: &str, drawable: &Drawable) {
    if bench.leaves_out(name) {
        return;
    }
    let Drawable { system, graphics, va } = drawable;
    let size = take_in(&mut [], 0, system, graphics, *va);
    assert_eq!(size.check, 24);
    let mut list = vec![0; size.size as usize];
    assert_eq!(take_in(&mut list, 0, system, graphics, *va), Told { check: 0, size: size.size });
    if bench.rounds == 0 {
        return;
    }
    let first = vec![1; list.len()];
    let mut call = |buffer: &mut [u8]| {
        black_box(take_in(black_box(buffer), 0, system, graphics, *va));
    };
    let mut check = |_: &mut [u8]| {
        black_box(hall_check(black_box(&list)));
    };
    let mut plain = |buffer: &mut [u8]| black_box(buffer).copy_from_slice(black_box(&list));
    let found = bench.times_restored(&first, &mut [&mut call, &mut check, &mut plain]);
    bench.edit_row(name, list.len(), list.len(), found);
}

impl Bench {
    /// The times of three works, each on buffers that are put back before it.
    fn times_restored(&self, first: &[u8], works: &mut [&mut dyn FnMut(&mut [u8]); 3]) -> [Times; 3] {
        let copies = (2_000_000 / first.len().max(1)).clamp(1, 64);
        let mut buffers = vec![first.to_vec(); copies];
        let mut found = [const { Vec::new() }; 3];
        for round in 0..=self.rounds {
            for (place, work) in works.iter_mut().enumerate() {
                buffers.iter_mut().for_each(|buffer| buffer.copy_from_slice(first));
                let start = now();
                buffers.iter_mut().for_each(|buffer| work(buffer));
                let time = (now() - start) / copies as f64;
                // the first round warms up
                if round > 0 {
                    found[place].push(time);
                }
            }
        }
        found.map(Times::of)
    }

    fn edit_row(&self, name: &str, n: usize, bytes: usize, [here, check, plain]: [Times; 3]) {
        let found = here.least / (check.least + plain.least);
        let cells = vec![
            name.to_owned(),
            n.to_string(),
            bytes.to_string(),
            here.said(),
            check.said(),
            plain.said(),
            format!("{found:.2}, {:.2}", here.median / (check.median + plain.median)),
        ];
        self.report.borrow_mut().row(cells, &[("check and memmove", found, GOAL)]);
    }
}
