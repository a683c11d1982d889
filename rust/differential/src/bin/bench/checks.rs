//! The hall check beside two scans of the same index bytes: one that asks both questions about indices, and one that asks for their range alone.
use std::hint::black_box;
use std::ops::Range;

use library::hall_check;
use library::numbers::Random;

use crate::Bench;

/// The greatest ratio that is wanted of a large hall, to the scan that asks both questions.
const GOAL: f64 = 1.2;

pub fn bench_checks(bench: &Bench) {
    let head = [
        "work",
        "list bytes",
        "index bytes",
        "Rattle ms",
        "both questions ms",
        "range alone ms",
        "of both: least, median",
        "of the range: least, median",
        "ns a record",
    ];
    bench.report.borrow_mut().table(&head);
    for (name, models, geometries, vertices, triangles) in [
        ("hall check, 16 geometries of 983,040 indices", 4, 4, 60_000, 327_680),
        ("hall check, 4,096 geometries of 3,840 indices", 64, 64, 300, 1_280),
        ("hall check, 16 geometries of 3,840 indices", 4, 4, 300, 1_280),
        ("hall check, 16,384 geometries of 3 indices", 64, 256, 3, 1),
    ] {
        if !bench.leaves_out(name) {
            bench_check(bench, name, &hall(models, geometries, vertices, triangles), vertices as u32);
        }
    }
}

/// A sound hall, and where its indices stand.
pub struct Hall {
    pub list: Vec<u8>,
    indices: Vec<Range<usize>>,
    records: usize,
}

/// Models of as many geometries each, whose vertices are positions of three floats. Each triangle has three different ones.
pub fn hall(models: usize, geometries: usize, vertices: usize, triangles: usize) -> Hall {
    let random = &mut Random::new(13);
    let content = random.bytes(12 * vertices);
    let (mut list, mut indices) = (Vec::new(), Vec::new());
    for _ in 0..models {
        record(&mut list, 1, &[&[0; 6], &vec![0; 2 * geometries]]);
        for _ in 0..geometries {
            let (held, third) = ((3 * triangles as u32).to_le_bytes(), (triangles as u32).to_le_bytes());
            let (count, stride) = ((vertices as u32).to_le_bytes(), 12u16.to_le_bytes());
            let items: Vec<u8> = (0..triangles).flat_map(|_| random.triangle(vertices)).flat_map(u32::to_le_bytes).collect();
            record(&mut list, 2, &[&[0; 2], &held, &third, &count[..2], &stride]);
            record(&mut list, 3, &[&1u32.to_le_bytes(), &stride, &[0, 1], &6u64.to_le_bytes()]);
            record(&mut list, 4, &[&[0], &stride, &count, &content]);
            record(&mut list, 5, &[&held, &items]);
            indices.push(list.len() - items.len()..list.len());
        }
    }
    Hall { list, indices, records: models * (1 + 4 * geometries) }
}

fn record(list: &mut Vec<u8>, kind: u16, body: &[&[u8]]) {
    list.extend((body.iter().map(|part| part.len()).sum::<usize>() as u32).to_le_bytes());
    list.extend(kind.to_le_bytes());
    body.iter().for_each(|part| list.extend(*part));
}

fn numbers(bytes: &[u8]) -> impl Iterator<Item = u32> + '_ {
    bytes.chunks_exact(4).map(|number| u32::from_le_bytes([number[0], number[1], number[2], number[3]]))
}

/// Triangles that are looked at without a branch between them: their number is fixed, so that the compiler can use vector instructions.
const BLOCK: usize = 64;

/// What checks 18 and 27 ask of a geometry's indices: 18 where one is not below the limit, else 27 where a triangle has two that are equal, else 0.
/// Equal indices do not end the scan, for an index of a later block may not be below.
fn scan(bytes: &[u8], limit: u32) -> u8 {
    let triangles = bytes.as_chunks::<4>().0.as_chunks::<3>().0;
    let (blocks, rest) = triangles.as_chunks::<BLOCK>();
    let mut equal = 0;
    for block in blocks {
        let (below, pairs) = counts(block, limit);
        if below as usize != 3 * BLOCK {
            return 18;
        }
        equal |= pairs;
    }
    let (below, pairs) = counts(rest, limit);
    match (below as usize == 3 * rest.len(), equal | pairs) {
        (false, _) => 18,
        (true, 0) => 0,
        (true, _) => 27,
    }
}

/// How many indices of some triangles are below the limit, and how many pairs in one triangle are equal.
#[inline(always)]
fn counts(triangles: &[[[u8; 4]; 3]], limit: u32) -> (u32, u32) {
    let (mut below, mut pairs) = (0, 0);
    for corners in triangles {
        let [a, b, c] = corners.map(u32::from_le_bytes);
        below += u32::from(a < limit) + u32::from(b < limit) + u32::from(c < limit);
        pairs += u32::from(a == b) + u32::from(b == c) + u32::from(a == c);
    }
    (below, pairs)
}

/// The scan and the check give the same number: of the hall, of it with a degenerate triangle at its end, and with an index that is not below as well.
fn assert_alike(hall: &Hall, limit: u32) {
    let scanned = |list: &[u8]| {
        let found = hall.indices.iter().map(|range| scan(&list[range.clone()], limit));
        found.filter(|number| *number > 0).min().unwrap_or(0)
    };
    let mut list = hall.list.clone();
    assert_eq!((hall_check(&list), scanned(&list)), (0, 0));
    let last = list.len() - 4;
    list.copy_within(last - 8..last - 4, last);
    assert_eq!((hall_check(&list), scanned(&list)), (27, 27));
    let first = hall.indices[0].start;
    list[first..first + 4].copy_from_slice(&limit.to_le_bytes());
    assert_eq!((hall_check(&list), scanned(&list)), (18, 18));
}

fn bench_check(bench: &Bench, name: &str, hall: &Hall, limit: u32) {
    assert_alike(hall, limit);
    let Hall { list, indices, records } = hall;
    let mut check = || {
        black_box(hall_check(black_box(list)));
    };
    let mut both = || {
        let list = black_box(list);
        assert!(indices.iter().all(|range| scan(&list[range.clone()], limit) == 0));
    };
    let mut range = || {
        let list = black_box(list);
        assert!(indices.iter().all(|range| numbers(&list[range.clone()]).map(|index| u32::from(index >= limit)).sum::<u32>() == 0));
    };
    if bench.rounds == 0 {
        return check();
    }
    let bytes: usize = indices.iter().map(|range| range.len()).sum();
    let [here, both, range] = bench.times(&mut [&mut check, &mut both, &mut range]);
    let found = here.least / both.least;
    let goals: &[_] = if bytes > 1_000_000 { &[("both questions", found, GOAL)] } else { &[] };
    let cells = vec![
        name.to_owned(),
        list.len().to_string(),
        bytes.to_string(),
        here.said(),
        both.said(),
        range.said(),
        format!("{found:.2}, {:.2}", here.median / both.median),
        format!("{:.2}, {:.2}", here.least / range.least, here.median / range.median),
        format!("{:.1}", here.least * 1e6 / *records as f64),
    ];
    bench.report.borrow_mut().row(cells, goals);
}
