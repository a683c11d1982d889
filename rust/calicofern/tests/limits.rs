//! The limits of checks 13, 16, 18, 27 and 19, on lists that are longer than the rows of crates/halls_test, and calls on the hall with the most records.

use std::thread;

use calicofern::{hall_check, Hall, NewGeometry, Refusal, VertexAttributeValue, VertexDeclaration, VertexSemantic};

/// Document 01: the most bytes of an image.
const IMAGE_LIMIT: u64 = 67_108_864;

/// A geometry of zeros: a position of two halves in each vertex, and triangles that are all 0, 1, 2.
#[derive(Clone, Copy)]
struct Geometry {
    /// As the geometry's own record says.
    vertices: u16,
    layout: u8,
    stride: u16,
    count: u32,
    indices: u32,
}

/// The indices 0, 1, 2.
const TRIANGLE: [u8; 12] = [0, 0, 0, 0, 1, 0, 0, 0, 2, 0, 0, 0];

/// A list that is written from its first byte on, over zeros.
struct Writer {
    list: Vec<u8>,
    at: usize,
}

impl Writer {
    fn put(&mut self, bytes: &[u8]) {
        self.list[self.at..self.at + bytes.len()].copy_from_slice(bytes);
        self.at += bytes.len();
    }

    /// How a record begins: its body's length and its kind.
    fn record(&mut self, length: usize, kind: u16) {
        self.put(&(length as u32).to_le_bytes());
        self.put(&kind.to_le_bytes());
    }
}

impl Geometry {
    /// The smallest sound one: three vertices and a triangle.
    const SMALL: Geometry = Geometry::new(3, 4, 3);

    const fn new(count: u32, stride: u16, indices: u32) -> Geometry {
        Geometry { vertices: count as u16, layout: 0, stride, count, indices }
    }

    fn vertex_bytes(&self) -> usize {
        self.count as usize * usize::from(self.stride)
    }

    /// Its length in a list.
    fn length(&self) -> usize {
        65 + self.vertex_bytes() + 4 * self.indices as usize
    }

    fn write(&self, out: &mut Writer) {
        out.record(14, 2);
        out.put(&0u16.to_le_bytes());
        out.put(&self.indices.to_le_bytes());
        out.put(&(self.indices / 3).to_le_bytes());
        out.put(&self.vertices.to_le_bytes());
        out.put(&self.stride.to_le_bytes());
        out.record(16, 3);
        out.put(&1u32.to_le_bytes());
        out.put(&self.stride.to_le_bytes());
        out.put(&[0, 1]);
        out.put(&1u64.to_le_bytes());
        out.record(7 + self.vertex_bytes(), 4);
        out.put(&[self.layout]);
        out.put(&self.stride.to_le_bytes());
        out.put(&self.count.to_le_bytes());
        out.at += self.vertex_bytes();
        out.record(4 + 4 * self.indices as usize, 5);
        out.put(&self.indices.to_le_bytes());
        out.put(&TRIANGLE.repeat(self.indices as usize / 3));
    }
}

/// The list of models, each given by its geometries. All shader ids are 0, and so are the mappings' entries.
fn list_of(models: &[Vec<Geometry>]) -> Vec<u8> {
    let lengths = models.iter().map(|model| 12 + 2 * model.len() + model.iter().map(Geometry::length).sum::<usize>());
    let mut out = Writer { list: vec![0; lengths.sum()], at: 0 };
    for model in models {
        out.record(6 + 2 * model.len(), 1);
        out.at += 6 + 2 * model.len();
        for geometry in model {
            geometry.write(&mut out);
        }
    }
    assert_eq!(out.at, out.list.len());
    out.list
}

/// The length of the image: each of its pieces starts at a multiple of 16, and so does its end.
fn image_size(models: &[Vec<Geometry>]) -> u64 {
    let padded = |length: usize| (length as u64).div_ceil(16) * 16;
    let mut size = padded(16) + padded(8 * models.len());
    for model in models {
        size += padded(0x30) + padded(8 * model.len()) + padded(2 * model.len());
        for geometry in model {
            size += padded(0x98) + padded(0x80) + padded(16) + padded(geometry.vertex_bytes());
            size += padded(0x60) + padded(2 * geometry.indices as usize);
        }
    }
    size
}

/// The number of the check that refused, or 0.
fn number(answer: Result<(), Refusal>) -> u8 {
    answer.map_or_else(|refusal| refusal.number(), |()| 0)
}

fn failed(list: &[u8]) -> u8 {
    number(hall_check(list))
}

fn check(models: &[Vec<Geometry>]) -> u8 {
    failed(&list_of(models))
}

/// Gives the last geometry as many indices as make the image so long.
fn grow(models: &mut [Vec<Geometry>], size: u64) {
    let rest = size - image_size(models);
    let last = models.last_mut().and_then(|model| model.last_mut()).unwrap();
    let padded = u64::from(last.indices).div_ceil(8) * 16 + rest;
    last.indices = (padded / 2 / 3 * 3) as u32;
    assert_eq!(image_size(models), size);
}

#[test]
fn lengths_of_small_halls() {
    let models = [vec![Geometry::new(3, 12, 3)]];
    assert_eq!((list_of(&models).len(), image_size(&models), check(&models)), (127, 576, 0));
    assert_eq!((image_size(&[]), check(&[])), (16, 0));
}

#[test]
fn models_up_to_256() {
    for (count, expected) in [(256, 0), (257, 13), (65_536, 13), (65_537, 13)] {
        assert_eq!(check(&vec![Vec::new(); count]), expected, "{count}");
        assert_eq!(check(&vec![vec![Geometry::SMALL]; count]), expected, "{count}");
    }
}

#[test]
fn geometries_up_to_16384() {
    for (count, expected) in [(16_383, 0), (16_384, 0), (16_385, 13), (65_536, 13), (65_537, 13)] {
        assert_eq!(check(&[vec![Geometry::SMALL; count]]), expected, "{count}");
        // over many models, of which the first and the last have none
        let mut models = vec![Vec::new()];
        models.extend(vec![Geometry::SMALL; count].chunks(300).map(|part| part.to_vec()));
        models.push(Vec::new());
        assert_eq!(check(&models), expected, "{count} in {} models", models.len());
    }
}

#[test]
fn a_lower_check_comes_before_the_number_of_geometries() {
    let mut list = list_of(&[vec![Geometry::SMALL; 16_385]]);
    // an entry of the mapping
    list[12 + 2 * 16_384] = 1;
    assert_eq!(failed(&list), 12);
    list.push(0);
    assert_eq!(failed(&list), 11);
    // a higher one does not, at the first place or at the last
    for place in [0, 16_384] {
        let mut model = vec![Geometry::SMALL; 16_385];
        model[place].layout = 1;
        assert_eq!(check(&[model]), 13);
        let mut model = vec![Geometry::SMALL; 16_384];
        model[place.min(16_383)].layout = 1;
        assert_eq!(check(&[model]), 14);
    }
}

#[test]
fn vertices_up_to_65535() {
    for stride in [4, 12, 1000] {
        assert_eq!(check(&[vec![Geometry::new(65_535, stride, 3)]]), 0);
        for vertices in [0, 1, 65_535] {
            for count in [65_536, 65_537] {
                assert_eq!(check(&[vec![Geometry { vertices, ..Geometry::new(count, stride, 3) }]]), 16, "{vertices} {count}");
            }
        }
    }
}

#[test]
fn indices_below_65535() {
    let models = [vec![Geometry::SMALL], vec![Geometry::new(65_535, 4, 3_000)]];
    for back in [1, 2, 1_500, 2_900, 3_000] {
        for (index, expected) in [(65_534u32, 0), (65_535, 18), (65_536, 18), (u32::MAX, 18)] {
            let mut list = list_of(&models);
            let at = list.len() - 4 * back;
            list[at..at + 4].copy_from_slice(&index.to_le_bytes());
            assert_eq!(failed(&list), expected, "{index} at {back} from the end");
        }
    }
}

/// One vertex and two pass check 16, and make no triangle.
#[test]
fn one_vertex_and_two() {
    for (vertices, indices, expected) in [
        (1, [0, 0, 0], 27),
        (1, [0, 1, 0], 18),
        (1, [0, 1, 2], 18),
        (2, [0, 0, 0], 27),
        (2, [0, 1, 0], 27),
        (2, [1, 1, 0], 27),
        (2, [0, 1, 1], 27),
        (2, [0, 1, 2], 18),
        (2, [2, 2, 2], 18),
        (3, [0, 1, 2], 0),
        (3, [2, 0, 1], 0),
    ] {
        for more in [0, 1] {
            let mut models = [vec![Geometry::new(vertices, 4, 3)], vec![Geometry::SMALL; more]].concat();
            models.rotate_left(more);
            let mut list = list_of(&[models]);
            let at = list.len() - 12;
            list[at..].copy_from_slice(&indices.map(u32::to_le_bytes).concat());
            assert_eq!(failed(&list), expected, "{vertices} {indices:?}");
        }
    }
}

/// Degenerate triangles at places about blocks of 64, in each pair, and beside an index that names no vertex.
#[test]
fn degenerate_triangles_up_to_1000() {
    let models = [vec![Geometry::new(3, 4, 3_000)], vec![Geometry::new(65_535, 4, 3_000), Geometry::SMALL]];
    let whole = list_of(&models);
    assert_eq!(failed(&whole), 0);
    // where the indices of each geometry end
    let first = 14 + Geometry::new(3, 4, 3_000).length();
    let second = first + 16 + Geometry::new(65_535, 4, 3_000).length();
    assert_eq!(second + Geometry::SMALL.length(), whole.len());
    for end in [first, second] {
        for triangle in [0, 1, 62, 63, 64, 65, 127, 500, 958, 959, 960, 998, 999] {
            let at = end - 12_000 + 12 * triangle;
            for (place, index) in [(0, 1), (0, 2), (1, 0), (1, 2), (2, 0), (2, 1)] {
                let mut list = whole.clone();
                list[at + 4 * place] = index;
                assert_eq!(failed(&list), 27, "triangle {triangle}: index {place} is {index}");
                // the first index of all, and the last
                for other in [14 + models[0][0].length() - 12_000, whole.len() - 4] {
                    let mut beyond = list.clone();
                    beyond[other + 3] = 1;
                    assert_eq!(failed(&beyond), 18, "triangle {triangle}: index {place} is {index}");
                }
            }
        }
    }
    // equal indices beside each other, of two triangles
    let mut list = whole;
    list[first - 12_000..first - 11_976].copy_from_slice(&[0u32, 1, 2, 2, 1, 0].map(u32::to_le_bytes).concat());
    assert_eq!(failed(&list), 0);
}

/// At the limit, and one piece of 16 bytes beyond it.
fn check_at_the_limit(mut models: Vec<Vec<Geometry>>) {
    grow(&mut models, IMAGE_LIMIT);
    let mut list = list_of(&models);
    assert_eq!(failed(&list), 0);
    let last = list.len() - 1;
    list[last - 3] = 0;
    assert_eq!(failed(&list), 27);
    grow(&mut models, IMAGE_LIMIT + 16);
    let mut list = list_of(&models);
    assert_eq!(failed(&list), 19);
    // the last triangle is judged before the image: 0, 1, 0
    let last = list.len() - 1;
    list[last - 3] = 0;
    assert_eq!(failed(&list), 27);
    // and its last index before that
    list[last] = 0x80;
    assert_eq!(failed(&list), 18);
    // in another triangle, too
    list[last] = 0;
    list[last - 12] = 0x80;
    assert_eq!(failed(&list), 18);
}

#[test]
fn an_image_of_vertices() {
    check_at_the_limit(vec![vec![Geometry::new(65_535, 1_023, 3)]]);
}

#[test]
fn an_image_of_indices() {
    check_at_the_limit(vec![vec![Geometry::SMALL]]);
}

#[test]
fn an_image_of_many_pieces() {
    // an odd number of models, of geometries, and of bytes in each
    let model = vec![Geometry::new(41, 99, 33); 57];
    check_at_the_limit([vec![Vec::new(); 2], vec![model; 253]].concat());
}

#[test]
fn an_image_of_twice_the_limit() {
    let large = Geometry::new(65_535, 1_024, 3);
    assert_eq!(check(&[vec![large]]), 0);
    assert_eq!(check(&[vec![large, large]]), 19);
    assert_eq!(check(&[vec![large], vec![large]]), 19);
}

/// Sets, replaces and removes at the first and the last place of a hall of 256 models of 64 geometries, adds at its end, and looks for what is behind.
fn find_in(mut hall: Hall) {
    let value = VertexAttributeValue::Half2([1.0, 2.0]);
    for (model, geometry, expected) in [(0, 0, 0), (0, 63, 0), (0, 64, 21), (255, 0, 0), (255, 63, 0), (255, 64, 21), (256, 0, 21)] {
        assert_eq!(number(hall.set_attribute(model, geometry, 0, VertexSemantic::Position, value)), expected, "{model} {geometry}");
        assert_eq!(number(hall.replace_indices(model, geometry, &[0, 1, 2])), expected, "{model} {geometry}");
    }
    assert_eq!(number(hall.remove_geometry(255, 64)), 21);
    assert_eq!(number(hall.remove_geometry(0, 0)), 0);
    assert_eq!(number(hall.remove_geometry(255, 63)), 0);
    let declaration = VertexDeclaration { flags: 1, stride: 4, unknown_6h: 0, count: 1, types: 1 };
    let added = NewGeometry { shader_id: 0, declaration, vertex_stride: 4, vertex_count: 3, vertices: &[0; 12], indices: &[0, 1, 2] };
    assert_eq!(number(hall.add_geometry(added)), 0);
    assert!(hall.list().ends_with(&list_of(&[vec![Geometry::SMALL]])[14..]));
    assert_eq!(number(hall.remove_model(256)), 21);
    assert_eq!(number(hall.remove_model(255)), 0);
    assert_eq!(number(hall.remove_model(0)), 0);
    assert!(hall.list() == list_of(&vec![vec![Geometry::SMALL; 64]; 254]));
}

/// The last model's record has 65,535 others before it: what a call needs of the stack must not grow with them.
#[test]
fn the_fullest_hall_on_a_small_stack() {
    let hall = Hall::from_list(list_of(&vec![vec![Geometry::SMALL; 64]; 256])).unwrap();
    let small = thread::Builder::new().stack_size(64 * 1024);
    small.spawn(move || find_in(hall)).unwrap().join().unwrap();
}
