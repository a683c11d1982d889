//! Whatever the bytes are, every function of the crate returns.

use calicofern::{hall_check, Hall, HallList, Models, Sections};

/// A sequence of numbers that is the same in each run.
struct Numbers(u64);

impl Numbers {
    fn next(&mut self) -> u64 {
        self.0 = self.0.wrapping_mul(6364136223846793005).wrapping_add(1442695040888963407);
        self.0 >> 33
    }

    fn below(&mut self, limit: usize) -> usize {
        (self.next() % limit as u64) as usize
    }
}

/// Reads all that a list has.
fn read_all(list: &[u8]) -> u64 {
    let mut read = hall_check(list).map_or_else(|refusal| refusal.to_string().len() as u64, |()| 0);
    for model in Models::of(list) {
        read += u64::from(model.bone_index()) + model.shader_mapping().map(u64::from).sum::<u64>();
        read += model.disagreements().len() as u64;
        for geometry in model.geometries() {
            read += geometry.disagreements().len() as u64 + geometry.triangles().count() as u64;
            read += geometry.declaration.map_or(0, |declaration| declaration.to_string().len() as u64 + declaration.declaration_id());
            let Some(vertices) = geometry.vertex_buffer else { continue };
            for index in [0, 1, u64::from(vertices.vertex_count).wrapping_sub(1), u64::MAX] {
                read += vertices.read_vertex_attributes(index).map_or(0, |attributes| attributes.len() as u64);
            }
            // into a short output: the vertices of a wrong count may be billions
            let mut out = [0; 840];
            read += vertices.unify_into(&mut out).map_or(0, |length| length as u64);
            if vertices.vertex_count < 100_000 {
                read += vertices.positions().map_or(0, |positions| positions.len() as u64);
            }
        }
    }
    read
}

#[test]
fn lists_of_any_bytes() {
    let mut numbers = Numbers(1);
    for _ in 0..2000 {
        let length = numbers.below(400);
        // small numbers, so that lengths and kinds often make sense
        let list: Vec<u8> = (0..length).map(|_| if numbers.below(3) == 0 { numbers.below(20) as u8 } else { 0 }).collect();
        read_all(&list);
        HallList::from_bytes(list).triangle_count();
    }
}

#[test]
fn lists_with_changed_bytes_and_cut_lists() {
    let system = std::fs::read(concat!(env!("CARGO_MANIFEST_DIR"), "/samples/layouts.system")).unwrap();
    let graphics = std::fs::read(concat!(env!("CARGO_MANIFEST_DIR"), "/samples/layouts.graphics")).unwrap();
    let list = Sections::new(&system, &graphics).hall_list(Sections::SYSTEM).unwrap().into_bytes();
    let mut numbers = Numbers(2);
    for _ in 0..500 {
        let mut changed = list[..numbers.below(list.len() + 1)].to_vec();
        for _ in 0..numbers.below(5).min(changed.len()) {
            let at = numbers.below(changed.len());
            changed[at] = numbers.next() as u8;
        }
        read_all(&changed);
    }
}

#[test]
fn drawables_with_changed_bytes() {
    let whole = std::fs::read(concat!(env!("CARGO_MANIFEST_DIR"), "/samples/layouts.system")).unwrap();
    let graphics = std::fs::read(concat!(env!("CARGO_MANIFEST_DIR"), "/samples/layouts.graphics")).unwrap();
    let mut numbers = Numbers(3);
    let mut refused = [0; 11];
    for _ in 0..3000 {
        let mut system = whole.clone();
        for _ in 0..1 + numbers.below(3) {
            let at = if numbers.below(2) == 0 { numbers.below(system.len()) } else { system.len() - 1 - numbers.below(1200) };
            system[at] = numbers.next() as u8;
        }
        let taken_in = Hall::from_sections_within(&Sections::new(&system, &graphics), Sections::SYSTEM, 1 << 22);
        assert!(taken_in.map_or_else(|refusal| refusal.to_string(), |hall| format!("{hall:?}")).len() > 10);
        match Sections::new(&system, &graphics).hall_list_within(Sections::SYSTEM, 1 << 22) {
            Ok(hall) => refused[0] += u64::from(read_all(hall.as_bytes()) > 0),
            Err(refusal) => refused[usize::from(refusal.number())] += 1,
        }
    }
    assert!(refused[0] > 1000 && refused.iter().filter(|count| **count > 0).count() > 3, "{refused:?}");
}
