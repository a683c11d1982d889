//! The library on the drawables in samples/.

use calicofern::{Check, HallList, InlineVertices, Models, Sections, VertexAttributeValue, VertexBufferLayout};

fn section(name: &str) -> Vec<u8> {
    let path = format!("{}/samples/{name}", env!("CARGO_MANIFEST_DIR"));
    std::fs::read(&path).unwrap_or_else(|error| panic!("{path}: {error}"))
}

fn hall(name: &str) -> HallList {
    let graphics = if name == "layouts" { section("layouts.graphics") } else { Vec::new() };
    Sections::new(&section(&format!("{name}.system")), &graphics).hall_list(Sections::SYSTEM).unwrap()
}

#[test]
fn the_shoebox_is_whole() {
    let hall = hall("shoebox");
    let shaders: Vec<Vec<u16>> = hall.models().map(|model| model.geometries().map(|geometry| geometry.shader_id).collect()).collect();
    assert_eq!(shaders, [vec![0, 1, 1], vec![2, 3, 2, 4]]);
    assert_eq!(hall.triangle_count(), 382);
    for model in hall.models() {
        assert_eq!(model.disagreements(), []);
        for geometry in model.geometries() {
            assert_eq!(geometry.disagreements(), []);
            assert_eq!(geometry.triangles().count() as u32, geometry.triangles_count);
            let vertices = geometry.vertex_buffer.unwrap();
            let unified = vertices.to_unified_vertices().unwrap();
            assert_eq!(unified.len(), usize::from(geometry.vertices_count));
            assert_eq!(vertices.positions().unwrap(), unified.iter().map(|vertex| vertex.position).collect::<Vec<_>>());
            assert_eq!(unified[0].normal.map(|part| part * part).iter().sum::<f32>().round(), 1.0);
        }
    }
}

#[test]
fn surfaces_of_the_shell_face_the_inside() {
    let hall = hall("shoebox");
    for geometry in hall.models().next().unwrap().geometries() {
        for vertex in geometry.vertex_buffer.unwrap().to_unified_vertices().unwrap() {
            let inwards = [10.0, 16.0, 7.0].iter().zip(vertex.position).zip(vertex.normal);
            assert!(inwards.map(|((middle, place), normal)| (middle - place) * normal).sum::<f32>() > 0.0);
        }
    }
}

#[test]
fn every_layout_is_found() {
    let hall = hall("layouts");
    let models: Vec<_> = hall.models().collect();
    // the null model is skipped, the empty one is not
    assert_eq!(models.len(), 3);
    assert_eq!((models[0].bone_index(), models[0].is_skinned(), models[0].render_mask_flags), (2, true, 15));
    assert_eq!((models[1].bone_index(), models[1].is_skinned()), (5, false));
    assert_eq!(models[2].geometries().count(), 0);
    let geometries: Vec<_> = models.iter().flat_map(|model| model.geometries()).collect();
    let layouts: Vec<u8> = geometries.iter().map(|geometry| geometry.vertex_buffer.unwrap().layout.number()).collect();
    assert_eq!(layouts, [0, 1, 2, 3]);
    for geometry in &geometries {
        assert_eq!(geometry.disagreements(), []);
        let vertices = geometry.vertex_buffer.unwrap();
        let unified = vertices.to_unified_vertices().unwrap();
        assert_eq!(vertices.positions().unwrap(), unified.iter().map(|vertex| vertex.position).collect::<Vec<_>>());
    }
    // the mapping's entry at the original place, behind a null pointer
    assert_eq!(models[1].shader_mapping().collect::<Vec<_>>(), [9, 0, 2]);
    assert_eq!(geometries.iter().map(|geometry| geometry.shader_id).collect::<Vec<_>>(), [2, 4, 0, 2]);
    // the block's vertex count is 0, so the buffer's is taken
    assert_eq!(geometries[2].vertices_count, 54);
    assert_eq!(geometries[2].declaration, None);
    let names = geometries[0].declaration.unwrap().to_string();
    assert!(names.starts_with("Position Float3, BlendWeights Colour, BlendIndices UByte4, Normal RGBA8SNorm"), "{names}");
}

#[test]
fn packed_vertices_have_their_values() {
    let hall = hall("layouts");
    let geometry = hall.models().next().unwrap().geometries().next().unwrap();
    let vertices = geometry.vertex_buffer.unwrap();
    let attributes = vertices.read_vertex_attributes(1).unwrap();
    assert_eq!(attributes[0].value, VertexAttributeValue::Float3([4.0, 25.0, 6.0]));
    assert_eq!(attributes[2].value, VertexAttributeValue::UByte4([2, 0, 0, 0]));
    assert_eq!(attributes[4].value, VertexAttributeValue::Colour([200, 180, 140, 255]));
    assert_eq!(attributes[6].value, VertexAttributeValue::Float4([1.0, 0.0, 0.0, 1.0]));
    let unified = vertices.to_unified_vertices().unwrap()[1];
    assert_eq!((unified.position, unified.blend_indices, unified.color0), ([4.0, 25.0, 6.0], [2, 0, 0, 0], [200, 180, 140, 255]));
    assert_eq!(unified.blend_weights, [1.0, 0.0, 0.0, 0.0]);
    assert_eq!(unified.texcoord0, [0.199_951_17, 0.0]);
    assert_eq!(unified.color1, [255; 4]);
}

#[test]
fn counts_that_disagree_are_told() {
    let hall = hall("damaged");
    let geometries: Vec<_> = hall.models().next().unwrap().geometries().collect();
    let checks = |place: usize| geometries[place].disagreements().iter().map(|pair| pair.check.map(Check::number)).collect::<Vec<_>>();
    assert_eq!(checks(0), []);
    assert_eq!(checks(1), [Some(17)]);
    assert_eq!(checks(2), [Some(16)]);
    assert_eq!(checks(3), [Some(17), Some(11)]);
    let line = geometries[1].disagreements()[0].to_string();
    assert_eq!(line, "index count 147, but count of the index block 150 (check 17 of a sound hall)");
}

#[test]
fn a_vertex_buffer_is_found_by_its_address() {
    // a block of the second layout at 0, its data at 128, its declaration at 176
    let mut system = vec![0; 192];
    system[0x08] = 24;
    system[0x18] = 2;
    system[0x20..0x28].copy_from_slice(&(Sections::SYSTEM + 128).to_le_bytes());
    system[0x30..0x38].copy_from_slice(&(Sections::SYSTEM + 176).to_le_bytes());
    system[128..192].fill(7);
    let found = Sections::new(&system, &[]).vertex_buffer_at(Sections::SYSTEM, InlineVertices::default()).unwrap();
    assert_eq!(found.vertices.layout, VertexBufferLayout::LegacyData2);
    assert_eq!((found.vertices.vertex_stride, found.vertices.vertex_count), (24, 2));
    assert_eq!((found.data_pointer, found.info_pointer), (Sections::SYSTEM + 128, Sections::SYSTEM + 176));
    assert_eq!(found.vertices.data, [7; 48]);
    assert_eq!(found.vertices.declaration.map(|declaration| declaration.count), Some(7));
    assert_eq!(Sections::new(&system[..175], &[]).vertex_buffer_at(Sections::SYSTEM, InlineVertices::default()), None);
    // the same data behind an address of the graphics section
    let inline = InlineVertices { data_pointer: Sections::GRAPHICS + 128, vertex_count: 2, vertex_stride: 24 };
    let found = Sections::new(&[], &system).vertex_buffer_at(0, inline).unwrap();
    assert_eq!((found.vertices.layout, found.vertices.data), (VertexBufferLayout::GeometryInline, &[7; 48][..]));
}

#[test]
fn refusals_have_their_numbers() {
    let system = section("shoebox.system");
    let check = |bytes: &[u8]| Sections::new(bytes, &[]).hall_list(Sections::SYSTEM).unwrap_err().number();
    // the pointers of the models are the last bytes
    assert_eq!(check(&system[..system.len() - 16]), 2);
    let mut wrong = system.clone();
    let models = system.len() - 16;
    wrong[models + 2] = 0xFF;
    assert_eq!(check(&wrong), 3);
    let long = vec![0; Sections::LIMIT + 1];
    assert_eq!(check(&long), 1);
    assert_eq!(Sections::new(&[], &long).hall_list(0).unwrap_err().number(), 1);
    assert_eq!(Sections::new(&long[1..], &long[1..]).hall_list(Sections::SYSTEM).map(|hall| hall.models().count()), Ok(0));
}

#[test]
fn only_the_lists_bytes_are_written() {
    let system = section("shoebox.system");
    let sections = Sections::new(&system, &[]);
    let whole = sections.hall_list(Sections::SYSTEM).unwrap();
    let length = whole.as_bytes().len();
    // one byte short: nothing changes
    let mut lent = vec![0xEE; length + 32];
    let refusal = sections.hall_list_into(Sections::SYSTEM, &mut lent[16..length + 15]).unwrap_err();
    assert_eq!((refusal.number(), refusal.needed(), refusal.lent()), (7, Some(length as u64), Some(length as u64 - 1)));
    assert!(lent.iter().all(|byte| *byte == 0xEE));
    // longer: the bytes around the list are as they were
    assert_eq!(sections.hall_list_into(Sections::SYSTEM, &mut lent[16..]), Ok(length));
    assert_eq!(&lent[16..16 + length], whole.as_bytes());
    assert!(lent[..16].iter().chain(&lent[16 + length..]).all(|byte| *byte == 0xEE));
    assert_eq!(Models::of(&lent[16..16 + length]).count(), 2);
}

#[test]
fn a_list_beyond_the_limit_is_refused() {
    let system = section("shoebox.system");
    let sections = Sections::new(&system, &[]);
    let length = sections.hall_list(Sections::SYSTEM).unwrap().into_bytes().len();
    assert!(sections.hall_list_within(Sections::SYSTEM, length).is_ok());
    let refusal = sections.hall_list_within(Sections::SYSTEM, length - 1).unwrap_err();
    assert_eq!((refusal.number(), refusal.needed(), refusal.lent()), (7, Some(length as u64), Some(length as u64 - 1)));
}

/// 3,000 models whose pointers are the same, each with 5 geometries over the same 64 KiB of vertices: 1 GB of list from a few hundred KB.
#[test]
fn shared_pointers_ask_for_more_than_the_limit() {
    let mut system = vec![0; 0x20000];
    let mut put = |at: usize, bytes: &[u8]| system[at..at + bytes.len()].copy_from_slice(bytes);
    let address = |at: u64| (Sections::SYSTEM + at).to_le_bytes();
    put(0, &address(0x1000));
    put(8, &3000u16.to_le_bytes());
    for model in 0..3000 {
        put(0x1000 + 8 * model, &address(0x100));
    }
    put(0x108, &address(0x200));
    put(0x110, &5u16.to_le_bytes());
    for geometry in 0..5 {
        put(0x200 + 8 * geometry, &address(0x300));
    }
    put(0x318 + 0x78 - 0x18, &address(0x10000));
    put(0x360, &0x1000u16.to_le_bytes());
    put(0x370, &16u16.to_le_bytes());
    let refusal = Sections::new(&system, &[]).hall_list_within(Sections::SYSTEM, 1 << 20).unwrap_err();
    let geometry = 6 + 14 + 6 + 7 + 16 * 0x1000;
    assert_eq!((refusal.number(), refusal.needed()), (7, Some(3000 * (6 + 6 + 5 * geometry))));
}
