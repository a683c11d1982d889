//! Halls that are built, edited and taken in.

use calicofern::{
    hall_check, Hall, NewGeometry, Place, Sections, VertexAttributeValue, VertexComponentType, VertexDeclaration, VertexSemantic,
};

fn bytes(numbers: &[f32]) -> Vec<u8> {
    numbers.iter().flat_map(|number| number.to_le_bytes()).collect()
}

fn section(name: &str) -> Vec<u8> {
    let path = format!("{}/samples/{name}", env!("CARGO_MANIFEST_DIR"));
    std::fs::read(&path).unwrap_or_else(|error| panic!("{path}: {error}"))
}

fn sample(name: &str) -> Hall {
    let graphics = if name == "layouts" { section("layouts.graphics") } else { Vec::new() };
    Hall::from_sections(&Sections::new(&section(&format!("{name}.system")), &graphics), Sections::SYSTEM).unwrap()
}

/// A triangle of three positions.
fn triangle<'a>(vertices: &'a [u8], indices: &'a [u32]) -> NewGeometry<'a> {
    let declaration = VertexDeclaration::position_only(12);
    NewGeometry { shader_id: 5, declaration, vertex_stride: 12, vertex_count: 3, vertices, indices }
}

fn one_triangle() -> Hall {
    let mut hall = Hall::new();
    hall.add_model(0x0200_0100, 15).unwrap();
    hall.add_geometry(triangle(&bytes(&[0.0, 0.0, 0.0, 1.0, 0.0, 0.0, 0.0, 1.0, 0.0]), &[0, 1, 2])).unwrap();
    hall
}

/// The check that refuses an edit, which leaves the hall as it was.
fn refused(hall: &mut Hall, edit: impl Fn(&mut Hall) -> Result<(), calicofern::Refusal>) -> (u8, Option<Place>, String) {
    let before = hall.clone();
    let refusal = edit(hall).unwrap_err();
    assert_eq!(*hall, before);
    assert_eq!(hall.list(), before.list());
    (refusal.number(), refusal.place(), refusal.to_string())
}

fn place(model: u64, geometry: Option<u64>, vertex: Option<u64>) -> Option<Place> {
    Some(Place::new(model, geometry, vertex))
}

#[test]
fn the_smallest_hall_has_127_bytes() {
    let hall = one_triangle();
    assert_eq!(hall.list().len(), 127);
    assert_eq!(hall_check(hall.list()), Ok(()));
    assert_eq!((hall.models().count(), hall.geometries().count(), hall.triangle_count()), (1, 1, 1));
    let model = hall.model(0).unwrap();
    assert_eq!((model.skeleton_binding, model.render_mask_flags, model.bone_index()), (0x0200_0100, 15, 2));
    assert_eq!(model.shader_mapping().collect::<Vec<_>>(), [5]);
    let geometry = hall.geometry(0, 0).unwrap();
    assert_eq!((geometry.indices_count, geometry.triangles_count, geometry.vertices_count, geometry.vertex_stride), (3, 1, 3, 12));
    assert_eq!(geometry.triangles().collect::<Vec<_>>(), [[0, 1, 2]]);
    assert_eq!(geometry.disagreements(), []);
    assert_eq!(hall.unified_vertices(0, 0).unwrap()[1].position, [1.0, 0.0, 0.0]);
    assert_eq!(hall.attributes(0, 0, 2).unwrap()[0].value, VertexAttributeValue::Float3([0.0, 1.0, 0.0]));
    assert_eq!(format!("{hall:?}"), "Hall { models: 1, geometries: 1, bytes: 127 }");
}

#[test]
fn a_list_is_a_hall_or_is_refused_with_its_place() {
    let list = one_triangle().into_list();
    assert_eq!(Hall::from_list(list.clone()).unwrap(), one_triangle());
    let changed = |at: usize, value: u8| {
        let mut list = list.clone();
        list[at] = value;
        let refusal = Hall::from_list(list).unwrap_err();
        (refusal.number(), refusal.place())
    };
    // triangle count, vertex count, stride, type of the position, an index
    let geometry = place(0, Some(0), None);
    assert_eq!(changed(26, 2), (17, geometry));
    assert_eq!(changed(30, 4), (16, geometry));
    assert_eq!(changed(32, 13), (14, geometry));
    assert_eq!(changed(48, 7), (15, geometry));
    assert_eq!(changed(119, 3), (18, geometry));
    assert_eq!(changed(119, 0), (27, geometry));
    assert_eq!(changed(119, 2), (27, geometry));
    assert_eq!(changed(123, 0), (27, geometry));
    // the mapping's entry, the first record's length
    assert_eq!(changed(12, 6), (12, geometry));
    assert_eq!(changed(0, 7), (11, None));
    assert_eq!(Hall::from_list(list[..126].to_vec()).unwrap_err().number(), 11);
}

#[test]
fn models_and_geometries_come_and_go() {
    let mut hall = one_triangle();
    let vertices = bytes(&[0.0; 9]);
    hall.add_geometry(NewGeometry { shader_id: 6, ..triangle(&vertices, &[2, 1, 0]) }).unwrap();
    hall.add_model(7, 1).unwrap();
    hall.add_geometry(NewGeometry { shader_id: 8, ..triangle(&vertices, &[0, 1, 2, 2, 1, 0]) }).unwrap();
    let shaders = |hall: &Hall| hall.geometries().map(|(model, _, geometry)| (model, geometry.shader_id)).collect::<Vec<_>>();
    assert_eq!(shaders(&hall), [(0, 5), (0, 6), (1, 8)]);
    assert_eq!(hall.triangle_count(), 4);

    hall.remove_geometry(0, 0).unwrap();
    assert_eq!(shaders(&hall), [(0, 6), (1, 8)]);
    assert_eq!(hall.model(0).unwrap().shader_mapping().collect::<Vec<_>>(), [6]);
    hall.remove_model(0).unwrap();
    assert_eq!(shaders(&hall), [(0, 8)]);
    assert_eq!(hall.model(0).unwrap().skeleton_binding, 7);
    hall.remove_geometry(0, 0).unwrap();
    assert_eq!((hall.models().count(), hall.geometries().count(), hall.list().len()), (1, 0, 12));
    hall.remove_model(0).unwrap();
    assert_eq!(hall, Hall::new());
    assert!(hall.list().is_empty() && hall.into_list().is_empty());
}

#[test]
fn what_is_not_there_is_refused_with_its_place() {
    let mut hall = one_triangle();
    assert_eq!(refused(&mut hall, |hall| hall.remove_model(1)).1, place(1, None, None));
    assert_eq!(refused(&mut hall, |hall| hall.remove_model(u64::MAX)).0, 21);
    let (check, where_it_was, line) = refused(&mut hall, |hall| hall.remove_geometry(0, 1));
    assert_eq!((check, where_it_was), (21, place(0, Some(1), None)));
    assert_eq!(line, "check 21: there is no geometry 1 of model 0: it has 1 geometry, numbered from 0");
    assert_eq!(refused(&mut hall, |hall| hall.replace_indices(1, 0, &[0, 1, 2])).0, 21);
    let value = VertexAttributeValue::Float3([0.0; 3]);
    let (check, where_it_was, line) = refused(&mut hall, |hall| hall.set_attribute(0, 0, 3, VertexSemantic::Position, value));
    assert_eq!((check, where_it_was), (21, place(0, Some(0), Some(3))));
    assert_eq!(line, "check 21: there is no vertex 3 of model 0, geometry 0: it has 3 vertices, numbered from 0");
    assert_eq!(hall.attributes(0, 0, 3).unwrap_err().place(), place(0, Some(0), Some(3)));
    assert_eq!(hall.attributes(0, 1, 0).unwrap_err().number(), 21);
    assert_eq!(hall.unified_vertices(1, 0).unwrap_err().number(), 21);

    let (check, _, line) = refused(&mut Hall::new(), |hall| hall.add_geometry(triangle(&[0; 36], &[0, 1, 2])));
    assert_eq!((check, line.as_str()), (21, "check 21: there is no model to add a geometry to: add a model first"));
}

#[test]
fn a_geometry_is_judged_before_it_is_added() {
    let mut hall = one_triangle();
    let vertices = bytes(&[0.0; 9]);
    let sound = triangle(&vertices, &[0, 1, 2]);
    let nothing = VertexDeclaration { flags: 0, ..sound.declaration };
    let wide = VertexDeclaration { types: 7, ..sound.declaration };
    let cases = [
        (11, NewGeometry { vertices: &vertices[1..], ..sound }),
        (11, NewGeometry { vertex_count: 2, ..sound }),
        (14, NewGeometry { declaration: VertexDeclaration::position_only(16), ..sound }),
        (15, NewGeometry { declaration: nothing, ..sound }),
        (15, NewGeometry { declaration: wide, ..sound }),
        (16, NewGeometry { vertex_count: 0, vertices: &[], ..sound }),
        (17, NewGeometry { indices: &[0, 1], ..sound }),
        (17, NewGeometry { indices: &[], ..sound }),
        (18, NewGeometry { indices: &[0, 1, 3], ..sound }),
        (27, NewGeometry { indices: &[0, 0, 1], ..sound }),
        (27, NewGeometry { indices: &[0, 1, 1], ..sound }),
        (27, NewGeometry { indices: &[0, 1, 2, 1, 0, 1], ..sound }),
        (18, NewGeometry { indices: &[0, 1, 1, 0, 1, 3], ..sound }),
        (27, NewGeometry { vertex_count: 1, vertices: &vertices[..12], indices: &[0; 3], ..sound }),
        (27, NewGeometry { vertex_count: 2, vertices: &vertices[..24], indices: &[0, 1, 0], ..sound }),
    ];
    for (expected, given) in cases {
        let (check, _, line) = refused(&mut hall, |hall| hall.add_geometry(given));
        assert_eq!(check, expected, "{line}");
    }
    let (_, _, line) = refused(&mut hall, |hall| hall.add_geometry(NewGeometry { vertex_count: 2, ..sound }));
    assert_eq!(line, "check 11: the vertices' bytes are not their count times their stride: 36 given, but 2 x 12 is 24");
    // vertices further apart than their components need
    let spread = NewGeometry { vertex_stride: 16, declaration: VertexDeclaration::position_only(16), vertices: &[0; 48], ..sound };
    hall.add_geometry(spread).unwrap();
}

#[test]
fn limits_of_models_and_vertices() {
    let mut hall = Hall::new();
    for model in 0..256 {
        hall.add_model(model, 0).unwrap();
    }
    assert_eq!(refused(&mut hall, |hall| hall.add_model(0, 0)).0, 13);
    let many = vec![0; 65536 * 12];
    let given = |count: usize| NewGeometry { vertex_count: count as u32, vertices: &many[..12 * count], ..triangle(&[], &[0, 1, 65534]) };
    assert_eq!(refused(&mut hall, |hall| hall.add_geometry(given(65536))).0, 16);
    hall.add_geometry(given(65535)).unwrap();
    assert_eq!(refused(&mut hall, |hall| hall.replace_indices(255, 0, &[0, 1, 65535])).0, 18);
    // 1,020 bytes a vertex: an image of more than 64 MiB
    let wide = vec![0; 65535 * 1020];
    let declaration = VertexDeclaration::position_only(1020);
    let large = NewGeometry { declaration, vertex_stride: 1020, vertices: &wide, ..given(65535) };
    let (check, _, line) = refused(&mut hall, |hall| hall.add_geometry(large));
    assert_eq!(check, 19, "{line}");
}

/// A hall whose vertices have every type that can be set.
fn every_type() -> Hall {
    let parts = [
        (VertexSemantic::Position, VertexComponentType::Float3),
        (VertexSemantic::BlendWeights, VertexComponentType::Half4),
        (VertexSemantic::BlendIndices, VertexComponentType::UByte4),
        (VertexSemantic::Normal, VertexComponentType::Rgba8Snorm),
        (VertexSemantic::Colour0, VertexComponentType::Colour),
        (VertexSemantic::TexCoord0, VertexComponentType::Half2),
        (VertexSemantic::TexCoord1, VertexComponentType::Float2),
        (VertexSemantic::TexCoord2, VertexComponentType::Float),
        (VertexSemantic::TexCoord3, VertexComponentType::Nothing),
        (VertexSemantic::Tangent, VertexComponentType::Float4),
    ];
    let declaration = VertexDeclaration::of(&parts);
    assert_eq!(declaration.stride, 64);
    let mut hall = Hall::new();
    hall.add_model(0, 0).unwrap();
    let vertices = [0; 192];
    let given = NewGeometry { shader_id: 0, declaration, vertex_stride: 64, vertex_count: 3, vertices: &vertices, indices: &[0, 1, 2] };
    hall.add_geometry(given).unwrap();
    hall
}

#[test]
fn attributes_are_set_in_every_type() {
    use VertexAttributeValue as Value;
    use VertexSemantic as Semantic;
    let mut hall = every_type();
    let nan = f32::from_bits(0xFF80_2001);
    let set = [
        (Semantic::Position, Value::Float3([1.0, -2.0, 3.5]), Value::Float3([1.0, -2.0, 3.5])),
        (Semantic::BlendWeights, Value::Half4([0.1, 1.0, 65504.0, 1e-8]), Value::Half4([0.099975586, 1.0, 65504.0, 0.0])),
        (Semantic::BlendIndices, Value::UByte4([1, 2, 3, 255]), Value::UByte4([1, 2, 3, 255])),
        (Semantic::Normal, Value::Rgba8Snorm([1.0, -1.0, 0.999, -7.0]), Value::Rgba8Snorm([1.0, -1.0, 126.0 / 127.0, -1.0])),
        // the name of the value is not looked at, its shape is
        (Semantic::Colour0, Value::UByte4([9, 8, 7, 6]), Value::Colour([9, 8, 7, 6])),
        (Semantic::TexCoord0, Value::Float2([0.5, -0.25]), Value::Half2([0.5, -0.25])),
        (Semantic::TexCoord1, Value::Half2([0.1, 0.2]), Value::Float2([0.1, 0.2])),
        (Semantic::TexCoord2, Value::Float(-0.0), Value::Float(-0.0)),
        (Semantic::Tangent, Value::Float4([1.0, 2.0, 3.0, 4.0]), Value::Float4([1.0, 2.0, 3.0, 4.0])),
    ];
    for (semantic, value, _) in set {
        hall.set_attribute(0, 0, 1, semantic, value).unwrap();
    }
    let stored = hall.attributes(0, 0, 1).unwrap();
    for (semantic, _, expected) in set {
        let found = stored.iter().find(|attribute| attribute.component.semantic == semantic).unwrap();
        assert_eq!(found.value, expected);
    }
    // the vertices beside it are as they were
    for vertex in [0, 2] {
        let zeros = hall.attributes(0, 0, vertex).unwrap();
        assert!(zeros.iter().all(|attribute| attribute.value.as_vec3() == [0.0; 3]), "{zeros:?}");
    }
    // a NaN keeps its bits
    hall.set_attribute(0, 0, 0, Semantic::TexCoord2, Value::Float(nan)).unwrap();
    let stored = hall.attributes(0, 0, 0).unwrap();
    let found = stored.iter().find_map(|attribute| match attribute.value {
        Value::Float(value) => Some(value.to_bits()),
        _ => None,
    });
    assert_eq!(found, Some(nan.to_bits()));
}

#[test]
fn an_attribute_of_another_shape_is_refused() {
    use VertexAttributeValue as Value;
    let mut hall = every_type();
    let mut check = |semantic, value| refused(&mut hall, |hall| hall.set_attribute(0, 0, 0, semantic, value)).0;
    assert_eq!(check(VertexSemantic::Position, Value::Float2([0.0; 2])), 23);
    assert_eq!(check(VertexSemantic::Position, Value::Unsupported), 23);
    assert_eq!(check(VertexSemantic::Colour0, Value::Float4([0.0; 4])), 23);
    assert_eq!(check(VertexSemantic::Normal, Value::UByte4([0; 4])), 23);
    // no bytes, not declared, no semantic
    assert_eq!(check(VertexSemantic::TexCoord3, Value::Unsupported), 22);
    assert_eq!(check(VertexSemantic::Binormal, Value::Float4([0.0; 4])), 22);
    assert_eq!(check(VertexSemantic::Unknown(16), Value::Float4([0.0; 4])), 22);
}

#[test]
fn indices_are_replaced_by_more_and_by_fewer() {
    let mut hall = sample("shoebox");
    let before = hall.clone();
    let old: Vec<u32> = hall.geometry(0, 1).unwrap().index_buffer.unwrap().indices().collect();
    let more: Vec<u32> = old.iter().chain(&old).chain(&old).copied().collect();
    hall.replace_indices(0, 1, &more).unwrap();
    assert_eq!(hall.list().len(), before.list().len() + 8 * old.len());
    assert_eq!(hall.geometry(0, 1).unwrap().triangles_count as usize, old.len());
    hall.replace_indices(0, 1, &[2, 1, 0]).unwrap();
    assert_eq!(hall.geometry(0, 1).unwrap().triangles().collect::<Vec<_>>(), [[2, 1, 0]]);
    assert_eq!(hall_check(hall.list()), Ok(()));
    hall.replace_indices(0, 1, &old).unwrap();
    assert_eq!(hall, before);
    let (check, where_it_was, _) = refused(&mut hall, |hall| hall.replace_indices(0, 1, &[0, 1, 2, 3]));
    assert_eq!((check, where_it_was), (17, place(0, Some(1), None)));
    assert_eq!(refused(&mut hall, |hall| hall.replace_indices(0, 1, &[])).0, 17);
    assert_eq!(refused(&mut hall, |hall| hall.replace_indices(0, 1, &[0, 1, 2, 2, 1, 2])).0, 27);
    // the last of many triangles
    let mut wrong = more;
    let last = wrong.len() - 1;
    wrong[last] = wrong[last - 2];
    assert_eq!(refused(&mut hall, |hall| hall.replace_indices(0, 1, &wrong)).0, 27);
}

/// Surfaces that meet at an edge often have vertices of their own there.
#[test]
fn vertices_at_one_position_make_a_triangle() {
    let mut hall = one_triangle();
    hall.add_geometry(triangle(&bytes(&[1.0; 9]), &[0, 1, 2])).unwrap();
    assert_eq!(hall_check(hall.list()), Ok(()));
    assert_eq!(saved(&hall), hall);
}

#[test]
fn samples_are_taken_in() {
    let (system, graphics) = (section("layouts.system"), section("layouts.graphics"));
    let list = Sections::new(&section("shoebox.system"), &[]).hall_list(Sections::SYSTEM).unwrap();
    let mut hall = sample("shoebox");
    assert_eq!(hall.list(), list.as_bytes());
    // what was there before is gone
    hall.take_in(&Sections::new(&system, &graphics), Sections::SYSTEM).unwrap();
    assert_eq!(hall, sample("layouts"));
    for (_, _, geometry) in hall.geometries() {
        assert_eq!(geometry.vertex_buffer.unwrap().layout.number(), 0);
        assert_eq!(geometry.disagreements(), []);
    }
    assert!(hall.models().all(|model| model.disagreements().is_empty()));
    hall.take_in(&Sections::new(&[], &[]), 0).unwrap();
    assert_eq!(hall, Hall::new());
}

#[test]
fn a_damaged_drawable_is_not_taken_in() {
    let mut hall = sample("shoebox");
    let system = section("damaged.system");
    let (check, _, line) = refused(&mut hall, |hall| hall.take_in(&Sections::new(&system, &[]), Sections::SYSTEM));
    assert_eq!((check, line.as_str()), (11, "check 11: model 0, geometry 3 has no vertices: its address or inline data leads to none"));
    // a header that leads beyond the section
    let mut header = [0; 16];
    header[..8].copy_from_slice(&0x5000_1000u64.to_le_bytes());
    header[8] = 1;
    assert_eq!(refused(&mut hall, |hall| hall.take_in(&Sections::new(&header, &[]), Sections::SYSTEM)).0, 2);
}

#[test]
fn many_small_edits_need_no_room_of_the_caller() {
    let mut hall = Hall::new();
    hall.add_model(0, 0).unwrap();
    let vertices = bytes(&[0.0; 9]);
    for number in 0..300 {
        hall.add_geometry(NewGeometry { shader_id: number, ..triangle(&vertices, &[0, 1, 2]) }).unwrap();
    }
    assert_eq!(hall.list().len(), 12 + 300 * (2 + 65 + 36 + 12));
    for _ in 0..299 {
        hall.remove_geometry(0, 0).unwrap();
    }
    assert_eq!(hall.list().len(), 127);
    assert_eq!(hall.geometry(0, 0).unwrap().shader_id, 299);
    assert_eq!(Hall::from_list(hall.list().to_vec()).unwrap(), hall);
}

/// What is saved and taken in again.
fn saved(hall: &Hall) -> Hall {
    let image = hall.save().unwrap();
    assert_eq!(image.len() % 16, 0);
    Hall::from_sections(&Sections::new(&image, &[]), Sections::SYSTEM).unwrap()
}

#[test]
fn images_have_their_lengths_and_places() {
    assert_eq!(Hall::new().save().unwrap(), [0; 16]);
    let image = one_triangle().save().unwrap();
    assert_eq!(image.len(), 576);
    // the vertices' data at 0x1A0
    assert_eq!(image[0x1A0..0x1A0 + 36], bytes(&[0.0, 0.0, 0.0, 1.0, 0.0, 0.0, 0.0, 1.0, 0.0]));
    let list = Sections::new(&image, &[]).hall_list(Sections::SYSTEM).unwrap();
    assert_eq!(list.as_bytes(), one_triangle().list());
}

#[test]
fn a_lent_image_is_long_enough_or_untouched() {
    let hall = one_triangle();
    let mut out = [7; 600];
    let refusal = hall.save_into(&mut out[..575]).unwrap_err();
    assert_eq!((refusal.number(), refusal.needed(), refusal.lent()), (20, Some(576), Some(575)));
    assert_eq!(refusal.to_string(), "check 20: the buffer for the image is too short: 576 bytes are needed, 575 were lent");
    assert_eq!(out, [7; 600]);
    assert_eq!(hall.save_into(&mut out), Ok(576));
    assert_eq!(out[..576], hall.save().unwrap());
    assert_eq!(out[576..], [7; 24]);
}

#[test]
fn halls_come_back_from_their_images() {
    for hall in [Hall::new(), one_triangle(), every_type(), sample("shoebox"), sample("layouts")] {
        assert_eq!(saved(&hall), hall);
    }
}

#[test]
fn an_image_is_the_hall_as_it_is_now() {
    let mut hall = sample("shoebox");
    let first = hall.save().unwrap();
    let value = VertexAttributeValue::Float3([1.0, 2.0, 3.0]);
    hall.set_attribute(1, 2, 0, VertexSemantic::Position, value).unwrap();
    let second = hall.save().unwrap();
    assert_ne!(first, second);
    assert_eq!(saved(&hall).attributes(1, 2, 0).unwrap()[0].value, value);
    hall.add_model(1, 2).unwrap();
    hall.remove_model(0).unwrap();
    assert_eq!(saved(&hall), hall);
}
