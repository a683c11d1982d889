//! The lines of refusals: the numbers in them, and the places.

use calicofern::{
    hall_check, DrawableGeometry, Hall, NewGeometry, Place, Refusal, Sections, VertexAttributeValue as Value, VertexComponentType as Type,
    VertexDeclaration, VertexSemantic as Semantic,
};

const COUNTS_17: &str = "check 17: index counts disagree: a geometry's count, its index buffer's count, the indices there are and 3 for each triangle must be equal, and at least 3";
const STRIDES_14: &str =
    "check 14: strides or layout disagree: the strides of geometry, declaration and vertex buffer must be equal and the layout 0, Legacy";
const DECLARED_15: &str = "check 15: a declaration does not fit its vertices: it must declare a position that has bytes, and all components must fit into the stride";
const COUNTS_16: &str = "check 16: vertex counts disagree: a geometry and its vertex buffer must have the same count, 1 to 65535";
const INDEX_18: &str = "check 18: an index names no vertex: each must be below the number of vertices";
const DEGENERATE_27: &str = "check 27: a triangle is degenerate: its three indices must be different";
const LIMITS_13: &str = "check 13: there are too many models or geometries: a hall has at most 256 models and 16384 geometries";

/// `count` vertices of a position.
fn given<'a>(count: u32, indices: &'a [u32]) -> NewGeometry<'a> {
    let vertices = &[0; 1200][..12 * count as usize];
    NewGeometry {
        shader_id: 0,
        declaration: VertexDeclaration::position_only(12),
        vertex_stride: 12,
        vertex_count: count,
        vertices,
        indices,
    }
}

/// Two models, of one and of three geometries: 3, 4, 5 and 6 vertices.
fn hall() -> Hall {
    let mut hall = Hall::new();
    hall.add_model(0, 0).unwrap();
    hall.add_geometry(given(3, &[0, 1, 2])).unwrap();
    hall.add_model(0, 0).unwrap();
    for count in 4..7 {
        hall.add_geometry(given(count, &[0, 1, 2, 2, 1, 0])).unwrap();
    }
    hall
}

/// Where a geometry's block lies in the image of a hall.
fn block(image: &[u8], model: usize, geometry: usize) -> usize {
    let lists = pointer(image, pointer(image, 0) + 8 * model) + 8;
    pointer(image, pointer(image, lists) + 8 * geometry)
}

fn pointer(image: &[u8], at: usize) -> usize {
    (u64::from_le_bytes(image[at..at + 8].try_into().unwrap()) - Sections::SYSTEM) as usize
}

fn put(image: &mut [u8], at: usize, bytes: &[u8]) {
    image[at..at + bytes.len()].copy_from_slice(bytes);
}

fn taken_in(image: &[u8]) -> Refusal {
    Hall::from_sections(&Sections::new(image, &[]), Sections::SYSTEM).unwrap_err()
}

fn line(refused: Result<(), Refusal>) -> String {
    refused.unwrap_err().to_string()
}

#[test]
fn what_is_not_there_is_counted() {
    let mut hall = hall();
    assert_eq!(line(hall.remove_model(9)), "check 21: there is no model 9: the hall has 2 models, numbered from 0");
    // the model is looked for before its geometry
    assert_eq!(line(hall.remove_geometry(2, 7)), "check 21: there is no model 2: the hall has 2 models, numbered from 0");
    assert_eq!(line(hall.remove_geometry(1, 7)), "check 21: there is no geometry 7 of model 1: it has 3 geometries, numbered from 0");
    assert_eq!(line(hall.replace_indices(0, 1, &[])), "check 21: there is no geometry 1 of model 0: it has 1 geometry, numbered from 0");
    let refused = hall.set_attribute(1, 2, 99, Semantic::Position, Value::Unsupported).unwrap_err();
    assert_eq!(refused.to_string(), "check 21: there is no vertex 99 of model 1, geometry 2: it has 6 vertices, numbered from 0");
    assert_eq!(refused.place(), Some(Place::new(1, Some(2), Some(99))));
    let read = hall.attributes(1, 0, 4).unwrap_err();
    assert_eq!(read.to_string(), "check 21: there is no vertex 4 of model 1, geometry 0: it has 4 vertices, numbered from 0");
    let read = hall.unified_vertices(1, u64::MAX).unwrap_err().to_string();
    assert_eq!(read, "check 21: there is no geometry 18446744073709551615 of model 1: it has 3 geometries, numbered from 0");
    hall.remove_model(0).unwrap();
    assert_eq!(line(hall.remove_model(1)), "check 21: there is no model 1: the hall has 1 model, numbered from 0");
    assert_eq!(line(Hall::new().remove_model(0)), "check 21: there is no model 0: the hall has no models");
    hall.add_model(0, 0).unwrap();
    assert_eq!(line(hall.remove_geometry(1, 0)), "check 21: there is no geometry 0 of model 1: it has no geometries");
    let words = "check 21: there is no model to add a geometry to: add a model first";
    // whatever else is wrong with it
    assert_eq!(line(Hall::new().add_geometry(given(0, &[7]))), words);
}

/// A hall whose second geometry has more than a position.
fn packed() -> Hall {
    let parts = [
        (Semantic::Position, Type::Half4),
        (Semantic::Colour0, Type::Colour),
        (Semantic::TexCoord0, Type::Float2),
        (Semantic::TexCoord1, Type::Float),
        (Semantic::TexCoord2, Type::Nothing),
    ];
    let declaration = VertexDeclaration::of(&parts);
    let mut hall = hall();
    hall.add_model(0, 0).unwrap();
    hall.add_geometry(given(3, &[0, 1, 2])).unwrap();
    let vertices = &[0; 72];
    hall.add_geometry(NewGeometry { declaration, vertex_stride: declaration.stride, vertices, ..given(3, &[0, 1, 2]) }).unwrap();
    hall
}

#[test]
fn a_semantic_that_is_not_declared_is_named() {
    let mut hall = packed();
    let refused = hall.set_attribute(2, 0, 1, Semantic::Normal, Value::Float3([0.0; 3])).unwrap_err();
    assert_eq!(refused.to_string(), "check 22: the vertices of model 2, geometry 0 have no Normal: they have Position Float3");
    assert_eq!(refused.place(), Some(Place::new(2, Some(0), Some(1))));
    let words = "check 22: the vertices of model 2, geometry 1 have no Normal: they have Position Half4, Colour0 Colour, TexCoord0 Float2, TexCoord1 Float, TexCoord2 Nothing";
    assert_eq!(line(hall.set_attribute(2, 1, 1, Semantic::Normal, Value::Unsupported)), words);
    // declared, but without bytes
    let words = "check 22: the vertices of model 2, geometry 1 have no TexCoord2: its type is Nothing, which has no bytes";
    assert_eq!(line(hall.set_attribute(2, 1, 0, Semantic::TexCoord2, Value::Unsupported)), words);
    let words = "check 22: the vertices of model 2, geometry 0 have no Unknown16: they have Position Float3";
    assert_eq!(line(hall.set_attribute(2, 0, 0, Semantic::Unknown(16), Value::Float(0.0))), words);
}

#[test]
fn a_value_of_another_shape_is_counted() {
    let mut hall = packed();
    let mut words = |geometry, semantic, value| line(hall.set_attribute(2, geometry, 1, semantic, value));
    let four = Value::Float4([0.0; 4]);
    let place = ": model 2, geometry 1, vertex 1";
    let expected = [
        (Semantic::Position, Value::Float3([0.0; 3]), "Position is Half4: four numbers, 3 are given"),
        (Semantic::Position, Value::Float(0.0), "Position is Half4: four numbers, 1 is given"),
        (Semantic::Position, Value::UByte4([0; 4]), "Position is Half4: four numbers, four bytes are given"),
        (Semantic::Position, Value::Unsupported, "Position is Half4: four numbers, none are given"),
        (Semantic::Colour0, four, "Colour0 is Colour: four bytes, 4 numbers are given"),
        (Semantic::Colour0, Value::Float(0.0), "Colour0 is Colour: four bytes, 1 number is given"),
        (Semantic::Colour0, Value::Unsupported, "Colour0 is Colour: four bytes, none are given"),
        (Semantic::TexCoord0, four, "TexCoord0 is Float2: two numbers, 4 are given"),
        (Semantic::TexCoord1, four, "TexCoord1 is Float: one number, 4 are given"),
    ];
    for (semantic, value, text) in expected {
        assert_eq!(words(1, semantic, value), format!("check 23: {text}{place}"));
    }
    // a semantic is its number
    let text = "check 23: Position is Half4: four numbers, 3 are given: model 2, geometry 1, vertex 1";
    assert_eq!(words(1, Semantic::Unknown(0), Value::Float3([0.0; 3])), text);
    // the same semantic has another type in the geometry before it
    let text = "check 23: Position is Float3: three numbers, four bytes are given: model 2, geometry 0, vertex 1";
    assert_eq!(words(0, Semantic::Position, Value::Colour([0; 4])), text);
}

#[test]
fn geometries_of_a_drawable_lack_what_is_named() {
    let whole = hall().save().unwrap();
    let lacking = |model, geometry, vertices: bool, indices: bool| {
        let mut image = whole.clone();
        let at = block(&image, model, geometry);
        if vertices {
            put(&mut image, at + 0x18, &[0; 8]);
        }
        if indices {
            put(&mut image, at + 0x38, &[0; 8]);
        }
        // a lower number than that of a geometry before it
        let first = block(&image, 0, 0);
        put(&mut image, first + 0x58, &[9]);
        let refusal = taken_in(&image);
        assert_eq!(refusal.place(), Some(Place::new(model as u64, Some(geometry as u64), None)));
        refusal.to_string()
    };
    let vertices = "check 11: model 1, geometry 1 has no vertices: its address or inline data leads to none";
    assert_eq!(lacking(1, 1, true, false), vertices);
    assert_eq!(lacking(1, 2, false, true), "check 11: model 1, geometry 2 has no index block: its address leads to none");
    assert_eq!(lacking(0, 0, true, true), "check 11: model 0, geometry 0 has no vertices and no index block: its addresses lead to none");
}

#[test]
fn null_pointers_are_not_counted_among_the_geometries() {
    let mut image = hall().save().unwrap();
    let last = block(&image, 1, 2);
    put(&mut image, last + 0x18, &[0; 8]);
    let pointers = pointer(&image, pointer(&image, pointer(&image, 0) + 8) + 8);
    put(&mut image, pointers, &[0; 8]);
    // the third pointer's geometry is the second that there is
    assert_eq!(taken_in(&image).place(), Some(Place::new(1, Some(1), None)));
}

#[test]
fn counts_of_a_drawable_disagree_at_a_place() {
    let mut image = hall().save().unwrap();
    let (first, second, third) = (block(&image, 0, 0), block(&image, 1, 0), block(&image, 1, 1));
    put(&mut image, third + 0x58, &[9]);
    let text = format!("{COUNTS_17}: model 1, geometry 1: index count 9, but 3 x triangle count 6");
    assert_eq!(taken_in(&image).to_string(), text);
    put(&mut image, third + 0x5C, &[3]);
    let text = format!("{COUNTS_17}: model 1, geometry 1: index count 9, but count of the index block 6");
    assert_eq!(taken_in(&image).to_string(), text);
    // a lower check fails in a later geometry, and is the one that is told
    let last = block(&image, 1, 2);
    put(&mut image, last + 0x70, &[16]);
    let refusal = taken_in(&image);
    assert_eq!(refusal.to_string(), format!("{STRIDES_14}: model 1, geometry 2: stride 16, but stride of the vertices found 12"));
    assert_eq!(refusal.place(), Some(Place::new(1, Some(2), None)));
    // and in an earlier one
    put(&mut image, second + 0x60, &[5]);
    put(&mut image, last + 0x70, &[12]);
    assert_eq!(taken_in(&image).to_string(), format!("{COUNTS_16}: model 1, geometry 0: vertex count 5, but vertices found 4"));
    // its first geometry is sound in all of this
    assert_eq!(image[first + 0x60], 3);
}

#[test]
fn a_drawables_declarations_and_indices_are_judged_as_a_hall_has_them() {
    let whole = hall().save().unwrap();
    let mut image = whole.clone();
    // the declaration is not found: vertices of a position are read, whose stride is theirs
    let vertices = pointer(&image, block(&image, 1, 0) + 0x18);
    put(&mut image, vertices + 0x30, &[0; 8]);
    // the last index of the geometry behind it, and one before
    let indices = pointer(&image, pointer(&image, block(&image, 1, 1) + 0x38) + 0x10);
    put(&mut image, indices + 10, &60_000u16.to_le_bytes());
    let text = format!("{INDEX_18}: model 1, geometry 1: index 5 of the geometry is 60000, and it has 5 vertices");
    assert_eq!(taken_in(&image).to_string(), text);
    put(&mut image, indices + 2, &[5]);
    let text = format!("{INDEX_18}: model 1, geometry 1: index 1 of the geometry is 5, and it has 5 vertices");
    assert_eq!(taken_in(&image).to_string(), text);
    // a declaration without a position
    let mut image = whole;
    let declaration = pointer(&image, pointer(&image, block(&image, 1, 1) + 0x18) + 0x30);
    put(&mut image, declaration, &[8, 0, 0, 0, 12, 0, 0, 1, 0, 0x60]);
    let text = format!("{DECLARED_15}: model 1, geometry 1: the vertices have Normal Float3");
    assert_eq!(taken_in(&image).to_string(), text);
    put(&mut image, declaration, &[1, 0, 0, 0, 12, 0, 0, 1, 7, 0]);
    let text = format!("{DECLARED_15}: model 1, geometry 1: bytes of the components 16, but stride of the vertices found 12");
    assert_eq!(taken_in(&image).to_string(), text);
}

/// Makes an index block of an image hold these indices, of two bytes or of four.
fn put_indices(image: &mut Vec<u8>, block: usize, width: usize, indices: &[u32]) {
    let data = Sections::SYSTEM + image.len() as u64;
    image.extend(indices.iter().flat_map(|index| index.to_le_bytes()[..width].to_vec()));
    put(image, block + 0x08, &(indices.len() as u32).to_le_bytes());
    put(image, block + 0x0C, &[width as u8, 0]);
    put(image, block + 0x10, &if width == 2 { data } else { 0 }.to_le_bytes());
    put(image, block + 0x18, &if width == 2 { 0 } else { data }.to_le_bytes());
}

#[test]
fn degenerate_triangles_of_a_drawable_are_found() {
    let whole = hall().save().unwrap();
    for width in [2, 4] {
        let mut image = whole.clone();
        let blocks = [(1, 1), (1, 2)].map(|(model, geometry)| pointer(&image, block(&image, model, geometry) + 0x38));
        put_indices(&mut image, blocks[0], width, &[0, 1, 2, 2, 1, 4]);
        assert!(Hall::from_sections(&Sections::new(&image, &[]), Sections::SYSTEM).is_ok());
        put_indices(&mut image, blocks[1], width, &[0, 1, 2, 5, 5, 5]);
        let text = format!("{DEGENERATE_27}: model 1, geometry 2: triangle 1 of the geometry is 5, 5, 5, with index 5 three times");
        assert_eq!(taken_in(&image).to_string(), text);
        put_indices(&mut image, blocks[0], width, &[0, 1, 2, 4, 1, 4]);
        let text = format!("{DEGENERATE_27}: model 1, geometry 1: triangle 1 of the geometry is 4, 1, 4, with index 4 twice");
        let refusal = taken_in(&image);
        assert_eq!(refusal.to_string(), text);
        assert_eq!((refusal.place(), refusal.needed()), (Some(Place::new(1, Some(1), None)), None));
        // whatever the limit of the hall
        let within = Hall::from_sections_within(&Sections::new(&image, &[]), Sections::SYSTEM, 10).unwrap_err();
        assert_eq!(within.number(), 27);
        // an index that names no vertex is told before, though it stands behind
        put_indices(&mut image, blocks[1], width, &[0, 1, 2, 5, 5, 6]);
        let text = format!("{INDEX_18}: model 1, geometry 2: index 5 of the geometry is 6, and it has 6 vertices");
        assert_eq!(taken_in(&image).to_string(), text);
    }
}

/// Where the records of the second model begin in the list of `hall`.
const SECOND: usize = 127;

#[test]
fn lists_fail_at_the_first_place_that_fails_the_check() {
    let list = hall().into_list();
    let failing = |changes: &[(usize, u8)]| {
        let mut list = list.clone();
        changes.iter().for_each(|(at, value)| list[*at] = *value);
        hall_check(&list).unwrap_err().to_string()
    };
    // behind the model's record of 18 bytes: the records of 20, 22, 13 + 48 and 10 + 24 bytes of its first geometry, and the next
    let (first, second) = (SECOND + 18, SECOND + 18 + 20 + 22 + 13 + 48 + 10 + 24);
    let (triangles, layout) = (12, 20 + 22 + 6);
    let at = "model 1, geometry 0";
    assert_eq!(
        failing(&[(second + triangles, 7), (first + triangles, 9)]),
        format!("{COUNTS_17}: {at}: index count 6, but 3 x triangle count 27")
    );
    // 17 fails in the first geometry of all, 14 in the last
    let text = format!("{STRIDES_14}: model 1, geometry 1: the layout is 2, Gen9");
    assert_eq!(failing(&[(14 + triangles, 7), (second + layout, 2)]), text);
    let mapping =
        "check 12: a model's mapping is not the list of its geometries' shader ids: it needs one entry for each geometry, in their order";
    let text = format!("{mapping}: model 1, geometry 2: shader mapping entry 9, but shader id 0");
    assert_eq!(failing(&[(SECOND + 16, 9), (second + layout, 2)]), text);
    // the last geometry's triangles are 0, 1, 2 and 2, 1, 0
    let last = list.len() - 24;
    let text = format!("{DEGENERATE_27}: model 1, geometry 2: triangle 1 of the geometry is 2, 1, 1, with index 1 twice");
    assert_eq!(failing(&[(last + 20, 1)]), text);
    let text = format!("{DEGENERATE_27}: model 1, geometry 2: triangle 0 of the geometry is 2, 1, 2, with index 2 twice");
    assert_eq!(failing(&[(last, 2), (last + 20, 1)]), text);
    let text = format!("{DEGENERATE_27}: model 0, geometry 0: triangle 0 of the geometry is 0, 0, 2, with index 0 twice");
    assert_eq!(failing(&[(last, 2), (SECOND - 8, 0)]), text);
    // an index that names no vertex is told before, wherever it stands
    let text = format!("{INDEX_18}: model 1, geometry 2: index 5 of the geometry is 9, and it has 6 vertices");
    assert_eq!(failing(&[(last + 20, 9), (SECOND - 8, 0)]), text);
    let text = format!("{INDEX_18}: model 0, geometry 0: index 1 of the geometry is 9, and it has 3 vertices");
    assert_eq!(failing(&[(last, 2), (SECOND - 8, 9)]), text);
    // an entry too many in the second model
    let mut longer = [&list[..SECOND + 18], &[0, 0], &list[SECOND + 18..]].concat();
    longer[SECOND] += 2;
    assert_eq!(line(hall_check(&longer)), format!("{mapping}: model 1: shader mapping entries 4, but geometries 3"));
    // no vertices at all: both counts agree
    let mut empty = [&list[..69], &list[105..SECOND]].concat();
    (empty[30], empty[56], empty[65]) = (0, 7, 0);
    assert_eq!(line(hall_check(&empty)), format!("{COUNTS_16}: model 0, geometry 0: vertex count 0"));
    // no indices at all: all counts agree
    let mut empty = list[..SECOND].to_vec();
    empty.truncate(SECOND - 12);
    empty[22] = 0;
    empty[26] = 0;
    empty[105] = 4;
    empty[111] = 0;
    assert_eq!(hall_check(&empty).unwrap_err().to_string(), format!("{COUNTS_17}: model 0, geometry 0: index count 0"));
}

#[test]
fn given_geometries_are_told_what_is_wrong_with_them() {
    let mut hall = hall();
    let sound = given(3, &[0, 1, 2]);
    let mut words = |given: NewGeometry<'_>| line(hall.add_geometry(given));
    let declared = VertexDeclaration::position_only;
    assert_eq!(
        words(NewGeometry { declaration: declared(16), ..sound }),
        format!("{STRIDES_14}: stride 12, but stride of the declaration 16")
    );
    let normal = VertexDeclaration { flags: 8, types: 0x6000, ..declared(12) };
    assert_eq!(words(NewGeometry { declaration: normal, ..sound }), format!("{DECLARED_15}: the vertices have Normal Float3"));
    let wide = VertexDeclaration { types: 7, ..declared(12) };
    let text = format!("{DECLARED_15}: bytes of the components 16, but stride 12");
    assert_eq!(words(NewGeometry { declaration: wide, ..sound }), text);
    assert_eq!(words(NewGeometry { vertex_count: 0, vertices: &[], ..sound }), format!("{COUNTS_16}: 0 vertices are given"));
    let many = vec![0; 12 * 70_000];
    let text = format!("{COUNTS_16}: 70000 vertices are given");
    assert_eq!(words(NewGeometry { vertex_count: 70_000, vertices: &many, ..sound }), text);
    assert_eq!(words(given(3, &[0, 1, 2, 0])), format!("{COUNTS_17}: 4 indices are given"));
    assert_eq!(words(given(3, &[0])), format!("{COUNTS_17}: 1 index is given"));
    // the wrong indices come in when their number is right
    assert_eq!(words(given(3, &[9, 9])), format!("{COUNTS_17}: 2 indices are given"));
    assert_eq!(words(given(3, &[0, 2, 7, 8, 0, 0])), format!("{INDEX_18}: index 2 of the geometry is 7, and it has 3 vertices"));
    assert_eq!(words(given(1, &[0, 1, 0])), format!("{INDEX_18}: index 1 of the geometry is 1, and it has 1 vertex"));
    // one vertex and two make no triangle
    assert_eq!(words(given(1, &[0, 0, 0])), format!("{DEGENERATE_27}: triangle 0 of the geometry is 0, 0, 0, with index 0 three times"));
    assert_eq!(words(given(2, &[1, 0, 1])), format!("{DEGENERATE_27}: triangle 0 of the geometry is 1, 0, 1, with index 1 twice"));
    assert_eq!(words(given(2, &[1, 0, 2])), format!("{INDEX_18}: index 2 of the geometry is 2, and it has 2 vertices"));
    assert_eq!(
        words(given(3, &[0, 1, 2, 2, 1, 1, 0, 0, 0])),
        format!("{DEGENERATE_27}: triangle 1 of the geometry is 2, 1, 1, with index 1 twice")
    );
    // the bytes are judged first
    let text = "check 11: the vertices' bytes are not their count times their stride: 35 given, but 3 x 12 is 36";
    assert_eq!(words(NewGeometry { vertices: &[0; 35], ..given(3, &[9]) }), text);
}

#[test]
fn given_indices_are_told_what_is_wrong_with_them() {
    let mut hall = hall();
    assert_eq!(line(hall.replace_indices(1, 2, &[0; 5])), format!("{COUNTS_17}: model 1, geometry 2: 5 indices are given"));
    // by the vertices of that geometry, and not of the first
    let text = format!("{INDEX_18}: model 1, geometry 2: index 4 of the geometry is 6, and it has 6 vertices");
    assert_eq!(line(hall.replace_indices(1, 2, &[5, 4, 3, 2, 6, 9])), text);
    let text = format!("{DEGENERATE_27}: model 1, geometry 2: triangle 2 of the geometry is 4, 4, 3, with index 4 twice");
    let refused = hall.replace_indices(1, 2, &[5, 4, 3, 3, 4, 5, 4, 4, 3]).unwrap_err();
    assert_eq!((refused.to_string(), refused.place()), (text, Some(Place::new(1, Some(2), None))));
    let text = format!("{INDEX_18}: model 1, geometry 2: index 5 of the geometry is 6, and it has 6 vertices");
    assert_eq!(line(hall.replace_indices(1, 2, &[5, 5, 5, 0, 1, 6])), text);
}

#[test]
fn limits_are_counted() {
    let mut hall = hall();
    while hall.models().count() < 256 {
        hall.add_model(0, 0).unwrap();
    }
    assert_eq!(line(hall.add_model(0, 0)), format!("{LIMITS_13}: it would have 257 models and 4 geometries"));
    let models: Vec<u8> = (0..257).flat_map(|_| [6, 0, 0, 0, 1, 0, 0, 0, 0, 0, 0, 0]).collect();
    assert_eq!(line(hall_check(&models)), format!("{LIMITS_13}: it would have 257 models and no geometries"));
}

/// A geometry of 65,535 vertices that are `stride` bytes apart.
fn large(bytes: &[u8], stride: u16) -> NewGeometry<'_> {
    let declaration = VertexDeclaration::position_only(stride);
    let vertices = &bytes[..65_535 * usize::from(stride)];
    NewGeometry { shader_id: 0, declaration, vertex_stride: stride, vertex_count: 65_535, vertices, indices: &[0, 1, 2] }
}

fn over(bytes: u64) -> String {
    let over = bytes - 67_108_864;
    format!("check 19: the hall is too large to be saved: its image would have {bytes} bytes, {over} over the limit of 67108864")
}

#[test]
fn an_image_that_is_too_long_is_measured() {
    let bytes = vec![0; 65_535 * 1_024];
    let mut hall = hall();
    let small = hall.save().unwrap().len() as u64;
    // the pointers of 4 geometries in the second model have 32 bytes, as those of 3
    let geometry = |vertex_bytes: u64, indices: u64| 160 + 128 + 16 + vertex_bytes.div_ceil(16) * 16 + 96 + (2 * indices).div_ceil(16) * 16;
    let added = small + geometry(65_535 * 1_024, 3);
    assert_eq!(line(hall.add_geometry(large(&bytes, 1_024))), over(added));
    assert_eq!(line(hall.add_geometry(large(&bytes, 1_024))), over(added));
    hall.add_geometry(large(&bytes, 1_000)).unwrap();
    let length = hall.save().unwrap().len() as u64;
    let mut many = [0, 1, 2].repeat(1_000_000);
    assert_eq!(line(hall.replace_indices(1, 3, &many)), over(length - 16 + 6_000_000));
    // of another geometry, whose six indices have 16 bytes as well
    assert_eq!(line(hall.replace_indices(1, 0, &many)), over(length - 16 + 6_000_000));
    // a degenerate triangle is told before the length, and an index that names no vertex before it
    many[2_999_999] = 0;
    let text = format!("{DEGENERATE_27}: model 1, geometry 0: triangle 999999 of the geometry is 0, 1, 0, with index 0 twice");
    assert_eq!(line(hall.replace_indices(1, 0, &many)), text);
    many[2_999_998] = 4;
    let text = format!("{INDEX_18}: model 1, geometry 0: index 2999998 of the geometry is 4, and it has 4 vertices");
    assert_eq!(line(hall.replace_indices(1, 0, &many)), text);
    let degenerate = NewGeometry { indices: &[0, 1, 0], ..large(&bytes, 1_024) };
    assert_eq!(line(hall.add_geometry(degenerate)), format!("{DEGENERATE_27}: triangle 0 of the geometry is 0, 1, 0, with index 0 twice"));
}

#[test]
fn a_model_too_many_is_measured() {
    let mut hall = Hall::new();
    hall.add_model(0, 0).unwrap();
    let bytes = vec![0; 65_535 * 1_023];
    hall.add_geometry(large(&bytes, 1_023)).unwrap();
    let rest = 67_108_864 - hall.save().unwrap().len();
    // 16 bytes of indices there are already
    hall.replace_indices(0, 0, &[0, 1, 2].repeat((rest + 16) / 2 / 3)).unwrap();
    let length = hall.save().unwrap().len() as u64;
    assert_eq!(length, 67_108_864);
    // one block; the pointers of two models have 16 bytes, as that of one
    assert_eq!(line(hall.add_model(0, 0)), over(length + 0x30));
    let mut list = hall.into_list();
    list.extend([6, 0, 0, 0, 1, 0, 0, 0, 0, 0, 0, 0].repeat(2));
    assert_eq!(line(hall_check(&list)), over(length + 0x60 + 16));
}

#[test]
fn a_drawable_of_too_long_an_image_is_measured() {
    let bytes = vec![0; 65_535 * 1_000];
    let mut hall = Hall::new();
    hall.add_model(0, 0).unwrap();
    hall.add_geometry(large(&bytes, 1_000)).unwrap();
    let mut image = hall.save().unwrap();
    // a second model pointer, to the same model
    let pointers = pointer(&image, 0);
    let same = image[pointers..pointers + 8].to_vec();
    put(&mut image, pointers + 8, &same);
    put(&mut image, 8, &[2]);
    let twice = 2 * image.len() as u64 - 32;
    assert_eq!(taken_in(&image).to_string(), over(twice));
}

#[test]
fn a_hall_beyond_the_limit_is_refused() {
    let image = hall().save().unwrap();
    let sections = Sections::new(&image, &[]);
    let length = hall().list().len();
    let within = |limit| Hall::from_sections_within(&sections, Sections::SYSTEM, limit);
    assert_eq!(within(length), Ok(hall()));
    assert_eq!(within(usize::MAX), Ok(hall()));
    let refusal = within(length - 1).unwrap_err();
    let words = format!("check 24: the buffer for the hall is too short: {length} bytes are needed, and the limit is {}", length - 1);
    assert_eq!(refusal.to_string(), words);
    assert_eq!((refusal.needed(), refusal.lent()), (Some(length as u64), Some(length as u64 - 1)));
    assert_eq!(Hall::from_sections_within(&Sections::new(&[0; 16], &[]), Sections::SYSTEM, 0), Ok(Hall::new()));
    // the hall can be edited as any other
    let mut hall = within(length).unwrap();
    hall.add_model(1, 2).unwrap();
    assert_eq!(hall.models().count(), 3);
}

#[test]
fn a_refused_drawable_within_a_limit_is_looked_into_if_the_limit_allows() {
    let mut image = hall().save().unwrap();
    let at = block(&image, 1, 1);
    put(&mut image, at + 0x18, &[0; 8]);
    let within = |limit| Hall::from_sections_within(&Sections::new(&image, &[]), Sections::SYSTEM, limit).unwrap_err().to_string();
    assert_eq!(within(100_000), "check 11: model 1, geometry 1 has no vertices: its address or inline data leads to none");
    assert_eq!(within(100), "check 11: a geometry lacks its vertices or its indices: in a hall each has both");
}

/// A sequence of numbers that is the same in each run.
struct Numbers(u64);

impl Numbers {
    fn below(&mut self, limit: u64) -> u64 {
        self.0 = self.0.wrapping_mul(6364136223846793005).wrapping_add(1442695040888963407);
        (self.0 >> 33) % limit
    }
}

fn record(kind: u8, body: &[u8]) -> Vec<u8> {
    [&(body.len() as u32).to_le_bytes()[..], &[kind, 0], body].concat()
}

/// The records of a geometry with shader id 0, in which up to two numbers may be wrong.
fn any_geometry(numbers: &mut Numbers) -> Vec<u8> {
    let mut list = Hall::new();
    list.add_model(0, 0).unwrap();
    list.add_geometry(given(4, &[0, 1, 2, 3, 2, 1])).unwrap();
    let mut bytes = list.into_list()[14..].to_vec();
    for _ in 0..numbers.below(3) {
        // index count, triangle count, vertex count, stride; stride, flags and type declared; layout; an index
        let places = [8, 12, 16, 18, 30, 26, 34, 48, 20 + 22 + 13 + 48 + 10 + 4];
        bytes[places[numbers.below(9) as usize]] = numbers.below(5) as u8;
    }
    bytes
}

fn list_of(geometries: &[Vec<u8>]) -> Vec<u8> {
    [record(1, &vec![0; 6 + 2 * geometries.len()]), geometries.concat()].concat()
}

/// The geometry that is named fails the check by itself, and no other before it does.
#[test]
fn places_are_the_first_that_fail_the_check() {
    let mut numbers = Numbers(5);
    let mut seen = [0; 28];
    for _ in 0..2000 {
        let models: Vec<Vec<Vec<u8>>> =
            (0..1 + numbers.below(3)).map(|_| (0..numbers.below(4)).map(|_| any_geometry(&mut numbers)).collect()).collect();
        let list: Vec<u8> = models.iter().flat_map(|model| list_of(model)).collect();
        let Err(refusal) = hall_check(&list) else { continue };
        seen[usize::from(refusal.number())] += 1;
        let alone = |bytes: &Vec<u8>| hall_check(&list_of(std::slice::from_ref(bytes))).map_or_else(|alone| alone.number(), |()| 0);
        let mut failing = models.iter().zip(0..).flat_map(|(model, number)| {
            model.iter().zip(0..).filter(|(bytes, _)| alone(bytes) == refusal.number()).map(move |(_, place)| (number, place))
        });
        let (model, geometry) = failing.next().unwrap();
        assert_eq!(refusal.place(), Some(Place::new(model, Some(geometry), None)), "{refusal}");
        assert!(refusal.to_string().contains(&format!(": model {model}, geometry {geometry}: ")), "{refusal}");
    }
    assert!((14..=18).chain([27]).all(|check| seen[check] > 10), "{seen:?}");
}

/// A geometry of a drawable as a hall would have it, in a list of its own; none where it lacks something.
fn alone(geometry: &DrawableGeometry<'_>) -> Option<Vec<u8>> {
    let (vertices, indices) = (geometry.vertex_buffer?, geometry.index_buffer?);
    let declaration = vertices.declaration_or_position_only();
    let numbers = [&[0; 2][..], &geometry.indices_count.to_le_bytes(), &geometry.triangles_count.to_le_bytes()].concat();
    let numbers = [&numbers[..], &geometry.vertices_count.to_le_bytes(), &geometry.vertex_stride.to_le_bytes()].concat();
    let declared = [&declaration.flags.to_le_bytes()[..], &declaration.stride.to_le_bytes(), &[0, 0]].concat();
    let declared = [&declared[..], &declaration.types.to_le_bytes()].concat();
    let content = [&[0][..], &vertices.vertex_stride.to_le_bytes(), &vertices.vertex_count.to_le_bytes(), vertices.data].concat();
    let held: Vec<u8> = indices.indices().flat_map(u32::to_le_bytes).collect();
    let held = [&indices.indices_count.to_le_bytes()[..], &held].concat();
    let records = [record(2, &numbers), record(3, &declared), record(4, &content), record(5, &held)];
    Some(list_of(&[records.concat()]))
}

/// The check that a geometry of a drawable fails by itself, 0 for none.
fn fails(geometry: &DrawableGeometry<'_>) -> u8 {
    alone(geometry).map_or(11, |list| hall_check(&list).map_or_else(|refusal| refusal.number(), |()| 0))
}

/// Drawables with wrong bytes: what is named fails the check by itself, and nothing before it does.
#[test]
fn places_of_drawables_are_the_first_that_fail_the_check() {
    let sample = |name: &str| std::fs::read(format!("{}/samples/{name}", env!("CARGO_MANIFEST_DIR"))).unwrap();
    let drawables = [(sample("layouts.system"), sample("layouts.graphics")), (hall().save().unwrap(), Vec::new())];
    let mut numbers = Numbers(11);
    let mut seen = [0; 28];
    for step in 0..6000 {
        let (mut system, graphics) = drawables[step % 2].clone();
        for _ in 0..1 + numbers.below(3) {
            let at = numbers.below(system.len() as u64) as usize;
            system[at] = if numbers.below(2) == 0 { numbers.below(256) as u8 } else { numbers.below(4) as u8 };
        }
        let sections = Sections::new(&system, &graphics);
        let Err(refusal) = Hall::from_sections_within(&sections, Sections::SYSTEM, 1 << 22) else { continue };
        seen[usize::from(refusal.number())] += 1;
        if !matches!(refusal.number(), 11 | 14..=18 | 27) {
            continue;
        }
        let list = sections.hall_list(Sections::SYSTEM).unwrap();
        let first = list.models().zip(0..).find_map(|(model, number)| {
            let place = model.geometries().position(|geometry| fails(&geometry) == refusal.number())?;
            Some(Place::new(number, Some(place as u64), None))
        });
        assert_eq!(refusal.place(), first, "{refusal}");
        assert!(first.is_some() && refusal.to_string().contains(&format!("{}", first.unwrap())), "{refusal}");
    }
    assert!([11, 14, 15, 16, 17, 18, 27].iter().all(|check| seen[*check] > 5), "{seen:?}");
}
