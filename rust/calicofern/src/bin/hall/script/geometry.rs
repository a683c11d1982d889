//! The call add-geometry: its components, and the numbers of its vertices.

use super::names::{component_type, semantic};
use super::number::{Form, Infinite};
use super::words::{cut, Words};
use crate::failure::Failure;
use calicofern::{Hall, NewGeometry, VertexComponentType, VertexDeclaration, VertexSemantic};

/// SHADER SEMANTIC:TYPE.. vertices NUMBER.. indices INDEX..
pub fn add_geometry(hall: &mut Hall, mut words: Words<'_>) -> Result<Infinite, Failure> {
    let shader_id = words.number("shader id")?;
    let layout = Layout::of(&components(&mut words)?);
    let mut infinite = Infinite::default();
    let vertices = layout.vertices(&mut words, &mut infinite)?;
    let indices: Vec<u32> = words.numbers("index")?;
    let stride = layout.declaration.stride;
    let count = vertices.len().checked_div(usize::from(stride)).unwrap_or(0);
    hall.add_geometry(NewGeometry {
        shader_id,
        declaration: layout.declaration,
        vertex_stride: stride,
        vertex_count: u32::try_from(count).unwrap_or(u32::MAX),
        vertices: &vertices,
        indices: &indices,
    })?;
    Ok(infinite)
}

type Component = (VertexSemantic, VertexComponentType);

/// The components up to the word `vertices`, as they are written.
fn components(words: &mut Words<'_>) -> Result<Vec<Component>, Failure> {
    let mut components: Vec<Component> = Vec::new();
    while let Some(word) = words.before("vertices")? {
        let new = component(word)?;
        if components.iter().any(|(semantic, _)| *semantic == new.0) {
            return Err(Failure::Usage(format!("{} is named twice", new.0)));
        }
        components.push(new);
    }
    if components.is_empty() {
        return Err(Failure::Usage("there is no component before 'vertices': write some, as Position:Float3".to_string()));
    }
    Ok(components)
}

/// SEMANTIC:TYPE
fn component(word: &str) -> Result<Component, Failure> {
    let Some((name, type_name)) = word.split_once(':') else {
        let why = match word.parse::<f32>() {
            Ok(_) => format!("the word 'vertices' is missing before {}", cut(word)),
            Err(_) => format!("'{}' is no component: a semantic, a colon and a type, as Position:Float3", cut(word)),
        };
        return Err(Failure::Usage(why));
    };
    let (semantic, component_type) = (semantic(name)?, component_type(type_name)?);
    if component_type.size_in_bytes() == 0 {
        return Err(Failure::Usage(format!("{semantic} cannot be {component_type}: that type has no bytes")));
    }
    Ok((semantic, component_type))
}

/// Where the numbers of a vertex go. They are typed in the order in which the components are written; in the vertex the components lie in the order of
/// their semantics, as the format has it.
struct Layout {
    declaration: VertexDeclaration,
    /// For each number of a vertex, as typed: where it begins in the vertex, and how it is stored.
    places: Vec<(usize, Form)>,
}

impl Layout {
    fn of(components: &[Component]) -> Layout {
        let declaration = VertexDeclaration::of(components);
        let stored = declaration.components();
        let mut places = Vec::new();
        for (semantic, component_type) in components {
            let form = Form::of(*component_type);
            let offset = stored.iter().find(|stored| stored.semantic == *semantic).map_or(0, |stored| usize::from(stored.offset));
            let numbers = usize::from(component_type.component_count());
            places.extend((0..numbers).map(|number| (offset + number * form.size(), form)));
        }
        Layout { declaration, places }
    }

    /// The bytes of the vertices whose numbers stand before the word `indices`.
    fn vertices(&self, words: &mut Words<'_>, infinite: &mut Infinite) -> Result<Vec<u8>, Failure> {
        let mut vertices = Vec::new();
        let mut vertex = vec![0; usize::from(self.declaration.stride)];
        let (width, mut given) = (self.places.len(), 0usize);
        for (number, (at, form)) in (1..=width).zip(&self.places).cycle() {
            let Some(word) = words.before("indices")? else { break };
            form.store(form.read(word, infinite)?, vertex.get_mut(*at..).unwrap_or_default());
            given += 1;
            if number == width {
                vertices.extend_from_slice(&vertex);
            }
        }
        if given.is_multiple_of(width) {
            Ok(vertices)
        } else {
            Err(Failure::Usage(format!("the components take {width} numbers a vertex, and {given} are given")))
        }
    }
}

#[cfg(test)]
mod tests {
    use super::*;

    /// The hall of one geometry, or why there is none.
    fn made(line: &str) -> Result<Hall, String> {
        let mut hall = Hall::new();
        hall.add_model(0, 0).map_err(|refusal| refusal.to_string())?;
        add_geometry(&mut hall, Words::of(line)).map(|_| hall).map_err(|failure| failure.to_string())
    }

    #[test]
    fn numbers_follow_the_components_as_written() {
        let sorted = made("5 Position:Float3 Normal:Float3 vertices 1 2 3 4 5 6  7 8 9 10 11 12  0 0 0 1 1 1 indices 0 1 2").unwrap();
        let other = made("5 Normal:Float3 Position:Float3 vertices 4 5 6 1 2 3  10 11 12 7 8 9  1 1 1 0 0 0 indices 0 1 2").unwrap();
        assert_eq!(sorted, other);
        assert_eq!(sorted.unified_vertices(0, 0).unwrap()[1].position, [7.0, 8.0, 9.0]);
        // numbers of every length
        let thrice = |vertex: &str| [vertex; 3].join(" ");
        let sorted = format!(
            "5 Position:Half4 Normal:RGBA8SNorm Colour0:Colour TexCoord0:Float vertices {} indices 0 1 2",
            thrice("1 2 3 4 1 0 0 -1 5 6 7 8 9.5")
        );
        let other = format!(
            "5 TexCoord0:Float Colour0:Colour Position:Half4 Normal:RGBA8SNorm vertices {} indices 0 1 2",
            thrice("9.5 5 6 7 8 1 2 3 4 1 0 0 -1")
        );
        assert_eq!(made(&sorted).unwrap(), made(&other).unwrap());
    }

    #[test]
    fn every_type_is_stored_as_set_attribute_stores_it() {
        for nibble in (0..11).filter(|nibble| VertexComponentType::from_nibble(*nibble).size_in_bytes() > 0) {
            let of = VertexComponentType::from_nibble(nibble);
            let count = usize::from(of.component_count());
            let numbers = |numbers: [&str; 4]| numbers[..count].join(" ");
            let zeros = numbers(["0", "0", "0", "0"]);
            let line =
                |given: &str| format!("1 Tangent:{of} Position:Float3 vertices {given} 1 2 3 {zeros} 4 5 6 {zeros} 7 8 9 indices 0 1 2");
            let wanted = numbers(if Form::of(of) == Form::Byte { ["3", "255", "0", "77"] } else { ["0.1", "-0.999", "70000", "inf"] });
            let mut hall = made(&line(&zeros)).unwrap();
            super::super::attribute::set_attribute(&mut hall, Words::of(&format!("0 0 0 tangent {wanted}"))).map_err(|_| ()).unwrap();
            assert_eq!(made(&line(&wanted)).unwrap(), hall, "{of}");
        }
    }

    #[test]
    fn what_a_line_lacks() {
        for (line, why) in [
            ("5 Position:Float3 Normal:Float3 position:Half4 vertices 0 indices 0", "Position is named twice"),
            ("5 Position:Nothing vertices indices", "Position cannot be Nothing: that type has no bytes"),
            ("5 Position:Float3 Normal:floatunk vertices indices", "Normal cannot be FloatUnk: that type has no bytes"),
            ("5 vertices 0 0 0 indices 0 0 0", "there is no component before 'vertices': write some, as Position:Float3"),
            ("5 Position:Float3 0 0 0 indices 0 0 0", "the word 'vertices' is missing before 0"),
            ("5 Position:Float3", "the word 'vertices' is missing"),
            ("5 Position:Float3 vertices 0 0 0", "the word 'indices' is missing"),
            ("5 Position vertices 0", "'Position' is no component: a semantic, a colon and a type, as Position:Float3"),
            ("5 Position:Flaot3 vertices 0", "there is no type 'Flaot3'; did you mean Float3? 'hall help script' lists them"),
            ("5 Positon:Float3 vertices 0", "there is no semantic 'Positon'; did you mean Position? 'hall help script' lists them"),
            ("5 Position:Float3 vertices 0 0 indices 0 0 0", "the components take 3 numbers a vertex, and 2 are given"),
            ("5 Position:Float3 vertices 0 0 0 0 indices 0 0 0", "the components take 3 numbers a vertex, and 4 are given"),
            ("5 Position:Float3 vertices 0 x 0 indices 0 0 0", "'x' is no number"),
            ("5 Position:Float3 vertices 0 0 0 indices 0 0 -1", "'-1' is no index: a whole number from 0 to 4294967295"),
            ("65536 Position:Float3 vertices", "'65536' is no shader id: a whole number from 0 to 65535"),
        ] {
            assert_eq!(made(line).unwrap_err(), why, "{line}");
        }
        assert!(made("5 Position:Float3 vertices indices 0 0 0").unwrap_err().starts_with("check 16: "));
        assert!(made("5 Normal:Float3 vertices 0 0 0 indices 0 0 0").unwrap_err().starts_with("check 15: "));
        assert!(made("5 Position:Float3 vertices 0 0 0 indices").unwrap_err().starts_with("check 17: "));
        assert!(made("5 Position:Float3 vertices 0 0 0 indices 0 0 1").unwrap_err().starts_with("check 18: "));
        assert!(made("5 Position:Float3 vertices 0 0 0 indices 0 0 0").unwrap_err().starts_with("check 27: "));
    }
}
