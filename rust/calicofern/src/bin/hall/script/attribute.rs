//! The call set-attribute.

use super::names::semantic;
use super::number::{Form, Infinite};
use super::words::Words;
use crate::failure::Failure;
use calicofern::{Hall, VertexAttributeValue, VertexSemantic};

/// MODEL GEOMETRY VERTEX SEMANTIC NUMBER..
pub fn set_attribute(hall: &mut Hall, mut words: Words<'_>) -> Result<Infinite, Failure> {
    let (model, geometry, vertex) = (words.number("model")?, words.number("geometry")?, words.number("vertex")?);
    let semantic = semantic(words.word("semantic")?)?;
    let form = declared(hall, model, geometry, semantic);
    let mut infinite = Infinite::default();
    let numbers = words.rest().map(|word| form.read(word, &mut infinite)).collect::<Result<Vec<f32>, Failure>>()?;
    let value = match *numbers.as_slice() {
        // each is a whole number from 0 to 255
        [a, b, c, d] if form == Form::Byte => VertexAttributeValue::UByte4([a, b, c, d].map(|number| number as u8)),
        [x] => VertexAttributeValue::Float(x),
        [x, y] => VertexAttributeValue::Float2([x, y]),
        [x, y, z] => VertexAttributeValue::Float3([x, y, z]),
        [x, y, z, w] => VertexAttributeValue::Float4([x, y, z, w]),
        _ => return Err(Failure::Usage(format!("an attribute has 1 to 4 numbers, and {} are given", numbers.len()))),
    };
    hall.set_attribute(model, geometry, vertex, semantic, value)?;
    Ok(infinite)
}

/// How the geometry stores the numbers of an attribute. Where it has none, or is not there, the call is refused, whatever they are.
fn declared(hall: &Hall, model: u64, geometry: u64, semantic: VertexSemantic) -> Form {
    let declaration = hall.geometry(model, geometry).and_then(|geometry| geometry.declaration);
    let components = declaration.map_or(Vec::new(), |declaration| declaration.components());
    components.iter().find(|component| component.semantic == semantic).map_or(Form::Float, |component| Form::of(component.component_type))
}
