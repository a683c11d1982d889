//! The calls of a script.

use super::attribute::set_attribute;
use super::geometry::add_geometry;
use super::names::unknown;
use super::number::Infinite;
use super::words::Words;
use crate::failure::Failure;
use crate::files::Files;
use crate::source::section;
use calicofern::{Hall, Sections};

const CALLS: [&str; 7] = ["add-model", "add-geometry", "remove-geometry", "remove-model", "set-attribute", "replace-indices", "take-in"];

/// Does the call of a line, and gives its numbers that became infinite; nothing where the line has no call.
pub fn call(hall: &mut Hall, files: &mut Files, line: &str) -> Result<Option<Infinite>, Failure> {
    let mut words = Words::of(line);
    let Some(name) = words.next() else { return Ok(None) };
    match name {
        "add-geometry" => return add_geometry(hall, words).map(Some),
        "set-attribute" => return set_attribute(hall, words).map(Some),
        "add-model" => {
            let (binding, mask) = (words.number("binding")?, words.number("mask")?);
            words.finish()?;
            hall.add_model(binding, mask)?;
        }
        "remove-geometry" => {
            let (model, geometry) = (words.number("model")?, words.number("geometry")?);
            words.finish()?;
            hall.remove_geometry(model, geometry)?;
        }
        "remove-model" => {
            let model = words.number("model")?;
            words.finish()?;
            hall.remove_model(model)?;
        }
        "replace-indices" => {
            let (model, geometry) = (words.number("model")?, words.number("geometry")?);
            hall.replace_indices(model, geometry, &words.numbers("index")?)?;
        }
        "take-in" => take_in(hall, files, words)?,
        other => return Err(unknown("call", other, &CALLS)),
    }
    Ok(Some(Infinite::default()))
}

/// ADDRESS SYSTEM-FILE [GRAPHICS-FILE]
fn take_in(hall: &mut Hall, files: &mut Files, mut words: Words<'_>) -> Result<(), Failure> {
    let address = words.number("address")?;
    let system = words.word("system section's file")?;
    let graphics = words.next();
    words.finish()?;
    let system = section(system, files)?;
    let graphics = graphics.map_or(Ok(Vec::new()), |path| section(path, files))?;
    Ok(hall.take_in(&Sections::new(&system, &graphics), address)?)
}
