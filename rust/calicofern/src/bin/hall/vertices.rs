//! `hall vertices`: the vertices of one geometry.

use crate::arguments::Arguments;
use crate::failure::Failure;
use crate::files::Files;
use crate::mesh::{geometries, Name};
use crate::obj;
use crate::output::Output;
use crate::progress;
use crate::said::Said;
use crate::source::Source;
use crate::table::{counted, Table};
use calicofern::{DrawableGeometry, HallList, UnifiedVertex, Vertices};
use std::io::Write;

/// What is asked for.
struct Asked {
    model: Option<u64>,
    geometry: Option<u64>,
    first: Option<u64>,
    count: Option<u64>,
    unified: Option<String>,
    obj: Option<String>,
    all: bool,
    strict: bool,
}

impl Asked {
    fn read(arguments: &mut Arguments) -> Result<Asked, Failure> {
        let asked = Asked {
            model: arguments.number("--model")?,
            geometry: arguments.number("--geometry")?,
            first: arguments.number("--vertex")?,
            count: arguments.number("--count")?,
            unified: arguments.option("--unified")?,
            obj: arguments.option("--obj")?,
            all: arguments.flag("--all")?,
            strict: arguments.flag("--strict")?,
        };
        if asked.all && (asked.obj.is_none() || asked.unified.is_some() || asked.model.is_some() || asked.geometry.is_some()) {
            return Err(Failure::Usage("--all goes with --obj alone: it writes every geometry".to_string()));
        }
        Ok(asked)
    }
}

pub fn run(mut arguments: Arguments) -> Result<Said, Failure> {
    let asked = Asked::read(&mut arguments)?;
    let mut files = Files::default();
    for path in asked.unified.iter().chain(&asked.obj) {
        files.note_output(path)?;
    }
    let source = Source::read(&mut arguments, &mut files)?;
    arguments.finish()?;
    let (_, hall) = source.list()?;
    if let (true, Some(path)) = (asked.all, &asked.obj) {
        let (text, left_out) = obj::write(geometries(hall.as_bytes()), path)?;
        return Ok(Said::strictly(text, asked.strict, &left_out));
    }
    let (model, geometry) = (asked.model.unwrap_or(0), asked.geometry.unwrap_or(0));
    let found = geometry_of(&hall, model, geometry)?;
    let vertices = vertices_of(&found, model, geometry)?;
    let (mut text, mut left_out) = (String::new(), Vec::new());
    if let Some(path) = &asked.unified {
        text += &write_unified(&vertices, path)?;
    }
    if let Some(path) = &asked.obj {
        let (said, left) = obj::write(std::iter::once((Name { model, geometry }, found)), path)?;
        text += &said;
        left_out = left;
    }
    if asked.unified.is_none() && asked.obj.is_none() {
        text += &shown(&vertices, asked.first.unwrap_or(0), asked.count.unwrap_or(8))?;
    }
    Ok(Said::strictly(text, asked.strict, &left_out))
}

fn geometry_of(hall: &HallList, model: u64, geometry: u64) -> Result<DrawableGeometry<'_>, Failure> {
    let place = |number: u64| usize::try_from(number).unwrap_or(usize::MAX);
    let models = counted(hall.models().count() as u64, "model", "models");
    let Some(found) = hall.models().nth(place(model)) else {
        return Err(Failure::Usage(format!("there is no model {model}: the file has {models}, numbered from 0")));
    };
    let geometries = counted(found.geometries().count() as u64, "geometry", "geometries");
    found
        .geometries()
        .nth(place(geometry))
        .ok_or_else(|| Failure::Usage(format!("there is no geometry {geometry} of model {model}: it has {geometries}, numbered from 0")))
}

fn vertices_of<'a>(geometry: &DrawableGeometry<'a>, model: u64, place: u64) -> Result<Vertices<'a>, Failure> {
    geometry
        .vertex_buffer
        .ok_or_else(|| Failure::Usage(format!("no vertices were found for geometry {place} of model {model}: nothing to show")))
}

/// The attributes of some vertices, a line for each. The first must be there; those beyond the last are left out.
pub fn shown(vertices: &Vertices<'_>, first: u64, count: u64) -> Result<String, Failure> {
    vertices.read_vertex_attributes(first)?;
    let components = vertices.declaration_or_position_only().components();
    let titles: Vec<String> = components.iter().map(|component| format!("{} {}", component.semantic, component.component_type)).collect();
    let titles: Vec<&str> = std::iter::once("vertex").chain(titles.iter().map(String::as_str)).collect();
    let mut table = Table::new(&titles, &[]);
    for index in first..first.saturating_add(count).min(vertices.vertex_count.into()) {
        let attributes = vertices.read_vertex_attributes(index)?;
        let values = attributes.iter().map(|attribute| attribute.value.to_string());
        table.row(std::iter::once(index.to_string()).chain(values).collect());
    }
    Ok(table.text())
}

pub fn write_unified(vertices: &Vertices<'_>, path: &str) -> Result<String, Failure> {
    let mut out = Output::create(path)?;
    let count = u64::from(vertices.vertex_count);
    progress::of(&format!("writing {path}"), count, |progress| {
        vertices.unified_blocks(|block| {
            progress.add((block.len() / UnifiedVertex::SIZE) as u64);
            out.write_all(block).map_err(|error| out.failed(error))
        })
    })?;
    out.finish()?;
    Ok(format!("wrote {}, {} bytes each, to {path}\n", counted(count, "unified vertex", "unified vertices"), UnifiedVertex::SIZE))
}
