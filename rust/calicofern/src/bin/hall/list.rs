//! `hall list`: what a drawable or a hall holds.

use crate::arguments::Arguments;
use crate::failure::Failure;
use crate::files::Files;
use crate::output::write;
use crate::progress;
use crate::said::Said;
use crate::source::Source;
use crate::table::{counted, grouped, Table};
use calicofern::{DrawableGeometry, DrawableModel, HallList, VertexDeclaration};

pub fn run(mut arguments: Arguments) -> Result<Said, Failure> {
    let bytes = arguments.option("--bytes")?;
    let strict = arguments.flag("--strict")?;
    let mut files = Files::default();
    bytes.as_ref().map_or(Ok(()), |path| files.note_output(path))?;
    let source = Source::read(&mut arguments, &mut files)?;
    arguments.finish()?;
    let (line, hall) = source.list()?;
    let found = progress::during("comparing the counts", || Found::of(&hall));
    let mut text = found.shown(&line, &hall);
    if let Some(path) = bytes {
        write(&path, hall.as_bytes())?;
        text += &format!("wrote the list, {}, to {path}\n", counted(hall.as_bytes().len() as u64, "byte", "bytes"));
    }
    Ok(Said::strictly(text, strict, found.disagreeing().as_slice()))
}

/// The list under a line that says where it is from: its models and geometries, its declarations, and what disagrees.
pub fn shown(line: &str, hall: &HallList) -> String {
    Found::of(hall).shown(line, hall)
}

const TITLES: [&str; 11] =
    [" ", "geometry", "shader", "triangles", "indices", "found", "vertices", "found", "stride", "layout", "declaration"];

/// What was met on the way through a list.
struct Found {
    /// Each model's line, and how many geometries it has.
    models: Vec<(String, usize)>,
    /// A row for each geometry.
    geometries: Table,
    declarations: Vec<VertexDeclaration>,
    disagreements: Vec<String>,
}

impl Found {
    fn of(hall: &HallList) -> Self {
        let geometries = Table::new(&TITLES, &[" ", "layout", "declaration"]);
        let mut found = Found { models: Vec::new(), geometries, declarations: Vec::new(), disagreements: Vec::new() };
        for model in hall.models() {
            found.add(&model);
        }
        found
    }

    fn shown(&self, line: &str, hall: &HallList) -> String {
        if self.models.is_empty() {
            return format!(
                "{line}\nno models: the hall is empty, or the LOD header at this address lists none or is not inside its section\n"
            );
        }
        let models = counted(self.models.len() as u64, "model", "models");
        let geometries = counted(self.models.iter().map(|(_, count)| *count as u64).sum(), "geometry", "geometries");
        let triangles = counted(hall.triangle_count(), "triangle", "triangles");
        let (shown, declared) = (self.models_shown(), self.declarations_shown());
        format!("{line}\n{shown}{declared}\n{models}, {geometries}, {triangles}\n{}", self.disagreements_shown())
    }

    /// How many pairs disagree, where any does.
    fn disagreeing(&self) -> Option<String> {
        match self.disagreements.len() {
            0 => None,
            1 => Some("1 pair of numbers disagrees".to_string()),
            many => Some(format!("{} pairs of numbers disagree", grouped(many as u64))),
        }
    }

    fn add(&mut self, model: &DrawableModel<'_>) {
        let number = self.models.len();
        let own = model.disagreements();
        self.disagreements.extend(own.iter().map(|pair| format!("model {number}: {pair}")));
        let mut geometries = 0;
        for geometry in model.geometries() {
            let pairs = geometry.disagreements();
            self.disagreements.extend(pairs.iter().map(|pair| format!("model {number} geometry {geometries}: {pair}")));
            let row = self.row(geometries, &geometry, !pairs.is_empty());
            self.geometries.row(row);
            geometries += 1;
        }
        let line = format!(
            "\nmodel {number}: binding {:#010x} (bone {}, {}), mask {:#06x}, {}{}\n",
            model.skeleton_binding,
            model.bone_index(),
            if model.is_skinned() { "skinned" } else { "not skinned" },
            model.render_mask_flags,
            counted(geometries as u64, "geometry", "geometries"),
            if own.is_empty() { "" } else { "  !" },
        );
        self.models.push((line, geometries));
    }

    /// Each model's line and its part of the table, under the titles.
    fn models_shown(&self) -> String {
        let lines = self.geometries.lines();
        let mut text = String::new();
        let mut at = 1;
        for (line, count) in &self.models {
            text += line;
            if *count > 0 {
                text += &lines[0];
            }
            text += &lines[at..at + count].concat();
            at += count;
        }
        text
    }

    fn row(&mut self, place: usize, geometry: &DrawableGeometry<'_>, marked: bool) -> Vec<String> {
        let found = |number: Option<u64>| number.map_or("none".to_string(), grouped);
        let (layout, declaration) = match (geometry.vertex_buffer, geometry.declaration) {
            (Some(vertices), Some(declaration)) => (vertices.layout.to_string(), format!("d{}", self.declared(declaration))),
            (Some(vertices), None) => (vertices.layout.to_string(), "none".to_string()),
            (None, _) => ("none".to_string(), "none".to_string()),
        };
        vec![
            if marked { "!" } else { "" }.to_string(),
            place.to_string(),
            geometry.shader_id.to_string(),
            grouped(geometry.triangles_count),
            grouped(geometry.indices_count),
            found(geometry.index_buffer.map(|buffer| buffer.indices().len() as u64)),
            grouped(geometry.vertices_count),
            found(geometry.vertex_buffer.map(|vertices| u64::from(vertices.vertex_count))),
            geometry.vertex_stride.to_string(),
            layout,
            declaration,
        ]
    }

    /// The number of a declaration among those met.
    fn declared(&mut self, declaration: VertexDeclaration) -> usize {
        self.declarations.iter().position(|known| *known == declaration).unwrap_or_else(|| {
            self.declarations.push(declaration);
            self.declarations.len() - 1
        })
    }

    fn declarations_shown(&self) -> String {
        if self.declarations.is_empty() {
            return String::new();
        }
        let mut table = Table::new(&["declaration", "stride", "components"], &["declaration", "components"]);
        for (number, declaration) in self.declarations.iter().enumerate() {
            table.row(vec![format!("d{number}"), declaration.stride.to_string(), declaration.to_string()]);
        }
        format!("\n{}", table.text())
    }

    fn disagreements_shown(&self) -> String {
        let mut text = self.disagreeing().map_or("all counts agree\n".to_string(), |said| format!("{said}:\n"));
        for line in &self.disagreements {
            text += &format!("! {line}\n");
        }
        text
    }
}
