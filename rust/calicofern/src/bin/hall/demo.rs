//! `hall demo`: a sample hall, from reading to unified vertices, and through an edit to a saved drawable and back.

use crate::arguments::Arguments;
use crate::failure::Failure;
use crate::output::write;
use crate::source::{Drawable, Source, What};
use crate::table::{counted, Table};
use crate::{list, mesh, obj, show, vertices};
use calicofern::{Hall, Refusal, Sections, UnifiedVertex, Vertices, ALLOCATION_LIMIT};
use std::fs;
use std::path::PathBuf;

const SHOEBOX: &[u8] = include_bytes!("../../../samples/shoebox.system");

pub fn run(mut arguments: Arguments) -> Result<String, Failure> {
    let folder = arguments.option("--out")?.map_or_else(|| std::env::temp_dir().join("hall-demo"), PathBuf::from);
    arguments.finish()?;
    let path = |name: &str| folder.join(name).display().to_string();
    fs::create_dir_all(&folder).map_err(|error| Failure::File(folder.display().to_string(), error))?;

    let drawable = Drawable { system: SHOEBOX.to_vec(), graphics: Vec::new(), at: Sections::SYSTEM, limit: ALLOCATION_LIMIT };
    let (line, hall) = Source { name: "samples/shoebox".to_string(), what: What::Drawable(drawable) }.list()?;
    let mut text = "A concert hall of 20 x 32 x 14 m, as hall list shows it\n\n".to_string();
    text += &list::shown(&line, &hall);
    write(&path("shoebox.list"), hall.as_bytes())?;

    let balcony = hall.models().nth(1).and_then(|model| model.geometries().nth(2));
    if let Some(stored) = balcony.and_then(|geometry| geometry.vertex_buffer) {
        text += "\nThe balcony, geometry 2 of model 1: its first vertices as they are stored\n\n";
        text += &vertices::shown(&stored, 0, 3)?;
        text += "\nand unified, in the form that every declaration is brought to\n\n";
        text += &unified_shown(&stored, 3)?;
        vertices::write_unified(&stored, &path("balcony.unified"))?;
    }

    obj::write(mesh::geometries(hall.as_bytes()), &path("shoebox.obj"))?;

    let mut edited = read_back(SHOEBOX)?;
    show::draw(edited.list(), &path("shoebox.svg"))?;
    text += "\nThe balcony taken out, and one index too high, as an editor might do it\n\n";
    text += &edit(&mut edited)?;
    let image = edited.save()?;
    write(&path("edited.system"), &image)?;
    let again = read_back(&image)?;
    show::draw(again.list(), &path("edited.svg"))?;
    text += &format!("saved as a drawable of {}", counted(image.len() as u64, "byte", "bytes"));
    text += if again == edited { ", and read back as the same hall\n" } else { ", and read back as another hall\n" };

    let mut wrote = Table::new(&["wrote", ""], &["wrote", ""]);
    wrote.row(vec![path("shoebox.list"), format!("the list, {}", counted(hall.as_bytes().len() as u64, "byte", "bytes"))]);
    wrote.row(vec![path("balcony.unified"), format!("the balcony's unified vertices, {} bytes each", UnifiedVertex::SIZE)]);
    wrote.row(vec![path("shoebox.obj"), "the whole hall as Wavefront OBJ, to look at in any 3D viewer".to_string()]);
    wrote.row(vec![path("edited.system"), "the edited hall as a drawable".to_string()]);
    wrote.row(vec![path("shoebox.svg"), "plan and long section before the edit".to_string()]);
    wrote.row(vec![path("edited.svg"), "and after it, without the balcony".to_string()]);
    text += "\n";
    text += &wrote.text();
    Ok(text)
}

/// The hall of a drawable's system section.
fn read_back(system: &[u8]) -> Result<Hall, Refusal> {
    Hall::from_sections(&Sections::new(system, &[]), Sections::SYSTEM)
}

/// Removes the balcony; an index beyond its geometry's vertices is refused. What each call came to.
fn edit(hall: &mut Hall) -> Result<String, Failure> {
    let before = hall.triangle_count();
    hall.remove_geometry(1, 2)?;
    let removed = format!("remove-geometry 1 2: {before} triangles, then {}\n", hall.triangle_count());
    let refused = match hall.replace_indices(0, 0, &[0, 1, 65_535]) {
        Err(refusal) => refusal.to_string(),
        Ok(()) => "accepted".to_string(),
    };
    Ok(format!("{removed}replace-indices 0 0 0 1 65535: {refused}\n"))
}

/// Some of the fields of the first unified vertices.
fn unified_shown(stored: &Vertices<'_>, count: usize) -> Result<String, Failure> {
    let mut table = Table::new(&["vertex", "position", "normal", "texcoord0", "color0", "tangent"], &[]);
    for (number, vertex) in stored.to_unified_vertices()?.iter().take(count).enumerate() {
        table.row(vec![
            number.to_string(),
            spaced(&vertex.position),
            spaced(&vertex.normal),
            spaced(&vertex.texcoord0),
            spaced(&vertex.color0),
            spaced(&vertex.tangent),
        ]);
    }
    Ok(table.text())
}

fn spaced(values: &[impl ToString]) -> String {
    values.iter().map(|value| value.to_string()).collect::<Vec<_>>().join(" ")
}
