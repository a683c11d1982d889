//! Halls in files: a hall's file is its list.

use crate::arguments::Arguments;
use crate::failure::Failure;
use crate::files::Files;
use crate::output::write;
use crate::progress;
use crate::source::{hall_in, read_hall, Source, What};
use crate::table::counted;
use calicofern::{Hall, Sections};
use std::fs;

/// The next word, a file's path.
pub fn path(arguments: &mut Arguments, what: &str) -> Result<String, Failure> {
    arguments.word().ok_or_else(|| Failure::Usage(format!("no {what}; --help behind the command says what it wants")))
}

/// What a hall has, in one line.
pub fn said(hall: &Hall) -> String {
    format!(
        "{}, {}, {}, {}",
        counted(hall.models().count() as u64, "model", "models"),
        counted(hall.geometries().count() as u64, "geometry", "geometries"),
        counted(hall.triangle_count(), "triangle", "triangles"),
        counted(hall.list().len() as u64, "byte", "bytes")
    )
}

/// Writes a hall's file, and says so.
pub fn written(hall: &Hall, path: &str) -> Result<String, Failure> {
    write(path, hall.list())?;
    Ok(format!("wrote {path}: {}\n", said(hall)))
}

/// `hall check`: whether a file is a hall, or a drawable that can be taken in as one.
pub fn check(mut arguments: Arguments) -> Result<String, Failure> {
    let source = Source::read(&mut arguments, &mut Files::default())?;
    arguments.finish()?;
    let name = source.name;
    let (hall, is) = match source.what {
        What::Hall(bytes) => (hall_in(&name, bytes)?, "is"),
        What::Drawable(drawable) => {
            let sections = drawable.sections();
            let hall = progress::during("taking in the drawable", || Hall::from_sections_within(&sections, drawable.at, drawable.limit))?;
            (hall, "is a drawable, which taken in is")
        }
    };
    Ok(match hall.models().next() {
        Some(_) => format!("{name} {is} a hall: {}\n", said(&hall)),
        None => format!("{name} {is} an empty hall: it has no models\n"),
    })
}

/// `hall new`: a hall without models.
pub fn new(mut arguments: Arguments) -> Result<String, Failure> {
    let force = arguments.flag("--force")?;
    let file = path(&mut arguments, "file")?;
    arguments.finish()?;
    let held = fs::metadata(&file).map_or(0, |data| data.len());
    if held > 0 && !force {
        let bytes = counted(held, "byte", "bytes");
        return Err(Failure::Usage(format!("{file} is there and has {bytes}: a new hall takes its place only with --force")));
    }
    written(&Hall::new(), &file)
}

/// `hall take-in`: the hall of a drawable.
pub fn take_in(mut arguments: Arguments) -> Result<String, Failure> {
    let file = arguments.option("--out")?.ok_or_else(|| Failure::Usage("no file for the hall: give --out FILE".to_string()))?;
    let mut files = Files::default();
    files.note_output(&file)?;
    let source = Source::read(&mut arguments, &mut files)?;
    arguments.finish()?;
    let What::Drawable(drawable) = source.what else {
        return Err(Failure::Usage(format!("{} is a hall already: there is nothing to take in", source.name)));
    };
    let sections = drawable.sections();
    let hall = progress::during("taking in the drawable", || Hall::from_sections_within(&sections, drawable.at, drawable.limit))?;
    written(&hall, &file)
}

/// `hall save`: a hall as a drawable's system section.
pub fn save(mut arguments: Arguments) -> Result<String, Failure> {
    let file = path(&mut arguments, "hall")?;
    let out = path(&mut arguments, "file for the system section")?;
    arguments.finish()?;
    let mut files = Files::default();
    files.note_output(&out)?;
    let hall = read_hall(&file, &mut files)?;
    let image = progress::during("saving the hall", || hall.save())?;
    write(&out, &image)?;
    Ok(format!("wrote {out}: {} of system section, to be read at {:#x}\n", counted(image.len() as u64, "byte", "bytes"), Sections::SYSTEM))
}
