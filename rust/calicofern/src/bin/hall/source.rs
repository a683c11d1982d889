//! What a command is about: a hall's file, or a drawable's sections.

use crate::arguments::Arguments;
use crate::failure::Failure;
use crate::files::{Files, HALL};
use crate::progress;
use crate::table::grouped;
use calicofern::{hall_check, Hall, HallList, Sections, ALLOCATION_LIMIT};
use std::path::Path;

/// What a file is, by its first bytes.
#[derive(Debug, PartialEq, Eq)]
pub enum Kind {
    /// A hall's list: it begins with a whole record of a model, or has no bytes.
    Hall,
    /// A drawable packed as one file.
    Resource,
    /// Anything else may be a section of a drawable.
    Section,
}

/// The first four bytes of a packed resource: RSC7.
const RESOURCE: &[u8] = &0x3743_5352u32.to_le_bytes();

impl Kind {
    pub fn of(bytes: &[u8]) -> Kind {
        match bytes {
            [] => Kind::Hall,
            _ if bytes.starts_with(RESOURCE) => Kind::Resource,
            _ if begins_with_model(bytes) => Kind::Hall,
            _ => Kind::Section,
        }
    }
}

/// Whether a whole record of a model comes first: body length u32, 6 and 2 for each geometry; kind u16, 1; body.
fn begins_with_model(bytes: &[u8]) -> bool {
    let Some((length, rest)) = bytes.split_first_chunk::<4>() else { return false };
    let length = u64::from(u32::from_le_bytes(*length));
    rest.starts_with(&[1, 0]) && length >= 6 && length % 2 == 0 && length + 6 <= bytes.len() as u64
}

/// What to do with a packed resource.
pub fn packed(path: &str) -> Failure {
    Failure::Usage(format!(
        "{path} is a packed resource (RSC7): its two sections are what `prepare_rsc7` of the loader gives; write them to NAME.system and NAME.graphics, and give NAME"
    ))
}

/// A section's bytes.
pub fn section(path: &str, files: &mut Files) -> Result<Vec<u8>, Failure> {
    let bytes = files.section(path)?;
    match Kind::of(&bytes) {
        Kind::Resource => Err(packed(path)),
        Kind::Hall | Kind::Section => Ok(bytes),
    }
}

/// A drawable's sections, and where in them its LOD header is.
pub struct Drawable {
    pub system: Vec<u8>,
    pub graphics: Vec<u8>,
    pub at: u64,
    pub limit: usize,
}

impl Drawable {
    pub fn sections(&self) -> Sections<'_> {
        Sections::new(&self.system, &self.graphics)
    }

    pub fn list(&self) -> Result<HallList, Failure> {
        Ok(progress::during("reading the drawable", || self.sections().hall_list_within(self.at, self.limit))?)
    }
}

pub enum What {
    /// The bytes of a file that begins as a hall does, sound or not.
    Hall(Vec<u8>),
    Drawable(Drawable),
}

pub struct Source {
    /// As typed.
    pub name: String,
    pub what: What,
}

/// Where a drawable is read, as the options say it.
struct Where {
    graphics: Option<String>,
    at: Option<u64>,
    limit: Option<u64>,
}

impl Where {
    fn drawable(self, system: Vec<u8>, graphics: Vec<u8>) -> What {
        let limit = self.limit.map_or(ALLOCATION_LIMIT, |limit| usize::try_from(limit).unwrap_or(usize::MAX));
        What::Drawable(Drawable { system, graphics, at: self.at.unwrap_or(Sections::SYSTEM), limit })
    }
}

impl Source {
    /// The FILE of the help text: the file as typed where there is one, else its name with `.system` behind it.
    pub fn read(arguments: &mut Arguments, files: &mut Files) -> Result<Source, Failure> {
        let system = arguments.option("--system")?;
        let (graphics, at, limit) = (arguments.option("--graphics")?, arguments.number("--at")?, arguments.number("--limit")?);
        let given = Where { graphics, at, limit };
        if let Some(path) = system {
            let bytes = section(&path, files)?;
            let graphics = given.graphics.as_ref().map_or(Ok(Vec::new()), |path| section(path, files))?;
            return Ok(Source { name: path, what: given.drawable(bytes, graphics) });
        }
        let word =
            arguments.word().ok_or_else(|| Failure::Usage("no file: give a hall, a drawable's NAME, or --system FILE".to_string()))?;
        let there = Path::new(&word);
        if !word.ends_with(".system") && there.exists() && !there.is_dir() {
            return Source::in_file(word, given, files);
        }
        let name = word.strip_suffix(".system").unwrap_or(&word);
        let system = section(&format!("{name}.system"), files).map_err(|failure| missing(&word, failure))?;
        let graphics = match &given.graphics {
            Some(path) => section(path, files)?,
            None => files.section_if_there(&format!("{name}.graphics"))?,
        };
        Ok(Source { name: word, what: given.drawable(system, graphics) })
    }

    /// A file whose name says nothing about it.
    fn in_file(name: String, given: Where, files: &mut Files) -> Result<Source, Failure> {
        // a section is shorter than the longest hall; what is longer is neither
        let bytes = files.read(&name, HALL, "hall or section")?;
        let options = given.graphics.is_some() || given.at.is_some() || given.limit.is_some();
        let what = match Kind::of(&bytes) {
            Kind::Resource => return Err(packed(&name)),
            Kind::Hall if options => {
                return Err(Failure::Usage(format!("{name} is a hall: --graphics, --at and --limit are about a drawable's sections")))
            }
            Kind::Hall => What::Hall(bytes),
            Kind::Section => {
                let graphics = given.graphics.as_ref().map_or(Ok(Vec::new()), |path| section(path, files))?;
                given.drawable(bytes, graphics)
            }
        };
        Ok(Source { name, what })
    }

    /// The list, and a line that says what it was read from.
    pub fn list(self) -> Result<(String, HallList), Failure> {
        match self.what {
            What::Hall(bytes) => {
                let sound = match hall_check(&bytes) {
                    Ok(()) => "a hall",
                    Err(_) => "not a sound hall; 'hall check' says why",
                };
                let line = format!("{}: {} bytes, {sound}", self.name, grouped(bytes.len() as u64));
                Ok((line, HallList::from_bytes(bytes)))
            }
            What::Drawable(drawable) => {
                let list = drawable.list()?;
                let (system, graphics) = (grouped(drawable.system.len() as u64), grouped(drawable.graphics.len() as u64));
                let line =
                    format!("{}: {system} bytes of system section, {graphics} of graphics section, read at {:#x}", self.name, drawable.at);
                Ok((line, list))
            }
        }
    }
}

/// A name for which neither file is there.
fn missing(word: &str, failure: Failure) -> Failure {
    match failure {
        Failure::File(path, error) if error.kind() == std::io::ErrorKind::NotFound && path != word => {
            Failure::Usage(format!("there is neither a file {word} nor {path}"))
        }
        other => other,
    }
}

/// The hall that a file's bytes are. Where they are no hall, what they are and what to do.
pub fn hall_in(path: &str, bytes: Vec<u8>) -> Result<Hall, Failure> {
    match Kind::of(&bytes) {
        Kind::Resource => Err(packed(path)),
        Kind::Hall => Ok(progress::during("checking the hall", || Hall::from_list(bytes))?),
        Kind::Section => {
            let models = Sections::new(&bytes, &[]).hall_list(Sections::SYSTEM).map_or(0, |list| list.models().count());
            match Hall::from_list(bytes) {
                Err(_) if models > 0 => Err(Failure::Usage(format!(
                    "{path} is a drawable's section and no hall: 'hall take-in {path} --out NAME.hall' makes a hall of it"
                ))),
                other => Ok(other?),
            }
        }
    }
}

/// The hall in a file that may only be a hall.
pub fn read_hall(path: &str, files: &mut Files) -> Result<Hall, Failure> {
    let bytes = files.read(path, HALL, "hall")?;
    hall_in(path, bytes)
}

#[cfg(test)]
mod tests {
    use super::*;

    #[test]
    fn files_are_told_by_their_first_bytes() {
        assert_eq!(Kind::of(&[]), Kind::Hall);
        assert_eq!(Kind::of(b"RSC7 and more"), Kind::Resource);
        let mut hall = Hall::new();
        hall.add_model(5, 6).unwrap();
        assert_eq!(Kind::of(hall.list()), Kind::Hall);
        // the record is not whole
        assert_eq!(Kind::of(&hall.list()[..11]), Kind::Section);
        assert_eq!(Kind::of(&[0; 16]), Kind::Section);
        assert_eq!(Kind::of(&hall.save().unwrap()), Kind::Section);
        assert_eq!(Kind::of(&[6, 0, 0]), Kind::Section);
        // a drawable as games store it: an address, and then the number 1
        let stored = [&0x4060_6A00u32.to_le_bytes()[..], &[1, 0, 0, 0], &[0; 100]].concat();
        assert_eq!(Kind::of(&stored), Kind::Section);
    }

    #[test]
    fn what_is_no_hall_is_named() {
        let image = include_bytes!("../../../samples/shoebox.system").to_vec();
        let said = |bytes: Vec<u8>| hall_in("x", bytes).unwrap_err().to_string();
        assert!(said(image).starts_with("x is a drawable's section and no hall: 'hall take-in x --out "));
        assert!(said(b"RSC7....".to_vec()).starts_with("x is a packed resource (RSC7): "));
        assert!(said(vec![6, 0, 0]).starts_with("check 11: "));
    }
}
