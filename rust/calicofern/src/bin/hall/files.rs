//! The files of a command. None of its outputs is one of its inputs.

use crate::failure::Failure;
use crate::output::{folder_of, followed};
use crate::progress;
use crate::table::grouped;
use calicofern::Sections;
use std::fs::{self, File};
use std::io::{self, BufRead, BufReader, Read};
use std::os::unix::fs::MetadataExt;
use std::path::{Path, PathBuf};

/// The most bytes that a hall has. Every part of a list is at most twice as long as its part of the image, which has at most 64 MiB.
pub const HALL: u64 = 2 * Sections::LIMIT as u64;
/// The most bytes of a section that are read: one more than it may have, for check 1 to refuse.
pub const SECTION: u64 = Sections::LIMIT as u64 + 1;
/// The most bytes that a script may have.
pub const SCRIPT: u64 = 1 << 30;

/// The files that a command has read, and those that it is going to write.
#[derive(Default)]
pub struct Files {
    inputs: Vec<Known>,
    outputs: Vec<Known>,
}

struct Known {
    /// As typed.
    path: String,
    what: Identity,
}

/// What makes two paths one file.
#[derive(PartialEq)]
enum Identity {
    /// Device and inode of a file.
    There(u64, u64),
    /// Folder and name of a file that is not there yet.
    New(PathBuf),
}

impl Identity {
    /// Of a device or a pipe there is none: it may be both.
    fn of(path: &Path) -> Option<Identity> {
        match fs::metadata(path) {
            Ok(data) if data.is_file() => Some(Identity::There(data.dev(), data.ino())),
            Ok(_) => None,
            Err(_) => {
                let place = followed(path);
                let folder = fs::canonicalize(folder_of(&place)).ok()?;
                Some(Identity::New(folder.join(place.file_name()?)))
            }
        }
    }
}

impl Files {
    /// A file's bytes. More than `limit` are refused: `what` cannot have them.
    pub fn read(&mut self, path: &str, limit: u64, what: &str) -> Result<Vec<u8>, Failure> {
        self.note_input(path)?;
        let bytes = read(path, limit.saturating_add(1)).map_err(|error| Failure::File(path.to_string(), error))?;
        if bytes.len() as u64 > limit {
            return Err(too_long(path, limit, what));
        }
        Ok(bytes)
    }

    /// A section's bytes. Of a file that is longer than a section may be, one byte too many is read, for check 1 to refuse.
    pub fn section(&mut self, path: &str) -> Result<Vec<u8>, Failure> {
        self.note_input(path)?;
        read(path, SECTION).map_err(|error| Failure::File(path.to_string(), error))
    }

    /// The same; empty where there is no such file.
    pub fn section_if_there(&mut self, path: &str) -> Result<Vec<u8>, Failure> {
        match fs::metadata(path) {
            Err(error) if error.kind() == io::ErrorKind::NotFound => Ok(Vec::new()),
            _ => self.section(path),
        }
    }

    /// A file that is read part by part.
    pub fn open(&mut self, path: &str) -> Result<File, Failure> {
        self.note_input(path)?;
        File::open(path).map_err(|error| Failure::File(path.to_string(), error))
    }

    /// The lines of a script. `-` is standard input.
    pub fn lines(&mut self, path: &str) -> Result<Box<dyn BufRead>, Failure> {
        if path == "-" {
            self.note_input("/dev/stdin")?;
            return Ok(Box::new(io::stdin().lock()));
        }
        Ok(Box::new(BufReader::with_capacity(1 << 16, self.open(path)?)))
    }

    /// Says that a file is going to be written. Refused where it is one that is read, or one that is written already.
    pub fn note_output(&mut self, path: &str) -> Result<(), Failure> {
        let Some(what) = Identity::of(Path::new(path)) else { return Ok(()) };
        if let Some(input) = self.inputs.iter().find(|known| known.what == what) {
            return Err(both(path, &input.path));
        }
        if let Some(other) = self.outputs.iter().find(|known| known.what == what) {
            return Err(Failure::Usage(format!("{path} and {} are one file: two things cannot be written to it", other.path)));
        }
        self.outputs.push(Known { path: path.to_string(), what });
        Ok(())
    }

    /// The hall that is edited in its place is the one file that is read and written.
    pub fn read_in_place(&mut self, path: &str, limit: u64, what: &str) -> Result<Vec<u8>, Failure> {
        let bytes = self.read(path, limit, what)?;
        if let Some(known) = self.inputs.pop() {
            self.outputs.push(known);
        }
        Ok(bytes)
    }

    fn note_input(&mut self, path: &str) -> Result<(), Failure> {
        let Some(what) = Identity::of(Path::new(path)) else { return Ok(()) };
        if let Some(output) = self.outputs.iter().find(|known| known.what == what) {
            return Err(both(&output.path, path));
        }
        self.inputs.push(Known { path: path.to_string(), what });
        Ok(())
    }
}

fn both(output: &str, input: &str) -> Failure {
    let same = if output == input { String::new() } else { format!(" (it is the same file as {input})") };
    Failure::Usage(format!("{output} is read by this command and would be written over{same}: name another file"))
}

pub fn too_long(path: &str, limit: u64, what: &str) -> Failure {
    Failure::Usage(format!("{path} has more than {} bytes: no {what} is that long", grouped(limit)))
}

/// The first bytes of a file.
fn read(path: &str, limit: u64) -> io::Result<Vec<u8>> {
    let file = File::open(path)?;
    let length = file.metadata()?.len().min(limit);
    let mut file = file.take(limit);
    let mut bytes = Vec::with_capacity(usize::try_from(length).unwrap_or(0));
    progress::of(&format!("reading {path}"), length, |progress| loop {
        let read = file.by_ref().take(1 << 20).read_to_end(&mut bytes)?;
        progress.add(read as u64);
        if read == 0 {
            return Ok(bytes);
        }
    })
}
