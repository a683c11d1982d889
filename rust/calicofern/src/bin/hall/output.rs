//! Files that are written whole or not at all.

use crate::failure::Failure;
use crate::progress;
use crate::unfinished::Unfinished;
use std::fs::{self, File, OpenOptions};
use std::io::{self, BufWriter, Write};
use std::os::unix::fs::{fchown, MetadataExt};
use std::path::{Path, PathBuf};

/// A file that is being written: its bytes go to a new file in the same folder, and `finish` puts that in the place of the old one. Dropped before that, or
/// where anything goes wrong, it leaves the old file, or none, as it was.
pub struct Output {
    /// As typed.
    path: String,
    /// Where it is, links followed.
    place: PathBuf,
    /// Whether there is a file yet.
    there: bool,
    /// None for a device or a pipe, which is written as it stands.
    new: Option<Unfinished>,
    out: BufWriter<File>,
}

impl Output {
    pub fn create(path: &str) -> Result<Output, Failure> {
        let place = followed(Path::new(path));
        let there = fs::metadata(&place).is_ok_and(|data| data.is_file());
        let (new, file) = opened(&place).map_err(|error| Failure::Unwritten { path: path.to_string(), there, error })?;
        Ok(Output { path: path.to_string(), place, there, new, out: BufWriter::with_capacity(1 << 16, file) })
    }

    /// The same with the permissions of another file, before it has any bytes.
    pub fn like(path: &str, other: &str) -> Result<Output, Failure> {
        let out = Output::create(path)?;
        let permissions = fs::metadata(other).map(|data| data.permissions());
        permissions.and_then(|allowed| out.out.get_ref().set_permissions(allowed)).map_err(|error| out.failed(error))?;
        Ok(out)
    }

    /// The bytes are on the disc, and the file has its name, when this returns.
    pub fn finish(self) -> Result<(), Failure> {
        let Output { path, place, there, new, out } = self;
        let is_device = new.is_none();
        progress::during(&format!("writing {path} to the disc"), || {
            put(out, new, &place).map_err(|error| Failure::Unwritten { path: path.clone(), there, error })?;
            if is_device {
                return Ok(());
            }
            // the new file is in its place; what is left is that its name outlasts a loss of power
            let synced = File::open(folder_of(&place)).and_then(|folder| folder.sync_all());
            synced.map_err(|error| Failure::File(format!("{path} is written, but its folder could not be synced"), error))
        })
    }

    /// What a write to it that failed means for the command.
    pub fn failed(&self, error: io::Error) -> Failure {
        Failure::Unwritten { path: self.path.clone(), there: self.there, error }
    }
}

impl Write for Output {
    fn write(&mut self, bytes: &[u8]) -> io::Result<usize> {
        self.out.write(bytes)
    }

    fn flush(&mut self) -> io::Result<()> {
        self.out.flush()
    }
}

/// Writes some bytes as a file.
pub fn write(path: &str, bytes: &[u8]) -> Result<(), Failure> {
    begun(Output::create(path)?, bytes)?.finish()
}

/// The same but for the last step: the bytes are written, and have not taken the place of the old file yet.
pub fn begun(mut out: Output, bytes: &[u8]) -> Result<Output, Failure> {
    progress::of(&format!("writing {}", out.path), bytes.len() as u64, |progress| {
        bytes.chunks(1 << 20).try_for_each(|part| {
            progress.add(part.len() as u64);
            out.write_all(part)
        })?;
        out.flush()
    })
    .map_err(|error| out.failed(error))?;
    Ok(out)
}

/// Where a path leads when links are followed, up to those of the system that are no names of files, as behind /dev/stdout.
pub fn followed(path: &Path) -> PathBuf {
    let mut place = path.to_path_buf();
    // as many links as Linux itself follows
    for _ in 0..40 {
        match fs::read_link(&place) {
            Ok(target) if !is_systems(&place) => place = folder_of(&place).join(target),
            _ => break,
        }
    }
    place
}

/// Whether a name is the system's own for what a process has open.
fn is_systems(place: &Path) -> bool {
    place.starts_with("/proc")
}

/// The folder of a path.
pub fn folder_of(place: &Path) -> &Path {
    place.parent().filter(|folder| !folder.as_os_str().is_empty()).unwrap_or(Path::new("."))
}

/// A new file beside the one at a place, with its permissions and as far as may be its owner. A device or a pipe is opened itself.
fn opened(place: &Path) -> io::Result<(Option<Unfinished>, File)> {
    let old = match fs::metadata(place) {
        // its own name could not be put in its place, and written as it stands it would not be whole
        Ok(data) if data.is_file() && is_systems(place) => return Err(io::Error::other("this leads to a file by no name of its own")),
        Ok(data) if data.is_file() => data,
        Ok(_) => return Ok((None, OpenOptions::new().write(true).open(place)?)),
        Err(error) if error.kind() == io::ErrorKind::NotFound => {
            let (new, file) = Unfinished::in_folder(folder_of(place), 0o666)?;
            return Ok((Some(new), file));
        }
        Err(error) => return Err(error),
    };
    // a file that may not be written is not replaced either
    OpenOptions::new().write(true).open(place)?;
    let (new, file) = Unfinished::in_folder(folder_of(place), 0o600)?;
    let made = file.metadata()?;
    if (made.uid(), made.gid()) != (old.uid(), old.gid()) {
        // only the system's administrator may give files away
        let _ = fchown(&file, Some(old.uid()), Some(old.gid()));
    }
    file.set_permissions(old.permissions())?;
    Ok((Some(new), file))
}

/// Everything to the disc, then the name.
fn put(out: BufWriter<File>, new: Option<Unfinished>, place: &Path) -> io::Result<()> {
    let file = out.into_inner().map_err(|error| error.into_error())?;
    let Some(new) = new else { return Ok(()) };
    file.sync_all()?;
    new.put_in_place(place)
}
