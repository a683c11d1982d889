//! New files that have not taken the place of the old ones yet. Whatever ends the program, but SIGKILL, removes them.

use std::fs::{self, File, OpenOptions};
use std::io;
use std::os::unix::fs::OpenOptionsExt;
use std::path::{Path, PathBuf};
use std::sync::{Mutex, MutexGuard, PoisonError};

/// Those there are. Making one, and putting one in its place, are done under this lock, so that whoever holds it sees every new file.
static UNFINISHED: Mutex<Vec<PathBuf>> = Mutex::new(Vec::new());

fn lock() -> MutexGuard<'static, Vec<PathBuf>> {
    UNFINISHED.lock().unwrap_or_else(PoisonError::into_inner)
}

/// Removes them all, and keeps every other thread from making one or putting one in its place: for the thread that is about to end the program.
pub fn remove_for_good() {
    let held = lock();
    for path in held.iter() {
        let _ = fs::remove_file(path);
    }
    std::mem::forget(held);
}

/// The same for a thread that may hold the lock itself, which then leaves what there is.
pub fn remove_if_free() {
    if let Ok(held) = UNFINISHED.try_lock() {
        for path in held.iter() {
            let _ = fs::remove_file(path);
        }
    }
}

/// A new file under a name of its own. Dropped, it is removed.
pub struct Unfinished {
    path: PathBuf,
}

impl Unfinished {
    /// A new, empty file in a folder, that others may use as `mode` says, less the process's mask.
    pub fn in_folder(folder: &Path, mode: u32) -> io::Result<(Unfinished, File)> {
        let mut all = lock();
        all.reserve(1);
        let mut number = 0u64;
        loop {
            let path = folder.join(format!(".hall-{}-{number}.part", std::process::id()));
            match OpenOptions::new().write(true).create_new(true).mode(mode).open(&path) {
                Ok(file) => {
                    all.push(path.clone());
                    return Ok((Unfinished { path }, file));
                }
                Err(error) if error.kind() == io::ErrorKind::AlreadyExists => number += 1,
                Err(error) => return Err(error),
            }
        }
    }

    /// Puts it in the place of another file, or of none, at once.
    pub fn put_in_place(self, place: &Path) -> io::Result<()> {
        let mut all = lock();
        fs::rename(&self.path, place)?;
        all.retain(|path| *path != self.path);
        Ok(())
    }
}

impl Drop for Unfinished {
    fn drop(&mut self) {
        let mut all = lock();
        if let Some(at) = all.iter().position(|path| *path == self.path) {
            let _ = fs::remove_file(&self.path);
            all.remove(at);
        }
    }
}
