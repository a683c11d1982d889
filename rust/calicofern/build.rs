//! Links the proved static library, and has it built where it is missing or older than its sources.
//!
//! The archive is target/staticlib/libexports.a of the repository, written by its script tools/library. CALICOFERN_ARCHIVE names another archive of
//! that library, for a machine without the Rattle kit; a relative path is taken from the folder in which cargo was started.

use std::path::{Path, PathBuf};
use std::process::{exit, Command};
use std::time::SystemTime;
use std::{env, fs};

/// The crate of the C functions, as crates.txt names it.
const LIBRARY: &str = "exports";
/// The script of the repository that proves it and writes its archive.
const SCRIPT: &str = "tools/library";
/// The script's exit status where there is no `rt` on the PATH.
const NO_KIT: i32 = 127;

fn main() {
    println!("cargo:rerun-if-env-changed=CALICOFERN_ARCHIVE");
    let target = |key: &str| env::var(key).unwrap_or_default();
    let machine = ["CARGO_CFG_TARGET_ARCH", "CARGO_CFG_TARGET_OS", "CARGO_CFG_TARGET_POINTER_WIDTH"].map(target);
    if machine != ["x86_64", "linux", "64"] {
        stop("the proved library is machine code for Linux on x86-64, and this build is for another target");
    }
    let archive = match env::var_os("CALICOFERN_ARCHIVE") {
        Some(path) => named_archive(PathBuf::from(path)),
        None => built_archive(),
    };
    link(&archive);
}

/// An archive that the caller names is taken as it is. This script runs in the package's folder, so a relative path is first taken from where the caller was.
fn named_archive(path: PathBuf) -> PathBuf {
    if path.is_relative() {
        println!("cargo:rerun-if-env-changed=PWD");
    }
    let folders = [env::var_os("PWD").map(PathBuf::from), env::current_dir().ok()];
    let mut tried: Vec<PathBuf> = folders.into_iter().flatten().map(|folder| folder.join(&path)).collect();
    tried.dedup();
    match tried.iter().find(|candidate| candidate.is_file()).and_then(|candidate| fs::canonicalize(candidate).ok()) {
        Some(found) => {
            println!("cargo:rerun-if-changed={}", found.display());
            found
        }
        None => {
            let names: Vec<String> = tried.iter().map(|candidate| candidate.display().to_string()).collect();
            stop(&format!("CALICOFERN_ARCHIVE names {}, and there is no such file: tried {}", path.display(), names.join(" and ")))
        }
    }
}

/// The repository's own archive, built anew where a source is newer.
fn built_archive() -> PathBuf {
    let root = repository();
    let archive = root.join(format!("target/staticlib/lib{LIBRARY}.a"));
    let mut newest = SystemTime::UNIX_EPOCH;
    for name in libraries(&root) {
        for part in ["src", "specs", "proofs"] {
            let folder = root.join("crates").join(&name).join(part);
            println!("cargo:rerun-if-changed={}", folder.display());
            newest = newest.max(newest_in(&folder));
        }
    }
    println!("cargo:rerun-if-changed={}", root.join("crates.txt").display());
    println!("cargo:rerun-if-changed={}", archive.display());
    match fs::metadata(&archive).and_then(|data| data.modified()) {
        Ok(written) if written >= newest => {}
        _ => prove(&root),
    }
    if !archive.is_file() {
        stop(&format!("{SCRIPT} ended well but wrote no target/staticlib/lib{LIBRARY}.a"));
    }
    archive
}

/// The folder two levels above this crate.
fn repository() -> PathBuf {
    let here = PathBuf::from(env::var_os("CARGO_MANIFEST_DIR").unwrap_or_default());
    match here.ancestors().nth(2) {
        Some(root) if root.join("crates.txt").is_file() => root.to_path_buf(),
        _ => stop("no crates.txt two folders above this crate: it builds inside its repository, or with CALICOFERN_ARCHIVE set"),
    }
}

/// The crate of the C functions and those of the repository that it stands on, from its line in crates.txt: a name, the word `staticlib`, a colon and names.
fn libraries(root: &Path) -> Vec<String> {
    let text = fs::read_to_string(root.join("crates.txt")).unwrap_or_else(|error| stop(&format!("crates.txt: {error}")));
    let line = text.lines().find_map(|line| line.strip_prefix(LIBRARY)?.strip_prefix(" staticlib:"));
    let Some(below) = line else {
        stop(&format!("crates.txt does not list the static library '{LIBRARY}', whose functions this crate calls"));
    };
    let mut names: Vec<String> = below.split_whitespace().map(String::from).collect();
    names.push(LIBRARY.to_string());
    names
}

/// When the newest file under a folder was changed.
fn newest_in(folder: &Path) -> SystemTime {
    let mut newest = SystemTime::UNIX_EPOCH;
    for entry in fs::read_dir(folder).into_iter().flatten().flatten() {
        let path = entry.path();
        let changed = if path.is_dir() {
            newest_in(&path)
        } else {
            entry.metadata().and_then(|data| data.modified()).unwrap_or(SystemTime::UNIX_EPOCH)
        };
        newest = newest.max(changed);
    }
    newest
}

/// Has the library proved and its archive written.
fn prove(root: &Path) {
    match Command::new(root.join(SCRIPT)).output() {
        Ok(done) if done.status.success() => {}
        Ok(done) if done.status.code() == Some(NO_KIT) => stop(&format!(
            "target/staticlib/lib{LIBRARY}.a is missing or older than its sources, and the Rattle kit that builds it is not installed (no 'rt' on the \
             PATH). Install the kit, or set CALICOFERN_ARCHIVE to a lib{LIBRARY}.a that was built elsewhere"
        )),
        Ok(done) => {
            let said = format!("{}{}", String::from_utf8_lossy(&done.stdout), String::from_utf8_lossy(&done.stderr));
            for line in said.lines().filter(|line| !line.ends_with(": proved")) {
                eprintln!("{line}");
            }
            stop(&format!("{SCRIPT} of the repository ended with {}; what it said stands above", done.status));
        }
        Err(error) => stop(&format!("{SCRIPT} of the repository could not be started: {error}")),
    }
}

fn link(archive: &Path) {
    let name = archive.file_name().and_then(|name| name.to_str()).and_then(|name| name.strip_prefix("lib")?.strip_suffix(".a"));
    let (Some(folder), Some(name)) = (archive.parent(), name) else {
        stop(&format!("{} is not named as an archive is, libNAME.a", archive.display()));
    };
    println!("cargo:rustc-link-search=native={}", folder.display());
    println!("cargo:rustc-link-lib=static={name}");
    // for the test that links a C program with it
    println!("cargo:rustc-env=CALICOFERN_LINKED_ARCHIVE={}", archive.display());
}

fn stop(reason: &str) -> ! {
    eprintln!("calicofern: {reason}");
    exit(1);
}
