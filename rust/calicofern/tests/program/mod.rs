//! The command line program as a process, for the tests of what it does.
#![allow(dead_code)] // each test program uses some of it

use calicofern::{Hall, NewGeometry, VertexComponentType, VertexDeclaration, VertexSemantic};
use std::path::{Path, PathBuf};
use std::process::{Command, Output};

/// The program with some words, started in the crate's folder, where samples/ is.
pub fn command(words: &[&str]) -> Command {
    let mut command = Command::new(env!("CARGO_BIN_EXE_hall"));
    command.args(words).current_dir(env!("CARGO_MANIFEST_DIR"));
    command
}

pub fn hall(words: &[&str]) -> Output {
    command(words).output().expect("hall starts")
}

/// What it prints, where it ends well and says nothing on standard error.
pub fn printed(words: &[&str]) -> String {
    let done = hall(words);
    let said = String::from_utf8_lossy(&done.stderr).into_owned();
    assert_eq!((done.status.code(), said.as_str()), (Some(0), ""), "{words:?}");
    String::from_utf8(done.stdout).unwrap()
}

/// Its exit status and the one line on standard error, where it prints nothing.
pub fn failed(words: &[&str]) -> (i32, String) {
    let done = hall(words);
    assert!(done.stdout.is_empty(), "{words:?}");
    (done.status.code().unwrap(), one_line(&done))
}

/// What it prints, and its one line on standard error, where it ends with status 1.
pub fn strictly_failed(words: &[&str]) -> (String, String) {
    let done = hall(words);
    assert_eq!(done.status.code(), Some(1), "{words:?}");
    (String::from_utf8(done.stdout.clone()).unwrap(), one_line(&done))
}

pub fn one_line(done: &Output) -> String {
    let said = String::from_utf8(done.stderr.clone()).unwrap();
    assert_eq!(said.lines().count(), 1, "{said}");
    said.trim_end().to_string()
}

/// An empty folder of a test's own.
pub fn folder(name: &str) -> PathBuf {
    let folder = Path::new(env!("CARGO_TARGET_TMPDIR")).join(name);
    let _ = std::fs::remove_dir_all(&folder);
    std::fs::create_dir_all(&folder).unwrap();
    folder
}

/// Removes a folder in which a test made links: the gate of the repository takes no link below its folders.
pub fn remove(folder: &Path) {
    std::fs::remove_dir_all(folder).unwrap();
}

pub fn path(folder: &Path, name: &str) -> String {
    folder.join(name).display().to_string()
}

/// The names of a folder's files, in order.
pub fn names(folder: &Path) -> Vec<String> {
    let mut names: Vec<String> =
        std::fs::read_dir(folder).unwrap().map(|entry| entry.unwrap().file_name().into_string().unwrap()).collect();
    names.sort();
    names
}

/// A hall of so many geometries of 65,535 vertices, 128 bytes each, so 8.4 MB a geometry, and one triangle each.
pub fn large_hall(geometries: usize) -> Hall {
    let parts: Vec<(VertexSemantic, VertexComponentType)> =
        (0..8).map(|index| (VertexSemantic::from_index([0, 1, 6, 7, 8, 9, 14, 15][index]), VertexComponentType::Float4)).collect();
    let declaration = VertexDeclaration::of(&parts);
    let vertices: Vec<u8> = (0..65_535 * 32u32).flat_map(|number| (number as f32).to_le_bytes()).collect();
    let mut hall = Hall::new();
    hall.add_model(0, 1).unwrap();
    for _ in 0..geometries {
        let given =
            NewGeometry { shader_id: 1, declaration, vertex_stride: 128, vertex_count: 65_535, vertices: &vertices, indices: &[0, 1, 2] };
        hall.add_geometry(given).unwrap();
    }
    hall
}
