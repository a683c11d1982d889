//! The C program beside the header: compiled with the library that this crate is linked with, and run.

use std::path::{Path, PathBuf};
use std::process::Command;

/// The folder of the header, where this crate stands inside its repository.
fn include() -> Option<PathBuf> {
    let folder = Path::new(env!("CARGO_MANIFEST_DIR")).join("../../include");
    if folder.join("calicofern.h").is_file() {
        return Some(folder);
    }
    println!("skipped: no ../../include/calicofern.h, so this crate stands outside its repository");
    None
}

/// What the program prints, compiled by a compiler with these arguments.
fn printed(include: &Path, name: &str, compiler: &[&str]) -> String {
    let program = Path::new(env!("CARGO_TARGET_TMPDIR")).join(name);
    let built = Command::new(compiler[0])
        .args(&compiler[1..])
        .args(["-Wall", "-Wextra", "-Werror", "-I"])
        .args([include, &include.join("example.c")])
        // what follows is no source of the language above
        .args(["-x", "none", env!("CALICOFERN_LINKED_ARCHIVE"), "-o"])
        .arg(&program)
        .output()
        .unwrap_or_else(|error| panic!("{}: {error}", compiler[0]));
    assert!(built.status.success(), "{}", String::from_utf8_lossy(&built.stderr));
    let done = Command::new(&program).output().unwrap();
    assert!(done.status.success() && done.stderr.is_empty(), "{done:?}");
    String::from_utf8(done.stdout).unwrap()
}

const EXPECTED: &str = "index 3 of 3 vertices: refused by check 18\nthe hall has 127 bytes, its image 576\n";

#[test]
fn the_example_prints_what_it_made() {
    let Some(include) = include() else { return };
    assert_eq!(printed(&include, "example", &["cc", "-std=c99"]), EXPECTED);
}

#[test]
fn the_header_is_cplusplus_as_well() {
    let Some(include) = include() else { return };
    if Command::new("c++").arg("--version").output().is_err() {
        return println!("skipped: there is no c++ on the PATH");
    }
    assert_eq!(printed(&include, "example++", &["c++", "-x", "c++"]), EXPECTED);
}
