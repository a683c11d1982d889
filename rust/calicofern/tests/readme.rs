//! The commands of the README, pasted whole.

mod program;

use program::{folder, remove};
use std::os::unix::fs::symlink;
use std::path::Path;
use std::process::Command;

/// The blocks of shell lines, in order.
fn blocks(text: &str) -> Vec<String> {
    text.split("```sh\n").skip(1).filter_map(|rest| rest.split("```").next()).map(String::from).collect()
}

/// Every block of `./hall` lines, one after the other, in a folder that has the program and the samples as the repository's root does.
#[test]
fn the_readmes_commands_run() {
    let here = Path::new(env!("CARGO_MANIFEST_DIR"));
    let Ok(text) = std::fs::read_to_string(here.join("../../README.md")) else {
        println!("SKIPPED: the crate stands outside its repository, and there is no README of it");
        return;
    };
    let folder = folder("readme");
    symlink(env!("CARGO_BIN_EXE_hall"), folder.join("hall")).unwrap();
    symlink(here.join("samples"), folder.join("samples")).unwrap();
    // the first block is the gate's and the demo's
    let blocks: Vec<String> = blocks(&text).into_iter().filter(|block| block.starts_with("./hall") && !block.contains(".ci/run")).collect();
    assert_eq!(blocks.len(), 2, "{blocks:?}");
    for block in &blocks {
        let done = Command::new("sh").args(["-e", "-c", block]).current_dir(&folder).output().unwrap();
        let said = String::from_utf8_lossy(&done.stderr).into_owned();
        assert_eq!((done.status.code(), said.as_str()), (Some(0), ""), "{block}");
    }
    assert!(folder.join("my.hall~").is_file() && folder.join("my.svg").is_file() && folder.join("hall.obj").is_file());
    // what the first example shows is what it prints
    let listed = Command::new("./hall").args(["list", "samples/damaged"]).current_dir(&folder).output().unwrap();
    let listed = String::from_utf8(listed.stdout).unwrap();
    let shown: Vec<&str> = text.lines().filter_map(|line| line.strip_prefix("    ")).take_while(|line| *line != "! ..").collect();
    for line in shown.iter().skip(1).filter(|line| !line.starts_with("./hall")) {
        assert!(listed.lines().any(|printed| printed.trim_end() == line.trim_end()), "{line}\n{listed}");
    }
    remove(&folder);
}
