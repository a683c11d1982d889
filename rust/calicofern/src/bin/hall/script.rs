//! `hall edit`: the calls of a script, one after another, on a hall.

mod attribute;
mod call;
mod geometry;
mod lines;
mod names;
mod number;
mod words;

use crate::arguments::Arguments;
use crate::failure::Failure;
use crate::files::{self, Files};
use crate::halls::{path, said};
use crate::output::{begun, Output};
use crate::progress::{self, note};
use crate::source::hall_in;
use crate::table::counted;
use calicofern::Hall;
use lines::Lines;
use std::fs;
use std::io::{self, IsTerminal};

pub fn run(mut arguments: Arguments) -> Result<String, Failure> {
    let out = arguments.option("--out")?;
    let (backup, strict) = (arguments.flag("--backup")?, arguments.flag("--strict")?);
    let file = path(&mut arguments, "hall")?;
    let script = path(&mut arguments, "script")?;
    arguments.finish()?;

    let mut files = Files::default();
    let bytes = read(&mut files, &file, out.as_deref(), backup)?;
    let kept = backup.then(|| Kept { path: backup_of(&file), bytes: bytes.clone() });
    let mut hall = hall_in(&file, bytes)?;
    let lines = Lines::new(&script, files.lines(&script)?, files::SCRIPT);
    let calls = edited(&mut hall, &mut files, lines, &script, strict)?;

    let to = out.as_deref().unwrap_or(&file);
    put(&hall, to, kept.as_ref())?;
    let before = kept.map_or(String::new(), |kept| format!("; the hall before is {}", kept.path));
    Ok(format!("{}; wrote {to}: {}{before}\n", counted(calls, "call", "calls"), said(&hall)))
}

/// A hall as it was before the edit.
struct Kept {
    path: String,
    bytes: Vec<u8>,
}

fn backup_of(file: &str) -> String {
    format!("{file}~")
}

/// The hall's bytes. What is going to be written is noted before anything else is read, so that whatever the script is or names is compared with it.
fn read(files: &mut Files, file: &str, out: Option<&str>, backup: bool) -> Result<Vec<u8>, Failure> {
    let Some(out) = out else {
        let bytes = files.read_in_place(file, files::HALL, "hall")?;
        if backup {
            files.note_output(&backup_of(file))?;
        }
        return Ok(bytes);
    };
    if backup {
        let why = "--backup keeps a hall that is edited in its place; with --out the hall stays as it is: leave one of them away";
        return Err(Failure::Usage(why.to_string()));
    }
    let bytes = files.read(file, files::HALL, "hall")?;
    // the hall is the only file yet that the output could be
    files.note_output(out).map_err(|_| Failure::Usage(format!("{out} is the hall itself: leave --out away to edit it in its place")))?;
    Ok(bytes)
}

/// Does the calls, and shows how far it has come: by the script's bytes, where their number is known.
fn edited(hall: &mut Hall, files: &mut Files, lines: Lines, script: &str, strict: bool) -> Result<u64, Failure> {
    if script == "-" && io::stdin().is_terminal() {
        // whoever types the lines knows
        return edit(hall, files, lines, strict, |_| ());
    }
    let name = if script == "-" { "/dev/stdin" } else { script };
    let length = fs::metadata(name).map_or(0, |data| if data.is_file() { data.len() } else { 0 });
    progress::of("editing the hall", length, |progress| edit(hall, files, lines, strict, |bytes| progress.add(bytes)))
}

/// Does every line's call, and says how many there were; or why the first one failed. `done` is told the bytes of each line.
fn edit(hall: &mut Hall, files: &mut Files, mut lines: Lines, strict: bool, done: impl Fn(u64)) -> Result<u64, Failure> {
    let mut calls = 0;
    while let Some(line) = lines.next()? {
        let infinite = call::call(hall, files, line).map_err(|why| lines.failed(why))?;
        calls += u64::from(infinite.is_some());
        if let Some(text) = infinite.and_then(|infinite| infinite.said()) {
            if strict {
                return Err(lines.failed(Failure::Strict(text)));
            }
            note(&format!("{}: {text}", lines.place()));
        }
        done(lines.length());
    }
    Ok(calls)
}

/// Writes the hall, and before it what it was. An older backup is replaced only when the hall's bytes could be written.
fn put(hall: &Hall, to: &str, kept: Option<&Kept>) -> Result<(), Failure> {
    let out = begun(Output::create(to)?, hall.list())?;
    if let Some(kept) = kept {
        // a hall that others may not read has no backup that they may
        begun(Output::like(&kept.path, to)?, &kept.bytes)?.finish()?;
    }
    out.finish()
}

#[cfg(test)]
mod tests;
