//! Files are written whole or not at all, and never over what is read.

mod program;

use program::{command, failed, folder, hall, large_hall, names, one_line, path, printed, remove};
use std::fs;
use std::os::unix::fs::{symlink, MetadataExt, PermissionsExt};
use std::os::unix::process::ExitStatusExt;
use std::path::{Path, PathBuf};
use std::process::{Command, Stdio};
use std::thread;
use std::time::{Duration, Instant};

/// A script that writes a number into the first vertex.
fn script(folder: &Path, number: u32) -> String {
    let script = path(folder, &format!("script-{number}"));
    fs::write(&script, format!("set-attribute 0 0 0 Position {number} 0 0 0\n")).unwrap();
    script
}

/// A hall of 25 MB in a folder, its file, and the two that it is turned into and back.
fn edited_both_ways(folder: &Path) -> (String, [Vec<u8>; 2], [String; 2]) {
    let file = path(folder, "large.hall");
    let scripts = [script(folder, 1), script(folder, 2)];
    fs::write(&file, large_hall(3).list()).unwrap();
    let states = scripts.clone().map(|script| {
        printed(&["edit", &file, &script]);
        fs::read(&file).unwrap()
    });
    assert!(states[0] != states[1] && states[0].len() > 25_000_000);
    (file, states, scripts)
}

fn signal(process: u32, name: &str) {
    let sent = Command::new("sh").args(["-c", &format!("kill -{name} {process}")]).stderr(Stdio::null()).status();
    // it may have ended by itself before
    sent.unwrap();
}

/// An edit that is ended at a random moment leaves the hall before it or the one after it, and no other file, but after SIGKILL.
#[test]
fn an_edit_that_is_ended_loses_no_hall() {
    let folder = folder("ended");
    let (file, states, scripts) = edited_both_ways(&folder);
    let start = Instant::now();
    printed(&["edit", &file, &scripts[0]]);
    let whole = start.elapsed();
    let kept = names(&folder);
    let (mut is, mut moment) = (0, 1u64);
    let (mut ended, mut finished) = (0, 0);
    for round in 0..300 {
        // a small generator: moments from nothing to a little more than a whole edit takes
        moment = moment.wrapping_mul(6_364_136_223_846_793_005).wrapping_add(1_442_695_040_888_963_407);
        let wait = whole.mul_f64((moment >> 33) as f64 / f64::from(1u32 << 31) * 1.1);
        let mut process = command(&["edit", &file, &scripts[1 - is]]).stdout(Stdio::null()).stderr(Stdio::null()).spawn().unwrap();
        thread::sleep(wait);
        let (name, number) = [("INT", 2), ("TERM", 15), ("HUP", 1), ("KILL", 9)][round % 4];
        signal(process.id(), name);
        let status = process.wait().unwrap();
        let found = fs::read(&file).unwrap();
        let now = states.iter().position(|state| *state == found).unwrap_or_else(|| panic!("round {round}, {name}: neither hall"));
        match status.code() {
            Some(0) => {
                assert_eq!(now, 1 - is, "round {round}: done");
                finished += 1;
            }
            _ => {
                assert_eq!(status.signal(), Some(number), "round {round}, {name}: {status}");
                ended += 1;
            }
        }
        is = now;
        if name == "KILL" {
            let strays = names(&folder).into_iter().filter(|name| !kept.contains(name));
            strays.for_each(|stray| fs::remove_file(folder.join(stray)).unwrap());
        }
        assert_eq!(names(&folder), kept, "round {round}, {name}");
    }
    // moments before and after the end were met
    assert!(ended > 100 && finished > 3, "{ended} ended, {finished} finished");
}

/// A signal that whoever started the program has it ignore, as `nohup` does, is ignored.
#[test]
fn an_ignored_signal_stays_ignored() {
    let folder = folder("ignored");
    let (file, states, scripts) = edited_both_ways(&folder);
    let line = format!("trap '' HUP; exec {} edit {file} {}", env!("CARGO_BIN_EXE_hall"), scripts[0]);
    let mut process = Command::new("sh").args(["-c", &line]).stdout(Stdio::null()).spawn().unwrap();
    for _ in 0..20 {
        thread::sleep(Duration::from_millis(2));
        signal(process.id(), "HUP");
    }
    assert_eq!(process.wait().unwrap().code(), Some(0));
    assert!(fs::read(&file).unwrap() == states[0]);
}

/// A file system of so many kilobytes, mounted for a test.
struct Small(PathBuf);

impl Small {
    fn new(name: &str, kilobytes: u32) -> Option<Small> {
        let folder = folder(name);
        let size = format!("size={kilobytes}k");
        let mounted = Command::new("mount").args(["-t", "tmpfs", "-o", &size, "tmpfs"]).arg(&folder).output();
        mounted.is_ok_and(|done| done.status.success()).then(|| Small(folder))
    }
}

impl Drop for Small {
    fn drop(&mut self) {
        let _ = Command::new("umount").arg(&self.0).status();
    }
}

#[test]
fn a_full_disc_loses_no_hall() {
    let Some(small) = Small::new("full", 24) else {
        println!("SKIPPED: no file system can be mounted here; this test wants the system's administrator");
        return;
    };
    let file = path(&small.0, "shoebox.hall");
    printed(&["take-in", "samples/shoebox", "--out", &file]);
    let before = fs::read(&file).unwrap();
    let script = path(&folder("full-script"), "script");
    fs::write(&script, "set-attribute 1 3 0 Position 3 5 9.5\n").unwrap();
    let (status, said) = failed(&["edit", &file, &script]);
    assert_eq!(
        (status, said.starts_with(&format!("hall: {file} could not be written, and is as it was: No space left"))),
        (2, true),
        "{said}"
    );
    let new = path(&small.0, "new.svg");
    let (status, said) = failed(&["show", &file, &new]);
    assert_eq!((status, said.starts_with(&format!("hall: {new} could not be written: No space left"))), (2, true), "{said}");
    assert_eq!(names(&small.0), ["shoebox.hall"]);
    assert!(fs::read(&file).unwrap() == before);
}

#[test]
fn a_limit_on_the_length_of_files_loses_no_hall() {
    let folder = folder("length");
    let file = path(&folder, "shoebox.hall");
    printed(&["take-in", "samples/shoebox", "--out", &file]);
    let before = fs::read(&file).unwrap();
    let script = path(&folder, "script");
    fs::write(&script, "set-attribute 1 3 0 Position 3 5 9.5\n").unwrap();
    let line = format!("ulimit -f 8; exec {} edit {file} {script}", env!("CARGO_BIN_EXE_hall"));
    let done = Command::new("sh").args(["-c", &line]).output().unwrap();
    let said = one_line(&done);
    assert_eq!(done.status.code(), Some(2), "{said}");
    assert!(said.starts_with(&format!("hall: {file} could not be written, and is as it was: File too large")), "{said}");
    assert_eq!(names(&folder), ["script", "shoebox.hall"]);
    assert!(fs::read(&file).unwrap() == before);
}

#[test]
fn lacking_memory_is_one_line() {
    let folder = folder("memory");
    let file = path(&folder, "large.hall");
    fs::write(&file, large_hall(5).list()).unwrap();
    let line = format!("ulimit -v 40000; exec {} check {file}", env!("CARGO_BIN_EXE_hall"));
    let done = Command::new("sh").args(["-c", &line]).output().unwrap();
    let said = one_line(&done);
    assert_eq!((done.status.code(), done.stdout.len()), (Some(2), 0), "{said}");
    assert!(said.starts_with("hall: there is not enough memory: ") && said.ends_with(" bytes more could not be had"), "{said}");
}

/// Permissions stay, a link stays a link, and a device or a pipe is written as it stands.
#[test]
fn a_replaced_file_keeps_what_it_had() {
    let folder = folder("replaced");
    let (real, link) = (path(&folder, "real.hall"), path(&folder, "link.hall"));
    printed(&["take-in", "samples/shoebox", "--out", &real]);
    fs::set_permissions(&real, fs::Permissions::from_mode(0o640)).unwrap();
    symlink("real.hall", &link).unwrap();
    let inode = fs::metadata(&real).unwrap().ino();
    printed(&["take-in", "samples/layouts", "--out", &link]);
    assert!(fs::symlink_metadata(&link).unwrap().is_symlink());
    let data = fs::metadata(&real).unwrap();
    assert_eq!(data.permissions().mode() & 0o7777, 0o640);
    assert!(data.ino() != inode && data.len() == fs::metadata(&link).unwrap().len());
    assert!(printed(&["check", &real]).contains("3 models, 4 geometries"));
    // a link to a file that is not there yet makes it
    let (later, to_later) = (path(&folder, "later.hall"), path(&folder, "to-later.hall"));
    symlink("later.hall", &to_later).unwrap();
    printed(&["new", &to_later]);
    assert!(Path::new(&later).is_file() && fs::symlink_metadata(&to_later).unwrap().is_symlink());
    let (status, said) = failed(&["new", &folder.display().to_string(), "--force"]);
    assert_eq!((status, said.ends_with("Is a directory (os error 21)")), (2, true), "{said}");

    let done = hall(&["save", &real, "/dev/stdout"]);
    let image = path(&folder, "image.system");
    printed(&["save", &real, &image]);
    assert!(done.status.success() && done.stdout.starts_with(&fs::read(&image).unwrap()));
    printed(&["save", &real, "/dev/null"]);
    let line = format!("exec {} save {real} /dev/stdout >> {image}", env!("CARGO_BIN_EXE_hall"));
    let done = Command::new("sh").args(["-c", &line]).output().unwrap();
    assert_eq!((done.status.code(), one_line(&done).ends_with("by no name of its own")), (Some(2), true));
    assert!(printed(&["check", &image]).contains("3 models, 4 geometries"));
    assert_eq!(names(&folder), ["image.system", "later.hall", "link.hall", "real.hall", "to-later.hall"]);
    remove(&folder);
}

/// An output that is also an input, by whatever name, is refused, and stays as it was.
#[test]
fn no_input_is_written_over() {
    let folder = folder("over");
    let file = path(&folder, "a.hall");
    printed(&["take-in", "samples/shoebox", "--out", &file]);
    fs::copy("samples/shoebox.system", folder.join("d.system")).unwrap();
    let (soft, hard) = (path(&folder, "soft"), path(&folder, "hard"));
    symlink(&file, &soft).unwrap();
    fs::hard_link(&file, &hard).unwrap();
    let (drawable, section) = (path(&folder, "d"), path(&folder, "d.system"));
    let around = format!("{}/../over/a.hall", folder.display());
    let before = (fs::read(&file).unwrap(), fs::read(&section).unwrap());
    for words in [
        &["show", &file, &file][..],
        &["show", &file, &soft],
        &["show", &soft, &hard],
        &["show", &file, &around],
        &["save", &file, &file],
        &["save", &hard, &file],
        &["take-in", &drawable, "--out", &section],
        &["take-in", "--system", &section, "--out", &section],
        &["list", &drawable, "--bytes", &section],
        &["list", &file, "--bytes", &soft],
        &["vertices", &drawable, "--obj", &section],
        &["vertices", &file, "--unified", &hard],
        &["halves", "--to-floats", &file, &file],
    ] {
        let (status, said) = failed(words);
        assert_eq!((status, said.contains("is read by this command and would be written over")), (2, true), "{words:?}: {said}");
    }
    let out = path(&folder, "out");
    let (status, said) = failed(&["vertices", &file, "--obj", &out, "--unified", &out]);
    assert_eq!((status, said.contains("are one file: two things cannot be written to it")), (2, true), "{said}");
    assert!((fs::read(&file).unwrap(), fs::read(&section).unwrap()) == before);
    assert_eq!(names(&folder), ["a.hall", "d.system", "hard", "soft"]);
    remove(&folder);
}

#[test]
fn a_new_hall_takes_no_other_files_place() {
    let folder = folder("new");
    let file = path(&folder, "a.hall");
    printed(&["new", &file]);
    // an empty one may go
    printed(&["new", &file]);
    fs::write(&file, "words").unwrap();
    let (status, said) = failed(&["new", &file]);
    assert_eq!(
        (status, said.as_str()),
        (2, &*format!("hall: {file} is there and has 5 bytes: a new hall takes its place only with --force"))
    );
    assert_eq!(fs::read(&file).unwrap(), b"words");
    printed(&["new", &file, "--force"]);
    assert_eq!(fs::read(&file).unwrap(), b"");
}

/// No more of a file is read than could be valid.
#[test]
fn files_are_read_up_to_the_most_that_can_be_valid() {
    for words in [&["check", "/dev/zero"][..], &["list", "/dev/zero"], &["save", "/dev/zero", "/dev/null"]] {
        let (status, said) = failed(words);
        assert_eq!((status, said.starts_with("hall: /dev/zero has more than 134,217,728 bytes: no ")), (2, true), "{said}");
    }
    let (status, said) = failed(&["list", "--system", "/dev/zero"]);
    assert_eq!((status, said.starts_with("hall: check 1: a section is too long")), (1, true), "{said}");
}
