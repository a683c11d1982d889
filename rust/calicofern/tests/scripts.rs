//! `hall edit` as a process: where scripts come from, what is written, and what a refusal leaves.

use std::collections::BTreeMap;
use std::fs;
use std::io::Write;
use std::os::unix::fs::{symlink, PermissionsExt};
use std::path::{Path, PathBuf};
use std::process::{Command, Output, Stdio};

/// A floor of one triangle.
const TRIANGLE: &str = "add-model 0 0xff\nadd-geometry 5 Position:Float3 vertices 0 0 0  20 0 0  0 32 0 indices 0 1 2\n";

/// A folder of a test's own, in which the program runs.
struct Folder(PathBuf);

impl Folder {
    /// With `hall`, a hall of one triangle, and `move`, a script for it.
    fn new(name: &str) -> Folder {
        let folder = Path::new(env!("CARGO_TARGET_TMPDIR")).join("scripts").join(name);
        let _ = fs::remove_dir_all(&folder);
        fs::create_dir_all(&folder).unwrap();
        let folder = Folder(folder);
        folder.write("hall", "");
        assert_eq!(folder.given(&["edit", "hall", "-"], TRIANGLE.as_bytes()).status.code(), Some(0));
        folder.write("move", "set-attribute 0 0 1 Position 22 0 0\n");
        folder
    }

    fn write(&self, name: &str, bytes: impl AsRef<[u8]>) {
        fs::write(self.0.join(name), bytes).unwrap();
    }

    fn read(&self, name: &str) -> Vec<u8> {
        fs::read(self.0.join(name)).unwrap()
    }

    /// Runs the program with these bytes on standard input.
    fn given(&self, words: &[&str], input: &[u8]) -> Output {
        let mut program = Command::new(env!("CARGO_BIN_EXE_hall"));
        let program = program.args(words).current_dir(&self.0).stdin(Stdio::piped()).stdout(Stdio::piped()).stderr(Stdio::piped());
        let mut running = program.spawn().expect("hall starts");
        // a program that does not read its input may have closed it
        let _ = running.stdin.take().unwrap().write_all(input);
        running.wait_with_output().unwrap()
    }

    /// What it prints, where it ends well and says nothing on standard error.
    fn printed(&self, words: &[&str]) -> String {
        let done = self.given(words, b"");
        assert_eq!((done.status.code(), String::from_utf8_lossy(&done.stderr).as_ref()), (Some(0), ""), "{words:?}");
        String::from_utf8(done.stdout).unwrap()
    }

    /// Every name in the folder with what it holds, or leads to.
    fn all(&self) -> BTreeMap<String, Vec<u8>> {
        let entries = fs::read_dir(&self.0).unwrap().map(|entry| entry.unwrap());
        let held = |path: &Path| match fs::read_link(path) {
            Ok(target) => format!("link to {}", target.display()).into_bytes(),
            Err(_) => fs::read(path).unwrap_or_default(),
        };
        entries.map(|entry| (entry.file_name().into_string().unwrap(), held(&entry.path()))).collect()
    }

    /// The exit status and the one line of a command that is refused. It leaves every file as it was, and no other.
    fn refused(&self, words: &[&str]) -> (i32, String) {
        self.refused_given(words, b"")
    }

    fn refused_given(&self, words: &[&str], input: &[u8]) -> (i32, String) {
        let before = self.all();
        let done = self.given(words, input);
        assert_eq!(self.all(), before, "{words:?}");
        let said = String::from_utf8(done.stderr).unwrap();
        assert_eq!((done.stdout.len(), said.lines().count()), (0, 1), "{words:?}: {said}");
        (done.status.code().unwrap(), said.trim_end().to_string())
    }

    /// The position of vertex 1, which `move` moves.
    fn corner(&self, name: &str) -> [f32; 3] {
        let hall = calicofern::Hall::from_list(self.read(name)).unwrap();
        hall.unified_vertices(0, 0).unwrap()[1].position
    }
}

/// Some tests make links, and the gate of the repository takes no link below its folders.
impl Drop for Folder {
    fn drop(&mut self) {
        let _ = fs::remove_dir_all(&self.0);
    }
}

const BEFORE: [f32; 3] = [20.0, 0.0, 0.0];
const AFTER: [f32; 3] = [22.0, 0.0, 0.0];

#[test]
fn in_place_or_into_another_file() {
    let folder = Folder::new("places");
    let wrote = "1 call; wrote other: 1 model, 1 geometry, 1 triangle, 127 bytes\n";
    assert_eq!(folder.printed(&["edit", "hall", "move", "--out", "other"]), wrote);
    assert_eq!((folder.corner("hall"), folder.corner("other")), (BEFORE, AFTER));
    assert_eq!(folder.printed(&["edit", "hall", "move"]), "1 call; wrote hall: 1 model, 1 geometry, 1 triangle, 127 bytes\n");
    assert_eq!(folder.read("hall"), folder.read("other"));
    assert_eq!(folder.all().keys().collect::<Vec<_>>(), ["hall", "move", "other"]);
}

#[test]
fn a_script_on_standard_input() {
    let folder = Folder::new("input");
    let done = folder.given(&["edit", "-", "hall", "--out", "other"], b"");
    // the first of the two is the hall
    assert_eq!(done.status.code(), Some(2));
    let done = folder.given(&["edit", "hall", "-", "--out", "other"], &folder.read("move"));
    assert_eq!(String::from_utf8(done.stdout).unwrap(), "1 call; wrote other: 1 model, 1 geometry, 1 triangle, 127 bytes\n");
    assert_eq!(folder.corner("other"), AFTER);
    let (status, said) = folder.refused_given(&["edit", "hall", "-"], b"# nothing\nadd-modle 0 0\n");
    let words = "line 2: there is no call 'add-modle'; did you mean add-model? 'hall help script' lists them";
    assert_eq!((status, said), (2, format!("hall: standard input, {words}")));
    assert!(folder.printed(&["edit", "hall", "-"]).starts_with("0 calls; wrote hall: "));
}

#[test]
fn the_hall_before_is_kept() {
    let folder = Folder::new("backup");
    fs::set_permissions(folder.0.join("hall"), fs::Permissions::from_mode(0o640)).unwrap();
    let before = folder.read("hall");
    let wrote = "1 call; wrote hall: 1 model, 1 geometry, 1 triangle, 127 bytes; the hall before is hall~\n";
    assert_eq!(folder.printed(&["edit", "hall", "move", "--backup"]), wrote);
    assert_eq!((folder.read("hall~"), folder.corner("hall")), (before, AFTER));
    assert_eq!(fs::metadata(folder.0.join("hall~")).unwrap().permissions().mode() & 0o777, 0o640);
    // an older one is replaced
    folder.write("move", "remove-model 0\n");
    folder.printed(&["edit", "--backup", "hall", "move"]);
    assert_eq!((folder.corner("hall~"), folder.read("hall").len()), (AFTER, 0));
    assert_eq!(folder.all().keys().collect::<Vec<_>>(), ["hall", "hall~", "move"]);
    let (status, said) = folder.refused(&["edit", "hall", "move", "--backup", "--out", "other"]);
    assert_eq!((status, said.starts_with("hall: --backup keeps a hall that is edited in its place; with --out ")), (2, true), "{said}");
}

#[test]
fn a_backup_is_replaced_only_where_the_hall_can_be() {
    let folder = Folder::new("unwritable");
    fs::create_dir(folder.0.join("inside")).unwrap();
    symlink("inside/hall", folder.0.join("link")).unwrap();
    fs::rename(folder.0.join("hall"), folder.0.join("inside/hall")).unwrap();
    folder.write("link~", "older");
    // no new file can be made beside the hall; the system's administrator can make one anywhere
    fs::set_permissions(folder.0.join("inside"), fs::Permissions::from_mode(0o555)).unwrap();
    if fs::write(folder.0.join("inside/probe"), "").is_err() {
        let (status, said) = folder.refused(&["edit", "link", "move", "--backup"]);
        assert_eq!((status, said.starts_with("hall: link could not be written, and is as it was: ")), (2, true), "{said}");
    }
    fs::set_permissions(folder.0.join("inside"), fs::Permissions::from_mode(0o755)).unwrap();
    // a backup that cannot be written keeps the hall from being written
    fs::remove_file(folder.0.join("link~")).unwrap();
    fs::create_dir(folder.0.join("link~")).unwrap();
    let (status, said) = folder.refused(&["edit", "link", "move", "--backup"]);
    assert_eq!((status, said.starts_with("hall: link~ could not be written: ")), (2, true), "{said}");
    assert_eq!(folder.corner("inside/hall"), BEFORE);
    // the new hall, whose bytes were written already, is gone
    let names = fs::read_dir(folder.0.join("inside")).unwrap().map(|entry| entry.unwrap().file_name());
    assert!(names.into_iter().all(|name| name == "hall" || name == "probe"));
}

#[test]
fn a_line_that_fails_leaves_everything() {
    let folder = Folder::new("failing");
    folder.write("hall~", "older");
    folder.write("other", "also here");
    folder.write("script", "set-attribute 0 0 1 Position 22 0 0\nadd-model 0 65536\n");
    let line = "hall: script, line 2: '65536' is no mask: a whole number from 0 to 65535".to_string();
    for words in [&["edit", "hall", "script"][..], &["edit", "hall", "script", "--backup"], &["edit", "hall", "script", "--out", "other"]] {
        assert_eq!(folder.refused(words), (2, line.clone()));
    }
    assert_eq!(folder.refused(&["edit", "hall", "script", "--out", "new"]).0, 2);
    folder.write("script", "set-attribute 0 0 1 Position 22 0 0\nreplace-indices 0 0 0 1 3\n");
    let (status, said) = folder.refused(&["edit", "hall", "script", "--backup"]);
    assert_eq!((status, said.starts_with("hall: script, line 2: check 18: ")), (1, true), "{said}");
    folder.write("script", "set-attribute 0 0 1 Position 22 0 0\nreplace-indices 0 0 0 1 0\n");
    let line = "check 27: a triangle is degenerate: its three indices must be different: model 0, geometry 0: \
                triangle 0 of the geometry is 0, 1, 0, with index 0 twice";
    for words in [&["edit", "hall", "script", "--backup"][..], &["edit", "hall", "script", "--out", "other"]] {
        assert_eq!(folder.refused(words), (1, format!("hall: script, line 2: {line}")));
    }
    folder.write("script", "take-in 0x50000000 nothing.system\n");
    let (status, said) = folder.refused(&["edit", "hall", "script", "--backup"]);
    assert_eq!((status, said.starts_with("hall: script, line 1: nothing.system: ")), (2, true), "{said}");
    assert_eq!(folder.refused(&["edit", "hall", "nothing", "--backup"]).0, 2);
    assert_eq!(folder.refused(&["edit", "hall", ".", "--backup"]).0, 2);
}

/// The names of a file: itself, by another path, a symbolic and a hard link.
fn names_of(folder: &Folder, name: &str) -> [String; 4] {
    let (soft, hard) = (format!("{name}-soft"), format!("{name}-hard"));
    symlink(name, folder.0.join(&soft)).unwrap();
    fs::hard_link(folder.0.join(name), folder.0.join(&hard)).unwrap();
    [name.to_string(), folder.0.join(".").join(name).display().to_string(), soft, hard]
}

#[test]
fn the_output_is_no_input() {
    let folder = Folder::new("overlaps");
    let samples = Path::new(env!("CARGO_MANIFEST_DIR")).join("samples");
    for part in ["layouts.system", "layouts.graphics"] {
        fs::copy(samples.join(part), folder.0.join(part)).unwrap();
    }
    folder.write("script", "# both sections\ntake-in 0x50000000 layouts.system layouts.graphics\n");
    for name in names_of(&folder, "hall") {
        let line = format!("hall: {name} is the hall itself: leave --out away to edit it in its place");
        assert_eq!(folder.refused(&["edit", "hall", "script", "--out", &name]), (2, line));
        // the script is the hall
        let (status, said) = folder.refused(&["edit", "hall", &name]);
        assert_eq!((status, said.contains("is read by this command and would be written over")), (2, true), "{said}");
    }
    for name in names_of(&folder, "script") {
        let (status, said) = folder.refused(&["edit", "hall", "script", "--out", &name]);
        assert_eq!((status, said.starts_with(&format!("hall: {name} is read by this command"))), (2, true), "{said}");
    }
    for part in ["layouts.system", "layouts.graphics"] {
        for name in names_of(&folder, part) {
            let (status, said) = folder.refused(&["edit", "hall", "script", "--out", &name]);
            let start = format!("hall: script, line 2: {name} is read by this command and would be written over");
            assert_eq!((status, said.starts_with(&start)), (2, true), "{said}");
        }
    }
    folder.write("script", "take-in 0x50000000 hall-hard\n");
    let (status, said) = folder.refused(&["edit", "hall", "script"]);
    assert_eq!((status, said.starts_with("hall: script, line 1: hall is read by this command")), (2, true), "{said}");
    assert!(folder.printed(&["edit", "hall", "move", "--out", "new"]).starts_with("1 call; wrote new: "));
}

#[test]
fn the_backup_is_no_input_and_not_the_hall() {
    let folder = Folder::new("backups");
    let read = "is read by this command and would be written over";
    fs::copy(folder.0.join("move"), folder.0.join("hall~")).unwrap();
    for name in names_of(&folder, "hall~") {
        let (status, said) = folder.refused(&["edit", "hall", &name, "--backup"]);
        assert_eq!((status, said.contains(read)), (2, true), "{said}");
        folder.write("script", format!("take-in 0x50000000 {name}\n"));
        let (status, said) = folder.refused(&["edit", "hall", "script", "--backup"]);
        assert_eq!((status, said.contains(read) && said.contains("script, line 1: hall~ ")), (2, true), "{said}");
        // without a backup it is a script as any other
        folder.printed(&["edit", "hall", &name, "--out", "other"]);
    }
    // on standard input too
    let before = folder.all();
    let mut program = Command::new(env!("CARGO_BIN_EXE_hall"));
    let program = program.args(["edit", "hall", "-", "--backup"]).current_dir(&folder.0);
    let done = program.stdin(fs::File::open(folder.0.join("hall~")).unwrap()).output().unwrap();
    assert_eq!((done.status.code(), folder.all()), (Some(2), before));
    for link in [true, false] {
        fs::remove_file(folder.0.join("hall~")).unwrap();
        let (hall, kept) = (folder.0.join("hall"), folder.0.join("hall~"));
        if link { symlink("hall", kept) } else { fs::hard_link(hall, kept) }.unwrap();
        let line = "hall: hall~ and hall are one file: two things cannot be written to it";
        assert_eq!(folder.refused(&["edit", "hall", "move", "--backup"]), (2, line.to_string()));
    }
}

#[test]
fn numbers_that_become_infinite_are_said() {
    let folder = Folder::new("infinite");
    let script = "\
add-model 0 0
add-geometry 5 Position:Float3 TexCoord0:Half2 vertices 1e39 0 0 70000 65520  1 1 1 65519.99 1e400  0 0 0 0 0 indices 0 1 2
set-attribute 1 0 1 Position inf -inf nan
set-attribute 1 0 1 TexCoord0 -70000 0
set-attribute 1 0 1 Position 70000 65520 1e38
";
    folder.write("script", script);
    let done = folder.given(&["edit", "hall", "script", "--out", "other"], b"");
    let said = "\
hall: script, line 2: 1e39 becomes infinite as a float (and 3 more numbers of this line)
hall: script, line 4: -70000 becomes infinite as a half
";
    assert_eq!((done.status.code(), String::from_utf8(done.stderr).unwrap().as_str()), (Some(0), said));
    assert!(done.stdout.starts_with(b"5 calls; wrote other: 2 models, 2 geometries, "));
    let line = "hall: script, line 2: --strict: 1e39 becomes infinite as a float (and 3 more numbers of this line)";
    for words in [&["--backup"][..], &["--out", "other"], &["--out", "new"]] {
        let all = [&["edit", "hall", "script", "--strict"], words].concat();
        assert_eq!(folder.refused(&all), (1, line.to_string()));
    }
    assert!(folder.printed(&["edit", "hall", "move", "--strict"]).starts_with("1 call; "));
}

#[test]
fn scripts_of_other_editors() {
    let folder = Folder::new("editors");
    let lines = format!("{TRIANGLE}set-attribute 1 0 1 Position 22 0 0");
    folder.write("plain", format!("{lines}\n"));
    folder.printed(&["edit", "hall", "plain", "--out", "wanted"]);
    let windows = lines.replace('\n', "\r\n");
    for text in [lines.clone(), windows.clone(), format!("{windows}\r\n"), format!("\u{feff}{windows}\r\n"), format!("\u{feff}{lines}")] {
        folder.write("script", &text);
        assert!(folder.printed(&["edit", "hall", "script", "--out", "other"]).starts_with("3 calls; "));
        assert_eq!(folder.read("other"), folder.read("wanted"), "{text:?}");
    }
}

#[test]
fn scripts_that_are_no_text() {
    let folder = Folder::new("no-text");
    folder.write("hall~", "older");
    for (script, why) in [
        (&b"add-model 0 0\nadd-model 0 \xFF\n"[..], "line 2: the line is not UTF-8 text: its byte 13 is 0xff"),
        (b"\xFF\xFEa\0d\0d\0", "line 1: the line is not UTF-8 text: its byte 1 is 0xff"),
        (b"add-model 0 0\n\nadd-model\0 0", "line 3: the line is not plain text: its byte 10 is the control character 0x00"),
        (b"# first\radd-model 0 0\r", "line 1: the line is not plain text: its byte 8 is the control character 0x0d"),
        (b"\x1B[31m\n", "line 1: the line is not plain text: its byte 1 is the control character 0x1b"),
    ] {
        folder.write("script", script);
        assert_eq!(folder.refused(&["edit", "hall", "script", "--backup"]), (2, format!("hall: script, {why}")));
    }
}

#[test]
fn components_in_any_order() {
    let folder = Folder::new("order");
    folder.write(
        "sorted",
        "add-geometry 5 Position:Float3 Normal:Float3 vertices 1 2 3 4 5 6  7 8 9 10 11 12  0 0 0 1 1 1 indices 0 1 0x2\n",
    );
    folder
        .write("other", "add-geometry 5 Normal:Float3 Position:Float3 vertices 4 5 6 1 2 3  10 11 12 7 8 9  1 1 1 0 0 0 indices 0 0x1 2\n");
    for name in ["sorted", "other"] {
        folder.printed(&["edit", "hall", name, "--out", &format!("{name}.hall")]);
    }
    assert_eq!(folder.read("sorted.hall"), folder.read("other.hall"));
    folder.write("script", "\nadd-geometry 5 Position:Float3 Position:Half4 vertices 1 indices 0\n");
    assert_eq!(folder.refused(&["edit", "hall", "script"]), (2, "hall: script, line 2: Position is named twice".to_string()));
}

#[test]
fn a_long_edit_says_how_far_it_is() {
    let folder = Folder::new("progress");
    let mut program = Command::new(env!("CARGO_BIN_EXE_hall"));
    let program = program.args(["edit", "hall", "-"]).current_dir(&folder.0).stdin(Stdio::piped()).stdout(Stdio::piped());
    let mut running = program.stderr(Stdio::piped()).spawn().unwrap();
    std::thread::sleep(std::time::Duration::from_millis(1500));
    running.stdin.take().unwrap().write_all(&folder.read("move")).unwrap();
    let done = running.wait_with_output().unwrap();
    let said = String::from_utf8(done.stderr).unwrap();
    // of a pipe the length is not known
    assert_eq!((done.status.code(), said.lines().next()), (Some(0), Some("hall: editing the hall, 1 s")), "{said}");
}
