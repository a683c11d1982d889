//! The command line program on the drawables in samples/.

mod program;

use program::{failed, folder, path, printed, strictly_failed};
use std::path::Path;

#[test]
fn list_shows_a_sound_hall() {
    let text = printed(&["list", "samples/shoebox"]);
    assert!(text.starts_with("samples/shoebox: 17,648 bytes of system section, 0 of graphics section, read at 0x50000000\n"), "{text}");
    assert!(text.contains("model 1: binding 0x00000000 (bone 0, not skinned), mask 0x00ff, 4 geometries\n"), "{text}");
    assert!(text.contains("         1       3         80      240    240       120    120      32  Legacy  d0\n"), "{text}");
    assert!(text.contains("d0               32  Position Float3, Normal Float3, TexCoord0 Float2\n"), "{text}");
    assert!(text.ends_with("\n2 models, 7 geometries, 382 triangles\nall counts agree\n"), "{text}");
}

#[test]
fn list_marks_counts_that_disagree() {
    let text = printed(&["list", "samples/damaged"]);
    let marked: Vec<&str> = text.lines().filter(|line| line.starts_with("! ") && line.contains("Legacy")).collect();
    assert_eq!(marked.len(), 2, "{text}");
    assert!(
        text.contains("\n4 pairs of numbers disagree:\n! model 0 geometry 1: index count 147, but count of the index block 150"),
        "{text}"
    );
}

#[test]
fn strict_makes_counts_that_disagree_a_failure() {
    let (text, said) = strictly_failed(&["list", "samples/damaged", "--strict"]);
    assert_eq!(text, printed(&["list", "samples/damaged"]));
    assert_eq!(said, "hall: --strict: 4 pairs of numbers disagree");
    printed(&["list", "samples/shoebox", "--strict"]);
}

#[test]
fn list_writes_the_bytes() {
    let file = path(&folder("list"), "layouts.list");
    let text = printed(&["list", "--bytes", &file, "--system", "samples/layouts.system", "--graphics", "samples/layouts.graphics"]);
    let length = std::fs::metadata(&file).unwrap().len();
    assert!(text.ends_with(&format!("wrote the list, {},{:03} bytes, to {file}\n", length / 1000, length % 1000)), "{text}");
    assert!(text.contains("GeometryInline  none\n") && text.contains("LegacyData2     d1\n") && text.contains("Gen9 "), "{text}");
}

#[test]
fn an_address_without_a_header_has_no_models() {
    let text = printed(&["list", "samples/shoebox", "--at", "0x5fffffff"]);
    assert!(
        text.contains("\nno models: ") && text.ends_with("the LOD header at this address lists none or is not inside its section\n"),
        "{text}"
    );
}

#[test]
fn refusals_are_one_line_and_status_1() {
    let folder = folder("refused");
    let cut = path(&folder, "cut.system");
    let whole = std::fs::read(Path::new(env!("CARGO_MANIFEST_DIR")).join("samples/shoebox.system")).unwrap();
    std::fs::write(&cut, &whole[..9000]).unwrap();
    let (status, said) = failed(&["list", "--system", &cut]);
    assert_eq!(status, 1);
    assert!(said.starts_with("hall: check 2: the list of model pointers is not inside its section"), "{said}");
    let (status, said) = failed(&["list", "samples/shoebox", "--limit", "100"]);
    assert_eq!(status, 1);
    assert_eq!(said, "hall: check 7: the buffer for the list is too short: 17397 bytes are needed, and the limit is 100");
    let (status, said) = failed(&["vertices", "samples/shoebox", "--vertex", "54"]);
    assert_eq!((status, said.starts_with("hall: check 8: there is no such vertex")), (1, true), "{said}");
    let (status, said) = failed(&["vertices", "samples/shoebox", "--vertex", "0xffffffffffffffff"]);
    assert_eq!((status, said.starts_with("hall: check 8: ")), (1, true), "{said}");
}

#[test]
fn wrong_usage_is_one_line_and_status_2() {
    for words in [
        &[][..],
        &["what"],
        &["list"],
        &["list", "samples/nothing"],
        &["list", "samples/shoebox", "more"],
        &["list", "samples/shoebox", "--more"],
        &["list", "samples/shoebox", "--at"],
        &["list", "samples/shoebox", "--at", "here"],
        &["list", "--graphics", "samples/layouts.graphics"],
        &["list", "--system", "samples/layouts.system", "samples/layouts"],
        &["list", "samples/shoebox", "--bytes", "samples/shoebox.system/file"],
        &["vertices", "samples/shoebox", "--model", "2"],
        &["vertices", "samples/shoebox", "--geometry", "3"],
        &["vertices", "samples/damaged", "--geometry", "3"],
        &["vertices", "samples/shoebox", "--all"],
        &["halves"],
        &["halves", "0x123"],
        &["halves", "one"],
        &["halves", "--to-floats", "samples/shoebox.system"],
        &["demo", "more"],
        &["new"],
        &["take-in", "samples/shoebox"],
        &["check", "samples/nothing"],
        &["check"],
        &["help", "nothing"],
        &["nothing", "--help"],
        &["edit", "samples/shoebox.system"],
        &["save"],
        &["show"],
    ] {
        let (status, said) = failed(words);
        assert_eq!((status, said.starts_with("hall: ")), (2, true), "{words:?}: {said}");
    }
}

#[test]
fn vertices_are_shown() {
    let text = printed(&["vertices", "samples/layouts", "--geometry", "1", "--vertex", "22"]);
    let lines: Vec<&str> = text.lines().collect();
    // the last two of 24
    assert_eq!(lines.len(), 3, "{text}");
    assert!(lines[0].starts_with("vertex ") && lines[0].ends_with("Position Half4              Normal Float4  TexCoord0 Float2"), "{text}");
    assert!(lines[2].starts_with("    23 "), "{text}");
    assert_eq!(printed(&["vertices", "samples/layouts", "--count", "3"]).lines().count(), 4);
}

#[test]
fn vertices_are_written() {
    let folder = folder("vertices");
    let (unified, obj) = (path(&folder, "stage.unified"), path(&folder, "stage.obj"));
    let text = printed(&["vertices", "samples/shoebox", "--model", "1", "--unified", &unified, "--obj", &obj]);
    assert!(
        text.contains("wrote 25 unified vertices, 84 bytes each, to ") && text.contains("wrote 25 positions and 24 triangles to "),
        "{text}"
    );
    assert_eq!(std::fs::metadata(&unified).unwrap().len(), 25 * 84);
    let lines = std::fs::read_to_string(&obj).unwrap();
    assert!(lines.starts_with("g model_1_geometry_0_shader_2\nv 3 1 1\nv 6.5 1 1\n"), "{lines}");
    assert!(lines.ends_with("\n") && lines.lines().filter(|line| line.starts_with("f ")).count() == 24, "{lines}");
}

#[test]
fn a_whole_hall_is_written_as_obj() {
    let file = path(&folder("obj"), "hall.obj");
    let left_out = "1 geometry is left out: model 0 geometry 3 (no vertices)";
    let said = printed(&["vertices", "samples/damaged", "--obj", &file, "--all"]);
    assert_eq!(said, format!("wrote 132 positions and 170 triangles to {file}; {left_out}\n"));
    let text = std::fs::read_to_string(&file).unwrap();
    assert!(text.ends_with("# model_0_geometry_3_shader_2: no vertices\n"));
    let vertices = text.lines().filter(|line| line.starts_with("v ")).count();
    // faces count from 1 over all groups
    let corners = text.lines().filter(|line| line.starts_with("f ")).flat_map(|line| line[2..].split(' '));
    let corners: Vec<usize> = corners.map(|corner| corner.parse().unwrap()).collect();
    assert_eq!((corners.iter().min(), corners.iter().max()), (Some(&1), Some(&vertices)));
    let strict = strictly_failed(&["vertices", "samples/damaged", "--obj", &file, "--all", "--strict"]);
    assert_eq!(strict, (said, format!("hall: --strict: {left_out}")));
}

/// A coordinate that is no number has no place in an OBJ file, and must not become 0.
#[test]
fn obj_leaves_out_what_is_no_number() {
    let folder = folder("no-number");
    let (file, script, obj) = (path(&folder, "a.hall"), path(&folder, "script"), path(&folder, "a.obj"));
    printed(&["new", &file]);
    let square = "vertices 0 0 0  1 nan 0  1 1 0  0 1 0 indices 0 1 2  0 2 3";
    std::fs::write(&script, format!("add-model 0 1\nadd-geometry 5 Position:Float3 {square}\nadd-geometry 6 Position:Float3 {square}\n"))
        .unwrap();
    printed(&["edit", &file, &script]);
    let said = printed(&["vertices", &file, "--all", "--obj", &obj]);
    let left_out = "2 triangles with a coordinate that is no number are left out";
    assert_eq!(said, format!("wrote 6 positions and 2 triangles to {obj}; {left_out}\n"));
    let text = std::fs::read_to_string(&obj).unwrap();
    assert_eq!(
        text,
        "g model_0_geometry_0_shader_5\nv 0 0 0\nv 1 1 0\nv 0 1 0\nf 1 2 3\n\
         g model_0_geometry_1_shader_6\nv 0 0 0\nv 1 1 0\nv 0 1 0\nf 4 5 6\n"
    );
    assert_eq!(strictly_failed(&["vertices", &file, "--all", "--obj", &obj, "--strict"]).1, format!("hall: --strict: {left_out}"));
}

#[test]
fn halves_both_ways() {
    let text = printed(&["halves", "0x7c01", "-0.1", "0x3f801000"]);
    let cells: Vec<Vec<&str>> = text.lines().map(|line| line.split_whitespace().collect()).collect();
    assert_eq!(cells[1], ["0x7c01", "0x7c01", "0x7f802000", "NaN"]);
    assert_eq!(cells[2], ["-0.1", "0xae66", "0xbdcccccd", "-0.1"]);
    assert_eq!(cells[3], ["0x3f801000", "0x3c00", "0x3f801000", "1.0004883"]);
    let folder = folder("halves");
    let (halves, floats, back) = (path(&folder, "halves"), path(&folder, "floats"), path(&folder, "back"));
    std::fs::write(&halves, [0x00, 0x3C, 0x01, 0x00]).unwrap();
    assert!(printed(&["halves", "--to-floats", &halves, &floats]).starts_with("wrote 2 numbers, 4 bytes each, to "));
    assert_eq!(std::fs::read(&floats).unwrap(), [0, 0, 0x80, 0x3F, 0, 0, 0x80, 0x33]);
    printed(&["halves", "--to-halves", &floats, &back]);
    assert_eq!(std::fs::read(&back).unwrap(), std::fs::read(&halves).unwrap());
}

#[test]
fn the_demo_says_what_it_wrote() {
    let folder = folder("demo");
    let text = printed(&["demo", "--out", &folder.display().to_string()]);
    for name in ["shoebox.list", "balcony.unified", "shoebox.obj", "edited.system", "shoebox.svg", "edited.svg"] {
        assert!(text.contains(&path(&folder, name)) && folder.join(name).metadata().unwrap().len() > 1000, "{text}");
    }
    assert!(
        text.contains("382 triangles, then 332") && text.contains("check 18:") && text.contains("read back as the same hall"),
        "{text}"
    );
}

/// A triangle, then an edit of it.
const SCRIPT: &str = "\
# a floor of one triangle
add-model 0 0xff
add-geometry 5 Position:Float3 vertices 0 0 0  20 0 0  0 32 0 indices 0 1 2

set-attribute 0 0 1 Position 22 0 0
";

#[test]
fn a_hall_is_made_and_edited() {
    let folder = folder("edit");
    let (file, script) = (path(&folder, "made.hall"), path(&folder, "script"));
    assert_eq!(printed(&["new", &file]), format!("wrote {file}: 0 models, 0 geometries, 0 triangles, 0 bytes\n"));
    assert_eq!(printed(&["check", &file]), format!("{file} is an empty hall: it has no models\n"));
    std::fs::write(&script, SCRIPT).unwrap();
    let text = printed(&["edit", &file, &script]);
    assert_eq!(text, format!("3 calls; wrote {file}: 1 model, 1 geometry, 1 triangle, 127 bytes\n"));
    assert_eq!(printed(&["check", &file]), format!("{file} is a hall: 1 model, 1 geometry, 1 triangle, 127 bytes\n"));
    let hall = calicofern::Hall::from_list(std::fs::read(&file).unwrap()).unwrap();
    assert_eq!(hall.unified_vertices(0, 0).unwrap()[1].position, [22.0, 0.0, 0.0]);

    // into another file
    let other = path(&folder, "other.hall");
    std::fs::write(&script, "remove-model 0\n").unwrap();
    assert!(printed(&["edit", &file, &script, "--out", &other]).starts_with("1 call; wrote "));
    assert_eq!((std::fs::read(&file).unwrap().len(), std::fs::read(&other).unwrap().len()), (127, 0));
}

#[test]
fn a_script_that_fails_changes_nothing_and_names_its_line() {
    let folder = folder("script");
    let (file, script) = (path(&folder, "kept.hall"), path(&folder, "script"));
    printed(&["new", &file]);
    std::fs::write(&script, format!("{SCRIPT}replace-indices 0 0 0 1 3\n")).unwrap();
    let (status, said) = failed(&["edit", &file, &script]);
    assert_eq!(status, 1);
    let words = "line 6: check 18: an index names no vertex: each must be below the number of vertices: model 0, geometry 0: index 2 of the geometry is 3, and it has 3 vertices";
    assert_eq!(said, format!("hall: {script}, {words}"));
    std::fs::write(&script, "add-model 0\n").unwrap();
    assert_eq!(failed(&["edit", &file, &script]), (2, format!("hall: {script}, line 1: the mask is missing")));
    assert_eq!(std::fs::metadata(&file).unwrap().len(), 0);
}

#[test]
fn drawables_are_taken_in() {
    let folder = folder("take-in");
    let (file, script) = (path(&folder, "layouts.hall"), path(&folder, "script"));
    let text = printed(&["take-in", "samples/layouts", "--out", &file]);
    assert!(text.starts_with(&format!("wrote {file}: 3 models, 4 geometries, ")), "{text}");
    assert!(printed(&["check", &file]).starts_with(&format!("{file} is a hall: 3 models, 4 geometries, ")));
    std::fs::write(&script, "take-in 0x50000000 samples/shoebox.system\n").unwrap();
    assert!(printed(&["edit", &file, &script]).contains(": 2 models, 7 geometries, 382 triangles, 17,397 bytes\n"));
    let (status, said) = failed(&["take-in", "samples/damaged", "--out", &file]);
    assert_eq!((status, said.starts_with("hall: check 11: model 0, geometry 3 has no vertices")), (1, true), "{said}");
}

/// What a file is, is known by its bytes, and each command works on it or says what to do.
#[test]
fn any_file_and_any_command() {
    let folder = folder("any");
    let (hall, out) = (path(&folder, "shoebox.hall"), path(&folder, "out"));
    printed(&["take-in", "samples/shoebox.system", "--out", &hall]);
    // a hall
    let listed = printed(&["list", &hall]);
    assert!(listed.starts_with(&format!("{hall}: 17,397 bytes, a hall\n")), "{listed}");
    assert!(listed.ends_with("\n2 models, 7 geometries, 382 triangles\nall counts agree\n"), "{listed}");
    assert_eq!(printed(&["vertices", &hall, "--model", "1"]), printed(&["vertices", "samples/shoebox", "--model", "1"]));
    assert_eq!(failed(&["take-in", &hall, "--out", &out]), (2, format!("hall: {hall} is a hall already: there is nothing to take in")));
    assert_eq!(failed(&["list", &hall, "--at", "0x50000000"]).0, 2);
    // a section, by its own name, by the drawable's, and by any other
    let bare = path(&folder, "bare");
    std::fs::copy("samples/shoebox.system", &bare).unwrap();
    for name in ["samples/shoebox.system", "samples/shoebox", &bare] {
        let is = "is a drawable, which taken in is a hall: 2 models, 7 geometries, 382 triangles, 17,397 bytes\n";
        assert_eq!(printed(&["check", name]), format!("{name} {is}"));
        assert!(printed(&["list", name]).starts_with(&format!("{name}: 17,648 bytes of system section, 0 of graphics section, read at ")));
        assert!(printed(&["show", name, &out]).starts_with(&format!("wrote {out}: plan and long section of 2 models, 7 geometries")));
    }
    assert!(printed(&["list", "samples/layouts.system"]).contains("bytes of system section, 3,744 of graphics section"));
    for words in [&["save", &bare, &out][..], &["edit", &bare, &out]] {
        std::fs::write(&out, "").unwrap();
        let (status, said) = failed(words);
        let expected =
            format!("hall: {bare} is a drawable's section and no hall: 'hall take-in {bare} --out NAME.hall' makes a hall of it");
        assert_eq!((status, said), (2, expected), "{words:?}");
    }
    let (status, said) = failed(&["check", "samples/damaged"]);
    assert_eq!((status, said.starts_with("hall: check 11: ")), (1, true), "{said}");
    // a packed resource
    let packed = path(&folder, "packed.system");
    std::fs::write(&packed, b"RSC7\xa5\0\0\0 and what follows").unwrap();
    let named = path(&folder, "packed");
    for words in [
        &["list", &packed][..],
        &["list", &named],
        &["vertices", &packed],
        &["show", &packed, &out],
        &["check", &packed],
        &["take-in", &packed, "--out", &out],
        &["save", &packed, &out],
        &["edit", &packed, &out],
    ] {
        let (status, said) = failed(words);
        let is = "packed.system is a packed resource (RSC7): its two sections are what `prepare_rsc7` of the loader gives";
        assert_eq!((status, said.contains(is)), (2, true), "{words:?}: {said}");
    }
    // a hall that is damaged is listed too, and refused
    let mut bytes = std::fs::read(&hall).unwrap();
    bytes[12 + 6 + 8] += 3;
    std::fs::write(&hall, bytes).unwrap();
    assert!(printed(&["list", &hall]).starts_with(&format!("{hall}: 17,397 bytes, not a sound hall; 'hall check' says why\n")));
    let (status, said) = failed(&["check", &hall]);
    assert_eq!((status, said.starts_with("hall: check 17: ")), (1, true), "{said}");
}

/// A hall's file and a drawable, each with a degenerate triangle: they are listed, and refused in one line by every command that wants a hall.
#[test]
fn degenerate_triangles_are_refused_with_their_place() {
    let folder = folder("degenerate");
    let (file, drawable, script, out) = (path(&folder, "a.hall"), path(&folder, "b.system"), path(&folder, "script"), path(&folder, "out"));
    printed(&["new", &file]);
    let two = "vertices 0 0 0  1 0 0  1 1 0  0 1 0 indices 0 1 2  0 2 3";
    std::fs::write(&script, format!("add-model 0 1\nadd-geometry 5 Position:Float3 {two}\n")).unwrap();
    printed(&["edit", &file, &script]);
    printed(&["save", &file, &drawable]);
    // 0, 2, 3 becomes 0, 2, 0: the last index of the list, and of the image, which ends 4 bytes behind it
    let mut list = std::fs::read(&file).unwrap();
    let last = list.len() - 4;
    list[last] = 0;
    std::fs::write(&file, list).unwrap();
    let mut image = std::fs::read(&drawable).unwrap();
    let last = image.len() - 6;
    image[last] = 0;
    std::fs::write(&drawable, image).unwrap();
    std::fs::write(&script, "add-model 0 0\n").unwrap();

    let line = "hall: check 27: a triangle is degenerate: its three indices must be different: model 0, geometry 0: \
                triangle 1 of the geometry is 0, 2, 0, with index 0 twice";
    for words in [
        &["check", &file][..],
        &["check", &drawable],
        &["take-in", &drawable, "--out", &out],
        &["edit", &file, &script],
        &["edit", &file, &script, "--out", &out],
        &["save", &file, &out],
    ] {
        assert_eq!(failed(words), (1, line.to_string()), "{words:?}");
        assert!(!Path::new(&out).exists(), "{words:?}");
    }
    // a script that takes in such a drawable, and an edit of a sound hall
    let sound = path(&folder, "sound.hall");
    printed(&["new", &sound]);
    std::fs::write(&script, format!("take-in 0x50000000 {drawable}\n")).unwrap();
    let line = line.strip_prefix("hall: ").unwrap();
    assert_eq!(failed(&["edit", &sound, &script]), (1, format!("hall: {script}, line 1: {line}")));

    let pair = "model 0 geometry 0: triangles found 2, but triangles of three different indices 1 (check 27 of a sound hall)";
    for name in [&file, &drawable] {
        let text = printed(&["list", name]);
        let end = format!("\n1 model, 1 geometry, 2 triangles\n1 pair of numbers disagrees:\n! {pair}\n");
        assert!(text.ends_with(&end), "{text}");
        assert_eq!(strictly_failed(&["list", name, "--strict"]).1, "hall: --strict: 1 pair of numbers disagrees");
    }
    assert!(printed(&["list", &file]).contains(" bytes, not a sound hall; 'hall check' says why\n"));
}

#[test]
fn the_limit_of_take_in_is_the_halls() {
    let file = path(&folder("limit"), "a.hall");
    let (status, said) = failed(&["take-in", "samples/shoebox", "--out", &file, "--limit", "17396"]);
    assert_eq!(
        (status, said.as_str()),
        (1, "hall: check 24: the buffer for the hall is too short: 17397 bytes are needed, and the limit is 17396")
    );
    assert!(!Path::new(&file).exists());
    printed(&["take-in", "samples/shoebox", "--out", &file, "--limit", "17397"]);
    assert_eq!(failed(&["check", "samples/shoebox", "--limit", "17396"]), (status, said));
}

#[test]
fn a_hall_is_saved_and_taken_in_again() {
    let folder = folder("save");
    let (file, name, again) = (path(&folder, "shoebox.hall"), path(&folder, "saved"), path(&folder, "again.hall"));
    printed(&["take-in", "samples/shoebox", "--out", &file]);
    let system = format!("{name}.system");
    let text = printed(&["save", &file, &system]);
    assert_eq!(text, format!("wrote {system}: 17,648 bytes of system section, to be read at 0x50000000\n"));
    printed(&["take-in", &name, "--out", &again]);
    assert_eq!(std::fs::read(&file).unwrap(), std::fs::read(&again).unwrap());
    assert!(printed(&["list", &name]).ends_with("\n2 models, 7 geometries, 382 triangles\nall counts agree\n"));
}

#[test]
fn a_hall_is_drawn() {
    let folder = folder("show");
    let (file, drawing) = (path(&folder, "shoebox.hall"), path(&folder, "shoebox.svg"));
    printed(&["take-in", "samples/shoebox", "--out", &file]);
    let text = printed(&["show", &file, &drawing]);
    assert!(text.starts_with(&format!("wrote {drawing}: plan and long section of 2 models, 7 geometries, 382 triangles\n")), "{text}");
    let drawn = std::fs::read_to_string(&drawing).unwrap();
    for geometry in ["0.0", "0.1", "0.2", "1.0", "1.1", "1.2", "1.3"] {
        assert!(drawn.contains(&format!("id=\"plan-{geometry}\"")) && drawn.contains(&format!("id=\"long-section-{geometry}\"")));
    }
    assert_eq!(drawn.matches('Z').count(), 2 * 382);
    assert!(drawn.starts_with("<svg ") && drawn.ends_with("</svg>\n"));
    // of a drawable that is no hall, what can be drawn
    let said = printed(&["show", "samples/damaged", &drawing]);
    let left_out = "1 geometry is left out: model 0 geometry 3 (no vertices)";
    assert_eq!(said, format!("wrote {drawing}: plan and long section of 1 model, 4 geometries, 181 triangles; {left_out}\n"));
    assert_eq!(strictly_failed(&["show", "samples/damaged", &drawing, "--strict"]), (said, format!("hall: --strict: {left_out}")));
    printed(&["show", &file, &drawing, "--strict"]);
}

/// Work of more than a second says on standard error what is being done.
#[test]
fn slow_work_shows_progress() {
    let slow = format!("(sleep 2.3; cat samples/shoebox.system) | {} check /dev/stdin", env!("CARGO_BIN_EXE_hall"));
    let done = std::process::Command::new("sh").args(["-c", &slow]).current_dir(env!("CARGO_MANIFEST_DIR")).output().unwrap();
    assert_eq!(String::from_utf8_lossy(&done.stderr), "hall: reading /dev/stdin, 1 s\nhall: reading /dev/stdin, 2 s\n");
    assert!(done.status.success() && String::from_utf8_lossy(&done.stdout).contains("is a drawable, which taken in is a hall"));
}

#[test]
fn help_and_version() {
    let help = printed(&["--help"]);
    for command in ["list", "vertices", "halves", "demo", "new", "take-in", "check", "edit", "save", "show"] {
        assert!(help.contains(&format!("\n  hall {command} ")), "{help}");
        let own = printed(&[command, "--help"]);
        assert_eq!(own, printed(&["help", command]));
        assert!(own.starts_with(&format!("  hall {command} ")) && own.matches("\n  hall ").count() == 0, "{own}");
        assert!(own.contains("Exit status: 0 done;"), "{own}");
        assert!(!own.is_empty() && help.contains(own.split("\n\n").next().unwrap()), "{own}");
    }
    let script = printed(&["help", "script"]);
    for call in ["add-model", "add-geometry", "remove-geometry", "remove-model", "set-attribute", "replace-indices", "take-in"] {
        assert!(script.contains(&format!("\n  {call} ")), "{script}");
    }
    assert!(help.contains(&script) && help.lines().all(|line| line.len() <= 110), "{help}");
    assert_eq!(failed(&["lits"]).1, "hall: there is no command 'lits', did you mean list?; 'hall --help' lists them");
    assert!(failed(&["list", "samples/shoebox", "--strickt"]).1.contains("'--strickt' is not known here; did you mean --strict?"));
    assert_eq!(printed(&["--version"]), format!("hall {}\n", env!("CARGO_PKG_VERSION")));
}
