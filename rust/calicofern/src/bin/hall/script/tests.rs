//! Scripts of several lines.

use super::*;
use std::io::Cursor;

/// Does the calls of a text; how many there were, or why a line failed.
fn done(hall: &mut Hall, text: &str, strict: bool) -> Result<u64, String> {
    let lines = Lines::new("script", Box::new(Cursor::new(text.as_bytes().to_vec())), files::SCRIPT);
    edit(hall, &mut Files::default(), lines, strict, |_| ()).map_err(|failure| failure.to_string())
}

/// Why a line of a script fails, and which.
fn failing(text: &str) -> String {
    done(&mut Hall::new(), text, false).unwrap_err()
}

const TRIANGLE: &str = "add-model 0x100 15\nadd-geometry 5 Position:Float3 Colour0:colour vertices 0 0 0 1 2 3 4  1 0 0 1 2 3 4  0 1 0 1 2 3 255 indices 0 1 2\n";

#[test]
fn every_call() {
    let mut hall = Hall::new();
    let text = format!(
        "# a triangle\n\n{TRIANGLE}set-attribute 0 0 1 position 4.5 0 -1 # moved\nset-attribute 0 0 2 Colour0 9 8 7 6\nreplace-indices 0 0 2 0x1 0 0 1 0X2\n"
    );
    assert_eq!(done(&mut hall, &text, true), Ok(5));
    assert_eq!(hall.unified_vertices(0, 0).unwrap()[1].position, [4.5, 0.0, -1.0]);
    assert_eq!(hall.unified_vertices(0, 0).unwrap()[2].color0, [9, 8, 7, 6]);
    assert_eq!(hall.triangle_count(), 2);
    assert_eq!(done(&mut hall, "remove-geometry 0 0\nremove-model 0", true), Ok(2));
    assert_eq!(hall, Hall::new());
}

#[test]
fn packed_types_are_stored_as_the_library_stores_them() {
    let mut hall = Hall::new();
    let text =
        "add-model 0 0\nadd-geometry 1 Position:Half4 Normal:RGBA8SNorm TexCoord0:Half2 vertices 0.1 1 2 3 0.999 -1 0 9 0.3 0.7  0 0 0 0 0 0 0 0 0 0  0 0 0 0 0 0 0 0 0 0 indices 0 1 2\n";
    assert_eq!(done(&mut hall, text, true), Ok(2));
    let written = hall.clone();
    let again = "set-attribute 0 0 0 Position 0.1 1 2 3\nset-attribute 0 0 0 Normal 0.999 -1 0 9\nset-attribute 0 0 0 TexCoord0 0.3 0.7\n";
    assert_eq!(done(&mut hall, again, true), Ok(3));
    assert_eq!(hall, written);
}

#[test]
fn a_line_that_fails_is_named() {
    assert_eq!(failing("add-model 0 0\n\nfly 1\n"), "script, line 3: there is no call 'fly'; 'hall help script' lists them");
    let meant = "script, line 1: there is no call 'add-modle'; did you mean add-model? 'hall help script' lists them";
    assert_eq!(failing("add-modle 0 0\n"), meant);
    assert_eq!(failing("add-model 0"), "script, line 1: the mask is missing");
    assert_eq!(failing("add-model 0 65536"), "script, line 1: '65536' is no mask: a whole number from 0 to 65535");
    assert_eq!(failing("add-model 0 0 0"), "script, line 1: '0' is too much here; 'hall help script' says what the call takes");
    assert_eq!(failing("take-in 0x50000000"), "script, line 1: the system section's file is missing");
    let given = |line: &str| failing(&format!("{TRIANGLE}{line}")).strip_prefix("script, line 3: ").unwrap().to_string();
    assert_eq!(given("set-attribute 0 0 0 Position"), "an attribute has 1 to 4 numbers, and 0 are given");
    assert_eq!(
        given("set-attribute 0 0 0 Positio 0 0 0"),
        "there is no semantic 'Positio'; did you mean Position? 'hall help script' lists them"
    );
    assert_eq!(given("set-attribute 0 0 0 Colour0 1 2 3 256"), "256 is no byte: a whole number from 0 to 255");
    assert_eq!(given("replace-indices 0 0 0 1 0x100000000"), "'0x100000000' is no index: a whole number from 0 to 4294967295");
    // what the library refuses
    assert!(failing("add-geometry 5 Position:Float3 vertices 0 0 0 indices 0 0 0").starts_with("script, line 1: check 21: "));
    assert!(given("replace-indices 0 0 0 1 3").starts_with("check 18: "));
    let degenerate = "check 27: a triangle is degenerate: its three indices must be different";
    let triangle = "triangle 1 of the geometry is 2, 1, 2, with index 2 twice";
    assert_eq!(given("replace-indices 0 0 0 1 2  2 1 2"), format!("{degenerate}: model 0, geometry 0: {triangle}"));
    // two vertices make no triangle
    let line = "add-geometry 5 Position:Float3 vertices 0 0 0  1 0 0 indices 0 1 1";
    assert_eq!(given(line), format!("{degenerate}: triangle 0 of the geometry is 0, 1, 1, with index 1 twice"));
    assert!(given("add-geometry 5 Position:Float3 vertices 0 0 0  1 0 0 indices 0 1 2").starts_with("check 18: "));
    assert_eq!(
        given("set-attribute 0 0 3 Position 0 0 0"),
        "check 21: there is no vertex 3 of model 0, geometry 0: it has 3 vertices, numbered from 0"
    );
    assert_eq!(
        given("set-attribute 0 0 0 Position 0 0"),
        "check 23: Position is Float3: three numbers, 2 are given: model 0, geometry 0, vertex 0"
    );
    assert!(given("set-attribute 0 0 0 Normal 0 0 0").starts_with("check 22: "));
}

#[test]
fn numbers_that_become_infinite_are_counted_or_fail() {
    let halves = "add-model 0 0\nadd-geometry 1 Position:Half4 Normal:Float3 vertices 0 1 2 65519.99 0 70000 inf  0 0 0 0 0 0 0  0 0 0 0 0 0 0 indices 0 1 2\n";
    let strictly = |line: &str| done(&mut Hall::new(), &format!("{halves}{line}"), true);
    assert_eq!(strictly(""), Ok(2));
    assert_eq!(strictly("set-attribute 0 0 0 Normal 70000 65520 -inf"), Ok(3));
    assert_eq!(
        strictly("set-attribute 0 0 0 Position 1 2 3 65520"),
        Err("script, line 3: --strict: 65520 becomes infinite as a half".to_string())
    );
    assert_eq!(
        strictly("set-attribute 0 0 0 Normal 1e39 0 1e40").unwrap_err(),
        "script, line 3: --strict: 1e39 becomes infinite as a float (and 1 more number of this line)"
    );
    let line = "add-geometry 1 Normal:Half2 Position:Float3 vertices 70000 0 70000 0 0  0 -1e5 7 8 9  0 0 0 0 0 indices 0 1 2";
    assert_eq!(strictly(line).unwrap_err(), "script, line 3: --strict: 70000 becomes infinite as a half (and 1 more number of this line)");
    // only said
    assert_eq!(done(&mut Hall::new(), &format!("{halves}{line}"), false), Ok(3));
}
