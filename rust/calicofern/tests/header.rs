//! The C header, docs/FORMAT.md and this crate have the same numbers.

use calicofern::{Check, VertexComponentType, VertexSemantic};
use std::path::Path;

/// A file of the repository, where this crate stands inside it.
fn file(name: &str) -> Option<String> {
    let text = std::fs::read_to_string(Path::new(env!("CARGO_MANIFEST_DIR")).join("../..").join(name)).ok();
    if text.is_none() {
        println!("skipped: no ../../{name}, so this crate stands outside its repository");
    }
    text
}

/// The names of an enum of the header behind their prefix, and their numbers. Each has a comment.
fn constants(header: &str, name: &str, prefix: &str) -> Vec<(String, u8)> {
    let (_, rest) = header.split_once(&format!("enum calicofern_{name} {{\n")).unwrap();
    let (body, _) = rest.split_once("};").unwrap();
    let constant = |line: &str| {
        let (item, comment) = line.split_once("/*").unwrap_or_else(|| panic!("no comment: {line}"));
        assert!(comment.trim_end().ends_with("*/"), "{line}");
        let (name, number) = item.trim().trim_end_matches(',').split_once(" = ").unwrap();
        (name.strip_prefix(prefix).unwrap().to_string(), number.parse().unwrap())
    };
    body.lines().map(constant).collect()
}

/// A name of this crate as the header writes it, underscores aside.
fn plain(name: impl std::fmt::Debug) -> String {
    format!("{name:?}").to_uppercase()
}

fn without_underscores(constants: Vec<(String, u8)>) -> Vec<(String, u8)> {
    constants.into_iter().map(|(name, number)| (name.replace('_', ""), number)).collect()
}

#[test]
fn checks_are_the_headers() {
    let Some(header) = file("include/calicofern.h") else { return };
    let expected: Vec<_> = Check::ALL.iter().map(|check| (plain(check), check.number())).collect();
    assert_eq!(without_underscores(constants(&header, "check", "CALICOFERN_CHECK_")), expected);
}

#[test]
fn semantics_and_types_are_the_headers() {
    let Some(header) = file("include/calicofern.h") else { return };
    let expected: Vec<_> = (0..16).map(|index| (plain(VertexSemantic::from_index(index)), index)).collect();
    assert_eq!(without_underscores(constants(&header, "semantic", "CALICOFERN_")), expected);
    let expected: Vec<_> = (0..11).map(|nibble| (plain(VertexComponentType::from_nibble(nibble)), nibble)).collect();
    assert_eq!(without_underscores(constants(&header, "type", "CALICOFERN_")), expected);
}

/// The order of the checks of a hall, as the header lists them for `hall_check`.
#[test]
fn the_header_asks_27_between_18_and_19() {
    let Some(header) = file("include/calicofern.h") else { return };
    let (text, _) = header.split_once("uint8_t calicofern_hall_check(").unwrap();
    let (_, text) = text.rsplit_once("/*").unwrap();
    let numbers: Vec<u8> = text.lines().filter_map(|line| line.strip_prefix("     ")?.split(' ').next()?.parse().ok()).collect();
    assert_eq!(numbers, [11, 12, 13, 14, 15, 16, 17, 18, 27, 19]);
}

/// The numbers that `set_attribute` passes are a unit test of the crate.
#[test]
fn shapes_are_the_headers() {
    let Some(header) = file("include/calicofern.h") else { return };
    let names = ["FLOAT", "FLOAT2", "FLOAT3", "FLOAT4", "BYTES"];
    let expected: Vec<_> = names.iter().zip(1..).map(|(name, number)| (name.to_string(), number)).collect();
    assert_eq!(constants(&header, "shape", "CALICOFERN_SHAPE_"), expected);
}

/// The cells of the rows of the table that begins with a heading.
fn table<'a>(text: &'a str, heading: &str) -> Vec<Vec<&'a str>> {
    let (_, rest) = text.split_once(heading).unwrap_or_else(|| panic!("no table {heading}"));
    let rows = rest.lines().skip(2).take_while(|line| line.starts_with('|'));
    rows.map(|line| line.trim_matches('|').split('|').map(str::trim).collect()).collect()
}

#[test]
fn the_format_has_every_semantic_and_every_check() {
    let Some(format) = file("docs/FORMAT.md") else { return };
    let rows = table(&format, "| semantic | name |");
    let mut semantics: Vec<(u8, &str)> =
        rows.iter().flat_map(|row| [(row[0].parse().unwrap(), row[1]), (row[3].parse().unwrap(), row[4])]).collect();
    semantics.sort();
    let expected: Vec<_> = (0..16).map(|index| (index, VertexSemantic::from_index(index).as_str())).collect();
    assert_eq!(semantics, expected);
    let checks: Vec<u8> = table(&format, "| check | asks | asked by |").iter().map(|row| row[0].parse().unwrap()).collect();
    // in the order in which they are asked: 27 stands behind 18
    let mut expected: Vec<u8> = Check::ALL.iter().map(|check| check.number()).filter(|number| *number != 27).collect();
    expected.insert(18, 27);
    assert_eq!(checks, expected);
}

#[test]
fn the_formats_types_have_their_bytes() {
    let Some(format) = file("docs/FORMAT.md") else { return };
    let rows = table(&format, "| type | stored as | bytes |");
    let cells = rows.iter().flat_map(|row| [(row[0], row[2]), (row[4], row[6])]);
    let mut found = 0;
    for (types, bytes) in cells {
        for nibble in types.split(", ") {
            let component_type = VertexComponentType::from_nibble(nibble.parse().unwrap());
            assert_eq!(component_type.size_in_bytes(), bytes.parse::<u8>().unwrap(), "{component_type}");
            found += 1;
        }
    }
    assert_eq!(found, (0..16).filter(|nibble| VertexComponentType::from_nibble(*nibble).size_in_bytes() > 0).count());
}
