//! Brings the original Rust into this crate. Its text stays where it is: a copy goes to OUT_DIR, changed in nothing but the
//! visibility of the functions named below.
use std::path::{Path, PathBuf};
use std::{env, fs};

/// The original's modules that play a part in geometry and its encoding.
const MODULES: [&str; 6] = ["math", "resource", "vertex", "ydd", "blocks/vertex", "blocks/xml"];

/// The functions that are called from outside: module, line as it is, line as it becomes.
const OPENED: [(&str, &str, &str); 6] = [
    ("ydd", "fn parse_lod_models_at(", "pub fn parse_lod_models_at("),
    ("vertex", "pub(crate) fn parse_vertex_buffer_at(", "pub fn parse_vertex_buffer_at("),
    (
        "vertex",
        "fn parse_vertex_declaration_at(reader: &ResReader<'_>, va: u64) -> Option<VertexDeclaration> {",
        "pub fn parse_vertex_declaration_at(reader: &ResReader<'_>, va: u64) -> Option<VertexDeclaration> {",
    ),
    ("vertex", "    fn nibble(self) -> u8 {", "    pub fn nibble(self) -> u8 {"),
    ("vertex", "fn f16_to_f32(value: u16) -> f32 {", "pub fn f16_to_f32(value: u16) -> f32 {"),
    ("vertex", "fn snorm8_to_f32(value: u8) -> f32 {", "pub fn snorm8_to_f32(value: u8) -> f32 {"),
];

/// `encode::snorm_byte` has the expression of this line, which stands inside a function that takes text.
const SNORM_BYTE: &str = "for i in 0..cc { out.push(((f(i) * 127.0).clamp(-127.0, 127.0) as i8) as u8); }";

fn main() {
    println!("cargo:rerun-if-env-changed=RAGE_FORMATS");
    println!("cargo:rustc-check-cfg=cfg(feature, values(\"test-support\"))");
    let out = PathBuf::from(env::var_os("OUT_DIR").unwrap());
    fs::create_dir_all(out.join("blocks")).unwrap();
    for module in MODULES {
        let source = original().join("src").join(format!("{module}.rs.txt"));
        println!("cargo:rerun-if-changed={}", source.display());
        let text =
            fs::read_to_string(&source).unwrap_or_else(|e| panic!("{}: {e}; RAGE_FORMATS says where the original is", source.display()));
        if module == "blocks/vertex" {
            assert!(text.contains(SNORM_BYTE), "the line that encodes a snorm byte");
        }
        let copy = opened(module, &text);
        check_lines(module, &text, &copy);
        fs::write(out.join(format!("{module}.rs")), copy).unwrap();
    }
    fs::write(out.join("original.rs"), declarations(&out, "")).unwrap();
    fs::write(out.join("blocks.rs"), declarations(&out, "blocks/")).unwrap();
}

/// The folder that holds src/*.rs.txt.
fn original() -> PathBuf {
    match env::var_os("RAGE_FORMATS") {
        Some(path) => PathBuf::from(path),
        None => Path::new(env!("CARGO_MANIFEST_DIR")).join("../../../../shared/docs/src"),
    }
}

/// `pub mod` for each of the original's modules in a folder.
fn declarations(out: &Path, folder: &str) -> String {
    let here = MODULES.iter().filter_map(|module| module.strip_prefix(folder)).filter(|name| !name.contains('/'));
    here.map(|name| format!("#[allow(warnings)]\n#[path = {:?}]\npub mod {name};\n", out.join(format!("{folder}{name}.rs")))).collect()
}

fn opened(module: &str, text: &str) -> String {
    let change = |line: &str| {
        let found = OPENED.iter().find(|(place, private, _)| *place == module && line == *private);
        found.map_or(line, |(_, _, public)| public).to_owned() + "\n"
    };
    text.lines().map(change).collect()
}

/// Exactly the lines of OPENED differ, each once.
fn check_lines(module: &str, text: &str, copy: &str) {
    assert_eq!(text.lines().count(), copy.lines().count());
    let differing: Vec<(&str, &str)> = text.lines().zip(copy.lines()).filter(|(before, after)| before != after).collect();
    let wanted = OPENED.iter().filter(|(place, _, _)| *place == module).count();
    assert_eq!(differing.len(), wanted, "{module}: lines that differ: {differing:?}");
    for (_, private, public) in OPENED.iter().filter(|(place, _, _)| *place == module) {
        assert_eq!(differing.iter().filter(|pair| **pair == (*private, *public)).count(), 1, "{module}: {private}");
    }
}
