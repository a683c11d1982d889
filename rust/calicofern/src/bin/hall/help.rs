//! What the program says about itself.

use crate::failure::Failure;
use calicofern::nearest;

/// A command: its name, how it is called, and what it does.
struct Command {
    name: &'static str,
    usage: &'static str,
    text: &'static str,
    /// Whether FILE is a hall or a drawable, with the options about the latter.
    file: bool,
}

const COMMANDS: [Command; 10] = [
    Command {
        name: "list",
        usage: "hall list FILE [--bytes OUT] [--strict]",
        text: "\
the models and geometries of a drawable or a hall, with every pair of counts that disagrees
--bytes OUT     also write the list's bytes
--strict        exit status 1 where counts disagree
",
        file: true,
    },
    Command {
        name: "vertices",
        usage: "hall vertices FILE [--model M] [--geometry G] [--vertex V] [--count N]\n                     [--unified OUT] [--obj OUT] [--all] [--strict]",
        text: "\
the attributes of N vertices from V on, of one geometry (M, G, V are 0 and N is 8 where not given)
--unified OUT   write all its vertices in one form, 84 bytes each, and print none
--obj OUT       write its positions and triangles as Wavefront OBJ, and print none
--all           with --obj: every geometry, each a group of its own
--strict        exit status 1 where an output leaves something out; the last line says what
",
        file: true,
    },
    Command {
        name: "show",
        usage: "hall show FILE OUT [--strict]",
        text: "\
a hall or a drawable as an SVG drawing: plan and long section, a colour for each shader id
--strict        exit status 1 where the drawing leaves something out; the last line says what
",
        file: true,
    },
    Command {
        name: "check",
        usage: "hall check FILE",
        text: "\
whether a file is a hall, in which every count agrees and every triangle has three different
indices, or a drawable that can be taken in as one; else the number of the check that fails
",
        file: true,
    },
    Command {
        name: "take-in",
        usage: "hall take-in FILE --out HALL",
        text: "\
the hall that a drawable holds
",
        file: true,
    },
    Command {
        name: "new",
        usage: "hall new HALL [--force]",
        text: "\
a hall without models; a file that has bytes is replaced only with --force
",
        file: false,
    },
    Command {
        name: "edit",
        usage: "hall edit HALL SCRIPT [--out FILE] [--backup] [--strict]",
        text: "\
do the calls of a script, one a line; 'hall help script' has the lines. SCRIPT - is standard input.
Where a line fails, the others have no effect either
--out FILE      write the edited hall to FILE; without it HALL is written anew
--backup        keep the hall before as HALL~
--strict        a number that becomes infinite as it is stored fails too
",
        file: false,
    },
    Command {
        name: "save",
        usage: "hall save HALL FILE",
        text: "\
a hall as a drawable: FILE is its system section, to be read at 0x50000000, and it has no other
",
        file: false,
    },
    Command {
        name: "halves",
        usage: "hall halves NUMBER..",
        text: "\
0x and four digits: a half's bits, shown as a float. 0x and eight digits, or a decimal number:
a float, shown as the nearest half
--to-floats IN OUT, --to-halves IN OUT    convert whole files of little-endian numbers
",
        file: false,
    },
    Command {
        name: "demo",
        usage: "hall demo [--out FOLDER]",
        text: "\
a sample hall, from reading to unified vertices, and through an edit to a saved drawable and back,
with a drawing before and after; it says where it wrote them
",
        file: false,
    },
];

const FILE: &str = "\
FILE is a hall's file; or a drawable's: NAME, for the section files NAME.system and NAME.graphics (which may
be missing), or the system section itself. A file is known by its first bytes. For a drawable:
  --system FILE     its system section, whatever its name; then no other file is named
  --graphics FILE   its graphics section
  --at ADDRESS      the address of the LOD header (0x50000000 where not given)
  --limit BYTES     the most bytes that the list, or the hall taken in, may have (1073741824 where not given)
";

const SCRIPT: &str = "\
The lines of a script. # begins a comment; whole numbers are decimal, or hexadecimal after 0x:
  add-model BINDING MASK                      a model without geometries, at the end
  add-geometry SHADER SEMANTIC:TYPE.. vertices NUMBER.. indices INDEX..
                                              a geometry of the last model; a triangle is three different
                                              indices. A vertex has its components' numbers, in the order as
                                              written
  remove-geometry MODEL GEOMETRY
  remove-model MODEL
  set-attribute MODEL GEOMETRY VERTEX SEMANTIC NUMBER..
  replace-indices MODEL GEOMETRY INDEX..
  take-in ADDRESS SYSTEM-FILE [GRAPHICS-FILE] the hall becomes what these sections hold
SEMANTIC: Position, BlendWeights, BlendIndices, Normal, Colour0, Colour1, TexCoord0 to TexCoord7, Tangent,
  Binormal. TYPE: Half2, Float, Half4, Float2, Float3, Float4, UByte4, Colour, RGBA8SNorm.
MODEL, GEOMETRY and VERTEX are counted from 0. An example:
  add-model 0 0xff
  add-geometry 5 Position:Float3 vertices 0 0 0  20 0 0  0 32 0 indices 0 1 2
  set-attribute 0 0 1 Position 22 0 0
";

const ENDS: &str = "\
Exit status: 0 done; 1 refused, with the number of the check that failed, or what --strict found; 2 wrong
usage, or a file that cannot be read or written. Files are written whole or not at all, and no command writes
over a file that it reads, but 'hall edit' without --out.
";

/// `hall --help`: everything.
pub fn all() -> String {
    let mut text = "hall: shows what RAGE drawables hold, and edits halls\n\n".to_string();
    for command in &COMMANDS {
        text += &command.shown();
    }
    text + "  hall help COMMAND, hall help script, hall --version\n\n" + FILE + "\n" + SCRIPT + "\n" + ENDS
}

/// `hall help WORD`: one command, or the script's lines.
pub fn about(word: &str) -> Result<String, Failure> {
    match COMMANDS.iter().find(|command| command.name == word) {
        _ if word == "script" => Ok(SCRIPT.to_string()),
        Some(command) if command.file => Ok(format!("{}\n{FILE}\n{ENDS}", command.shown())),
        Some(command) => Ok(format!("{}\n{ENDS}", command.shown())),
        None => Err(unknown(word)),
    }
}

/// A command that there is not.
pub fn unknown(word: &str) -> Failure {
    let names: Vec<&str> = COMMANDS.iter().map(|command| command.name).collect();
    let near = nearest(word, &names).map_or(String::new(), |name| format!(", did you mean {name}?"));
    Failure::Usage(format!("there is no command '{word}'{near}; 'hall --help' lists them"))
}

impl Command {
    fn shown(&self) -> String {
        let lines: String = self.text.lines().map(|line| format!("      {line}\n")).collect();
        format!("  {}\n{lines}", self.usage)
    }
}
