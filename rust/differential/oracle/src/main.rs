//! Answers cases: on standard input, for each, the lengths of the system and the graphics section and the address of a LOD header
//! (three little-endian u64), then the bytes of both sections; on standard output a line for each, `list` with the bytes in
//! hexadecimal or `refused` with the check's number.
use std::io::{self, BufWriter, Read, Write};

use oracle::{list, models};

fn main() -> io::Result<()> {
    let mut input = Vec::new();
    io::stdin().lock().read_to_end(&mut input)?;
    let mut output = BufWriter::new(io::stdout().lock());
    let mut rest = &input[..];
    while !rest.is_empty() {
        let (system, graphics, va);
        (system, rest) = number(rest);
        (graphics, rest) = number(rest);
        (va, rest) = number(rest);
        let (system, after) = rest.split_at(system as usize);
        let (graphics, after) = after.split_at(graphics as usize);
        rest = after;
        match models(system, graphics, va) {
            Ok(lod) => writeln!(output, "list {}", hexadecimal(&list::written(&lod.models)))?,
            Err(check) => writeln!(output, "refused {check}")?,
        }
    }
    output.flush()
}

fn number(bytes: &[u8]) -> (u64, &[u8]) {
    let (first, rest) = bytes.split_at(8);
    (u64::from_le_bytes(first.try_into().unwrap()), rest)
}

fn hexadecimal(bytes: &[u8]) -> String {
    bytes.iter().map(|byte| format!("{byte:02x}")).collect()
}
