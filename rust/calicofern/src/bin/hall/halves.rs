//! `hall halves`: halves as floats and back.

use crate::arguments::Arguments;
use crate::failure::Failure;
use crate::files::Files;
use crate::output::Output;
use crate::progress::{self, Progress};
use crate::table::{counted, Table};
use calicofern::convert::{f16_to_f32, f32_to_f16, floats_to_halves, halves_to_floats};
use calicofern::Refusal;
use std::fs::File;
use std::io::{self, Read, Write};

pub fn run(mut arguments: Arguments) -> Result<String, Failure> {
    let to_floats = arguments.values("--to-floats", 2)?;
    let to_halves = arguments.values("--to-halves", 2)?;
    match (to_floats, to_halves) {
        (Some(files), None) => {
            arguments.finish()?;
            Conversion { from: 2, to: 4, convert: halves_to_floats }.run(&files[0], &files[1])
        }
        (None, Some(files)) => {
            arguments.finish()?;
            Conversion { from: 4, to: 2, convert: floats_to_halves }.run(&files[0], &files[1])
        }
        (Some(_), Some(_)) => Err(Failure::Usage("--to-floats and --to-halves are two commands".to_string())),
        (None, None) => numbers(arguments),
    }
}

/// A line for each number given.
fn numbers(mut arguments: Arguments) -> Result<String, Failure> {
    let mut table = Table::new(&["given", "half", "float", "value"], &["given"]);
    let mut any = false;
    while let Some(word) = arguments.word() {
        let (half, float) = number(&word)?;
        table.row(vec![word, format!("{half:#06x}"), format!("{:#010x}", float.to_bits()), format!("{float:?}")]);
        any = true;
    }
    arguments.finish()?;
    if !any {
        return Err(Failure::Usage("no number: give halves as 0x3c00, floats as 1.5 or 0x3fc00000".to_string()));
    }
    Ok(table.text())
}

/// A half and the float with its value; of a float, the half nearest to it, and the float itself.
fn number(word: &str) -> Result<(u16, f32), Failure> {
    let wrong = || Failure::Usage(format!("'{word}' is neither 0x and four digits, nor 0x and eight digits, nor a decimal number"));
    if let Some(digits) = word.strip_prefix("0x") {
        let bits = u32::from_str_radix(digits, 16).map_err(|_| wrong())?;
        return match digits.len() {
            4 => Ok((bits as u16, f16_to_f32(bits as u16))),
            8 => Ok((f32_to_f16(f32::from_bits(bits)), f32::from_bits(bits))),
            _ => Err(wrong()),
        };
    }
    let float: f32 = word.parse().map_err(|_| wrong())?;
    Ok((f32_to_f16(float), float))
}

/// The numbers that are converted at a time.
const BLOCK: usize = 1 << 15;

/// How a file of numbers of `from` bytes becomes one of `to` bytes each.
struct Conversion {
    from: usize,
    to: usize,
    convert: fn(&[u8], &mut [u8]) -> Result<usize, Refusal>,
}

impl Conversion {
    fn run(&self, source: &str, target: &str) -> Result<String, Failure> {
        let unread = |error| Failure::File(source.to_string(), error);
        let mut files = Files::default();
        files.note_output(target)?;
        let file = files.open(source)?;
        let length = file.metadata().map_err(unread)?.len();
        let mut out = Output::create(target)?;
        let bytes = progress::of(&format!("converting {source}"), length, |progress| self.convert(file, &mut out, progress, source))?;
        if bytes % self.from as u64 != 0 {
            return Err(Failure::Usage(format!("{source} has {bytes} bytes, which is no multiple of {}", self.from)));
        }
        out.finish()?;
        let count = bytes / self.from as u64;
        Ok(format!("wrote {}, {} bytes each, to {target}\n", counted(count, "number", "numbers"), self.to))
    }

    /// Converts block by block; the bytes that were read.
    fn convert(&self, mut file: File, out: &mut Output, progress: &Progress, source: &str) -> Result<u64, Failure> {
        let (mut block, mut made, mut bytes) = (Vec::new(), vec![0; BLOCK * self.to], 0);
        loop {
            block.clear();
            let read = Read::take(&mut file, (BLOCK * self.from) as u64).read_to_end(&mut block);
            let read = read.map_err(|error: io::Error| Failure::File(source.to_string(), error))?;
            let written = (self.convert)(&block, &mut made)?;
            out.write_all(&made[..written]).map_err(|error| out.failed(error))?;
            progress.add(read as u64);
            bytes += read as u64;
            if read < BLOCK * self.from {
                return Ok(bytes);
            }
        }
    }
}
