//! Pictures as PNG, in base64: colours of three bytes, each row as its difference from the one above, and runs of one byte cut short.

use std::io::{self, Write};

/// Bytes in base64.
pub struct Base64<W> {
    out: W,
    waiting: Vec<u8>,
}

impl<W: Write> Base64<W> {
    pub fn new(out: W) -> Self {
        Base64 { out, waiting: Vec::new() }
    }

    /// Writes what is left, filled up with `=`.
    pub fn finish(mut self) -> io::Result<()> {
        let text = letters(&self.waiting);
        self.out.write_all(text.get(..self.waiting.len() + 1).filter(|_| !self.waiting.is_empty()).unwrap_or_default())?;
        self.out.write_all(["", "==", "="][self.waiting.len() % 3].as_bytes())
    }
}

/// Four letters for up to three bytes.
fn letters(three: &[u8]) -> [u8; 4] {
    const LETTERS: &[u8; 64] = b"ABCDEFGHIJKLMNOPQRSTUVWXYZabcdefghijklmnopqrstuvwxyz0123456789+/";
    let at = |place: usize| three.get(place).map_or(0, |byte| u32::from(*byte) << (16 - 8 * place));
    let bits = at(0) | at(1) | at(2);
    [18, 12, 6, 0].map(|shift| LETTERS[(bits >> shift & 63) as usize])
}

impl<W: Write> Write for Base64<W> {
    fn write(&mut self, bytes: &[u8]) -> io::Result<usize> {
        self.waiting.extend_from_slice(bytes);
        let whole = self.waiting.len() / 3 * 3;
        let text: Vec<u8> = self.waiting[..whole].chunks_exact(3).flat_map(letters).collect();
        self.out.write_all(&text)?;
        self.waiting.drain(..whole);
        Ok(bytes.len())
    }

    fn flush(&mut self) -> io::Result<()> {
        self.out.flush()
    }
}

/// Writes a picture of so many points a row, three bytes each.
pub fn write(out: &mut impl Write, width: u32, height: u32, colours: &[u8]) -> io::Result<()> {
    out.write_all(b"\x89PNG\r\n\x1a\n")?;
    let mut head = [width.to_be_bytes(), height.to_be_bytes()].concat();
    head.extend([8, 2, 0, 0, 0]);
    chunk(out, b"IHDR", &head)?;
    let mut data = Deflate::default();
    let length = width as usize * 3;
    let mut above = vec![0; length];
    for row in colours.chunks_exact(length.max(1)) {
        // each byte less the one above it
        data.add(2);
        row.iter().zip(&above).for_each(|(byte, above)| data.add(byte.wrapping_sub(*above)));
        above.copy_from_slice(row);
        if data.out.len() > 1 << 16 {
            chunk(out, b"IDAT", &data.out)?;
            data.out.clear();
        }
    }
    chunk(out, b"IDAT", &data.finish())?;
    chunk(out, b"IEND", &[])
}

fn chunk(out: &mut impl Write, kind: &[u8; 4], body: &[u8]) -> io::Result<()> {
    // a chunk is a few rows long
    out.write_all(&(body.len() as u32).to_be_bytes())?;
    out.write_all(kind)?;
    out.write_all(body)?;
    let crc = kind.iter().chain(body).fold(u32::MAX, |crc, byte| CRC[usize::from(crc as u8 ^ byte)] ^ crc >> 8);
    out.write_all(&(!crc).to_be_bytes())
}

/// The remainders of CRC-32 for each byte.
const CRC: [u32; 256] = {
    let mut table = [0; 256];
    let mut byte = 0;
    while byte < 256 {
        let mut crc = byte as u32;
        let mut bit = 0;
        while bit < 8 {
            crc = if crc & 1 == 1 { crc >> 1 ^ 0xedb8_8320 } else { crc >> 1 };
            bit += 1;
        }
        table[byte] = crc;
        byte += 1;
    }
    table
};

/// A zlib stream of one block with the fixed codes.
struct Deflate {
    out: Vec<u8>,
    /// Bits that are no whole byte yet, and how many.
    bits: u64,
    count: u32,
    /// The last byte, and how often it came after itself since it was last written.
    last: Option<u8>,
    again: u32,
    /// The two sums of Adler-32.
    sums: [u32; 2],
}

impl Default for Deflate {
    fn default() -> Self {
        let mut new = Deflate { out: vec![0x78, 0x01], bits: 0, count: 0, last: None, again: 0, sums: [1, 0] };
        // the last block, with fixed codes
        new.put(0b011, 3);
        new
    }
}

impl Deflate {
    fn add(&mut self, byte: u8) {
        self.sums[0] = (self.sums[0] + u32::from(byte)) % 65_521;
        self.sums[1] = (self.sums[1] + self.sums[0]) % 65_521;
        if self.last == Some(byte) && self.again < 258 {
            self.again += 1;
            return;
        }
        self.end_run();
        match self.last == Some(byte) {
            true => self.again = 1,
            false => self.symbol(u32::from(byte)),
        }
        self.last = Some(byte);
    }

    /// Writes the bytes that came again: a copy of as many from one byte before, where three or more.
    fn end_run(&mut self) {
        let (again, byte) = (std::mem::take(&mut self.again), self.last.map_or(0, u32::from));
        let Some(over) = again.checked_sub(3) else {
            return (0..again).for_each(|_| self.symbol(byte));
        };
        match over {
            0..4 => self.symbol(257 + over),
            255.. => self.symbol(285),
            _ => {
                let extra = over.ilog2() - 2;
                self.symbol(257 + 4 * extra + (over >> extra));
                self.put(over & ((1 << extra) - 1), extra);
            }
        }
        self.put(0, 5);
    }

    /// A literal or a length, by its fixed code.
    fn symbol(&mut self, symbol: u32) {
        let (code, length) = match symbol {
            0..144 => (0x30 + symbol, 8),
            144..256 => (0x190 + symbol - 144, 9),
            256..280 => (symbol - 256, 7),
            _ => (0xc0 + symbol - 280, 8),
        };
        self.put(code.reverse_bits() >> (32 - length), length);
    }

    fn put(&mut self, bits: u32, count: u32) {
        self.bits |= u64::from(bits) << self.count;
        self.count += count;
        while self.count >= 8 {
            self.out.push(self.bits as u8);
            self.bits >>= 8;
            self.count -= 8;
        }
    }

    fn finish(mut self) -> Vec<u8> {
        self.end_run();
        self.symbol(256);
        self.put(0, 7);
        self.out.extend((self.sums[1] << 16 | self.sums[0]).to_be_bytes());
        self.out
    }
}

#[cfg(test)]
mod tests {
    use super::*;
    use std::process::{Command, Stdio};

    /// What a stream of fixed codes says, without its head and its sums.
    fn inflated(stream: &[u8]) -> Vec<u8> {
        let mut at = 16 + 3;
        let bit = |at: usize| u32::from(stream[at / 8] >> (at % 8) & 1);
        let code = |at: usize, count: usize| (at..at + count).fold(0, |code, at| code << 1 | bit(at));
        let number = |at: usize, count: usize| (at..at + count).rev().fold(0, |number, at| number << 1 | bit(at));
        let mut out = Vec::new();
        loop {
            let symbol = match (code(at, 7), code(at, 8), code(at, 9)) {
                (seven @ 0..0b001_1000, ..) => (seven + 256, 7),
                (_, eight @ 0b0011_0000..0b1100_0000, _) => (eight - 0x30, 8),
                (_, eight @ 0b1100_0000..0b1100_1000, _) => (eight - 0xc0 + 280, 8),
                (.., nine) => (nine - 0x190 + 144, 9),
            };
            at += symbol.1;
            match symbol.0 {
                256 => return out,
                literal @ 0..256 => out.push(literal as u8),
                length => {
                    let extra = if (265..285).contains(&length) { (length as usize - 261) / 4 } else { 0 };
                    let least = match length {
                        257..265 => length - 254,
                        285 => 258,
                        _ => 3 + ((4 + (length - 265) % 4) << extra),
                    };
                    let count = least + number(at, extra);
                    assert_eq!(code(at + extra, 5), 0);
                    at += extra + 5;
                    (0..count).for_each(|_| out.push(*out.last().unwrap()));
                }
            }
        }
    }

    fn deflated(bytes: &[u8]) -> Vec<u8> {
        let mut data = Deflate::default();
        bytes.iter().for_each(|byte| data.add(*byte));
        data.finish()
    }

    /// Runs of every length up to 600, of low and high bytes.
    fn runs() -> Vec<u8> {
        (1..600).flat_map(|length| vec![(length * 37 % 256) as u8; length]).collect()
    }

    #[test]
    fn a_stream_has_known_bytes() {
        // as zlib writes them
        assert_eq!(deflated(b"a"), [0x78, 0x01, 0x4b, 0x04, 0x00, 0x00, 0x62, 0x00, 0x62]);
        assert_eq!(deflated(&[]), [0x78, 0x01, 0x03, 0x00, 0x00, 0x00, 0x00, 0x01]);
    }

    #[test]
    fn a_stream_says_what_was_put_in() {
        for bytes in [vec![], vec![0; 3], (0..=255).collect(), runs()] {
            assert_eq!(inflated(&deflated(&bytes)), bytes);
        }
        assert!(deflated(&[0; 100_000]).len() < 1000);
    }

    #[test]
    fn base64_has_known_letters() {
        for (bytes, letters) in [("", ""), ("f", "Zg=="), ("fo", "Zm8="), ("foo", "Zm9v"), ("foobar", "Zm9vYmFy")] {
            let mut out = Vec::new();
            let mut encoded = Base64::new(&mut out);
            bytes.bytes().for_each(|byte| encoded.write_all(&[byte]).unwrap());
            encoded.finish().unwrap();
            assert_eq!(out, letters.as_bytes());
        }
    }

    /// Another decoder reads the picture, where there is one.
    #[test]
    fn python_reads_the_picture() {
        let program = "import sys,zlib,struct\nb=sys.stdin.buffer.read()\nd=b''\na=8\nwhile a<len(b):\n n,k=struct.unpack('>I4s',b[a:a+8])\n \
                       c=b[a+8:a+8+n]\n assert zlib.crc32(k+c)==struct.unpack('>I',b[a+8+n:a+12+n])[0]\n d+=c if k==b'IDAT' else b''\n a+=12+n\n\
                       r=zlib.decompress(d)\np=bytes(600)\no=b''\nfor y in range(0,len(r),601):\n assert r[y]==2\n \
                       p=bytes((u+v)%256 for u,v in zip(r[y+1:y+601],p))\n o+=p\nsys.stdout.buffer.write(o)\n";
        let colours: Vec<u8> = runs().into_iter().take(600 * 299).collect();
        let started = Command::new("python3").args(["-c", program]).stdin(Stdio::piped()).stdout(Stdio::piped()).spawn();
        let Ok(mut python) = started else { return };
        let mut picture = Vec::new();
        write(&mut picture, 200, 299, &colours).unwrap();
        python.stdin.take().unwrap().write_all(&picture).unwrap();
        assert_eq!(python.wait_with_output().unwrap().stdout, colours);
    }
}
