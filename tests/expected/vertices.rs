// Makes the answers of the Rust that crates/vertices_test compares the library with, and the lines that it must print.
// Run in the repository's root:
//     rustc -O -o target/expected_vertices tests/expected/vertices.rs && target/expected_vertices
//
// It writes crates/vertices_test/stdout and, under crates/vertices_test/data, little-endian:
//     halves.bin        for each half, the float's bits (u32)
//     neighbours.bin    for each half, the halves (u16) of six floats near it (`near`)
//     half_colours.bin  for each half, the three bytes (`colours`) of its float
//     floats.bin        float bits (u32), each with its half (u16): the ends of each case of rounding, and 200,000 pseudo-random ones
//     colours.bin       float bits (u32), each with its three bytes: the steps between bytes, NaNs, infinities and others
//     snorm.bin         for each byte, the bits of the signed normalised float (u32)
//     unorm.bin         for each byte, the bits of the unsigned normalised float (u32)
use std::fs;

// The functions below marked "of" are those of VIRUXE/rage-formats 99dc484f96, under the Unlicense (NOTICE).

// of src/vertex.rs, f16_to_f32
fn half_to_float(value: u16) -> f32 {
    let sign = ((value & 0x8000) as u32) << 16;
    let exponent = (value >> 10) & 0x1F;
    let mantissa = value & 0x03FF;

    let bits = match exponent {
        0 if mantissa == 0 => sign,
        0 => {
            let mut mantissa = mantissa as u32;
            let mut exponent = -14i32;
            while (mantissa & 0x0400) == 0 {
                mantissa <<= 1;
                exponent -= 1;
            }
            mantissa &= 0x03FF;
            sign | (((exponent + 127) as u32) << 23) | (mantissa << 13)
        }
        0x1F => sign | 0x7F80_0000 | ((mantissa as u32) << 13),
        _ => sign | ((exponent as u32 + 112) << 23) | ((mantissa as u32) << 13),
    };

    f32::from_bits(bits)
}

// of src/blocks/xml.rs, f16_to_f32
fn half_to_float_xml(h: u16) -> f32 {
    let sign = ((h >> 15) & 1) as u32;
    let exp = ((h >> 10) & 0x1F) as u32;
    let man = (h & 0x3FF) as u32;
    let bits = match (exp, man) {
        (0, 0) => sign << 31,
        (0, m) => {
            let shift = m.leading_zeros() - 21;
            (sign << 31) | ((127 - 15 + 1 - shift) << 23) | (((m << shift) & 0x3FF) << 13)
        }
        (0x1F, m) => (sign << 31) | 0x7F80_0000 | (m << 13),
        (e, m) => (sign << 31) | ((e + 127 - 15) << 23) | (m << 13),
    };
    f32::from_bits(bits)
}

// of src/blocks/xml.rs, f32_to_f16
fn float_to_half(f: f32) -> u16 {
    let b = f.to_bits();
    let sign = ((b >> 16) & 0x8000) as u16;
    let exp = ((b >> 23) & 0xFF) as i32;
    let man = b & 0x7F_FFFF;
    if exp == 0xFF {
        return sign | 0x7C00 | if man != 0 { 0x200 | (man >> 13) as u16 } else { 0 };
    }
    let e = exp - 127 + 15;
    if e >= 0x1F { return sign | 0x7C00; }
    if e <= 0 {
        if e < -10 { return sign; }
        let m = man | 0x80_0000;
        let shift = (14 - e) as u32;
        let mut h = (m >> shift) as u16;
        let rem = m & ((1 << shift) - 1);
        let half = 1 << (shift - 1);
        if rem > half || (rem == half && h & 1 == 1) { h += 1; }
        return sign | h;
    }
    let mut h = ((e as u32) << 10) | (man >> 13);
    let rem = man & 0x1FFF;
    if rem > 0x1000 || (rem == 0x1000 && h & 1 == 1) { h += 1; }
    sign | h as u16
}

// of src/vertex.rs, snorm8_to_f32
fn snorm(value: u8) -> f32 {
    ((value as i8) as f32 / 127.0).max(-1.0)
}

// One division by 255.
fn unorm(value: u8) -> f32 {
    value as f32 / 255.0
}

// What a float becomes as a byte of a colour and, where it is a snorm, as one; of src/vertex.rs, as_rgba8. Then as a snorm byte;
// of src/blocks/vertex.rs, read_xml_rows.
fn colours(bits: u32) -> [u8; 3] {
    let x = f32::from_bits(bits);
    [
        (x.clamp(0.0, 1.0) * 255.0) as u8,
        ((x * 0.5 + 0.5).clamp(0.0, 1.0) * 255.0) as u8,
        ((x * 127.0).clamp(-127.0, 127.0) as i8) as u8,
    ]
}

// The bits one below, at and one above a half's float, and the same around the middle of the way to the next half.
fn near(half: u16) -> [u32; 6] {
    let own = half_to_float(half).to_bits();
    let next = half_to_float(half.wrapping_add(1)).to_bits();
    let middle = own / 2 + next / 2;
    [own.wrapping_sub(1), own, own.wrapping_add(1), middle.wrapping_sub(1), middle, middle.wrapping_add(1)]
}

// splitmix64
struct Random(u64);

impl Random {
    fn next(&mut self) -> u64 {
        self.0 = self.0.wrapping_add(0x9E37_79B9_7F4A_7C15);
        let mut z = self.0;
        z = (z ^ (z >> 30)).wrapping_mul(0xBF58_476D_1CE4_E5B9);
        z = (z ^ (z >> 27)).wrapping_mul(0x94D0_49BB_1331_11EB);
        z ^ (z >> 31)
    }

    // With an exponent's field from `low` on, `many` of them.
    fn float(&mut self, low: u32, many: u32) -> u32 {
        let r = self.next();
        (r as u32 & 0x807F_FFFF) | ((low + (r >> 32) as u32 % many) << 23)
    }
}

// Around the ends of each case of rounding: 2^-25, 2^-24, 2^-14, 65,504, 65,520, 65,536, infinity and a quiet NaN. Then
// pseudo-random ones, every other one where a half is finite or nearly so.
fn float_inputs(random: &mut Random) -> Vec<u32> {
    let mut inputs = Vec::new();
    for end in [0, 0x3300_0000, 0x3380_0000, 0x3880_0000, 0x477F_E000, 0x477F_F000, 0x4780_0000, 0x7F80_0000, 0x7FC0_0000] {
        for step in 0..7u32 {
            let bits = u32::wrapping_add(end, step).wrapping_sub(3);
            inputs.push(bits);
            inputs.push(bits ^ 0x8000_0000);
        }
    }
    for i in 0..200_000 {
        inputs.push(if i % 2 == 0 { random.next() as u32 } else { random.float(0x64, 0x2E) });
    }
    inputs
}

// Floats at which a colour or a snorm byte changes, with their neighbours, and floats that are special.
fn colour_inputs(random: &mut Random) -> Vec<u32> {
    let mut around = vec![0.0f32, -0.0, 0.5, -0.5, 1.0, -1.0, 2.0, -2.0, 127.0, 255.0, -128.0, 256.0, f32::MIN_POSITIVE, f32::MAX, f32::MIN];
    for k in 0..=256 {
        around.push(k as f32 / 255.0);
        around.push(k as f32 / 255.0 * 2.0 - 1.0);
    }
    for k in -130..=130 {
        around.push(k as f32 / 127.0);
    }
    let mut inputs = Vec::new();
    for x in around {
        for step in 0..7u32 {
            inputs.push(x.to_bits().wrapping_add(step).wrapping_sub(3));
        }
    }
    for nan in [0x7F80_0001, 0x7FBF_FFFF, 0x7FC0_0000, 0x7FC0_0001, 0x7FFF_FFFF, 0x7F80_0000] {
        inputs.push(nan);
        inputs.push(nan | 0x8000_0000);
    }
    for byte in 0..=255u8 {
        inputs.push(snorm(byte).to_bits());
        inputs.push(unorm(byte).to_bits());
    }
    for _ in 0..2000 {
        inputs.push(random.next() as u32);
        inputs.push(random.float(0x70, 0x11));
    }
    inputs
}

fn main() {
    let mut stdout = String::new();
    let mut write = |name: &str, data: Vec<u8>, width: usize| {
        fs::write(format!("crates/vertices_test/data/{name}.bin"), &data).unwrap();
        let count = data.len() / width;
        stdout += &format!("{name}: {count} of {count} agree\n");
    };
    let mut random = Random(1);
    let all = 0..=u16::MAX;
    for half in all.clone() {
        assert_eq!(half_to_float(half).to_bits(), half_to_float_xml(half).to_bits(), "the Rust's two decoders differ at {half:#x}");
    }

    write("halves", all.clone().flat_map(|h| half_to_float(h).to_bits().to_le_bytes()).collect(), 4);
    write("neighbours", all.clone().flat_map(near).flat_map(|bits| float_to_half(f32::from_bits(bits)).to_le_bytes()).collect(), 2);
    write("half_colours", all.clone().flat_map(|h| colours(half_to_float(h).to_bits())).collect(), 3);

    let floats = float_inputs(&mut random);
    write("floats", floats.iter().flat_map(|&bits| [&bits.to_le_bytes()[..], &float_to_half(f32::from_bits(bits)).to_le_bytes()[..]].concat()).collect(), 6);

    let inputs = colour_inputs(&mut random);
    write("colours", inputs.iter().flat_map(|&bits| [&bits.to_le_bytes()[..], &colours(bits)[..]].concat()).collect(), 7);
    write("snorm", (0..=255u8).flat_map(|b| snorm(b).to_bits().to_le_bytes()).collect(), 4);
    write("unorm", (0..=255u8).flat_map(|b| unorm(b).to_bits().to_le_bytes()).collect(), 4);

    // Document 01, "Soundings": the snorm byte 0 as a colour is 127.
    stdout += &format!("snorm byte 0 as colour: {}\n", colours(snorm(0).to_bits())[1]);
    fs::write("crates/vertices_test/stdout", stdout).unwrap();
}
