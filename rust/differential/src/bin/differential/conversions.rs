//! Numbers: all halves, all bytes, all floats, and runs of them.
use library::numbers::{Random, FLOATS};
use library::{
    f16_to_f32, f32_to_f16, f32_to_snorm8, f32_to_unorm8, floats_to_halves, floats_to_snorm8, floats_to_unorm8, halves_to_floats,
    snorm8_to_f32, snorm8_to_floats, snorm_colour8, unorm8_to_f32, unorm8_to_floats, Told,
};
use oracle::encode;
use oracle::math::Vec4;
use oracle::vertex::VertexAttributeValue;

const FILL: u8 = 0xC3;

/// The original's answers.
fn half_bits(half: u16) -> u32 {
    oracle::vertex::f16_to_f32(half).to_bits()
}

fn half(bits: u32) -> u16 {
    oracle::blocks::xml::f32_to_f16(f32::from_bits(bits))
}

fn snorm_bits(byte: u8) -> u32 {
    oracle::vertex::snorm8_to_f32(byte).to_bits()
}

fn unorm_bits(byte: u8) -> u32 {
    VertexAttributeValue::Colour([byte, 0, 0, 0]).as_vec4().x.to_bits()
}

fn snorm_byte(bits: u32) -> u8 {
    encode::snorm_byte(f32::from_bits(bits))
}

fn colour_byte(bits: u32) -> u8 {
    VertexAttributeValue::Float4(Vec4::new(f32::from_bits(bits), 0.0, 0.0, 0.0)).as_rgba8()[0]
}

fn snorm_colour_byte(bits: u32) -> u8 {
    VertexAttributeValue::Rgba8Snorm([f32::from_bits(bits), 0.0, 0.0, 0.0]).as_rgba8()[0]
}

/// Every half and every byte, one by one.
pub fn small_numbers() -> String {
    for value in 0..=u16::MAX {
        let bits = half_bits(value);
        assert_eq!(f16_to_f32(value), bits, "half {value:x}");
        assert_eq!(oracle::blocks::xml::f16_to_f32(value).to_bits(), bits, "the original's two readings of half {value:x}");
    }
    for byte in 0..=u8::MAX {
        assert_eq!(snorm8_to_f32(byte), snorm_bits(byte), "snorm byte {byte:x}");
        assert_eq!(unorm8_to_f32(byte), unorm_bits(byte), "byte {byte:x}");
    }
    "65,536 halves, 256 bytes signed and unsigned".to_owned()
}

/// `count` floats, evenly spread, one by one and in runs.
pub fn floats(count: u64) -> String {
    const BLOCK: u64 = 1 << 14;
    let step = (1u64 << 32) / count;
    let (mut source, mut two, mut one) = (Vec::new(), vec![0; 2 * BLOCK as usize], vec![0; BLOCK as usize]);
    let mut colour = one.clone();
    for block in 0..count / BLOCK {
        source.clear();
        source.extend((0..BLOCK).flat_map(|place| (((block * BLOCK + place) * step) as u32).to_le_bytes()));
        assert_eq!(floats_to_halves(&source, &mut two), Told { check: 0, size: 2 * BLOCK });
        assert_eq!(floats_to_snorm8(&source, &mut one), Told { check: 0, size: BLOCK });
        assert_eq!(floats_to_unorm8(&source, &mut colour), Told { check: 0, size: BLOCK });
        for place in 0..BLOCK as usize {
            let bits = ((block * BLOCK + place as u64) * step) as u32;
            let (h, s, c) = (half(bits), snorm_byte(bits), colour_byte(bits));
            let here = (u16::from_le_bytes([two[2 * place], two[2 * place + 1]]), one[place], colour[place]);
            assert_eq!(here, (h, s, c), "a run with the float {bits:x}");
            let alone = (f32_to_f16(bits), f32_to_snorm8(bits), f32_to_unorm8(bits), snorm_colour8(bits));
            assert_eq!(alone, (h, s, c, snorm_colour_byte(bits)), "the float {bits:x}");
        }
    }
    format!("{count} floats to halves, snorm bytes and colour bytes, alone and in runs, and as snorm colours")
}

/// The original's own function from text, for bytes and halves.
pub fn rows(seed: u64) -> String {
    let random = &mut Random::new(seed ^ 0x0052_4F57);
    let mut values: Vec<f32> = FLOATS.iter().map(|bits| f32::from_bits(*bits)).collect();
    values.extend((0..40_000).map(|_| f32::from_bits(random.float())));
    // text has one NaN
    let values: Vec<f32> = values.into_iter().map(|value| if value.is_nan() { f32::NAN } else { value }).collect();
    let (bytes, halves) = (encode::rows(&values, 10), encode::rows(&values, 3));
    for (place, value) in values.iter().enumerate() {
        let bits = value.to_bits();
        assert_eq!(f32_to_snorm8(bits), bytes[place], "the float {bits:x} in a row");
        assert_eq!(f32_to_f16(bits), u16::from_le_bytes([halves[2 * place], halves[2 * place + 1]]), "the float {bits:x} in a row");
    }
    format!("{} values through read_xml_rows", values.len())
}

type Run = fn(&[u8], &mut [u8]) -> Told;

/// Runs of every length, into outputs that are exact, longer or too short.
pub fn runs(seed: u64, count: u64) -> String {
    let random = &mut Random::new(seed ^ 0x5255_4E53);
    let mut numbers = 0;
    for _ in 0..count {
        let length = match random.below(3) {
            0 => random.below(70),
            1 => {
                let block = random.pick(&[64, 256, 512, 1024, 4096]);
                random.near_blocks(block, 4)
            }
            _ => random.below(6000),
        };
        let mut source: Vec<u8> = Vec::with_capacity(length + 4);
        while source.len() < length {
            source.extend(random.float().to_le_bytes());
        }
        source.truncate(length);
        numbers += compare(random, &source, 2, 4, halves_to_floats, |b| half_bits(u16::from_le_bytes([b[0], b[1]])).to_le_bytes().to_vec());
        numbers += compare(random, &source, 1, 4, snorm8_to_floats, |b| snorm_bits(b[0]).to_le_bytes().to_vec());
        numbers += compare(random, &source, 1, 4, unorm8_to_floats, |b| unorm_bits(b[0]).to_le_bytes().to_vec());
        numbers += compare(random, &source, 4, 2, floats_to_halves, |b| half(word(b)).to_le_bytes().to_vec());
        numbers += compare(random, &source, 4, 1, floats_to_snorm8, |b| vec![snorm_byte(word(b))]);
        numbers += compare(random, &source, 4, 1, floats_to_unorm8, |b| vec![colour_byte(word(b))]);
    }
    format!("{} runs of {numbers} numbers", 6 * count)
}

fn word(bytes: &[u8]) -> u32 {
    u32::from_le_bytes([bytes[0], bytes[1], bytes[2], bytes[3]])
}

fn compare(random: &mut Random, source: &[u8], from: usize, to: usize, run: Run, original: impl Fn(&[u8]) -> Vec<u8>) -> usize {
    let expected: Vec<u8> = source.chunks_exact(from).flat_map(|number| original(number)).collect();
    let length = expected.len();
    let rooms = [length, length, length + 1, length + random.below(40), length.saturating_sub(1), random.below(length + 1), 0];
    let room = random.pick(&rooms);
    let mut out = vec![FILL; room];
    let told = run(source, &mut out);
    let fits = length <= room;
    assert_eq!(told, Told { check: if fits { 0 } else { 10 }, size: length as u64 }, "a run of {from} to {to}: {source:?}");
    let changed = if fits { length } else { 0 };
    assert!(out[..changed] == expected[..changed], "a run of {from} to {to}: {source:?}\nhere {out:?}\nRust {expected:?}");
    assert!(out[changed..].iter().all(|byte| *byte == FILL), "a run of {from} to {to} wrote beyond: {source:?}");
    source.len() / from
}
