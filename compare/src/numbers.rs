// Numbers and texts that random ones miss: the edges of f64 and of the integers, NaNs of all patterns, and texts that are alike.
use crate::random::Random;
use crate::side::Value;

#[rustfmt::skip]
const EDGES: &[f64] = &[
    0.0, -0.0, 1.0, -1.0, 2.0, 3.0, 10.0, 20.0, 0.5, -0.5, 0.1, 0.2, 0.3, 0.125, -0.375, 1.0 / 3.0, 1e-20, 1e20, 1e300, -1e300, 5e-324, -5e-324,
    2.2250738585072014e-308, 1.1e-308, f64::MAX, f64::MIN, f64::INFINITY, f64::NEG_INFINITY, 9007199254740992.0, 9007199254740994.0,
    9007199254740996.0, 9223372036854775808.0, -9223372036854775808.0, 18446744073709551616.0, 18446744073709549568.0, 255.0, 256.0, 65535.0,
    4294967295.0, 4294967296.0, 1.0000000000000002, 0.9999999999999999, 1e-308,
];

const NANS: &[u64] = &[0x7ff8_0000_0000_0000, 0xfff8_0000_0000_0000, 0x7ff0_0000_0000_0001, 0xffff_ffff_ffff_ffff, 0x7fff_ffff_0000_00f3];

#[rustfmt::skip]
const MASKS: &[u64] = &[
    1, 2, 3, 4, 7, 12, 15, 0xf0, 0xff, 0xff00, 0, u64::MAX, 1 << 63, 0x7ff0_0000_0000_0001, 0x7ff8_0000_0000_0003,
    0xfff0_0000_0000_000c, 0x3ff0_0000_0000_0000, 0xffff_ffff,
];

#[rustfmt::skip]
const WHOLES: &[u64] = &[
    0, 1, 2, 3, 6, 7, 10, 20, 255, 256, (1 << 53) - 1, 1 << 53, (1 << 53) + 1, (1 << 53) + 2, (1 << 53) + 3, (1 << 54) + 2, (1 << 54) + 6, (1 << 63) - 1,
    1 << 63, (1 << 63) + 1, (1 << 63) + 1024, (1 << 63) + 1025, (1 << 63) + 3072, u64::MAX, u64::MAX - 1, u64::MAX - 1023, u64::MAX - 1024, u64::MAX - 2047,
];

#[rustfmt::skip]
const TEXTS: &[&str] = &[
    "a", "ab", "abc", "A", "b", "Low", "High", "PTO", "Gear", "é", "Größe", "x = y", "a|b", "|", " = ", "0", "not available", "日本語", "\u{7f}", " ",
    "a text that is longer than the others and goes on for some more words than one would think",
];

/// The 64 bits of a number: an edge, a small one, a NaN, or any bits.
pub fn word(r: &mut Random) -> u64 {
    match r.below(100) {
        0..=39 => r.pick(EDGES).to_bits(),
        40..=74 => (r.below(21) as f64).to_bits(),
        75..=79 => r.pick(NANS),
        80..=86 => (r.below(2000) as f64 / 16.0 - 40.0).to_bits(),
        87..=93 => fraction(r).to_bits(),
        _ => r.next(),
    }
}

/// The 64 bits of a NaN: quiet or signalling, of either sign.
pub fn nan(r: &mut Random) -> u64 {
    if r.chance(60) {
        return r.pick(NANS);
    }
    r.pick(&[0x7ff0_0000_0000_0000, 0xfff0_0000_0000_0000]) | (1 << r.below(52)) | (r.next() >> 12 >> r.below(52))
}

/// A number with all its 53 bits in use and a moderate exponent, so that each rounding shows.
pub fn fraction(r: &mut Random) -> f64 {
    let m = (r.next() >> 11) as f64 / (1u64 << 53) as f64;
    let scaled = m * 2f64.powi(r.below(40) as i32 - 20);
    if r.chance(50) {
        -scaled
    } else {
        scaled
    }
}

/// A small set of numbers that the values of an image are drawn from, so that keys are met again.
pub fn palette(r: &mut Random) -> Vec<u64> {
    (0..3 + r.below(7)).map(|_| word(r)).collect()
}

pub fn mask(r: &mut Random) -> u64 {
    if r.chance(80) {
        r.pick(MASKS)
    } else {
        r.next()
    }
}

/// One bit, or two neighbours, anywhere; mostly among the low ones.
pub fn narrow_mask(r: &mut Random) -> u64 {
    let at = if r.chance(50) { r.below(17) } else { r.below(64) };
    r.pick(&[1, 3]) << at
}

pub fn text(r: &mut Random) -> Vec<u8> {
    if r.chance(85) {
        return r.pick(TEXTS).as_bytes().to_vec();
    }
    (0..1 + r.below(40)).map(|_| b'a' + r.below(26) as u8).collect()
}

const CHARACTERS: &[char] = &['a', 'é', 'ß', '日', '😀', '|', ' ', '\u{7f}', '\u{fffd}'];

/// A text to write: of 0 to 40 bytes, now and then of some thousands. One in five has a zero byte, first, last or between; some are no UTF-8.
pub fn label(r: &mut Random) -> Vec<u8> {
    let length = if r.below(300) == 0 { r.below(4000) } else { r.below(41) };
    let mut text: Vec<u8> = match r.below(10) {
        0..=6 => (0..length).map(|i| b'a' + (i as u8 ^ r.next() as u8) % 26).collect(),
        7 | 8 => (0..length.div_ceil(4)).map(|_| r.pick(CHARACTERS)).collect::<String>().into_bytes(),
        _ => (0..length).map(|_| (r.next() as u8).max(1)).collect(),
    };
    if !text.is_empty() && r.chance(20) {
        let (middle, last) = (text.len() / 2, text.len() - 1);
        text[r.pick(&[0, middle, last])] = 0;
    }
    text
}

pub fn whole(r: &mut Random) -> u64 {
    match r.below(10) {
        0..=3 => r.pick(WHOLES),
        4..=6 => r.below(24) as u64,
        7 => r.pick(MASKS),
        _ => r.next() >> r.below(64),
    }
}

#[rustfmt::skip]
const WIDTHS: &[u32] = &[0, 1, 3, 4, 8, 31, 32, 33, 63, 64, 65, u32::MAX];

/// The width of a signal: an edge, a small one, or any from 1 to 64.
pub fn width(r: &mut Random) -> u32 {
    match r.below(10) {
        0..=4 => r.pick(WIDTHS),
        5..=7 => 1 + r.below(16) as u32,
        _ => 1 + r.below(64) as u32,
    }
}

const NO_EDITIONS: &[u32] = &[0, 400, 409, 411, 419, 421, u32::MAX];

/// The edition of a file: mostly 4.10 or 4.20, else a number that names none.
pub fn edition(r: &mut Random) -> u32 {
    match r.below(10) {
        0..=3 => 410,
        4..=7 => 420,
        _ => r.pick(NO_EDITIONS),
    }
}

/// The four bytes behind an id: zero half of the time.
pub fn reserved(r: &mut Random) -> u32 {
    match r.below(10) {
        0..=4 => 0,
        5 | 6 => u32::MAX,
        7 => r.pick(&[1, 256, 1 << 16, 1 << 31]),
        _ => r.next() as u32,
    }
}

const EXCESSES: &[u64] = &[1, 7, 8, 15, 15, 16, 16, 17, 24];
const HUGE_EXCESSES: &[u64] = &[u64::MAX, u64::MAX, u64::MAX - 63, u64::MAX - 127, 1 << 63, 1 << 32, (1 << 32) + 8];

/// The excess of a block length: none, at the edge of a range, some bytes, or more than any room.
pub fn excess(r: &mut Random) -> u64 {
    match r.below(20) {
        0..=7 => 0,
        8..=13 => r.pick(EXCESSES),
        14..=16 => r.below(48) as u64,
        17 => r.below(5000) as u64,
        _ => r.pick(HUGE_EXCESSES),
    }
}

/// A number of the palette, or one beside it or half-way between two.
fn near(r: &mut Random, palette: &[u64]) -> f64 {
    let (a, b) = (f64::from_bits(r.pick(palette)), f64::from_bits(r.pick(palette)));
    match r.below(10) {
        0..=4 => a,
        5 => a.next_up(),
        6 => a.next_down(),
        7 => (a + b) / 2.0,
        8 => a + 1.0,
        _ => a - 1.0,
    }
}

/// A value to ask for, often one that the image knows.
pub fn value(r: &mut Random, palette: &[u64], wants_text: bool) -> Value {
    if r.chance(if wants_text { 75 } else { 8 }) {
        return Value::Text;
    }
    let x = if palette.is_empty() { f64::from_bits(word(r)) } else { near(r, palette) };
    match r.below(100) {
        0..=18 => Value::Unsigned(x as u64),
        19..=34 => Value::Unsigned(whole(r)),
        35..=48 => Value::Signed(x as i64),
        49..=58 => Value::Signed(whole(r) as i64),
        59..=63 => Value::Signed((whole(r) as i64).wrapping_neg()),
        64..=84 => Value::Float(x),
        85..=95 => Value::Float(f64::from_bits(word(r))),
        _ => Value::Other(r.below(4) as u8),
    }
}

/// A text to ask for: one of the image, one like it, or any.
pub fn question(r: &mut Random, texts: &[Vec<u8>]) -> Vec<u8> {
    if texts.is_empty() || r.chance(15) {
        return if r.chance(20) { Vec::new() } else { text(r) };
    }
    let mut t = texts[r.below(texts.len())].clone();
    match r.below(10) {
        0 => t.truncate(r.below(t.len() + 1)),
        1 => t.push(r.pick(&[0, b' ', b'x', 0xff])),
        2 => t.make_ascii_uppercase(),
        _ => {}
    }
    t
}
