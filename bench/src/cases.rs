// The conversions that are timed, with the values asked of each.
use crate::image::Image;

pub enum Input {
    Unsigned(Vec<u64>),
    Signed(Vec<i64>),
    Float(Vec<f64>),
    Text(Vec<String>),
    /// Unsigned, by the entry with a mode, at width 64 in edition 4.20, which alone the crate knows.
    Moded(Vec<u64>),
}

pub struct Case {
    pub name: &'static str,
    pub address: u64,
    pub input: Input,
}

fn texts(image: &mut Image, stem: &str, n: usize) -> Vec<u64> {
    (0..n).map(|i| image.text(&format!("{stem} {i}"))).collect()
}

fn steps(n: usize) -> Vec<f64> {
    (0..n).map(|i| i as f64).collect()
}

/// A thousand numbers of up to 64 bits, about as many of each size. Most of more than 53 bits are no f64, and are rounded.
fn of_every_size() -> Vec<u64> {
    (1..=1000).map(|i: u64| i.wrapping_mul(0x9e37_79b9_7f4a_7c15) >> (i % 64)).collect()
}

/// Types 1, 2, 4, 5 and 6.
fn numbers(image: &mut Image, list: &mut Vec<Case>) {
    let mut add = |name, address, input| list.push(Case { name, address, input });
    let thousand = || Input::Unsigned((0..1000).collect());
    let linear = image.block(1, &[], &[0.0, 0.125]);
    add("1 linear", linear, thousand());
    add("1 linear, in a mode", linear, Input::Moded((0..1000).collect()));
    add("1 linear, signed", linear, Input::Signed((-500..500).collect()));
    add("1 linear, of every size", linear, Input::Unsigned(of_every_size()));
    add("2 rational", image.block(2, &[], &[0.0, 1.0, 0.5, 0.0, 0.0, 3.0]), thousand());
    let pairs: Vec<f64> = (0..500).flat_map(|i| [i as f64, 2.5 * i as f64]).collect();
    let between = || Input::Float((0..500).map(|i| i as f64 + 0.3).collect());
    add("4 table, 500 pairs", image.block(4, &[], &pairs), between());
    add("5 nearest, 500 pairs", image.block(5, &[], &pairs), between());
    let ranges = [0.0, 10.0, 1.0, 10.0, 20.0, 2.0, 9.0];
    add("6 range to value, 2 ranges", image.block(6, &[], &ranges), Input::Unsigned((0..30).collect()));
}

/// Types 7 to 11, and type 1 under type 7. `linear` is a block of type 1.
fn words(image: &mut Image, linear: u64, list: &mut Vec<Case>) {
    let mut add = |name, address, input| list.push(Case { name, address, input });
    let names = texts(image, "text number", 17);
    add("7 value to text, 16 keys", image.block(7, &names, &steps(16)), Input::Unsigned((0..17).collect()));
    let bounds: Vec<f64> = (0..16).flat_map(|i| [10.0 * i as f64, 10.0 * i as f64 + 9.0]).collect();
    add("8 range to text, 16 ranges", image.block(8, &names, &bounds), Input::Unsigned((0..160).collect()));
    let keys = texts(image, "key", 16);
    let asked = || Input::Text((0..17).map(|i| format!("key {i}")).collect());
    add("9 text to value, 16 keys", image.block(9, &keys, &steps(17)), asked());
    let mut outputs: Vec<u64> = keys.iter().zip(&names).flat_map(|(k, t)| [*k, *t]).collect();
    outputs.push(names[16]);
    add("10 text to text, 16 pairs", image.block(10, &outputs, &[]), asked());
    let gear = image.text("Gear");
    let values: Vec<u64> = steps(16).iter().map(|v| v.to_bits()).collect();
    let group = image.words(7, gear, &names, &values);
    let groups = image.words(11, 0, &[group, names[3]], &[15, 240]);
    add("11 bit groups, 2 groups", groups, Input::Unsigned((0..16).collect()));
    add("11 bit groups, 2 groups, in a mode", groups, Input::Moded((0..16).collect()));
    add("1 under 7", image.block(7, &[names[0], linear], &[1e9]), Input::Unsigned((0..1000).collect()));
}

pub fn all(image: &mut Image) -> Vec<Case> {
    let mut list = Vec::new();
    numbers(image, &mut list);
    words(image, list[0].address, &mut list);
    list
}

/// So many blocks in a row, each but the last with so many references to the next. Answers the first one's address.
pub fn linked(image: &mut Image, levels: u64, references: usize) -> u64 {
    let first = image.end();
    let size = 64 + 8 * references as u64;
    for level in 1..=levels {
        let next = if level == levels { 0 } else { first + size * level };
        image.block(0, &vec![next; references], &[]);
    }
    first
}

/// A full binary tree of so many levels: 2^levels - 1 different blocks, one visit each. Answers the root's address.
pub fn tree(image: &mut Image, levels: u32) -> u64 {
    let first = image.end();
    let (inner, all) = ((1u64 << (levels - 1)) - 1, (1u64 << levels) - 1);
    let place = |i: u64| if i < all { first + 80 * i } else { 0 };
    for i in 0..all {
        let below = if i < inner { 2 * i + 1 } else { all };
        image.block(0, &[place(below), place(below + 1)], &[]);
    }
    first
}
