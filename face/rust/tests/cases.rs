//! Every line of document 01's "Cases", every refusal from 1 to 9, 11 and 18, malformed tables, widths and editions, through the safe functions. The
//! padding of a block, and refusal 23, are those of tests/padding.rs; text blocks, and refusals 21 and 22, those of tests/texts.rs; inverting, and
//! refusals 12 to 15, those of tests/inverse.rs.
#[allow(dead_code)]
mod image;

use image::Image;
use mdf_conversion::{
    apply, apply_in, check, translate, Answer, Applied, ConversionBlock, ConversionType, Edition, Mode, PhysicalRange, Refusal, Stopped, Value,
    Visits,
};

const LIMIT: u32 = 4096;
const FILL: u8 = 0xa5;
const OLDER: Mode = Mode::STANDARD.edition(Edition::Mdf410);

use Value::{Float, Other, SignedInteger as Signed, Text, UnsignedInteger as Unsigned};

type Outcome = Result<Applied, Refusal>;

/// Applies with so much room in the middle of a larger buffer. All but the text of the answer has to stay as it was.
fn in_a_buffer(room: usize, apply: impl Fn(&mut [u8]) -> Outcome) -> (Outcome, Vec<u8>) {
    let mut buffer = vec![FILL; room + 64];
    let outcome = apply(&mut buffer[32..32 + room]);
    let length = match outcome {
        Ok(Applied { answer: Answer::Text(length), .. }) => length,
        _ => 0,
    };
    let text = buffer[32..32 + length].to_vec();
    buffer[32..32 + length].fill(FILL);
    assert!(buffer.iter().all(|byte| *byte == FILL), "a byte outside the answer has changed");
    (outcome, text)
}

fn apply_at(image: &Image, address: u64, limit: u32, mode: Mode, value: Value<'_>, room: usize) -> (Outcome, Vec<u8>) {
    in_a_buffer(room, |out| apply_in(&image.bytes, address, limit, mode, value, out))
}

/// Applies without a mode. In the standard one the answer has the same bits, and a width that is none is refused before all else in both editions.
fn apply_within(image: &Image, address: u64, limit: u32, value: Value<'_>, room: usize) -> (Outcome, Vec<u8>) {
    let plain = in_a_buffer(room, |out| apply(&image.bytes, address, limit, value, out));
    let standard = apply_at(image, address, limit, Mode::STANDARD, value, room);
    assert_eq!(format!("{standard:?}"), format!("{plain:?}"));
    for width in [0, 65, u32::MAX].map(Mode::width) {
        for mode in [width, width.edition(Edition::Mdf410)] {
            assert_eq!(apply_at(image, address, limit, mode, value, room), (Err(Refusal::Width), Vec::new()));
        }
    }
    plain
}

fn visits(checked: u32, applied: u32) -> Visits {
    Visits { checked, applied }
}

/// What 7 and 8 carry, where no malformed table was consulted.
fn stopped(checked: u32, applied: u32) -> Stopped {
    Stopped { visits: visits(checked, applied), malformed: false }
}

/// One block of any type but 11 gives this answer, in 4.10 too.
fn answers(image: &Image, address: u64, value: Value<'_>, answer: Answer) {
    let (outcome, _) = apply_within(image, address, LIMIT, value, 64);
    assert_eq!(outcome, Ok(Applied { answer, visits: visits(1, 1), malformed: false }));
    assert_eq!(apply_at(image, address, LIMIT, OLDER, value, 64).0, outcome);
}

fn text_and_table(image: &Image, address: u64, value: Value<'_>, text: &[u8], seen: Visits, malformed: bool) {
    let (outcome, written) = apply_within(image, address, LIMIT, value, 64);
    assert_eq!(outcome, Ok(Applied { answer: Answer::Text(text.len()), visits: seen, malformed }));
    assert_eq!(written, text);
}

fn gives_text(image: &Image, address: u64, value: Value<'_>, text: &[u8], seen: Visits) {
    text_and_table(image, address, value, text, seen, false);
}

/// The check refuses, and so does applying each kind of value in either edition.
fn is_unsound(image: &Image, address: u64, limit: u32, refusal: Refusal) {
    assert_eq!(check(&image.bytes, address, limit), Err(refusal));
    for value in [Unsigned(1), Signed(-1), Float(0.5), Text(b"x"), Other] {
        assert_eq!(apply_within(image, address, limit, value, 64).0, Err(refusal));
        assert_eq!(apply_at(image, address, limit, OLDER, value, 64).0, Err(refusal));
    }
}

#[test]
fn linear() {
    let mut image = Image::new();
    let torque = image.block(1, &[], &[0.0, 0.125]);
    let one = image.block(1, &[], &[0.0]);
    answers(&image, torque, Signed(-3), Answer::Number(-0.375));
    answers(&image, torque, Text(b"no signal"), Answer::Unchanged);
    answers(&image, torque, Other, Answer::Unchanged);
    answers(&image, one, Unsigned(7), Answer::Number(7.0));
}

#[test]
fn whole_numbers_are_rounded() {
    let mut image = Image::new();
    let one = image.block(1, &[], &[0.0]);
    answers(&image, one, Unsigned(9007199254740993), Answer::Number(9007199254740992.0));
    answers(&image, one, Unsigned(9007199254740995), Answer::Number(9007199254740996.0));
    answers(&image, one, Unsigned(u64::MAX), Answer::Number(18446744073709551616.0));
}

#[test]
fn rational() {
    let mut image = Image::new();
    let rational = image.block(2, &[], &[0.0, 1.0, 0.0, 0.0, 0.0, 0.0]);
    answers(&image, rational, Unsigned(4), Answer::Number(f64::INFINITY));
    let (outcome, _) = apply_within(&image, rational, LIMIT, Unsigned(0), 0);
    assert!(matches!(outcome, Ok(Applied { answer: Answer::Number(x), .. }) if x.is_nan()));
}

#[test]
fn tables() {
    let mut image = Image::new();
    let pairs = [0.0, 10.0, 10.0, 20.0, 20.0, 60.0];
    let (interpolated, nearest) = (image.block(4, &[], &pairs), image.block(5, &[], &pairs));
    answers(&image, interpolated, Unsigned(15), Answer::Number(40.0));
    answers(&image, nearest, Unsigned(15), Answer::Number(20.0));
    answers(&image, nearest, Unsigned(16), Answer::Number(60.0));
    answers(&image, interpolated, Signed(-1), Answer::Number(10.0));
    answers(&image, nearest, Signed(-1), Answer::Number(10.0));
}

#[test]
fn range_to_text() {
    let mut image = Image::new();
    let texts = [image.text(b"index 0"), image.text(b"index 1"), image.text(b"index 2")];
    let two = image.block(8, &texts, &[0.0, 10.0, 10.0, 20.0]);
    gives_text(&image, two, Unsigned(10), b"index 0", visits(1, 1));
    gives_text(&image, two, Float(10.0), b"index 1", visits(1, 1));
    gives_text(&image, two, Float(20.0), b"index 2", visits(1, 1));
    gives_text(&image, two, Float(f64::NAN), b"index 2", visits(1, 1));
}

#[test]
fn range_to_text_of_a_malformed_table() {
    let mut image = Image::new();
    let text = image.text(b"index 0");
    for length in 0..=5 {
        let odd = length == 0 || length % 2 == 1;
        let bounds = &[0.0, 10.0, 10.0, 20.0, 20.0][..length];
        let (named, unnamed) = (image.block(8, &[text], bounds), image.block(8, &[0], bounds));
        text_and_table(&image, named, Unsigned(5), b"index 0", visits(1, 1), odd);
        if odd {
            text_and_table(&image, named, Float(f64::NAN), b"index 0", visits(1, 1), true);
        }
        if length < 2 {
            let unchanged = Applied { answer: Answer::Unchanged, visits: visits(1, 1), malformed: true };
            assert_eq!(apply_within(&image, unnamed, LIMIT, Unsigned(5), 64).0, Ok(unchanged));
        } else {
            text_and_table(&image, unnamed, Unsigned(5), b"", visits(1, 1), odd);
        }
        answers(&image, named, Text(b"index 0"), Answer::Unchanged);
        answers(&image, named, Other, Answer::Unchanged);
    }
}

#[test]
fn a_malformed_table_below_other_blocks() {
    let mut image = Image::new();
    let (odd, even) = (image.text(b"odd"), image.text(b"even"));
    let odd_table = image.block(8, &[odd], &[0.0, 10.0, 10.0]);
    let even_table = image.block(8, &[even], &[0.0, 10.0]);
    let formula = image.block(3, &[], &[]);
    let under_key = image.block(7, &[odd_table], &[5.0]);
    let under_default = image.block(8, &[even, 0, odd_table], &[0.0, 10.0]);
    let mut groups = |first, second| image.named(11, 0, &[first, second], &[15, 15]);
    let (second, first, none) = (groups(even_table, odd_table), groups(odd_table, even_table), groups(even_table, even_table));
    let (behind, before) = (groups(formula, odd_table), groups(odd_table, formula));
    text_and_table(&image, under_key, Unsigned(5), b"odd", visits(2, 2), true);
    text_and_table(&image, under_default, Unsigned(11), b"odd", visits(2, 2), true);
    gives_text(&image, under_default, Unsigned(5), b"even", visits(2, 1));
    text_and_table(&image, second, Unsigned(5), b"even|odd", visits(3, 3), true);
    text_and_table(&image, first, Unsigned(5), b"odd|even", visits(3, 3), true);
    gives_text(&image, none, Unsigned(5), b"even|even", visits(3, 3));
    let consulted = |checked, applied| Stopped { visits: visits(checked, applied), malformed: true };
    assert_eq!(apply_within(&image, behind, LIMIT, Unsigned(5), 64).0, Err(Refusal::Formula(stopped(3, 2))));
    assert_eq!(apply_within(&image, before, LIMIT, Unsigned(5), 64).0, Err(Refusal::Formula(consulted(3, 3))));
    assert_eq!(apply_within(&image, second, LIMIT, Unsigned(5), 7).0, Err(Refusal::Room(Some(consulted(3, 3)))));
    assert_eq!(apply_within(&image, odd_table, LIMIT, Unsigned(5), 2).0, Err(Refusal::Room(Some(consulted(1, 1)))));
    assert_eq!(apply_within(&image, none, LIMIT, Unsigned(5), 8).0, Err(Refusal::Room(Some(stopped(3, 3)))));
    is_unsound(&image, under_key, 1, Refusal::Limit(odd_table));
}

#[test]
fn range_to_value() {
    let mut image = Image::new();
    let hitch = image.block(6, &[], &[0.0, 10.0, 1.0, 10.0, 20.0, 2.0, 9.0]);
    answers(&image, hitch, Unsigned(10), Answer::Number(1.0));
    answers(&image, hitch, Float(10.0), Answer::Number(2.0));
    answers(&image, hitch, Float(20.0), Answer::Number(9.0));
}

#[test]
fn a_range_is_there_by_the_block_length() {
    for (length, range) in [(95, None), (96, Some(PhysicalRange { min: 0.5, max: 8.0 }))] {
        let mut image = Image::new();
        let address = image.block(1, &[], &[0.5, 8.0, 2.0, 3.0]);
        image.bytes[address as usize + 8] = length;
        image.bytes[address as usize + 62] = 2; // two values
        let values: Vec<f64> = ConversionBlock::cc_val(&image.bytes, address).unwrap().collect();
        assert_eq!(ConversionBlock::parse(&image.bytes, address).unwrap().cc_phy_range, range);
        assert_eq!(values, if range.is_some() { [2.0, 3.0] } else { [0.5, 8.0] });
    }
}

#[test]
fn bit_groups() {
    let mut image = Image::new();
    let (name, low, pto) = (image.text(b"Gear"), image.text(b"Low"), image.text(b"PTO"));
    let gear = image.named(7, name, &[low], &[2f64.to_bits()]);
    let groups = image.named(11, 0, &[gear, pto], &[3, 12]);
    gives_text(&image, groups, Unsigned(6), b"Gear = Low|PTO", visits(2, 2));
    gives_text(&image, groups, Unsigned(0), b"PTO", visits(2, 2));
    assert!(apply_within(&image, groups, LIMIT, Unsigned(6), 14).0.is_ok());
    assert_eq!(apply_within(&image, groups, LIMIT, Unsigned(6), 13).0, Err(Refusal::Room(Some(stopped(2, 2)))));
    assert_eq!(apply_within(&image, groups, LIMIT, Unsigned(6), 0).0, Err(Refusal::Room(Some(stopped(2, 2)))));
}

/// Bit groups with a mask below a width, one across it and one above it. What a group gets it shows: the bit below, the one above, both or none.
fn masks_around(image: &mut Image, width: u32) -> u64 {
    let (below, above) = (1 << (width - 1), 1u64.checked_shl(width).unwrap_or(0));
    let texts = [image.text(b"none"), image.text(b"below"), image.text(b"both"), image.text(b"above")];
    let shown = image.block(7, &texts, &[0.0, below as f64, (below | above) as f64, above as f64]);
    image.named(11, 0, &[shown; 3], &[below, below | above, above])
}

fn shows(image: &Image, address: u64, width: u32, value: Value<'_>, text: &str, seen: Visits) {
    let (outcome, written) = apply_at(image, address, LIMIT, Mode::width(width), value, 64);
    assert_eq!(outcome, Ok(Applied { answer: Answer::Text(text.len()), visits: seen, malformed: false }));
    assert_eq!(String::from_utf8(written).unwrap(), text);
}

#[test]
fn only_the_low_bits_of_a_width_reach_the_masks() {
    let mut image = Image::new();
    for width in [1, 3, 4, 8, 31, 32, 33, 63] {
        let groups = masks_around(&mut image, width);
        for value in [Signed(-1), Unsigned(u64::MAX), Signed(-1 << (width - 1)), Unsigned(1 << (width - 1))] {
            shows(&image, groups, width, value, "below|below|none", visits(4, 4));
        }
        shows(&image, groups, width, Unsigned(1 << width), "none|none|none", visits(4, 4));
        shows(&image, groups, width + 1, Signed(-1), "below|both|above", visits(4, 4));
        shows(&image, groups, 64, Signed(-1), "below|both|above", visits(4, 4));
    }
    let last = masks_around(&mut image, 64);
    shows(&image, last, 64, Signed(-1), "below|below|none", visits(4, 4));
    shows(&image, last, 63, Signed(-1), "none|none|none", visits(4, 4));
}

#[test]
fn a_width_below_other_blocks() {
    let mut image = Image::new();
    let groups = masks_around(&mut image, 4);
    let by_key = image.block(7, &[groups], &[-1.0]);
    let by_range = image.block(8, &[groups], &[-1.0, -1.0]);
    let by_mask = image.named(11, 0, &[groups], &[u64::MAX]);
    for above in [by_key, by_range, by_mask] {
        shows(&image, above, 4, Signed(-1), "below|below|none", visits(5, 5));
        shows(&image, above, 64, Signed(-1), "below|both|above", visits(5, 5));
    }
    for value in [Float(-1.0), Text(b"-1"), Other] {
        let unchanged = Applied { answer: Answer::Unchanged, visits: visits(4, 1), malformed: false };
        assert_eq!(apply_at(&image, groups, LIMIT, Mode::width(4), value, 64).0, Ok(unchanged));
    }
    assert_eq!(apply_at(&image, groups, LIMIT, Mode::width(4), Signed(-1), 15).0, Err(Refusal::Room(Some(stopped(4, 4)))));
    assert_eq!(Mode::default(), Mode::width(64));
}

/// In 4.10 the value stays as it is, whatever the width, without any room. N is what the check says.
fn stays_in_4_10(image: &Image, address: u64, value: Value<'_>, seen: Visits, malformed: bool) {
    assert_eq!(check(&image.bytes, address, LIMIT), Ok(seen.checked));
    for width in 1..=64 {
        let (outcome, _) = apply_at(image, address, LIMIT, Mode::width(width).edition(Edition::Mdf410), value, 0);
        assert_eq!(outcome, Ok(Applied { answer: Answer::Unchanged, visits: seen, malformed }));
    }
}

#[test]
fn bit_groups_are_unknown_in_4_10() {
    let mut image = Image::new();
    let groups = masks_around(&mut image, 4);
    for value in [Unsigned(0), Unsigned(u64::MAX), Signed(8), Signed(-1), Float(8.0), Float(f64::NAN), Text(b"below"), Text(b""), Other] {
        stays_in_4_10(&image, groups, value, visits(4, 1), false);
    }
    gives_text(&image, groups, Signed(-1), b"below|both|above", visits(4, 4));
    shows(&image, groups, 4, Signed(-1), "below|below|none", visits(4, 4));
}

#[test]
fn bit_groups_below_other_blocks_in_4_10() {
    let mut image = Image::new();
    let groups = masks_around(&mut image, 4);
    let by_key = image.block(7, &[groups], &[8.0]);
    let by_no_key = image.block(7, &[0, groups], &[5.0]);
    let by_range = image.block(8, &[groups], &[8.0, 9.0]);
    let by_default = image.block(8, &[0, 0, groups], &[5.0, 6.0]);
    let malformed = image.block(8, &[groups], &[5.0]);
    let twice = image.block(8, &[by_key], &[8.0, 9.0]);
    for (above, seen) in [(by_key, 2), (by_no_key, 2), (by_range, 2), (by_default, 2), (malformed, 2), (twice, 3)] {
        let odd = above == malformed;
        for value in [Unsigned(8), Signed(8), Float(8.0)] {
            stays_in_4_10(&image, above, value, visits(3 + seen, seen), odd);
        }
        for value in [Text(b"8"), Other] {
            stays_in_4_10(&image, above, value, visits(3 + seen, 1), false);
        }
        for value in [Unsigned(8), Signed(8)] {
            text_and_table(&image, above, value, b"below|below|none", visits(3 + seen, 3 + seen), odd);
        }
    }
}

#[test]
fn nothing_below_bit_groups_is_reached_in_4_10() {
    let mut image = Image::new();
    let text = image.text(b"text");
    let odd_table = image.block(8, &[text], &[0.0]);
    let formula = image.block(3, &[], &[]);
    let shown = image.named(11, 0, &[text, odd_table], &[1, 1]);
    let stopped_at = image.named(11, 0, &[odd_table, formula], &[1, 1]);
    let consulted = |checked, applied| Stopped { visits: visits(checked, applied), malformed: true };
    assert_eq!(apply_within(&image, shown, LIMIT, Unsigned(1), 8).0, Err(Refusal::Room(Some(consulted(2, 2)))));
    assert_eq!(apply_within(&image, stopped_at, LIMIT, Unsigned(1), 0).0, Err(Refusal::Formula(consulted(3, 3))));
    stays_in_4_10(&image, shown, Unsigned(1), visits(2, 1), false);
    stays_in_4_10(&image, stopped_at, Unsigned(1), visits(3, 1), false);
}

#[test]
fn the_check_below_bit_groups_is_alike_in_4_10() {
    let mut image = Image::new();
    let (chain, last) = image.row(21, 1);
    let deep = image.named(11, 0, &[chain], &[1]);
    is_unsound(&image, deep, LIMIT, Refusal::Deep(last));
    is_unsound(&image, deep, 1, Refusal::Limit(chain));
    is_unsound(&image, deep, 0, Refusal::Limit(deep));
    let own = image.bytes.len() as u64;
    image.named(11, 0, &[own], &[1]);
    is_unsound(&image, own, LIMIT, Refusal::Loop(own));
    let cut_off = image.named(11, 0, &[0], &[1]);
    let last = image.block(1, &[], &[0.0, 1.0]);
    image.set_link(cut_off, 4, last); // the first reference
    image.bytes.pop();
    is_unsound(&image, cut_off, LIMIT, Refusal::Short(last));
}

#[test]
fn two_links_to_one_leaf() {
    let mut image = Image::new();
    let leaf = image.block(1, &[], &[]);
    let root = image.block(8, &[leaf, leaf], &[]);
    assert_eq!(check(&image.bytes, root, 3), Ok(3));
    is_unsound(&image, root, 2, Refusal::Limit(leaf));
}

#[test]
fn chains_and_rows() {
    let mut image = Image::new();
    let (root, _) = image.row(21, 1);
    assert_eq!(check(&image.bytes, root, LIMIT), Ok(21));
    let (root, last) = image.row(22, 1);
    is_unsound(&image, root, LIMIT, Refusal::Deep(last));
    let (root, last) = image.row(12, 2);
    assert_eq!(check(&image.bytes, root, 4095), Ok(4095));
    is_unsound(&image, root, 4094, Refusal::Limit(last));
}

#[test]
fn outside_and_not_a_conversion() {
    let mut image = Image::new();
    let text = image.text(b"no conversion");
    let end = image.bytes.len() as u64;
    is_unsound(&image, text, LIMIT, Refusal::NotConversion(text));
    is_unsound(&image, end - 23, LIMIT, Refusal::Outside(end - 23));
    is_unsound(&image, u64::MAX, 0, Refusal::Outside(u64::MAX));
    is_unsound(&Image { bytes: Vec::new() }, 0, LIMIT, Refusal::Outside(0));
    assert_eq!(ConversionBlock::parse(&image.bytes, end), Err(Refusal::Outside(end)));
    assert_eq!(ConversionBlock::parse(&image.bytes, text), Err(Refusal::NotConversion(text)));
}

#[test]
fn short_and_loop() {
    let mut image = Image::new();
    let own = image.bytes.len() as u64;
    image.block(7, &[own], &[]);
    let cut = image.block(1, &[], &[0.0, 1.0]);
    image.bytes.pop();
    is_unsound(&image, own, 1, Refusal::Loop(own));
    is_unsound(&image, cut, LIMIT, Refusal::Short(cut));
    is_unsound(&image, cut, 0, Refusal::Limit(cut));
    assert_eq!(ConversionBlock::parse(&image.bytes, cut), Err(Refusal::Short(cut)));
    assert_eq!(ConversionBlock::cc_ref(&image.bytes, cut).err(), Some(Refusal::Short(cut)));
    assert_eq!(ConversionBlock::cc_val(&image.bytes, cut).err(), Some(Refusal::Short(cut)));
}

#[test]
fn a_formula_keeps_its_visits() {
    let mut image = Image::new();
    let formula = image.block(3, &[], &[]);
    let groups = image.named(11, 0, &[formula, formula], &[3, 12]);
    assert_eq!(apply_within(&image, formula, LIMIT, Float(5.0), 0).0, Err(Refusal::Formula(stopped(1, 1))));
    assert_eq!(apply_within(&image, groups, LIMIT, Unsigned(6), 64).0, Err(Refusal::Formula(stopped(3, 2))));
    answers(&image, formula, Text(b"no signal"), Answer::Unchanged);
}

#[test]
fn texts() {
    let mut image = Image::new();
    let keys = [image.text(b"off"), image.text(b"on"), image.text(b"")];
    let lamp = image.block(9, &keys[..2], &[0.0, 1.0, -1.0]);
    let no_value = image.block(9, &keys[..2], &[0.0]);
    let fault = image.block(10, &keys, &[]);
    answers(&image, lamp, Text(b"on"), Answer::Number(1.0));
    answers(&image, lamp, Text(b"blink"), Answer::Number(-1.0));
    answers(&image, no_value, Text(b"on"), Answer::Unknown);
    answers(&image, lamp, Other, Answer::Unchanged);
    gives_text(&image, fault, Text(b"off"), b"on", visits(1, 1));
    gives_text(&image, fault, Text(b""), b"", visits(1, 1));
}

#[test]
fn a_translation_is_a_part_of_the_image_or_the_question() {
    let mut image = Image::new();
    let texts = [image.text(b"E1"), image.text(b"oil pressure low"), image.text(b"")];
    let fault = image.block(10, &texts, &[]);
    let (bytes, question) = (&image.bytes[..], b"E1".as_slice());
    let low = texts[1] as usize + 24;
    assert!(core::ptr::eq(translate(bytes, fault, LIMIT, question), &bytes[low..low + 16]));
    assert!(core::ptr::eq(translate(bytes, fault, 0, question), question));
    assert!(core::ptr::eq(translate(bytes, texts[0], LIMIT, question), question));
    let empty = texts[2] as usize + 24;
    assert!(core::ptr::eq(translate(bytes, fault, LIMIT, b"E2"), &bytes[empty..empty]));
    assert_eq!(translate(&[], 0, 0, &[]), b"");
}

/// A block with every field of its own.
fn all_fields() -> ConversionBlock {
    ConversionBlock {
        block_len: 120,
        links_nr: 7,
        cc_tx_name: Some(1),
        cc_md_unit: Some(u64::MAX),
        cc_md_comment: Some(3),
        cc_cc_inverse: Some(0x0102030405060708),
        cc_type: ConversionType::from_u8(200),
        cc_precision: 9,
        cc_flags: 0x4142,
        cc_ref_count: 0x5152,
        cc_val_count: 2,
        cc_phy_range: Some(PhysicalRange { min: -2.5, max: f64::INFINITY }),
        reserved: 0,
        excess: 0,
    }
}

#[test]
fn what_was_written_is_parsed() {
    let (refs, values) = ([5, 0, u64::MAX], [-0.0, 1.5]);
    let mut out = vec![FILL; 130];
    assert_eq!(all_fields().write(&refs, &values, &mut out), Ok(120));
    assert_eq!(out[120..], [FILL; 10]);
    assert_eq!(ConversionBlock::parse(&out, 0), Ok(all_fields()));
    assert!(ConversionBlock::cc_ref(&out, 0).unwrap().eq(refs));
    assert!(ConversionBlock::cc_val(&out, 0).unwrap().map(f64::to_bits).eq(values.map(f64::to_bits)));
}

#[test]
fn reading_by_place() {
    let (refs, words) = ([5, 0], [0x7ff0000000000001, 12, u64::MAX]);
    // A block length of 16 more makes a range of the first two words, and the values begin behind them.
    for (length, values) in [(104, words), (120, [u64::MAX, 0, 0])] {
        let mut image = Image::new();
        let address = image.named(11, 0, &refs, &words);
        image.bytes[address as usize + 8] = length;
        image.bytes.extend([0; 16]);
        let reference = |place| ConversionBlock::reference(&image.bytes, address, place);
        let value_word = |place| ConversionBlock::value_word(&image.bytes, address, place);
        assert_eq!([0, 1, 2, u64::MAX].map(reference), [Ok(Some(5)), Ok(Some(0)), Ok(None), Ok(None)]);
        assert_eq!([0, 1, 2].map(value_word), values.map(|word| Ok(Some(word))));
        assert_eq!([3, 1 << 61, u64::MAX].map(value_word), [Ok(None); 3]);
        // All of them, in order, and as many as they say.
        let all = ConversionBlock::cc_ref(&image.bytes, address).unwrap();
        assert_eq!((all.len(), all.clone().nth(2)), (2, None));
        assert!(all.eq(refs));
        let all = ConversionBlock::cc_val(&image.bytes, address).unwrap();
        assert_eq!((all.len(), all.clone().nth(3)), (3, None));
        assert!(all.map(f64::to_bits).eq(values));
    }
}

/// Parsing the block at the refusal's address is refused, and so is reading by place.
fn is_unreadable(image: &Image, refusal: Refusal) {
    let address = refusal.address().unwrap();
    for place in [0, 1, u64::MAX] {
        assert_eq!(ConversionBlock::reference(&image.bytes, address, place), Err(refusal));
        assert_eq!(ConversionBlock::value_word(&image.bytes, address, place), Err(refusal));
    }
    assert_eq!(ConversionBlock::parse(&image.bytes, address), Err(refusal));
    assert_eq!(ConversionBlock::parse_kept(&image.bytes, address), Err(refusal));
    assert_eq!(ConversionBlock::cc_ref(&image.bytes, address).err(), Some(refusal));
    assert_eq!(ConversionBlock::cc_val(&image.bytes, address).err(), Some(refusal));
}

#[test]
fn reading_by_place_refuses_as_parsing_does() {
    let mut image = Image::new();
    let (text, few) = (image.text(b"no conversion"), image.block(7, &[], &[]));
    image.set_link_count(few, 3);
    let cut = image.block(1, &[], &[0.0, 1.0]);
    image.bytes.pop();
    let end = image.bytes.len() as u64;
    let refusals = [Refusal::Outside(end), Refusal::Outside(u64::MAX), Refusal::NotConversion(text), Refusal::FewLinks(few), Refusal::Short(cut)];
    for refusal in refusals {
        is_unreadable(&image, refusal);
    }
}

/// Each call on the block at the refusal's address is refused. The type 10 entry, which names no refusal, shows the question.
fn is_refused_alone(image: &Image, refusal: Refusal) {
    let (address, question) = (refusal.address().unwrap(), b"E1".as_slice());
    is_unreadable(image, refusal);
    is_unsound(image, address, LIMIT, refusal);
    assert!(core::ptr::eq(translate(&image.bytes, address, LIMIT, question), question));
}

#[test]
fn fewer_than_four_links_are_refused() {
    for kind in (0..=12).chain([42]) {
        let mut image = Image::new();
        let block = image.block(kind, &[], &[0.0, 0.125]);
        for links in 0..4 {
            image.set_link_count(block, links);
            is_refused_alone(&image, Refusal::FewLinks(block));
        }
        image.set_link_count(block, 4);
        assert_eq!(check(&image.bytes, block, LIMIT), Ok(1));
        assert_eq!(ConversionBlock::parse(&image.bytes, block).unwrap().links_nr, 4);
        // The whole count decides, not its low bytes, and it has no sign.
        for links in [1 << 8, (1 << 16) + 3, 1 << 32, (1 << 32) + 3, 1 << 63, (1 << 63) + 3, u64::MAX] {
            image.set_link_count(block, links);
            is_refused_alone(&image, Refusal::Short(block));
        }
    }
}

#[test]
fn four_and_five_links_are_taken() {
    let mut image = Image::new();
    let (four, five) = (image.block(1, &[], &[0.0, 0.125]), image.block(1, &[0], &[0.0, 0.125]));
    for (block, links) in [(four, 4), (five, 5)] {
        answers(&image, block, Signed(-3), Answer::Number(-0.375));
        assert_eq!(ConversionBlock::parse(&image.bytes, block).unwrap().links_nr, links);
        assert_eq!(ConversionBlock::cc_ref(&image.bytes, block).unwrap().len() as u64, links - 4);
        assert!(ConversionBlock::cc_val(&image.bytes, block).unwrap().eq([0.0, 0.125]));
    }
}

#[test]
fn fewer_than_four_links_in_a_nested_block() {
    for kind in [0, 1, 3, 7, 8, 9, 10, 11, 42] {
        let mut image = Image::new();
        let leaf = image.block(1, &[], &[0.0, 0.125]);
        let above = image.block(kind, &[leaf], &[]);
        let top = image.block(kind, &[above], &[]);
        for links in 0..4 {
            image.set_link_count(leaf, links);
            is_unsound(&image, above, LIMIT, Refusal::FewLinks(leaf));
            is_unsound(&image, top, LIMIT, Refusal::FewLinks(leaf));
        }
        image.set_link_count(leaf, 4);
        assert_eq!((check(&image.bytes, above, LIMIT), check(&image.bytes, top, LIMIT)), (Ok(2), Ok(3)));
    }
}

#[test]
fn fewer_than_four_links_before_a_formula_and_room() {
    let mut image = Image::new();
    let (text, few) = (image.text(b"on"), image.block(0, &[], &[]));
    let formula = image.block(3, &[few], &[]);
    let (shown, stopped_at) = (image.block(7, &[text, few], &[1.0]), image.block(7, &[formula, few], &[1.0]));
    assert_eq!(apply_within(&image, shown, LIMIT, Unsigned(1), 1).0, Err(Refusal::Room(Some(stopped(2, 1)))));
    assert_eq!(apply_within(&image, stopped_at, LIMIT, Unsigned(1), 1).0, Err(Refusal::Formula(stopped(4, 2))));
    image.set_link_count(few, 3);
    for root in [shown, stopped_at] {
        is_unsound(&image, root, LIMIT, Refusal::FewLinks(few));
        assert_eq!(apply_within(&image, root, LIMIT, Unsigned(1), 1).0, Err(Refusal::FewLinks(few)));
        assert_eq!(apply_within(&image, root, LIMIT, Unsigned(1), 0).0, Err(Refusal::FewLinks(few)));
    }
}

#[test]
fn a_translation_above_fewer_than_four_links_is_the_question() {
    let mut image = Image::new();
    let (key, low, few) = (image.text(b"E1"), image.text(b"oil pressure low"), image.block(1, &[], &[]));
    let middle = image.block(7, &[few], &[]);
    for root in [image.block(10, &[key, low, few], &[]), image.block(10, &[key, low, middle], &[])] {
        for links in 0..4 {
            image.set_link_count(few, links);
            assert_eq!(translate(&image.bytes, root, LIMIT, b"E1"), b"E1");
        }
        image.set_link_count(few, 4);
        assert_eq!(translate(&image.bytes, root, LIMIT, b"E1"), b"oil pressure low");
    }
}

#[test]
fn fewer_than_four_links_and_the_limit() {
    let mut image = Image::new();
    let (leaf, few) = (image.block(1, &[], &[]), image.block(1, &[], &[]));
    image.set_link_count(few, 3);
    let middle = image.block(7, &[few], &[]);
    let root = image.block(7, &[middle], &[]);
    let pair = image.block(8, &[leaf, leaf], &[]);
    let behind = image.block(8, &[pair, pair, few], &[]);
    // The visits begun before the block.
    for (address, before) in [(few, 0), (middle, 1), (root, 2), (behind, 7)] {
        is_unsound(&image, address, before, Refusal::Limit(few));
        is_unsound(&image, address, before + 1, Refusal::FewLinks(few));
        is_unsound(&image, address, u32::MAX, Refusal::FewLinks(few));
    }
    is_unsound(&image, root, 1, Refusal::Limit(middle));
    is_unsound(&image, behind, 6, Refusal::Limit(leaf));
}

#[test]
fn fewer_than_four_links_and_the_depth() {
    for count in [21, 22] {
        let mut image = Image::new();
        let (root, last) = image.row(count, 1);
        let with_four_links = if count == 21 { Ok(21) } else { Err(Refusal::Deep(last)) };
        assert_eq!(check(&image.bytes, root, LIMIT), with_four_links);
        for links in 0..4 {
            image.set_link_count(last, links);
            is_unsound(&image, root, LIMIT, Refusal::FewLinks(last));
        }
        is_unsound(&image, root, count as u32 - 1, Refusal::Limit(last));
        is_unsound(&image, root, count as u32, Refusal::FewLinks(last));
    }
}

#[test]
fn fewer_than_four_links_and_an_image_that_ends_inside() {
    let mut image = Image::new();
    let root = image.block(7, &[0], &[]);
    let cut = image.block(1, &[], &[0.0, 0.125]);
    image.set_link(root, 4, cut); // the first reference
    while image.bytes.len() as u64 > cut + 24 {
        image.bytes.pop();
        for (links, refusal) in [(0, Refusal::FewLinks(cut)), (3, Refusal::FewLinks(cut)), (4, Refusal::Short(cut))] {
            image.set_link_count(cut, links);
            is_refused_alone(&image, refusal);
            is_unsound(&image, root, LIMIT, refusal);
        }
    }
    // The header does not fit, so that the link leads to no block.
    image.set_link_count(cut, 3);
    image.bytes.pop();
    is_refused_alone(&image, Refusal::Outside(cut));
    assert_eq!(check(&image.bytes, root, LIMIT), Ok(1));
}

#[test]
fn the_first_fault_in_walking_order_is_given() {
    let mut image = Image::new();
    let (few, second, cut) = (image.block(7, &[], &[]), image.block(7, &[], &[]), image.block(7, &[], &[]));
    for (block, links) in [(few, 3), (second, 0), (cut, 1 << 60)] {
        image.set_link_count(block, links);
    }
    let (chain, deepest) = image.row(21, 1);
    let inner = image.block(7, &[few], &[]);
    let faults = [(cut, Refusal::Short(cut)), (chain, Refusal::Deep(deepest)), (second, Refusal::FewLinks(second))];
    for (fault, refusal) in faults {
        let (before, behind) = (image.block(7, &[fault, inner], &[]), image.block(7, &[inner, fault], &[]));
        is_unsound(&image, before, LIMIT, refusal);
        is_unsound(&image, behind, LIMIT, Refusal::FewLinks(few));
    }
    let own = image.bytes.len() as u64;
    image.block(7, &[own, inner], &[]);
    is_unsound(&image, own, LIMIT, Refusal::Loop(own));
    let own = image.bytes.len() as u64;
    image.block(7, &[inner, own], &[]);
    is_unsound(&image, own, LIMIT, Refusal::FewLinks(few));
    // Of a block with few links no reference is looked at.
    image.set_link_count(own, 3);
    is_unsound(&image, own, LIMIT, Refusal::FewLinks(own));
}

#[test]
fn fewer_than_four_links_where_the_check_does_not_walk() {
    let mut image = Image::new();
    let (other, few, on) = (image.block(1, &[], &[]), image.block(1, &[], &[]), image.text(b"on"));
    image.bytes[other as usize..][..4].copy_from_slice(b"##CD");
    image.set_link_count(other, 3);
    image.set_link_count(few, 3);
    is_refused_alone(&image, Refusal::NotConversion(other));
    let root = image.block(7, &[other], &[]);
    assert_eq!(check(&image.bytes, root, LIMIT), Ok(1));
    // A name that leads to such a block gives no text, and no fixed link is walked.
    let shown = image.block(7, &[on], &[1.0]);
    (0..4).for_each(|place| image.set_link(shown, place, few));
    let groups = image.named(11, 0, &[shown], &[1]);
    gives_text(&image, groups, Unsigned(1), b"on", visits(2, 2));
}

#[test]
fn every_nan_keeps_its_bits() {
    let words = [0x7ff0000000000001, 0xfff8000000000123, 0x7fffffffffffffff, 3];
    let nan = |word| f64::from_bits(word);
    let block = ConversionBlock { cc_phy_range: Some(PhysicalRange { min: nan(words[0]), max: nan(words[1]) }), ..all_fields() };
    let (mut first, mut second) = ([0; 112], [0; 112]);
    assert_eq!(block.write(&[], &words.map(f64::from_bits), &mut first), Ok(112));
    assert_eq!(first[64..80], [words[0].to_le_bytes(), words[1].to_le_bytes()].concat());
    assert!(ConversionBlock::cc_val(&first, 0).unwrap().map(f64::to_bits).eq(words));
    let values: Vec<f64> = ConversionBlock::cc_val(&first, 0).unwrap().collect();
    assert_eq!(ConversionBlock::parse(&first, 0).unwrap().write(&[], &values, &mut second), Ok(112));
    assert_eq!(first, second);
}

#[test]
fn writing_refuses_room_and_count() {
    let mut out = vec![FILL; 120];
    assert_eq!(all_fields().write(&[5, 0, 6], &[1.0, 2.0], &mut out[..119]), Err(Refusal::Room(None)));
    assert_eq!(all_fields().write(&[], &vec![0.0; 65536], &mut out), Err(Refusal::Count));
    assert_eq!(all_fields().write_words(&[], &vec![0; 65535], &mut out), Err(Refusal::Room(None)));
    assert_eq!(out, [FILL; 120]);
}

#[test]
fn refusals_have_number_name_address_index_and_visits() {
    let (seen, odd) = (stopped(3, 2), Stopped { visits: visits(3, 2), malformed: true });
    let all = [
        (Refusal::Outside(9), "refused 1 Outside at 9", None),
        (Refusal::NotConversion(9), "refused 2 NotConversion at 9", None),
        (Refusal::Limit(9), "refused 3 Limit at 9", None),
        (Refusal::Short(9), "refused 4 Short at 9", None),
        (Refusal::Deep(9), "refused 5 Deep at 9", None),
        (Refusal::Loop(0), "refused 6 Loop at 0", None),
        (Refusal::Formula(seen), "refused 7 Formula", Some(seen)),
        (Refusal::Room(Some(odd)), "refused 8 Room", Some(odd)),
        (Refusal::Count, "refused 9 Count", None),
        (Refusal::Width, "refused 11 Width", None),
        (Refusal::NotText(0), "refused 12 NotText at key 0", None),
        (Refusal::Repeated(4), "refused 13 Repeated at key 4", None),
        (Refusal::Key(65534), "refused 14 Key at key 65534", None),
        (Refusal::WrongType(9), "refused 15 WrongType at 9", None),
        (Refusal::Edition, "refused 16 Edition", None),
        (Refusal::FewLinks(1234), "refused 18 FewLinks at 1234", None),
        (Refusal::ZeroByte, "refused 21 ZeroByte", None),
        (Refusal::NotTextBlock(0), "refused 22 NotTextBlock at 0", None),
        (Refusal::Padding, "refused 23 Padding", None),
    ];
    for (number, (refusal, shown, stopped)) in (1..=9).chain([11, 12, 13, 14, 15, 16, 18, 21, 22, 23]).zip(all) {
        assert_eq!((refusal.number(), refusal.to_string().as_str(), refusal.visits()), (number, shown, stopped.map(|s| s.visits)));
        assert_eq!(refusal.malformed(), stopped.is_some_and(|s| s.malformed));
        assert_eq!(refusal.address().is_some(), number <= 6 || [15, 18, 22].contains(&number));
        assert_eq!(refusal.index().is_some(), (12..=14).contains(&number));
    }
    for (refusal, name) in [(Refusal::NotText(7), "NotText"), (Refusal::Repeated(7), "Repeated"), (Refusal::Key(7), "Key")] {
        assert_eq!((refusal.name(), refusal.index(), refusal.address()), (name, Some(7), None));
    }
    assert_eq!((Refusal::WrongType(1234).name(), Refusal::WrongType(1234).address()), ("WrongType", Some(1234)));
    assert_eq!((Refusal::FewLinks(1234).name(), Refusal::FewLinks(1234).address()), ("FewLinks", Some(1234)));
    assert_eq!((Refusal::NotTextBlock(1234).name(), Refusal::NotTextBlock(1234).address()), ("NotTextBlock", Some(1234)));
    assert_eq!((Refusal::Room(None).visits(), Refusal::Room(None).malformed()), (None, false));
}
