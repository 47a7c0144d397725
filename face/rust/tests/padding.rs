//! The padding of a block: its reserved bytes and its excess are kept by one way of parsing and written back.
#[allow(dead_code)]
mod image;

use image::Image;
use mdf_conversion::{apply, check, Answer, ConversionBlock, ConversionType, PhysicalRange, Refusal, Value};

const FILL: u8 = 0xa5;
const REFS: [u64; 2] = [5, u64::MAX];
const WORDS: [u64; 2] = [0x7ff0000000000001, 0xbff8000000000000]; // a NaN, and -1.5
const RANGE: [u64; 2] = [0xfff8000000000123, 0x4004000000000000]; // a NaN, and 2.5
const READ: usize = 64 + 8 * 4; // bytes with these references and values, but for a range and an excess
const RESERVED: [u32; 4] = [0, 0x04030201, 0x80000000, u32::MAX];

/// A record with every field of its own. Its counts and its block length are those that parsing answers.
fn padded(reserved: u32, excess: u64, ranged: bool) -> ConversionBlock {
    let [min, max] = RANGE.map(f64::from_bits);
    ConversionBlock {
        block_len: (READ as u64 + if ranged { 16 } else { 0 }).wrapping_add(excess),
        links_nr: 6,
        cc_tx_name: Some(1),
        cc_md_unit: Some(2),
        cc_md_comment: None,
        cc_cc_inverse: Some(0x0102030405060708),
        cc_type: ConversionType::RangeToText,
        cc_precision: 9,
        cc_flags: 0x4142,
        cc_ref_count: 0x5152,
        cc_val_count: 2,
        cc_phy_range: ranged.then_some(PhysicalRange { min, max }),
        reserved,
        excess,
    }
}

fn without_padding(block: ConversionBlock) -> ConversionBlock {
    ConversionBlock { reserved: 0, excess: 0, ..block }
}

/// The bytes of that record with REFS and WORDS.
fn bytes_of(block: &ConversionBlock) -> Vec<u8> {
    let mut bytes = b"##CC".to_vec();
    let words = |bytes: &mut Vec<u8>, words: &[u64]| bytes.extend(words.iter().flat_map(|word| word.to_le_bytes()));
    bytes.extend(block.reserved.to_le_bytes());
    words(&mut bytes, &[block.block_len, 6, 1, 2, 0, 0x0102030405060708]);
    words(&mut bytes, &REFS);
    bytes.extend([8, 9, 0x42, 0x41, 0x52, 0x51, 2, 0]);
    if block.cc_phy_range.is_some() {
        words(&mut bytes, &RANGE);
    }
    words(&mut bytes, &WORDS);
    bytes.resize(block.block_len as usize, 0);
    bytes
}

/// Each record that can be written, with these reserved bytes, and its bytes.
fn each_padded() -> impl Iterator<Item = (ConversionBlock, Vec<u8>)> {
    let kinds = [0, 1, 7, 8, 15, 16, 17, 4096].into_iter().flat_map(|excess| [(excess, true), (excess, false)]);
    let kinds = kinds.filter(|(excess, ranged)| *ranged || *excess < 16);
    let blocks = kinds.flat_map(|(excess, ranged)| RESERVED.map(|reserved| padded(reserved, excess, ranged)));
    blocks.map(|block| (block, bytes_of(&block)))
}

/// A block of which a bound is a NaN equals no other: the bits are compared.
fn same(a: Result<ConversionBlock, Refusal>, b: ConversionBlock) {
    let range = |block: ConversionBlock| block.cc_phy_range.map(|range| (range.min.to_bits(), range.max.to_bits()));
    let a = a.unwrap();
    assert_eq!(range(a), range(b));
    assert_eq!(ConversionBlock { cc_phy_range: None, ..a }, ConversionBlock { cc_phy_range: None, ..b });
}

/// Parsed with the padding to this block, and without it to the same without.
fn parses_to(image: &[u8], address: u64, block: ConversionBlock) {
    same(ConversionBlock::parse_kept(image, address), block);
    same(ConversionBlock::parse(image, address), without_padding(block));
}

/// Writes with REFS and WORDS into so much room in the middle of a larger buffer. All but the block has to stay as it was.
fn write(block: ConversionBlock, room: usize) -> Result<Vec<u8>, Refusal> {
    let mut buffer = vec![FILL; room + 64];
    let written = block.write_words(&REFS, &WORDS, &mut buffer[32..32 + room]);
    let length = written.unwrap_or(0);
    let block = buffer[32..32 + length].to_vec();
    buffer[32..32 + length].fill(FILL);
    assert!(buffer.iter().all(|byte| *byte == FILL), "a byte outside the block has changed");
    written.map(|_| block)
}

/// Writes what was parsed at 0 of these bytes, with its references and values.
fn written_again(bytes: &[u8]) -> Vec<u8> {
    let refs: Vec<u64> = ConversionBlock::cc_ref(bytes, 0).unwrap().collect();
    let values: Vec<f64> = ConversionBlock::cc_val(bytes, 0).unwrap().collect();
    let mut out = vec![FILL; bytes.len() + 32];
    let length = ConversionBlock::parse_kept(bytes, 0).unwrap().write(&refs, &values, &mut out).unwrap();
    out.truncate(length);
    out
}

#[test]
fn a_new_block_has_none() {
    let block = ConversionBlock::new(ConversionType::Linear);
    assert_eq!((block.reserved, block.excess), (0, 0));
}

#[test]
fn what_was_written_is_parsed_and_written_again() {
    for (block, bytes) in each_padded() {
        for room in [bytes.len(), bytes.len() + 1, bytes.len() + 40] {
            assert_eq!(write(block, room).as_ref(), Ok(&bytes));
        }
        for room in [0, READ - 1, bytes.len() - 1] {
            assert_eq!(write(block, room), Err(Refusal::Room(None)));
        }
        parses_to(&bytes, 0, block);
        assert_eq!(written_again(&bytes), bytes);
        // Counts and block length of the record are not looked at.
        let other = ConversionBlock { block_len: 1, links_nr: 2, cc_val_count: 3, ..block };
        assert_eq!(write(other, bytes.len()), Ok(bytes));
    }
}

#[test]
fn the_excess_has_to_lie_in_the_image() {
    for (block, bytes) in each_padded() {
        let read = bytes.len() - block.excess as usize;
        let image = [&[FILL; 3], &bytes[..]].concat();
        parses_to(&image, 3, block);
        parses_to(&[&image[..], &[FILL]].concat(), 3, block);
        for end in (read..bytes.len()).take(20).chain((read..bytes.len()).rev().take(2)) {
            let image = &image[..3 + end];
            assert_eq!(ConversionBlock::parse_kept(image, 3), Err(Refusal::Short(3)));
            same(ConversionBlock::parse(image, 3), without_padding(block));
            assert_eq!(check(image, 3, 1), Ok(1));
            assert!(ConversionBlock::cc_val(image, 3).unwrap().map(f64::to_bits).eq(WORDS));
        }
        assert_eq!(ConversionBlock::parse_kept(&image[..3 + read - 1], 3), Err(Refusal::Short(3)));
        assert_eq!(ConversionBlock::parse(&image[..3 + read - 1], 3), Err(Refusal::Short(3)));
    }
}

#[test]
fn what_the_excess_bytes_hold_is_not_looked_at() {
    for (block, mut bytes) in each_padded() {
        let (zeros, read) = (bytes.clone(), bytes.len() - block.excess as usize);
        bytes[read..].fill(0xff);
        parses_to(&bytes, 0, block);
        assert_eq!(written_again(&bytes), zeros);
    }
}

#[test]
fn sixteen_bytes_without_a_range_are_refused() {
    for excess in [16, 17, 24, 4096, 1 << 32, 1 << 63, u64::MAX - READ as u64, u64::MAX - 15, u64::MAX] {
        for room in [0, READ, READ + 15, READ + 16, READ + 5000] {
            assert_eq!(write(padded(1, excess, false), room), Err(Refusal::Padding));
        }
    }
    // They would be read as one, and the values behind it.
    for more in 0..20 {
        let mut bytes = bytes_of(&padded(0x04030201, 15, false));
        bytes.resize(READ + 16 + more, 0);
        bytes[8] = (READ + 16 + more) as u8;
        let [min, max] = WORDS.map(f64::from_bits);
        let block = padded(0x04030201, more as u64, true);
        parses_to(&bytes, 0, ConversionBlock { cc_phy_range: Some(PhysicalRange { min, max }), ..block });
        assert!(ConversionBlock::cc_val(&bytes, 0).unwrap().map(f64::to_bits).eq([0, 0]));
        assert_eq!(written_again(&bytes), bytes);
    }
}

#[test]
fn an_excess_that_no_room_holds() {
    let size = READ as u64 + 16;
    for excess in [u64::MAX, u64::MAX - 15, 0u64.wrapping_sub(size), 1u64.wrapping_sub(size), 1 << 63, (1 << 32) - size, 1 << 32, (1 << 32) + 1] {
        for room in [0, READ, READ + 16, READ + 17, READ + 5000] {
            assert_eq!(write(padded(1, excess, true), room), Err(Refusal::Room(None)));
        }
    }
}

#[test]
fn count_comes_before_padding_and_padding_before_room() {
    let linear = ConversionBlock { reserved: 1, excess: 16, ..ConversionBlock::new(ConversionType::Linear) };
    let (most, too_many) = (vec![0; 65535], vec![0; 65536]);
    let mut out = vec![FILL; 64 + 8 * 65536 + 16];
    for room in [0, out.len()] {
        assert_eq!(linear.write_words(&[], &too_many, &mut out[..room]), Err(Refusal::Count));
        assert_eq!(linear.write_words(&[], &most, &mut out[..room]), Err(Refusal::Padding));
        assert_eq!(linear.write(&[], &[0.0; 65536], &mut out[..room]), Err(Refusal::Count));
        assert_eq!(linear.write(&[], &[0.0; 65535], &mut out[..room]), Err(Refusal::Padding));
    }
    let below = ConversionBlock { excess: 15, ..linear };
    assert_eq!(below.write_words(&[], &too_many, &mut out), Err(Refusal::Count));
    assert_eq!(below.write_words(&[], &most, &mut out[..64 + 8 * 65535 + 14]), Err(Refusal::Room(None)));
    assert!(out.iter().all(|byte| *byte == FILL));
    assert_eq!(below.write_words(&[], &most, &mut out), Ok(64 + 8 * 65535 + 15));
    assert_eq!(out[64 + 8 * 65535..], [[0; 15].as_slice(), &[FILL; 9]].concat());
}

#[test]
fn a_block_length_below_the_bytes_read() {
    for (length, reserved) in [0, 1, 24, 63, 64, READ as u64 - 1].into_iter().flat_map(|length| RESERVED.map(|reserved| (length, reserved))) {
        let whole = bytes_of(&padded(reserved, 0, false));
        let mut bytes = whole.clone();
        bytes[8..16].copy_from_slice(&length.to_le_bytes());
        parses_to(&bytes, 0, ConversionBlock { block_len: length, ..padded(reserved, 0, false) });
        assert_eq!(written_again(&bytes), whole);
    }
}

#[test]
fn a_block_length_that_no_image_holds() {
    for address in [0, 1, 64] {
        let mut image = vec![FILL; address];
        image.extend(bytes_of(&padded(1, 0, true)));
        let (at, back) = (address as u64, 0u64.wrapping_sub(address as u64));
        for length in [u64::MAX, u64::MAX - 15, back.wrapping_sub(1), back.max(1 << 63), 1 << 63, (1 << 32) + READ as u64 + 16, READ as u64 + 17] {
            image[address + 8..][..8].copy_from_slice(&length.to_le_bytes());
            assert_eq!(ConversionBlock::parse_kept(&image, at), Err(Refusal::Short(at)));
            same(ConversionBlock::parse(&image, at), ConversionBlock { block_len: length, ..without_padding(padded(1, 0, true)) });
        }
    }
}

#[test]
fn what_parsing_refuses_comes_before_the_excess() {
    for length in [0, READ as u64 + 16, READ as u64 + 17, u64::MAX] {
        let mut bytes = bytes_of(&padded(u32::MAX, 0, true));
        bytes[8..16].copy_from_slice(&length.to_le_bytes());
        let refused = |bytes: &[u8], address, refusal| {
            assert_eq!(ConversionBlock::parse_kept(bytes, address), Err(refusal));
            assert_eq!(ConversionBlock::parse(bytes, address), Err(refusal));
        };
        for address in [bytes.len() as u64 - 23, bytes.len() as u64, 1 << 63, u64::MAX - 23, u64::MAX] {
            refused(&bytes, address, Refusal::Outside(address));
        }
        for links in 0..4 {
            bytes[16] = links;
            refused(&bytes, 0, Refusal::FewLinks(0));
        }
        bytes[23] = 0xff;
        refused(&bytes, 0, Refusal::Short(0));
        bytes[3] = b'D';
        refused(&bytes, 0, Refusal::NotConversion(0));
    }
}

/// Every conversion of the sample image comes back with its bytes, as it stands there and padded.
#[test]
fn the_conversions_of_the_sample() {
    let image = std::fs::read("../../samples/tractor.mdf").unwrap();
    let places: Vec<usize> = (0..image.len() - 4).filter(|place| image[*place..].starts_with(b"##CC")).collect();
    assert_eq!(places.len(), 26);
    for place in places {
        let block = match ConversionBlock::parse_kept(&image, place as u64) {
            Err(refusal) => {
                assert_eq!((place, refusal), (2856, Refusal::Short(2856)));
                continue;
            }
            Ok(block) => block,
        };
        assert_eq!((block.reserved, block.excess), (0, 0));
        assert_eq!(Ok(block), ConversionBlock::parse(&image, place as u64));
        let mut bytes = image[place..][..block.block_len as usize].to_vec();
        assert_eq!(written_again(&bytes), bytes);
        bytes[4..8].copy_from_slice(&[1, 2, 3, 4]);
        bytes.extend([0; 8]);
        bytes[8] += 8;
        assert_eq!(ConversionBlock::parse_kept(&bytes, 0).map(|block| (block.reserved, block.excess)), Ok((0x04030201, 8)));
        assert_eq!(written_again(&bytes), bytes);
    }
}

/// One value is rewritten: the block is as long as it was, and no other byte differs.
#[test]
fn one_value_is_rewritten() {
    for (block, bytes) in each_padded() {
        let at = bytes.len() - block.excess as usize - 8;
        let mut out = vec![FILL; bytes.len()];
        assert_eq!(block.write(&REFS, &[f64::from_bits(WORDS[0]), 2.1], &mut out), Ok(bytes.len()));
        assert_eq!((&out[..at], &out[at + 8..]), (&bytes[..at], &bytes[at + 8..]));
        assert_eq!(out[at..at + 8], 2.1f64.to_le_bytes());
    }
}

#[test]
fn padding_is_not_applied() {
    for length in [80, 81, 95] {
        let mut image = Image::new();
        let torque = image.block(1, &[], &[0.0, 0.125]);
        image.set_reserved(torque, u32::MAX);
        image.set_block_len(torque, length);
        for _ in 0..2 {
            assert_eq!(apply(&image.bytes, torque, 1, Value::from(-3i64), &mut []).unwrap().answer, Answer::Number(-0.375));
            image.bytes.resize(torque as usize + length as usize, 0xff);
        }
    }
}
