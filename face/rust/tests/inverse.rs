//! Value to text turned into text to value: the block that is built, what it gives for a text, and refusals 12 to 15.
#[allow(dead_code)]
mod image;

use image::Image;
use mdf_conversion::{apply, check, Answer, Applied, ConversionBlock, ConversionType, Refusal, Value, Visits};

const FILL: u8 = 0xa5;
const NANS: [u64; 6] = [0x7ff0000000000001, 0x7ff8000000000000, 0x7fffffffffffffff, 0xfff0000000000001, 0xfff8000000000000, u64::MAX];
const GEARS: [&[u8]; 6] = [b"Low", b"Lo", b"High", b"Low|PTO", b"low", "°".as_bytes()];

/// Inverts into so much room in the middle of a larger buffer. All but the block has to stay as it was.
fn invert(image: &Image, address: u64, room: usize) -> Result<Vec<u8>, Refusal> {
    let mut buffer = vec![FILL; room + 64];
    let inverted = ConversionBlock::invert(&image.bytes, address, &mut buffer[32..32 + room]);
    let length = inverted.unwrap_or(0);
    let block = buffer[32..32 + length].to_vec();
    buffer[32..32 + length].fill(FILL);
    assert!(buffer.iter().all(|byte| *byte == FILL), "a byte outside the block has changed");
    inverted.map(|_| block)
}

/// The bytes of the block that is to be built: the rest of the fixed links is 0, and so are precision and flags.
fn bytes_of(name: u64, refs: &[u64], words: &[u64]) -> Vec<u8> {
    let keys = words.len() as u64;
    let mut bytes = b"##CC\0\0\0\0".to_vec();
    bytes.extend([64 + 16 * keys, 4 + keys, name, 0, 0, 0].map(u64::to_le_bytes).concat());
    bytes.extend(refs.iter().flat_map(|link| link.to_le_bytes()));
    bytes.extend([9, 0, 0, 0]);
    bytes.extend([keys as u16, keys as u16].map(u16::to_le_bytes).concat());
    bytes.extend(words.iter().flat_map(|word| word.to_le_bytes()));
    bytes
}

/// Refused alike with every room.
fn is_refused(image: &Image, address: u64, refusal: Refusal) {
    for room in [0, 63, 64, 80, 1024] {
        assert_eq!(invert(image, address, room), Err(refusal));
    }
}

/// What the block behind the image gives for a text, with every limit but 0.
fn answer(image: &[u8], address: u64, text: &[u8]) -> Answer {
    let applied = |limit| apply(image, address, limit, Value::Text(text), &mut []);
    let Ok(Applied { answer, visits, malformed: false }) = applied(1) else { panic!("refused, or of a malformed table") };
    assert_eq!((visits, applied(0)), (Visits { checked: 1, applied: 1 }, Err(Refusal::Limit(address))));
    assert_eq!(format!("{:?}", applied(4096)), format!("{:?}", applied(1)));
    assert_eq!(format!("{:?}", applied(u32::MAX)), format!("{:?}", applied(1)));
    answer
}

/// Sets the inverse behind the image. Each key's text gives the key's 64 bits, and no other text gives a number.
fn turns_back(image: &Image, address: u64, texts: &[&[u8]], words: &[u64]) {
    let place = image.bytes.len() as u64;
    let bytes = [&image.bytes[..], &invert(image, address, 64 + 16 * words.len()).unwrap()].concat();
    assert_eq!(check(&bytes, place, 1), Ok(1));
    for (text, word) in texts.iter().zip(words) {
        assert!(matches!(answer(&bytes, place, text), Answer::Number(x) if x.to_bits() == *word), "{text:?}");
        assert_eq!(answer(&bytes, place, &[text, b"!".as_slice()].concat()), Answer::Unknown);
        assert_eq!(answer(&bytes, place, &[b"!", *text].concat()), Answer::Unknown);
    }
    assert_eq!(answer(&bytes, place, b""), Answer::Unknown);
}

fn words(values: &[f64]) -> Vec<u64> {
    values.iter().map(|value| value.to_bits()).collect()
}

#[test]
fn blocks_byte_by_byte() {
    let values = [2.0, 0.0, -1.0, f64::INFINITY, 5e-324, f64::MAX];
    for keys in 0..=GEARS.len() {
        for more in 0..3 {
            let mut image = Image::new();
            let name = image.text(b"Gear");
            let mut refs: Vec<u64> = GEARS[..keys].iter().map(|text| image.text(text)).collect();
            refs.extend(vec![image.text(b"default"); more]);
            let words = words(&values[..keys]);
            let block = image.named(7, name, &refs, &words);
            let wanted = bytes_of(name, &refs[..keys], &words);
            for room in [wanted.len(), wanted.len() + 1, wanted.len() + 40] {
                assert_eq!(invert(&image, block, room).as_ref(), Ok(&wanted));
            }
            for room in [0, 63, wanted.len() - 1] {
                assert_eq!(invert(&image, block, room), Err(Refusal::Room(None)));
            }
            turns_back(&image, block, &GEARS[..keys], &words);
        }
    }
}

/// The sign of a zero, and neighbours, which are not equal.
#[test]
fn every_key_keeps_its_bits() {
    for words in [[1u64 << 63, 1, (1 << 63) + 1], [0, 1, (1 << 63) + 1], [0x3ff0000000000000, 0x3ff0000000000001, 0xbff0000000000000]] {
        let mut image = Image::new();
        let refs: Vec<u64> = GEARS[..3].iter().map(|text| image.text(text)).collect();
        let block = image.named(7, 0, &refs, &words);
        assert_eq!(invert(&image, block, 200), Ok(bytes_of(0, &refs, &words)));
        turns_back(&image, block, &GEARS[..3], &words);
    }
}

#[test]
fn what_is_taken_over() {
    let mut image = Image::new();
    let refs = [image.text(b"Low"), image.text(b"High"), image.text(b"default")];
    let (name, unit, comment, inverse) = (image.text(b"Gear"), image.text(b"-"), image.metadata(b"<x/>"), image.block(1, &[], &[0.0, 1.0]));
    let address = image.bytes.len() as u64;
    let old = ConversionBlock {
        cc_tx_name: Some(name),
        cc_md_unit: Some(unit),
        cc_md_comment: Some(comment),
        cc_cc_inverse: Some(inverse),
        cc_precision: 3,
        cc_flags: 0x4142,
        cc_ref_count: 0x5152,
        cc_phy_range: Some(mdf_conversion::PhysicalRange { min: -1.5, max: 8.0 }),
        reserved: 0x04030201,
        excess: 24,
        ..ConversionBlock::new(ConversionType::ValueToText)
    };
    let mut out = [0; 256];
    let length = old.write(&refs, &[1.0, 2.0], &mut out).unwrap();
    image.bytes.extend(&out[..length]);
    let block = invert(&image, address, 96).unwrap();
    let wanted = ConversionBlock {
        block_len: 96,
        links_nr: 6,
        cc_cc_inverse: None,
        cc_type: ConversionType::TextToValue,
        cc_ref_count: 2,
        cc_val_count: 2,
        cc_phy_range: None,
        reserved: 0,
        excess: 0,
        ..old
    };
    assert_eq!(ConversionBlock::parse_kept(&block, 0), Ok(wanted));
    assert_eq!(ConversionBlock::cc_ref(&block, 0).unwrap().collect::<Vec<_>>(), refs[..2]);
    assert_eq!(ConversionBlock::cc_val(&block, 0).unwrap().collect::<Vec<_>>(), [1.0, 2.0]);
    turns_back(&image, address, &[b"Low", b"High"], &words(&[1.0, 2.0]));
}

/// Each refusal of parsing, then 15 for every other type, before all faults of the keys.
#[test]
fn a_block_that_is_refused() {
    let mut image = Image::new();
    let text = image.text(b"Low");
    let block = image.block(7, &[0], &[f64::NAN]);
    is_refused(&image, block, Refusal::Key(0));
    for kind in (0..=u8::MAX).filter(|kind| *kind != 7) {
        image.bytes[block as usize + 64] = kind;
        is_refused(&image, block, Refusal::WrongType(block));
    }
    for kind in [1, 7] {
        image.bytes[block as usize + 64] = kind;
        for links in 0..4 {
            image.set_link_count(block, links);
            is_refused(&image, block, Refusal::FewLinks(block));
        }
        for links in [7, 65541, 1 << 32, (1 << 61) + 5, u64::MAX] {
            image.set_link_count(block, links);
            is_refused(&image, block, Refusal::Short(block));
        }
        image.set_link_count(block, 5);
        let last = image.bytes.pop().unwrap();
        is_refused(&image, block, Refusal::Short(block));
        image.bytes.push(last);
    }
    let end = image.bytes.len() as u64;
    for address in (0..24).flat_map(|near| [end - near, end + near, u64::MAX - near]) {
        is_refused(&image, address, Refusal::Outside(address));
    }
    is_refused(&image, text, Refusal::NotConversion(text));
    is_refused(&Image { bytes: Vec::new() }, 0, Refusal::Outside(0));
}

/// Two keys with sound texts, and between them one with a reference that may be none.
fn at_the_second(image: &mut Image, link: u64, key: u64) -> u64 {
    let (first, last) = (image.text(b"first"), image.text(b"last"));
    image.named(7, 0, &[first, link, last], &[0f64.to_bits(), key, 1f64.to_bits()])
}

#[test]
fn a_key_without_a_text() {
    let mut image = Image::new();
    let (conversion, metadata, empty, other) = (image.block(7, &[], &[]), image.metadata(b"metadata"), image.text(b""), image.text(b"other"));
    image.bytes[other as usize + 3] = b'Y';
    let with_length = |image: &mut Image, length| {
        let text = image.text(b"a length of its own");
        image.set_block_len(text, length);
        text
    };
    let lengths = [0, 23, 24, 1 << 63, u64::MAX].map(|length| with_length(&mut image, length));
    for link in [0, 1, conversion, metadata, empty, other, u64::MAX].into_iter().chain(lengths) {
        // Of a key that is one of its own, of one that is repeated, and of a NaN, which comes before.
        for (key, refusal) in
            [5f64.to_bits(), 1 << 63].map(|key| (key, Refusal::NotText(1))).into_iter().chain(NANS.map(|nan| (nan, Refusal::Key(1))))
        {
            let block = at_the_second(&mut image, link, key);
            is_refused(&image, block, refusal);
        }
    }
    // A text that the image cuts off, by one byte.
    let cut = image.bytes.len() as u64 + 2 * 32 + 112;
    let block = at_the_second(&mut image, cut, 5f64.to_bits());
    assert_eq!(image.text(b"cut"), cut);
    turns_back(&image, block, &[b"first", b"cut", b"last"], &words(&[0.0, 5.0, 1.0]));
    image.bytes.pop();
    is_refused(&image, block, Refusal::NotText(1));
    // Two references and three keys, whatever the reference count field says.
    let refs = [image.text(b"a"), image.text(b"b")];
    let block = image.block(7, &refs, &[1.0, 2.0, 3.0]);
    image.bytes[block as usize + 76] = 3;
    is_refused(&image, block, Refusal::NotText(2));
    // A text at address 0, where no link leads.
    let mut image = Image { bytes: b"##TX\0\0\0\0\x20\0\0\0\0\0\0\0\0\0\0\0\0\0\0\0Low\0\0\0\0\0".to_vec() };
    let block = image.block(7, &[0], &[1.0]);
    is_refused(&image, block, Refusal::NotText(0));
}

#[test]
fn a_key_that_is_repeated() {
    for (first, second) in (0..6).flat_map(|first| (first + 1..6).map(move |second| (first, second))) {
        for (one, other) in [(0.0, 0.0), (0.0, -0.0), (-0.0, 0.0), (7.0, 7.0), (f64::INFINITY, f64::INFINITY)] {
            let mut image = Image::new();
            let refs: Vec<u64> = GEARS.iter().map(|text| image.text(text)).collect();
            let mut values = [10.0, 11.0, 12.0, 13.0, 14.0, 15.0];
            (values[first], values[second]) = (one, other);
            let block = image.block(7, &refs, &values);
            is_refused(&image, block, Refusal::Repeated(second as u32));
        }
    }
}

#[test]
fn a_text_that_is_repeated() {
    for (first, second) in (0..6).flat_map(|first| (first + 1..6).map(move |second| (first, second))) {
        let mut image = Image::new();
        let mut refs: Vec<u64> = GEARS.iter().map(|text| image.text(text)).collect();
        let again = image.text(GEARS[first]);
        // One that ends with its block, and has no zero.
        let to_the_end = image.text(GEARS[first]);
        image.set_block_len(to_the_end, 24 + GEARS[first].len() as u64);
        for same in [refs[first], again, to_the_end] {
            refs[second] = same;
            let block = image.block(7, &refs, &[10.0, 11.0, 12.0, 13.0, 14.0, 15.0]);
            is_refused(&image, block, Refusal::Repeated(second as u32));
        }
        // At one key 14 comes first, then 12, then 13.
        let mut values = [10.0, 11.0, 12.0, 13.0, 14.0, 15.0];
        values[second] = f64::NAN;
        let block = image.block(7, &refs, &values);
        is_refused(&image, block, Refusal::Key(second as u32));
        values[second] = values[first];
        refs[second] = 0;
        let block = image.block(7, &refs, &values);
        is_refused(&image, block, Refusal::NotText(second as u32));
    }
}

/// A fault at the second key of every kind, and one at the fourth of every kind: the first is named.
#[test]
fn the_first_of_two_faults() {
    for (second, fourth) in (0..4).flat_map(|second| (0..4).map(move |fourth| (second, fourth))) {
        let mut image = Image::new();
        let mut refs: Vec<u64> = GEARS[..5].iter().map(|text| image.text(text)).collect();
        let again = image.text(GEARS[0]);
        let mut values = [0.0, 11.0, 12.0, 13.0, 14.0];
        let mut damage = |index: usize, kind: i32| match kind {
            0 => values[index] = f64::NAN,
            1 => refs[index] = u64::MAX,
            2 => refs[index] = again,
            _ => values[index] = -0.0,
        };
        damage(1, second);
        damage(3, fourth);
        let block = image.block(7, &refs, &values);
        is_refused(&image, block, [Refusal::Key(1), Refusal::NotText(1), Refusal::Repeated(1), Refusal::Repeated(1)][second as usize]);
    }
}

/// 700 keys, of which two at any places are equal, or their texts, or none.
#[test]
fn many_keys() {
    let mut image = Image::new();
    let texts: Vec<Vec<u8>> = (0..700).map(|i| format!("{}{i}", "x".repeat(40)).into_bytes()).collect();
    let refs: Vec<u64> = texts.iter().map(|text| image.text(text)).collect();
    let values: Vec<u64> = words(&(0..700).map(f64::from).collect::<Vec<_>>());
    let sound = image.named(7, 0, &refs, &values);
    assert_eq!(invert(&image, sound, 64 + 16 * 700), Ok(bytes_of(0, &refs, &values)));
    turns_back(&image, sound, &texts.iter().map(Vec::as_slice).collect::<Vec<_>>(), &values);
    let end = image.bytes.len();
    for (first, second) in [(0, 1), (0, 254), (0, 255), (254, 255), (0, 256), (255, 509), (255, 510), (0, 699), (254, 698), (509, 510), (698, 699)] {
        let mut again = refs.clone();
        again[second] = image.text(&texts[first]);
        let block = image.named(7, 0, &again, &values);
        is_refused(&image, block, Refusal::Repeated(second as u32));
        let mut again = values.clone();
        again[second] = values[first];
        let block = image.named(7, 0, &refs, &again);
        is_refused(&image, block, Refusal::Repeated(second as u32));
        image.bytes.truncate(end);
    }
}

/// The value to text conversions of the sample, each with what it says.
#[test]
fn the_sample() {
    let image = Image { bytes: std::fs::read("../../samples/tractor.mdf").unwrap() };
    for (address, text, number) in [(1664, "Low", 2.0), (4048, "floating", 3.0), (4128, "open", 12.0), (4208, "overload", 48f64)] {
        turns_back(&image, address, &[text.as_bytes()], &[number.to_bits()]);
    }
    is_refused(&image, 3424, Refusal::NotText(0));
    is_refused(&image, 3504, Refusal::NotText(0));
    is_refused(&image, 2280, Refusal::WrongType(2280));
    is_refused(&image, 2856, Refusal::Short(2856));
}
