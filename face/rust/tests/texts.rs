//! Text blocks, ##TX and ##MD: read as a part of the image, and written.
#[allow(dead_code)]
mod image;

use image::Image;
use mdf_conversion::{apply, check, translate, Answer, ConversionBlock, Refusal, TextBlock, TextId, Value};

const FILL: u8 = 0xa5;
const IDS: [(TextId, &[u8; 4]); 2] = [(TextId::Tx, b"##TX"), (TextId::Md, b"##MD")];
const PLACES: [usize; 4] = [0, 1, 64, 4099];

/// The bytes of a block that is to be written: header with no links, text, one zero byte, zeros up to a multiple of 8, all in its block length.
fn bytes_of(id: &[u8; 4], text: &[u8]) -> Vec<u8> {
    let mut bytes = [id.as_slice(), &[0; 20], text, &[0]].concat();
    while bytes.len() % 8 != 0 {
        bytes.push(0);
    }
    let length = bytes.len() as u64;
    bytes[8..16].copy_from_slice(&length.to_le_bytes());
    bytes
}

/// Texts of 0 to 17 bytes and of 65,536. No byte is zero, and the long one has every other.
fn texts() -> impl Iterator<Item = Vec<u8>> {
    (0..=17).chain([65536]).map(|length| (0..length).map(|place| 255 - (place % 255) as u8).collect())
}

/// Each of these texts in a block of each id, and its bytes.
fn each_text(ask: impl Fn(TextBlock<'_>, &[u8])) {
    for text in texts() {
        for (id, word) in IDS {
            ask(TextBlock { id, text: &text }, &bytes_of(word, &text));
        }
    }
}

/// Writes into so much room in the middle of a larger buffer. All but the block has to stay as it was.
fn write(block: TextBlock<'_>, room: usize) -> Result<Vec<u8>, Refusal> {
    let mut buffer = vec![FILL; room + 64];
    let written = block.write(&mut buffer[32..32 + room]);
    let length = written.unwrap_or(0);
    let block = buffer[32..32 + length].to_vec();
    buffer[32..32 + length].fill(FILL);
    assert!(buffer.iter().all(|byte| *byte == FILL), "a byte outside the block has changed");
    written.map(|_| block)
}

/// A block that begins behind so many other bytes and ends with the image, with a text of 16 bytes, none of them zero.
fn image_of(place: usize, id: &[u8; 4]) -> Image {
    let mut image = Image { bytes: [&vec![0xff; place][..], id, &[0; 20], &[b'x'; 16]].concat() };
    image.set_block_len(place as u64, 40);
    image
}

#[test]
fn new_blocks() {
    assert_eq!(TextBlock::new("Gear"), TextBlock { id: TextId::Tx, text: b"Gear" });
    assert_eq!(TextBlock::new_empty(), TextBlock { id: TextId::Tx, text: b"" });
    assert_eq!((TextBlock::default(), TextId::default()), (TextBlock::new_empty(), TextId::Tx));
    assert_eq!(TextBlock::new(""), TextBlock::new_empty());
    assert_ne!(TextBlock { id: TextId::Md, text: b"Gear" }, TextBlock::new("Gear"));
}

#[test]
fn a_block_byte_by_byte() {
    let gear = b"##TX\0\0\0\0\x20\0\0\0\0\0\0\0\0\0\0\0\0\0\0\0Gear\0\0\0\0";
    assert_eq!(write(TextBlock::new("Gear"), 64), Ok(gear.to_vec()));
    for (length, size) in [(0, 32), (1, 32), (6, 32), (7, 32), (8, 40), (15, 40), (16, 48), (65535, 65560), (65536, 65568)] {
        let mut out = vec![0; size];
        assert_eq!(TextBlock::new(&"x".repeat(length)).write(&mut out), Ok(size));
        assert_eq!(out[8..16], (size as u64).to_le_bytes());
    }
}

#[test]
fn what_was_written_is_read_at_every_place() {
    each_text(|block, bytes| {
        for (place, behind) in PLACES.into_iter().flat_map(|place| [0, 1, 23, 100].map(|behind| (place, behind))) {
            let mut image = vec![FILL; place + bytes.len() + behind];
            assert_eq!(block.write(&mut image[place..]), Ok(bytes.len()));
            assert_eq!(image, [&vec![FILL; place][..], bytes, &vec![FILL; behind]].concat());
            let read = TextBlock::read(&image, place as u64).unwrap();
            assert_eq!(read, block);
            // The text is no copy.
            assert!(core::ptr::eq(read.text, &image[place + 24..][..block.text.len()]));
        }
    });
}

#[test]
fn a_block_that_has_no_room() {
    each_text(|block, bytes| {
        for room in [bytes.len(), bytes.len() + 1, bytes.len() + 40] {
            assert_eq!(write(block, room).as_deref(), Ok(bytes));
        }
        for room in [0, 1, 24, block.text.len(), 24 + block.text.len(), bytes.len() - 1] {
            assert_eq!(write(block, room), Err(Refusal::Room(None)));
        }
    });
}

#[test]
fn a_zero_byte_comes_before_room() {
    each_text(|block, bytes| {
        let length = block.text.len();
        // Every place of a short text; of the long one its first, its last, which is three times 21,845, and two more.
        for place in (0..length).step_by(if length < 100 { 1 } else { 21845 }) {
            let mut text = block.text.to_vec();
            text[place] = 0;
            for room in [0, 24 + length, bytes.len() - 1, bytes.len(), bytes.len() + 40] {
                assert_eq!(write(TextBlock { text: &text, ..block }, room), Err(Refusal::ZeroByte));
            }
        }
    });
    assert_eq!(write(TextBlock::new("\0"), 64), Err(Refusal::ZeroByte));
    assert_eq!(write(TextBlock::new("Gear\0"), 64), Err(Refusal::ZeroByte));
}

#[test]
fn a_text_ends_at_a_zero_or_at_the_block_length() {
    for (place, (id, word)) in PLACES.into_iter().flat_map(|place| IDS.map(|id| (place, id))) {
        let mut image = image_of(place, word);
        let at = place as u64;
        for zero in 0..=16 {
            image.bytes[place + 24..].fill(b'x');
            image.bytes[place + 24..].iter_mut().skip(zero).take(1).for_each(|byte| *byte = 0);
            for run in 0..=16 {
                image.set_block_len(at, 24 + run as u64);
                assert_eq!(TextBlock::read(&image.bytes, at), Ok(TextBlock { id, text: &b"xxxxxxxxxxxxxxxx"[..zero.min(run)] }));
            }
        }
        // One byte past the image end, and with that byte.
        image.set_block_len(at, 41);
        assert_eq!(TextBlock::read(&image.bytes, at), Err(Refusal::Short(at)));
        image.bytes.push(b'y');
        assert_eq!(TextBlock::read(&image.bytes, at), Ok(TextBlock { id, text: b"xxxxxxxxxxxxxxxxy" }));
    }
}

#[test]
fn a_block_length_that_is_too_small_or_too_large() {
    for (place, (_, word)) in PLACES.into_iter().flat_map(|place| IDS.map(|id| (place, id))) {
        let (mut image, at) = (image_of(place, word), place as u64);
        // 2^64 less the address leads back to byte 0, and a little more into the block.
        let back = 0u64.wrapping_sub(at);
        let more = if place < 64 { u64::MAX } else { back + 24 };
        for length in [0, 1, 22, 23, 41, 42, 65536 + 24, (1 << 32) + 24, (1 << 63) - 1, 1 << 63, (1 << 63) + 24, back, more, u64::MAX - 24, u64::MAX]
        {
            image.set_block_len(at, length);
            assert_eq!(TextBlock::read(&image.bytes, at), Err(Refusal::Short(at)));
            let mut zero_first = image.bytes.clone();
            zero_first[place + 24] = 0;
            assert_eq!(TextBlock::read(&zero_first, at), Err(Refusal::Short(at)));
        }
    }
}

#[test]
fn an_address_outside_the_image() {
    for (place, (id, word)) in PLACES.into_iter().flat_map(|place| IDS.map(|id| (place, id))) {
        let mut image = image_of(place, word);
        image.bytes.truncate(place + 24);
        image.set_block_len(place as u64, 24);
        let end = image.bytes.len() as u64;
        assert_eq!(TextBlock::read(&image.bytes, end - 24), Ok(TextBlock { id, text: b"" }));
        let outside = (0..24).flat_map(|near| [end - near, end + near, u64::MAX - near, (1 << 63) - near]);
        for address in outside.chain([end - 24 + (1 << 32)]) {
            assert_eq!(TextBlock::read(&image.bytes, address), Err(Refusal::Outside(address)));
        }
        for bytes in 0..24 {
            assert_eq!(TextBlock::read(&image.bytes[..place + bytes], place as u64), Err(Refusal::Outside(place as u64)));
        }
    }
    assert_eq!(TextBlock::read(&[], 0), Err(Refusal::Outside(0)));
}

#[test]
fn another_id_comes_before_the_block_length() {
    let changed = |word: &[u8; 4], bit: usize| {
        let mut other = *word;
        other[bit / 8] ^= 1 << (bit % 8);
        other
    };
    let others = [b"##CC", b"##TY", b"##MC", b"##TD", b"##MX", b"##SI", b"##tx", b"##md", b"##Tx", b"#TX#", b"TX##", b"\0\0\0\0"].map(|word| *word);
    let flipped = IDS.into_iter().flat_map(|(_, word)| (0..32).map(move |bit| changed(word, bit)));
    for word in others.into_iter().chain(flipped) {
        for place in PLACES {
            let (mut image, at) = (image_of(place, &word), place as u64);
            for length in [0, 23, 24, 40, 41, u64::MAX] {
                image.set_block_len(at, length);
                assert_eq!(TextBlock::read(&image.bytes, at), Err(Refusal::NotTextBlock(at)));
            }
            assert_eq!(TextBlock::read(&image.bytes[..place + 23], at), Err(Refusal::Outside(at)));
        }
    }
}

#[test]
fn what_is_not_looked_at() {
    for (place, (id, word)) in PLACES.into_iter().flat_map(|place| IDS.map(|id| (place, id))) {
        let (mut image, at) = (image_of(place, word), place as u64);
        image.bytes[place + 24 + 5] = 0;
        for (links, reserved) in
            [0, 1, 4, 255, 1 << 63, u64::MAX].into_iter().flat_map(|links| [0, 1, 0x04030201, u32::MAX].map(|bytes| (links, bytes)))
        {
            image.set_link_count(at, links);
            image.set_reserved(at, reserved);
            assert_eq!(TextBlock::read(&image.bytes, at), Ok(TextBlock { id, text: b"xxxxx" }));
        }
        for byte in 0..=u8::MAX {
            image.bytes[place + 24 + 6..].fill(byte);
            assert_eq!(TextBlock::read(&image.bytes, at), Ok(TextBlock { id, text: b"xxxxx" }));
        }
    }
}

/// What a text to text and a value to text of one reference each give, and what the first shows.
fn taken(image: &Image, to_text: u64, by_number: u64) -> [Option<Vec<u8>>; 3] {
    let apply = |address, value| {
        let mut out = [FILL; 64];
        let applied = apply(&image.bytes, address, 1, value, &mut out).unwrap();
        let text = applied.text(&out).map(<[u8]>::to_vec);
        assert!(text.is_some() || applied.answer == Answer::Unchanged);
        text
    };
    let shown = translate(&image.bytes, to_text, 1, b"question");
    [apply(to_text, Value::Text(b"question")), apply(by_number, Value::from(1u64)), (shown != b"question").then(|| shown.to_vec())]
}

#[test]
fn a_conversion_takes_what_is_read_of_a_tx_and_nothing_else() {
    let words = b"oil pressure low";
    for (length, more) in (0..=16).flat_map(|length| [0, 1, 7].map(|more| (length, more))) {
        let mut image = Image::new();
        let below = image.bytes.len() as u64 + 144;
        let (to_text, by_number) = (image.block(10, &[below], &[]), image.block(7, &[below], &[]));
        image.bytes.extend([b"##TX".as_slice(), &[0; 20], &words[..length], &vec![0; more]].concat());
        image.set_block_len(below, (24 + length + more) as u64);
        let text = &words[..length];
        assert_eq!(TextBlock::read(&image.bytes, below), Ok(TextBlock { id: TextId::Tx, text }));
        assert_eq!(taken(&image, to_text, by_number), [(); 3].map(|()| Some(text.to_vec())));

        // The same block as metadata.
        image.bytes[below as usize + 2..][..2].copy_from_slice(b"MD");
        assert_eq!(TextBlock::read(&image.bytes, below), Ok(TextBlock { id: TextId::Md, text }));
        assert_eq!(taken(&image, to_text, by_number), [None, None, None]);

        // And as a text that is refused.
        image.bytes[below as usize + 2..][..2].copy_from_slice(b"TX");
        for bad in [23, (24 + length + more + 1) as u64, u64::MAX] {
            image.set_block_len(below, bad);
            assert_eq!(TextBlock::read(&image.bytes, below), Err(Refusal::Short(below)));
            assert_eq!(taken(&image, to_text, by_number), [None, None, None]);
        }
    }
}

#[test]
fn address_0_is_read_and_no_link_leads_there() {
    let mut image = Image { bytes: bytes_of(b"##TX", b"Torque") };
    let (to_text, by_number) = (image.block(10, &[0], &[]), image.block(7, &[0], &[]));
    assert_eq!(TextBlock::read(&image.bytes, 0), Ok(TextBlock::new("Torque")));
    assert_eq!(taken(&image, to_text, by_number), [None, None, None]);
}

/// Every text of the sample image is written again to its bytes.
#[test]
fn the_texts_of_the_sample() {
    let image = std::fs::read("../../samples/tractor.mdf").unwrap();
    let (mut place, mut seen) = (64, [0, 0]);
    while place < image.len() {
        let length = u64::from_le_bytes(image[place + 8..][..8].try_into().unwrap()) as usize;
        match TextBlock::read(&image, place as u64) {
            Ok(block) => {
                assert_eq!(write(block, length).as_deref(), Ok(&image[place..][..length]));
                seen[block.id as usize] += 1;
            }
            Err(refusal) => {
                assert_eq!((refusal, &image[place..][..4]), (Refusal::NotTextBlock(place as u64), b"##CC".as_slice()));
            }
        }
        place += length;
    }
    assert_eq!((place, seen), (image.len(), [49, 1]));
}

/// A name is added behind the end of an image, and the conversion that leads to it.
#[test]
fn a_name_is_added() {
    let mut image = std::fs::read("../../samples/tractor.mdf").unwrap();
    for (id, name) in [(TextId::Tx, "Gang"), (TextId::Md, "<TX>Gang</TX>")] {
        let mut out = [FILL; 128];
        let named = image.len() as u64;
        let length = TextBlock { id, text: name.as_bytes() }.write(&mut out).unwrap();
        image.extend(&out[..length]);
        // Gear, the first of the bit groups at 2488, stands at 1664.
        let gear = image.len() as u64;
        let block = ConversionBlock { cc_tx_name: Some(named), ..ConversionBlock::parse(&image, 1664).unwrap() };
        let refs: Vec<u64> = ConversionBlock::cc_ref(&image, 1664).unwrap().collect();
        let values: Vec<f64> = ConversionBlock::cc_val(&image, 1664).unwrap().collect();
        let length = block.write(&refs, &values, &mut out).unwrap();
        image.extend(&out[..length]);
        let groups = image.len() as u64;
        let length = ConversionBlock::parse(&image, 2488).unwrap().write_words(&[gear, 1456], &[3, 12], &mut out).unwrap();
        image.extend(&out[..length]);
        let read = TextBlock::read(&image, ConversionBlock::parse(&image, gear).unwrap().cc_tx_name.unwrap()).unwrap();
        assert_eq!((read.id, read.text), (id, name.as_bytes()));
        assert_eq!(check(&image, groups, 2), Ok(2));
        let applied = apply(&image, groups, 2, Value::from(6u64), &mut out).unwrap();
        let shown = if id == TextId::Tx { "Gang = Low|PTO" } else { "Low|PTO" };
        assert_eq!(applied.text(&out), Some(shown.as_bytes()));
    }
}
