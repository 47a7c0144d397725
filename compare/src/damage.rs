// Damages an image: cut off, looping, deep, with huge counts, with few links, with broken ids, texts and links, with padding; and addresses that hold
// no block. Makes images with one text block, whole or damaged.
use crate::numbers;
use crate::plan::Laid;
use crate::random::Random;
use crate::scene::WIDE_LIMIT;
use crate::second::RIGHT;
use crate::side::Side;

#[rustfmt::skip]
const ODD_WORDS: &[u64] = &[
    0, 1, 2, 3, 4, 5, 6, 23, 24, 25, 65_536, 1 << 32, 1 << 60, (1 << 61) - 1, 1 << 61, (1 << 61) + 4, (1 << 61) + 5, (1 << 61) + 6,
    1 << 62, 1 << 63, u64::MAX - 23, u64::MAX,
];

fn put(image: &mut [u8], at: usize, bytes: &[u8]) {
    if let Some(end) = at.checked_add(bytes.len()).filter(|&e| e <= image.len()) {
        image[at..end].copy_from_slice(bytes);
    }
}

fn word(image: &[u8], at: usize) -> u64 {
    image.get(at..at + 8).map_or(0, |b| u64::from_le_bytes(b.try_into().unwrap()))
}

/// Where the fields behind the links stand, as the header says.
fn fields_at(image: &[u8], block: usize) -> usize {
    let links = word(image, block + 16).clamp(4, 100_000) as usize;
    block + 24 + 8 * links
}

/// One thing done to a block or to a part of the image.
pub fn damage(laid: &mut Laid, root: u64, r: &mut Random) {
    if laid.image.is_empty() {
        return;
    }
    let block = r.pick(&laid.places) as usize;
    let image = &mut laid.image;
    let fields = fields_at(image, block);
    match r.below(14) {
        0 => cut(image, &laid.places, r),
        1 => put(image, block + 16, &r.pick(ODD_WORDS).to_le_bytes()),
        2 => put(image, block + 8, &r.pick(ODD_WORDS).to_le_bytes()),
        3 => {
            let length = word(image, block + 8).wrapping_add(r.pick(&[1, 8, 16, u64::MAX, u64::MAX - 7]));
            put(image, block + 8, &length.to_le_bytes());
        }
        4 | 5 => relink(image, &laid.places, block, root, r),
        6 => put(image, fields, &[r.pick(&[3, 3, 7, 8, 10, 11, 12])]),
        7 => {
            let count = r.pick(&[0, 1, 2, 3, 4, 255, 32_768, 65_535]) as u16;
            put(image, fields + 6, &count.to_le_bytes());
        }
        8 => put(image, block, &r.pick(&[*b"##CC", *b"##TX", *b"##MD", *b"\xff#TX", *b"##CB"])),
        9 => put(image, block + 24, &[0, b'x', 0xff, 0xc3][..1 + r.below(4)]),
        10 => put(image, block + 4 + r.below(4), &[1]),
        _ => {
            let at = r.below(image.len());
            image[at] = if r.chance(50) { image[at] ^ (1 << r.below(8)) } else { r.next() as u8 };
        }
    }
}

/// Sets the link count of a block to 0 to 5. Often that is the block at which the walk is refused already, so that blocks with few links are short
/// and too deep as well; else it is the root, or any other conversion.
pub fn few_links(laid: &mut Laid, root: u64, r: &mut Random) {
    let checked = RIGHT.check(&laid.image, root, WIDE_LIMIT);
    let is_conversion = |at: u64| laid.image.get(at as usize..).is_some_and(|bytes| bytes.starts_with(b"##CC"));
    let others: Vec<u64> = laid.places.iter().copied().filter(|&at| at != root && is_conversion(at)).collect();
    let block = match r.below(10) {
        0..=6 if checked.refusal != 0 => checked.address,
        0..=6 if !others.is_empty() => r.pick(&others),
        _ => root,
    };
    put(&mut laid.image, (block as usize).saturating_add(16), &(r.below(6) as u64).to_le_bytes());
}

/// Gives the root, or at times another block, reserved bytes or another block length.
pub fn padding(laid: &mut Laid, root: u64, r: &mut Random) {
    let block = if r.chance(85) { root } else { r.pick(&laid.places) };
    let at = usize::try_from(block).ok().filter(|&at| at < laid.image.len());
    let Some(at) = at else { return };
    if r.chance(40) {
        put(&mut laid.image, at + 4, &numbers::reserved(r).to_le_bytes());
    }
    if r.chance(80) {
        let behind = if r.chance(30) { r.below(50) } else { 0 };
        laid.image.resize(laid.image.len() + behind, 0);
        let length = padded_length(&laid.image, block, r);
        put(&mut laid.image, at + 8, &length.to_le_bytes());
        if r.chance(30) {
            clear_excess(&mut laid.image, block);
        }
    }
}

/// A block length: close to what is read, or one by which the block ends with the image, close to its end, or where its end fits no 64 bits.
fn padded_length(image: &[u8], block: u64, r: &mut Random) -> u64 {
    let read = RIGHT.opened(image, block).map_or(64, |found| found.bytes_read());
    let to_end = image.len() as u64 - block;
    match r.below(20) {
        0..=4 => to_end,
        5 => to_end + 1,
        6 => to_end - 1,
        7 => to_end + r.below(40) as u64,
        8..=13 => read + r.pick(&[0, 1, 7, 8, 15, 16, 17, 24, 31, 32, 40]),
        14..=16 => read.saturating_sub(r.pick(&[1, 8, 15, 16, 17, 24, 40])),
        17 => r.pick(&[u64::MAX, u64::MAX - 1, 1 << 63, 1 << 32]),
        // Its end is 2^64, or some bytes past it.
        18 => 0u64.wrapping_sub(block),
        _ => 0u64.wrapping_sub(block).wrapping_add(r.below(image.len()) as u64),
    }
}

/// Makes the excess of a block zeros, as far as the image holds it.
fn clear_excess(image: &mut [u8], block: u64) {
    let Some(found) = RIGHT.opened(image, block) else { return };
    let from = (block + found.bytes_read()) as usize;
    let to = (image.len() as u128).min(block as u128 + found.length as u128) as usize;
    if from < to {
        image[from..to].fill(0);
    }
}

const TEXT_IDS: &[&[u8; 4]] = &[b"##CC", b"##TY", b"##MX", b"##tx", b"##Md", b"##T\0", b"#TX#", b"\xff#TX", b"#\xffMD", b"TX##"];

/// A block of type 10 with one reference: whatever it is asked, it shows the text there.
pub fn shows(link: u64) -> [u8; 72] {
    let mut block = [0; 72];
    block[..4].copy_from_slice(b"##CC");
    (block[8], block[16]) = (72, 5);
    block[56..64].copy_from_slice(&link.to_le_bytes());
    (block[64], block[68]) = (10, 1);
    block
}

/// An image with a text block, whole or damaged, and an address, mostly that block's. At 0 stands a root that shows the text at this address.
pub fn text_block(r: &mut Random) -> (Vec<u8>, u64) {
    let at = 72 + r.pick(&[0, 0, 8, 1, 13]);
    let filler = if r.chance(50) { 0 } else { r.next() as u8 };
    let mut image = vec![filler; at];
    image.extend(match r.below(10) {
        0..=3 => b"##TX",
        4..=7 => b"##MD",
        _ => r.pick(TEXT_IDS),
    });
    let reserved = if r.chance(15) { numbers::reserved(r) } else { 0 };
    let links = if r.chance(15) { r.next() >> r.below(64) } else { 0 };
    let mut body = numbers::label(r);
    body.resize(body.len() + r.pick(&[0, 0, 1, 8]), 0);
    let behind = r.pick(&[0, 0, 1, 9]);
    let length = text_length(at, 24 + body.len(), behind, r);
    image.extend(reserved.to_le_bytes());
    image.extend([length, links].iter().flat_map(|w| w.to_le_bytes()));
    image.extend(body);
    image.resize(image.len() + behind, filler);
    if r.chance(10) {
        image.truncate(at + r.below(30));
    }
    let end = image.len() as u64;
    let address = match r.below(20) {
        0 => end - 24,
        1 => end - 23,
        2 => at as u64 + r.pick(&[1, 4, 24]),
        3 => u64::MAX - r.below(30) as u64,
        4 => 0,
        _ => at as u64,
    };
    image[..72].copy_from_slice(&shows(address));
    (image, address)
}

/// The block length of a text block of a size with so many bytes behind it: exact, around 24, one by which it ends with the image or close to its end,
/// or where its end fits no 64 bits.
fn text_length(at: usize, size: usize, behind: usize, r: &mut Random) -> u64 {
    let (whole, to_end) = (size as u64, (size + behind) as u64);
    match r.below(20) {
        0..=7 => whole,
        8 => whole - r.below(size - 23) as u64,
        9 | 10 => r.pick(&[0, 1, 22, 23, 23, 24, 24, 25]),
        11 | 12 => to_end,
        13 => to_end + 1,
        14 => to_end - 1,
        15 => to_end + at as u64,
        16 => r.pick(&[u64::MAX, 1 << 63, 1 << 32, (1 << 32) + whole]),
        // Its end is 2^64, or some bytes past it.
        17 => 0u64.wrapping_sub(at as u64),
        18 => 0u64.wrapping_sub(at as u64).wrapping_add(r.below(at + size) as u64),
        _ => to_end + r.below(40) as u64,
    }
}

/// Where texts are read in an image: at a block that is no conversion if there is one, at an edge of the image or the root, and where a link leads, or
/// anywhere.
pub fn text_places(laid: &Laid, others: &[usize], root: u64, r: &mut Random) -> Vec<u64> {
    let end = laid.image.len() as u64;
    let block = r.pick(&laid.places);
    let text = if others.is_empty() { block } else { laid.places[r.pick(others)] };
    let edge = r.pick(&[0, root, end.wrapping_sub(24), end.wrapping_sub(23)]);
    let anywhere = match r.below(10) {
        0..=5 => word(&laid.image, block as usize + 24 + 8 * r.below(7)),
        _ => address(laid, root, r),
    };
    vec![text, edge, anywhere]
}

/// Ends the image: anywhere, or close to where a block ends or starts.
fn cut(image: &mut Vec<u8>, places: &[u64], r: &mut Random) {
    let end = match r.below(3) {
        0 => r.below(image.len() + 1),
        1 => image.len() - r.below(40.min(image.len())),
        _ => (r.pick(places) as usize + r.below(100)).min(image.len()),
    };
    image.truncate(end);
}

/// Sets one link: to another block, to the block itself, or to no block at all.
fn relink(image: &mut [u8], places: &[u64], block: usize, root: u64, r: &mut Random) {
    let links = word(image, block + 16).clamp(4, 1000) as usize;
    let slot = if r.chance(80) && links > 4 { 4 + r.below(links - 4) } else { r.below(links) };
    let end = image.len() as u64;
    let link = match r.below(8) {
        0..=2 => r.pick(places),
        3 => root,
        4 => block as u64,
        5 => end.wrapping_sub(r.below(30) as u64),
        6 => r.pick(ODD_WORDS),
        _ => r.pick(places).wrapping_add(r.pick(&[1, 4, 8, 24])),
    };
    put(image, block + 24 + 8 * slot, &link.to_le_bytes());
}

/// An address to ask for that is perhaps no block's.
pub fn address(laid: &Laid, root: u64, r: &mut Random) -> u64 {
    let end = laid.image.len() as u64;
    match r.below(8) {
        0..=2 => r.pick(&laid.places),
        3 => end.wrapping_sub(r.below(30) as u64),
        4 => u64::MAX - r.below(30) as u64,
        5 => r.pick(ODD_WORDS),
        6 => root.wrapping_add(1),
        _ => r.below(laid.image.len() + 1) as u64,
    }
}
