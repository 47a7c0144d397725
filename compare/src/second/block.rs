// The bytes of a block, of a text, and of what the writer writes (document 01, "Bytes of a block"). Sums of addresses are taken in 128 bits.
use super::Second;
use crate::side::Block;
use crate::wrong::Wrong;
use std::hint::black_box;

/// A whole ##CC block, everything read out of the image; floats as their 64 bits.
pub struct Found {
    /// The four bytes behind the id.
    pub reserved: u32,
    pub length: u64,
    pub links: u64,
    pub fixed: [u64; 4],
    pub refs: Vec<u64>,
    pub kind: u8,
    pub precision: u8,
    pub flags: u16,
    pub ref_count: u16,
    pub val_count: u16,
    pub range: Option<(u64, u64)>,
    pub values: Vec<u64>,
}

fn word(image: &[u8], at: usize) -> u64 {
    u64::from_le_bytes(image[at..at + 8].try_into().unwrap())
}

fn half(image: &[u8], at: usize) -> u16 {
    u16::from_le_bytes([image[at], image[at + 1]])
}

/// The id at an address whose header the image holds.
pub fn id_at(image: &[u8], address: u64) -> Option<&[u8; 4]> {
    if address as u128 + 24 > image.len() as u128 {
        return None;
    }
    let at = address as usize;
    image[at..at + 4].try_into().ok()
}

/// The link count at an address whose header the image holds, as written.
pub fn links_at(image: &[u8], address: u64) -> u64 {
    word(image, address as usize + 16)
}

/// Where the text block ends whose text starts here.
pub fn text_block_end(image: &[u8], from: usize) -> usize {
    from - 24 + word(image, from - 16) as usize
}

pub fn spells_nan(word: u64) -> bool {
    f64::from_bits(word).is_nan()
}

pub const ONE_NAN: u64 = 0x7ff8_0000_0000_0000;

impl Second {
    /// The ##CC block at an address that holds a header with that id; none if the image ends inside it. With a link count below 4, which parsing and
    /// the check refuse, four links are read: so did document 01 before request [11], and so do wrong builds.
    pub fn read(&self, image: &[u8], address: u64) -> Option<Found> {
        let a = address as usize;
        let (length, links) = (word(image, a + 8), links_at(image, address));
        let counted = if self.is(Wrong::HugeLinksWrap) { links % (1 << 61) } else { links };
        let fields = address as u128 + 24 + 8 * counted.max(4) as u128;
        if fields + 8 > image.len() as u128 {
            return None;
        }
        let f = fields as usize;
        let (flags, val_count) = (half(image, f + 2), half(image, f + 6));
        let ranged = self.has_range(length, counted, val_count, flags);
        let first = f + 8 + 16 * ranged as usize;
        if first + 8 * val_count as usize > image.len() {
            return None;
        }
        let words = |from: usize, n: usize| (0..n).map(|i| word(image, from + 8 * i)).collect::<Vec<u64>>();
        let fixed = |i: usize| word(image, a + 24 + 8 * i);
        let mut found = Found {
            reserved: u32::from_le_bytes(image[a + 4..a + 8].try_into().unwrap()),
            length,
            links,
            fixed: [fixed(0), fixed(1), fixed(2), fixed(3)],
            refs: words(a + 56, counted.saturating_sub(4) as usize),
            kind: image[f],
            precision: image[f + 1],
            flags,
            ref_count: half(image, f + 4),
            val_count,
            range: ranged.then(|| (word(image, f + 8), word(image, f + 16))),
            values: words(first, val_count as usize),
        };
        self.spoil(&mut found, (first - a) as u64);
        Some(found)
    }

    fn has_range(&self, length: u64, links: u64, val_count: u16, flags: u16) -> bool {
        let least = 24 + 8 * links as u128 + 8 + 8 * val_count as u128 + 16;
        match self.wrong {
            Wrong::RangeByFlag => flags & 2 != 0,
            Wrong::RangeOneByteMore => length as u128 > least,
            _ => length as u128 >= least,
        }
    }

    /// What the wrong builds read otherwise.
    fn spoil(&self, found: &mut Found, values_at: u64) {
        match self.wrong {
            Wrong::ReferencesByCountField => found.refs.truncate(found.ref_count as usize),
            Wrong::ValuesEndWithBlock => found.values.truncate((found.length.saturating_sub(values_at) / 8).min(65_535) as usize),
            Wrong::FlagsSwapped => found.flags = found.flags.swap_bytes(),
            Wrong::RangeBoundsSwapped => found.range = found.range.map(|(a, b)| (b, a)),
            Wrong::PrecisionAsType => (found.kind, found.precision) = (found.precision, found.kind),
            _ => {}
        }
    }

    /// The places in the image that the text of a link may take: its bytes end at the first zero byte there, see `said`.
    pub fn text_of(&self, image: &[u8], link: u64) -> Option<(usize, usize)> {
        let id = if link == 0 { None } else { id_at(image, link) };
        if !(id == Some(b"##TX") || id == Some(b"##MD") && self.is(Wrong::MetadataIsText)) {
            return None;
        }
        let from = link as usize + 24;
        let length = word(image, link as usize + 8);
        if length < 24 {
            return self.is(Wrong::ShortLengthIsEmptyText).then_some((from, from));
        }
        let mut end = link as u128 + length as u128;
        if end > image.len() as u128 {
            if !self.is(Wrong::LongTextIsClipped) {
                return None;
            }
            end = image.len() as u128;
        }
        let end = if self.is(Wrong::TextPastBlock) { image.len() } else { end as usize };
        Some((from, end))
    }

    /// The bytes of a text, no more than `most` of them.
    pub fn said<'a>(&self, image: &'a [u8], (from, end): (usize, usize), most: usize) -> &'a [u8] {
        let bytes = &image[from..end.min(from.saturating_add(most))];
        match bytes.iter().position(|&b| b == 0) {
            Some(n) if !self.is(Wrong::TextWithZeros) => &bytes[..n],
            _ => bytes,
        }
    }

    /// What the wrong builds do that read a text to its end where no byte of it is needed.
    pub fn read_whole(&self, image: &[u8], (from, end): (usize, usize)) {
        black_box(image[from..end].iter().position(|&b| b == 0));
    }

    /// The bytes that the writer writes before the excess, which the block length counts.
    pub fn bytes_of(&self, block: &Block, refs: &[u64], words: &[u64]) -> Vec<u8> {
        let ranged = block.ranged || self.is(Wrong::WrittenRangeAlways);
        let links = 4 + refs.len() as u64;
        let in_length = ranged && !self.is(Wrong::WrittenLengthWithoutRange);
        let excess = if self.is(Wrong::WrittenLengthWithoutExcess) { 0 } else { block.excess };
        let length = (24 + 8 * links + 8 + 16 * in_length as u64 + 8 * words.len() as u64).wrapping_add(excess);
        let links = if self.is(Wrong::WrittenLinksFromRecord) { block.links } else { links };
        let ref_count = if self.is(Wrong::WrittenReferenceCount) { refs.len() as u16 } else { block.ref_count };
        let val_count = if self.is(Wrong::WrittenValueCount) { block.val_count } else { words.len() as u16 };
        let reserved = match self.wrong {
            Wrong::WrittenReservedZero => [0; 4],
            Wrong::WrittenReservedSwapped => block.reserved.to_be_bytes(),
            _ => block.reserved.to_le_bytes(),
        };
        let mut bytes = [*b"##CC", reserved].concat();
        let unit = if self.is(Wrong::WrittenUnitIsName) { block.name } else { block.unit };
        let fixed = [length, links, block.name, unit, block.comment, block.inverse];
        fixed.iter().chain(refs).for_each(|w| bytes.extend(w.to_le_bytes()));
        bytes.extend([block.kind, block.precision]);
        [block.flags, ref_count, val_count].iter().for_each(|h| bytes.extend(h.to_le_bytes()));
        if ranged {
            let by_word = self.is(Wrong::WrittenBoundByWord);
            let bound = |float, kept| if by_word { kept } else { bound(float, kept) };
            bytes.extend(bound(block.range_min, block.min_word).to_le_bytes());
            bytes.extend(bound(block.range_max, block.max_word).to_le_bytes());
        }
        let lost = self.is(Wrong::WrittenNanLost);
        let kept = |w: u64| if lost && spells_nan(w) { ONE_NAN } else { w };
        words.iter().for_each(|&w| bytes.extend(kept(w).to_le_bytes()));
        bytes
    }
}

/// A bound's own bits; for a NaN the kept word if that spells one.
pub fn bound(float: f64, kept: u64) -> u64 {
    match (float.is_nan(), spells_nan(kept)) {
        (false, _) => float.to_bits(),
        (true, true) => kept,
        (true, false) => ONE_NAN,
    }
}

impl Found {
    /// The fields, without the padding.
    pub fn record(&self) -> Block {
        let (min_word, max_word) = self.range.unwrap_or((0, 0));
        let [name, unit, comment, inverse] = self.fixed;
        Block {
            length: self.length,
            links: self.links,
            name,
            unit,
            comment,
            inverse,
            range_min: f64::from_bits(min_word),
            range_max: f64::from_bits(max_word),
            min_word,
            max_word,
            excess: 0,
            reserved: 0,
            flags: self.flags,
            ref_count: self.ref_count,
            val_count: self.val_count,
            kind: self.kind,
            precision: self.precision,
            ranged: self.range.is_some(),
        }
    }
}
