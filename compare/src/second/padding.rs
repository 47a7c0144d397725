// The padding of a block (request [6]): the four reserved bytes, and the excess, that is how far the block length exceeds what was read. Parsing
// keeps both where it is asked to, and the writer writes both. Sums of lengths are taken in 128 bits.
use super::block::Found;
use super::{Refused, Second};
use crate::side::{Block, Parsed, Written};
use crate::wrong::Wrong;

/// So many bytes of excess without a range would be read back as one.
const A_RANGE: u64 = 16;

impl Second {
    /// Parsing in the mode that keeps the padding: the refusals of parsing, then 4 where the excess passes the image end.
    pub fn parsed_kept(&self, image: &[u8], address: u64) -> Parsed {
        let found = match self.parsed(image, address) {
            Ok(found) => found,
            Err((18, _)) if self.is(Wrong::FewAfterShortKept) && self.is_short_kept(image, address) => return refused((4, address)),
            Err(refusal) => return refused(refusal),
        };
        let kept = self.with_padding(image, address, &found);
        if !self.is_refused_kept(image, address, &found) {
            return Parsed { refusal: 0, address: 0, block: kept };
        }
        let named = if self.is(Wrong::KeptShortWithoutAddress) { 0 } else { address };
        let block = if self.is(Wrong::KeptShortShowsFields) { kept } else { Block::default() };
        Parsed { refusal: 4, address: named, block }
    }

    /// Whether parsing refuses a block for its excess.
    fn is_refused_kept(&self, image: &[u8], address: u64, found: &Found) -> bool {
        match self.wrong {
            Wrong::KeptSmallerRefused if found.length < found.bytes_read() => true,
            Wrong::KeptNonZeroRefused if excess_in_image(image, address, found).iter().any(|&b| b != 0) => true,
            _ => self.passes_end(image, address, found),
        }
    }

    /// Whether a wrong build calls a block with few links short.
    fn is_short_kept(&self, image: &[u8], address: u64) -> bool {
        self.read(image, address).is_none_or(|found| self.passes_end(image, address, &found))
    }

    /// Whether the excess of a block passes the image end.
    pub fn passes_end(&self, image: &[u8], address: u64, found: &Found) -> bool {
        let length = found.length.max(found.bytes_read());
        let (end, image_end) = (address as u128 + length as u128, image.len() as u128);
        match self.wrong {
            Wrong::KeptEndUntested => false,
            Wrong::KeptEndOneMore => end > image_end + 1,
            Wrong::KeptEndOneLess => found.length > found.bytes_read() && end >= image_end,
            Wrong::KeptEndWraps => address.wrapping_add(length) as u128 > image_end,
            Wrong::KeptEndWithoutAddress => length as u128 > image_end,
            _ => end > image_end,
        }
    }

    /// The record of a block with its padding.
    fn with_padding(&self, image: &[u8], address: u64, found: &Found) -> Block {
        let reserved = match self.wrong {
            Wrong::KeptReservedLost => 0,
            Wrong::KeptReservedSwapped => found.reserved.swap_bytes(),
            Wrong::KeptReservedLostWhenSmaller if found.length < found.bytes_read() => 0,
            _ => found.reserved,
        };
        let excess = match self.wrong {
            Wrong::KeptExcessLost => 0,
            Wrong::KeptExcessWithRange if found.range.is_some() => found.excess() + A_RANGE,
            Wrong::KeptExcessToFirstByte => excess_in_image(image, address, found).iter().take_while(|&&b| b == 0).count() as u64,
            _ => found.excess(),
        };
        Block { reserved, excess, ..found.record() }
    }

    /// Plain parsing, which leaves the padding 0 and does not refuse for it but in wrong builds.
    pub fn parsed_plain(&self, image: &[u8], address: u64) -> Parsed {
        let found = match self.parsed(image, address) {
            Ok(found) => found,
            Err(refusal) => return refused(refusal),
        };
        let block = match self.wrong {
            Wrong::PlainKeepsReserved => Block { reserved: found.reserved, ..found.record() },
            Wrong::PlainKeepsExcess => Block { excess: found.excess(), ..found.record() },
            Wrong::PlainRefusesExcess if self.passes_end(image, address, &found) => return refused((4, address)),
            _ => found.record(),
        };
        Parsed { refusal: 0, address: 0, block }
    }

    /// The writer: refusals 9, 23, 8, then the block and its excess.
    pub fn written(&self, given: Block, refs: &[u64], words: &[u64], out: &mut [u8]) -> Written {
        let block = Block { excess: self.taken_excess(given.excess), ..given };
        let bytes = self.bytes_of(&block, refs, words);
        let size = self.written_size(&block, bytes.len(), out.len());
        if self.is(Wrong::WriterHeaderFirst) && out.len() >= 24 {
            out[..24].copy_from_slice(&bytes[..24]);
        }
        let refusal = self.write_refusal(&block, words.len(), size, out.len());
        if refusal != 0 {
            return self.write_refused(refusal, &bytes, size, out);
        }
        let size = size as usize;
        let whole = bytes.len().min(size);
        out[..whole].copy_from_slice(&bytes[..whole]);
        self.put_excess(&mut out[whole..size]);
        Written { refusal: 0, length: size as u64 }
    }

    /// What the wrong builds take for the excess that is given.
    fn taken_excess(&self, excess: u64) -> u64 {
        match self.wrong {
            Wrong::WrittenExcessLowBits => excess as u32 as u64,
            Wrong::WrittenExcessRounded => excess.checked_next_multiple_of(8).unwrap_or(excess),
            _ => excess,
        }
    }

    fn written_size(&self, block: &Block, without_excess: usize, room: usize) -> u128 {
        let size = without_excess as u128 + block.excess as u128;
        match self.wrong {
            Wrong::WrittenSizeWraps => size as u64 as u128,
            Wrong::WrittenExcessCut => size.min(without_excess.max(room) as u128),
            _ => size,
        }
    }

    /// Whether a record has 16 or more bytes of excess without a range.
    fn would_be_a_range(&self, block: &Block) -> bool {
        match self.wrong {
            Wrong::PaddingSixteenTaken => !block.ranged && block.excess > A_RANGE,
            Wrong::PaddingFifteenRefused => !block.ranged && block.excess >= A_RANGE - 1,
            Wrong::PaddingWithRangeRefused => block.excess >= A_RANGE,
            _ => !block.ranged && block.excess >= A_RANGE,
        }
    }

    fn write_refusal(&self, block: &Block, values: usize, size: u128, room: usize) -> u32 {
        let order = match self.wrong {
            Wrong::WriterRoomFirst => [8, 9, 23],
            Wrong::PaddingAfterRoom => [9, 8, 23],
            Wrong::PaddingBeforeCount => [23, 9, 8],
            _ => [9, 23, 8],
        };
        let most = if self.is(Wrong::WriterCountOneLess) { 65_534 } else { 65_535 };
        let met = |number: &u32| match number {
            9 => values > most,
            23 => self.would_be_a_range(block),
            _ => size > room as u128,
        };
        order.into_iter().find(met).unwrap_or(0)
    }

    /// A refusal of the writer, which changes no byte and has no length but in wrong builds.
    fn write_refused(&self, refusal: u32, bytes: &[u8], size: u128, out: &mut [u8]) -> Written {
        match (self.wrong, refusal) {
            (Wrong::PaddedBlockFirst, 8) if bytes.len() <= out.len() => out[..bytes.len()].copy_from_slice(bytes),
            (Wrong::PaddingTouchesOutput, 23) if !out.is_empty() => out[0] = bytes[0],
            _ => {}
        }
        let told = self.is(Wrong::PaddingWithLength) && refusal == 23;
        Written { refusal, length: if told { size as u64 } else { 0 } }
    }

    fn put_excess(&self, excess: &mut [u8]) {
        let last = excess.len().saturating_sub(1);
        match self.wrong {
            Wrong::WrittenExcessLeft => {}
            Wrong::WrittenExcessOnes => excess.fill(0xff),
            Wrong::WrittenExcessLastLeft => excess[..last].fill(0),
            _ => excess.fill(0),
        }
    }
}

fn refused((refusal, address): Refused) -> Parsed {
    Parsed { refusal, address, block: Block::default() }
}

/// The bytes of a block's excess that lie in the image.
fn excess_in_image<'a>(image: &'a [u8], address: u64, found: &Found) -> &'a [u8] {
    let behind = &image[(address + found.bytes_read()) as usize..];
    &behind[..found.excess().min(behind.len() as u64) as usize]
}

impl Found {
    /// The bytes from the block's start to the end of its values.
    pub fn bytes_read(&self) -> u64 {
        let words = self.refs.len() + self.values.len() + 2 * self.range.is_some() as usize;
        64 + 8 * words as u64
    }

    /// How far the block length exceeds the bytes read; a smaller length has none.
    fn excess(&self) -> u64 {
        self.length.saturating_sub(self.bytes_read())
    }
}
