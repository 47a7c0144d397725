// Text blocks (request [13]): a ##TX or ##MD that is read at an address, and one that is written. Sums of addresses are taken in 128 bits.
use super::{Refused, Second};
use crate::side::{Text, Written};
use crate::wrong::Wrong;
use std::borrow::Cow;

/// The two ids, by their numbers.
const IDS: [&[u8; 4]; 2] = [b"##TX", b"##MD"];

/// The image from an address on.
fn from(image: &[u8], address: u64) -> &[u8] {
    usize::try_from(address).ok().and_then(|at| image.get(at..)).unwrap_or(&[])
}

/// A word of a header; 0 where the header is not there.
fn word(header: &[u8], at: usize) -> u64 {
    header.get(at..at + 8).map_or(0, |bytes| u64::from_le_bytes(bytes.try_into().unwrap()))
}

impl Second {
    /// Reading: refusals 1, 22, 4, then the text.
    pub fn text_read(&self, image: &[u8], address: u64) -> Text {
        match self.text_found(image, address) {
            Ok(text) => text,
            Err(refused) => self.text_refused(refused, image, address),
        }
    }

    fn text_found(&self, image: &[u8], address: u64) -> Result<Text, Refused> {
        let block = from(image, address);
        if self.is_text_outside(image, address) {
            return Err((self.outside_number(block), address));
        }
        let short = self.is_text_short(image, address, self.text_length(block));
        let Some(id) = self.text_id(block).filter(|_| !self.is_text_refused(block, address)) else {
            return Err((if short && self.is(Wrong::TextReadShortFirst) { 4 } else { 22 }, address));
        };
        if short {
            return Err((if self.is(Wrong::TextReadShortIsOutside) { 1 } else { 4 }, address));
        }
        self.text_said(image, address, id)
    }

    /// Whether the header at an address passes the image end.
    fn is_text_outside(&self, image: &[u8], address: u64) -> bool {
        let (end, image_end) = (address as u128 + 24, image.len() as u128);
        match self.wrong {
            Wrong::TextReadHeaderAtEnd => end >= image_end,
            Wrong::TextReadHeaderOneLess => end - 1 > image_end,
            Wrong::TextReadHeaderWraps => address.wrapping_add(24) as u128 > image_end,
            _ => end > image_end,
        }
    }

    /// The refusal of a header that passes the image end.
    fn outside_number(&self, block: &[u8]) -> u32 {
        match self.wrong {
            Wrong::TextReadIdFirst if block.len() >= 4 && self.text_id(block).is_none() => 22,
            Wrong::TextReadOutsideIsShort => 4,
            _ => 1,
        }
    }

    /// The number of a block's id, if it is a text's.
    fn text_id(&self, block: &[u8]) -> Option<u32> {
        let id = block.get(..4)?;
        let is = |known: &&[u8; 4]| match self.wrong {
            Wrong::TextReadIdOfThree => id[..3] == known[..3],
            Wrong::TextReadIdAnyCase => id.eq_ignore_ascii_case(&known[..]),
            _ => id == &known[..],
        };
        let number = IDS.iter().position(is)? as u32;
        match self.wrong {
            Wrong::TextReadMetadataRefused if number == 1 => None,
            Wrong::TextReadMetadataIsTx => Some(0),
            Wrong::TextReadIdsSwapped => Some(1 - number),
            _ => Some(number),
        }
    }

    /// Whether a wrong build takes the block for none of a text.
    fn is_text_refused(&self, block: &[u8], address: u64) -> bool {
        match self.wrong {
            Wrong::TextReadAtZeroRefused => address == 0,
            Wrong::TextReadLinksRefused => word(block, 16) != 0,
            Wrong::TextReadReservedRefused => block[4..8] != [0; 4],
            _ => false,
        }
    }

    fn text_length(&self, block: &[u8]) -> u64 {
        let length = word(block, 8);
        if self.is(Wrong::TextReadLengthLowBits) {
            length as u32 as u64
        } else {
            length
        }
    }

    /// Whether a block length is below 24 or passes the image end.
    fn is_text_short(&self, image: &[u8], address: u64, length: u64) -> bool {
        let least = match self.wrong {
            Wrong::TextReadLengthAny => 0,
            Wrong::TextReadLength23 => 23,
            Wrong::TextReadLength24Refused => 25,
            _ => 24,
        };
        let (end, image_end) = (address as u128 + length as u128, image.len() as u128);
        let passes = match self.wrong {
            Wrong::TextReadEndOneMore => end > image_end + 1,
            Wrong::TextReadEndOneLess => end >= image_end,
            Wrong::TextReadEndWraps => address.wrapping_add(length) as u128 > image_end,
            Wrong::TextReadEndWithoutAddress => length as u128 > image_end,
            Wrong::TextReadEndClipped => false,
            _ => end > image_end,
        };
        length < least || passes
    }

    /// The text of a block: its bytes up to the first zero byte, or to the block's end.
    fn text_said(&self, image: &[u8], address: u64, id: u32) -> Result<Text, Refused> {
        let header = match self.wrong {
            Wrong::TextReadStartsEarly => 23,
            Wrong::TextReadStartsLate => 25,
            _ => 24,
        };
        let start = (address as usize + header).min(image.len());
        let end = (address as u128 + self.text_length(from(image, address)) as u128).min(image.len() as u128) as usize;
        let end = if self.is(Wrong::TextReadPastBlock) { image.len() } else { end.max(start) };
        let body = &image[start..end];
        let zero = body.iter().position(|&b| b == 0);
        if self.is(Wrong::TextReadAgain) {
            (0..zero.unwrap_or(body.len())).for_each(|n| self.read_whole(image, (start, start + n)));
        }
        let (first, length) = match (self.wrong, zero) {
            (Wrong::TextReadUnendedRefused, None) => return Err((4, address)),
            (Wrong::TextReadEmptyRefused, _) if zero.unwrap_or(body.len()) == 0 => return Err((22, address)),
            (Wrong::TextReadWithZeros, _) => (0, body.len()),
            (Wrong::TextReadUnendedCut, None) => (0, body.len().saturating_sub(1)),
            (Wrong::TextReadMetadataTrimmed, _) if id == 1 => trimmed(body),
            _ => (0, zero.unwrap_or(body.len())),
        };
        let told = if self.is(Wrong::TextReadTellsAddress) { address } else { 0 };
        let start = if self.is(Wrong::TextReadStartInBlock) { 24 } else { start + first };
        Ok(Text { refusal: 0, id, address: told, start: start as u64, length: length as u64 })
    }

    /// A refusal of reading: its address, and nothing else but in wrong builds.
    fn text_refused(&self, (refusal, named): Refused, image: &[u8], address: u64) -> Text {
        let lost = match refusal {
            1 => self.is(Wrong::TextReadOutsideWithoutAddress),
            22 => self.is(Wrong::TextReadOtherWithoutAddress),
            _ => self.is(Wrong::TextReadShortWithoutAddress),
        };
        let mut text = Text { refusal, address: if lost { 0 } else { named }, ..Text::default() };
        match (self.wrong, refusal) {
            (Wrong::TextReadShortShowsStart, 4) => text.start = address + 24,
            (Wrong::TextReadShortShowsId, 4) => text.id = self.text_id(from(image, address)).unwrap_or(0),
            _ => {}
        }
        text
    }

    /// Writing: refusals 21, 8, then the block.
    pub fn text_written(&self, metadata: bool, text: &[u8], out: &mut [u8]) -> Written {
        let bytes = self.text_block(metadata, &self.text_taken(text));
        let refusal = self.text_write_refusal(text, bytes.len(), out.len());
        if refusal != 0 {
            return self.text_write_refused(refusal, &bytes, out);
        }
        let size = bytes.len().min(out.len());
        let put = if self.is(Wrong::TextWrittenPaddingLeft) { size.min(25 + text.len()) } else { size };
        out[..put].copy_from_slice(&bytes[..put]);
        if self.is(Wrong::TextWrittenByteBehind) && size < out.len() {
            out[size] = 0;
        }
        let length = if self.is(Wrong::TextWrittenLengthOfText) { text.len() } else { size };
        Written { refusal: 0, length: length as u64 }
    }

    /// What the wrong builds take for the text that is given.
    fn text_taken<'a>(&self, text: &'a [u8]) -> Cow<'a, [u8]> {
        match (self.wrong, text) {
            (Wrong::TextWrittenLossy, _) => Cow::Owned(String::from_utf8_lossy(text).into_owned().into_bytes()),
            (Wrong::TextWrittenZeroLastTaken, [before @ .., 0]) => Cow::Borrowed(before),
            (Wrong::TextWrittenCutAtZero, _) => Cow::Borrowed(text.split(|&b| b == 0).next().unwrap_or(&[])),
            _ => Cow::Borrowed(text),
        }
    }

    /// How many zeros stand behind a text: one, then as many as it takes to a multiple of 8.
    fn zeros_behind(&self, length: usize) -> usize {
        match self.wrong {
            Wrong::TextWrittenZeroLost => (8 - length % 8) % 8,
            Wrong::TextWrittenEmptyBare if length == 0 => 0,
            Wrong::TextWrittenUnpadded => 1,
            Wrong::TextWrittenTwoZeros => 9 - (length + 1) % 8,
            Wrong::TextWrittenPaddedTo16 => 16 - (24 + length) % 16,
            _ => 8 - length % 8,
        }
    }

    fn written_text_length(&self, text: &[u8], zeros: usize) -> u64 {
        let length = match self.wrong {
            Wrong::TextWrittenLengthWithoutPadding => 24 + text.len() + 1,
            Wrong::TextWrittenLengthWithoutZero => 24 + text.len() + zeros - 1,
            Wrong::TextWrittenLengthWithoutHeader => text.len() + zeros,
            Wrong::TextWrittenLengthByCharacters => 24 + String::from_utf8_lossy(text).chars().count() / 8 * 8 + 8,
            _ => 24 + text.len() + zeros,
        };
        let length = length as u64;
        if self.is(Wrong::TextWrittenLengthSwapped) {
            length.swap_bytes()
        } else {
            length
        }
    }

    fn text_block(&self, metadata: bool, text: &[u8]) -> Vec<u8> {
        let number = match self.wrong {
            Wrong::TextWrittenAsTx => 0,
            Wrong::TextWrittenIdsSwapped => !metadata as usize,
            _ => metadata as usize,
        };
        let reserved = if self.is(Wrong::TextWrittenReserved) { [0xff; 4] } else { [0; 4] };
        let links = if self.is(Wrong::TextWrittenLinks) { 4u64 } else { 0 };
        let zeros = self.zeros_behind(text.len());
        let length = self.written_text_length(text, zeros);
        let mut bytes = [IDS[number], &reserved, &length.to_le_bytes()[..], &links.to_le_bytes(), text].concat();
        bytes.resize(bytes.len() + zeros, 0);
        if self.is(Wrong::TextWrittenPaddingOnes) {
            bytes[25 + text.len()..].fill(0xff);
        }
        bytes
    }

    fn holds_zero(&self, text: &[u8]) -> bool {
        let last = text.len().saturating_sub(1);
        match self.wrong {
            Wrong::TextWrittenZeroFirstTaken => text.iter().skip(1).any(|&b| b == 0),
            Wrong::TextWrittenZeroInsideTaken => text.first() == Some(&0) || text.last() == Some(&0),
            Wrong::TextWrittenZeroLastTaken => text[..last].contains(&0),
            Wrong::TextWrittenCutAtZero => false,
            _ => text.contains(&0),
        }
    }

    fn text_write_refusal(&self, text: &[u8], size: usize, room: usize) -> u32 {
        let needed = match self.wrong {
            Wrong::TextWrittenRoomOneLess => size - 1,
            Wrong::TextWrittenRoomOneMore => size + 1,
            Wrong::TextWrittenRoomWithoutPadding => 24 + text.len() + 1,
            _ => size,
        };
        match (self.holds_zero(text), needed > room) {
            (true, true) if self.is(Wrong::TextWrittenRoomFirst) => 8,
            (true, _) => 21,
            (false, true) => 8,
            (false, false) => 0,
        }
    }

    /// A refusal of writing, which changes no byte and has no length but in wrong builds.
    fn text_write_refused(&self, refusal: u32, bytes: &[u8], out: &mut [u8]) -> Written {
        let touched = match (self.wrong, refusal) {
            (Wrong::TextWrittenHeaderFirst, 8) | (Wrong::TextWrittenZeroTouchesOutput, 21) => out.len().min(24),
            _ => 0,
        };
        out[..touched].copy_from_slice(&bytes[..touched]);
        let told = matches!((self.wrong, refusal), (Wrong::TextWrittenZeroWithLength, 21) | (Wrong::TextWrittenRoomWithLength, 8));
        Written { refusal, length: if told { bytes.len() as u64 } else { 0 } }
    }
}

/// Where a body starts and how long it is without the zeros at both ends.
fn trimmed(body: &[u8]) -> (usize, usize) {
    let first = body.iter().position(|&b| b != 0).unwrap_or(0);
    let behind = body.iter().rposition(|&b| b != 0).map_or(first, |last| last + 1);
    (first, behind - first)
}
