//! The unit of a number: that of the block that gave it.
//!
//! A number is given by the block at the address, or by a nested one to which value to text and range to text (types 7 and 8) pass the value on. Of
//! the blocks that are applied for a number each but the last passes the value on, once, since bit groups give no number, nor does type 11 where it
//! is unknown. So the giver is M - 1 steps away, M being the blocks applied.
//!
//! Which reference a step takes is not guessed from the number, nor chosen here by the rules: the archive is asked once more, in the same mode,
//! with a copy of the block whose nested conversions answer their own places.
use crate::printing::{line, quoted};
use crate::texts::{lead, Lead};
use mdf_conversion::{apply_in, Answer, ConversionBlock, ConversionType, Mode, Refusal, Value};

/// Finds the units of the numbers that the conversions of one image give in one mode.
pub struct Units<'a> {
    image: &'a [u8],
    mode: Mode,
    // Those of the last number's way. The next number often goes the same way.
    way: Vec<Signpost>,
}

impl<'a> Units<'a> {
    pub fn new(image: &'a [u8], mode: Mode) -> Units<'a> {
        Units { image, mode, way: Vec::new() }
    }

    /// What is printed behind the number that the conversion at this address gave for the value with so many blocks applied: a blank and the unit,
    /// or nothing.
    pub fn behind(&mut self, address: u64, value: Value<'_>, applied: u32) -> String {
        let giver = (1..applied as usize).try_fold(address, |block, depth| self.next(depth - 1, block, value));
        let unit = giver.and_then(|giver| ConversionBlock::parse(self.image, giver).ok()).and_then(|block| block.cc_md_unit);
        match lead(self.image, unit) {
            Lead::Text(text) if !text.is_empty() => format!(" {}", line(text)),
            Lead::Metadata(text) => format!(" MD {}", quoted(text)),
            _ => String::new(),
        }
    }

    // The block that this one passes the value on to.
    fn next(&mut self, step: usize, block: u64, value: Value<'_>) -> Option<u64> {
        if self.way.get(step).map(|signpost| signpost.block) != Some(block) {
            self.way.truncate(step);
            self.way.push(Signpost::new(self.image, block).ok()?);
        }
        self.way.get(step)?.taken(self.mode, value)
    }
}

/// A copy of a block, at 0 of an image of its own. It has the type and the values of the block and as many references.
struct Signpost {
    block: u64,
    references: Vec<u64>,
    image: Vec<u8>,
}

impl Signpost {
    const OUTSIDE: u64 = u64::MAX;

    fn new(image: &[u8], block: u64) -> Result<Signpost, Refusal> {
        let fields = ConversionBlock::parse(image, block)?;
        let references: Vec<u64> = ConversionBlock::cc_ref(image, block)?.collect();
        let words: Vec<u64> = ConversionBlock::cc_val(image, block)?.map(f64::to_bits).collect();
        // Header, fixed links, fields and range take 80 bytes at most.
        let mut copy = vec![0; 80 + 8 * (references.len() + words.len())];
        let links = references.iter().enumerate().map(|(place, link)| match *link {
            0 => Ok(0),
            address if ConversionBlock::parse(image, address).is_ok() => add_constant(&mut copy, place as f64),
            // No conversion. If it is a text, it was not taken, or there were no number.
            _ => Ok(Signpost::OUTSIDE),
        });
        let links: Vec<u64> = links.collect::<Result<_, Refusal>>()?;
        fields.write_words(&links, &words, &mut copy)?;
        Ok(Signpost { block, references, image: copy })
    }

    // The reference that the block takes for a value for which it gives a number.
    fn taken(&self, mode: Mode, value: Value<'_>) -> Option<u64> {
        match apply_in(&self.image, 0, u32::MAX, mode, value, &mut []).ok()?.answer {
            Answer::Number(place) => self.references.get(place as usize).copied(),
            _ => None,
        }
    }
}

// Adds a conversion that gives one number for all: a range to value, with the number in its one range and beside it. Answers its address.
fn add_constant(image: &mut Vec<u8>, number: f64) -> Result<u64, Refusal> {
    let address = image.len();
    image.resize(address + 96, 0);
    ConversionBlock::new(ConversionType::RangeLookup).write(&[], &[0.0, 0.0, number, number], &mut image[address..])?;
    Ok(address as u64)
}
