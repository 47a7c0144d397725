//! One ##CC block, parsed, written and inverted.
use crate::raw;
use crate::refusal::Refusal;
use crate::types::ConversionType;

/// The physical range of a conversion.
#[derive(Clone, Copy, Debug, PartialEq)]
pub struct PhysicalRange {
    /// The lower bound.
    pub min: f64,
    /// The upper bound.
    pub max: f64,
}

/// The fields of a ##CC block. A link is an address, and `None` where it is 0, which leads nowhere.
///
/// References and values are read from the image: all by [`cc_ref`](Self::cc_ref) and [`cc_val`](Self::cc_val), one by
/// [`reference`](Self::reference) and [`value_word`](Self::value_word).
#[must_use]
#[derive(Clone, Copy, Debug, PartialEq)]
pub struct ConversionBlock {
    /// The block's length in bytes, as written in its header.
    pub block_len: u64,
    /// The link count, as written in the header; of a parsed block at least 4.
    pub links_nr: u64,
    /// The link to the name.
    pub cc_tx_name: Option<u64>,
    /// The link to the unit.
    pub cc_md_unit: Option<u64>,
    /// The link to the comment.
    pub cc_md_comment: Option<u64>,
    /// The link to the inverse conversion.
    pub cc_cc_inverse: Option<u64>,
    /// The type.
    pub cc_type: ConversionType,
    /// The precision.
    pub cc_precision: u8,
    /// The flags.
    pub cc_flags: u16,
    /// The reference count field. A parsed block has `links_nr` - 4 references.
    pub cc_ref_count: u16,
    /// How many values the block has.
    pub cc_val_count: u16,
    /// The range, whole or not at all. A bound that is a NaN keeps its bits.
    pub cc_phy_range: Option<PhysicalRange>,
    /// The four reserved bytes behind the id, little-endian. 0 out of [`parse`](Self::parse).
    pub reserved: u32,
    /// By how many bytes the block length exceeds what was read; for writing, how many zero bytes go behind the values. 0 out of
    /// [`parse`](Self::parse).
    pub excess: u64,
}

impl ConversionBlock {
    /// A block of this type to be filled and written: no links, no range, no padding, and every number 0.
    pub fn new(cc_type: ConversionType) -> ConversionBlock {
        ConversionBlock {
            block_len: 0,
            links_nr: 0,
            cc_tx_name: None,
            cc_md_unit: None,
            cc_md_comment: None,
            cc_cc_inverse: None,
            cc_type,
            cc_precision: 0,
            cc_flags: 0,
            cc_ref_count: 0,
            cc_val_count: 0,
            cc_phy_range: None,
            reserved: 0,
            excess: 0,
        }
    }

    /// Reads the fields of the one block at `address`. Its padding is left out: `reserved` and `excess` are 0.
    ///
    /// # Errors
    ///
    /// Refusal 1, 2, 18 or 4, tested in that order.
    ///
    /// ```
    /// use mdf_conversion::{ConversionBlock, ConversionType, PhysicalRange, Refusal};
    ///
    /// let image = std::fs::read("../../samples/tractor.mdf").unwrap();
    ///
    /// // Fuel rate, a rational conversion, stands at 688.
    /// let block = ConversionBlock::parse(&image, 688)?;
    /// assert_eq!(block.cc_type, ConversionType::Rational);
    /// assert_eq!(block.cc_phy_range, Some(PhysicalRange { min: 0.0, max: 60.5 }));
    /// assert_eq!(block.cc_md_comment, None);
    ///
    /// // A text stands at 64.
    /// assert_eq!(ConversionBlock::parse(&image, 64), Err(Refusal::NotConversion(64)));
    ///
    /// // Fuel rate with a link count of 3, and cut off within its links.
    /// let mut few = image[688..][..40].to_vec();
    /// few[16] = 3;
    /// assert_eq!(ConversionBlock::parse(&few, 0), Err(Refusal::FewLinks(0)));
    /// # Ok::<(), Refusal>(())
    /// ```
    pub fn parse(image: &[u8], address: u64) -> Result<ConversionBlock, Refusal> {
        // SAFETY: pointer and length are those of one slice.
        block_of(unsafe { raw::mdf_parse(image.as_ptr(), image.len(), address) })
    }

    /// Reads the fields of the one block at `address` and keeps its padding, so that it can be written as long as it was.
    ///
    /// `reserved` has the four bytes behind the id. `excess` has how far the block length exceeds the bytes that were read, from the address to the
    /// end of the values; 0 where the block length is below that, and never more than 15 without a range, since 16 are one. What the excess bytes
    /// hold is not looked at.
    ///
    /// Writing what was parsed, with the block's references and the 64 bits of its values, returns its bytes, where the excess bytes are zero and
    /// the block length is not below the bytes that were read.
    ///
    /// # Errors
    ///
    /// Those of [`parse`](Self::parse), and then refusal 4 where the excess passes the image end.
    ///
    /// ```
    /// use mdf_conversion::{ConversionBlock, Refusal};
    ///
    /// // Torque, a linear conversion, stands at 528 and has 80 bytes. Here it has 8 more, and reserved bytes.
    /// let image = std::fs::read("../../samples/tractor.mdf").unwrap();
    /// let mut torque = image[528..][..80].to_vec();
    /// torque.extend([0; 8]);
    /// torque[4..8].copy_from_slice(&[1, 2, 3, 4]);
    /// torque[8] = 88;
    ///
    /// let block = ConversionBlock::parse_kept(&torque, 0)?;
    /// assert_eq!((block.reserved, block.excess), (0x04030201, 8));
    ///
    /// // What was parsed is written as it was.
    /// let mut out = [0xff; 88];
    /// assert_eq!(block.write(&[], &[0.0, 0.125], &mut out), Ok(88));
    /// assert_eq!(out, torque[..]);
    ///
    /// // The excess has to lie in the image.
    /// assert_eq!(ConversionBlock::parse_kept(&torque[..87], 0), Err(Refusal::Short(0)));
    /// assert_eq!(ConversionBlock::parse(&torque[..87], 0), Ok(ConversionBlock { reserved: 0, excess: 0, ..block }));
    /// # Ok::<(), Refusal>(())
    /// ```
    pub fn parse_kept(image: &[u8], address: u64) -> Result<ConversionBlock, Refusal> {
        // SAFETY: pointer and length are those of one slice.
        block_of(unsafe { raw::mdf_parse_kept(image.as_ptr(), image.len(), address) })
    }

    /// The references of the block at `address`, in order. A reference of 0 leads nowhere.
    ///
    /// # Errors
    ///
    /// Those of [`parse`](Self::parse).
    ///
    /// ```
    /// use mdf_conversion::{ConversionBlock, Refusal};
    ///
    /// let image = std::fs::read("../../samples/tractor.mdf").unwrap();
    ///
    /// // Transmission, bit groups, stands at 2488. It leads to a conversion and a text.
    /// let refs: Vec<u64> = ConversionBlock::cc_ref(&image, 2488)?.collect();
    /// assert_eq!(refs, [1664, 1456]);
    /// # Ok::<(), Refusal>(())
    /// ```
    pub fn cc_ref(image: &[u8], address: u64) -> Result<impl ExactSizeIterator<Item = u64> + Clone + '_, Refusal> {
        let references = ConversionBlock::parse(image, address)?.references();
        Ok((0..references).map(move |place| standing(ConversionBlock::reference(image, address, place as u64))))
    }

    /// The values of the block at `address`, in order. Each keeps its 64 bits: the masks of bit groups are those of [`f64::to_bits`].
    ///
    /// # Errors
    ///
    /// Those of [`parse`](Self::parse).
    ///
    /// ```
    /// use mdf_conversion::{ConversionBlock, Refusal};
    ///
    /// let image = std::fs::read("../../samples/tractor.mdf").unwrap();
    ///
    /// // Transmission, bit groups, stands at 2488.
    /// let masks: Vec<u64> = ConversionBlock::cc_val(&image, 2488)?.map(f64::to_bits).collect();
    /// assert_eq!(masks, [0x3, 0xc]);
    /// # Ok::<(), Refusal>(())
    /// ```
    pub fn cc_val(image: &[u8], address: u64) -> Result<impl ExactSizeIterator<Item = f64> + Clone + '_, Refusal> {
        let values = usize::from(ConversionBlock::parse(image, address)?.cc_val_count);
        Ok((0..values).map(move |place| f64::from_bits(standing(ConversionBlock::value_word(image, address, place as u64)))))
    }

    /// One reference of the block at `address`; the first has the place 0. `None` where the block has no such place.
    ///
    /// # Errors
    ///
    /// Those of [`parse`](Self::parse).
    ///
    /// ```
    /// use mdf_conversion::{ConversionBlock, Refusal};
    ///
    /// let image = std::fs::read("../../samples/tractor.mdf").unwrap();
    ///
    /// // Transmission, bit groups, stands at 2488. It leads to a conversion and a text.
    /// assert_eq!(ConversionBlock::reference(&image, 2488, 1)?, Some(1456));
    /// assert_eq!(ConversionBlock::reference(&image, 2488, 2)?, None);
    /// # Ok::<(), Refusal>(())
    /// ```
    pub fn reference(image: &[u8], address: u64, place: u64) -> Result<Option<u64>, Refusal> {
        // SAFETY: pointer and length are those of one slice.
        word_of(unsafe { raw::mdf_reference(image.as_ptr(), image.len(), address, place) })
    }

    /// The 64 bits of one value of the block at `address`; the first has the place 0. `None` where the block has no such place.
    ///
    /// # Errors
    ///
    /// Those of [`parse`](Self::parse).
    ///
    /// ```
    /// use mdf_conversion::{ConversionBlock, Refusal};
    ///
    /// let image = std::fs::read("../../samples/tractor.mdf").unwrap();
    ///
    /// // Transmission, bit groups, stands at 2488.
    /// assert_eq!(ConversionBlock::value_word(&image, 2488, 1)?, Some(0xc));
    /// assert_eq!(ConversionBlock::value_word(&image, 2488, 2)?, None);
    /// # Ok::<(), Refusal>(())
    /// ```
    pub fn value_word(image: &[u8], address: u64, place: u64) -> Result<Option<u64>, Refusal> {
        // SAFETY: pointer and length are those of one slice.
        word_of(unsafe { raw::mdf_value_word(image.as_ptr(), image.len(), address, place) })
    }

    /// Writes the block with these references and values, each value as its 64 bits, and `excess` zero bytes behind them. Answers how many bytes it
    /// wrote.
    ///
    /// The link count is 4 and the number of references, the value count the number of values, the block length what is written, the excess with
    /// it: `links_nr`, `cc_val_count` and `block_len` are not looked at. Afterwards the block stands in `out` from byte 0 on and the bytes behind it
    /// are as they were. After a refusal all of `out` is as it was.
    ///
    /// # Errors
    ///
    /// Refusal 9 [`Refusal::Count`], then 23 [`Refusal::Padding`], then 8 [`Refusal::Room`].
    ///
    /// ```
    /// use mdf_conversion::{ConversionBlock, ConversionType, Refusal};
    ///
    /// // What was parsed is written as it was.
    /// let image = std::fs::read("../../samples/tractor.mdf").unwrap();
    /// let block = ConversionBlock::parse(&image, 2488)?;
    /// let refs: Vec<u64> = ConversionBlock::cc_ref(&image, 2488)?.collect();
    /// let values: Vec<f64> = ConversionBlock::cc_val(&image, 2488)?.collect();
    /// let mut out = [0; 128];
    /// let length = block.write(&refs, &values, &mut out)?;
    /// assert_eq!(out[..length], image[2488..][..length]);
    ///
    /// // A new block.
    /// let linear = ConversionBlock { cc_precision: 3, ..ConversionBlock::new(ConversionType::Linear) };
    /// assert_eq!(linear.write(&[], &[0.0, 0.125], &mut out), Ok(80));
    /// assert_eq!(linear.write(&[], &[0.0, 0.125], &mut out[..79]), Err(Refusal::Room(None)));
    ///
    /// // Without a range 15 bytes of excess are the most.
    /// assert_eq!(ConversionBlock { excess: 15, ..linear }.write(&[], &[0.0, 0.125], &mut out), Ok(95));
    /// assert_eq!(ConversionBlock { excess: 16, ..linear }.write(&[], &[0.0, 0.125], &mut out), Err(Refusal::Padding));
    /// # Ok::<(), Refusal>(())
    /// ```
    pub fn write(&self, cc_ref: &[u64], cc_val: &[f64], out: &mut [u8]) -> Result<usize, Refusal> {
        // SAFETY: pointer and length are those of one slice; f64 and u64 have the same size and alignment here, and any 64 bits are a u64.
        let cc_val = unsafe { core::slice::from_raw_parts(cc_val.as_ptr().cast::<u64>(), cc_val.len()) };
        self.write_words(cc_ref, cc_val, out)
    }

    /// Writes the block as [`write`](Self::write) does, with the 64 bits of each value.
    ///
    /// # Errors
    ///
    /// Those of [`write`](Self::write).
    ///
    /// ```
    /// use mdf_conversion::{apply, Answer, ConversionBlock, ConversionType, Refusal, Value};
    ///
    /// // Bit groups of two masks and no texts, in an image of their own.
    /// let mut image = [0; 96];
    /// let groups = ConversionBlock::new(ConversionType::BitfieldText);
    /// assert_eq!(groups.write_words(&[0, 0], &[3, 12], &mut image), Ok(96));
    /// assert_eq!(apply(&image, 0, 1, Value::UnsignedInteger(6), &mut [])?.answer, Answer::Text(0));
    /// # Ok::<(), Refusal>(())
    /// ```
    pub fn write_words(&self, cc_ref: &[u64], words: &[u64], out: &mut [u8]) -> Result<usize, Refusal> {
        let (refs, words) = ((cc_ref.as_ptr(), cc_ref.len()), (words.as_ptr(), words.len()));
        // SAFETY: each pointer and length are those of one slice, and `out`, which is lent for writing, shares no byte with the others.
        let written = unsafe { raw::mdf_write(self.to_raw(), refs.0, refs.1, words.0, words.1, out.as_mut_ptr(), out.len()) };
        match written.refusal {
            0 => Ok(written.length as usize),
            number => Err(Refusal::of_writing(number)),
        }
    }

    /// Builds the text to value block (type 9) that matches the value to text block (type 7) at `address`: it turns the text of a key back into the
    /// key. Answers how many bytes it wrote, which for n keys are 64 + 16 * n.
    ///
    /// The keys of the old block are its values, in order; the text of a key is that of the reference with the key's index. The new block has the old
    /// block's name, unit and comment links, no inverse link, and a reference for each key, which is the old one; the old block's precision and flags,
    /// the number of keys as reference count field and as value count, no range and no padding, and as values the 64 bits of each key. A default text of
    /// the old block is not taken over. Afterwards the block stands in `out` from byte 0 on and the bytes behind it are as they were. After a refusal all
    /// of `out` is as it was.
    ///
    /// Set behind the end of the image, and applied there with a limit of 1 or more, the new block gives for the text of a key that key, all its 64
    /// bits; for any other text it gives [`Answer::Unknown`](crate::Answer::Unknown).
    ///
    /// # Errors
    ///
    /// Those of [`parse`](Self::parse), then 15 [`Refusal::WrongType`]. Then key by key 14 [`Refusal::Key`] where it is a NaN, else 12
    /// [`Refusal::NotText`] where it has no reference, or its reference is 0, leads to no ##TX that lies whole in the image, or to an empty text, else 13
    /// [`Refusal::Repeated`] where an earlier key is equal to it, as 0 and -0 are, or has an equal text. And last 8 [`Refusal::Room`].
    ///
    /// ```
    /// use mdf_conversion::{apply, Answer, ConversionBlock, Refusal, Value};
    ///
    /// // Gear, a value to text, stands at 1664. It says Low for 2.
    /// let mut image = std::fs::read("../../samples/tractor.mdf").unwrap();
    /// let mut out = [0; 80];
    /// assert_eq!(ConversionBlock::invert(&image, 1664, &mut out), Ok(80));
    /// let back = image.len() as u64;
    /// image.extend(out);
    /// assert_eq!(apply(&image, back, 1, Value::Text(b"Low"), &mut [])?.answer, Answer::Number(2.0));
    /// assert_eq!(apply(&image, back, 1, Value::Text(b"High"), &mut [])?.answer, Answer::Unknown);
    ///
    /// // It has one key. Torque, at 528, is linear; Seat switch, at 3424, has a conversion in place of its text.
    /// assert_eq!(ConversionBlock::invert(&image, 1664, &mut out[..79]), Err(Refusal::Room(None)));
    /// assert_eq!(ConversionBlock::invert(&image, 528, &mut out), Err(Refusal::WrongType(528)));
    /// assert_eq!(ConversionBlock::invert(&image, 3424, &mut out), Err(Refusal::NotText(0)));
    /// # Ok::<(), Refusal>(())
    /// ```
    pub fn invert(image: &[u8], address: u64, out: &mut [u8]) -> Result<usize, Refusal> {
        // SAFETY: each pointer and length are those of one slice, and `out`, which is lent for writing, shares no byte with the image.
        let inverted = unsafe { raw::mdf_invert(image.as_ptr(), image.len(), address, out.as_mut_ptr(), out.len()) };
        match inverted.refusal {
            0 => Ok(inverted.length as usize),
            number => Err(Refusal::of_inverting(number, inverted.index, inverted.address)),
        }
    }

    // Of a parsed block, which has four links or more and lies whole in its image, so that the number fits.
    fn references(&self) -> usize {
        (self.links_nr - 4) as usize
    }

    fn of_raw(block: &raw::Block) -> ConversionBlock {
        let range = PhysicalRange { min: f64::from_bits(block.min_word), max: f64::from_bits(block.max_word) };
        ConversionBlock {
            block_len: block.length,
            links_nr: block.links,
            cc_tx_name: link(block.name),
            cc_md_unit: link(block.unit),
            cc_md_comment: link(block.comment),
            cc_cc_inverse: link(block.inverse),
            cc_type: ConversionType::from_u8(block.kind),
            cc_precision: block.precision,
            cc_flags: block.flags,
            cc_ref_count: block.ref_count,
            cc_val_count: block.val_count,
            cc_phy_range: (block.ranged != 0).then_some(range),
            reserved: block.reserved,
            excess: block.excess,
        }
    }

    fn to_raw(self) -> raw::Block {
        let range = self.cc_phy_range.unwrap_or(PhysicalRange { min: 0.0, max: 0.0 });
        raw::Block {
            length: self.block_len,
            links: self.links_nr,
            name: self.cc_tx_name.unwrap_or(0),
            unit: self.cc_md_unit.unwrap_or(0),
            comment: self.cc_md_comment.unwrap_or(0),
            inverse: self.cc_cc_inverse.unwrap_or(0),
            range_min: range.min,
            range_max: range.max,
            min_word: range.min.to_bits(),
            max_word: range.max.to_bits(),
            excess: self.excess,
            reserved: self.reserved,
            flags: self.cc_flags,
            ref_count: self.cc_ref_count,
            val_count: self.cc_val_count,
            kind: self.cc_type.to_u8(),
            precision: self.cc_precision,
            ranged: u8::from(self.cc_phy_range.is_some()),
        }
    }
}

fn link(address: u64) -> Option<u64> {
    (address != 0).then_some(address)
}

fn block_of(parsed: raw::Parsed) -> Result<ConversionBlock, Refusal> {
    match parsed.refusal {
        0 => Ok(ConversionBlock::of_raw(&parsed.block)),
        number => Err(Refusal::at(number, parsed.address)),
    }
}

fn word_of(read: raw::Word) -> Result<Option<u64>, Refusal> {
    match read.refusal {
        0 => Ok((read.found != 0).then_some(read.word)),
        number => Err(Refusal::at(number, read.address)),
    }
}

// The word at a place that a parsed block has by its own count.
fn standing(read: Result<Option<u64>, Refusal>) -> u64 {
    match read {
        Ok(Some(word)) => word,
        _ => unreachable!("the archive does not find what it has counted"),
    }
}
