// The oracle's answers: the crate parses, resolves with the address, then applies with the image. A panic of the crate is an answer too.
use crate::side::{same_float, Block, Value};
use oracle::blocks::common::{read_string_block, BlockHeader, BlockParse};
use oracle::blocks::conversion::{ConversionBlock, ConversionType};
use oracle::blocks::text_block::TextBlock;
use oracle::error::MdfError;
use oracle::parsing::decoder::DecodedValue;
use std::cell::Cell;
use std::panic::{catch_unwind, set_hook, take_hook, AssertUnwindSafe};

pub enum Outcome<T> {
    Answer(T),
    Error(MdfError),
    Panic,
}

thread_local!(static ASKING: Cell<bool> = const { Cell::new(false) });

/// The crate's panics are caught without a word; all others are told as ever.
pub fn quiet_panics() {
    let usual = take_hook();
    set_hook(Box::new(move |info| {
        if !ASKING.with(|a| a.get()) {
            usual(info)
        }
    }));
}

fn asked<T>(question: impl FnOnce() -> Result<T, MdfError>) -> Outcome<T> {
    ASKING.with(|a| a.set(true));
    let answer = catch_unwind(AssertUnwindSafe(question));
    ASKING.with(|a| a.set(false));
    match answer {
        Ok(Ok(answer)) => Outcome::Answer(answer),
        Ok(Err(error)) => Outcome::Error(error),
        Err(_) => Outcome::Panic,
    }
}

/// The block at an address, its references not looked at.
pub fn parsed(image: &[u8], address: u64) -> Outcome<ConversionBlock> {
    asked(|| ConversionBlock::from_bytes(&image[address as usize..]))
}

/// The block at an address, its references resolved.
pub fn resolved(image: &[u8], address: u64) -> Outcome<ConversionBlock> {
    asked(|| {
        let mut block = ConversionBlock::from_bytes(&image[address as usize..])?;
        block.resolve_all_dependencies_with_address(image, address)?;
        Ok(block)
    })
}

/// The blocks of the resolved tree. A default conversion is kept beside the other nested ones, not among them.
pub fn tree_size(block: &ConversionBlock) -> u64 {
    let nested = block.resolved_conversions.iter().flat_map(|m| m.values());
    let default = block.default_conversion.iter();
    1 + nested.chain(default).map(|b| tree_size(b)).sum::<u64>()
}

/// A value in the crate's terms; none for a text that is not UTF-8.
pub fn decoded(value: Value, text: &[u8]) -> Option<DecodedValue> {
    Some(match value {
        Value::Unsigned(n) => DecodedValue::UnsignedInteger(n),
        Value::Signed(n) => DecodedValue::SignedInteger(n),
        Value::Float(x) => DecodedValue::Float(x),
        Value::Text => DecodedValue::String(String::from_utf8(text.to_vec()).ok()?),
        Value::Other(0) => DecodedValue::ByteArray(vec![1, 2]),
        Value::Other(1) => DecodedValue::MimeSample(vec![3]),
        Value::Other(2) => DecodedValue::MimeStream(Vec::new()),
        Value::Other(_) => DecodedValue::Unknown,
    })
}

pub fn applied(block: &ConversionBlock, value: DecodedValue, image: &[u8]) -> Outcome<DecodedValue> {
    asked(|| block.apply_decoded(value, image))
}

pub fn written(block: &ConversionBlock) -> Outcome<Vec<u8>> {
    asked(|| block.to_bytes())
}

/// A text as a ##TX: the crate writes no ##MD.
pub fn text_written(text: &str) -> Outcome<Vec<u8>> {
    asked(|| TextBlock::new(text).to_bytes())
}

/// The text of the ##TX or ##MD at an address; none at address 0, and where another id stands.
pub fn text_at(image: &[u8], address: u64) -> Outcome<Option<String>> {
    asked(|| read_string_block(image, address))
}

/// The header at an address.
pub fn header_at(image: &[u8], address: u64) -> Outcome<BlockHeader> {
    asked(|| BlockHeader::from_bytes(image.get(address as usize..).unwrap_or(&[])))
}

/// Equal values, all NaNs as one.
pub fn same_value(a: &DecodedValue, b: &DecodedValue) -> bool {
    match (a, b) {
        (DecodedValue::Float(x), DecodedValue::Float(y)) => same_float(*x, *y),
        _ => a == b,
    }
}

/// The crate's record with NIL as 0, no range as zeros, and no padding.
pub fn record(block: &ConversionBlock) -> Block {
    let (min, max) = (block.cc_phy_range_min, block.cc_phy_range_max);
    Block {
        length: block.header.block_len,
        links: block.header.links_nr,
        name: block.cc_tx_name.unwrap_or(0),
        unit: block.cc_md_unit.unwrap_or(0),
        comment: block.cc_md_comment.unwrap_or(0),
        inverse: block.cc_cc_inverse.unwrap_or(0),
        range_min: min.unwrap_or(0.0),
        range_max: max.unwrap_or(0.0),
        min_word: min.unwrap_or(0.0).to_bits(),
        max_word: max.unwrap_or(0.0).to_bits(),
        excess: 0,
        reserved: 0,
        flags: block.cc_flags,
        ref_count: block.cc_ref_count,
        val_count: block.cc_val_count,
        kind: block.cc_type.to_u8(),
        precision: block.cc_precision,
        ranged: min.is_some() && max.is_some(),
    }
}

/// The crate's record of these fields, for its writer.
pub fn block_of(b: &Block, refs: &[u64], words: &[u64]) -> ConversionBlock {
    let link = |l: u64| (l != 0).then_some(l);
    // A NaN has the bits that are kept beside it.
    let bound = |float: f64, kept: u64| if float.is_nan() { f64::from_bits(kept) } else { float };
    ConversionBlock {
        header: BlockHeader { id: "##CC".to_string(), reserved0: b.reserved, block_len: b.length, links_nr: b.links },
        cc_tx_name: link(b.name),
        cc_md_unit: link(b.unit),
        cc_md_comment: link(b.comment),
        cc_cc_inverse: link(b.inverse),
        cc_ref: refs.to_vec(),
        cc_type: ConversionType::from_u8(b.kind),
        cc_precision: b.precision,
        cc_flags: b.flags,
        cc_ref_count: b.ref_count,
        cc_val_count: b.val_count,
        cc_phy_range_min: b.ranged.then(|| bound(b.range_min, b.min_word)),
        cc_phy_range_max: b.ranged.then(|| bound(b.range_max, b.max_word)),
        cc_val: words.iter().map(|&w| f64::from_bits(w)).collect(),
        formula: None,
        resolved_texts: None,
        resolved_conversions: None,
        default_conversion: None,
    }
}
