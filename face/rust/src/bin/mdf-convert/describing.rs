//! A conversion checked, and its fields in words; or a text.
use crate::printing::{number, quoted};
use crate::texts::{lead, Lead};
use crate::Stop;
use mdf_conversion::{check, ConversionBlock, ConversionType, PhysicalRange, Refusal, TextBlock, TextId};
use std::io::Write;

/// Prints the text of a text block; or, of any other, the check's answer and, if it can be parsed, its fields. Answers the refusal, if there is one.
pub fn describe(image: &[u8], address: u64, limit: u32, out: &mut impl Write) -> Result<Option<Refusal>, Stop> {
    match TextBlock::read(image, address) {
        Ok(block) => {
            print_text(&block, out)?;
            Ok(None)
        }
        Err(refusal @ Refusal::Short(_)) => {
            writeln!(out, "{refusal}")?;
            Ok(Some(refusal))
        }
        Err(_) => describe_conversion(image, address, limit, out),
    }
}

fn print_text(block: &TextBlock<'_>, out: &mut impl Write) -> Result<(), Stop> {
    let id = match block.id {
        TextId::Tx => "##TX",
        TextId::Md => "##MD",
    };
    writeln!(out, "id: {id}\ntext: {}", quoted(block.text))?;
    Ok(())
}

fn describe_conversion(image: &[u8], address: u64, limit: u32, out: &mut impl Write) -> Result<Option<Refusal>, Stop> {
    let checked = check(image, address, limit);
    match &checked {
        Ok(visits) => writeln!(out, "accepted, visits {visits}")?,
        Err(refusal) => writeln!(out, "{refusal}")?,
    }
    let kept = ConversionBlock::parse_kept(image, address);
    if let Ok(block) = kept.or_else(|_| ConversionBlock::parse(image, address)) {
        print_fields(image, &block, out)?;
        print_padding(&block, kept.is_ok(), out)?;
        print_references(image, address, out)?;
        print_values(image, address, block.cc_type, out)?;
    }
    Ok(checked.err())
}

fn print_fields(image: &[u8], block: &ConversionBlock, out: &mut impl Write) -> Result<(), Stop> {
    writeln!(out, "type: {} {}", block.cc_type.to_u8(), block.cc_type)?;
    writeln!(out, "name: {}", text_or_block(image, block.cc_tx_name))?;
    writeln!(out, "unit: {}", text_or_metadata(image, block.cc_md_unit))?;
    writeln!(out, "comment: {}", text_or_metadata(image, block.cc_md_comment))?;
    writeln!(out, "inverse: {}", text_or_block(image, block.cc_cc_inverse))?;
    writeln!(out, "precision: {}", block.cc_precision)?;
    writeln!(out, "flags: {}", block.cc_flags)?;
    writeln!(out, "range: {}", range(block.cc_phy_range))?;
    writeln!(out, "block length: {}", block.block_len)?;
    writeln!(out, "link count: {}", block.links_nr)?;
    writeln!(out, "reference count field: {}", block.cc_ref_count)?;
    Ok(())
}

// Only where there is some. A block that can be parsed and not kept has a block length that passes the image end.
fn print_padding(block: &ConversionBlock, kept: bool, out: &mut impl Write) -> Result<(), Stop> {
    if block.reserved != 0 {
        writeln!(out, "reserved bytes: {:#010x}", block.reserved)?;
    }
    if block.excess != 0 {
        writeln!(out, "excess: {}", block.excess)?;
    }
    if !kept {
        writeln!(out, "excess: not kept, the block length passes the image end")?;
    }
    Ok(())
}

fn print_references(image: &[u8], address: u64, out: &mut impl Write) -> Result<(), Stop> {
    let Ok(references) = ConversionBlock::cc_ref(image, address) else {
        return Ok(());
    };
    writeln!(out, "references: {}", references.len())?;
    for (place, link) in references.enumerate() {
        writeln!(out, "  {place}: {}", text_or_block(image, Some(link)))?;
    }
    Ok(())
}

fn print_values(image: &[u8], address: u64, cc_type: ConversionType, out: &mut impl Write) -> Result<(), Stop> {
    let Ok(values) = ConversionBlock::cc_val(image, address) else {
        return Ok(());
    };
    writeln!(out, "values: {}", values.len())?;
    for (place, value) in values.enumerate() {
        match cc_type {
            ConversionType::BitfieldText => writeln!(out, "  {place}: mask {:#x}", value.to_bits())?,
            _ => writeln!(out, "  {place}: {}", number(value))?,
        }
    }
    Ok(())
}

fn range(range: Option<PhysicalRange>) -> String {
    match range {
        Some(PhysicalRange { min, max }) => format!("{} to {}", number(min), number(max)),
        None => "none".into(),
    }
}

// A link that may lead to a ##MD block.
fn text_or_metadata(image: &[u8], link: Option<u64>) -> String {
    match (lead(image, link), link) {
        (Lead::Metadata(text), Some(address)) => format!("MD {} at {address}", quoted(text)),
        _ => text_or_block(image, link),
    }
}

fn text_or_block(image: &[u8], link: Option<u64>) -> String {
    let address = link.unwrap_or(0);
    match lead(image, link) {
        Lead::Nowhere => "none".into(),
        Lead::Text(text) => format!("{} at {address}", quoted(text)),
        Lead::Conversion => format!("conversion at {address}"),
        Lead::Metadata(_) | Lead::Other => format!("no text or conversion at {address}"),
        Lead::Outside => format!("{address}, outside the image"),
    }
}
