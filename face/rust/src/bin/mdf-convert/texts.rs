//! What a link leads to: names, units and comments are shown, and no answer depends on them. The archive reads the texts, as it reads all else of the
//! image.
use mdf_conversion::{ConversionBlock, Refusal, TextBlock, TextId};

pub enum Lead<'a> {
    Nowhere,
    /// The text of a ##TX block.
    Text(&'a [u8]),
    /// The text of a ##MD block, which is XML.
    Metadata(&'a [u8]),
    Conversion,
    Other,
    Outside,
}

/// What stands at the link's address.
pub fn lead(image: &[u8], link: Option<u64>) -> Lead<'_> {
    let Some(address) = link.filter(|address| *address != 0) else {
        return Lead::Nowhere;
    };
    match TextBlock::read(image, address) {
        Ok(TextBlock { id: TextId::Tx, text }) => Lead::Text(text),
        Ok(TextBlock { id: TextId::Md, text }) => Lead::Metadata(text),
        Err(Refusal::Outside(_)) => Lead::Outside,
        Err(Refusal::NotTextBlock(_)) if is_conversion(image, address) => Lead::Conversion,
        Err(_) => Lead::Other,
    }
}

// Of a block whose header lies in the image.
fn is_conversion(image: &[u8], address: u64) -> bool {
    !matches!(ConversionBlock::parse(image, address), Err(Refusal::NotConversion(_)))
}
