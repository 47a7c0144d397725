//! One text block, ##TX or ##MD, read and written.
use crate::raw;
use crate::refusal::Refusal;

/// The id of a text block.
#[derive(Clone, Copy, Debug, Default, PartialEq, Eq, Hash)]
pub enum TextId {
    /// ##TX, a plain text: what conversions take.
    #[default]
    Tx,
    /// ##MD, metadata, a text that is XML. It gives a conversion no text.
    Md,
}

/// A text block: its id and the bytes of its text, with no zero at their end.
///
/// ```
/// use mdf_conversion::{ConversionBlock, Refusal, TextBlock};
///
/// // Torque, a linear conversion, stands at 528.
/// let image = std::fs::read("../../samples/tractor.mdf").unwrap();
/// let name = ConversionBlock::parse(&image, 528)?.cc_tx_name.unwrap();
/// assert_eq!(TextBlock::read(&image, name), Ok(TextBlock::new("Torque")));
/// # Ok::<(), Refusal>(())
/// ```
#[must_use]
#[derive(Clone, Copy, Debug, Default, PartialEq, Eq, Hash)]
pub struct TextBlock<'a> {
    /// The block's id.
    pub id: TextId,
    /// The bytes of the text. They may be no UTF-8; a zero byte among them cannot be written.
    pub text: &'a [u8],
}

impl<'a> TextBlock<'a> {
    /// A ##TX block of this text.
    ///
    /// ```
    /// use mdf_conversion::{TextBlock, TextId};
    ///
    /// assert_eq!(TextBlock::new("°C"), TextBlock { id: TextId::Tx, text: b"\xc2\xb0C" });
    /// ```
    pub fn new(text: &'a str) -> TextBlock<'a> {
        TextBlock { id: TextId::Tx, text: text.as_bytes() }
    }

    /// A ##TX block of the empty text.
    pub fn new_empty() -> TextBlock<'a> {
        TextBlock::default()
    }

    /// Reads the text block at `address`, ##TX or ##MD. Address 0 is an address like any other: it is no link here.
    ///
    /// The text is a part of the image: from the block's byte 24 on, up to the first zero byte, or to the block length if no zero stands before that.
    /// The link count and the reserved bytes are not looked at.
    ///
    /// # Errors
    ///
    /// 1 [`Refusal::Outside`] where address + 24 passes the image end, then 22 [`Refusal::NotTextBlock`] where the id is another, then 4
    /// [`Refusal::Short`] where the block length is below 24 or address + block length passes the image end.
    ///
    /// ```
    /// use mdf_conversion::{Refusal, TextBlock, TextId};
    ///
    /// let image = std::fs::read("../../samples/tractor.mdf").unwrap();
    ///
    /// // The unit of torque, a text, stands at 168; a comment, metadata, at 2624.
    /// assert_eq!(TextBlock::read(&image, 168)?, TextBlock { id: TextId::Tx, text: b"Nm" });
    /// assert_eq!(TextBlock::read(&image, 2624)?, TextBlock { id: TextId::Md, text: b"<CCcomment/>" });
    ///
    /// // Torque itself, a conversion, stands at 528.
    /// assert_eq!(TextBlock::read(&image, 528), Err(Refusal::NotTextBlock(528)));
    /// // The unit has 32 bytes, of which here the last one is missing, and here all but the header, and one of that.
    /// assert_eq!(TextBlock::read(&image[..168 + 31], 168), Err(Refusal::Short(168)));
    /// assert_eq!(TextBlock::read(&image[..168 + 23], 168), Err(Refusal::Outside(168)));
    /// # Ok::<(), Refusal>(())
    /// ```
    pub fn read(image: &'a [u8], address: u64) -> Result<TextBlock<'a>, Refusal> {
        // SAFETY: pointer and length are those of one slice.
        let read = unsafe { raw::mdf_text_read(image.as_ptr(), image.len(), address) };
        match read.refusal {
            0 => Ok(TextBlock { id: id_of(read.id), text: &image[read.start as usize..][..read.length as usize] }),
            number => Err(Refusal::at(number, read.address)),
        }
    }

    /// Writes the block: header, text, one zero byte, and zeros up to a multiple of 8. Answers how many bytes it wrote, which is the block length.
    ///
    /// Its reserved bytes and its link count are 0. Afterwards the block stands in `out` from byte 0 on and the bytes behind it are as they were.
    /// After a refusal all of `out` is as it was. [`read`](Self::read) gives the same block back, wherever it stands in an image.
    ///
    /// # Errors
    ///
    /// 21 [`Refusal::ZeroByte`] where the text holds a zero byte, whatever the room, then 8 [`Refusal::Room`].
    ///
    /// ```
    /// use mdf_conversion::{Refusal, TextBlock};
    ///
    /// let mut out = [0xff; 40];
    /// assert_eq!(TextBlock::new("Torque").write(&mut out), Ok(32));
    /// assert_eq!(&out[24..], b"Torque\0\0\xff\xff\xff\xff\xff\xff\xff\xff");
    /// assert_eq!(TextBlock::read(&out, 0), Ok(TextBlock::new("Torque")));
    ///
    /// // A text of 8 bytes takes 8 zeros, one of 7 bytes a single one.
    /// assert_eq!(TextBlock::new("Oil 90°").write(&mut out), Ok(40));
    /// assert_eq!(TextBlock::new("Oil 90C").write(&mut out), Ok(32));
    ///
    /// assert_eq!(TextBlock::new("Torque").write(&mut out[..31]), Err(Refusal::Room(None)));
    /// assert_eq!(TextBlock::new("Torque\0").write(&mut []), Err(Refusal::ZeroByte));
    /// ```
    pub fn write(&self, out: &mut [u8]) -> Result<usize, Refusal> {
        let metadata = self.id == TextId::Md;
        // SAFETY: each pointer and length are those of one slice, and `out`, which is lent for writing, shares no byte with the text.
        let written = unsafe { raw::mdf_text_write(metadata, self.text.as_ptr(), self.text.len(), out.as_mut_ptr(), out.len()) };
        match written.refusal {
            0 => Ok(written.length as usize),
            number => Err(Refusal::of_writing(number)),
        }
    }
}

fn id_of(number: u32) -> TextId {
    match number {
        0 => TextId::Tx,
        1 => TextId::Md,
        _ => unreachable!("the archive reads a text block with the id {number}"),
    }
}
