//! A conversion applied to a value.
use crate::mode::Mode;
use crate::raw;
use crate::refusal::{Refusal, Stopped, Visits};

/// A value to convert.
#[derive(Clone, Copy, Debug, PartialEq)]
pub enum Value<'a> {
    /// An unsigned whole number.
    UnsignedInteger(u64),
    /// A signed whole number. Bit groups see its 64 bits in two's complement, or as many low ones as the [`Mode`] says.
    SignedInteger(i64),
    /// A float.
    Float(f64),
    /// The bytes of a text, with no zero at its end.
    Text(&'a [u8]),
    /// A value of any other kind. It stays unchanged.
    Other,
}

/// An unsigned whole number.
impl From<u64> for Value<'_> {
    fn from(number: u64) -> Self {
        Value::UnsignedInteger(number)
    }
}

/// A signed whole number.
impl From<i64> for Value<'_> {
    fn from(number: i64) -> Self {
        Value::SignedInteger(number)
    }
}

/// A float.
impl From<f64> for Value<'_> {
    fn from(number: f64) -> Self {
        Value::Float(number)
    }
}

/// What a conversion gives for a value.
#[must_use]
#[derive(Clone, Copy, Debug, PartialEq)]
pub enum Answer {
    /// A number.
    Number(f64),
    /// A text of so many bytes, which stands at the front of the output buffer.
    Text(usize),
    /// The value stays as it is.
    Unchanged,
    /// The value has no counterpart.
    Unknown,
}

/// An answer, how many blocks were visited for it, and whether a malformed table was consulted.
#[must_use]
#[derive(Clone, Copy, Debug, PartialEq)]
pub struct Applied {
    /// What the conversion gives.
    pub answer: Answer,
    /// The visits of the check and of applying.
    pub visits: Visits,
    /// Whether a malformed table was consulted: a range to text (type 8), at the address or nested, was applied to a number, and has no, one or an odd
    /// number of values. Its first reference then decides, whatever the number is.
    ///
    /// ```
    /// use mdf_conversion::{apply, Refusal, Value};
    ///
    /// let image = std::fs::read("../../samples/tractor.mdf").unwrap();
    /// let mut out = [0; 64];
    ///
    /// // Hydraulic flow, a range to text of three values, stands at 3688.
    /// let flow = apply(&image, 3688, 4096, Value::from(15u64), &mut out)?;
    /// assert_eq!(flow.text(&out), Some(b"slow".as_slice()));
    /// assert!(flow.malformed);
    /// # Ok::<(), Refusal>(())
    /// ```
    pub malformed: bool,
}

impl Applied {
    /// The bytes of an [`Answer::Text`], from the front of the `out` that was lent to [`apply`]. `None` for any other answer, and where `out` is
    /// shorter than the text, as only another buffer can be.
    ///
    /// ```
    /// use mdf_conversion::{apply, Refusal, Value};
    ///
    /// let image = std::fs::read("../../samples/tractor.mdf").unwrap();
    /// let mut out = [0; 64];
    ///
    /// // Transmission, bit groups, stands at 2488; torque, a linear conversion, at 528.
    /// let transmission = apply(&image, 2488, 4096, Value::from(6u64), &mut out)?;
    /// assert_eq!(transmission.text(&out), Some(b"Gear = Low|PTO".as_slice()));
    /// let torque = apply(&image, 528, 4096, Value::from(-3i64), &mut out)?;
    /// assert_eq!(torque.text(&out), None);
    /// # Ok::<(), Refusal>(())
    /// ```
    #[must_use]
    pub fn text<'a>(&self, out: &'a [u8]) -> Option<&'a [u8]> {
        match self.answer {
            Answer::Text(length) => out.get(..length),
            Answer::Number(_) | Answer::Unchanged | Answer::Unknown => None,
        }
    }
}

/// Checks as [`check`](crate::check) does, then applies the conversion at `address` to a value.
///
/// Afterwards the text of an [`Answer::Text`] stands in `out` from byte 0 on and the bytes behind it are as they were. After any other answer, and
/// after every refusal, all of `out` is as it was.
///
/// # Errors
///
/// Refusals 1 to 6 and 18 of the check, then 7 [`Refusal::Formula`], then 8 [`Refusal::Room`]. The last two carry the visits, and whether a malformed
/// table was consulted.
///
/// ```
/// use mdf_conversion::{apply, Answer, Refusal, Stopped, Value, Visits};
///
/// let image = std::fs::read("../../samples/tractor.mdf").unwrap();
/// let mut out = *b"....................";
///
/// // Oil temperature, a range to text with a default conversion, stands at 1824.
/// let cold = apply(&image, 1824, 4096, Value::UnsignedInteger(10), &mut out)?;
/// assert_eq!(cold.answer, Answer::Text(4));
/// assert_eq!(&out, b"cold................");
/// assert_eq!(cold.visits, Visits { checked: 2, applied: 1 });
///
/// let degrees = apply(&image, 1824, 4096, Value::UnsignedInteger(100), &mut out)?;
/// assert_eq!(degrees.answer, Answer::Number(10.0));
///
/// // Lamp command, a text to value, stands at 2280.
/// let lamp = apply(&image, 2280, 4096, Value::Text(b"on"), &mut out)?;
/// assert_eq!(lamp.answer, Answer::Number(1.0));
///
/// // Slip, a formula, stands at 816.
/// let slip = apply(&image, 816, 4096, Value::Float(0.5), &mut out);
/// let visits = Visits { checked: 1, applied: 1 };
/// assert_eq!(slip, Err(Refusal::Formula(Stopped { visits, malformed: false })));
/// # Ok::<(), Refusal>(())
/// ```
pub fn apply(image: &[u8], address: u64, limit: u32, value: Value<'_>, out: &mut [u8]) -> Result<Applied, Refusal> {
    outcome(call(image, address, limit, value, out))
}

/// Applies as [`apply`] does, in a mode: bit groups see no more than the low bits that the signal has, and in a file of edition 4.10 there are none.
///
/// # Errors
///
/// 11 [`Refusal::Width`] where the width is 0 or above 64, before anything else is looked at; then the refusals of [`apply`].
///
/// ```
/// use mdf_conversion::{apply_in, Answer, Edition, Mode, Refusal, Value};
///
/// let image = std::fs::read("../../samples/tractor.mdf").unwrap();
/// let mut out = [0; 64];
///
/// // Transmission, bit groups, stands at 2488: its first group is bits 0 and 1, of which a signal of one bit has one.
/// let transmission = apply_in(&image, 2488, 4096, Mode::width(1), Value::from(6u64), &mut out)?;
/// assert_eq!(transmission.text(&out), Some(b"PTO".as_slice()));
/// let refused = apply_in(&image, u64::MAX, 0, Mode::width(65), Value::from(6u64), &mut out);
/// assert_eq!(refused, Err(Refusal::Width));
/// // In a file of edition 4.10 its type is unknown.
/// let older = apply_in(&image, 2488, 4096, Mode::STANDARD.edition(Edition::Mdf410), Value::from(6u64), &mut out)?;
/// assert_eq!(older.answer, Answer::Unchanged);
/// # Ok::<(), Refusal>(())
/// ```
pub fn apply_in(image: &[u8], address: u64, limit: u32, mode: Mode, value: Value<'_>, out: &mut [u8]) -> Result<Applied, Refusal> {
    outcome(call_in(image, address, limit, mode.raw(), value, out))
}

fn outcome(applied: raw::Applied) -> Result<Applied, Refusal> {
    let visits = Visits { checked: applied.checked, applied: applied.applied };
    let malformed = applied.malformed != 0;
    match applied.refusal {
        0 => Ok(Applied { answer: answer_of(&applied), visits, malformed }),
        7 => Err(Refusal::Formula(Stopped { visits, malformed })),
        8 => Err(Refusal::Room(Some(Stopped { visits, malformed }))),
        number => Err(Refusal::at(number, applied.address)),
    }
}

fn call(image: &[u8], address: u64, limit: u32, value: Value<'_>, out: &mut [u8]) -> raw::Applied {
    let (from, len) = (image.as_ptr(), image.len());
    let (to, room) = (out.as_mut_ptr(), out.len());
    // SAFETY: each pointer and length are those of one slice, and `out`, which is lent for writing, shares no byte with the others.
    unsafe {
        match value {
            Value::UnsignedInteger(number) => raw::mdf_apply_unsigned(from, len, address, limit, number, to, room),
            Value::SignedInteger(number) => raw::mdf_apply_signed(from, len, address, limit, number, to, room),
            Value::Float(number) => raw::mdf_apply_float(from, len, address, limit, number, to, room),
            Value::Text(text) => raw::mdf_apply_text(from, len, address, limit, text.as_ptr(), text.len(), to, room),
            Value::Other => raw::mdf_apply_other(from, len, address, limit, to, room),
        }
    }
}

fn call_in(image: &[u8], address: u64, limit: u32, mode: raw::Mode, value: Value<'_>, out: &mut [u8]) -> raw::Applied {
    let (from, len) = (image.as_ptr(), image.len());
    let (to, room) = (out.as_mut_ptr(), out.len());
    // SAFETY: as in `call`.
    unsafe {
        match value {
            Value::UnsignedInteger(number) => raw::mdf_apply_mode_unsigned(from, len, address, limit, mode, number, to, room),
            Value::SignedInteger(number) => raw::mdf_apply_mode_signed(from, len, address, limit, mode, number, to, room),
            Value::Float(number) => raw::mdf_apply_mode_float(from, len, address, limit, mode, number, to, room),
            Value::Text(text) => raw::mdf_apply_mode_text(from, len, address, limit, mode, text.as_ptr(), text.len(), to, room),
            Value::Other => raw::mdf_apply_mode_other(from, len, address, limit, mode, to, room),
        }
    }
}

fn answer_of(applied: &raw::Applied) -> Answer {
    match applied.kind {
        1 => Answer::Number(applied.number),
        2 => Answer::Text(applied.length as usize),
        3 => Answer::Unchanged,
        4 => Answer::Unknown,
        kind => unreachable!("the archive answers with the kind {kind}"),
    }
}

/// Translates a text without copying it.
///
/// Answers the part of the image with the text that a text to text conversion (type 10) chooses for the question. Answers the question itself where
/// the check refuses, the root has another type, or no text is chosen. Names no refusal.
///
/// ```
/// use mdf_conversion::translate;
///
/// let image = std::fs::read("../../samples/tractor.mdf").unwrap();
///
/// // Fault text, a text to text, stands at 2384.
/// assert_eq!(translate(&image, 2384, 4096, b"E1"), b"oil pressure low");
/// assert_eq!(translate(&image, 2384, 4096, b"E9"), b"fault not known");
/// // A linear conversion stands at 528.
/// assert_eq!(translate(&image, 528, 4096, b"E1"), b"E1");
/// ```
#[must_use]
pub fn translate<'a>(image: &'a [u8], address: u64, limit: u32, question: &'a [u8]) -> &'a [u8] {
    // SAFETY: each pointer and length are those of one slice.
    let shown = unsafe { raw::mdf_translate(image.as_ptr(), image.len(), address, limit, question.as_ptr(), question.len()) };
    match shown.from_image {
        0 => question,
        _ => &image[shown.start as usize..][..shown.length as usize],
    }
}
