//! How an application is to be done.
use crate::raw;
use crate::refusal::Refusal;

/// How an application is to be done: how many bits the signal has, and of which edition the file is.
///
/// Bit groups (type 11) see no more than the low bits that the signal has, wherever such a block is reached; no other conversion looks at the width.
/// A width that is no width, 0 or above 64, can be named: [`apply_in`](crate::apply_in) refuses it. No conversion but type 11 looks at the edition.
///
/// ```
/// use mdf_conversion::{apply, apply_in, Answer, Edition, Mode, Refusal, Value};
///
/// let image = std::fs::read("../../samples/tractor.mdf").unwrap();
/// let mut out = [0; 64];
///
/// // Implement status, bit groups for a signed signal of 4 bits, stands at 4288. Its alarm is bits 4 and 5, which -1 does not have there.
/// let narrow = apply_in(&image, 4288, 4096, Mode::width(4), Value::from(-1i64), &mut out)?;
/// assert_eq!(narrow.text(&out), Some(b"Hitch = floating|Valve = open".as_slice()));
/// let wide = apply(&image, 4288, 4096, Value::from(-1i64), &mut out)?;
/// assert_eq!(wide.text(&out), Some(b"Hitch = floating|Valve = open|Alarm = overload".as_slice()));
///
/// // In a file of edition 4.10 the same block has an unknown type.
/// let older = apply_in(&image, 4288, 4096, Mode::width(4).edition(Edition::Mdf410), Value::from(-1i64), &mut out)?;
/// assert_eq!(older.answer, Answer::Unchanged);
/// # Ok::<(), Refusal>(())
/// ```
#[must_use]
#[derive(Clone, Copy, Debug, PartialEq, Eq, Hash)]
pub struct Mode {
    width: u32,
    edition: Edition,
}

impl Mode {
    /// The rule of [`apply`](crate::apply): bit groups see all 64 bits, and the file is of edition 4.20.
    pub const STANDARD: Mode = Mode::width(64);

    /// A signal of so many bits, 1 to 64, in a file of edition 4.20.
    pub const fn width(width: u32) -> Mode {
        Mode { width, edition: Edition::Mdf420 }
    }

    /// The same signal in a file of this edition.
    pub const fn edition(self, edition: Edition) -> Mode {
        Mode { edition, ..self }
    }

    pub(crate) fn raw(self) -> raw::Mode {
        raw::Mode { width: self.width, edition: self.edition.number() }
    }
}

/// [`Mode::STANDARD`].
impl Default for Mode {
    fn default() -> Mode {
        Mode::STANDARD
    }
}

/// An edition of MDF. Bit groups (type 11) came with 4.20; some older files carry type 11 with another meaning.
///
/// The check is alike in both, and so is every other conversion.
///
/// ```
/// use mdf_conversion::{Edition, Refusal};
///
/// // The identification block, at 0 of a file, has the edition's number at 28.
/// let image = std::fs::read("../../samples/tractor.mdf").unwrap();
/// let number = u16::from_le_bytes([image[28], image[29]]);
/// assert_eq!(Edition::try_from(u32::from(number)), Ok(Edition::Mdf420));
/// assert_eq!(Edition::try_from(400), Err(Refusal::Edition));
/// ```
#[derive(Clone, Copy, Debug, Default, PartialEq, Eq, Hash)]
pub enum Edition {
    /// 4.10: type 11 is unknown. It leaves its value as it is, counts as one block applied, and passes nothing to its references.
    Mdf410,
    /// 4.20: type 11 is bit groups, as in [`apply`](crate::apply).
    #[default]
    Mdf420,
}

impl Edition {
    /// The edition's number: 410 or 420.
    #[must_use]
    pub const fn number(self) -> u32 {
        match self {
            Edition::Mdf410 => 410,
            Edition::Mdf420 => 420,
        }
    }
}

/// The edition with this number. Any other than 410 and 420 is [`Refusal::Edition`].
impl TryFrom<u32> for Edition {
    type Error = Refusal;

    fn try_from(number: u32) -> Result<Edition, Refusal> {
        match number {
            410 => Ok(Edition::Mdf410),
            420 => Ok(Edition::Mdf420),
            _ => Err(Refusal::Edition),
        }
    }
}
