//! Why a call refused.
use core::error::Error;
use core::fmt;

/// How many blocks a call of [`apply`](crate::apply) visited. A block that is reached twice counts twice.
#[derive(Clone, Copy, Debug, Default, PartialEq, Eq, Hash)]
pub struct Visits {
    /// N, the visits of the check.
    pub checked: u32,
    /// M, the visits of applying.
    pub applied: u32,
}

/// What an application had done when it was refused.
#[derive(Clone, Copy, Debug, Default, PartialEq, Eq, Hash)]
pub struct Stopped {
    /// The visits of the check and of applying.
    pub visits: Visits,
    /// Whether a malformed table had been consulted, as in [`Applied::malformed`](crate::Applied::malformed).
    pub malformed: bool,
}

/// Why a call refused. A call that refuses leaves its output buffer as it was.
///
/// 1 to 6, 15, 18 and 22 carry the address of the block or link, 12 to 14 the index of a key, the first of which is 0. 7, and 8 where it comes from
/// applying, carry the visits of both walks, and whether a malformed table was consulted.
///
/// ```
/// use mdf_conversion::{apply, ConversionBlock, Refusal, Value, Visits};
///
/// let image = std::fs::read("../../samples/tractor.mdf").unwrap();
///
/// // Bit groups whose text has 14 bytes, and 13 bytes of room.
/// let refusal = apply(&image, 2488, 4096, Value::UnsignedInteger(6), &mut [0; 13]).unwrap_err();
/// assert_eq!(refusal.number(), 8);
/// assert_eq!(refusal.visits(), Some(Visits { checked: 2, applied: 2 }));
/// assert!(!refusal.malformed());
/// assert_eq!(refusal.to_string(), "refused 8 Room");
///
/// // Two conversions that lead to each other.
/// let refusal = apply(&image, 3424, 4096, Value::UnsignedInteger(1), &mut []).unwrap_err();
/// assert_eq!(refusal, Refusal::Loop(3424));
/// assert_eq!(refusal.to_string(), "refused 6 Loop at 3424");
///
/// // A key whose reference leads to no text.
/// let refusal = ConversionBlock::invert(&image, 3424, &mut []).unwrap_err();
/// assert_eq!((refusal, refusal.index()), (Refusal::NotText(0), Some(0)));
/// assert_eq!(refusal.to_string(), "refused 12 NotText at key 0");
/// ```
#[derive(Clone, Copy, Debug, PartialEq, Eq, Hash)]
#[non_exhaustive]
pub enum Refusal {
    /// 1: the root's address + 24 is beyond the image. For [`TextBlock::read`](crate::TextBlock::read) the address + 24.
    Outside(u64),
    /// 2: the root's id is not ##CC.
    NotConversion(u64),
    /// 3: a visit would exceed the visit limit.
    Limit(u64),
    /// 4: the image ends inside a ##CC block. For [`parse_kept`](crate::ConversionBlock::parse_kept) also inside its excess. For
    /// [`TextBlock::read`](crate::TextBlock::read) the block length is below 24 or passes the image end.
    Short(u64),
    /// 5: a block at depth 21; the root has depth 0.
    Deep(u64),
    /// 6: a link back to a block on the current path.
    Loop(u64),
    /// 7: applying reaches a formula (type 3) with a number. M counts the blocks up to and with the formula.
    Formula(Stopped),
    /// 8: the text or block is longer than the output buffer. Without visits and tables where a block was to be written.
    Room(Option<Stopped>),
    /// 9: more than 65,535 values to write.
    Count,
    /// 11: the width of a [`Mode`](crate::Mode) is 0 or above 64.
    Width,
    /// 12: a key to [`invert`](crate::ConversionBlock::invert) has no reference, or one that leads to no text or to an empty one.
    NotText(u32),
    /// 13: a key to [`invert`](crate::ConversionBlock::invert), or its text, is equal to an earlier one. As keys, 0 and -0 are equal.
    Repeated(u32),
    /// 14: a key to [`invert`](crate::ConversionBlock::invert) is a NaN.
    Key(u32),
    /// 15: the block to [`invert`](crate::ConversionBlock::invert) is no value to text (type 7).
    WrongType(u64),
    /// 16: the number of an [`Edition`](crate::Edition) is neither 410 nor 420.
    Edition,
    /// 18: a ##CC block whose link count is below 4. The program `repair_block` writes it with 4.
    FewLinks(u64),
    /// 21: a zero byte in a text to write. The text would end there when it is read.
    ZeroByte,
    /// 22: the id of a block to read as a text is neither ##TX nor ##MD.
    NotTextBlock(u64),
    /// 23: 16 or more bytes of excess to write behind a block without a range. They would be read as one.
    Padding,
}

impl Refusal {
    /// The refusal's number.
    #[must_use]
    pub fn number(&self) -> u32 {
        match self {
            Refusal::Outside(_) => 1,
            Refusal::NotConversion(_) => 2,
            Refusal::Limit(_) => 3,
            Refusal::Short(_) => 4,
            Refusal::Deep(_) => 5,
            Refusal::Loop(_) => 6,
            Refusal::Formula(_) => 7,
            Refusal::Room(_) => 8,
            Refusal::Count => 9,
            Refusal::Width => 11,
            Refusal::NotText(_) => 12,
            Refusal::Repeated(_) => 13,
            Refusal::Key(_) => 14,
            Refusal::WrongType(_) => 15,
            Refusal::Edition => 16,
            Refusal::FewLinks(_) => 18,
            Refusal::ZeroByte => 21,
            Refusal::NotTextBlock(_) => 22,
            Refusal::Padding => 23,
        }
    }

    /// The refusal's name, such as `Deep`.
    #[must_use]
    pub fn name(&self) -> &'static str {
        match self {
            Refusal::Outside(_) => "Outside",
            Refusal::NotConversion(_) => "NotConversion",
            Refusal::Limit(_) => "Limit",
            Refusal::Short(_) => "Short",
            Refusal::Deep(_) => "Deep",
            Refusal::Loop(_) => "Loop",
            Refusal::Formula(_) => "Formula",
            Refusal::Room(_) => "Room",
            Refusal::Count => "Count",
            Refusal::Width => "Width",
            Refusal::NotText(_) => "NotText",
            Refusal::Repeated(_) => "Repeated",
            Refusal::Key(_) => "Key",
            Refusal::WrongType(_) => "WrongType",
            Refusal::Edition => "Edition",
            Refusal::FewLinks(_) => "FewLinks",
            Refusal::ZeroByte => "ZeroByte",
            Refusal::NotTextBlock(_) => "NotTextBlock",
            Refusal::Padding => "Padding",
        }
    }

    /// The address of the block or link, for 1 to 6, 15, 18 and 22.
    #[must_use]
    pub fn address(&self) -> Option<u64> {
        match *self {
            Refusal::Outside(address)
            | Refusal::NotConversion(address)
            | Refusal::Limit(address)
            | Refusal::Short(address)
            | Refusal::Deep(address)
            | Refusal::Loop(address)
            | Refusal::WrongType(address)
            | Refusal::FewLinks(address)
            | Refusal::NotTextBlock(address) => Some(address),
            Refusal::NotText(_) | Refusal::Repeated(_) | Refusal::Key(_) => None,
            Refusal::Formula(_) | Refusal::Room(_) | Refusal::Count | Refusal::Width | Refusal::Edition | Refusal::ZeroByte | Refusal::Padding => {
                None
            }
        }
    }

    /// The index of the key, for 12 to 14. The first key has index 0.
    #[must_use]
    pub fn index(&self) -> Option<u32> {
        match *self {
            Refusal::NotText(index) | Refusal::Repeated(index) | Refusal::Key(index) => Some(index),
            _ => None,
        }
    }

    /// The visits of both walks, for 7 and 8 of an application.
    #[must_use]
    pub fn visits(&self) -> Option<Visits> {
        self.stopped().map(|stopped| stopped.visits)
    }

    /// Whether a malformed table was consulted before 7 or 8 of an application. No other refusal consults one.
    #[must_use]
    pub fn malformed(&self) -> bool {
        self.stopped().is_some_and(|stopped| stopped.malformed)
    }

    fn stopped(&self) -> Option<Stopped> {
        match *self {
            Refusal::Formula(stopped) => Some(stopped),
            Refusal::Room(stopped) => stopped,
            _ => None,
        }
    }

    /// A refusal of the mode, of the check, of parsing or of reading a text, by its number.
    pub(crate) fn at(number: u32, address: u64) -> Refusal {
        match number {
            1 => Refusal::Outside(address),
            2 => Refusal::NotConversion(address),
            3 => Refusal::Limit(address),
            4 => Refusal::Short(address),
            5 => Refusal::Deep(address),
            6 => Refusal::Loop(address),
            11 => Refusal::Width,
            16 => Refusal::Edition,
            18 => Refusal::FewLinks(address),
            22 => Refusal::NotTextBlock(address),
            _ => unreachable!("the archive refuses with the number {number}"),
        }
    }

    /// A refusal of inverting a block, by its number.
    pub(crate) fn of_inverting(number: u32, index: u32, address: u64) -> Refusal {
        match number {
            8 => Refusal::Room(None),
            12 => Refusal::NotText(index),
            13 => Refusal::Repeated(index),
            14 => Refusal::Key(index),
            15 => Refusal::WrongType(address),
            _ => Refusal::at(number, address),
        }
    }

    /// A refusal of writing a block or a text, by its number.
    pub(crate) fn of_writing(number: u32) -> Refusal {
        match number {
            8 => Refusal::Room(None),
            9 => Refusal::Count,
            21 => Refusal::ZeroByte,
            23 => Refusal::Padding,
            _ => unreachable!("the archive refuses with the number {number}"),
        }
    }
}

/// Writes `refused`, the number, the name and, if there is one, the address or the key's index.
impl fmt::Display for Refusal {
    fn fmt(&self, f: &mut fmt::Formatter<'_>) -> fmt::Result {
        write!(f, "refused {} {}", self.number(), self.name())?;
        match (self.address(), self.index()) {
            (Some(address), _) => write!(f, " at {address}"),
            (None, Some(index)) => write!(f, " at key {index}"),
            (None, None) => Ok(()),
        }
    }
}

impl Error for Refusal {}
