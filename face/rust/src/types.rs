//! The type of a conversion.
use core::fmt;

/// What a conversion does with a value.
#[derive(Clone, Copy, Debug, PartialEq, Eq, Hash)]
pub enum ConversionType {
    /// 0: the value stays as it is.
    Identity,
    /// 1: a line.
    Linear,
    /// 2: a fraction of two squares.
    Rational,
    /// 3: a formula, which is refused (7).
    Algebraic,
    /// 4: a table of pairs, interpolated.
    TableLookupInterp,
    /// 5: a table of pairs, the nearest key.
    TableLookupNoInterp,
    /// 6: a range to a value.
    RangeLookup,
    /// 7: a value to a text or a conversion.
    ValueToText,
    /// 8: a range to a text or a conversion.
    RangeToText,
    /// 9: a text to a value.
    TextToValue,
    /// 10: a text to a text.
    TextToText,
    /// 11: bit groups, joined to one text. In [`Edition::Mdf410`](crate::Edition::Mdf410) the value stays as it is.
    BitfieldText,
    /// Any other number. The value stays as it is.
    Unknown(UnknownType),
}

/// The number of a type that is none of the known ones, 0 to 11. Only [`ConversionType::from_u8`] makes one, so that no known type is called unknown.
///
/// ```
/// use mdf_conversion::ConversionType;
///
/// let ConversionType::Unknown(unknown) = ConversionType::from_u8(42) else { panic!("42 is known") };
/// assert_eq!(unknown.to_u8(), 42);
/// ```
#[derive(Clone, Copy, Debug, PartialEq, Eq, Hash)]
pub struct UnknownType(u8);

impl UnknownType {
    /// The type's number.
    #[must_use]
    pub fn to_u8(self) -> u8 {
        self.0
    }
}

// Each at the place of its number.
const KNOWN: [(ConversionType, &str); 12] = [
    (ConversionType::Identity, "identity"),
    (ConversionType::Linear, "linear"),
    (ConversionType::Rational, "rational"),
    (ConversionType::Algebraic, "formula"),
    (ConversionType::TableLookupInterp, "table interpolated"),
    (ConversionType::TableLookupNoInterp, "table nearest"),
    (ConversionType::RangeLookup, "range to value"),
    (ConversionType::ValueToText, "value to text"),
    (ConversionType::RangeToText, "range to text"),
    (ConversionType::TextToValue, "text to value"),
    (ConversionType::TextToText, "text to text"),
    (ConversionType::BitfieldText, "bit groups"),
];

impl ConversionType {
    /// The type with this number.
    ///
    /// ```
    /// use mdf_conversion::ConversionType;
    ///
    /// assert_eq!(ConversionType::from_u8(11), ConversionType::BitfieldText);
    /// assert!(matches!(ConversionType::from_u8(42), ConversionType::Unknown(_)));
    /// ```
    #[must_use]
    pub fn from_u8(number: u8) -> ConversionType {
        KNOWN.get(usize::from(number)).map_or(ConversionType::Unknown(UnknownType(number)), |known| known.0)
    }

    /// The type's number.
    #[must_use]
    pub fn to_u8(self) -> u8 {
        match self {
            ConversionType::Unknown(unknown) => unknown.to_u8(),
            known => KNOWN.iter().position(|entry| entry.0 == known).expect("every known type is listed") as u8,
        }
    }
}

/// Writes the type in words, such as `bit groups` or `unknown`.
impl fmt::Display for ConversionType {
    fn fmt(&self, f: &mut fmt::Formatter<'_>) -> fmt::Result {
        f.write_str(KNOWN.get(usize::from(self.to_u8())).map_or("unknown", |known| known.1))
    }
}

#[cfg(test)]
mod tests {
    use super::ConversionType;

    #[test]
    fn every_number_is_kept() {
        for number in 0..=u8::MAX {
            assert_eq!(ConversionType::from_u8(number).to_u8(), number);
        }
    }
}
