// What two sides are asked and what they answer: the C face's own structures, and the trait that the proved build and the second reading share.

/// A value to convert; a text's bytes stand beside it. `Other` carries a number that picks one of the crate's kinds without a rule.
#[derive(Clone, Copy, Debug, PartialEq)]
pub enum Value {
    Unsigned(u64),
    Signed(i64),
    Float(f64),
    Text,
    Other(u8),
}

#[repr(C)]
#[derive(Clone, Copy, Debug, PartialEq, Eq)]
pub struct Checked {
    pub refusal: u32,
    pub visits: u32,
    pub address: u64,
}

/// `kind`: 0 refused, 1 number, 2 text, 3 unchanged, 4 unknown. `malformed`: 1 where a malformed table was consulted, else 0; the crate does not
/// tell.
#[repr(C)]
#[derive(Clone, Copy, Debug)]
pub struct Applied {
    pub refusal: u32,
    pub kind: u32,
    pub number: f64,
    pub length: u64,
    pub address: u64,
    pub checked: u32,
    pub applied: u32,
    pub malformed: u32,
}

/// `width`: how many bits the signal has. `edition`: 410 or 420, that of the file.
#[repr(C)]
#[derive(Clone, Copy, Debug, PartialEq, Eq)]
pub struct Mode {
    pub width: u32,
    pub edition: u32,
}

/// The mode that the entry without one has, and the only one that the crate knows.
pub const STANDARD: Mode = Mode { width: 64, edition: 420 };

#[repr(C)]
#[derive(Clone, Copy, Debug, PartialEq, Eq)]
pub struct Shown {
    pub from_image: u32,
    pub start: u64,
    pub length: u64,
}

#[repr(C)]
#[derive(Clone, Copy, Debug, Default)]
pub struct Block {
    pub length: u64,
    pub links: u64,
    pub name: u64,
    pub unit: u64,
    pub comment: u64,
    pub inverse: u64,
    pub range_min: f64,
    pub range_max: f64,
    pub min_word: u64,
    pub max_word: u64,
    /// How far the block length exceeds what was read, and the four bytes behind the id; 0 where parsing does not keep them.
    pub excess: u64,
    pub reserved: u32,
    pub flags: u16,
    pub ref_count: u16,
    pub val_count: u16,
    pub kind: u8,
    pub precision: u8,
    pub ranged: bool,
}

#[repr(C)]
#[derive(Clone, Copy, Debug)]
pub struct Parsed {
    pub refusal: u32,
    pub address: u64,
    pub block: Block,
}

#[repr(C)]
#[derive(Clone, Copy, Debug, PartialEq, Eq)]
pub struct Written {
    pub refusal: u32,
    pub length: u64,
}

/// `id`: 0 for ##TX, 1 for ##MD. `start` and `length`: the part of the image that is the text.
#[repr(C)]
#[derive(Clone, Copy, Debug, Default, PartialEq, Eq)]
pub struct Text {
    pub refusal: u32,
    pub id: u32,
    pub address: u64,
    pub start: u64,
    pub length: u64,
}

/// `index`: the key that a refusal is for. `length`: the bytes of the block that was written.
#[repr(C)]
#[derive(Clone, Copy, Debug, Default, PartialEq, Eq)]
pub struct Inverted {
    pub refusal: u32,
    pub index: u32,
    pub address: u64,
    pub length: u64,
}

/// One of the two builds of document 01 that are compared.
pub trait Side {
    fn check(&self, image: &[u8], address: u64, limit: u32) -> Checked;
    fn apply(&self, image: &[u8], address: u64, limit: u32, value: Value, text: &[u8], out: &mut [u8]) -> Applied;

    /// The entry with a mode.
    #[allow(clippy::too_many_arguments)]
    fn apply_at(&self, mode: Mode, image: &[u8], address: u64, limit: u32, value: Value, text: &[u8], out: &mut [u8]) -> Applied;
    fn translate(&self, image: &[u8], address: u64, limit: u32, question: &[u8]) -> Shown;
    fn parse(&self, image: &[u8], address: u64) -> Parsed;

    /// The entry that keeps the padding.
    fn parse_kept(&self, image: &[u8], address: u64) -> Parsed;
    fn write(&self, block: Block, refs: &[u64], words: &[u64], out: &mut [u8]) -> Written;

    /// The text of the ##TX or ##MD at an address.
    fn read_text(&self, image: &[u8], address: u64) -> Text;

    /// A text as a block: ##MD where it is metadata, else ##TX.
    fn write_text(&self, metadata: bool, text: &[u8], out: &mut [u8]) -> Written;

    /// The text to value block of the value to text block at an address.
    fn invert(&self, image: &[u8], address: u64, out: &mut [u8]) -> Inverted;

    /// What a call has touched that it may not, since this was last asked.
    fn fault(&self) -> Option<&'static str> {
        None
    }
}

/// Equal bits, all NaNs as one.
pub fn same_float(a: f64, b: f64) -> bool {
    a.to_bits() == b.to_bits() || (a.is_nan() && b.is_nan())
}

impl PartialEq for Applied {
    fn eq(&self, other: &Applied) -> bool {
        same_float(self.number, other.number)
            && (self.refusal, self.kind, self.length, self.address) == (other.refusal, other.kind, other.length, other.address)
            && (self.checked, self.applied, self.malformed) == (other.checked, other.applied, other.malformed)
    }
}

impl PartialEq for Block {
    fn eq(&self, other: &Block) -> bool {
        same_float(self.range_min, other.range_min) && same_float(self.range_max, other.range_max) && self.whole_numbers() == other.whole_numbers()
    }
}

impl Block {
    fn whole_numbers(&self) -> ([u64; 9], u32, [u16; 3], u8, u8, bool) {
        let words = [self.length, self.links, self.name, self.unit, self.comment, self.inverse, self.min_word, self.max_word, self.excess];
        (words, self.reserved, [self.flags, self.ref_count, self.val_count], self.kind, self.precision, self.ranged)
    }

    /// The bytes from the block's start to the end of its values.
    pub fn bytes_read(&self) -> u64 {
        64 + 8 * (self.links - 4) + 16 * self.ranged as u64 + 8 * self.val_count as u64
    }
}

impl PartialEq for Parsed {
    fn eq(&self, other: &Parsed) -> bool {
        (self.refusal, self.address) == (other.refusal, other.address) && self.block == other.block
    }
}
