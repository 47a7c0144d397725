//! The archive's functions, as `face/c/mdf_conversion.h` declares them.

#[repr(C)]
pub struct Checked {
    pub refusal: u32,
    pub visits: u32,
    pub address: u64,
}

#[repr(C)]
pub struct Applied {
    pub refusal: u32,
    pub kind: u32,
    pub number: f64,
    pub length: u64,
    pub address: u64,
    pub checked: u32,
    pub applied: u32,
    pub malformed: u32,
}

#[repr(C)]
#[derive(Clone, Copy)]
pub struct Mode {
    pub width: u32,
    pub edition: u32,
}

#[repr(C)]
pub struct Shown {
    pub from_image: u32,
    pub start: u64,
    pub length: u64,
}

#[repr(C)]
pub struct Block {
    pub length: u64,
    pub links: u64,
    pub name: u64,
    pub unit: u64,
    pub comment: u64,
    pub inverse: u64,
    pub range_min: f64,
    pub range_max: f64,
    pub min_word: u64,
    pub max_word: u64,
    pub excess: u64,
    pub reserved: u32,
    pub flags: u16,
    pub ref_count: u16,
    pub val_count: u16,
    pub kind: u8,
    pub precision: u8,
    pub ranged: u8,
}

#[repr(C)]
pub struct Parsed {
    pub refusal: u32,
    pub address: u64,
    pub block: Block,
}

#[repr(C)]
pub struct Word {
    pub refusal: u32,
    pub found: u32,
    pub address: u64,
    pub word: u64,
}

#[repr(C)]
pub struct Written {
    pub refusal: u32,
    pub length: u64,
}

#[repr(C)]
pub struct Text {
    pub refusal: u32,
    pub id: u32,
    pub address: u64,
    pub start: u64,
    pub length: u64,
}

#[repr(C)]
pub struct Inverted {
    pub refusal: u32,
    pub index: u32,
    pub address: u64,
    pub length: u64,
}

extern "C" {
    pub fn mdf_check(image: *const u8, image_len: usize, address: u64, limit: u32) -> Checked;
    pub fn mdf_apply_unsigned(image: *const u8, image_len: usize, address: u64, limit: u32, value: u64, out: *mut u8, out_len: usize) -> Applied;
    pub fn mdf_apply_signed(image: *const u8, image_len: usize, address: u64, limit: u32, value: i64, out: *mut u8, out_len: usize) -> Applied;
    pub fn mdf_apply_float(image: *const u8, image_len: usize, address: u64, limit: u32, value: f64, out: *mut u8, out_len: usize) -> Applied;
    pub fn mdf_apply_text(
        image: *const u8,
        image_len: usize,
        address: u64,
        limit: u32,
        text: *const u8,
        text_len: usize,
        out: *mut u8,
        out_len: usize,
    ) -> Applied;
    pub fn mdf_apply_other(image: *const u8, image_len: usize, address: u64, limit: u32, out: *mut u8, out_len: usize) -> Applied;
    pub fn mdf_apply_mode_unsigned(
        image: *const u8,
        image_len: usize,
        address: u64,
        limit: u32,
        mode: Mode,
        value: u64,
        out: *mut u8,
        out_len: usize,
    ) -> Applied;
    pub fn mdf_apply_mode_signed(
        image: *const u8,
        image_len: usize,
        address: u64,
        limit: u32,
        mode: Mode,
        value: i64,
        out: *mut u8,
        out_len: usize,
    ) -> Applied;
    pub fn mdf_apply_mode_float(
        image: *const u8,
        image_len: usize,
        address: u64,
        limit: u32,
        mode: Mode,
        value: f64,
        out: *mut u8,
        out_len: usize,
    ) -> Applied;
    pub fn mdf_apply_mode_text(
        image: *const u8,
        image_len: usize,
        address: u64,
        limit: u32,
        mode: Mode,
        text: *const u8,
        text_len: usize,
        out: *mut u8,
        out_len: usize,
    ) -> Applied;
    pub fn mdf_apply_mode_other(image: *const u8, image_len: usize, address: u64, limit: u32, mode: Mode, out: *mut u8, out_len: usize) -> Applied;
    pub fn mdf_translate(image: *const u8, image_len: usize, address: u64, limit: u32, question: *const u8, question_len: usize) -> Shown;
    pub fn mdf_parse(image: *const u8, image_len: usize, address: u64) -> Parsed;
    pub fn mdf_parse_kept(image: *const u8, image_len: usize, address: u64) -> Parsed;
    pub fn mdf_reference(image: *const u8, image_len: usize, address: u64, index: u64) -> Word;
    pub fn mdf_value_word(image: *const u8, image_len: usize, address: u64, index: u64) -> Word;
    pub fn mdf_write(block: Block, refs: *const u64, refs_len: usize, words: *const u64, words_len: usize, out: *mut u8, out_len: usize) -> Written;
    pub fn mdf_text_read(image: *const u8, image_len: usize, address: u64) -> Text;
    pub fn mdf_text_write(metadata: bool, text: *const u8, text_len: usize, out: *mut u8, out_len: usize) -> Written;
    pub fn mdf_invert(image: *const u8, image_len: usize, address: u64, out: *mut u8, out_len: usize) -> Inverted;
}

#[cfg(test)]
mod tests;
