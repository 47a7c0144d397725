// The proved build, through its C face. A slice goes over as its pointer and its length.
use crate::side::{Applied, Block, Checked, Inverted, Mode, Parsed, Shown, Side, Text, Value, Written};

type Bytes = *const u8;

extern "C" {
    fn mdf_check(image: Bytes, image_len: usize, address: u64, limit: u32) -> Checked;
    fn mdf_apply_unsigned(image: Bytes, image_len: usize, address: u64, limit: u32, value: u64, out: *mut u8, out_len: usize) -> Applied;
    fn mdf_apply_signed(image: Bytes, image_len: usize, address: u64, limit: u32, value: i64, out: *mut u8, out_len: usize) -> Applied;
    fn mdf_apply_float(image: Bytes, image_len: usize, address: u64, limit: u32, value: f64, out: *mut u8, out_len: usize) -> Applied;
    fn mdf_apply_text(
        image: Bytes,
        image_len: usize,
        address: u64,
        limit: u32,
        text: Bytes,
        text_len: usize,
        out: *mut u8,
        out_len: usize,
    ) -> Applied;
    fn mdf_apply_other(image: Bytes, image_len: usize, address: u64, limit: u32, out: *mut u8, out_len: usize) -> Applied;
    fn mdf_apply_mode_unsigned(
        image: Bytes,
        image_len: usize,
        address: u64,
        limit: u32,
        mode: Mode,
        value: u64,
        out: *mut u8,
        out_len: usize,
    ) -> Applied;
    fn mdf_apply_mode_signed(
        image: Bytes,
        image_len: usize,
        address: u64,
        limit: u32,
        mode: Mode,
        value: i64,
        out: *mut u8,
        out_len: usize,
    ) -> Applied;
    fn mdf_apply_mode_float(
        image: Bytes,
        image_len: usize,
        address: u64,
        limit: u32,
        mode: Mode,
        value: f64,
        out: *mut u8,
        out_len: usize,
    ) -> Applied;
    fn mdf_apply_mode_text(
        image: Bytes,
        image_len: usize,
        address: u64,
        limit: u32,
        mode: Mode,
        text: Bytes,
        text_len: usize,
        out: *mut u8,
        out_len: usize,
    ) -> Applied;
    fn mdf_apply_mode_other(image: Bytes, image_len: usize, address: u64, limit: u32, mode: Mode, out: *mut u8, out_len: usize) -> Applied;
    fn mdf_translate(image: Bytes, image_len: usize, address: u64, limit: u32, question: Bytes, question_len: usize) -> Shown;
    fn mdf_parse(image: Bytes, image_len: usize, address: u64) -> Parsed;
    fn mdf_parse_kept(image: Bytes, image_len: usize, address: u64) -> Parsed;
    fn mdf_write(block: Block, refs: *const u64, refs_len: usize, words: *const u64, words_len: usize, out: *mut u8, out_len: usize) -> Written;
    fn mdf_text_read(image: Bytes, image_len: usize, address: u64) -> Text;
    fn mdf_text_write(metadata: bool, text: Bytes, text_len: usize, out: *mut u8, out_len: usize) -> Written;
    fn mdf_invert(image: Bytes, image_len: usize, address: u64, out: *mut u8, out_len: usize) -> Inverted;
}

pub struct Ours;

impl Side for Ours {
    fn check(&self, image: &[u8], address: u64, limit: u32) -> Checked {
        unsafe { mdf_check(image.as_ptr(), image.len(), address, limit) }
    }

    fn apply(&self, image: &[u8], address: u64, limit: u32, value: Value, text: &[u8], out: &mut [u8]) -> Applied {
        let (i, n, o, m) = (image.as_ptr(), image.len(), out.as_mut_ptr(), out.len());
        unsafe {
            match value {
                Value::Unsigned(v) => mdf_apply_unsigned(i, n, address, limit, v, o, m),
                Value::Signed(v) => mdf_apply_signed(i, n, address, limit, v, o, m),
                Value::Float(v) => mdf_apply_float(i, n, address, limit, v, o, m),
                Value::Text => mdf_apply_text(i, n, address, limit, text.as_ptr(), text.len(), o, m),
                Value::Other(_) => mdf_apply_other(i, n, address, limit, o, m),
            }
        }
    }

    fn apply_at(&self, mode: Mode, image: &[u8], address: u64, limit: u32, value: Value, text: &[u8], out: &mut [u8]) -> Applied {
        let (i, n, o, m) = (image.as_ptr(), image.len(), out.as_mut_ptr(), out.len());
        unsafe {
            match value {
                Value::Unsigned(v) => mdf_apply_mode_unsigned(i, n, address, limit, mode, v, o, m),
                Value::Signed(v) => mdf_apply_mode_signed(i, n, address, limit, mode, v, o, m),
                Value::Float(v) => mdf_apply_mode_float(i, n, address, limit, mode, v, o, m),
                Value::Text => mdf_apply_mode_text(i, n, address, limit, mode, text.as_ptr(), text.len(), o, m),
                Value::Other(_) => mdf_apply_mode_other(i, n, address, limit, mode, o, m),
            }
        }
    }

    fn translate(&self, image: &[u8], address: u64, limit: u32, question: &[u8]) -> Shown {
        unsafe { mdf_translate(image.as_ptr(), image.len(), address, limit, question.as_ptr(), question.len()) }
    }

    fn parse(&self, image: &[u8], address: u64) -> Parsed {
        unsafe { mdf_parse(image.as_ptr(), image.len(), address) }
    }

    fn parse_kept(&self, image: &[u8], address: u64) -> Parsed {
        unsafe { mdf_parse_kept(image.as_ptr(), image.len(), address) }
    }

    fn write(&self, block: Block, refs: &[u64], words: &[u64], out: &mut [u8]) -> Written {
        unsafe { mdf_write(block, refs.as_ptr(), refs.len(), words.as_ptr(), words.len(), out.as_mut_ptr(), out.len()) }
    }

    fn read_text(&self, image: &[u8], address: u64) -> Text {
        unsafe { mdf_text_read(image.as_ptr(), image.len(), address) }
    }

    fn write_text(&self, metadata: bool, text: &[u8], out: &mut [u8]) -> Written {
        unsafe { mdf_text_write(metadata, text.as_ptr(), text.len(), out.as_mut_ptr(), out.len()) }
    }

    fn invert(&self, image: &[u8], address: u64, out: &mut [u8]) -> Inverted {
        unsafe { mdf_invert(image.as_ptr(), image.len(), address, out.as_mut_ptr(), out.len()) }
    }
}
