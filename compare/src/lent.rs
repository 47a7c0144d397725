// Lent buffers with a guard around them. A buffer stands at the edge of its pages: past the edge no access is allowed, so that a read or
// a write there stops the program; on its other side stand guard bytes that are looked at after each call.
use crate::side::{Applied, Block, Checked, Inverted, Mode, Parsed, Shown, Side, Text, Value, Written};
use std::cell::{Cell, RefCell};

extern "C" {
    fn mmap(at: *mut u8, length: usize, rights: i32, flags: i32, file: i32, offset: i64) -> *mut u8;
    fn mprotect(at: *mut u8, length: usize, rights: i32) -> i32;
}

pub const PAGE: usize = 4096;
const GUARD: usize = 64;
const GUARD_BYTE: u8 = 0xa5;
const NO_RIGHTS: i32 = 0;
const READ_AND_WRITE: i32 = 3;
const PRIVATE_AND_ANONYMOUS: i32 = 0x22;

/// Pages between two that cannot be touched.
pub struct Lent {
    base: *mut u8,
    size: usize,
}

impl Lent {
    pub fn new(room: usize) -> Lent {
        let size = (room + GUARD).div_ceil(PAGE) * PAGE;
        unsafe {
            let start = mmap(std::ptr::null_mut(), size + 2 * PAGE, NO_RIGHTS, PRIVATE_AND_ANONYMOUS, -1, 0);
            assert!(start as isize != -1, "no memory for a lent buffer");
            let base = start.add(PAGE);
            assert!(mprotect(base, size, READ_AND_WRITE) == 0, "no rights on a lent buffer");
            Lent { base, size }
        }
    }

    /// Where a buffer of this length starts, and where its guard does.
    fn places(&self, length: usize, back: bool) -> (usize, usize) {
        assert!(length + GUARD <= self.size, "a buffer of {length} bytes is longer than its pages");
        if back {
            (self.size - length, self.size - length - GUARD)
        } else {
            (0, length)
        }
    }

    fn part(&self, start: usize, length: usize) -> &mut [u8] {
        unsafe { std::slice::from_raw_parts_mut(self.base.add(start), length) }
    }

    /// These bytes at the back or the front edge, with a fresh guard.
    fn lend(&self, bytes: &[u8], back: bool) -> &mut [u8] {
        let (start, guard) = self.places(bytes.len(), back);
        self.part(guard, GUARD).fill(GUARD_BYTE);
        let lent = self.part(start, bytes.len());
        lent.copy_from_slice(bytes);
        lent
    }

    fn lend_words(&self, words: &[u64], back: bool) -> &[u64] {
        let bytes: Vec<u8> = words.iter().flat_map(|w| w.to_ne_bytes()).collect();
        let lent = self.lend(&bytes, back);
        unsafe { std::slice::from_raw_parts(lent.as_ptr() as *const u64, words.len()) }
    }

    fn guard_stands(&self, length: usize, back: bool) -> bool {
        let (_, guard) = self.places(length, back);
        self.part(guard, GUARD).iter().all(|&b| b == GUARD_BYTE)
    }
}

/// A side whose buffers are all lent under guard.
pub struct Guarded<S> {
    side: S,
    image: Lent,
    text: Lent,
    refs: Lent,
    words: Lent,
    out: Lent,
    back: Cell<bool>,
    broken: RefCell<Option<&'static str>>,
}

pub const LARGEST_IMAGE: usize = 1 << 20;
pub const LARGEST_TEXT: usize = 1 << 12;
const MOST_WORDS: usize = 1 << 17;

impl<S: Side> Guarded<S> {
    pub fn new(side: S) -> Guarded<S> {
        Guarded {
            side,
            image: Lent::new(LARGEST_IMAGE),
            text: Lent::new(LARGEST_TEXT),
            refs: Lent::new(8 * MOST_WORDS),
            words: Lent::new(8 * MOST_WORDS),
            out: Lent::new(2 * LARGEST_IMAGE),
            back: Cell::new(false),
            broken: RefCell::new(None),
        }
    }

    fn turn(&self) -> bool {
        self.back.set(!self.back.get());
        self.back.get()
    }

    fn expect(&self, kept: bool, what: &'static str) {
        if !kept {
            *self.broken.borrow_mut() = Some(what);
        }
    }

    fn look(&self, lent: &Lent, before: &[u8], now: &[u8], back: bool, what: &'static str) {
        self.expect(lent.guard_stands(before.len(), back) && before == now, what);
    }

    /// An application on lent buffers.
    fn applied(&self, image: &[u8], text: &[u8], out: &mut [u8], call: impl Fn(&[u8], &[u8], &mut [u8]) -> Applied) -> Applied {
        let back = self.turn();
        let (lent, lent_text) = (self.image.lend(image, back), self.text.lend(text, back));
        let lent_out = self.out.lend(out, back);
        let answer = call(lent, lent_text, lent_out);
        self.look(&self.image, image, lent, back, "apply: the image or its guard has changed");
        self.look(&self.text, text, lent_text, back, "apply: the text or its guard has changed");
        self.expect(self.out.guard_stands(out.len(), back), "apply: the guard of the output has changed");
        out.copy_from_slice(lent_out);
        answer
    }
}

impl<S: Side> Side for Guarded<S> {
    fn fault(&self) -> Option<&'static str> {
        self.broken.borrow_mut().take()
    }

    fn check(&self, image: &[u8], address: u64, limit: u32) -> Checked {
        let back = self.turn();
        let lent = self.image.lend(image, back);
        let answer = self.side.check(lent, address, limit);
        self.look(&self.image, image, lent, back, "check: the image or its guard has changed");
        answer
    }

    fn apply(&self, image: &[u8], address: u64, limit: u32, value: Value, text: &[u8], out: &mut [u8]) -> Applied {
        self.applied(image, text, out, |image, text, out| self.side.apply(image, address, limit, value, text, out))
    }

    fn apply_at(&self, mode: Mode, image: &[u8], address: u64, limit: u32, value: Value, text: &[u8], out: &mut [u8]) -> Applied {
        self.applied(image, text, out, |image, text, out| self.side.apply_at(mode, image, address, limit, value, text, out))
    }

    fn translate(&self, image: &[u8], address: u64, limit: u32, question: &[u8]) -> Shown {
        let back = self.turn();
        let (lent, lent_question) = (self.image.lend(image, back), self.text.lend(question, back));
        let answer = self.side.translate(lent, address, limit, lent_question);
        self.look(&self.image, image, lent, back, "translate: the image or its guard has changed");
        self.look(&self.text, question, lent_question, back, "translate: the question or its guard has changed");
        answer
    }

    fn parse(&self, image: &[u8], address: u64) -> Parsed {
        let back = self.turn();
        let lent = self.image.lend(image, back);
        let answer = self.side.parse(lent, address);
        self.look(&self.image, image, lent, back, "parse: the image or its guard has changed");
        answer
    }

    fn parse_kept(&self, image: &[u8], address: u64) -> Parsed {
        let back = self.turn();
        let lent = self.image.lend(image, back);
        let answer = self.side.parse_kept(lent, address);
        self.look(&self.image, image, lent, back, "parse_kept: the image or its guard has changed");
        answer
    }

    fn write(&self, block: Block, refs: &[u64], words: &[u64], out: &mut [u8]) -> Written {
        let back = self.turn();
        let (lent_refs, lent_words) = (self.refs.lend_words(refs, back), self.words.lend_words(words, back));
        let lent_out = self.out.lend(out, back);
        let answer = self.side.write(block, lent_refs, lent_words, lent_out);
        let kept = self.refs.guard_stands(8 * refs.len(), back) && self.words.guard_stands(8 * words.len(), back);
        self.expect(kept && refs == lent_refs && words == lent_words, "write: the references, the values or a guard have changed");
        self.expect(self.out.guard_stands(out.len(), back), "write: the guard of the output has changed");
        out.copy_from_slice(lent_out);
        answer
    }

    fn read_text(&self, image: &[u8], address: u64) -> Text {
        let back = self.turn();
        let lent = self.image.lend(image, back);
        let answer = self.side.read_text(lent, address);
        self.look(&self.image, image, lent, back, "read_text: the image or its guard has changed");
        answer
    }

    fn write_text(&self, metadata: bool, text: &[u8], out: &mut [u8]) -> Written {
        let back = self.turn();
        let (lent_text, lent_out) = (self.text.lend(text, back), self.out.lend(out, back));
        let answer = self.side.write_text(metadata, lent_text, lent_out);
        self.look(&self.text, text, lent_text, back, "write_text: the text or its guard has changed");
        self.expect(self.out.guard_stands(out.len(), back), "write_text: the guard of the output has changed");
        out.copy_from_slice(lent_out);
        answer
    }

    fn invert(&self, image: &[u8], address: u64, out: &mut [u8]) -> Inverted {
        let back = self.turn();
        let (lent, lent_out) = (self.image.lend(image, back), self.out.lend(out, back));
        let answer = self.side.invert(lent, address, lent_out);
        self.look(&self.image, image, lent, back, "invert: the image or its guard has changed");
        self.expect(self.out.guard_stands(out.len(), back), "invert: the guard of the output has changed");
        out.copy_from_slice(lent_out);
        answer
    }
}
