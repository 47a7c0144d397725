// Are the guards sharp? Builds with right answers that change one byte which they may not.
use crate::judge::{guards_stand, with_side};
use crate::lent::{Guarded, PAGE};
use crate::scene::Scene;
use crate::second::RIGHT;
use crate::side::{Applied, Block, Checked, Inverted, Mode, Parsed, Shown, Side, Text, Value, Written};
use crate::tally::Tally;

/// A build with right answers that changes one byte that it may not: in applications beside the output, of the image, or of the text; in the calls of
/// text blocks beside the block that is written, of the text to write, or of the image that is read; in inversions beside the output, or of the image.
struct Spills(Spilt);

#[derive(Clone, Copy, Debug)]
enum Spilt {
    BesideOutput,
    Image,
    Text,
    BesideTextBlock,
    TextToWrite,
    ImageOfText,
    BesideInverse,
    ImageOfInverse,
}

/// The address of a byte beside a lent buffer. One at the front edge of its pages has its guard behind it, one at the back edge before it.
fn beside(out: &mut [u8]) -> *mut u8 {
    let at_front = out.as_ptr() as usize % PAGE == 0;
    let offset = if at_front { out.len() as isize } else { -1 };
    unsafe { out.as_mut_ptr().offset(offset) }
}

fn change(byte: *mut u8) {
    unsafe { byte.write_volatile(byte.read_volatile() ^ 1) }
}

impl Spills {
    fn spill(&self, image: &[u8], text: &[u8], out: &mut [u8]) {
        match self.0 {
            Spilt::BesideOutput if !out.is_empty() => change(beside(out)),
            Spilt::Image if !image.is_empty() => change(image.as_ptr() as *mut u8),
            Spilt::Text if !text.is_empty() => change(text.as_ptr() as *mut u8),
            _ => {}
        }
    }
}

impl Side for Spills {
    fn check(&self, image: &[u8], address: u64, limit: u32) -> Checked {
        RIGHT.check(image, address, limit)
    }

    fn apply(&self, image: &[u8], address: u64, limit: u32, value: Value, text: &[u8], out: &mut [u8]) -> Applied {
        let answer = RIGHT.apply(image, address, limit, value, text, out);
        self.spill(image, text, out);
        answer
    }

    fn apply_at(&self, mode: Mode, image: &[u8], address: u64, limit: u32, value: Value, text: &[u8], out: &mut [u8]) -> Applied {
        let answer = RIGHT.apply_at(mode, image, address, limit, value, text, out);
        self.spill(image, text, out);
        answer
    }

    fn translate(&self, image: &[u8], address: u64, limit: u32, question: &[u8]) -> Shown {
        RIGHT.translate(image, address, limit, question)
    }

    fn parse(&self, image: &[u8], address: u64) -> Parsed {
        RIGHT.parse(image, address)
    }

    fn parse_kept(&self, image: &[u8], address: u64) -> Parsed {
        RIGHT.parse_kept(image, address)
    }

    fn write(&self, block: Block, refs: &[u64], words: &[u64], out: &mut [u8]) -> Written {
        RIGHT.write(block, refs, words, out)
    }

    fn read_text(&self, image: &[u8], address: u64) -> Text {
        let answer = RIGHT.read_text(image, address);
        if matches!(self.0, Spilt::ImageOfText) && !image.is_empty() {
            change(image.as_ptr() as *mut u8);
        }
        answer
    }

    fn write_text(&self, metadata: bool, text: &[u8], out: &mut [u8]) -> Written {
        let answer = RIGHT.write_text(metadata, text, out);
        match self.0 {
            Spilt::BesideTextBlock if !out.is_empty() => change(beside(out)),
            Spilt::TextToWrite if !text.is_empty() => change(text.as_ptr() as *mut u8),
            _ => {}
        }
        answer
    }

    fn invert(&self, image: &[u8], address: u64, out: &mut [u8]) -> Inverted {
        let answer = RIGHT.invert(image, address, out);
        match self.0 {
            Spilt::BesideInverse if !out.is_empty() => change(beside(out)),
            Spilt::ImageOfInverse if !image.is_empty() => change(image.as_ptr() as *mut u8),
            _ => {}
        }
        answer
    }
}

/// Whether the guards see each spilt byte.
pub fn guards_see(seed: u64, scenes: u64) -> bool {
    let of_texts = [Spilt::BesideTextBlock, Spilt::TextToWrite, Spilt::ImageOfText];
    let all = [Spilt::BesideOutput, Spilt::Image, Spilt::Text].into_iter().chain(of_texts).chain([Spilt::BesideInverse, Spilt::ImageOfInverse]);
    all.into_iter().all(|spilt| {
        let build = Guarded::new(Spills(spilt));
        let seen = (0..scenes).any(|i| {
            let answers_alike = with_side(&build, &RIGHT, &Scene::new(seed, i), &mut Tally::default()).is_ok();
            answers_alike && guards_stand(&build).is_err()
        });
        println!("a byte changed that may not be ({spilt:?}): {}", if seen { "seen" } else { "NOT seen" });
        seen
    })
}
