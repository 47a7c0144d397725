// Images of few bytes that made a call run on. At size s an image has s times the references and s times the text of size 1: a call that reads
// each text to its end grows with s * s, a bounded one with s. The visits of `groups in groups` and `deep groups` stay as they are, so that what
// grows is the block; those of `names` and `choices` grow, and their nested blocks stay as they are. A writer has no image: its room grows, or
// the text that it writes.
use crate::cases::linked;
use crate::image::Image;
use crate::ours;
use std::hint::black_box;

const LIMIT: u32 = 8192;
const ROOM: usize = 64;

enum Call {
    Check,
    Number(u64),
    /// Signed, by the entry with a mode.
    InMode(i64, ours::Mode),
    Text(&'static str),
    Translate(&'static str),
    Reference(u64),
    ValueWord(u64),
    ParseKept,
    /// Of a block with a range, no references and no values, with so much excess.
    Write(u64),
    ReadText,
    /// The bytes are the text.
    WriteText,
}

/// One call, with all that is lent to it.
pub struct Asked {
    bytes: Vec<u8>,
    address: u64,
    limit: u32,
    room: usize,
    call: Call,
}

pub struct Hostile {
    pub name: &'static str,
    pub says: &'static str,
    build: fn(usize) -> Asked,
}

#[rustfmt::skip]
pub const ALL: &[Hostile] = &[
    Hostile {
        name: "groups-in-groups",
        says: "9 levels of bit groups, each block twice to the next, all other groups to one long ##TX",
        build: groups_in_groups,
    },
    Hostile { name: "narrow-groups", says: "the same, signed -1 at width 4, by mdf_apply_mode_signed", build: narrow_groups },
    Hostile { name: "no-width", says: "the same, at width 65: refused with 11", build: no_width },
    Hostile { name: "older-groups", says: "the same, at width 64 in edition 4.10, which knows no bit groups", build: older_groups },
    Hostile { name: "no-edition", says: "the same, at width 65 in edition 411: refused with 16", build: no_edition },
    Hostile { name: "deep-groups", says: "21 levels of bit groups, all groups but the last to one long ##TX", build: deep_groups },
    Hostile { name: "groups", says: "bit groups, all groups to one long ##TX", build: groups },
    Hostile { name: "choices", says: "bit groups, all groups to one type 7 that chooses one long ##TX", build: choices },
    Hostile { name: "names", says: "bit groups, nested blocks of type 7 that share one long name", build: names },
    Hostile { name: "names-of-numbers", says: "bit groups, nested blocks of type 1 that share one long name", build: names_of_numbers },
    Hostile { name: "keys-9", says: "type 9, all references to one long ##TX, a question of one byte", build: keys_of_9 },
    Hostile { name: "keys-10", says: "type 10, all references to one long ##TX, a question of one byte", build: keys_of_10 },
    Hostile { name: "keys-10-shown", says: "the same, by mdf_translate", build: keys_of_10_shown },
    Hostile { name: "text-7", says: "type 7, all references to one very long ##TX", build: text_of_7 },
    Hostile { name: "text-8", says: "type 8, all references to one very long ##TX", build: text_of_8 },
    Hostile { name: "linked-again", says: "the check of 10 blocks that each link 4 and 8 times to the next, limit 4,294,967,295", build: again },
    Hostile { name: "last-reference", says: "the last reference of a block, by mdf_reference", build: last_reference },
    Hostile { name: "last-value", says: "the last value of a block, by mdf_value_word", build: last_value },
    Hostile { name: "kept-past-end", says: "a block length of 2^64 - 1, by mdf_parse_kept: refused with 4", build: kept_past_end },
    Hostile { name: "kept-to-end", says: "a block length up to the image end, by mdf_parse_kept", build: kept_to_end },
    Hostile { name: "huge-excess", says: "excess of 2^64 - 1 and little room, by mdf_write: refused with 8", build: huge_excess },
    Hostile { name: "written-excess", says: "as much excess as there is room for, by mdf_write", build: written_excess },
    Hostile { name: "unended-text", says: "a ##TX of 100 KB without a zero byte, by mdf_text_read", build: unended },
    Hostile { name: "long-unended-text", says: "a ##TX of 1 MB without a zero byte, by mdf_text_read", build: long_unended },
    Hostile { name: "text-past-end", says: "the same with a block length of 2^64 - 1: refused with 4", build: text_past_end },
    Hostile { name: "written-text", says: "a text of 65,536 bytes with room enough, by mdf_text_write", build: written_text },
    Hostile { name: "text-without-room", says: "the same with no room: refused with 8", build: text_without_room },
    Hostile { name: "text-with-zero", says: "the same with room enough and a last byte that is zero: refused with 21", build: text_with_zero },
];

/// The image of this name at a size.
pub fn named(name: &str, size: usize) -> Asked {
    let found = ALL.iter().find(|h| h.name == name);
    (found.expect("the name of a hostile image").build)(size)
}

impl Asked {
    /// Whether it is one of the calls of text blocks, whose work is told for each byte too.
    pub fn is_of_text_block(&self) -> bool {
        matches!(self.call, Call::ReadText | Call::WriteText)
    }

    /// Of the image, of the text to write, or of the output for the writer of blocks.
    pub fn bytes(&self) -> usize {
        if let Call::Write(_) = self.call {
            self.room
        } else {
            self.bytes.len()
        }
    }

    /// So many calls.
    pub fn calls(&self, n: usize) {
        let mut out = vec![0u8; self.room];
        let (p, l, at, limit, o, m) = (self.bytes.as_ptr(), self.bytes.len(), self.address, self.limit, out.as_mut_ptr(), self.room);
        for _ in 0..n {
            match self.call {
                Call::Check => look(unsafe { ours::mdf_check(p, l, at, limit) }),
                Call::Number(v) => look(unsafe { ours::mdf_apply_unsigned(p, l, at, limit, v, o, m) }),
                Call::InMode(v, mode) => look(unsafe { ours::mdf_apply_mode_signed(p, l, at, limit, mode, v, o, m) }),
                Call::Text(t) => look(unsafe { ours::mdf_apply_text(p, l, at, limit, t.as_ptr(), t.len(), o, m) }),
                Call::Translate(t) => look(unsafe { ours::mdf_translate(p, l, at, limit, t.as_ptr(), t.len()) }),
                Call::Reference(i) => look(unsafe { ours::mdf_reference(p, l, at, i) }),
                Call::ValueWord(i) => look(unsafe { ours::mdf_value_word(p, l, at, i) }),
                Call::ParseKept => look(unsafe { ours::mdf_parse_kept(p, l, at) }),
                Call::Write(excess) => look(unsafe { ours::mdf_write(ranged(excess), [].as_ptr(), 0, [].as_ptr(), 0, o, m) }),
                Call::ReadText => look(unsafe { ours::mdf_text_read(p, l, at) }),
                Call::WriteText => look(unsafe { ours::mdf_text_write(false, p, l, o, m) }),
            }
        }
    }
}

/// The record of a block with a range and so much excess.
fn ranged(excess: u64) -> ours::Block {
    ours::Block { ranged: true, excess, ..ours::Block::default() }
}

/// An answer, looked at where it is.
fn look<T>(answer: T) {
    black_box(&answer);
}

fn asked(image: Image, address: u64, call: Call) -> Asked {
    Asked { bytes: image.bytes, address, limit: LIMIT, room: ROOM, call }
}

/// A text of so many bytes, all alike.
fn long(image: &mut Image, length: usize) -> u64 {
    image.text(&"x".repeat(length))
}

/// A block of bit groups; every mask is all bits.
fn of_groups(image: &mut Image, refs: &[u64]) -> u64 {
    image.words(11, 0, refs, &vec![u64::MAX; refs.len()])
}

fn groups_in_groups(s: usize) -> Asked {
    nested_groups(s, Call::Number(1))
}

fn narrow_groups(s: usize) -> Asked {
    in_mode(s, 4, 420)
}

fn no_width(s: usize) -> Asked {
    in_mode(s, 65, 420)
}

fn older_groups(s: usize) -> Asked {
    in_mode(s, 64, 410)
}

fn no_edition(s: usize) -> Asked {
    in_mode(s, 65, 411)
}

fn in_mode(s: usize, width: u32, edition: u32) -> Asked {
    nested_groups(s, Call::InMode(-1, ours::Mode { width, edition }))
}

fn nested_groups(s: usize, call: Call) -> Asked {
    let mut image = Image::new();
    let text = long(&mut image, 2000 * s);
    let mut at = of_groups(&mut image, &vec![text; 16 * s + 2]);
    for _ in 1..9 {
        at = of_groups(&mut image, &[vec![at, at], vec![text; 16 * s]].concat());
    }
    asked(image, at, call)
}

fn deep_groups(s: usize) -> Asked {
    let mut image = Image::new();
    let text = long(&mut image, 2000 * s);
    let mut at = of_groups(&mut image, &vec![text; 100 * s]);
    for _ in 1..21 {
        at = of_groups(&mut image, &[vec![text; 100 * s - 1], vec![at]].concat());
    }
    asked(image, at, Call::Number(1))
}

fn groups(s: usize) -> Asked {
    let mut image = Image::new();
    let text = long(&mut image, 4000 * s);
    let at = of_groups(&mut image, &vec![text; 2000 * s]);
    asked(image, at, Call::Number(1))
}

fn choices(s: usize) -> Asked {
    let mut image = Image::new();
    let text = long(&mut image, 4000 * s);
    let chooses = image.words(7, 0, &[text], &[]);
    let at = of_groups(&mut image, &vec![chooses; 2000 * s]);
    asked(image, at, Call::Number(1))
}

fn names(s: usize) -> Asked {
    let mut image = Image::new();
    let (name, short) = (long(&mut image, 4000 * s), image.text("on"));
    let nested: Vec<u64> = (0..1000 * s).map(|_| image.words(7, name, &[short], &[])).collect();
    let at = of_groups(&mut image, &nested);
    asked(image, at, Call::Number(1))
}

fn names_of_numbers(s: usize) -> Asked {
    let mut image = Image::new();
    let name = long(&mut image, 4000 * s);
    let nested: Vec<u64> = (0..1000 * s).map(|_| image.words(1, name, &[], &[])).collect();
    let at = of_groups(&mut image, &nested);
    asked(image, at, Call::Number(1))
}

fn keys(kind: u8, s: usize, call: Call) -> Asked {
    let mut image = Image::new();
    let text = long(&mut image, 4000 * s);
    let at = image.words(kind, 0, &vec![text; 2000 * s + 1], &[]);
    asked(image, at, call)
}

fn keys_of_9(s: usize) -> Asked {
    keys(9, s, Call::Text("x"))
}

fn keys_of_10(s: usize) -> Asked {
    keys(10, s, Call::Text("x"))
}

fn keys_of_10_shown(s: usize) -> Asked {
    keys(10, s, Call::Translate("x"))
}

fn text_of_7(s: usize) -> Asked {
    let mut image = Image::new();
    let text = long(&mut image, 1_000_000 * s);
    let keys: Vec<f64> = (0..1000 * s).map(|k| k as f64).collect();
    let at = image.block(7, &vec![text; keys.len() + 1], &keys);
    asked(image, at, Call::Number(999_999))
}

fn text_of_8(s: usize) -> Asked {
    let mut image = Image::new();
    let text = long(&mut image, 1_000_000 * s);
    let bounds: Vec<f64> = (0..1000 * s).flat_map(|k| [k as f64, k as f64]).collect();
    let at = image.block(8, &vec![text; bounds.len() / 2 + 1], &bounds);
    asked(image, at, Call::Number(999_999))
}

fn again(s: usize) -> Asked {
    let mut image = Image::new();
    let address = linked(&mut image, 10, 4 * s);
    Asked { bytes: image.bytes, address, limit: u32::MAX, room: ROOM, call: Call::Check }
}

/// A block with so many references and values, and the last of them: its place is computed, so the size plays no part.
fn placed(s: usize) -> (Image, u64, u64) {
    let (mut image, n) = (Image::new(), 30_000 * s);
    let text = image.text("x");
    let at = image.words(11, 0, &vec![text; n], &vec![u64::MAX; n]);
    (image, at, n as u64 - 1)
}

fn last_reference(s: usize) -> Asked {
    let (image, at, last) = placed(s);
    asked(image, at, Call::Reference(last))
}

fn last_value(s: usize) -> Asked {
    let (image, at, last) = placed(s);
    asked(image, at, Call::ValueWord(last))
}

/// The same block with another block length, and so many zeros behind it.
fn kept(s: usize, length: u64, behind: usize) -> Asked {
    let (mut image, at, _) = placed(s);
    image.bytes.resize(image.bytes.len() + behind, 0);
    image.bytes[at as usize + 8..][..8].copy_from_slice(&length.to_le_bytes());
    asked(image, at, Call::ParseKept)
}

/// The 16 bytes behind it belong to the range that this length means.
fn kept_past_end(s: usize) -> Asked {
    kept(s, u64::MAX, 16)
}

fn kept_to_end(s: usize) -> Asked {
    let (image, at, _) = placed(s);
    let behind = 1_000_000 * s;
    kept(s, image.end() - at + behind as u64, behind)
}

fn writes(excess: u64, room: usize) -> Asked {
    Asked { bytes: Vec::new(), address: 0, limit: LIMIT, room, call: Call::Write(excess) }
}

fn huge_excess(s: usize) -> Asked {
    writes(u64::MAX, ROOM * s)
}

/// A block with a range and nothing else has 80 bytes.
fn written_excess(s: usize) -> Asked {
    writes(1_000_000 * s as u64, 80 + 1_000_000 * s)
}

/// A text without a zero byte that ends with the image.
fn unended_text(length: usize) -> Asked {
    let mut image = Image::new();
    let at = image.unended(&"x".repeat(length));
    asked(image, at, Call::ReadText)
}

fn unended(s: usize) -> Asked {
    unended_text(100_000 * s)
}

fn long_unended(s: usize) -> Asked {
    unended_text(1_000_000 * s)
}

fn text_past_end(s: usize) -> Asked {
    let mut asked = long_unended(s);
    asked.bytes[asked.address as usize + 8..][..8].fill(0xff);
    asked
}

/// 65,536 bytes, the last of them this one, with so much room.
fn writes_text(s: usize, last: u8, room: usize) -> Asked {
    let mut bytes = vec![b'x'; 65_536 * s];
    bytes[65_536 * s - 1] = last;
    Asked { bytes, address: 0, limit: LIMIT, room, call: Call::WriteText }
}

/// The block has 32 bytes more than such a text.
fn written_text(s: usize) -> Asked {
    writes_text(s, b'x', 65_536 * s + 32)
}

fn text_without_room(s: usize) -> Asked {
    writes_text(s, b'x', 0)
}

fn text_with_zero(s: usize) -> Asked {
    writes_text(s, 0, 65_536 * s + 32)
}
