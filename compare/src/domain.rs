// Whether a case lies in document 01's "Domain of equality with the crate", point by point. That a text fits the lent output is seen where
// the answers are compared; here stands what the image, the address, the limit and the value say.
//
// How far a block length exceeds what was read plays no part: the crate reads no excess, and plain parsing keeps none.
// A tree with a link count below 4 lies outside: the crate reads such a block, and the check refuses it with 18 (request [11]).
// The crate panics on a whole tree in one case only: a reference whose address + 24 does not fit 64 bits. Any other panic is a difference.
// A text link is a reference that leads to a ##TX, in types 9 and 10 every reference but one to a ##CC; a name link is that of a block
// under bit groups, the only one that is read. A reference of another type that leads outside the image or to another id is no text link;
// images with such a one are counted apart (`loose`).
use crate::second::{Found, RIGHT};
use crate::side::{Side, Value};
use std::collections::{BTreeSet, HashSet};

pub enum Place {
    Inside {
        loose: bool,
    },
    /// For these reasons.
    Outside(BTreeSet<&'static str>),
}

pub const REFUSED: &str = "the walk is refused";

pub fn place(image: &[u8], address: u64, limit: u32) -> Place {
    if RIGHT.check(image, address, limit).refusal != 0 {
        return Place::Outside(BTreeSet::from([REFUSED]));
    }
    let (mut seen, mut open, mut loose) = (HashSet::from([address]), vec![address], false);
    let mut reasons = BTreeSet::new();
    while let Some(at) = open.pop() {
        let Some(found) = RIGHT.opened(image, at) else { continue };
        reasons.extend(block_reasons(image, at, &found));
        for &link in found.refs.iter().filter(|&&l| l != 0) {
            let id = id_of(image, link);
            reasons.extend(link_reasons(image, found.kind, link, id));
            loose |= id != Some(b"##CC") && id != Some(b"##TX");
            if id == Some(b"##CC") && seen.insert(link) {
                open.push(link);
            }
        }
    }
    if reasons.is_empty() {
        Place::Inside { loose }
    } else {
        Place::Outside(reasons)
    }
}

/// Why a block lies outside, apart from where it leads.
fn block_reasons(image: &[u8], at: u64, found: &Found) -> impl Iterator<Item = &'static str> {
    let references = found.refs.len();
    let miscounted = found.kind == 8 && references > 2 && references != found.values.len() / 2 + 1;
    let reasons = [
        (found.kind == 3).then_some("a formula"),
        (!reserved_is_zero(image, at)).then_some("reserved bytes"),
        miscounted.then_some("references of a type 8"),
    ];
    reasons.into_iter().flatten()
}

/// The text of a text value is UTF-8.
pub fn value_inside(value: Value, text: &[u8]) -> bool {
    value != Value::Text || std::str::from_utf8(text).is_ok()
}

/// Why a reference of a block of this type lies outside.
fn link_reasons(image: &[u8], kind: u8, link: u64, id: Option<&[u8]>) -> impl Iterator<Item = &'static str> {
    let text_wanted = kind == 9 || kind == 10;
    let wraps = link.checked_add(24).is_none();
    let foreign = id.is_some_and(|id| id != b"##CC" && id != b"##TX");
    let reasons = [
        wraps.then_some("a reference that the crate panics on"),
        (text_wanted && id.is_none() && !wraps).then_some("a text link outside the image"),
        (text_wanted && foreign).then_some("a text link to another id"),
        id.is_some_and(|id| !id.is_ascii()).then_some("an id that is not ASCII"),
        (id.is_some() && !reserved_is_zero(image, link)).then_some("reserved bytes"),
        (id == Some(b"##TX") && !is_good_text(image, link)).then_some("a text"),
        (id == Some(b"##CC") && kind == 11 && !is_good_name(image, link)).then_some("a name"),
    ];
    reasons.into_iter().flatten()
}

/// The name link of a ##CC is NIL or leads to a good text.
fn is_good_name(image: &[u8], block: u64) -> bool {
    let name = word(image, block as usize + 24);
    name == 0 || (id_of(image, name) == Some(b"##TX") && reserved_is_zero(image, name) && is_good_text(image, name))
}

fn id_of(image: &[u8], link: u64) -> Option<&[u8]> {
    let end = usize::try_from(link).ok()?.checked_add(24)?;
    (end <= image.len()).then(|| &image[end - 24..end - 20])
}

fn word(image: &[u8], at: usize) -> u64 {
    u64::from_le_bytes(image[at..at + 8].try_into().unwrap())
}

fn reserved_is_zero(image: &[u8], at: u64) -> bool {
    image[at as usize + 4..at as usize + 8] == [0; 4]
}

/// The ##TX has non-empty UTF-8, itself free of zero bytes, followed by zeros to the block end.
fn is_good_text(image: &[u8], link: u64) -> bool {
    let start = link as usize;
    let length = word(image, start + 8);
    if length < 24 || length > (image.len() - start) as u64 {
        return false;
    }
    let body = &image[start + 24..start + length as usize];
    let end = body.iter().position(|&b| b == 0).unwrap_or(body.len());
    end > 0 && std::str::from_utf8(&body[..end]).is_ok() && body[end..].iter().all(|&b| b == 0)
}
