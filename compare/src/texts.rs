// What is judged of text blocks (request [13]): a text that is written, the same text read back, and texts that are read at any address. The crate
// writes ##TX alone and reads both ids; where it follows other rules than ours it is not asked, and `text_partings` says what it does there.
use crate::damage::shows;
use crate::judge::{differs, output, same, Difference, Verdict};
use crate::scene::{Scene, Texts};
use crate::side::{Shown, Side, Text, Written};
use crate::tally::Tally;
use crate::theirs::{self, Outcome};
use oracle::error::MdfError;

/// What the root of an image with one text block is asked: it has no keys.
const QUESTION: &[u8] = b"?";

/// Two sides on all texts of a scene.
pub fn texts_alike(a: &dyn Side, b: &dyn Side, scene: &Scene, tally: &mut Tally) -> Verdict {
    let t = &scene.texts;
    written_alike(a, b, t, tally)?;
    let read = read_alike(a, b, &t.image, t.address, tally)?;
    shown_by_link(a, t, read, tally)?;
    t.places.iter().try_for_each(|&address| read_alike(a, b, &scene.image, address, tally).map(|_| ()))
}

fn written_alike(a: &dyn Side, b: &dyn Side, t: &Texts, tally: &mut Tally) -> Verdict {
    let (mut out_a, mut out_b) = (output(t.room), output(t.room));
    let ours = a.write_text(t.metadata, &t.text, &mut out_a);
    let other = b.write_text(t.metadata, &t.text, &mut out_b);
    same("the text block written", (ours, &out_a), (other, &out_b))?;
    tally.add("second reading, text blocks written by refusal", numbered(ours.refusal, t.metadata as u32));
    let from = if ours.refusal == 0 { ours.length as usize } else { 0 };
    same("bytes behind the text block", &out_a[from..], &output(t.room)[from..])?;
    if ours.refusal != 0 {
        return Ok(());
    }
    let (image, address) = (behind(t.before, &out_a), t.before as u64);
    let read = a.read_text(&image, address);
    let given = Text { refusal: 0, id: t.metadata as u32, address: 0, start: address + 24, length: t.text.len() as u64 };
    same("a text block read back", (read, part(&image, &read)), (given, Some(&t.text[..])))?;
    same("a text block read back", read, b.read_text(&image, address))
}

/// A refusal, or the id of what was taken.
fn numbered(refusal: u32, id: u32) -> String {
    match (refusal, id) {
        (0, 0) => "0 ##TX".to_string(),
        (0, _) => "0 ##MD".to_string(),
        _ => refusal.to_string(),
    }
}

/// An image of so many bytes, then these.
fn behind(before: usize, bytes: &[u8]) -> Vec<u8> {
    let mut image = output(before);
    image.extend(bytes);
    image
}

/// The bytes of a text that was read.
fn part<'a>(image: &'a [u8], read: &Text) -> Option<&'a [u8]> {
    image.get(read.start as usize..read.start.saturating_add(read.length) as usize)
}

fn read_alike(a: &dyn Side, b: &dyn Side, image: &[u8], address: u64, tally: &mut Tally) -> Result<Text, Difference> {
    let read = a.read_text(image, address);
    same("the text block read", read, b.read_text(image, address))?;
    tally.add("second reading, text blocks read by refusal", numbered(read.refusal, read.id));
    Ok(read)
}

/// A link of a conversion that is not NIL gives the text that reading the block there gives, if it is a ##TX; else none. `read` is what reading gives.
fn shown_by_link(side: &dyn Side, t: &Texts, read: Text, tally: &mut Tally) -> Verdict {
    if !t.image.starts_with(&shows(t.address)) {
        return Ok(());
    }
    let given = t.address != 0 && (read.refusal, read.id) == (0, 0);
    let expected = match given {
        true => Shown { from_image: 1, start: read.start, length: read.length },
        false => Shown { from_image: 0, start: 0, length: QUESTION.len() as u64 },
    };
    let group = "second reading, text blocks and a link to them";
    tally.add_if(given, group, "the same text");
    tally.add_if(!given && read.refusal == 0, group, "no text, a ##MD stands there");
    same("a text block and a link to it", side.translate(&t.image, 0, 1, QUESTION), expected)
}

/// A side against the crate on all texts of a scene.
pub fn texts_like(side: &dyn Side, scene: &Scene, tally: &mut Tally) -> Verdict {
    let t = &scene.texts;
    written_like(side, t, tally)?;
    read_like(side, &t.image, t.address, tally)?;
    t.places.iter().try_for_each(|&address| read_like(side, &scene.image, address, tally))
}

/// A ##TX of UTF-8 is what the crate writes. Of all others, too, what was written has the header and the text for the crate that it should have.
fn written_like(side: &dyn Side, t: &Texts, tally: &mut Tally) -> Verdict {
    let group = "crate, text blocks written";
    if t.text.contains(&0) {
        tally.add(group, "not compared, a zero byte");
        return Ok(());
    }
    let mut out = output(t.room);
    let written = side.write_text(t.metadata, &t.text, &mut out);
    let taken = std::str::from_utf8(&t.text).ok().filter(|_| !t.metadata);
    if let Some(text) = taken {
        written_as_crate(text, written, &out)?;
    }
    let kind = match (taken, written.refusal) {
        (Some(_), 0) => "by all bytes",
        (Some(_), _) => "longer than the room",
        (None, 0) => "a ##MD or no UTF-8, by header and text",
        (None, _) => "not compared, a ##MD or no UTF-8, longer than the room",
    };
    tally.add(group, kind);
    if written.refusal != 0 {
        return Ok(());
    }
    read_by_crate(&behind(t.before, &out), t, written.length)
}

/// The bytes that the crate writes, or refusal 8 where they are more than the room.
fn written_as_crate(text: &str, written: Written, out: &[u8]) -> Verdict {
    let Outcome::Answer(bytes) = theirs::text_written(text) else {
        return differs("a text block that the crate does not write", format!("{text:?}"));
    };
    let mut expected = output(out.len());
    if bytes.len() > out.len() {
        return same("a text block without room", (written.refusal, out), (8, &expected[..]));
    }
    expected[..bytes.len()].copy_from_slice(&bytes);
    same("a text block written", (written.refusal, written.length, out), (0, bytes.len() as u64, &expected[..]))
}

/// What was written, as the crate reads it: its header, and its text but at address 0, where the crate has none.
fn read_by_crate(image: &[u8], t: &Texts, length: u64) -> Verdict {
    let address = t.before as u64;
    let Outcome::Answer(header) = theirs::header_at(image, address) else { return differs("the header of a text block", format!("{image:?}")) };
    let id = if t.metadata { "##MD" } else { "##TX" };
    same("the header of a text block", (&header.id[..], header.reserved0, header.block_len, header.links_nr), (id, 0, length, 0))?;
    let text = String::from_utf8_lossy(&t.text);
    match theirs::text_at(image, address) {
        Outcome::Answer(said) => same("a text block read back by the crate", said.as_deref(), (address != 0).then_some(&text[..])),
        _ => differs("a text block that the crate does not read", format!("{image:?}")),
    }
}

/// The crate's answer to reading: a refusal, or the number of the id and the text.
enum Said {
    Refused(u32),
    Text(u32, String),
    /// Not compared: the crate has another rule for this.
    Apart(&'static str),
}

const AT_ZERO: &str = "at address 0";
const BELOW_24: &str = "a block length below 24";
const LEADING_ZERO: &str = "a ##MD that starts with a zero byte";
const ZERO_INSIDE: &str = "a ##MD with a zero byte inside";

/// What the crate says of the text block at an address.
fn said(image: &[u8], address: u64) -> Result<Said, String> {
    if address == 0 {
        return Ok(Said::Apart(AT_ZERO));
    }
    let text = match theirs::text_at(image, address) {
        // The header is looked for in the image, the block in what stands behind its address, which is not 0.
        Outcome::Error(MdfError::TooShortBuffer { actual, .. }) => return Ok(Said::Refused(if actual == image.len() { 1 } else { 4 })),
        Outcome::Answer(None) => return Ok(Said::Refused(22)),
        Outcome::Answer(Some(text)) => text,
        Outcome::Error(e) => return Err(format!("{e}")),
        Outcome::Panic => return Err("a panic".to_string()),
    };
    let Outcome::Answer(header) = theirs::header_at(image, address) else { return Err("no header".to_string()) };
    if header.block_len < 24 {
        return Ok(Said::Apart(BELOW_24));
    }
    if header.id == "##TX" {
        return Ok(Said::Text(0, text));
    }
    let body = &image[address as usize + 24..][..header.block_len as usize - 24];
    let end = body.iter().rposition(|&b| b != 0).map_or(0, |last| last + 1);
    Ok(match body[..end].iter().position(|&b| b == 0) {
        None => Said::Text(1, text),
        Some(0) => Said::Apart(LEADING_ZERO),
        Some(_) => Said::Apart(ZERO_INSIDE),
    })
}

/// A text that is read is the crate's, with the bytes that are no UTF-8 replaced as the crate does.
fn read_like(side: &dyn Side, image: &[u8], address: u64, tally: &mut Tally) -> Verdict {
    let group = "crate, text blocks read by refusal";
    let read = match said(image, address) {
        Ok(Said::Apart(why)) => {
            tally.add(group, format!("not compared, {why}"));
            return Ok(());
        }
        Ok(Said::Refused(refusal)) => {
            tally.add(group, refusal);
            return same("a text block's refusal", side.read_text(image, address).refusal, refusal);
        }
        Ok(Said::Text(id, text)) => (id, text),
        Err(what) => return differs("a text block that the crate does not read", what),
    };
    tally.add(group, numbered(0, read.0));
    let ours = side.read_text(image, address);
    let text = part(image, &ours).map(String::from_utf8_lossy);
    same("a text block read", (ours.refusal, ours.id, text.as_deref()), (0, read.0, Some(&read.1[..])))
}

/// A text that is written or read: of what kind it is, how long its block is, and how the crate differs there if it does. Of some kinds it never does.
pub struct Parting {
    pub kind: String,
    pub size: usize,
    pub verdict: Verdict,
}

/// All texts of a scene.
pub fn text_partings(side: &dyn Side, scene: &Scene) -> Vec<Parting> {
    let t = &scene.texts;
    let mut partings: Vec<Parting> = t.places.iter().map(|&address| read_parting(side, &scene.image, address)).collect();
    partings.push(read_parting(side, &t.image, t.address));
    partings.extend(written_parting(side, &t.text));
    partings
}

/// Of a ##TX with room enough; none for a text that is no UTF-8, which the crate does not take.
fn written_parting(side: &dyn Side, given: &[u8]) -> Option<Parting> {
    let text = std::str::from_utf8(given).ok()?;
    let Outcome::Answer(bytes) = theirs::text_written(text) else { return None };
    let mut out = output(bytes.len());
    let written = side.write_text(false, given, &mut out);
    let kind = match given {
        [.., 0] => "written, a zero byte at the end",
        _ if given.contains(&0) => "written, a zero byte inside",
        _ => "written, no zero byte",
    };
    let verdict = if (written.refusal, &out) == (0, &bytes) {
        Ok(())
    } else {
        let back = if let Outcome::Answer(back) = theirs::text_at(&behind(8, &bytes), 8) { back } else { None };
        let detail = format!("{text:?}: ours {written:?}, crate {} bytes, from byte 24 on \"{}\"", bytes.len(), bytes[24..].escape_ascii());
        differs("the text block written", format!("{detail}, which it reads back as {back:?}"))
    };
    Some(Parting { kind: kind.to_string(), size: bytes.len(), verdict })
}

fn read_parting(side: &dyn Side, image: &[u8], address: u64) -> Parting {
    let ours = side.read_text(image, address);
    let text = part(image, &ours).unwrap_or(&[]);
    let (kind, theirs) = match said(image, address) {
        Ok(Said::Refused(refusal)) => ("refused by both", Err(refusal)),
        Ok(Said::Text(_, theirs)) => (if std::str::from_utf8(text).is_ok() { "UTF-8" } else { "no UTF-8" }, Ok(theirs)),
        Ok(Said::Apart(AT_ZERO)) => (if ours.refusal == 0 { "a text at address 0" } else { "no text at address 0" }, Err(22)),
        Ok(Said::Apart(why)) => (why, said_apart(image, address)),
        Err(_) => ("an error of the crate", Err(0)),
    };
    let alike = match &theirs {
        Ok(theirs) => ours.refusal == 0 && theirs.as_bytes() == text,
        Err(refusal) => ours.refusal == *refusal,
    };
    let told = theirs.as_ref().map_or("no text".to_string(), |text| format!("{text:?}"));
    let detail = || format!("ours {ours:?} \"{}\", crate {told}", text.escape_ascii());
    let verdict = if alike { Ok(()) } else { differs("the text block read", detail()) };
    Parting { kind: format!("read, {kind}"), size: block_size(image, address), verdict }
}

/// The block length at an address, as far as the image goes.
fn block_size(image: &[u8], address: u64) -> usize {
    let length = if let Outcome::Answer(header) = theirs::header_at(image, address) { header.block_len } else { u64::MAX };
    length.min(image.len() as u64) as usize
}

/// What the crate says where it has another rule; where it has no text, 22.
fn said_apart(image: &[u8], address: u64) -> Result<String, u32> {
    match theirs::text_at(image, address) {
        Outcome::Answer(Some(text)) => Ok(text),
        _ => Err(22),
    }
}
