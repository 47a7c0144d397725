// Two comparisons of a scene: of a side with the crate, in the domain, and of two sides with each other, everywhere.
use crate::bound::tree_of;
use crate::domain::{self, Place};
use crate::inverse::{inverses_alike, inverses_like};
use crate::padding::{kept_alike, kept_like, parsed_back};
use crate::scene::{Ask, Fields, Scene};
use crate::second::{Second, RIGHT};
use crate::side::{Applied, Checked, Side, Value, STANDARD};
use crate::tally::Tally;
use crate::texts::{texts_alike, texts_like};
use crate::theirs::{self, Outcome};
use crate::wrong::Wrong;
use oracle::blocks::conversion::ConversionBlock;
use oracle::error::MdfError;
use oracle::parsing::decoder::DecodedValue;
use std::collections::HashMap;
use std::fmt::Debug;

/// What differs, in a word, and the two answers.
pub struct Difference {
    pub what: &'static str,
    pub detail: String,
}

pub type Verdict = Result<(), Difference>;

pub fn same<T: PartialEq + Debug>(what: &'static str, a: T, b: T) -> Verdict {
    if a == b {
        return Ok(());
    }
    Err(Difference { what, detail: format!("{a:?}\n  against {b:?}") })
}

pub fn differs(what: &'static str, detail: String) -> Verdict {
    Err(Difference { what, detail })
}

/// An output buffer with known bytes.
pub fn output(room: usize) -> Vec<u8> {
    (0..room).map(|i| (i * 7 + 3) as u8).collect()
}

/// More visits than this are not asked of the crate, which has no limit.
const CRATE_LIMIT: u32 = 20_000;

/// More links than this are not shown to the crate, which would ask for their memory at once.
const CRATE_LINKS: u64 = 1 << 20;

/// Of a hostile image the crate copies each text each time that a reference leads to it: no more bytes than this.
const CRATE_TEXTS: u64 = 4_000_000;

/// A side against the crate.
pub fn with_crate(side: &dyn Side, scene: &Scene, tally: &mut Tally) -> Verdict {
    written_fields(side, &scene.fields, tally)?;
    written_fields(side, &scene.padded, tally)?;
    texts_like(side, scene, tally)?;
    inverses_like(side, scene, tally)?;
    if (scene.address as u128 + 24) > scene.image.len() as u128 || has_huge_links(&scene.image) {
        return Ok(());
    }
    match RIGHT.check(&scene.image, scene.address, CRATE_LIMIT).refusal {
        3 => return Ok(()),
        18 => {
            // The crate reads such a block and walks on.
            tally.add("outside the domain, by reason", "a link count below 4");
            return Ok(());
        }
        _ => {}
    }
    if has_too_much_text(scene, tally) {
        return Ok(());
    }
    let checked = side.check(&scene.image, scene.address, CRATE_LIMIT);
    let theirs = theirs::resolved(&scene.image, scene.address);
    compare_walk(checked, &theirs, tally)?;
    if let Outcome::Answer(block) = &theirs {
        kept_like(side, scene, block, tally)?;
    }
    match domain::place(&scene.image, scene.address, scene.limit) {
        Place::Outside(reasons) => {
            reasons.iter().for_each(|why| tally.add("outside the domain, by reason", why));
            return Ok(());
        }
        Place::Inside { loose } => {
            tally.add("crate, images by references", if loose { "some lead nowhere" } else { "all lead to a block or are NIL" })
        }
    }
    match theirs {
        Outcome::Panic => return differs("a panic of the crate", "resolving".to_string()),
        Outcome::Error(e) => return differs("an error of the crate", format!("{e}")),
        Outcome::Answer(block) => inside(side, scene, &block, tally)?,
    }
    Ok(())
}

/// Whether a hostile image has more text than the crate is asked to copy.
fn has_too_much_text(scene: &Scene, tally: &mut Tally) -> bool {
    let too_much = scene.hostile && tree_of(&scene.image, scene.address, &mut HashMap::new()).texts > CRATE_TEXTS;
    tally.add_if(scene.hostile, "crate, hostile images", if too_much { "not asked, too much text" } else { "asked" });
    too_much
}

/// Outside the domain for one reason, where the walk is accepted: the reason, and what differs from the crate if anything does.
pub fn parting(side: &dyn Side, scene: &Scene) -> Option<(&'static str, Verdict)> {
    let Place::Outside(reasons) = domain::place(&scene.image, scene.address, scene.limit) else { return None };
    let why = reasons.first().copied().filter(|_| reasons.len() == 1)?;
    if why == domain::REFUSED || has_huge_links(&scene.image) {
        return None;
    }
    let verdict = match theirs::resolved(&scene.image, scene.address) {
        Outcome::Panic => differs("the crate panics", String::new()),
        Outcome::Error(e) => differs("the crate errs", format!("{e}")),
        Outcome::Answer(block) => inside(side, scene, &block, &mut Tally::default()),
    };
    Some((why, verdict))
}

pub fn has_huge_links(image: &[u8]) -> bool {
    let huge = |w: &[u8]| &w[..4] == b"##CC" && u64::from_le_bytes(w[16..24].try_into().unwrap()) > CRATE_LINKS;
    image.windows(24).any(huge)
}

/// The walk, also outside the domain: acceptance with N, and those refusals that the crate has as errors of their own.
fn compare_walk(ours: Checked, theirs: &Outcome<ConversionBlock>, tally: &mut Tally) -> Verdict {
    let (refusal, told) = match theirs {
        Outcome::Answer(block) => {
            let n = theirs::tree_size(block);
            tally.add("crate, walks by visits N", visit_class(n));
            return same("N", (ours.refusal, ours.visits as u64), (0, n));
        }
        Outcome::Error(MdfError::BlockIDError { .. }) => (2, None),
        Outcome::Error(MdfError::ConversionChainTooDeep { .. }) => (5, None),
        Outcome::Error(MdfError::ConversionChainCycle { address }) => (6, Some(*address)),
        Outcome::Error(_) | Outcome::Panic => return Ok(()),
    };
    tally.add("crate, errors by refusal", refusal);
    same("a refusal", (ours.refusal, ours.address), (refusal, told.unwrap_or(ours.address)))
}

fn type_class(kind: u8) -> String {
    if kind < 12 {
        kind.to_string()
    } else {
        "unknown".to_string()
    }
}

fn visit_class(n: u64) -> &'static str {
    match n {
        1 => "1",
        2..=4 => "2 to 4",
        5..=20 => "5 to 20",
        21..=999 => "21 to 999",
        _ => "1000 and more",
    }
}

fn begun_class(m: u32) -> &'static str {
    match m {
        1 => "1",
        2 => "2",
        3..=5 => "3 to 5",
        6..=20 => "6 to 20",
        21 => "21",
        _ => "22 and more",
    }
}

/// Parse, writer and applications of a scene in the domain.
fn inside(side: &dyn Side, scene: &Scene, block: &ConversionBlock, tally: &mut Tally) -> Verdict {
    let parsed = side.parse(&scene.image, scene.address);
    same("a parse is refused", (parsed.refusal, parsed.address), (0, 0))?;
    same("the parse", parsed.block, theirs::record(block))?;
    tally.add("crate, parses by type", type_class(parsed.block.kind));
    tally.add("crate, parses by range", if parsed.block.ranged { "with range" } else { "without range" });
    tally.add_if(scene.address == 0, "crate, parses by place", "root at address 0");
    written_block(side, parsed.block, block, tally)?;
    tally.add("crate, images by levels", levels(block));
    for ask in &scene.asks {
        apply_ask(side, scene, ask, block, tally)?;
    }
    Ok(())
}

fn levels(block: &ConversionBlock) -> usize {
    let nested = block.resolved_conversions.iter().flat_map(|m| m.values());
    1 + nested.chain(block.default_conversion.iter()).map(|b| levels(b)).max().unwrap_or(0)
}

/// What was parsed, written again.
fn written_block(side: &dyn Side, record: crate::side::Block, block: &ConversionBlock, tally: &mut Tally) -> Verdict {
    let Outcome::Answer(bytes) = theirs::written(block) else { return Ok(()) };
    let words: Vec<u64> = block.cc_val.iter().map(|v| v.to_bits()).collect();
    let mut out = output(bytes.len());
    let written = side.write(record, &block.cc_ref, &words, &mut out);
    tally.add("crate, blocks written", "from the parse");
    same("a parsed block written", (written.refusal, written.length, &out), (0, bytes.len() as u64, &bytes))
}

/// Fields of any kind, written. The crate writes the stored value count, so that count has to be the right one, and it knows no excess.
fn written_fields(side: &dyn Side, f: &Fields, tally: &mut Tally) -> Verdict {
    if f.block.val_count as usize != f.words.len() || f.block.excess != 0 {
        return Ok(());
    }
    let theirs = theirs::block_of(&f.block, &f.refs, &f.words);
    let Outcome::Answer(bytes) = theirs::written(&theirs) else { return Ok(()) };
    let mut out = output(f.room);
    let written = side.write(f.block, &f.refs, &f.words, &mut out);
    if bytes.len() > f.room {
        tally.add("crate, blocks written", "longer than the room");
        return same("a block without room", (written.refusal, &out), (8, &output(f.room)));
    }
    tally.add("crate, blocks written", if f.block.reserved == 0 { "from fields" } else { "from fields with reserved bytes" });
    let mut expected = output(f.room);
    expected[..bytes.len()].copy_from_slice(&bytes);
    same("fields written", (written.refusal, written.length, &out), (0, bytes.len() as u64, &expected))
}

fn apply_ask(side: &dyn Side, scene: &Scene, ask: &Ask, block: &ConversionBlock, tally: &mut Tally) -> Verdict {
    if !domain::value_inside(ask.value, &ask.text) {
        tally.add("outside the domain, by reason", "a text value");
        return Ok(());
    }
    let Some(given) = theirs::decoded(ask.value, &ask.text) else { return Ok(()) };
    let theirs = match theirs::applied(block, given.clone(), &scene.image) {
        Outcome::Answer(value) => value,
        Outcome::Error(e) => return differs("an error of the crate", format!("{e}")),
        Outcome::Panic => return differs("a panic of the crate", "applying".to_string()),
    };
    let mut out = output(ask.room);
    let ours = side.apply(&scene.image, scene.address, scene.limit, ask.value, &ask.text, &mut out);
    count_answer(block, ask.value, &ours, tally);
    same_answer(&ours, &out, given, &theirs, ask.room)?;
    standard_mode_alike(side, scene, ask, &ours, &out)?;
    same("N of an application", ours.checked as u64, theirs::tree_size(block))?;
    if ask.value == Value::Text && block.cc_type.to_u8() == 10 {
        tally.add("crate, texts shown", "type 10");
        return shown_like(side, scene, ask, &theirs);
    }
    Ok(())
}

/// At width 64 in edition 4.20, which alone are compared with the crate, the entry with a mode answers as the one without.
fn standard_mode_alike(side: &dyn Side, scene: &Scene, ask: &Ask, ours: &Applied, out: &[u8]) -> Verdict {
    let mut again = output(ask.room);
    let moded = side.apply_at(STANDARD, &scene.image, scene.address, scene.limit, ask.value, &ask.text, &mut again);
    same("width 64 in edition 4.20", (moded, &again[..]), (*ours, out))
}

fn count_answer(block: &ConversionBlock, value: Value, ours: &Applied, tally: &mut Tally) {
    let kind = match value {
        Value::Unsigned(_) => "unsigned",
        Value::Signed(_) => "signed",
        Value::Float(_) => "float",
        Value::Text => "text",
        Value::Other(_) => "other",
    };
    tally.add("crate, applications by value", kind);
    tally.add("crate, applications by type of the root", type_class(block.cc_type.to_u8()));
    tally.add("crate, applications by answer", says(ours));
}

/// An answer in a word, or its refusal.
fn says(ours: &Applied) -> &'static str {
    match (ours.kind, ours.refusal) {
        (1, _) => "number",
        (2, _) => "text",
        (3, _) => "unchanged",
        (4, _) => "unknown",
        (_, 7) => "refused for a formula",
        _ => "refused for room",
    }
}

/// An answer as a value. The crate cannot tell Unchanged from an equal value, and knows no room.
fn same_answer(ours: &Applied, out: &[u8], given: DecodedValue, theirs: &DecodedValue, room: usize) -> Verdict {
    let length = ours.length.min(room as u64) as usize;
    let untouched = output(room);
    let value = match (ours.kind, ours.refusal) {
        (1, 0) => DecodedValue::Float(ours.number),
        (2, 0) => match String::from_utf8(out[..length].to_vec()) {
            Ok(text) => DecodedValue::String(text),
            Err(_) => return differs("a text", format!("{:?} is not UTF-8", &out[..length])),
        },
        (3, 0) => given,
        (4, 0) => DecodedValue::Unknown,
        (0, 8) => {
            let longer = matches!(theirs, DecodedValue::String(s) if s.len() > room);
            return same("refusal 8", (longer, out), (true, &untouched[..]));
        }
        _ => return differs("the answer", format!("{ours:?}\n  against {theirs:?}")),
    };
    if !theirs::same_value(&value, theirs) {
        return differs("the answer", format!("{ours:?} {value:?}\n  against {theirs:?}"));
    }
    same("bytes behind the text", &out[length..], &untouched[length..])
}

/// The type 10 entry against the crate's text to text.
fn shown_like(side: &dyn Side, scene: &Scene, ask: &Ask, theirs: &DecodedValue) -> Verdict {
    let shown = side.translate(&scene.image, scene.address, scene.limit, &ask.text);
    let lent = if shown.from_image == 1 { &scene.image } else { &ask.text };
    let part = lent.get(shown.start as usize..(shown.start + shown.length) as usize);
    match theirs {
        DecodedValue::String(s) => same("the text shown", part, Some(s.as_bytes())),
        other => differs("the text shown", format!("{shown:?}\n  against {other:?}")),
    }
}

/// Two sides against each other, on everything that can be asked of a scene.
pub fn with_side(a: &dyn Side, b: &dyn Side, scene: &Scene, tally: &mut Tally) -> Verdict {
    let (image, address, limit) = (&scene.image[..], scene.address, scene.limit);
    let checked = a.check(image, address, limit);
    same("the check", checked, b.check(image, address, limit))?;
    tally.add("second reading, checks by refusal", checked.refusal);
    let parsed = a.parse(image, address);
    same("the parse", parsed, b.parse(image, address))?;
    tally.add("second reading, parses by refusal", parsed.refusal);
    kept_alike(a, b, scene, &parsed, tally)?;
    count_few_links(scene, checked, parsed.refusal, tally);
    fields_alike(a, b, &scene.fields, tally)?;
    fields_alike(a, b, &scene.padded, tally)?;
    texts_alike(a, b, scene, tally)?;
    inverses_alike(a, b, scene, tally)?;
    for ask in &scene.asks {
        let (mut out_a, mut out_b) = (output(ask.room), output(ask.room));
        let ours = a.apply(image, address, limit, ask.value, &ask.text, &mut out_a);
        let other = b.apply(image, address, limit, ask.value, &ask.text, &mut out_b);
        same("the application", (ours, &out_a), (other, &out_b))?;
        untouched_behind(&ours, &out_a)?;
        tally.add("second reading, applications by refusal", ours.refusal);
        tally.add_if(checked.refusal == 0, "second reading, applications by blocks begun M", begun_class(ours.applied));
        tally.add_if(ours.malformed == 1, "second reading, applications that consulted a malformed table", says(&ours));
        modes_alike(a, b, scene, ask, (&ours, &out_a), tally)?;
        if ask.value == Value::Text {
            let shown = a.translate(image, address, limit, &ask.text);
            same("the text shown", shown, b.translate(image, address, limit, &ask.text))?;
            tally.add("second reading, texts shown", if shown.from_image == 1 { "from the image" } else { "the question" });
        }
    }
    Ok(())
}

/// Where a link count below 4 was met, and whether 3, 4 or 5 was as well.
fn count_few_links(scene: &Scene, checked: Checked, parse_refusal: u32, tally: &mut Tally) {
    let group = "second reading, link counts below 4";
    tally.add_if(parse_refusal == 18, group, "parses refused with 18");
    let limited = checked.refusal == 3 && RIGHT.parse(&scene.image, checked.address).refusal == 18;
    tally.add_if(limited, group, "checks refused with 3 there");
    if checked.refusal != 18 {
        return;
    }
    let place = if checked.address == scene.address { "at the root" } else { "below it" };
    tally.add(group, format!("checks refused with 18 {place}"));
    let untested = Second { wrong: Wrong::FewTakenByCheck }.check(&scene.image, scene.address, scene.limit);
    let also = match untested.refusal {
        4 if untested.address == checked.address => "a short block",
        5 if untested.address == checked.address => "a block at depth 21",
        _ => "no other refusal of the block",
    };
    tally.add("second reading, checks refused with 18, by what else is met", also);
}

/// The entry with a mode, which the crate does not have. `plain` is the answer of the one without, and its output.
fn modes_alike(a: &dyn Side, b: &dyn Side, scene: &Scene, ask: &Ask, plain: (&Applied, &[u8]), tally: &mut Tally) -> Verdict {
    let (image, address, limit) = (&scene.image[..], scene.address, scene.limit);
    let (mut out_a, mut out_b) = (output(ask.room), output(ask.room));
    let ours = a.apply_at(ask.mode, image, address, limit, ask.value, &ask.text, &mut out_a);
    let other = b.apply_at(ask.mode, image, address, limit, ask.value, &ask.text, &mut out_b);
    same("the application in a mode", (ours, &out_a), (other, &out_b))?;
    untouched_behind(&ours, &out_a)?;
    let changed = (&ours, &out_a[..]) != plain;
    let effect = match (ours.refusal, ask.mode.edition) {
        (16, _) => "refused with 16",
        (11, _) => "refused with 11",
        (_, 410) if changed => "another answer in 4.10 than without a mode",
        (_, 410) => "the same answer in 4.10 as without a mode",
        _ if changed => "another answer in 4.20 than without a mode",
        _ => "the same answer in 4.20 as without a mode",
    };
    tally.add("second reading, applications in a mode", effect);
    if changed && ours.kind == 3 && ask.mode.edition == 410 {
        let place = if ours.applied == 1 { "at the root" } else { "below it" };
        tally.add("second reading, type 11 unknown in 4.10, by the answer without a mode", format!("{} {place}", says(plain.0)));
    }
    Ok(())
}

/// What the guards of a side say after its calls.
pub fn guards_stand(side: &dyn Side) -> Verdict {
    match side.fault() {
        Some(fault) => differs("a guard", fault.to_string()),
        None => Ok(()),
    }
}

/// A refusal leaves the output as it was; a text changes nothing behind it; other answers write nothing.
fn untouched_behind(ours: &Applied, out: &[u8]) -> Verdict {
    let from = if ours.kind == 2 { ours.length as usize } else { 0 };
    same("bytes behind the text", &out[from..], &output(out.len())[from..])
}

fn fields_alike(a: &dyn Side, b: &dyn Side, f: &Fields, tally: &mut Tally) -> Verdict {
    let (mut out_a, mut out_b) = (output(f.room), output(f.room));
    let ours = a.write(f.block, &f.refs, &f.words, &mut out_a);
    let other = b.write(f.block, &f.refs, &f.words, &mut out_b);
    tally.add("second reading, blocks written by refusal", ours.refusal);
    let from = if ours.refusal == 0 { ours.length as usize } else { 0 };
    same("bytes behind the block", &out_a[from..], &output(f.room)[from..])?;
    same("the block written", (ours, &out_a), (other, &out_b))?;
    if ours.refusal != 0 {
        return Ok(());
    }
    parsed_back(a, f, &out_a[..from])
}
