// What is judged of the inverse of a value to text block (request [7]). The crate has no such function: it judges the block that ours gives, by its
// fields and by what it makes of the text of each key. The second reading judges every answer and every byte.
use crate::domain::{self, Place};
use crate::judge::{differs, has_huge_links, output, same, Verdict};
use crate::keyed::Inversion;
use crate::lent::{LARGEST_IMAGE, LARGEST_TEXT};
use crate::scene::Scene;
use crate::second::{Key, RIGHT};
use crate::side::{Applied, Block, Inverted, Side, Value};
use crate::tally::Tally;
use crate::theirs::{self, Outcome};
use oracle::blocks::conversion::ConversionBlock;
use oracle::parsing::decoder::DecodedValue;

/// Of a block with more keys, so many are asked back by ours: the first, the last, and others between.
const ASKED_BACK: usize = 24;

/// So many keys at a time are looked through for repeated texts by ours; repeats in one such run and in two are counted apart.
const RUN: usize = 255;

/// Where an inverse is asked for: in the image that was grown for it, and at the scene's own root.
fn places(scene: &Scene) -> [(&[u8], u64); 2] {
    [(&scene.inversion.image, scene.inversion.address), (&scene.image, scene.address)]
}

/// An image with the inverse behind its end; none where the guards have no room for it.
fn behind(image: &[u8], block: &[u8]) -> Option<Vec<u8>> {
    (image.len() + block.len() <= LARGEST_IMAGE).then(|| [image, block].concat())
}

/// Two sides on all inversions of a scene.
pub fn inverses_alike(a: &dyn Side, b: &dyn Side, scene: &Scene, tally: &mut Tally) -> Verdict {
    places(scene).into_iter().try_for_each(|(image, address)| inverted_alike(a, b, image, address, &scene.inversion, tally))
}

fn inverted_alike(a: &dyn Side, b: &dyn Side, image: &[u8], address: u64, v: &Inversion, tally: &mut Tally) -> Verdict {
    let (mut out_a, mut out_b) = (output(v.room), output(v.room));
    let ours = a.invert(image, address, &mut out_a);
    let other = b.invert(image, address, &mut out_b);
    same("the inverse", (ours, &out_a), (other, &out_b))?;
    count_inverted(image, address, ours, v.room, tally);
    let Some(block) = out_a.get(..ours.length as usize) else { return differs("an inverse longer than the room", format!("{ours:?}")) };
    same("bytes behind the inverse", &out_a[block.len()..], &output(v.room)[block.len()..])?;
    if ours.refusal != 0 {
        return Ok(());
    }
    asked_back(a, image, address, block, v, tally)
}

/// Set behind the image, the inverse gives each key for its text, to the bit, with N 1 and M 1, and Unknown for a text that is no key's.
fn asked_back(side: &dyn Side, image: &[u8], address: u64, block: &[u8], v: &Inversion, tally: &mut Tally) -> Verdict {
    let (Some(found), Some(whole)) = (RIGHT.opened(image, address), behind(image, block)) else { return Ok(()) };
    let keys = RIGHT.keys_of(image, &found);
    let asked = |text: &[u8], expected: Option<u64>, tally: &mut Tally| {
        let answer = side.apply(&whole, image.len() as u64, v.limit, Value::Text, text, &mut []);
        tally.add("second reading, texts asked of an inverse", if expected.is_some() { "the key" } else { "unknown" });
        same("a text asked of the inverse", (answer, answer.number.to_bits()), (answered(expected), expected.unwrap_or(0)))
    };
    let step = keys.len().div_ceil(ASKED_BACK).max(1);
    for key in keys.iter().step_by(step).chain(keys.last()) {
        let text = key.text.unwrap_or(&[]);
        if text.len() <= LARGEST_TEXT {
            asked(text, Some(key.word), tally)?;
        }
    }
    v.questions.iter().try_for_each(|question| asked(question, key_of(&keys, question), tally))
}

/// The first key with this text.
fn key_of(keys: &[Key], text: &[u8]) -> Option<u64> {
    keys.iter().find(|key| key.text == Some(text)).map(|key| key.word)
}

/// Number with a key, or Unknown: one block was checked and applied.
fn answered(key: Option<u64>) -> Applied {
    let (kind, number) = key.map_or((4, 0.0), |word| (1, f64::from_bits(word)));
    Applied { refusal: 0, kind, number, length: 0, address: 0, checked: 1, applied: 1, malformed: 0 }
}

fn count_inverted(image: &[u8], address: u64, ours: Inverted, room: usize, tally: &mut Tally) {
    tally.add("second reading, inversions by refusal", ours.refusal);
    if ours.refusal == 0 {
        tally.add("second reading, blocks inverted by keys", key_class((ours.length - 64) / 16));
    }
    if ![12, 13, 14].contains(&ours.refusal) {
        return;
    }
    let Some(found) = RIGHT.opened(image, address) else { return };
    let (keys, i) = (RIGHT.keys_of(image, &found), ours.index as usize);
    let faults = RIGHT.faults(&keys, i);
    let met = [
        faults.is_nan.then_some("14"),
        faults.no_text.then_some("12"),
        faults.text_of.map(|_| "13 by its text"),
        faults.value_of.map(|_| "13 by its value"),
    ];
    let met: Vec<&str> = met.into_iter().flatten().collect();
    tally.add("second reading, inversions refused at a key, by all that is met there", met.join(" and "));
    tally.add_if(64 + 16 * keys.len() > room, "second reading, inversions refused at a key", "with too little room as well");
    tally.add_if(keys.len() > RUN, "second reading, inversions refused at a key", "of over 255");
    if let Some(j) = faults.text_of.filter(|_| ours.refusal == 13) {
        let addresses = if keys[i].link == keys[j].link { "one address" } else { "two addresses" };
        let apart = match (i / RUN - j / RUN, i - j) {
            (0, 1) => "of neighbours",
            (0, _) => "in one run of 255",
            (1, _) => "in two runs of 255 side by side",
            _ => "in two runs of 255 apart",
        };
        tally.add("second reading, inversions refused for a repeated text", format!("at {addresses}, {apart}"));
    }
}

fn key_class(n: u64) -> &'static str {
    match n {
        0 => "0",
        1 => "1",
        2..=8 => "2 to 8",
        9..=40 => "9 to 40",
        41..=255 => "41 to 255",
        _ => "256 and more",
    }
}

/// A side against the crate on all inversions of a scene.
pub fn inverses_like(side: &dyn Side, scene: &Scene, tally: &mut Tally) -> Verdict {
    places(scene).into_iter().try_for_each(|(image, address)| inverse_like(side, image, address, &scene.inversion, tally))
}

fn inverse_like(side: &dyn Side, image: &[u8], address: u64, v: &Inversion, tally: &mut Tally) -> Verdict {
    let mut out = output(v.room);
    let inverted = side.invert(image, address, &mut out);
    if inverted.refusal != 0 || has_huge_links(image) {
        return Ok(());
    }
    let Some(block) = out.get(..inverted.length as usize) else { return differs("an inverse longer than the room", format!("{inverted:?}")) };
    let Some(whole) = behind(image, block) else { return Ok(()) };
    let at = image.len() as u64;
    let (Outcome::Answer(old), Outcome::Answer(new)) = (theirs::parsed(image, address), theirs::parsed(&whole, at)) else {
        return differs("an inverse that the crate does not read", format!("{block:?}"));
    };
    same("the fields of the inverse", fields(&new), wanted(&old))?;
    tally.add("crate, inverses", "by their fields");
    if let Place::Outside(_) = domain::place(&whole, at, v.limit) {
        tally.add("crate, inverses", "not asked, a text outside the domain");
        return Ok(());
    }
    tally.add("crate, inverses", "by what they answer too");
    asked_of_crate(image, &whole, &old, v, tally)
}

/// All that the crate reads of a block: its id, its reserved bytes, its record, its references, and the bits of its values.
type Fields = (String, u32, Block, Vec<u64>, Vec<u64>);

fn fields(block: &ConversionBlock) -> Fields {
    let words = block.cc_val.iter().map(|value| value.to_bits()).collect();
    (block.header.id.clone(), block.header.reserved0, theirs::record(block), block.cc_ref.clone(), words)
}

/// The fields that request [7] asks for, from the block as the crate reads it.
fn wanted(old: &ConversionBlock) -> Fields {
    let n = old.cc_val.len();
    let count = n as u16;
    let block = Block {
        length: 64 + 16 * n as u64,
        links: 4 + n as u64,
        name: old.cc_tx_name.unwrap_or(0),
        unit: old.cc_md_unit.unwrap_or(0),
        comment: old.cc_md_comment.unwrap_or(0),
        flags: old.cc_flags,
        ref_count: count,
        val_count: count,
        kind: 9,
        precision: old.cc_precision,
        ..Block::default()
    };
    let refs = old.cc_ref.iter().take(n).copied().collect();
    ("##CC".to_string(), 0, block, refs, old.cc_val.iter().map(|value| value.to_bits()).collect())
}

/// The crate, asked with the text of each key as it reads that itself, gives the key, to the bit; with a text that is no key's, Unknown.
fn asked_of_crate(image: &[u8], whole: &[u8], old: &ConversionBlock, v: &Inversion, tally: &mut Tally) -> Verdict {
    let Outcome::Answer(inverse) = theirs::resolved(whole, image.len() as u64) else {
        return differs("an inverse that the crate does not resolve", String::new());
    };
    let mut asked = |text: &str, expected: Option<u64>| {
        let answer = match theirs::applied(&inverse, DecodedValue::String(text.to_string()), whole) {
            Outcome::Answer(DecodedValue::Float(key)) => Some(key.to_bits()),
            Outcome::Answer(DecodedValue::Unknown) => None,
            _ => return differs("an inverse that the crate does not apply", format!("{text:?}")),
        };
        tally.add("crate, texts asked of an inverse", if expected.is_some() { "the key" } else { "unknown" });
        same("a text that the crate asks of the inverse", answer, expected)
    };
    let mut texts = Vec::new();
    for (&link, key) in old.cc_ref.iter().zip(&old.cc_val) {
        let Outcome::Answer(Some(text)) = theirs::text_at(image, link) else {
            return differs("a text of an inverse that the crate does not read", format!("at {link}"));
        };
        asked(&text, Some(key.to_bits()))?;
        texts.push((text, key.to_bits()));
    }
    let questions = v.questions.iter().filter_map(|question| std::str::from_utf8(question).ok());
    let key = |question: &str| texts.iter().find(|(text, _)| text == question).map(|(_, word)| *word);
    questions.into_iter().try_for_each(|question| asked(question, key(question)))
}
