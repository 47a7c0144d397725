// What is judged of padding (request [6]): the parse that keeps it, the writer with any of it, and the two laws of the way there and back. The crate
// keeps the reserved bytes in its header and writes them again; of the excess it knows nothing.
use crate::judge::{differs, has_huge_links, output, same, Verdict};
use crate::scene::{Fields, Scene};
use crate::second::{bound, RIGHT};
use crate::side::{Block, Parsed, Side};
use crate::tally::Tally;
use crate::theirs::{self, Outcome};
use oracle::blocks::conversion::ConversionBlock;

/// The parse that keeps the padding, on two sides, and the block written again. `plain` is what plain parsing answers.
pub fn kept_alike(a: &dyn Side, b: &dyn Side, scene: &Scene, plain: &Parsed, tally: &mut Tally) -> Verdict {
    let kept = a.parse_kept(&scene.image, scene.address);
    same("the kept parse", kept, b.parse_kept(&scene.image, scene.address))?;
    count_kept(plain, &kept, tally);
    if kept.refusal == 0 {
        written_back(a, scene, &kept.block, tally)?;
    }
    Ok(())
}

fn count_kept(plain: &Parsed, kept: &Parsed, tally: &mut Tally) {
    let group = "second reading, kept parses";
    tally.add_if(plain.refusal != 0, group, "refused as the plain parse");
    tally.add_if(plain.refusal != kept.refusal, group, "refused in this mode alone");
    if kept.refusal != 0 {
        return;
    }
    let padding = match (kept.block.reserved, kept.block.excess) {
        (0, 0) => "without padding",
        (_, 0) => "with reserved bytes",
        (0, _) => "with excess",
        _ => "with both",
    };
    tally.add(group, padding);
}

/// What was parsed with its padding, written again: the bytes that were read, with the block length of what is written, then zeros for the excess.
/// Where the excess is zero and the block length is not below the bytes read, that is the block as it stands.
fn written_back(side: &dyn Side, scene: &Scene, block: &Block, tally: &mut Tally) -> Verdict {
    let Some(found) = RIGHT.opened(&scene.image, scene.address) else { return Ok(()) };
    let read = block.bytes_read() as usize;
    let standing = scene.image[scene.address as usize..].get(..read.saturating_add(block.excess as usize));
    let Some(standing) = standing else { return differs("a kept block past the image end", format!("{block:?}")) };
    let size = standing.len();
    let mut expected = output(size + 8);
    expected[..read].copy_from_slice(&standing[..read]);
    expected[8..16].copy_from_slice(&(size as u64).to_le_bytes());
    expected[read..size].fill(0);
    let mut out = output(size + 8);
    let written = side.write(*block, &found.refs, &found.values, &mut out);
    same("a kept block written back", (written.refusal, written.length, &out), (0, size as u64, &expected))?;
    let group = "second reading, blocks written back from a kept parse";
    if block.length < read as u64 {
        tally.add(group, "with the block length of the bytes read");
    } else if standing[read..].iter().any(|&b| b != 0) {
        tally.add(group, "with zeros for the excess");
    } else {
        tally.add(group, if size > read { "the block's bytes, excess too" } else { "the block's bytes, no excess" });
        return same("a kept block's own bytes", &out[..size], standing);
    }
    Ok(())
}

/// What was written, parsed with its padding: every field that was given, with the counts and the block length as written.
pub fn parsed_back(side: &dyn Side, f: &Fields, written: &[u8]) -> Verdict {
    let block = Block {
        length: written.len() as u64,
        links: 4 + f.refs.len() as u64,
        val_count: f.words.len() as u16,
        min_word: if f.block.ranged { bound(f.block.range_min, f.block.min_word) } else { 0 },
        max_word: if f.block.ranged { bound(f.block.range_max, f.block.max_word) } else { 0 },
        ..f.block
    };
    same("a written block parsed back", side.parse_kept(written, 0), Parsed { refusal: 0, address: 0, block })
}

/// The kept parse beside the crate's, wherever the crate resolves the block: every field but the excess. Written again, it is what the crate writes,
/// but for the excess, which the crate drops.
pub fn kept_like(side: &dyn Side, scene: &Scene, block: &ConversionBlock, tally: &mut Tally) -> Verdict {
    if passes_end(scene, block) {
        tally.add("crate, kept parses", "not compared, excess past the image end");
        return Ok(());
    }
    let kept = side.parse_kept(&scene.image, scene.address);
    let theirs = Block { reserved: block.header.reserved0, excess: kept.block.excess, ..theirs::record(block) };
    same("the kept parse", kept, Parsed { refusal: 0, address: 0, block: theirs })?;
    tally.add("crate, kept parses", if theirs.reserved == 0 { "without reserved bytes" } else { "with reserved bytes" });
    let Some((ours, mut expected)) = kept_bytes(side, &kept.block, block) else { return Ok(()) };
    let length = expected.len() as u64 + kept.block.excess;
    expected[8..16].copy_from_slice(&length.to_le_bytes());
    expected.resize(length as usize, 0);
    tally.add("crate, blocks written", if kept.block.excess == 0 { "from the kept parse" } else { "from the kept parse, all but the excess" });
    same("a kept block written", ours, expected)
}

/// Whether the block length of what the crate has resolved leads past the image.
fn passes_end(scene: &Scene, block: &ConversionBlock) -> bool {
    scene.address as u128 + block.header.block_len as u128 > scene.image.len() as u128
}

/// A block with its padding as a side writes it, and as the crate does; none where the crate does not write it.
fn kept_bytes(side: &dyn Side, kept: &Block, block: &ConversionBlock) -> Option<(Vec<u8>, Vec<u8>)> {
    let Outcome::Answer(theirs) = theirs::written(block) else { return None };
    let words: Vec<u64> = block.cc_val.iter().map(|v| v.to_bits()).collect();
    let mut out = output(theirs.len() + kept.excess as usize);
    let written = side.write(*kept, &block.cc_ref, &words, &mut out);
    out.truncate(written.length as usize);
    Some((out, theirs))
}

/// By what padding a block has, whether what ours writes from its kept parse is something else than what the crate writes. None where the walk is
/// refused.
pub fn kept_parting(side: &dyn Side, scene: &Scene) -> Option<(&'static str, bool)> {
    if has_huge_links(&scene.image) || RIGHT.check(&scene.image, scene.address, scene.limit).refusal != 0 {
        return None;
    }
    let Outcome::Answer(block) = theirs::resolved(&scene.image, scene.address) else { return None };
    let kept = side.parse_kept(&scene.image, scene.address);
    if kept.refusal != 0 {
        return Some(("excess past the image end, refused by ours", true));
    }
    let (ours, theirs) = kept_bytes(side, &kept.block, &block)?;
    let padding = match (kept.block.reserved, kept.block.excess) {
        (0, 0) => "none",
        (_, 0) => "reserved bytes",
        (0, _) => "excess",
        _ => "reserved bytes and excess",
    };
    Some((padding, ours != theirs))
}
