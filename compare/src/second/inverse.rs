// Text back to number (request [7]): from a value to text block, the matching text to value block. Every two keys are compared, in index order.
use super::block::spells_nan;
use super::{Found, Refused, Second};
use crate::side::Inverted;
use crate::wrong::Wrong;
use std::collections::HashMap;
use std::hint::black_box;

/// Repeated texts are looked for in runs of so many keys by wrong builds.
const RUN: usize = 255;

/// Stands for the refusals of the keys, 14, 12 and 13, among those of the block.
const KEYS: u32 = 0;

/// A key of a value to text block: its 64 bits, its reference if there is one, and the text there if there is one. `body`: the text, and what stands
/// behind it up to the end of its block.
pub struct Key<'a> {
    pub word: u64,
    pub link: Option<u64>,
    pub text: Option<&'a [u8]>,
    body: &'a [u8],
}

/// What is wrong with a key, and the first earlier key that it repeats, by its text and by its value.
#[derive(Default)]
pub struct Faults {
    pub is_nan: bool,
    pub no_text: bool,
    pub text_of: Option<usize>,
    pub value_of: Option<usize>,
}

impl Faults {
    fn has(&self, refusal: u32) -> bool {
        match refusal {
            14 => self.is_nan,
            12 => self.no_text,
            _ => self.text_of.is_some() || self.value_of.is_some(),
        }
    }

    fn earlier(&self) -> usize {
        self.text_of.into_iter().chain(self.value_of).min().unwrap_or(0)
    }
}

/// A refusal at a key: its number, the key's index, and what was met there.
struct Met {
    refusal: u32,
    index: usize,
    faults: Faults,
}

impl Second {
    /// Refusals 1, 2, 18, 4 and 15; then 14, 12, 13 key by key; then 8; then the block.
    pub fn inverted(&self, image: &[u8], address: u64, out: &mut [u8]) -> Inverted {
        let found = match self.invertible(image, address) {
            Ok(found) => found,
            Err((refusal, named)) => {
                let address = if self.is(Wrong::InvertParseWithoutAddress) { 0 } else { named };
                return Inverted { refusal, address, ..Inverted::default() };
            }
        };
        let (is_other, order) = (self.is_other_type(found.kind), self.inversion_order());
        if is_other && order[0] == 15 && !self.is(Wrong::InvertRoomBeforeType) {
            return self.wrong_type(&found, address);
        }
        let keys = self.keys_of(image, &found);
        let bytes = self.inverse_bytes(&found, &keys, address);
        let is_short = self.inverse_room(&found, bytes.len()) > out.len();
        for number in order {
            match number {
                15 if is_other && is_short && self.is(Wrong::InvertRoomBeforeType) => return self.inverse_without_room(&bytes, out),
                15 if is_other => return self.wrong_type(&found, address),
                8 if is_short => return self.inverse_without_room(&bytes, out),
                KEYS => {
                    let met = self.first_met(&keys, &found, image);
                    let passed = |met: &Met| is_short && met.refusal == 13 && self.is(Wrong::InvertRoomBeforeRepeat);
                    if let Some(met) = met.filter(|met| !passed(met)) {
                        return self.refused_at_key(&met, &keys, address, &bytes, out);
                    }
                }
                _ => {}
            }
        }
        let size = bytes.len().min(out.len());
        out[..size].copy_from_slice(&bytes[..size]);
        if self.is(Wrong::InvertByteBehind) && size < out.len() {
            out[size] = 0;
        }
        let length = match self.wrong {
            Wrong::InvertLengthOfOld => found.bytes_read(),
            Wrong::InvertLengthOfKeys => 16 * keys.len() as u64,
            _ => bytes.len() as u64,
        };
        Inverted { length, ..Inverted::default() }
    }

    /// What is tested behind parsing, in its order.
    fn inversion_order(&self) -> [u32; 3] {
        match self.wrong {
            Wrong::InvertTypeAfterKeys => [KEYS, 15, 8],
            Wrong::InvertRoomBeforeKeys => [15, 8, KEYS],
            _ => [15, KEYS, 8],
        }
    }

    /// The block at an address, or what parsing refuses.
    fn invertible(&self, image: &[u8], address: u64) -> Result<Found, Refused> {
        let parsed = self.parsed(image, address);
        match (self.wrong, &parsed) {
            (Wrong::InvertTypeBeforeShort, Err((4, _))) | (Wrong::InvertTypeBeforeFew, Err((18, _))) => {
                let links = image.get(address as usize + 16..).map_or(0, |bytes| u64::from_le_bytes(bytes[..8].try_into().unwrap()));
                let at = address as u128 + 24 + 8 * links.max(4) as u128;
                let kind = usize::try_from(at).ok().and_then(|at| image.get(at));
                return Err((if kind.is_some_and(|&kind| kind != 7) { 15 } else { parsed.err().unwrap().0 }, address));
            }
            (Wrong::InvertExcessRefused, Ok(found)) if self.passes_end(image, address, found) => return Err((4, address)),
            (Wrong::InvertChecked, Ok(_)) => return self.accepted(image, address, 20_000).and(parsed),
            _ => {}
        }
        parsed
    }

    fn is_other_type(&self, kind: u8) -> bool {
        match self.wrong {
            Wrong::InvertAnyType => false,
            Wrong::InvertRangesTaken => kind != 7 && kind != 8,
            _ => kind != 7,
        }
    }

    fn wrong_type(&self, found: &Found, address: u64) -> Inverted {
        let index = if self.is(Wrong::InvertTypeTold) { found.kind as u32 } else { 0 };
        Inverted { refusal: 15, index, address: if self.is(Wrong::InvertTypeWithoutAddress) { 0 } else { address }, length: 0 }
    }

    /// The keys of a block: its values, in order, with the references of the same index.
    pub fn keys_of<'a>(&self, image: &'a [u8], found: &Found) -> Vec<Key<'a>> {
        let references = match self.wrong {
            Wrong::InvertReferencesByField => found.refs.len().min(found.ref_count as usize),
            _ => found.refs.len(),
        };
        let n = match self.wrong {
            Wrong::InvertUnreferencedLeftOut => found.values.len().min(references),
            _ => found.values.len(),
        };
        // A text that many references lead to is read once.
        let mut read = HashMap::new();
        let mut texts = |link: u64| {
            *read.entry(link).or_insert_with(|| {
                let (from, end) = self.key_place(image, link)?;
                Some((self.said(image, (from, end), usize::MAX), &image[from..end]))
            })
        };
        let mut key = |i: usize| {
            let link = found.refs[..references].get(i).copied();
            let (text, body) = link.and_then(&mut texts).unzip();
            Key { word: found.values[i], link, text, body: body.unwrap_or(&[]) }
        };
        (0..n).map(&mut key).collect()
    }

    /// Where the text of a key's reference may stand; see `text_of`.
    fn key_place(&self, image: &[u8], link: u64) -> Option<(usize, usize)> {
        let otherwise = |wrong: Wrong| Second { wrong }.text_of(image, link);
        match self.wrong {
            Wrong::InvertMetadataTaken => otherwise(Wrong::MetadataIsText),
            Wrong::InvertCutTaken => otherwise(Wrong::LongTextIsClipped),
            Wrong::InvertPastBlock => otherwise(Wrong::TextPastBlock),
            // The text at address 0, as reading a text block gives it.
            Wrong::InvertAtZeroTaken if link == 0 => {
                let read = self.text_read(image, 0);
                (read.refusal == 0 && read.id == 0).then_some((24, 24 + read.length as usize))
            }
            Wrong::InvertConversionTaken => match self.opened(image, link).filter(|_| link != 0) {
                Some(nested) => self.text_of(image, nested.fixed[0]),
                None => self.text_of(image, link),
            },
            _ => self.text_of(image, link),
        }
    }

    /// What is wrong with key i.
    pub fn faults(&self, keys: &[Key], i: usize) -> Faults {
        let key = &keys[i];
        let tested = !(self.is(Wrong::InvertLastUntested) && i + 1 == keys.len());
        if !tested {
            return Faults::default();
        }
        let by_text = |&j: &usize| self.same_text(keys, j, i);
        let by_value = |&j: &usize| self.same_value(keys, j, i);
        let (mut text_of, mut value_of) = (key.text.and_then(|_| (0..i).find(by_text)), (0..i).find(by_value));
        match self.wrong {
            // An earlier key that has both.
            Wrong::InvertRepeatOfBoth => {
                text_of = (0..i).find(|j| by_text(j) && by_value(j));
                value_of = text_of;
            }
            Wrong::InvertEqualPairTaken if text_of.is_some() && text_of == value_of => (text_of, value_of) = (None, None),
            _ => {}
        }
        Faults { is_nan: self.is_no_key(key.word), no_text: self.is_no_text(key), text_of, value_of }
    }

    fn is_no_key(&self, word: u64) -> bool {
        match self.wrong {
            Wrong::InvertNanTaken => false,
            Wrong::InvertSignallingNanTaken => spells_nan(word) && word & (1 << 51) != 0,
            Wrong::InvertNegativeNanTaken => spells_nan(word) && word >> 63 == 0,
            Wrong::InvertInfinityRefused => !f64::from_bits(word).is_finite(),
            _ => spells_nan(word),
        }
    }

    fn is_no_text(&self, key: &Key) -> bool {
        match (self.wrong, key.link, key.text) {
            (Wrong::InvertMissingTaken, None, _) | (Wrong::InvertNilTaken, Some(0), _) => false,
            (Wrong::InvertEmptyTaken, _, Some(_)) => false,
            (Wrong::InvertBareTaken, _, Some(_)) if key.body.is_empty() => false,
            (Wrong::InvertZeroFirstTaken, _, Some(_)) if !key.body.is_empty() => false,
            (_, _, text) => text.is_none_or(|text| text.is_empty()),
        }
    }

    fn same_value(&self, keys: &[Key], j: usize, i: usize) -> bool {
        let (a, b) = (keys[j].word, keys[i].word);
        let same = f64::from_bits(a) == f64::from_bits(b);
        match self.wrong {
            Wrong::InvertBothZerosTaken => a == b && same,
            Wrong::InvertValuesUntested => false,
            Wrong::InvertValuesOfNeighbours => same && j + 1 == i,
            Wrong::InvertValuesOfRun => same && j / RUN == i / RUN,
            _ => same,
        }
    }

    fn same_text(&self, keys: &[Key], j: usize, i: usize) -> bool {
        let (earlier, key) = (&keys[j], &keys[i]);
        let (Some(a), Some(b)) = (earlier.text, key.text) else { return false };
        match self.wrong {
            Wrong::InvertTextsUntested => false,
            Wrong::InvertPrefixRepeats => a.starts_with(b) || b.starts_with(a),
            Wrong::InvertTextsToBlockEnd => earlier.body == key.body,
            Wrong::InvertByAddress => earlier.link == key.link,
            Wrong::InvertAddressTwiceTaken => earlier.link != key.link && a == b,
            Wrong::InvertAnyCase => a.eq_ignore_ascii_case(b),
            Wrong::InvertFirstBytesCompared => a.len() == b.len() && a[..a.len().min(24)] == b[..b.len().min(24)],
            Wrong::InvertLastByteLeft => a.len() == b.len() && a[..a.len().saturating_sub(1)] == b[..b.len().saturating_sub(1)],
            Wrong::InvertBySum => a.len() == b.len() && sum(a) == sum(b),
            Wrong::InvertByHash => hash(a) == hash(b),
            Wrong::InvertNeighboursOnly => a == b && j + 1 == i,
            Wrong::InvertRunOnly => a == b && j / RUN == i / RUN,
            Wrong::InvertRunLastLeft => a == b && j % RUN != RUN - 1,
            Wrong::InvertRunFirstLeft => a == b && i % RUN != 0,
            Wrong::InvertNextRunOnly => a == b && i / RUN <= j / RUN + 1,
            Wrong::InvertComparedBytewise => {
                let alike = a.iter().zip(b).take_while(|(x, y)| black_box(x) == black_box(y)).count();
                alike == a.len() && alike == b.len()
            }
            Wrong::InvertMeasuredAgain => {
                a.iter().for_each(|byte| _ = black_box(byte));
                a == b
            }
            _ => a == b,
        }
    }

    /// The refusals of one key, in their order.
    fn key_order(&self) -> [u32; 3] {
        match self.wrong {
            Wrong::InvertTextBeforeKey => [12, 14, 13],
            Wrong::InvertRepeatBeforeText => [14, 13, 12],
            Wrong::InvertRepeatBeforeKey => [13, 14, 12],
            _ => [14, 12, 13],
        }
    }

    /// The first refusal met, in index order.
    fn first_met(&self, keys: &[Key], found: &Found, image: &[u8]) -> Option<Met> {
        let order = self.key_order();
        let met = |refusals: &[u32], i: usize| {
            let faults = self.faults(keys, i);
            refusals.iter().find(|&&refusal| faults.has(refusal)).map(|&refusal| Met { refusal, index: i, faults })
        };
        let first = |refusals: &[u32]| (0..keys.len()).find_map(|i| met(refusals, i));
        match self.wrong {
            Wrong::InvertNoKeysRefused if keys.is_empty() => Some(Met { refusal: 12, index: 0, faults: Faults::default() }),
            Wrong::InvertNansFirst => first(&[14]).or_else(|| first(&order)),
            Wrong::InvertTextsFirst => first(&[14, 12]).or_else(|| first(&order)),
            Wrong::InvertLastMet => (0..keys.len()).rev().find_map(|i| met(&order, i)),
            Wrong::InvertRunByRun => self.met_by_runs(keys, &order),
            _ => first(&order).or_else(|| self.met_behind(keys, found, image)),
        }
    }

    /// What the wrong builds refuse behind the keys.
    fn met_behind(&self, keys: &[Key], found: &Found, image: &[u8]) -> Option<Met> {
        let default = found.refs.get(keys.len())?;
        let refused = match self.wrong {
            Wrong::InvertDefaultRefused => true,
            Wrong::InvertDefaultTested => self.text_of(image, *default).is_none(),
            _ => false,
        };
        refused.then(|| Met { refusal: 12, index: keys.len(), faults: Faults::default() })
    }

    /// Each run of keys is looked for in all later ones before the next run is: of several repeats, that of the first run is told.
    fn met_by_runs(&self, keys: &[Key], order: &[u32]) -> Option<Met> {
        let runs = (0..keys.len()).step_by(RUN);
        let repeat = |run: usize| (run..keys.len()).find(|&i| (run..i.min(run + RUN)).any(|j| self.same_text(keys, j, i)));
        let told = runs.into_iter().find_map(repeat);
        (0..keys.len()).find_map(|i| {
            let mut faults = self.faults(keys, i);
            faults.text_of = faults.text_of.filter(|_| told == Some(i));
            order.iter().find(|&&refusal| faults.has(refusal)).map(|&refusal| Met { refusal, index: i, faults })
        })
    }

    /// A refusal at a key: its index, and nothing else but in wrong builds.
    fn refused_at_key(&self, met: &Met, keys: &[Key], address: u64, bytes: &[u8], out: &mut [u8]) -> Inverted {
        if self.is(Wrong::InvertWrittenAsTested) {
            let end = (56 + 8 * met.index).min(out.len()).min(bytes.len());
            out[..end].copy_from_slice(&bytes[..end]);
        }
        let index = match (self.wrong, met.refusal) {
            (Wrong::InvertRepeatTellsEarlier, 13) => met.faults.earlier(),
            (Wrong::InvertIndexFromOne, _) => met.index + 1,
            (Wrong::InvertKeyWithoutIndex, 14) | (Wrong::InvertTextWithoutIndex, 12) | (Wrong::InvertRepeatWithoutIndex, 13) => 0,
            _ => met.index,
        };
        let named = match (self.wrong, met.refusal) {
            (Wrong::InvertTextWithLink, 12) => keys.get(met.index).and_then(|key| key.link).unwrap_or(0),
            (Wrong::InvertKeyWithAddress, 14) | (Wrong::InvertRepeatWithAddress, 13) => address,
            _ => 0,
        };
        Inverted { refusal: met.refusal, index: index as u32, address: named, length: 0 }
    }

    fn inverse_room(&self, found: &Found, size: usize) -> usize {
        match self.wrong {
            Wrong::InvertRoomOneLess => size - 1,
            Wrong::InvertRoomOneMore => size + 1,
            Wrong::InvertRoomOfOld => found.bytes_read() as usize,
            _ => size,
        }
    }

    fn inverse_without_room(&self, bytes: &[u8], out: &mut [u8]) -> Inverted {
        if self.is(Wrong::InvertHeaderFirst) {
            let end = out.len().min(24);
            out[..end].copy_from_slice(&bytes[..end]);
        }
        Inverted { refusal: 8, length: if self.is(Wrong::InvertRoomWithLength) { bytes.len() as u64 } else { 0 }, ..Inverted::default() }
    }

    /// The references and the values of the new block.
    fn inverse_words(&self, found: &Found, keys: &[Key]) -> (Vec<u64>, Vec<u64>) {
        let n = keys.len();
        let reference = |i: usize| found.refs.get(i).copied().unwrap_or(0);
        let mut refs: Vec<u64> = (0..n).map(reference).collect();
        let mut words: Vec<u64> = keys.iter().map(|key| key.word).collect();
        match self.wrong {
            Wrong::InvertDefaultKept => refs.extend(found.refs.get(n)),
            Wrong::InvertAllReferencesKept => refs = found.refs.clone(),
            Wrong::InvertReferencesOneOff => refs = (0..n).map(|i| reference(i + 1)).collect(),
            Wrong::InvertReversed => {
                refs.reverse();
                words.reverse();
            }
            Wrong::InvertValuesReversed => words.reverse(),
            Wrong::InvertValuesSorted => words.sort_by(|a, b| f64::from_bits(*a).total_cmp(&f64::from_bits(*b))),
            Wrong::InvertLastLost => {
                refs.pop();
                words.pop();
            }
            Wrong::InvertZeroSignLost => words.iter_mut().filter(|word| **word == 1 << 63).for_each(|word| *word = 0),
            Wrong::InvertValuesSingle => words.iter_mut().for_each(|word| *word = (f64::from_bits(*word) as f32 as f64).to_bits()),
            Wrong::InvertIndexAsValue => words = (0..n).map(|i| (i as f64).to_bits()).collect(),
            Wrong::InvertDefaultValue => words.push(0),
            _ => {}
        }
        (refs, words)
    }

    /// The new block. `address` is the old one's.
    fn inverse_bytes(&self, found: &Found, keys: &[Key], address: u64) -> Vec<u8> {
        let (refs, words) = self.inverse_words(found, keys);
        let [name, unit, comment, inverse] = found.fixed;
        let kept = |lost: Wrong, word: u64| if self.is(lost) { 0 } else { word };
        let inverse = match self.wrong {
            Wrong::InvertInverseKept => inverse,
            Wrong::InvertInverseIsOld => address,
            _ => 0,
        };
        let range = found.range.filter(|_| self.is(Wrong::InvertRangeKept));
        let excess = match self.wrong {
            Wrong::InvertExcessKept => found.length.saturating_sub(found.bytes_read()).min(15),
            _ => 0,
        };
        let size = 64 + 8 * (refs.len() + words.len()) as u64 + 16 * range.is_some() as u64 + excess;
        let length = if self.is(Wrong::InvertBlockLengthKept) { found.length } else { size };
        let links = if self.is(Wrong::InvertLinksKept) { found.links } else { 4 + refs.len() as u64 };
        let reserved = if self.is(Wrong::InvertReservedKept) { found.reserved } else { 0 };
        let mut bytes = b"##CC".to_vec();
        bytes.extend(reserved.to_le_bytes());
        let fixed = [kept(Wrong::InvertNameLost, name), kept(Wrong::InvertUnitLost, unit), kept(Wrong::InvertCommentLost, comment), inverse];
        [length, links].iter().chain(&fixed).chain(&refs).for_each(|word| bytes.extend(word.to_le_bytes()));
        bytes.push(if self.is(Wrong::InvertTypeKept) { 7 } else { 9 });
        bytes.push(kept(Wrong::InvertPrecisionLost, found.precision as u64) as u8);
        let flags = kept(Wrong::InvertFlagsLost, found.flags as u64) as u16;
        let ref_count = match self.wrong {
            Wrong::InvertReferenceCountKept => found.ref_count,
            Wrong::InvertReferenceCountOfLinks => links as u16,
            _ => keys.len() as u16,
        };
        [flags, ref_count, words.len() as u16].iter().for_each(|half| bytes.extend(half.to_le_bytes()));
        range.iter().flat_map(|&(min, max)| [min, max]).chain(words).for_each(|word| bytes.extend(word.to_le_bytes()));
        bytes.resize(size as usize, 0);
        bytes
    }
}

/// A hash of 32 bits, the one by which ours passes over texts: two texts may have the same.
fn hash(text: &[u8]) -> u32 {
    text.iter().fold(2_166_136_261, |hash: u32, &byte| hash.wrapping_mul(16_777_619).wrapping_add(byte as u32))
}

fn sum(text: &[u8]) -> u64 {
    text.iter().map(|&byte| byte as u64).sum()
}
