// Applying a tree of blocks to a value (document 01, "Applying"): types 7 to 11, which follow references, and the choice of a rule.
use super::block::{self, Found, ONE_NAN};
use super::Second;
use crate::side::Value;
use crate::wrong::Wrong;

/// Applying has reached a formula with a number.
pub struct Formula;

pub enum Says {
    Number(f64),
    Text(Vec<u8>),
    Unchanged,
    Unknown,
}

/// One application: the blocks begun so far, the longest text that was being made, and whether a malformed table was consulted. Of a text `most`
/// bytes are kept, one more than the room that is left: that is enough to say whether it fits, and images with many long texts stay quick.
pub struct Application<'a> {
    pub second: &'a Second,
    pub image: &'a [u8],
    pub text: &'a [u8],
    pub most: usize,
    pub begun: u32,
    pub longest: usize,
    pub malformed: bool,
    /// How many bits the signal has.
    pub width: u32,
    /// Whether the file is of edition 4.10.
    pub older: bool,
}

/// Where a reference leads.
enum Lead {
    Nil,
    Nowhere,
    Text(usize, usize),
    Conversion(u64),
}

impl Second {
    /// Text to text: the text that is chosen for a question.
    pub fn chosen_text(&self, image: &[u8], refs: &[u64], question: &[u8]) -> Option<(usize, usize)> {
        let pairs = if self.is(Wrong::HalfTheReferences) { refs.len() / 2 } else { refs.len().saturating_sub(1) / 2 };
        let default_at = if self.is(Wrong::DefaultTextLast) { refs.len().saturating_sub(1) } else { 2 * pairs };
        let default = refs.get(default_at).and_then(|&link| self.text_of(image, link));
        for pair in refs[..2 * pairs].chunks_exact(2) {
            if self.key_is(image, pair[0], question) {
                let output = self.text_of(image, pair[1]);
                return if self.is(Wrong::KeyWithoutOutputFalls) { output.or(default) } else { output };
            }
        }
        default
    }

    fn key_is(&self, image: &[u8], link: u64, question: &[u8]) -> bool {
        let Some(part) = self.text_of(image, link) else { return false };
        let key = self.said(image, part, question.len() + 1);
        match self.wrong {
            Wrong::KeyPrefix => key.starts_with(question),
            Wrong::ZeroEndsQuestion if question.starts_with(key) => !question.get(key.len()).is_some_and(|&b| b != 0),
            Wrong::KeysReadWhole => {
                self.read_whole(image, part);
                key == question
            }
            _ => key == question,
        }
    }

    fn lead(&self, image: &[u8], link: u64) -> Lead {
        if link == 0 {
            return Lead::Nil;
        }
        match (self.text_of(image, link), block::id_at(image, link)) {
            (Some((from, to)), _) => {
                if self.is(Wrong::TextsReadWhole) {
                    self.read_whole(image, (from, to));
                }
                Lead::Text(from, to)
            }
            (None, Some(b"##CC")) => Lead::Conversion(link),
            _ => Lead::Nowhere,
        }
    }

    fn mask(&self, word: u64) -> u64 {
        match self.wrong {
            Wrong::MaskAsNumber => f64::from_bits(word) as u64,
            Wrong::MaskLosesNan if block::spells_nan(word) => ONE_NAN,
            _ => word,
        }
    }

    /// Whether a block that is begun with a value consults a malformed table: a range to text, with a number (request [5]).
    pub fn consults(&self, found: &Found, value: Value) -> bool {
        let length = found.values.len();
        let given = match value {
            Value::Text => self.is(Wrong::OddTableOfText),
            Value::Other(_) => self.is(Wrong::OddTableOfOther),
            _ => true,
        };
        given
            && match found.kind {
                8 => self.is_malformed(length),
                4 | 5 => self.is(Wrong::OddTableOfPairs) && length % 2 == 1,
                6 => self.is(Wrong::OddTableOfTriples) && (length < 4 || (length - 1) % 3 != 0),
                _ => false,
            }
    }

    /// The bits that bit groups mask, as many low ones as the signal has (request [2]); none for a value that they leave unchanged.
    fn group_bits(&self, value: Value, width: u32) -> Option<u64> {
        match value {
            Value::Unsigned(_) if self.is(Wrong::WidthOfSignedOnly) => self.group_bits_of_all(value),
            Value::Signed(_) if self.is(Wrong::WidthOfUnsignedOnly) => self.group_bits_of_all(value),
            _ => self.group_bits_of_all(value).map(|bits| self.low_bits(bits, width)),
        }
    }

    fn group_bits_of_all(&self, value: Value) -> Option<u64> {
        match value {
            Value::Unsigned(n) => Some(n),
            Value::Signed(_) if self.is(Wrong::SignedGroupsUnchanged) => None,
            Value::Signed(n) => Some(n as u64),
            Value::Float(x) if self.is(Wrong::FloatGroups) => Some(x as u64),
            _ => None,
        }
    }

    /// A wrong build's value, cut to the width.
    pub fn cut(&self, value: Value, width: u32) -> Value {
        match value {
            Value::Unsigned(n) => Value::Unsigned(self.low_bits(n, width)),
            Value::Signed(n) => Value::Signed(self.low_bits(n as u64, width) as i64),
            other => other,
        }
    }

    fn low_bits(&self, bits: u64, width: u32) -> u64 {
        let width = match self.wrong {
            _ if width >= 64 => return bits,
            Wrong::WidthOneMore => width + 1,
            Wrong::WidthOneLess => width - 1,
            _ => width,
        };
        let low = if width < 64 { bits % (1 << width) } else { bits };
        let is_negative = self.is(Wrong::WidthSignExtended) && low >> (width - 1) == 1;
        if is_negative {
            low | u64::MAX << width
        } else {
            low
        }
    }
}

impl Application<'_> {
    fn is(&self, wrong: Wrong) -> bool {
        self.second.is(wrong)
    }

    /// The bytes of a text that are kept.
    fn kept(&self, from: usize, to: usize) -> Vec<u8> {
        self.second.said(self.image, (from, to), self.most).to_vec()
    }

    /// The block at an address that the check has accepted, applied to a value.
    pub fn apply(&mut self, address: u64, value: Value) -> Result<Says, Formula> {
        self.begun += 1;
        let Some(found) = self.second.read(self.image, address) else { return Ok(Says::Unchanged) };
        self.consult(&found, value);
        match (found.kind, value) {
            (0 | 12.., _) if found.kind > 0 && self.is(Wrong::UnknownTypeUnknown) => Ok(Says::Unknown),
            (0 | 12.., _) => Ok(Says::Unchanged),
            (11, _) if self.is_unknown(value) => self.unknown_groups(&found, value),
            (10, _) if self.older && self.is(Wrong::OlderTextToText) => Ok(Says::Unchanged),
            (_, Value::Other(_)) if self.is(Wrong::OtherUnknown) => Ok(Says::Unknown),
            (_, Value::Other(_)) => Ok(Says::Unchanged),
            (3, Value::Text) if self.is(Wrong::FormulaTakesText) => Err(Formula),
            (1..=8, Value::Text) if self.is(Wrong::TextToNumberRules) => Ok(Says::Unknown),
            (1..=8, Value::Text) => Ok(Says::Unchanged),
            (9, Value::Text) => Ok(self.text_to_value(&found)),
            (10, Value::Text) => Ok(self.text_to_text(&found)),
            (9 | 10, _) if self.is(Wrong::NumberToTextTypes) => Ok(Says::Unknown),
            (9 | 10, _) => Ok(Says::Unchanged),
            (11, _) => self.bit_groups(&found, value),
            (3, _) => {
                self.begun -= self.is(Wrong::FormulaNotCounted) as u32;
                Err(Formula)
            }
            _ => self.of_number(&found, value),
        }
    }

    fn consult(&mut self, found: &Found, value: Value) {
        let told = self.begun == 1 || !self.is(Wrong::OddTableLostNested);
        if told && self.second.consults(found, value) {
            self.malformed = !(self.malformed && self.is(Wrong::OddTablesCancel));
        }
    }

    /// Types 1, 2 and 4 to 8, of a number.
    fn of_number(&mut self, found: &Found, value: Value) -> Result<Says, Formula> {
        let Some(x) = self.second.number(value) else { return Ok(Says::Unchanged) };
        let integer = !matches!(value, Value::Float(_));
        let v: Vec<f64> = found.values.iter().map(|&w| f64::from_bits(w)).collect();
        let s = self.second;
        match found.kind {
            1 if v.len() < 2 && self.is(Wrong::LinearShortUnchanged) => Ok(Says::Unchanged),
            1 => Ok(Says::Number(s.linear(&v, x))),
            2 => Ok(Says::Number(s.rational(&v, x))),
            4 | 5 => Ok(Says::Number(s.table(&v, x, found.kind == 4))),
            6 => Ok(Says::Number(s.range_to_value(&v, x, integer))),
            7 => self.follow(found, s.key_index(&v, found.refs.len(), x), value, x),
            _ => self.follow(found, s.range_index(&v, x, integer), value, x),
        }
    }

    fn nested(&mut self, address: u64, value: Value) -> Result<Says, Formula> {
        let says = self.apply(address, value)?;
        if self.is(Wrong::MeasuringVisits) && matches!(says, Says::Text(_)) {
            self.begun += 1;
        }
        Ok(says)
    }

    /// Types 7 and 8: what the reference at the index decides.
    fn follow(&mut self, found: &Found, (index, matched): (usize, bool), value: Value, x: f64) -> Result<Says, Formula> {
        let value = if self.is(Wrong::NestedGetsFloat) { Value::Float(x) } else { value };
        let reference = found.refs.get(index).copied();
        let lead = self.second.lead(self.image, reference.unwrap_or(0));
        let default = self.default_conversion(found);
        match lead {
            Lead::Text(from, to) => return Ok(Says::Text(self.kept(from, to))),
            Lead::Conversion(address) if !self.is_passed_over(address, default) => return self.nested(address, value),
            Lead::Nil if matched => {
                let unchanged = match reference {
                    Some(_) => self.is(Wrong::MatchedNilUnchanged),
                    None => self.is(Wrong::MatchedMissingUnchanged),
                };
                if unchanged {
                    return Ok(Says::Unchanged);
                }
                if !(self.is(Wrong::MatchedNilTakesDefault) && default.is_some()) {
                    return Ok(Says::Text(Vec::new()));
                }
            }
            _ => {}
        }
        match default {
            Some(_) if matched && self.is(Wrong::NoDefaultForMatch) => Ok(Says::Unchanged),
            Some(address) => self.nested(address, value),
            None if reference == Some(0) && self.is(Wrong::UnmatchedNilEmpty) => Ok(Says::Text(Vec::new())),
            None => Ok(Says::Unchanged),
        }
    }

    /// Only type 8: the last of more than two references, if it is a ##CC.
    fn default_conversion(&self, found: &Found) -> Option<u64> {
        let typed = found.kind == 8 || self.is(Wrong::ValueToTextHasDefault);
        let least = if self.is(Wrong::DefaultOfTwo) { 2 } else { 3 };
        match found.refs.last() {
            Some(&link) if typed && found.refs.len() >= least => match self.second.lead(self.image, link) {
                Lead::Conversion(address) => Some(address),
                _ => None,
            },
            _ => None,
        }
    }

    fn text_to_value(&self, found: &Found) -> Says {
        let equal = |&link: &u64| self.second.key_is(self.image, link, self.text);
        let key = match self.second.wrong {
            Wrong::TextToValueLast => found.refs.iter().rposition(equal),
            _ => found.refs.iter().position(equal),
        };
        let default_at = match self.second.wrong {
            Wrong::TextToValueDefaultLast => found.values.len().saturating_sub(1),
            _ => found.refs.len(),
        };
        let mut value = found.values.get(key.unwrap_or(default_at));
        if value.is_none() && self.is(Wrong::TextToValueFallsThrough) {
            value = found.values.last();
        }
        value.map_or(Says::Unknown, |&w| Says::Number(f64::from_bits(w)))
    }

    fn text_to_text(&self, found: &Found) -> Says {
        match self.second.chosen_text(self.image, &found.refs, self.text) {
            Some((from, to)) => Says::Text(self.kept(from, to)),
            None if self.is(Wrong::NoTranslationUnknown) => Says::Unknown,
            None => Says::Unchanged,
        }
    }

    /// Whether a block of type 11 is unknown, as it is in edition 4.10 (request [8]).
    fn is_unknown(&self, value: Value) -> bool {
        self.older
            && match self.second.wrong {
                Wrong::OlderAtRootOnly => self.begun == 1,
                Wrong::OlderNestedOnly => self.begun > 1,
                Wrong::OlderSignedShown => !matches!(value, Value::Signed(_)),
                _ => true,
            }
    }

    /// A block of type 11 that is unknown leaves its value unchanged. What stands below it plays no part but in wrong builds.
    fn unknown_groups(&mut self, found: &Found, value: Value) -> Result<Says, Formula> {
        let (begun, malformed) = (self.begun, self.malformed);
        match self.second.wrong {
            Wrong::OlderUnknown => return Ok(Says::Unknown),
            Wrong::OlderEmptyText => return Ok(Says::Text(Vec::new())),
            Wrong::OlderNotCounted => self.begun -= 1,
            Wrong::OlderCountsBelow => {
                let _ = self.bit_groups(found, value);
                self.malformed = malformed;
            }
            Wrong::OlderTellsBelow => {
                let _ = self.bit_groups(found, value);
                self.begun = begun;
            }
            Wrong::OlderStoppedBelow => {
                self.bit_groups(found, value)?;
                (self.begun, self.malformed) = (begun, malformed);
            }
            Wrong::OlderPassesOn => {
                if let Some(Lead::Conversion(address)) = found.refs.first().map(|&link| self.second.lead(self.image, link)) {
                    return self.nested(address, value);
                }
            }
            _ => {}
        }
        Ok(Says::Unchanged)
    }

    /// Whether a wrong build takes the default conversion in the place of a block of type 11.
    fn is_passed_over(&self, address: u64, default: Option<u64>) -> bool {
        let is_groups = || self.second.read(self.image, address).is_some_and(|found| found.kind == 11);
        self.is(Wrong::OlderTakesDefault) && self.older && default.is_some() && is_groups()
    }

    fn bit_groups(&mut self, found: &Found, value: Value) -> Result<Says, Formula> {
        let width = if self.is(Wrong::WidthOfRootOnly) && self.begun > 1 { 64 } else { self.width };
        let Some(bits) = self.second.group_bits(value, width) else { return Ok(Says::Unchanged) };
        let (mut parts, mut length): (Vec<Vec<u8>>, usize) = (Vec::new(), 0);
        let (most, before) = (self.most, self.malformed);
        for (i, (&link, &word)) in found.refs.iter().zip(&found.values).enumerate() {
            if link == 0 && self.is(Wrong::NilEndsGroups) {
                break;
            }
            self.most = most.saturating_sub(length);
            let so_far = self.malformed;
            if self.is(Wrong::OddTableOfLastGroup) {
                self.malformed = before;
            }
            let part = self.part(found, link, bits, bits & self.second.mask(word));
            if self.is(Wrong::OddTableOfFirstGroup) && i > 0 {
                self.malformed = so_far;
            }
            if part.is_err() && self.is(Wrong::OddTableBehindFormula) {
                self.look_behind(found, i + 1);
            }
            if let Some(part) = part? {
                if !(part.is_empty() && self.is(Wrong::EmptyPartDropped)) {
                    length += part.len() + !parts.is_empty() as usize;
                    parts.push(part);
                }
            }
            self.longest = self.longest.max(length);
        }
        if parts.is_empty() && self.is(Wrong::NoPartsUnchanged) {
            return Ok(Says::Unchanged);
        }
        self.most = most;
        let mut text = parts.join(&b'|');
        text.truncate(most);
        Ok(Says::Text(text))
    }

    /// A wrong build's look at the groups behind a formula.
    fn look_behind(&mut self, groups: &Found, from: usize) {
        for &link in groups.refs.iter().take(groups.values.len()).skip(from) {
            if let Lead::Conversion(address) = self.second.lead(self.image, link) {
                let nested = self.second.read(self.image, address);
                self.malformed |= nested.is_some_and(|found| self.second.consults(&found, Value::Unsigned(0)));
            }
        }
    }

    /// What one group adds, if anything.
    fn part(&mut self, groups: &Found, link: u64, whole: u64, masked: u64) -> Result<Option<Vec<u8>>, Formula> {
        match self.second.lead(self.image, link) {
            Lead::Text(..) if masked == 0 && self.is(Wrong::TextPartNeedsBits) => Ok(None),
            Lead::Text(from, to) => Ok(Some(self.kept(from, to))),
            Lead::Conversion(_) if masked == 0 && self.is(Wrong::GroupNeedsBits) => Ok(None),
            Lead::Conversion(address) => {
                let value = match self.second.wrong {
                    Wrong::GroupGetsWhole => Value::Unsigned(whole),
                    Wrong::GroupGetsSigned => Value::Signed(masked as i64),
                    _ => Value::Unsigned(masked),
                };
                match self.nested(address, value)? {
                    Says::Text(text) => Ok(Some(self.named(groups, address, text))),
                    _ => Ok(None),
                }
            }
            Lead::Nil | Lead::Nowhere => Ok(None),
        }
    }

    /// A part with the name of its block before it, where that name link gives a text.
    fn named(&self, groups: &Found, address: u64, text: Vec<u8>) -> Vec<u8> {
        let own = self.second.read(self.image, address).map_or(0, |b| b.fixed[0]);
        let link = match self.second.wrong {
            Wrong::GroupWithoutName => 0,
            Wrong::GroupNamedByParent => groups.fixed[0],
            _ => own,
        };
        match self.second.text_of(self.image, link) {
            Some((from, to)) => {
                if self.is(Wrong::NamesReadWhole) {
                    self.second.read_whole(self.image, (from, to));
                }
                [&self.kept(from, to)[..], b" = ", &text].concat()
            }
            None => text,
        }
    }
}
