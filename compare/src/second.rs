// A second reading of document 01 and requests [2], [5], [6], [7], [8], [11] and [13], plain and slow: check, apply, parse, write, the type 10 entry,
// text blocks and the inverse of a value to text block. It judges the proved build where the crate has no say, and with one rule broken (`wrong`) it is
// a wrong build that the comparison has to catch.
mod apply;
mod block;
mod inverse;
mod padding;
mod rules;
mod texts;

use crate::side::{Applied, Block, Checked, Inverted, Mode, Parsed, Shown, Side, Text, Value, Written, STANDARD};
use crate::wrong::Wrong;
use apply::{Application, Says};
pub use block::{bound, Found};
pub use inverse::Key;

pub struct Second {
    pub wrong: Wrong,
}

/// Document 01 with no rule broken.
pub const RIGHT: Second = Second { wrong: Wrong::Nothing };

/// A refusal's number and its address.
type Refused = (u32, u64);

/// What a walk carries from block to block.
struct Walk<'a> {
    image: &'a [u8],
    limit: u64,
    visits: u64,
    path: Vec<u64>,
    seen: Vec<u64>,
    /// Whether the file is of edition 4.10: only a wrong build asks.
    older: bool,
}

/// A nested reference of a block, and how many visits it took.
#[derive(Default)]
struct Remembered {
    link: u64,
    visits: u64,
}

impl Second {
    fn is(&self, wrong: Wrong) -> bool {
        self.wrong == wrong
    }

    /// The ##CC block at an address, if one stands there whole.
    pub fn opened(&self, image: &[u8], address: u64) -> Option<Found> {
        block::id_at(image, address).filter(|&id| id == b"##CC").and_then(|_| self.read(image, address))
    }

    /// The check, which is alike in both editions.
    fn accepted(&self, image: &[u8], address: u64, limit: u32) -> Result<u32, Refused> {
        self.accepted_in(false, image, address, limit)
    }

    fn accepted_in(&self, older: bool, image: &[u8], address: u64, limit: u32) -> Result<u32, Refused> {
        let (begun, walked) = self.walked(older, image, address, limit);
        walked.map(|_| begun)
    }

    /// How many visits the check begins, up to its end or to the block that it is refused at.
    pub fn begun(&self, image: &[u8], address: u64, limit: u32) -> u32 {
        self.walked(false, image, address, limit).0
    }

    /// The visits that a walk begins, and how it ends.
    fn walked(&self, older: bool, image: &[u8], address: u64, limit: u32) -> (u32, Result<(), Refused>) {
        let limit = limit as u64 - (self.is(Wrong::LimitOneLess) && limit > 0) as u64;
        let mut walk = Walk { image, limit, visits: 0, path: Vec::new(), seen: Vec::new(), older };
        let walked = self.walk_root(&mut walk, address);
        (walk.visits as u32, walked)
    }

    /// Root first: refusals 1, 2, 3, 18, 4; then its references.
    fn walk_root(&self, walk: &mut Walk, address: u64) -> Result<(), Refused> {
        let more = if self.is(Wrong::RootHeaderOneByteMore) { 1 } else { 0 };
        if address as u128 + 24 + more > walk.image.len() as u128 {
            return Err((1, address));
        }
        if block::id_at(walk.image, address) != Some(b"##CC") {
            let few = self.is(Wrong::FewBeforeIdAtRoot) && self.has_few_links(walk.image, address);
            return Err((if few { 18 } else { 2 }, address));
        }
        if self.is(Wrong::OnlyRefuses) {
            return Err((3, address));
        }
        self.visit(walk, address, 0)
    }

    /// One visit of a ##CC block, then its references.
    fn visit(&self, walk: &mut Walk, address: u64, depth: u32) -> Result<(), Refused> {
        let found = self.begin(walk, address, depth)?;
        if matches!(self.wrong, Wrong::RepeatsCountOnce | Wrong::OneVisitedSet) {
            walk.seen.push(address);
        }
        let walked = match self.wrong {
            Wrong::OnlyTextTypesWalked => [7, 8, 11].contains(&found.kind),
            Wrong::OlderNotWalked => !(walk.older && found.kind == 11),
            _ => true,
        };
        walk.path.push(address);
        let mut last = Remembered::default();
        for &link in found.refs.iter().filter(|_| walked) {
            if self.is_remembered(&last, walk, link) {
                walk.visits += last.visits;
                continue;
            }
            let before = walk.visits;
            self.follow_link(walk, link, address, depth)?;
            if walk.visits > before {
                last = Remembered { link, visits: walk.visits - before };
            }
        }
        walk.path.pop();
        Ok(())
    }

    /// The refusals of a visit, in their order. `few`: whether its link count is below 4, so that the build with 4 before 3 keeps 18 before 4.
    fn visit_order(&self, depth: u32, few: bool) -> [u32; 4] {
        match (self.wrong, depth) {
            (Wrong::ShortBeforeLimit, _) if !few => [4, 3, 18, 5],
            (Wrong::DeepBeforeShort, _) => [3, 18, 5, 4],
            (Wrong::FewBeforeLimit, 1..) | (Wrong::FewBeforeLimitAtRoot, 0) => [18, 3, 4, 5],
            (Wrong::ShortBeforeFew, 1..) | (Wrong::ShortBeforeFewAtRoot, 0) => [3, 4, 18, 5],
            (Wrong::DeepBeforeFew, _) => [3, 5, 18, 4],
            _ => [3, 18, 4, 5],
        }
    }

    /// The block of a visit, or its refusal. Where the limit is not used up the visit is begun, and counted, whether 18, 4 or 5 follows or not.
    fn begin(&self, walk: &mut Walk, address: u64, depth: u32) -> Result<Found, Refused> {
        let deepest = match self.wrong {
            Wrong::DepthOneLess => 19,
            Wrong::DepthOneMore => 21,
            _ => 20,
        };
        let found = self.read(walk.image, address);
        let few = self.tests_links(depth) && self.has_few_links(walk.image, address);
        let wanted = if self.is(Wrong::FewOnLastVisit) && few { 2 } else { 1 };
        for number in self.visit_order(depth, few) {
            let met = match number {
                3 => walk.visits + wanted > walk.limit,
                18 => few,
                4 => self.is_short(walk.image, address, found.as_ref()),
                _ => depth > deepest,
            };
            if met {
                return Err(self.refusal(number, address, walk.path.last().copied()));
            }
            if number == 3 && !(self.is(Wrong::RepeatsCountOnce) && walk.seen.contains(&address)) {
                walk.visits += 1;
            }
        }
        found.ok_or((4, address))
    }

    /// Whether the image ends inside a block that was read, or could not be. Its block length plays no part in the check but in a wrong build.
    fn is_short(&self, image: &[u8], address: u64, found: Option<&Found>) -> bool {
        found.is_none_or(|found| self.is(Wrong::CheckRefusesExcess) && self.passes_end(image, address, found))
    }

    /// Whether the link count of a block at an address is below 4 (request [11]).
    fn has_few_links(&self, image: &[u8], address: u64) -> bool {
        let links = block::links_at(image, address);
        match self.wrong {
            Wrong::ThreeLinksTaken => links < 3,
            Wrong::FourLinksRefused => links <= 4,
            Wrong::FewByLowBits => (links as u32) < 4,
            Wrong::FewSigned => (links as i64) < 4,
            _ => links < 4,
        }
    }

    /// Whether the check tests the link count of a block at this depth; it does but in wrong builds.
    fn tests_links(&self, depth: u32) -> bool {
        match self.wrong {
            Wrong::FewTakenByCheck => false,
            Wrong::FewTakenBelowRoot => depth == 0,
            Wrong::FewTakenAtRoot => depth > 0,
            _ => true,
        }
    }

    /// A refusal of a block has the block's address. `holder` is the block whose reference leads there.
    fn refusal(&self, number: u32, address: u64, holder: Option<u64>) -> Refused {
        match (self.wrong, number) {
            (Wrong::LimitWithoutAddress, 3) | (Wrong::FewWithoutAddress, 18) => (number, 0),
            (Wrong::FewNamesHolder, 18) => (18, holder.unwrap_or(address)),
            (Wrong::FewIsShort, 18) => (4, address),
            _ => (number, address),
        }
    }

    /// Parsing: refusals 1, 2, 18, 4.
    fn parsed(&self, image: &[u8], address: u64) -> Result<Found, Refused> {
        let id = block::id_at(image, address).ok_or((1, address))?;
        let few = self.has_few_links(image, address) && !self.is(Wrong::FewTakenByParsing);
        if id != b"##CC" && !(few && self.is(Wrong::FewBeforeIdInParsing)) {
            return Err((2, address));
        }
        let found = self.read(image, address);
        if few && !(found.is_none() && self.is(Wrong::ShortBeforeFewInParsing)) {
            return Err(self.refusal(18, address, None));
        }
        found.ok_or((4, address))
    }

    /// Whether a wrong build adds the visits of the last nested reference in the place of walking this one.
    fn is_remembered(&self, last: &Remembered, walk: &Walk, link: u64) -> bool {
        match self.wrong {
            Wrong::RememberedPastLimit => last.link == link && last.visits > 0,
            Wrong::RememberedForAnother => last.visits > 0 && !walk.path.contains(&link) && block::id_at(walk.image, link) == Some(b"##CC"),
            _ => false,
        }
    }

    /// The five steps of one reference.
    fn follow_link(&self, walk: &mut Walk, link: u64, holder: u64, depth: u32) -> Result<(), Refused> {
        if link == 0 && !self.is(Wrong::NilIsALink) {
            return Ok(());
        }
        let root_excused = self.is(Wrong::RootNotOnPath) as usize;
        let known = if self.is(Wrong::OneVisitedSet) { &walk.seen[..] } else { &walk.path[root_excused..] };
        if known.contains(&link) {
            let full = self.is(Wrong::LoopAfterLimit) && walk.visits >= walk.limit;
            let named = if self.is(Wrong::LoopNamesTheBlock) { holder } else { link };
            let number = if self.is(Wrong::LoopIsDeep) { 5 } else { 6 };
            return Err((if full { 3 } else { number }, named));
        }
        match block::id_at(walk.image, link) {
            Some(b"##CC") if self.is(Wrong::FewSkipped) && self.has_few_links(walk.image, link) => Ok(()),
            Some(b"##CC") => self.visit(walk, link, depth + 1),
            Some(_) if self.is(Wrong::FewOfAnyId) && self.has_few_links(walk.image, link) => Err((18, link)),
            None if self.is(Wrong::OutsideLinkRefused) => Err((1, link)),
            _ => Ok(()),
        }
    }

    /// What is answered after an accepted check, and what the output holds then.
    fn settle(&self, checked: u32, run: Application, says: Result<Says, apply::Formula>, out: &mut [u8]) -> Applied {
        let malformed = run.malformed as u32;
        let mut answer = Applied { refusal: 0, kind: 0, number: 0.0, length: 0, address: 0, checked, applied: run.begun, malformed };
        if self.is(Wrong::AppliedIsChecked) {
            answer.applied = checked;
        }
        match says {
            Err(_) if self.is(Wrong::RoomBeforeFormula) && run.longest > out.len() => answer.refusal = 8,
            Err(_) => answer.refusal = 7,
            Ok(Says::Number(x)) => (answer.kind, answer.number) = (1, x),
            Ok(Says::Text(t)) => self.put_text(&t, out, &mut answer),
            Ok(Says::Unchanged) => answer.kind = 3,
            Ok(Says::Unknown) => answer.kind = 4,
        }
        let forgotten = match self.wrong {
            Wrong::OddTableLostAtFormula => answer.refusal == 7,
            Wrong::OddTableLostAtRoom => answer.refusal == 8,
            Wrong::OddTableWithTextOnly => answer.kind != 2,
            _ => false,
        };
        answer.malformed = if forgotten { 0 } else { malformed };
        answer
    }

    fn put_text(&self, text: &[u8], out: &mut [u8], answer: &mut Applied) {
        let cut = self.is(Wrong::TextCutAtRoom);
        let text = &text[..if cut { text.len().min(out.len()) } else { text.len() }];
        let fits = text.len() + self.is(Wrong::RoomOneByteMore) as usize <= out.len();
        let written = text.len().min(out.len());
        if fits || self.is(Wrong::TextBeforeLength) {
            out[..written].copy_from_slice(&text[..written]);
        }
        if !fits {
            answer.refusal = 8;
            if self.is(Wrong::VisitsLostAtRoom) {
                (answer.checked, answer.applied) = (0, 0);
            }
            return;
        }
        if self.is(Wrong::ZeroBehindText) && text.len() < out.len() {
            out[text.len()] = 0;
        }
        (answer.kind, answer.length) = (2, text.len() as u64);
    }

    /// A signal has 1 to 64 bits.
    fn is_width(&self, width: u32) -> bool {
        match self.wrong {
            Wrong::WidthZeroTaken => width <= 64,
            Wrong::WidthAboveTaken => width >= 1,
            Wrong::Width64Refused => (1..64).contains(&width),
            _ => (1..=64).contains(&width),
        }
    }

    /// The editions are 4.10 and 4.20.
    fn is_edition(&self, edition: u32) -> bool {
        match self.wrong {
            Wrong::Edition410Refused => edition == 420,
            Wrong::EditionNextTaken => [410, 411, 420].contains(&edition),
            Wrong::EditionZeroTaken => [0, 410, 420].contains(&edition),
            Wrong::EditionBelowTaken => edition <= 420,
            Wrong::EditionAboveTaken => edition >= 410,
            _ => [410, 420].contains(&edition),
        }
    }

    /// Whether an edition is 4.10, in which type 11 is unknown.
    fn is_older(&self, edition: u32) -> bool {
        match self.wrong {
            Wrong::EditionIgnored => false,
            Wrong::GroupsUnknown => true,
            Wrong::EditionNextTaken | Wrong::EditionBelowTaken => edition < 420,
            _ => edition == 410,
        }
    }

    /// The refusal of a mode that is none: 16 for its edition, then 11 for its width.
    fn mode_refusal(&self, mode: Mode) -> Option<u32> {
        match self.wrong {
            Wrong::EditionAfterWidth if !self.is_width(mode.width) => Some(11),
            Wrong::OlderOfAnyWidth if mode.edition == 410 => None,
            _ if !self.is_edition(mode.edition) => Some(16),
            _ if !self.is_width(mode.width) => Some(11),
            _ => None,
        }
    }

    /// Refusal 16 or 11; what is asked for and what the check says plays no part but in wrong builds.
    fn mode_refused(&self, number: u32, asked: u64, checked: Result<u32, Refused>) -> Applied {
        let ((refusal, address), visits) = match (self.wrong, number, checked) {
            (Wrong::WidthAfterOutside, 11, Err((1, address))) => ((1, address), 0),
            (Wrong::WidthAfterCheck, 11, Err(refused)) => (refused, 0),
            (Wrong::WidthWithVisits, 11, Ok(visits)) => ((11, 0), visits),
            (Wrong::EditionAfterOutside, 16, Err((1, address))) => ((1, address), 0),
            (Wrong::EditionAfterCheck, 16, Err(refused)) => (refused, 0),
            (Wrong::EditionWithVisits, 16, Ok(visits)) => ((16, 0), visits),
            (Wrong::EditionWithAddress, 16, _) => ((16, asked), 0),
            _ => ((number, 0), 0),
        };
        Applied { refusal, kind: 0, number: 0.0, length: 0, address, checked: visits, applied: 0, malformed: 0 }
    }

    /// What the wrong builds answer otherwise where the check refuses with 18.
    fn spoil_few(&self, answer: &mut Applied, begun: impl Fn() -> u32, out: &mut [u8]) {
        match self.wrong {
            Wrong::FewAppliedWithoutAddress => answer.address = 0,
            Wrong::FewWithVisits => answer.checked = begun(),
            Wrong::FewTouchesOutput if !out.is_empty() => out[0] = 0,
            _ => {}
        }
    }

    /// Check, then application, in a mode.
    #[allow(clippy::too_many_arguments)]
    fn applied(&self, mode: Mode, image: &[u8], address: u64, limit: u32, value: Value, text: &[u8], out: &mut [u8]) -> Applied {
        let (width, older) = (mode.width, self.is_older(mode.edition));
        match self.accepted_in(older, image, address, limit) {
            Err((refusal, named)) => {
                let root = self.opened(image, address).filter(|_| self.is(Wrong::OddTableOfRefused));
                let malformed = root.is_some_and(|found| self.consults(&found, value)) as u32;
                let mut answer = Applied { refusal, kind: 0, number: 0.0, length: 0, address: named, checked: 0, applied: 0, malformed };
                if refusal == 18 {
                    self.spoil_few(&mut answer, || self.begun(image, address, limit), out);
                }
                answer
            }
            Ok(checked) => {
                let mut run = Application { second: self, image, text, most: out.len() + 1, begun: 0, longest: 0, malformed: false, width, older };
                let says = run.apply(address, value);
                self.settle(checked, run, says, out)
            }
        }
    }
}

impl Side for Second {
    fn check(&self, image: &[u8], address: u64, limit: u32) -> Checked {
        match self.accepted(image, address, limit) {
            Ok(visits) => Checked { refusal: 0, visits, address: 0 },
            Err((refusal, address)) => Checked { refusal, visits: 0, address },
        }
    }

    fn apply(&self, image: &[u8], address: u64, limit: u32, value: Value, text: &[u8], out: &mut [u8]) -> Applied {
        let edition = if self.is(Wrong::PlainIsOlder) { 410 } else { STANDARD.edition };
        self.applied(Mode { edition, ..STANDARD }, image, address, limit, value, text, out)
    }

    fn apply_at(&self, mode: Mode, image: &[u8], address: u64, limit: u32, value: Value, text: &[u8], out: &mut [u8]) -> Applied {
        let edition = match (self.wrong, mode.edition) {
            (Wrong::EditionsSwapped, 410) => 420,
            (Wrong::EditionsSwapped, 420) => 410,
            (_, edition) => edition,
        };
        let mode = Mode { edition, ..mode };
        let Some(number) = self.mode_refusal(mode) else {
            let value = if self.is(Wrong::WidthOfValue) { self.cut(value, mode.width) } else { value };
            return self.applied(mode, image, address, limit, value, text, out);
        };
        let touches = matches!((self.wrong, number), (Wrong::WidthTouchesOutput, 11) | (Wrong::EditionTouchesOutput, 16));
        if touches && !out.is_empty() {
            out[0] = 0;
        }
        self.mode_refused(number, address, self.accepted(image, address, limit))
    }

    fn translate(&self, image: &[u8], address: u64, limit: u32, question: &[u8]) -> Shown {
        let whole_question = Shown { from_image: 0, start: 0, length: question.len() as u64 };
        let shown = match self.accepted(image, address, limit) {
            Ok(_) => true,
            Err((18, _)) if self.is(Wrong::FewShown) => true,
            Err(_) => self.is(Wrong::ShownUnchecked) && block::id_at(image, address) == Some(b"##CC"),
        };
        if !shown {
            return whole_question;
        }
        let Some(root) = self.read(image, address) else { return whole_question };
        if root.kind != 10 && !self.is(Wrong::ShownForAnyType) {
            return whole_question;
        }
        let Some((from, to)) = self.chosen_text(image, &root.refs, question) else { return whole_question };
        let length = match self.wrong {
            Wrong::ShownWithZeros => block::text_block_end(image, from) - from,
            _ => self.said(image, (from, to), usize::MAX).len(),
        };
        if length == 0 && self.is(Wrong::EmptyTextNotShown) {
            return whole_question;
        }
        Shown { from_image: 1, start: from as u64, length: length as u64 }
    }

    fn parse(&self, image: &[u8], address: u64) -> Parsed {
        self.parsed_plain(image, address)
    }

    fn parse_kept(&self, image: &[u8], address: u64) -> Parsed {
        self.parsed_kept(image, address)
    }

    fn write(&self, block: Block, refs: &[u64], words: &[u64], out: &mut [u8]) -> Written {
        self.written(block, refs, words, out)
    }

    fn read_text(&self, image: &[u8], address: u64) -> Text {
        self.text_read(image, address)
    }

    fn write_text(&self, metadata: bool, text: &[u8], out: &mut [u8]) -> Written {
        self.text_written(metadata, text, out)
    }

    fn invert(&self, image: &[u8], address: u64, out: &mut [u8]) -> Inverted {
        self.inverted(image, address, out)
    }
}
