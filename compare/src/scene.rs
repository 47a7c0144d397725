// A scene: one image with an address and a limit, the values that are asked there, the fields of one block to write, and a block to invert.
// Seed and number give the same scene on every machine.
use crate::damage;
use crate::grow::Grower;
use crate::hostile;
use crate::keyed::{self, Inversion};
use crate::lent::LARGEST_IMAGE;
use crate::numbers;
use crate::plan::{Laid, Node, Plan};
use crate::random::Random;
use crate::second::RIGHT;
use crate::side::{Block, Mode, Side, Value};

/// So many values are asked in each scene.
pub const ASKS: usize = 8;

/// The last image of each so many is a hostile one.
pub const HOSTILE_EVERY: u64 = 1000;

/// No room is made for more excess than this.
const MOST_EXCESS: u64 = 6000;

/// A limit that no grown tree reaches.
pub const WIDE_LIMIT: u32 = 20_000;

/// Widths, editions, padded fields, texts and inversions are each drawn apart, so that they change no image and no value of a seed, nor each other.
const WIDTHS: u64 = 0x7769_6474_6873;
const EDITIONS: u64 = 0x6564_6974_696f_6e73;
const PADDED: u64 = 0x7061_6464_6564;
const TEXTS: u64 = 0x74_6578_7473;
const INVERSIONS: u64 = 0x69_6e76_6572_7365;

fn is_hostile(number: u64) -> bool {
    number % HOSTILE_EVERY == HOSTILE_EVERY - 1
}

#[derive(Clone)]
pub struct Ask {
    pub value: Value,
    pub text: Vec<u8>,
    pub room: usize,
    /// For the entry that takes one.
    pub mode: Mode,
}

/// The modes of a scene, one for each ask.
struct Modes {
    widths: Random,
    editions: Random,
}

impl Modes {
    fn new(seed: u64, number: u64) -> Modes {
        Modes { widths: Random::new(seed ^ WIDTHS, number), editions: Random::new(seed ^ EDITIONS, number) }
    }

    fn next(&mut self) -> Mode {
        Mode { width: numbers::width(&mut self.widths), edition: numbers::edition(&mut self.editions) }
    }
}

#[derive(Clone)]
pub struct Fields {
    pub block: Block,
    pub refs: Vec<u64>,
    pub words: Vec<u64>,
    pub room: usize,
}

/// A text to write, and text blocks to read.
#[derive(Clone)]
pub struct Texts {
    pub metadata: bool,
    pub text: Vec<u8>,
    pub room: usize,
    /// What was written is read back behind so many bytes.
    pub before: usize,
    /// An image with one text block and a root that shows the text at this address.
    pub image: Vec<u8>,
    pub address: u64,
    /// Where texts are read in the scene's image.
    pub places: Vec<u64>,
}

#[derive(Clone)]
pub struct Scene {
    pub image: Vec<u8>,
    pub address: u64,
    pub limit: u32,
    pub asks: Vec<Ask>,
    pub fields: Fields,
    /// Others, with padding.
    pub padded: Fields,
    pub texts: Texts,
    pub inversion: Inversion,
    /// Whether the work of its calls is measured.
    pub hostile: bool,
}

impl Scene {
    pub fn new(seed: u64, number: u64) -> Scene {
        let mut r = Random::new(seed, number);
        let mut modes = Modes::new(seed, number);
        let padded = padded_fields(&mut Random::new(seed ^ PADDED, number));
        let mut text_draws = Random::new(seed ^ TEXTS, number);
        let inversion = keyed::grow(is_hostile(number), &mut Random::new(seed ^ INVERSIONS, number));
        if is_hostile(number) {
            return Scene::hostile(&mut r, &mut modes, padded, &mut text_draws, inversion);
        }
        let grown = Grower::grow(&mut r);
        let mut laid = grown.plan.lay(&mut r);
        let mut address = laid.places[grown.plan.root];
        if r.chance(30) {
            for _ in 0..1 + r.below(2) {
                damage::damage(&mut laid, address, &mut r);
            }
            if r.chance(15) {
                address = damage::address(&laid, address, &mut r);
            }
        }
        // Behind all other damage, so that it meets that too.
        if r.chance(8) {
            damage::few_links(&mut laid, address, &mut r);
        }
        if r.chance(12) {
            damage::padding(&mut laid, address, &mut r);
        }
        assert!(laid.image.len() <= LARGEST_IMAGE);
        let texts = texts(&grown.plan, &laid, address, &mut text_draws);
        let limit = limit(&laid.image, address, &mut r);
        let root = RIGHT.opened(&laid.image, address);
        let wants_text = root.is_some_and(|b| b.kind == 9 || b.kind == 10);
        let fields = fields(&mut r, 0, 0);
        let mut scene = Scene { image: laid.image, address, limit, asks: Vec::new(), fields, padded, texts, inversion, hostile: false };
        for _ in 0..ASKS {
            let value = numbers::value(&mut r, &grown.palette, wants_text);
            let text = if value == Value::Text { numbers::question(&mut r, &grown.texts) } else { Vec::new() };
            let room = scene.room(value, &text, 600, &mut r);
            scene.asks.push(Ask { value, text, room, mode: modes.next() });
        }
        scene
    }

    /// A hostile image, which is not damaged; the room is mostly small.
    fn hostile(r: &mut Random, modes: &mut Modes, padded: Fields, text_draws: &mut Random, inversion: Inversion) -> Scene {
        let grown = hostile::grow(r);
        let laid = grown.plan.lay(r);
        let address = laid.places[grown.plan.root];
        let texts = texts(&grown.plan, &laid, address, text_draws);
        let limit = limit(&laid.image, address, r);
        let wants_text = RIGHT.opened(&laid.image, address).is_some_and(|b| b.kind == 9 || b.kind == 10);
        let fields = fields(r, 0, 0);
        let mut scene = Scene { image: laid.image, address, limit, asks: Vec::new(), fields, padded, texts, inversion, hostile: true };
        for _ in 0..ASKS {
            let value = match r.below(10) {
                0 => numbers::value(r, &grown.palette, wants_text),
                _ if wants_text => Value::Text,
                _ => Value::Unsigned(numbers::whole(r)),
            };
            let text = if value == Value::Text { numbers::question(r, &grown.texts) } else { Vec::new() };
            let room = if r.chance(60) { r.pick(&[64, 64, 64, 0, 1]) } else { scene.room(value, &text, 4000, r) };
            scene.asks.push(Ask { value, text, room, mode: modes.next() });
        }
        scene
    }

    /// Room for the answer: mostly more than enough, sometimes just enough, or one byte less.
    fn room(&self, value: Value, text: &[u8], enough: usize, r: &mut Random) -> usize {
        if r.chance(70) {
            return enough;
        }
        let mut out = vec![0; enough];
        let length = RIGHT.apply(&self.image, self.address, self.limit, value, text, &mut out).length as usize;
        r.pick(&[length, length, length.saturating_sub(1), length.saturating_sub(1), length + 1, 0, length / 2])
    }
}

/// Mostly more than the walk begins, up to its end or its refusal; sometimes just so much, or too little.
fn limit(image: &[u8], address: u64, r: &mut Random) -> u32 {
    let checked = RIGHT.check(image, address, WIDE_LIMIT);
    let n = if checked.refusal == 0 { checked.visits } else { RIGHT.begun(image, address, WIDE_LIMIT).max(1) };
    match r.below(100) {
        0..=59 => WIDE_LIMIT,
        60..=69 if checked.refusal == 0 => u32::MAX,
        60..=84 => n,
        85..=89 => n + 1,
        90..=94 => n - 1,
        95..=96 => r.below(n as usize + 1) as u32,
        _ => r.pick(&[0, 1, 2]),
    }
}

fn padded_fields(r: &mut Random) -> Fields {
    let (reserved, excess) = (numbers::reserved(r), numbers::excess(r));
    fields(r, reserved, excess)
}

/// Room for a block of a size without its excess: mostly enough, sometimes just so, or for the block without its excess.
fn block_room(size: usize, excess: u64, r: &mut Random) -> usize {
    let whole = size + excess.min(MOST_EXCESS) as usize;
    if r.chance(60) {
        whole + r.below(9)
    } else {
        r.pick(&[whole, whole - 1, 0, 24, size / 2, size, size - 1])
    }
}

fn texts(plan: &Plan, laid: &Laid, root: u64, r: &mut Random) -> Texts {
    let others: Vec<usize> = (0..plan.nodes.len()).filter(|&n| matches!(plan.nodes[n], Node::Text { .. } | Node::Foreign { .. })).collect();
    let places = damage::text_places(laid, &others, root, r);
    let text = numbers::label(r);
    let room = text_room(text.len(), r);
    let before = r.pick(&[0, 0, 1, 8, 24, 40]);
    let (image, address) = damage::text_block(r);
    Texts { metadata: r.chance(50), text, room, before, image, address, places }
}

/// Room for the block of a text: mostly more than enough or just so, sometimes one byte less, none, or enough for all but some of its zeros.
fn text_room(length: usize, r: &mut Random) -> usize {
    let whole = 24 + length / 8 * 8 + 8;
    match r.below(10) {
        0..=3 => whole + r.below(40),
        4..=6 => whole,
        7 => whole - 1,
        _ => r.pick(&[0, 24, 24 + length, 25 + length, whole / 2]),
    }
}

/// Any fields for the writer. The stored value count is mostly the number of values, as the crate needs it.
fn fields(r: &mut Random, reserved: u32, excess: u64) -> Fields {
    let many = r.below(1000) == 0;
    let count = if many { r.pick(&[65_534, 65_535, 65_536, 65_537]) } else { r.below(8) };
    let words: Vec<u64> = (0..count).map(|_| if many { 7 } else { numbers::word(r) }).collect();
    let refs: Vec<u64> = (0..r.below(6)).map(|_| r.next() >> r.below(64)).collect();
    let ranged = r.chance(50);
    let (min_word, max_word) = if ranged { (numbers::word(r), numbers::word(r)) } else { (0, 0) };
    let (range_min, range_max) = (f64::from_bits(min_word), f64::from_bits(max_word));
    // Beside a bound that is a number any word may stand: here at times the other bound's.
    let other = refs.len() % 2 == 1;
    let min_kept = if other && !range_min.is_nan() { max_word } else { min_word };
    let size = 64 + 8 * (refs.len() + words.len()) + 16 * ranged as usize;
    let room = block_room(size, excess, r);
    let link = |r: &mut Random| if r.chance(40) { 0 } else { r.next() >> r.below(64) };
    let block = Block {
        length: r.next() >> r.below(64),
        links: r.below(12) as u64,
        name: link(r),
        unit: link(r),
        comment: link(r),
        inverse: link(r),
        range_min,
        range_max,
        min_word: min_kept,
        max_word,
        excess,
        reserved,
        flags: r.next() as u16,
        ref_count: r.next() as u16,
        val_count: if r.chance(85) { words.len() as u16 } else { r.next() as u16 },
        kind: if r.chance(70) { r.below(13) as u8 } else { r.next() as u8 },
        precision: r.next() as u8,
        ranged,
    };
    Fields { block, refs, words, room }
}
