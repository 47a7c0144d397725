// Grows images with a value to text block to invert (request [7]). Nearly half of them have no fault, the others have one or several, at one key or
// at several. Their texts share beginnings, are the beginning of another, or differ in one byte; some have over 255 keys.
use crate::damage;
use crate::grow;
use crate::lent::LARGEST_IMAGE;
use crate::numbers;
use crate::plan::{Conversion, Laid, Link, Node, Plan};
use crate::random::Random;
use crate::scene::WIDE_LIMIT;
use std::collections::HashSet;

/// One image in so many has over 250 keys.
const MANY_EVERY: usize = 100;

/// Numbers of keys around multiples of 255, the run of keys in which repeated texts are looked for at a time.
const MANY: &[usize] = &[254, 255, 256, 300, 509, 510, 511, 512, 600, 765, 766, 766, 767, 900];

/// Indices around the borders of such runs.
const BORDERS: &[usize] = &[0, 1, 253, 254, 255, 256, 508, 509, 510, 511, 764, 765];

/// Two words with one hash, by `hash` of the second reading. Texts that are made of as many of them have one hash too.
const ONE_HASH: [&[u8; 7]; 2] = [b"vhpwmdb", b"odsrhmc"];

/// What is asked of `invert`, and of the block that it gives.
#[derive(Clone)]
pub struct Inversion {
    pub image: Vec<u8>,
    pub address: u64,
    pub room: usize,
    /// For the application of the inverse; 1 or more.
    pub limit: u32,
    /// Texts that are asked of the inverse beside those of its keys: like one of them, or any.
    pub questions: Vec<Vec<u8>>,
}

/// The value to text block before it is laid out: of each key its value and its reference.
struct Keys<'a> {
    r: &'a mut Random,
    nodes: Vec<Node>,
    values: Vec<u64>,
    refs: Vec<Link>,
    /// The text of each key as it was before any fault.
    texts: Vec<Vec<u8>>,
    /// Whether bytes stand behind the zero byte of some texts.
    littered: bool,
    /// How many references the block has, where some of its keys have none.
    end: Option<usize>,
}

pub fn grow(hostile: bool, r: &mut Random) -> Inversion {
    let mut keys = if hostile { Keys::hostile(r) } else { Keys::plain(r) };
    let n = keys.values.len();
    if !hostile {
        keys.spoil();
        keys.default();
    } else if keys.r.chance(30) {
        keys.equal_text(n - 1, keys.texts.len() / 2);
    }
    let root = keys.root(hostile);
    let (texts, plan) = (keys.texts, Plan { nodes: keys.nodes, root });
    let laid = plan.lay(r);
    let (laid, address) = if hostile { (laid.image, laid.places[root]) } else { damaged(laid, root, r) };
    assert!(laid.len() <= LARGEST_IMAGE);
    let questions = (0..2).map(|_| numbers::question(r, &texts)).collect();
    Inversion { image: laid, address, room: room(64 + 16 * n, r), limit: r.pick(&[1, 1, 1, 2, WIDE_LIMIT, u32::MAX]), questions }
}

/// Some images are damaged in any other way, have padding or few links, or are asked at another address.
fn damaged(mut laid: Laid, root: usize, r: &mut Random) -> (Vec<u8>, u64) {
    let mut address = laid.places[root];
    if r.chance(10) {
        damage::damage(&mut laid, address, r);
    }
    if r.chance(3) {
        damage::few_links(&mut laid, address, r);
    }
    if r.chance(12) {
        damage::padding(&mut laid, address, r);
    }
    if r.chance(4) {
        address = damage::address(&laid, address, r);
    }
    (laid.image, address)
}

/// Room for the inverse: mostly more than enough or just so, sometimes one byte less, none, or enough for all but a key.
fn room(size: usize, r: &mut Random) -> usize {
    match r.below(10) {
        0..=3 => size + r.below(40),
        4..=6 => size,
        7 => size - 1,
        _ => r.pick(&[0, 1, 24, 64, size / 2, size - 8, size - 16, size + 16]),
    }
}

/// How many keys a block has.
fn count(r: &mut Random) -> usize {
    if r.below(MANY_EVERY) == 0 {
        return r.pick(MANY);
    }
    match r.below(20) {
        0 => 0,
        1 | 2 => 1,
        3..=16 => 2 + r.below(7),
        _ => 9 + r.below(32),
    }
}

/// Texts that differ from each other, by their style.
fn text_of(style: usize, stem: &[u8], i: usize, r: &mut Random) -> Vec<u8> {
    let number = i.to_string().into_bytes();
    match style {
        // A beginning that all share, then a number: some have the same digits in another order.
        0 | 1 => [stem, &number].concat(),
        // Each is the beginning of the next.
        2 => vec![b'x'; 1 + i],
        // All first bytes of 255 neighbours are unlike.
        3 => [&[1 + (i % 255) as u8], stem, &number].concat(),
        // The same behind what all share.
        4 => [stem, &[1 + (i % 255) as u8], &number].concat(),
        // Few letters, in both cases; few bytes, the least and the largest among them.
        5 => (0..1 + r.below(10)).map(|_| r.pick(b"abA")).collect(),
        6 => (0..1 + r.below(10)).map(|_| r.pick(b"\x01\x7f\x80\xff")).collect(),
        // All of one hash.
        7 => (0..10).flat_map(|bit| ONE_HASH[i >> bit & 1]).copied().collect(),
        _ => numbers::text(r),
    }
}

fn is_nan(word: u64) -> bool {
    f64::from_bits(word).is_nan()
}

impl Keys<'_> {
    /// Texts and values that all differ: such a block can be inverted.
    fn plain(r: &mut Random) -> Keys<'_> {
        let n = count(r);
        let style = r.below(9);
        let stem_length = if r.chance(8) { 24 + r.below(300) } else { r.pick(&[0, 1, 3, 8, 16, 24]) };
        let stem: Vec<u8> = (0..stem_length).map(|_| b'a' + r.below(26) as u8).collect();
        let littered = r.chance(25);
        let mut keys = Keys { r, nodes: Vec::new(), values: Vec::new(), refs: Vec::new(), texts: Vec::new(), littered, end: None };
        let mut order: Vec<usize> = (0..n).collect();
        if keys.r.chance(50) {
            (1..n).rev().for_each(|i| order.swap(i, keys.r.below(i + 1)));
        }
        let mut known = HashSet::new();
        for (place, i) in order.into_iter().enumerate() {
            let mut text = text_of(style, &stem, i, keys.r);
            if !known.insert(text.clone()) {
                text = format!("{place} of them").into_bytes();
                known.insert(text.clone());
            }
            let link = keys.text(&text);
            keys.refs.push(link);
            keys.texts.push(text);
        }
        keys.number(n);
        keys
    }

    /// Few bytes, many pairs of keys: texts with long beginnings that they share, or with other first bytes and the same long end.
    fn hostile(r: &mut Random) -> Keys<'_> {
        let size = 1 << r.below(6);
        let (n, shared) = (32 * size - r.below(16), vec![b'x'; 24 * size - r.below(16)]);
        let first = r.chance(40);
        let mut keys = Keys { r, nodes: Vec::new(), values: Vec::new(), refs: Vec::new(), texts: Vec::new(), littered: false, end: None };
        for i in 0..n {
            let number = format!("{i:04}").into_bytes();
            let text = if first { [number, shared.clone()].concat() } else { [shared.clone(), number].concat() };
            let link = keys.text(&text);
            keys.refs.push(link);
            keys.texts.push(text);
        }
        keys.values = (0..n).map(|i| (i as f64).to_bits()).collect();
        keys
    }

    /// So many values, no NaN among them and no two that are equal as floats.
    fn number(&mut self, n: usize) {
        let whole = n > 60 || self.r.chance(30);
        let mut known = HashSet::new();
        for i in 0..n {
            let mut word = if whole { (i as f64 - 2.0).to_bits() } else { numbers::word(self.r) };
            // As a number 0 and -0 are one.
            let float = |word: u64| (f64::from_bits(word) + 0.0).to_bits();
            while is_nan(word) || !known.insert(float(word)) {
                word = (1000.0 + self.r.below(1 << 30) as f64).to_bits();
            }
            self.values.push(word);
        }
        let zero = self.values.iter().position(|&word| word == 0);
        if let Some(zero) = zero.filter(|_| self.r.chance(50)) {
            self.values[zero] = (-0.0f64).to_bits();
        }
    }

    fn add(&mut self, node: Node) -> Link {
        self.nodes.push(node);
        Link::To(self.nodes.len() - 1)
    }

    /// A new text block; behind its zero byte stand others now and then.
    fn text(&mut self, text: &[u8]) -> Link {
        let mut bytes = text.to_vec();
        if self.littered && self.r.chance(40) {
            bytes.push(0);
            bytes.extend(numbers::text(self.r));
        }
        let whole = 8 - bytes.len() % 8;
        let zeros = self.r.pick(&[0, 0, 1, whole, whole, whole, whole + 8]);
        self.add(Node::Text { bytes, zeros, length_off: 0 })
    }

    fn is_many(&self) -> bool {
        self.values.len() > 250
    }

    /// A key: any, or one at a border.
    fn index(&mut self) -> usize {
        let n = self.values.len();
        let border = self.r.pick(BORDERS);
        if border < n && self.is_many() && self.r.chance(60) {
            return border;
        }
        self.r.below(n)
    }

    /// Faults, none nearly half of the time; of several some are at one key.
    fn spoil(&mut self) {
        if self.values.is_empty() {
            return;
        }
        let faults = if self.is_many() { self.r.pick(&[0, 0, 1, 1, 2, 2, 3]) } else { self.r.pick(&[0, 0, 0, 0, 0, 1, 1, 1, 2, 3, 4]) };
        let mut at = self.index();
        for _ in 0..faults {
            if self.r.chance(60) {
                at = self.index();
            }
            let other = self.index();
            self.fault(at, other);
        }
    }

    /// One fault at a key; those that take two keys have the other one too.
    fn fault(&mut self, at: usize, other: usize) {
        let kind = if self.is_many() && self.r.chance(75) { 5 + self.r.below(4) } else { self.r.below(18) };
        match kind {
            0..=2 => self.values[at] = numbers::nan(self.r),
            3 => (self.values[at], self.values[other]) = (0, (-0.0f64).to_bits()),
            4 | 5 => self.values[at] = self.values[other],
            6 | 7 => self.equal_text(at, other),
            8 => self.refs[at] = self.refs[other],
            9 | 10 => self.refs[at] = Link::Nil,
            11 => self.like_text(at, other),
            12 => self.refs[at] = self.empty(),
            13 => self.refs[at] = self.cut(at),
            14 => self.refs[at] = self.foreign(at),
            15 => self.refs[at] = self.conversion(at),
            16 => self.refs[at] = self.outside(),
            // The references end before this key or behind it.
            _ => self.end = Some(at + self.r.below(2)),
        }
    }

    /// The text of another key, in a block of its own.
    fn equal_text(&mut self, at: usize, other: usize) {
        let text = self.texts[other].clone();
        self.refs[at] = self.text(&text);
    }

    /// A text that is nearly that of another key.
    fn like_text(&mut self, at: usize, other: usize) {
        let mut text = self.texts[other].clone();
        match self.r.below(5) {
            0 => text.truncate(1.max(text.len() - 1)),
            1 => text.push(b'x'),
            2 => text.make_ascii_uppercase(),
            3 => text.reverse(),
            _ => *text.last_mut().unwrap() ^= 1,
        }
        if text.last() == Some(&0) {
            text.push(b'x');
        }
        self.refs[at] = self.text(&text);
    }

    /// A text block with no text: a header alone, zeros, bytes behind a zero, or a block length below 24.
    fn empty(&mut self) -> Link {
        let (bytes, zeros, length_off) = self.r.pick(&[("", 0, 0), ("", 1, 0), ("", 8, 0), ("\0text", 0, 0), ("text", 4, -9), ("text", 4, -32)]);
        self.add(Node::Text { bytes: bytes.as_bytes().to_vec(), zeros, length_off })
    }

    /// A text block whose length passes the image end, or the next block's start.
    fn cut(&mut self, at: usize) -> Link {
        let (bytes, length_off) = (self.texts[at].clone(), self.r.pick(&[1, 8, 40, 100_000, 1 << 40, i64::MAX, i64::MIN, -25]));
        self.add(Node::Text { bytes, zeros: 0, length_off })
    }

    /// A block of another id that holds the key's text.
    fn foreign(&mut self, at: usize) -> Link {
        let id = self.r.pick(&[*b"##MD", *b"##MD", *b"##MD", *b"##SI", *b"##tx", *b"##T\0"]);
        let mut body = self.texts[at].clone();
        body.push(0);
        self.add(Node::Foreign { id, body })
    }

    /// A conversion with the key's text as its name.
    fn conversion(&mut self, at: usize) -> Link {
        let text = self.texts[at].clone();
        let name = self.text(&text);
        let fixed = [name, Link::Nil, Link::Nil, Link::Nil];
        let (kind, precision, flags, ref_count) = (self.r.pick(&[0, 1, 7]), 0, 0, 0);
        let mut c = Conversion { kind, precision, flags, ref_count, fixed, refs: Vec::new(), length: 0, range: None, values: Vec::new(), zeros: 0 };
        c.length = c.size() as u64;
        self.add(Node::Conversion(c))
    }

    fn outside(&mut self) -> Link {
        match self.r.below(3) {
            0 => Link::BeforeEnd(self.r.below(24) as u64),
            1 => Link::At(1 << (20 + self.r.below(40))),
            _ => Link::At(u64::MAX - self.r.below(40) as u64),
        }
    }

    /// References behind those of the keys: a default text, and others.
    fn default(&mut self) {
        if let Some(end) = self.end {
            return self.refs.truncate(end);
        }
        for _ in 0..self.r.pick(&[0, 0, 1, 1, 1, 2, 3]) {
            let link = match self.r.below(10) {
                0..=4 => {
                    let text = numbers::text(self.r);
                    self.text(&text)
                }
                5 if !self.refs.is_empty() => self.refs[self.r.below(self.refs.len())],
                6 => Link::Nil,
                7 => self.empty(),
                8 => self.outside(),
                _ => {
                    let body = numbers::text(self.r);
                    self.add(Node::Foreign { id: *b"##MD", body })
                }
            };
            self.refs.push(link);
        }
    }

    /// A fixed link: NIL, to a text, or anywhere.
    fn fixed(&mut self) -> Link {
        match self.r.below(10) {
            0..=3 => Link::Nil,
            4..=6 => {
                let text = numbers::text(self.r);
                self.text(&text)
            }
            _ => Link::At(self.r.next() >> self.r.below(64)),
        }
    }

    /// The block itself, mostly of type 7; its number.
    fn root(&mut self, hostile: bool) -> usize {
        let kind = if hostile || self.r.chance(92) { 7 } else { self.r.pick(&[0, 1, 3, 6, 8, 8, 9, 10, 11, 12, 255]) };
        let fixed = [self.fixed(), self.fixed(), self.fixed(), self.fixed()];
        let range = self.r.chance(35).then(|| (numbers::word(self.r), numbers::word(self.r)));
        let count = self.refs.len() as u16;
        let ref_count = self.r.pick(&[count, count, count, count.saturating_sub(1), 0, count + 1, u16::MAX]);
        let (precision, flags) = (self.r.next() as u8, self.r.next() as u16);
        let (refs, values) = (std::mem::take(&mut self.refs), std::mem::take(&mut self.values));
        let mut c = Conversion { kind, precision, flags, ref_count, fixed, refs, length: 0, range, values, zeros: 0 };
        if self.r.chance(20) {
            c.zeros = grow::zeros(self.r, c.range.is_some());
        }
        c.length = grow::length(self.r, &c);
        self.nodes.push(Node::Conversion(c));
        self.nodes.len() - 1
    }
}
