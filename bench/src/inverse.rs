// Inverting a value to text block: a few keys, and as many as a block can have; and the worst images, at two sizes. The crate has no such function, so
// nothing stands beside it. The work of a call is bounded by units: n * n for n keys, for each 255 of them the bytes of all their texts, and 16 bytes
// a key that are written. What a unit costs may grow neither with the keys nor with the texts: a call that compares every two texts to their first
// difference grows with n * n times what they share.
use crate::blocks::repeated;
use crate::count;
use crate::image::Image;
use crate::ours;
use crate::timed;
use std::collections::HashMap;
use std::sync::OnceLock;

/// The keys of the images whose instructions are counted, and as many keys as a block can have.
const FEW: usize = 4096;
const MANY: usize = 16_384;
const MOST: usize = 65_535;

/// A unit costs at most so many instructions.
const MOST_A_UNIT: f64 = 12.0;

struct Shape {
    name: &'static str,
    says: &'static str,
    text: fn(usize) -> Vec<u8>,
}

#[rustfmt::skip]
const SHAPES: &[Shape] = &[
    Shape { name: "names", says: "texts of 5 to 9 bytes", text: name },
    Shape { name: "shared-24", says: "texts that share their first 24 bytes and differ at the end", text: |i| shared(24, i) },
    Shape { name: "shared-240", says: "texts that share their first 240 bytes and differ at the end", text: |i| shared(240, i) },
    Shape { name: "first-bytes", says: "texts whose first bytes are all unlike within each 255", text: first_bytes },
    Shape { name: "equal-hashes", says: "texts of 112 bytes that have one hash", text: equal_hashes },
    Shape { name: "unlike-of-one-hash", says: "the same behind 8 bytes more, the first of them all unlike within each 255", text: unlike_of_one_hash },
    Shape { name: "near-keys", says: "keys that differ in their last bits alone", text: name },
    Shape { name: "last-repeats", says: "the last text is the first one again, at another address: refused with 13", text: name },
    Shape { name: "long-text", says: "one text of 1,000,000 bytes, the first", text: long_first },
];

fn name(i: usize) -> Vec<u8> {
    format!("key {i}").into_bytes()
}

/// All of one length.
fn shared(length: usize, i: usize) -> Vec<u8> {
    [vec![b'x'; length], format!("{i:05}").into_bytes()].concat()
}

fn first_bytes(i: usize) -> Vec<u8> {
    [vec![1 + (i % 255) as u8], i.to_string().into_bytes()].concat()
}

/// Two words with one hash, by the hash with which texts are passed over: texts that are made of as many of them have one hash too.
fn equal_hashes(i: usize) -> Vec<u8> {
    (0..16).flat_map(|bit| [b"vhpwmdb", b"odsrhmc"][i >> bit & 1]).copied().collect()
}

/// Behind one of 255 words with unlike first bytes and one hash.
fn unlike_of_one_hash(i: usize) -> Vec<u8> {
    static WORDS: OnceLock<Vec<[u8; 8]>> = OnceLock::new();
    [&WORDS.get_or_init(words_of_one_hash)[i % 255][..], &equal_hashes(i)].concat()
}

/// For each byte but zero a word that starts with it; all have the hash of one of them. Of the last four bytes, each hash is looked up.
fn words_of_one_hash() -> Vec<[u8; 8]> {
    let printed = || 33..=126u8;
    let hash = |bytes: &[u8]| bytes.iter().fold(0u32, |hash, &byte| hash.wrapping_mul(16_777_619).wrapping_add(byte as u32));
    let threes = || printed().flat_map(move |a| printed().flat_map(move |b| printed().map(move |c| [a, b, c])));
    let letters = || b'a'..=b'z';
    let fours = letters().flat_map(|a| letters().flat_map(move |b| letters().flat_map(move |c| letters().map(move |d| [a, b, c, d]))));
    let by_hash: HashMap<u32, [u8; 4]> = fours.map(|four| (hash(&four), four)).collect();
    let wanted = hash(b"Nameless");
    let word = |first: u8| {
        threes().find_map(|[a, b, c]| {
            let behind = by_hash.get(&wanted.wrapping_sub(hash(&[first, a, b, c, 0, 0, 0, 0])))?;
            [[first, a, b, c], *behind].concat().try_into().ok()
        })
    };
    (1..=255).map(|first| word(first).expect("a word of that hash")).collect()
}

fn long_first(i: usize) -> Vec<u8> {
    if i == 0 {
        vec![b'k'; 1_000_000]
    } else {
        name(i)
    }
}

/// An image with a block of so many keys, and all that is lent to invert it.
pub struct Inverse {
    image: Vec<u8>,
    address: u64,
    keys: usize,
    texts: usize,
}

impl Inverse {
    /// The image of a name.
    pub fn named(name: &str, keys: usize) -> Inverse {
        let shape = SHAPES.iter().find(|shape| shape.name == name).expect("the name of a shape");
        let (mut image, mut texts) = (Image::new(), 0);
        let again = name == "last-repeats";
        let mut reference = |i: usize| {
            let text = (shape.text)(if again && i + 1 == keys { 0 } else { i });
            texts += text.len() + 1;
            image.text_bytes(&text)
        };
        let refs: Vec<u64> = (0..keys).map(&mut reference).collect();
        let near = name == "near-keys";
        let value = |i: usize| if near { 1f64.to_bits() + i as u64 } else { (i as f64).to_bits() };
        let words: Vec<u64> = (0..keys).map(value).collect();
        let address = image.words(7, 0, &refs, &words);
        Inverse { image: image.bytes, address, keys, texts }
    }

    /// So many calls, with room enough.
    pub fn calls(&self, n: usize) {
        let mut out = vec![0u8; 64 + 16 * self.keys];
        let (p, l, at, o, m) = (self.image.as_ptr(), self.image.len(), self.address, out.as_mut_ptr(), out.len());
        repeated(n, || unsafe { ours::mdf_invert(p, l, at, o, m) });
    }

    fn units(&self) -> f64 {
        (self.keys * self.keys + self.keys.div_ceil(255) * self.texts + 16 * self.keys) as f64
    }

    /// Instructions of one call, or nanoseconds where there is no valgrind. A call of many keys is counted once.
    fn cost(&self, name: &str, counted: bool) -> f64 {
        let (few, many) = if self.keys > 1000 { (0, 1) } else { (100, 300) };
        if counted {
            return count::a_call(&["inverse", name, &self.keys.to_string()], few, many).unwrap_or(f64::NAN);
        }
        timed(many, || self.calls(many))
    }
}

/// What a call costs on so many keys. Then the worst images: whether a unit costs no more than it may, as far as instructions were counted; and the
/// time on the most keys, for which valgrind takes some ten minutes an image.
pub fn table() -> bool {
    let counted = count::possible();
    let unit = if counted { "instructions" } else { "ns" };
    println!("| invert a block of | bytes of the image | one call, {unit} | a key | a key * key |");
    println!("|---|---|---|---|---|");
    for keys in [8, 256, FEW, MANY] {
        let inverse = Inverse::named("names", keys);
        let (cost, n) = (inverse.cost("names", counted), keys as f64);
        println!("| {keys} keys | {} | {cost:.0} | {:.1} | {:.3} |", inverse.image.len(), cost / n, cost / n / n);
    }
    println!("\n| inverted | {FEW} keys, {unit} | a unit | {MANY} keys, {unit} | a unit | growth | | bytes, {MOST} keys | one call, s |");
    println!("|---|---|---|---|---|---|---|---|---|");
    let missed = SHAPES.iter().filter(|shape| !worst(shape, counted)).count();
    println!("\ninversions: {} of {} take at most {MOST_A_UNIT} instructions a unit", SHAPES.len() - missed, SHAPES.len());
    missed == 0 || !counted
}

/// One row of the worst images; whether a unit costs no more than it may.
fn worst(shape: &Shape, counted: bool) -> bool {
    let [few, many] = [FEW, MANY].map(|keys| {
        let inverse = Inverse::named(shape.name, keys);
        let cost = inverse.cost(shape.name, counted);
        (cost, cost / inverse.units())
    });
    let most = Inverse::named(shape.name, MOST);
    let (bytes, seconds) = (most.image.len(), timed(1, || most.calls(1)) / 1e9);
    let (growth, met) = (many.0 / few.0, few.1.max(many.1) <= MOST_A_UNIT);
    let says = if met { "met" } else { "missed" };
    print!("| {}: {} | {:.0} | {:.3} ", shape.name, shape.says, few.0, few.1);
    println!("| {:.0} | {:.3} | {growth:.2} | {says} | {bytes} | {seconds:.1} |", many.0, many.1);
    met
}

/// One image of so many keys alone.
pub fn one(name: &str, keys: usize) {
    let (inverse, counted) = (Inverse::named(name, keys), count::possible());
    let (cost, n, unit) = (inverse.cost(name, counted), keys as f64, if counted { "instructions" } else { "ns" });
    let bytes = inverse.image.len();
    println!(
        "{name}, {keys} keys, {bytes} bytes: {cost:.0} {unit}, {:.1} a key, {:.3} a key * key, {:.3} a unit",
        cost / n,
        cost / n / n,
        cost / inverse.units()
    );
}
