// Parsing one block of 500 values, plainly and with its padding, and writing it, without excess and with as much as a page; beside the crate's
// `from_bytes` and `to_bytes`, which know no excess.
use crate::count;
use crate::image::Image;
use crate::ours;
use oracle::blocks::common::BlockParse;
use oracle::blocks::conversion::ConversionBlock;
use std::hint::black_box;

const VALUES: usize = 500;
const EXCESS: u64 = 4096;

/// The word for `bench only block`, what it asks, and the word for the crate's counterpart if there is one.
#[rustfmt::skip]
const ROWS: [(&str, &str, Option<&str>); 4] = [
    ("parse", "parse a block of 500 values", Some("from-bytes")),
    ("parse-kept", "parse it with its padding", Some("from-bytes")),
    ("write", "write it, no excess", Some("to-bytes")),
    ("write-padded", "write it, 4,096 bytes of excess", None),
];

pub struct Blocks {
    image: Vec<u8>,
    address: u64,
    words: Vec<u64>,
}

impl Blocks {
    pub fn new() -> Blocks {
        let words: Vec<u64> = (0..VALUES).map(|i| (i as f64).to_bits()).collect();
        let mut image = Image::new();
        let address = image.words(4, 0, &[], &words);
        Blocks { image: image.bytes, address, words }
    }

    /// So many calls of one kind.
    pub fn calls(&self, what: &str, n: usize) {
        let (p, l, at) = (self.image.as_ptr(), self.image.len(), self.address);
        match what {
            "parse" => repeated(n, || unsafe { ours::mdf_parse(p, l, at) }),
            "parse-kept" => repeated(n, || unsafe { ours::mdf_parse_kept(p, l, at) }),
            "write" => self.writes(0, n),
            "write-padded" => self.writes(EXCESS, n),
            "from-bytes" => repeated(n, || self.theirs()),
            _ => {
                let block = self.theirs();
                repeated(n, || block.to_bytes().unwrap())
            }
        }
    }

    /// The block with a range, so that any excess is taken.
    fn writes(&self, excess: u64, n: usize) {
        let block = ours::Block { kind: 4, ranged: true, excess, ..ours::Block::default() };
        let mut out = vec![0u8; 80 + 8 * VALUES + excess as usize];
        let (o, m, w) = (out.as_mut_ptr(), out.len(), &self.words);
        repeated(n, || unsafe { ours::mdf_write(block, w.as_ptr(), 0, w.as_ptr(), w.len(), o, m) });
    }

    fn theirs(&self) -> ConversionBlock {
        ConversionBlock::from_bytes(&self.image[self.address as usize..]).unwrap()
    }
}

/// So many calls; each answer is looked at where it is.
pub fn repeated<T>(n: usize, mut call: impl FnMut() -> T) {
    (0..n).for_each(|_| {
        black_box(&call());
    });
}

/// Instructions a call.
pub fn instructions() {
    println!("| instructions a call | ours | crate |");
    println!("|---|---|---|");
    let of = |what: &str| count::a_call(&["block", what], 1000, 3000).unwrap_or(f64::NAN);
    for (ours, says, theirs) in ROWS {
        let theirs = theirs.map_or(String::new(), |what| format!("{:.0}", of(what)));
        println!("| {says} | {:.0} | {theirs} |", of(ours));
    }
}
