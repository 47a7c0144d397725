// Reading and writing one text block: a name, and texts of as much as a page and as 64 KB; beside the crate's `read_string_block` and
// `TextBlock::new` with `to_bytes`, each of which makes a new string or a new vector.
use crate::blocks::repeated;
use crate::count;
use crate::image::Image;
use crate::ours;
use oracle::blocks::common::read_string_block;
use oracle::blocks::text_block::TextBlock;

/// So many bytes, and what the row says.
const ROWS: [(&str, &str); 3] = [("20", "a name of 20 bytes"), ("4096", "a text of 4,096 bytes"), ("65536", "a text of 65,536 bytes")];

pub struct Texts {
    text: String,
    image: Vec<u8>,
    address: u64,
}

impl Texts {
    pub fn new(length: usize) -> Texts {
        let text = "x".repeat(length);
        let mut image = Image::new();
        let address = image.text(&text);
        Texts { text, image: image.bytes, address }
    }

    /// So many calls of one kind.
    pub fn calls(&self, what: &str, n: usize) {
        let (image, text, at) = (&self.image, &self.text, self.address);
        match what {
            "read" => repeated(n, || unsafe { ours::mdf_text_read(image.as_ptr(), image.len(), at) }),
            "write" => self.writes(n),
            "read-string" => repeated(n, || read_string_block(image, at).unwrap()),
            _ => repeated(n, || TextBlock::new(text).to_bytes().unwrap()),
        }
    }

    fn writes(&self, n: usize) {
        let mut out = vec![0u8; self.text.len() + 32];
        let (t, l, o, m) = (self.text.as_ptr(), self.text.len(), out.as_mut_ptr(), out.len());
        repeated(n, || unsafe { ours::mdf_text_write(false, t, l, o, m) });
    }
}

/// Instructions a call.
pub fn instructions() {
    println!("| instructions a call | ours | crate | ratio |");
    println!("|---|---|---|---|");
    for (ours, theirs) in [("read", "read-string"), ("write", "to-bytes")] {
        for (length, says) in ROWS {
            let of = |what: &str| count::a_call(&["text", what, length], 100, 300).unwrap_or(f64::NAN);
            let (a, b) = (of(ours), of(theirs));
            println!("| {ours} {says} | {a:.0} | {b:.0} | {:.2} |", a / b);
        }
    }
}
