// The image that both sides convert by: ##TX and ##CC blocks in a row, as document 01 lays them out.

pub struct Image {
    pub bytes: Vec<u8>,
}

impl Image {
    pub fn new() -> Image {
        Image { bytes: vec![0; 64] }
    }

    /// Where the next block will stand.
    pub fn end(&self) -> u64 {
        self.bytes.len() as u64
    }

    fn number(&mut self, n: u64) {
        self.bytes.extend_from_slice(&n.to_le_bytes());
    }

    fn header(&mut self, id: &[u8; 4], length: usize, links: usize) {
        self.bytes.extend_from_slice(id);
        self.bytes.extend_from_slice(&[0; 4]);
        self.number(length as u64);
        self.number(links as u64);
    }

    /// A text block, filled up with zeros to a multiple of 8. Answers its address.
    pub fn text(&mut self, text: &str) -> u64 {
        self.text_bytes(text.as_bytes())
    }

    /// The same of any bytes.
    pub fn text_bytes(&mut self, text: &[u8]) -> u64 {
        self.text_of(text, (text.len() + 8) / 8 * 8)
    }

    /// A text block without a zero byte. Answers its address.
    pub fn unended(&mut self, text: &str) -> u64 {
        self.text_of(text.as_bytes(), text.len())
    }

    /// A text block with so many bytes behind its header.
    fn text_of(&mut self, text: &[u8], size: usize) -> u64 {
        let at = self.end();
        self.header(b"##TX", 24 + size, 0);
        self.bytes.extend_from_slice(text);
        self.bytes.resize(at as usize + 24 + size, 0);
        at
    }

    /// A conversion block of a type, with its references and its values as 64 bits each. Answers its address.
    pub fn words(&mut self, kind: u8, name: u64, refs: &[u64], values: &[u64]) -> u64 {
        let at = self.end();
        self.header(b"##CC", 64 + 8 * refs.len() + 8 * values.len(), 4 + refs.len());
        self.number(name);
        for _ in 0..3 {
            self.number(0);
        }
        for r in refs {
            self.number(*r);
        }
        self.bytes.extend_from_slice(&[kind, 0, 0, 0]);
        self.bytes.extend_from_slice(&(refs.len() as u16).to_le_bytes());
        self.bytes.extend_from_slice(&(values.len() as u16).to_le_bytes());
        for v in values {
            self.number(*v);
        }
        at
    }

    pub fn block(&mut self, kind: u8, refs: &[u64], values: &[f64]) -> u64 {
        let words: Vec<u64> = values.iter().map(|v| v.to_bits()).collect();
        self.words(kind, 0, refs, &words)
    }
}
