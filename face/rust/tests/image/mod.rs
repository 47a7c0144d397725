//! Images for the tests, built byte by byte.

/// The bytes of an image. No block stands at 0, where no link leads.
pub struct Image {
    pub bytes: Vec<u8>,
}

impl Image {
    pub fn new() -> Image {
        Image { bytes: vec![0; 64] }
    }

    fn header(&mut self, id: &[u8; 4], length: usize, links: u64) -> u64 {
        let address = self.bytes.len() as u64;
        self.bytes.extend(id);
        self.bytes.extend([0; 4]);
        self.words(&[length as u64, links]);
        address
    }

    fn words(&mut self, words: &[u64]) {
        self.bytes.extend(words.iter().flat_map(|word| word.to_le_bytes()));
    }

    /// A ##TX block with zeros up to a multiple of 8.
    pub fn text(&mut self, text: &[u8]) -> u64 {
        self.text_block(b"##TX", text)
    }

    /// A ##MD block, likewise.
    pub fn metadata(&mut self, text: &[u8]) -> u64 {
        self.text_block(b"##MD", text)
    }

    fn text_block(&mut self, id: &[u8; 4], text: &[u8]) -> u64 {
        let size = (text.len() + 8) / 8 * 8;
        let address = self.header(id, 24 + size, 0);
        self.bytes.extend(text);
        self.bytes.resize(self.bytes.len() + size - text.len(), 0);
        address
    }

    /// Sets a link of a block: name, unit, comment, inverse, then the references.
    pub fn set_link(&mut self, block: u64, place: usize, to: u64) {
        self.bytes[block as usize + 24 + 8 * place..][..8].copy_from_slice(&to.to_le_bytes());
    }

    /// Sets the link count in a block's header, and nothing else.
    pub fn set_link_count(&mut self, block: u64, links: u64) {
        self.bytes[block as usize + 16..][..8].copy_from_slice(&links.to_le_bytes());
    }

    /// Sets the block length in a block's header, and nothing else.
    pub fn set_block_len(&mut self, block: u64, length: u64) {
        self.bytes[block as usize + 8..][..8].copy_from_slice(&length.to_le_bytes());
    }

    /// Sets the reserved bytes in a block's header.
    pub fn set_reserved(&mut self, block: u64, reserved: u32) {
        self.bytes[block as usize + 4..][..4].copy_from_slice(&reserved.to_le_bytes());
    }

    /// A ##CC block with a name, references and the 64 bits of its values.
    pub fn named(&mut self, kind: u8, name: u64, refs: &[u64], words: &[u64]) -> u64 {
        let address = self.header(b"##CC", 64 + 8 * (refs.len() + words.len()), 4 + refs.len() as u64);
        self.words(&[name, 0, 0, 0]);
        self.words(refs);
        self.bytes.extend([kind, 0, 0, 0]);
        self.bytes.extend((refs.len() as u16).to_le_bytes());
        self.bytes.extend((words.len() as u16).to_le_bytes());
        self.words(words);
        address
    }

    /// A ##CC block with no name.
    pub fn block(&mut self, kind: u8, refs: &[u64], values: &[f64]) -> u64 {
        let words: Vec<u64> = values.iter().map(|value| value.to_bits()).collect();
        self.named(kind, 0, refs, &words)
    }

    /// Blocks in a row, each but the last with so many links to the next: the first and the last.
    pub fn row(&mut self, count: usize, links: usize) -> (u64, u64) {
        let last = self.block(7, &[], &[]);
        let first = (1..count).fold(last, |next, _| self.block(7, &vec![next; links], &[]));
        (first, last)
    }
}
