// An image before it is laid out: blocks that name each other by number, then put at addresses in any order, with gaps and odd places.
use crate::random::Random;

#[derive(Clone, Copy)]
pub enum Link {
    Nil,
    /// To the block of this number.
    To(usize),
    /// This address, whatever stands there.
    At(u64),
    /// So many bytes before the image end.
    BeforeEnd(u64),
}

/// A ##CC block. The length is as written in the header.
pub struct Conversion {
    pub kind: u8,
    pub precision: u8,
    pub flags: u16,
    pub ref_count: u16,
    pub fixed: [Link; 4],
    pub refs: Vec<Link>,
    pub length: u64,
    pub range: Option<(u64, u64)>,
    pub values: Vec<u64>,
    /// So many zero bytes behind the values.
    pub zeros: usize,
}

pub enum Node {
    Conversion(Conversion),
    /// A ##TX: its bytes and so many zeros behind them, and what is added to the right block length.
    Text {
        bytes: Vec<u8>,
        zeros: usize,
        length_off: i64,
    },
    /// The header of a ##CC and no more: its link count is more than any image holds, or below four.
    Bare {
        links: u64,
    },
    /// A block of another id.
    Foreign {
        id: [u8; 4],
        body: Vec<u8>,
    },
}

pub struct Plan {
    pub nodes: Vec<Node>,
    pub root: usize,
}

/// A plan in bytes, and where each of its blocks stands.
pub struct Laid {
    pub image: Vec<u8>,
    pub places: Vec<u64>,
}

impl Conversion {
    fn links(&self) -> usize {
        4 + self.refs.len()
    }

    fn size_without_range(&self) -> usize {
        24 + 8 * self.links() + 8 + 8 * self.values.len()
    }

    /// The least block length with a range.
    pub fn range_from(&self) -> u64 {
        self.size_without_range() as u64 + 16
    }

    pub fn size(&self) -> usize {
        self.size_without_range() + 16 * self.range.is_some() as usize
    }
}

impl Node {
    fn size(&self) -> usize {
        match self {
            Node::Conversion(c) => c.size() + c.zeros,
            Node::Text { bytes, zeros, .. } => 24 + bytes.len() + zeros,
            Node::Bare { .. } => 24,
            Node::Foreign { body, .. } => 24 + body.len(),
        }
    }
}

struct Bytes(Vec<u8>);

impl Bytes {
    fn words(&mut self, words: &[u64]) {
        words.iter().for_each(|w| self.0.extend(w.to_le_bytes()));
    }

    fn header(&mut self, id: &[u8; 4], length: u64, links: u64) {
        self.0.extend(id);
        self.0.extend([0; 4]);
        self.words(&[length, links]);
    }
}

impl Plan {
    /// Bytes of the plan: blocks in a random order, mostly aligned, with bytes of no meaning between and behind them.
    pub fn lay(&self, r: &mut Random) -> Laid {
        let order = self.order(r);
        let mut places = vec![0u64; self.nodes.len()];
        let mut at = if r.chance(40) { 0 } else { r.pick(&[8, 24, 64, 1, 13]) };
        let odd = r.chance(25);
        for &n in &order {
            at += if odd { r.below(11) } else { (8 - at % 8) % 8 };
            places[n] = at as u64;
            at += self.nodes[n].size();
        }
        let end = at + if r.chance(50) { 0 } else { r.below(40) };
        let filler = if r.chance(50) { 0 } else { r.next() as u8 };
        let mut image = vec![filler; end];
        for (n, node) in self.nodes.iter().enumerate() {
            let bytes = self.bytes(node, &places, end as u64);
            let start = places[n] as usize;
            image[start..start + bytes.len()].copy_from_slice(&bytes);
        }
        Laid { image, places }
    }

    fn order(&self, r: &mut Random) -> Vec<usize> {
        let mut order: Vec<usize> = (0..self.nodes.len()).collect();
        for i in (1..order.len()).rev() {
            order.swap(i, r.below(i + 1));
        }
        if r.chance(30) {
            order.retain(|&n| n != self.root);
            order.insert(0, self.root);
        }
        order
    }

    fn bytes(&self, node: &Node, places: &[u64], end: u64) -> Vec<u8> {
        let link = |l: &Link| match *l {
            Link::Nil => 0,
            Link::To(n) => places[n],
            Link::At(a) => a,
            Link::BeforeEnd(k) => end.saturating_sub(k),
        };
        let mut b = Bytes(Vec::with_capacity(node.size()));
        match node {
            Node::Conversion(c) => {
                b.header(b"##CC", c.length, c.links() as u64);
                b.words(&c.fixed.iter().chain(&c.refs).map(link).collect::<Vec<u64>>());
                b.0.extend([c.kind, c.precision]);
                [c.flags, c.ref_count, c.values.len() as u16].iter().for_each(|h| b.0.extend(h.to_le_bytes()));
                c.range.iter().for_each(|&(min, max)| b.words(&[min, max]));
                b.words(&c.values);
                b.0.extend(vec![0; c.zeros]);
            }
            Node::Text { bytes, zeros, length_off } => {
                let length = (24 + bytes.len() + zeros) as i64 + length_off;
                b.header(b"##TX", length as u64, 0);
                b.0.extend(bytes);
                b.0.extend(vec![0; *zeros]);
            }
            Node::Bare { links } => b.header(b"##CC", 24, *links),
            Node::Foreign { id, body } => {
                b.header(id, 24 + body.len() as u64, 0);
                b.0.extend(body);
            }
        }
        b.0
    }
}
