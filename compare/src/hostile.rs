// Grows hostile images: few bytes whose product is large. Many references lead to one long text, as groups, keys, choices or names; or blocks
// link to the same block again and again. A call that reads each text to its end runs on there; see bound.rs.
use crate::grow::Grown;
use crate::numbers;
use crate::plan::{Conversion, Link, Node, Plan};
use crate::random::Random;

struct Hostile<'a> {
    r: &'a mut Random,
    nodes: Vec<Node>,
    /// 1 to 32: so many times the references and the text of the smallest.
    size: usize,
    long: usize,
    short: usize,
}

/// One hostile image; its texts are a part of the long one, and the short one.
pub fn grow(r: &mut Random) -> Grown {
    let size = 1 << r.below(6);
    let mut text = vec![b'x'; size * (1500 + r.below(600))];
    if r.chance(30) {
        let at = r.below(text.len());
        text[at] = r.pick(b"yz|=");
    }
    let short = if r.chance(50) { b"x".to_vec() } else { numbers::text(r) };
    let texts = vec![text[..text.len().min(1 + r.below(2000))].to_vec(), b"x".to_vec(), short.clone()];
    let (zeros, more) = (r.pick(&[0, 0, 1, 8]), r.pick(&[0, 1, 8]));
    let nodes = vec![Node::Text { bytes: text, zeros, length_off: 0 }, Node::Text { bytes: short, zeros: more, length_off: 0 }];
    let mut h = Hostile { r, nodes, size, long: 0, short: 1 };
    let root = match h.r.below(15) {
        0 | 1 => h.groups_in_groups(),
        2 => h.deep_groups(),
        3 => h.direct_texts(),
        4 => h.choices(),
        5 => h.names(),
        6 => h.keys(9),
        7 => h.keys(10),
        8 => h.chosen(7),
        9 => h.chosen(8),
        _ => h.linked_again(),
    };
    Grown { plan: Plan { nodes: h.nodes, root }, palette: vec![1f64.to_bits(), 0, 2f64.to_bits()], texts }
}

impl Hostile<'_> {
    fn add(&mut self, kind: u8, name: Link, refs: Vec<Link>, values: Vec<u64>) -> usize {
        let mut c = Conversion {
            kind,
            precision: 0,
            flags: 0,
            ref_count: refs.len() as u16,
            fixed: [name, Link::Nil, Link::Nil, Link::Nil],
            refs,
            length: 0,
            range: None,
            values,
            zeros: 0,
        };
        c.length = c.size() as u64;
        self.nodes.push(Node::Conversion(c));
        self.nodes.len() - 1
    }

    /// So many references, nearly all of them to the long text.
    fn texts(&mut self, n: usize) -> Vec<Link> {
        let plain = self.r.chance(50);
        let link = |r: &mut Random, long, short| match r.below(100) {
            _ if plain => Link::To(long),
            0 => Link::Nil,
            1 | 2 => Link::To(short),
            _ => Link::To(long),
        };
        (0..n).map(|_| link(self.r, self.long, self.short)).collect()
    }

    fn masks(&mut self, n: usize) -> Vec<u64> {
        let mask = numbers::mask(self.r);
        (0..n).map(|_| if self.r.chance(95) { mask } else { numbers::mask(self.r) }).collect()
    }

    /// Bit groups with these references in any order of the two kinds.
    fn groups(&mut self, name: Link, nested: Vec<Link>, texts: Vec<Link>) -> usize {
        let refs = if self.r.chance(50) { [nested, texts].concat() } else { [texts, nested].concat() };
        let masks = self.masks(refs.len());
        self.add(11, name, refs, masks)
    }

    fn any_name(&mut self) -> Link {
        match self.r.below(3) {
            0 => Link::Nil,
            1 => Link::To(self.short),
            _ => Link::To(self.long),
        }
    }

    /// Each level links twice or more to the next; the other groups are texts.
    fn groups_in_groups(&mut self) -> usize {
        let (levels, again) = self.r.pick(&[(7, 2), (6, 2), (4, 3), (3, 5), (2, 100)]);
        let most = 2 * self.size;
        let texts = self.texts(most);
        let mut next = self.groups(Link::Nil, Vec::new(), texts);
        for _ in 1..levels {
            let (name, texts) = (self.any_name(), self.texts(most));
            next = self.groups(name, vec![Link::To(next); again], texts);
        }
        next
    }

    fn deep_groups(&mut self) -> usize {
        let texts = self.texts(8 * self.size);
        let mut next = self.groups(Link::Nil, Vec::new(), texts);
        for _ in 1..21 {
            let (name, texts) = (self.any_name(), self.texts(8 * self.size));
            next = self.groups(name, vec![Link::To(next)], texts);
        }
        next
    }

    fn direct_texts(&mut self) -> usize {
        let texts = self.texts(64 * self.size);
        self.groups(Link::Nil, Vec::new(), texts)
    }

    /// Groups that lead to a few blocks of types 7 and 8, which choose a text.
    fn choices(&mut self) -> usize {
        let mut nested = Vec::new();
        for kind in [7, 8] {
            let (name, texts) = (self.any_name(), self.texts(3));
            let values = [0, 1f64.to_bits()][..self.r.below(3)].to_vec();
            nested.push(self.add(kind, name, texts, values));
        }
        self.over(&nested)
    }

    /// Groups that lead to a few blocks with the long name: of a number, a text, or texts.
    fn names(&mut self) -> usize {
        let (long, short) = (Link::To(self.long), Link::To(self.short));
        let mut nested = vec![self.add(1, long, Vec::new(), Vec::new())];
        nested.push(self.add(7, long, vec![short], Vec::new()));
        nested.push(self.add(11, long, vec![short], vec![u64::MAX]));
        self.over(&nested)
    }

    /// Bit groups over these blocks: all groups to one of them, or to all in turn.
    fn over(&mut self, nested: &[usize]) -> usize {
        let one = self.r.pick(nested);
        let turns = self.r.chance(40);
        let n = 64 * self.size;
        let refs = (0..n).map(|i| Link::To(if turns { nested[i % nested.len()] } else { one })).collect();
        let last = if self.r.chance(50) { vec![Link::To(self.short)] } else { Vec::new() };
        self.groups(Link::Nil, refs, last)
    }

    /// Types 9 and 10: nearly all keys are the long text.
    fn keys(&mut self, kind: u8) -> usize {
        let n = 128 * self.size + self.r.below(3);
        let refs = self.texts(n);
        let values = if kind == 9 { (0..n + self.r.below(3)).map(|i| (i as f64).to_bits()).collect() } else { Vec::new() };
        self.add(kind, Link::Nil, refs, values)
    }

    /// Types 7 and 8: nearly all references lead to the long text.
    fn chosen(&mut self, kind: u8) -> usize {
        let n = 64 * self.size;
        let refs = self.texts(n + 1);
        let values = (0..if kind == 8 { 2 * n } else { n }).map(|i| (i as f64).to_bits()).collect();
        self.add(kind, Link::Nil, refs, values)
    }

    /// Blocks that link to the next again and again, with texts, NIL and other blocks between.
    fn linked_again(&mut self) -> usize {
        let kind = self.r.pick(&[0, 7, 11]);
        let leaf = self.add(1, Link::Nil, Vec::new(), Vec::new());
        let (mut next, mut visits) = (leaf, 1);
        while visits < 2000 && self.nodes.len() < 22 {
            let mut refs = Vec::new();
            for _ in 0..2 + self.r.below(4) {
                let link = match self.r.below(10) {
                    0 => Link::Nil,
                    1 => Link::To(self.short),
                    2 | 3 => Link::To(leaf),
                    _ => Link::To(next),
                };
                visits += if matches!(link, Link::To(n) if n == next) { visits } else { 1 };
                refs.push(link);
            }
            let values = if kind == 11 { self.masks(refs.len()) } else { Vec::new() };
            next = self.add(kind, Link::Nil, refs, values);
        }
        next
    }
}
