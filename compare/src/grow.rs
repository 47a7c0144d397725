// Grows plans of images: every type but the formula, nested to 21 levels, with shared leaves, names under bit groups, ranges present and absent,
// odd and unsorted tables, zeros behind the values. Most plans lie in the domain; the rare ones that do not are meant.
use crate::numbers;
use crate::plan::{Conversion, Link, Node, Plan};
use crate::random::Random;

/// The most blocks of an unfolded tree, and the most levels.
const MOST_VISITS: u64 = 4095;
const MOST_LEVELS: usize = 21;

pub struct Grower<'a> {
    r: &'a mut Random,
    nodes: Vec<Node>,
    /// Of each node: levels and visits of its unfolded tree; 0 where it is no ##CC.
    levels: Vec<usize>,
    visits: Vec<u64>,
    pub palette: Vec<u64>,
    /// Whether also plans outside the domain are grown.
    wild: bool,
    /// Whether formulas are among the types.
    formulas: bool,
}

pub struct Grown {
    pub plan: Plan,
    pub palette: Vec<u64>,
    pub texts: Vec<Vec<u8>>,
}

/// What a block holds before its header is thought of.
struct Body {
    kind: u8,
    values: Vec<u64>,
    refs: Vec<Link>,
}

impl Grower<'_> {
    /// One image: mostly a tree of few levels, sometimes a chain, a tree that doubles at each level, or a wide block.
    pub fn grow(r: &mut Random) -> Grown {
        let palette = numbers::palette(r);
        let wild = r.chance(8);
        let formulas = r.chance(4);
        let shape = r.below(4000);
        let mut g = Grower { r, nodes: Vec::new(), levels: Vec::new(), visits: Vec::new(), palette, wild, formulas };
        let root = match shape {
            0 => g.wide(21_000, 65_535),
            1..=40 => g.wide(50, 500),
            41..=80 => g.doubling(),
            81..=399 => g.chain(),
            400..=1299 => {
                let kind = g.r.pick(&[0, 1, 1, 2, 2, 4, 4, 5, 5, 6, 6, 7, 8, 9, 10, 11, 12]);
                let body = g.body(kind, 0);
                g.block(body)
            }
            1300..=2399 => g.tree(2),
            2400..=3399 => g.tree(3),
            _ => g.tree(6),
        };
        let texts = g.nodes.iter().filter_map(|n| match n {
            Node::Text { bytes, .. } => Some(bytes.clone()),
            _ => None,
        });
        let texts = texts.collect();
        Grown { plan: Plan { nodes: g.nodes, root }, palette: g.palette, texts }
    }

    fn add(&mut self, node: Node) -> usize {
        let (mut levels, mut visits) = (0, 0);
        if let Node::Conversion(c) = &node {
            let below = c.refs.iter().filter_map(|l| if let Link::To(n) = l { Some(*n) } else { None });
            let below: Vec<usize> = below.collect();
            levels = 1 + below.iter().map(|&n| self.levels[n]).max().unwrap_or(0);
            visits = 1 + below.iter().map(|&n| self.visits[n]).sum::<u64>();
        }
        self.nodes.push(node);
        self.levels.push(levels);
        self.visits.push(visits);
        self.nodes.len() - 1
    }

    fn number(&mut self) -> u64 {
        if self.r.chance(75) {
            self.r.pick(&self.palette)
        } else {
            numbers::word(self.r)
        }
    }

    fn numbers(&mut self, n: usize) -> Vec<u64> {
        (0..n).map(|_| self.number()).collect()
    }

    /// Numbers in order, as tables and ranges mostly have them.
    fn ordered(&mut self, n: usize) -> Vec<u64> {
        let mut numbers = self.numbers(n);
        if self.r.chance(65) {
            numbers.sort_by(|a, b| f64::from_bits(*a).total_cmp(&f64::from_bits(*b)));
        }
        numbers
    }

    fn text(&mut self) -> usize {
        let known: Vec<usize> = (0..self.nodes.len()).filter(|&n| matches!(self.nodes[n], Node::Text { .. })).collect();
        if !known.is_empty() && self.r.chance(40) {
            return self.r.pick(&known);
        }
        let mut bytes = numbers::text(self.r);
        let mut zeros = if self.r.chance(30) { 0 } else { 8 - bytes.len() % 8 };
        let mut length_off = 0;
        if self.wild && self.r.chance(30) {
            match self.r.below(5) {
                0 => bytes.clear(),
                1 => bytes.push(0xff),
                2 => bytes.extend([0, b'x']),
                3 => (length_off, zeros) = (-(bytes.len() as i64) - zeros as i64 - self.r.pick(&[0i64, 1, 8, 24]), zeros + 1),
                _ => length_off = self.r.pick(&[1i64, 40, 100_000, i64::MIN, -1]),
            }
        }
        self.add(Node::Text { bytes, zeros, length_off })
    }

    fn foreign(&mut self) -> usize {
        let id = self.r.pick(&[*b"##MD", *b"##MD", *b"##SI", *b"##cc", *b"##T\0", *b"#CC#"]);
        let body = numbers::text(self.r);
        self.add(Node::Foreign { id, body })
    }

    /// A block that is refused for its link count: huge, or below four.
    fn bare(&mut self) -> usize {
        let links = if self.r.chance(50) { 1 << 40 } else { self.r.below(4) as u64 };
        self.add(Node::Bare { links })
    }

    /// A nested block of at most so many levels: one that stands already, or a new one.
    fn nested(&mut self, levels: usize) -> Option<usize> {
        let known = |n: &usize| self.levels[*n] > 0 && self.levels[*n] <= levels && self.visits[*n] < 200;
        let known: Vec<usize> = (0..self.nodes.len()).filter(known).collect();
        if !known.is_empty() && self.r.chance(35) {
            return Some(self.r.pick(&known));
        }
        (levels > 0).then(|| self.tree(levels))
    }

    /// A reference of types 7, 8 and 11, or of a type that asks for none.
    fn any_link(&mut self, levels: usize) -> Link {
        match self.r.below(100) {
            0..=44 => Link::To(self.text()),
            45..=74 => self.nested(levels).map_or(Link::Nil, Link::To),
            75..=86 => Link::Nil,
            87..=93 => Link::To(self.foreign()),
            94..=96 => Link::BeforeEnd(self.r.below(24) as u64),
            97 | 98 => Link::At(1 << (20 + self.r.below(40))),
            _ if self.wild && self.r.chance(50) => Link::To(self.bare()),
            _ if self.wild => Link::At(u64::MAX - self.r.below(40) as u64),
            _ => Link::At(u64::MAX / 2 - self.r.below(40) as u64),
        }
    }

    /// A reference of types 9 and 10.
    fn key_link(&mut self, levels: usize) -> Link {
        match self.r.below(100) {
            0..=79 => Link::To(self.text()),
            80 if self.wild => Link::To(self.bare()),
            80..=93 => Link::Nil,
            94..=97 => self.nested(levels).map_or(Link::Nil, Link::To),
            _ if self.wild => self.any_link(levels),
            _ => Link::Nil,
        }
    }

    fn links(&mut self, n: usize, levels: usize) -> Vec<Link> {
        (0..n).map(|_| self.any_link(levels)).collect()
    }

    /// A tree of at most so many levels.
    fn tree(&mut self, levels: usize) -> usize {
        let kind = match self.r.below(100) {
            _ if self.formulas && self.r.chance(35) => 3,
            0..=21 => 7,
            22..=43 => 8,
            44..=62 => 11,
            _ if levels > 1 && self.r.chance(40) => self.r.pick(&[7, 8, 11]),
            63..=94 => self.r.pick(&[0, 1, 1, 2, 2, 4, 4, 5, 5, 6, 6, 9, 9, 9, 10, 10, 10]),
            _ => self.r.pick(&[12, 13, 100, 255]),
        };
        let body = self.body(kind, levels - 1);
        let wide = self.block(body);
        if self.visits[wide] > MOST_VISITS || self.levels[wide] > MOST_LEVELS {
            let body = Body { kind: 1, values: self.numbers(2), refs: Vec::new() };
            return self.block(body);
        }
        wide
    }

    fn body(&mut self, kind: u8, below: usize) -> Body {
        match kind {
            1 => self.plain(kind, &[2, 2, 2, 0, 1, 3], below),
            2 => self.rational(below),
            4 | 5 => self.table(kind, below),
            6 => self.range_to_value(below),
            7 => self.value_to_text(below),
            8 => self.range_to_text(below),
            9 => self.text_to_value(below),
            10 => self.text_to_text(below),
            11 => self.bit_groups(below),
            _ => self.plain(kind, &[0, 0, 1, 2, 5], below),
        }
    }

    fn some_links(&mut self, below: usize) -> Vec<Link> {
        let n = if self.r.chance(15) { 1 + self.r.below(3) } else { 0 };
        self.links(n, below)
    }

    fn plain(&mut self, kind: u8, lengths: &[usize], below: usize) -> Body {
        let n = self.r.pick(lengths);
        let values = if self.r.chance(40) { self.fractions(n) } else { self.numbers(n) };
        Body { kind, values, refs: self.some_links(below) }
    }

    fn fractions(&mut self, n: usize) -> Vec<u64> {
        let fractions: Vec<u64> = (0..n).map(|_| numbers::fraction(self.r).to_bits()).collect();
        self.palette.push(numbers::fraction(self.r).to_bits());
        fractions
    }

    fn rational(&mut self, below: usize) -> Body {
        let mut body = self.plain(2, &[6, 6, 6, 6, 0, 5, 7], below);
        for i in 0..body.values.len() {
            if self.r.chance(25) {
                body.values[i] = self.r.pick(&[0.0f64, 1.0, -1.0, 0.0]).to_bits();
            }
        }
        body
    }

    fn table(&mut self, kind: u8, below: usize) -> Body {
        let pairs = self.r.pick(&[0, 1, 1, 2, 2, 3, 4, 5, 8]);
        let mut values: Vec<u64> = Vec::new();
        for key in self.ordered(pairs) {
            values.extend([key, if self.r.chance(50) { numbers::fraction(self.r).to_bits() } else { self.number() }]);
        }
        if self.r.chance(10) {
            values.push(self.number());
        }
        self.fractions(0);
        Body { kind, values, refs: self.some_links(below) }
    }

    fn range_to_value(&mut self, below: usize) -> Body {
        let ranges = self.r.pick(&[0, 1, 2, 2, 3, 5]);
        let mut values: Vec<u64> = Vec::new();
        for bounds in self.bounds(ranges).chunks_exact(2) {
            values.extend([bounds[0], bounds[1], self.number()]);
        }
        let more = self.r.pick(&[1, 1, 1, 1, 1, 1, 0, 2]);
        values.extend(self.numbers(more));
        Body { kind: 6, values, refs: self.some_links(below) }
    }

    /// Lower and upper bounds; ranges that touch each other now and then.
    fn bounds(&mut self, ranges: usize) -> Vec<u64> {
        let numbers = self.ordered(2 * ranges);
        if self.r.chance(50) && ranges > 0 {
            let edges = &numbers[..ranges + 1];
            return edges.windows(2).flat_map(|w| [w[0], w[1]]).collect();
        }
        numbers
    }

    fn value_to_text(&mut self, below: usize) -> Body {
        let n = self.r.pick(&[0, 1, 2, 2, 3, 3, 5]);
        let values = self.numbers(n);
        let refs = self.r.pick(&[n + 1, n + 1, n + 1, n + 1, n, n.saturating_sub(1), n + 2, 0]);
        Body { kind: 7, values, refs: self.links(refs, below) }
    }

    fn range_to_text(&mut self, below: usize) -> Body {
        let ranges = self.r.pick(&[0, 1, 1, 2, 2, 3, 4]);
        let mut values = self.bounds(ranges);
        if self.r.chance(18) {
            values.push(self.number());
        }
        let refs = match self.r.below(10) {
            0..=6 => ranges + 1,
            _ if self.wild => self.r.below(6),
            _ => self.r.below(3),
        };
        let mut refs = self.links(refs, below);
        if refs.len() > 2 && self.r.chance(50) {
            let last = refs.len() - 1;
            refs[last] = self.nested(below).map_or(Link::Nil, Link::To);
        }
        Body { kind: 8, values, refs }
    }

    fn text_to_value(&mut self, below: usize) -> Body {
        let r = self.r.below(5);
        let n = self.r.pick(&[r + 1, r + 1, r + 1, r, r.saturating_sub(1), 0, r + 2]);
        let values = self.numbers(n);
        Body { kind: 9, values, refs: (0..r).map(|_| self.key_link(below)).collect() }
    }

    fn text_to_text(&mut self, below: usize) -> Body {
        let r = self.r.pick(&[0, 1, 2, 3, 4, 5, 5, 6, 7]);
        let n = self.r.pick(&[0, 0, 0, 1]);
        Body { kind: 10, values: self.numbers(n), refs: (0..r).map(|_| self.key_link(below)).collect() }
    }

    fn bit_groups(&mut self, below: usize) -> Body {
        if self.formulas && below > 0 && self.r.chance(50) {
            return self.stopped_groups(below);
        }
        if below > 0 && self.r.chance(20) {
            return self.telling_groups();
        }
        let n: usize = self.r.pick(&[0, 1, 2, 2, 3, 4]);
        let values = (0..n).map(|_| numbers::mask(self.r)).collect();
        let refs = self.r.pick(&[n, n, n, n + 1, n.saturating_sub(1)]);
        Body { kind: 11, values, refs: self.links(refs, below) }
    }

    /// Formulas, which stop the groups, and range to text blocks before and behind them.
    fn stopped_groups(&mut self, below: usize) -> Body {
        let n = 2 + self.r.below(3);
        let values = (0..n).map(|_| numbers::mask(self.r)).collect();
        let mut refs = Vec::new();
        for _ in 0..n {
            let kind = self.r.pick(&[3, 8, 8]);
            let body = self.body(kind, below - 1);
            refs.push(Link::To(self.block(body)));
        }
        Body { kind: 11, values, refs }
    }

    /// Groups that tell which bits reached them: under each a range to text with one text for 0 and another for all else.
    fn telling_groups(&mut self) -> Body {
        let n = 1 + self.r.below(4);
        let values = (0..n).map(|_| numbers::narrow_mask(self.r)).collect();
        let texts = [self.text(), self.text()].map(Link::To);
        let shown = self.block(Body { kind: 8, values: vec![0; 2], refs: texts.to_vec() });
        Body { kind: 11, values, refs: vec![Link::To(shown); n] }
    }

    /// A body with header, fixed links, flags, range and block length.
    fn block(&mut self, body: Body) -> usize {
        let range = self.r.chance(40).then(|| (numbers::word(self.r), numbers::word(self.r)));
        let name = if self.r.chance(45) { Link::To(self.text()) } else { Link::Nil };
        let loose = |g: &mut Self| if g.r.chance(80) { Link::Nil } else { Link::At(g.r.next()) };
        let fixed = [name, loose(self), loose(self), loose(self)];
        let count = body.refs.len() as u16;
        let ref_count = self.r.pick(&[count, count, count, count, count.saturating_sub(1), 0, count + 1, u16::MAX]);
        let flags = if self.r.chance(50) { self.r.below(4) as u16 } else { self.r.next() as u16 };
        let mut c = Conversion {
            kind: body.kind,
            precision: self.r.below(256) as u8,
            flags,
            ref_count,
            fixed,
            refs: body.refs,
            length: 0,
            range,
            values: body.values,
            zeros: 0,
        };
        if self.r.chance(20) {
            c.zeros = zeros(self.r, c.range.is_some());
        }
        c.length = length(self.r, &c);
        self.add(Node::Conversion(c))
    }

    /// Blocks in a row, each handing the value on to the next, or only naming it.
    fn chain(&mut self) -> usize {
        let longest = if self.wild { 23 } else { MOST_LEVELS };
        let levels = if self.r.chance(50) { longest - self.r.below(2) } else { 2 + self.r.below(longest - 1) };
        let refused = self.wild && self.r.chance(50);
        let mut next = if refused { self.bare() } else { self.tree(1) };
        for _ in 1..levels {
            let body = self.passing(next);
            next = self.block(body);
        }
        next
    }

    fn passing(&mut self, next: usize) -> Body {
        let to = Link::To(next);
        match self.r.below(100) {
            0..=29 => {
                let n = self.r.below(3);
                let values = self.numbers(n);
                let mut refs: Vec<Link> = (0..n).map(|_| Link::To(self.text())).collect();
                refs.push(to);
                Body { kind: 7, values, refs }
            }
            30..=64 => {
                let n = self.r.pick(&[0, 0, 1, 2]);
                let values = self.bounds(n);
                let mut refs: Vec<Link> = (0..n).map(|_| Link::To(self.text())).collect();
                refs.push(to);
                Body { kind: 8, values, refs }
            }
            65..=69 => Body { kind: 8, values: self.numbers(3), refs: vec![to] },
            70..=94 => {
                let masks = vec![self.r.pick(&[u64::MAX, 0xff, 15, 1 << 63])];
                Body { kind: 11, values: masks, refs: vec![to] }
            }
            _ => Body { kind: self.r.pick(&[0, 1, 4, 9, 10, 77]), values: self.numbers(2), refs: vec![to] },
        }
    }

    /// Each level links twice to the next: few bytes, many visits.
    fn doubling(&mut self) -> usize {
        let more = if self.r.chance(30) { 11 } else { 6 };
        let levels = 2 + self.r.below(more);
        let kind = self.r.pick(&[7, 8, 11, 11, 1]);
        let mut next = self.tree(1);
        for _ in 1..levels {
            let values = match kind {
                11 => vec![numbers::mask(self.r), numbers::mask(self.r)],
                8 => self.bounds(1),
                _ => self.numbers(1),
            };
            let refs = vec![Link::To(next), Link::To(next)];
            next = self.block(Body { kind, values, refs });
        }
        next
    }

    /// A block with many values, and with references to a few texts.
    fn wide(&mut self, least: usize, most: usize) -> usize {
        let n = least + self.r.below(most + 1 - least);
        let kind = self.r.pick(&[4, 5, 6, 7, 8, 9, 10, 11]);
        let values = match kind {
            4 | 5 => self.ordered(n / 2 * 2),
            6 => self.numbers(n - (n + 2) % 3),
            8 => self.bounds(n / 2),
            11 => (0..n).map(|_| numbers::mask(self.r)).collect(),
            _ => self.numbers(n),
        };
        let refs = match kind {
            8 => n / 2 + 1,
            7 | 9 | 10 | 11 => n.min(500) + 1,
            _ => 0,
        };
        let texts: Vec<usize> = (0..40).map(|_| self.text()).collect();
        let refs = (0..refs).map(|_| if self.r.chance(70) { Link::To(self.r.pick(&texts)) } else { Link::Nil });
        let refs = refs.collect();
        self.block(Body { kind, values, refs })
    }
}

/// Zero bytes behind the values. Without a range mostly so few that they are not read as one.
pub fn zeros(r: &mut Random, ranged: bool) -> usize {
    match ranged {
        false if r.chance(90) => r.pick(&[1, 7, 8, 8, 15]),
        _ => r.pick(&[1, 7, 8, 15, 16, 17, 24, 40]),
    }
}

/// A block length that says whether there is a range: mostly exact, sometimes at the edge or far off.
pub fn length(r: &mut Random, c: &Conversion) -> u64 {
    let (size, edge) = (c.size() as u64, c.range_from());
    if c.zeros > 0 {
        return size + c.zeros as u64;
    }
    let far = r.below(edge as usize) as u64;
    let lengths = match c.range {
        Some(_) => [size, size, edge, edge + 8, u64::MAX, edge + far],
        None => [size, size, edge - 1, 0, 24, far],
    };
    r.pick(&lengths)
}
