// The number rules and the searches (document 01, "Applying"), over a block's values as floats.
use super::Second;
use crate::side::Value;
use crate::wrong::Wrong;

fn nearest_below(n: u64, nearest: f64) -> f64 {
    if nearest as u128 > n as u128 {
        nearest.next_down()
    } else {
        nearest
    }
}

fn nearest_ties_up(n: u64, nearest: f64) -> f64 {
    let above = nearest.next_up() as u128;
    let tie = (nearest as u128) < n as u128 && above - n as u128 == n as u128 - nearest as u128;
    if tie {
        nearest.next_up()
    } else {
        nearest
    }
}

fn nearest_of_half_and_more(n: u64, nearest: f64) -> f64 {
    if nearest as u128 > n as u128 && nearest.to_bits() % 2 == 1 {
        nearest.next_down()
    } else {
        nearest
    }
}

fn nearest_without_carry(n: u64, nearest: f64) -> f64 {
    let power = nearest.to_bits() << 12 == 0;
    if power && nearest as u128 > n as u128 {
        nearest / 2.0
    } else {
        nearest
    }
}

impl Second {
    fn of_whole(&self, n: u64) -> f64 {
        match self.wrong {
            Wrong::IntegerRoundsDown => nearest_below(n, n as f64),
            Wrong::IntegerTiesUp => nearest_ties_up(n, n as f64),
            Wrong::IntegerHalfAndMoreTies => nearest_of_half_and_more(n, n as f64),
            Wrong::IntegerCarryLost => nearest_without_carry(n, n as f64),
            Wrong::ZeroHasAnExponent if n == 0 => 0.25,
            _ => n as f64,
        }
    }

    /// The number "x" of a value; none for text and other.
    pub fn number(&self, value: Value) -> Option<f64> {
        match value {
            Value::Unsigned(n) => Some(self.of_whole(n)),
            Value::Signed(i64::MIN) if self.is(Wrong::MostNegativeIsZero) => Some(-0.0),
            Value::Signed(n) if n < 0 && !self.is(Wrong::SignedAsUnsigned) => Some(-self.of_whole(n.unsigned_abs())),
            Value::Signed(n) => Some(self.of_whole(n as u64)),
            Value::Float(x) => Some(x),
            Value::Text | Value::Other(_) => None,
        }
    }

    pub fn linear(&self, v: &[f64], x: f64) -> f64 {
        match v {
            [v0, v1, ..] if self.is(Wrong::LinearFused) => v1.mul_add(x, *v0),
            [v0, v1, ..] if self.is(Wrong::LinearSwapped) => v1 + v0 * x,
            [v0, v1, ..] => v0 + v1 * x,
            _ => x,
        }
    }

    fn square(&self, p: &[f64], x: f64) -> f64 {
        match self.wrong {
            Wrong::RationalHorner => (p[0] * x + p[1]) * x + p[2],
            Wrong::RationalSquare => (p[0] * (x * x) + p[1] * x) + p[2],
            Wrong::RationalGrouped => (p[0] * x) * x + (p[1] * x + p[2]),
            Wrong::RationalFused => p[1].mul_add(x, (p[0] * x) * x) + p[2],
            _ => ((p[0] * x) * x + p[1] * x) + p[2],
        }
    }

    pub fn rational(&self, v: &[f64], x: f64) -> f64 {
        if v.len() < 6 {
            return x;
        }
        let (above, below) = (self.square(&v[..3], x), self.square(&v[3..6], x));
        if self.is(Wrong::RationalGuarded) && below == 0.0 {
            x
        } else {
            above / below
        }
    }

    pub fn table(&self, v: &[f64], x: f64, interpolated: bool) -> f64 {
        let odd_taken = self.is(Wrong::TableOddLength);
        let least = if self.is(Wrong::TableOnePair) { 4 } else { 2 };
        if v.len() < least || (v.len() % 2 == 1 && !odd_taken) {
            return x;
        }
        let pairs: Vec<(f64, f64)> = v.chunks_exact(2).map(|p| (p[0], p[1])).collect();
        let (first, last) = (pairs[0], pairs[pairs.len() - 1]);
        if self.is(Wrong::TableLastFirst) && x >= last.0 {
            return last.1;
        }
        if x <= first.0 {
            return first.1;
        }
        if x >= last.0 {
            return last.1;
        }
        match self.neighbours(&pairs, x) {
            Some((low, high)) if interpolated => self.interpolate(low, high, x),
            Some((low, high)) => self.nearest(low, high, x),
            None if self.is(Wrong::TableGapLast) => last.1,
            None => x,
        }
    }

    fn neighbours(&self, pairs: &[(f64, f64)], x: f64) -> Option<((f64, f64), (f64, f64))> {
        let open = self.is(Wrong::TableUpperOpen);
        let around = |w: &&[(f64, f64)]| w[0].0 <= x && (x < w[1].0 || (!open && x == w[1].0));
        let found = match self.wrong {
            Wrong::TableLastNeighbours => pairs.windows(2).rfind(around),
            _ => pairs.windows(2).find(around),
        };
        found.map(|w| (w[0], w[1]))
    }

    fn interpolate(&self, (k0, v0): (f64, f64), (k1, v1): (f64, f64), x: f64) -> f64 {
        let t = (x - k0) / (k1 - k0);
        match self.wrong {
            Wrong::InterpolatedByWeights => v0 * (1.0 - t) + v1 * t,
            Wrong::InterpolatedProductFirst => v0 + ((x - k0) * (v1 - v0)) / (k1 - k0),
            _ => v0 + t * (v1 - v0),
        }
    }

    fn nearest(&self, (k0, v0): (f64, f64), (k1, v1): (f64, f64), x: f64) -> f64 {
        let (up, down) = (k1 - x, x - k0);
        if up < down || (self.is(Wrong::NearestTieUp) && up == down) {
            v1
        } else {
            v0
        }
    }

    fn holds(&self, min: f64, max: f64, x: f64, integer: bool) -> bool {
        let closed = match self.wrong {
            Wrong::RangeFloatClosed => true,
            Wrong::RangeIntegerOpen => false,
            _ => integer,
        };
        if self.is(Wrong::RangeHoldsNan) && x.is_nan() {
            return true;
        }
        let above = min < x || (min == x && !self.is(Wrong::RangeLowerOpen));
        above && (x < max || (x == max && closed))
    }

    pub fn range_to_value(&self, v: &[f64], x: f64, integer: bool) -> f64 {
        let any_length = self.is(Wrong::RangeToValueAnyLength);
        if v.len() < 4 || ((v.len() - 1) % 3 != 0 && !any_length) {
            return x;
        }
        let mut ranges = v[..v.len() - 1].chunks_exact(3);
        let holding = |r: &&[f64]| self.holds(r[0], r[1], x, integer);
        let found = match self.wrong {
            Wrong::RangeToValueLast => ranges.rfind(holding),
            _ => ranges.find(holding),
        };
        found.map_or(v[v.len() - 1], |r| r[2])
    }

    /// Value to text: the index whose reference decides, and whether a key was equal.
    pub fn key_index(&self, v: &[f64], references: usize, x: f64) -> (usize, bool) {
        let found = match self.wrong {
            Wrong::KeyByBits => v.iter().position(|k| k.to_bits() == x.to_bits()),
            Wrong::KeyLast => v.iter().rposition(|&k| k == x),
            _ => v.iter().position(|&k| k == x),
        };
        let none = if self.is(Wrong::DefaultIsLastReference) { references.saturating_sub(1) } else { v.len() };
        (found.unwrap_or(none), found.is_some())
    }

    /// Whether a table of ranges of this length is malformed (request [5]).
    pub fn is_malformed(&self, length: usize) -> bool {
        match self.wrong {
            Wrong::OddTableOfTwo if length == 2 => true,
            Wrong::OddTableNotEmpty if length == 0 => false,
            Wrong::OddTableNotOne if length == 1 => false,
            Wrong::OddTableNotThree if length > 2 => false,
            _ => length < 2 || length % 2 == 1,
        }
    }

    /// Range to text: the index whose reference decides, and whether it counts as matched.
    pub fn range_index(&self, v: &[f64], x: f64, integer: bool) -> (usize, bool) {
        let n = v.len() / 2;
        let searched = v.len() % 2 == 0 || self.is(Wrong::ThreeValuesSearched);
        if v.len() < 2 || !searched {
            return (0, 0 < n || (v.len() == 1 && self.is(Wrong::OneValueMatches)));
        }
        let found = v.chunks_exact(2).position(|r| self.holds(r[0], r[1], x, integer));
        (found.unwrap_or(n), found.is_some())
    }
}
