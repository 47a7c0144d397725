// The speed of one call of ours, check and application together, beside the crate's apply on a block that was resolved once, and beside its
// parse, resolve and apply; the check beside the crate's resolve; parsing and writing one block; reading and writing one text block; how the work of
// a call grows on hostile images; and inverting one block, for which the crate has no function. One process, the same image, the same values, release
// builds.
//
//     bench                      all of the following, one after the other
//     bench table VALUES ROUNDS  times and goals: 1,000,000 values each and the median of 5 rounds where nothing else is said
//     bench instructions         instructions a call, by valgrind
//     bench hostile              the hostile images at sizes 1 and 2: instructions where valgrind is at hand, else time
//     bench inverse              inverting blocks of 8 to 16,384 keys, and the worst images of 4,096 and 16,384: likewise; those of 65,535 by the
//                                time. With NAME KEYS one of them alone
//     bench only SIDE CASE N     one side alone, N calls: for a profiler. SIDE is ours, resolved or whole, CASE the line of the table from 0 on
//     bench only check IMAGE N   N checks of the image `tree` or `twice`; with `resolve` the crate's
//     bench only block WHAT N    N calls on a block of 500 values. WHAT is parse, parse-kept, write, write-padded; the crate's from-bytes, to-bytes
//     bench only text WHAT L N   N calls on a text block of L bytes. WHAT is read, write; the crate's read-string, to-bytes
//     bench only hostile NAME SIZE N
//     bench only inverse NAME KEYS N
//
// In a round the three sides run one after the other, so that what slows the machine slows all. Output buffers are not cleared. Each answer is
// looked at where it is, with no copy, and the loops have no division, on all sides alike.
mod blocks;
mod cases;
mod count;
mod hostile;
mod image;
mod inverse;
mod ours;
mod texts;

use cases::{Case, Input};
use image::Image;
use oracle::blocks::common::BlockParse;
use oracle::blocks::conversion::ConversionBlock;
use oracle::parsing::decoder::DecodedValue;
use std::hint::black_box;
use std::process::ExitCode;
use std::time::Instant;

const LIMIT: u32 = 10_000;

/// A hostile image of twice the size costs at most so many times as much.
const MOST_GROWTH: f64 = 2.2;

struct Bench {
    bytes: Vec<u8>,
    cases: Vec<Case>,
    /// The images of the check: its name, the root's address, what stands there, and the most of the crate's time that a visit may take.
    checks: [(&'static str, u64, &'static str, f64); 2],
}

/// What is measured against a goal: what it is, and the most that it may be.
struct Goal {
    says: String,
    is: f64,
    most: f64,
}

/// Each of n values in turn, from the first again behind the last.
fn turns<T>(values: &[T], n: usize) -> impl Iterator<Item = &T> {
    values.iter().cycle().take(n)
}

impl Bench {
    fn new() -> Bench {
        let mut image = Image::new();
        let cases = cases::all(&mut image);
        let tree = cases::tree(&mut image, 12);
        let twice = cases::linked(&mut image, 12, 2);
        let checks = [("tree", tree, "a tree of different blocks", 0.06), ("twice", twice, "blocks that link twice to the next", 0.005)];
        Bench { bytes: image.bytes, cases, checks }
    }

    /// Ours: one call checks and applies.
    fn ours(&self, case: &Case, n: usize) {
        let mut out = [0u8; 256];
        let (p, l, o, m) = (self.bytes.as_ptr(), self.bytes.len(), out.as_mut_ptr(), out.len());
        let at = case.address;
        match &case.input {
            Input::Unsigned(list) => turns(list, n).for_each(|v| {
                black_box(&unsafe { ours::mdf_apply_unsigned(p, l, at, LIMIT, *v, o, m) });
            }),
            Input::Signed(list) => turns(list, n).for_each(|v| {
                black_box(&unsafe { ours::mdf_apply_signed(p, l, at, LIMIT, *v, o, m) });
            }),
            Input::Float(list) => turns(list, n).for_each(|v| {
                black_box(&unsafe { ours::mdf_apply_float(p, l, at, LIMIT, *v, o, m) });
            }),
            Input::Text(list) => turns(list, n).for_each(|t| {
                black_box(&unsafe { ours::mdf_apply_text(p, l, at, LIMIT, t.as_ptr(), t.len(), o, m) });
            }),
            Input::Moded(list) => turns(list, n).for_each(|v| {
                black_box(&unsafe { ours::mdf_apply_mode_unsigned(p, l, at, LIMIT, ours::STANDARD, *v, o, m) });
            }),
        }
    }

    fn resolve(&self, address: u64) -> ConversionBlock {
        let mut block = ConversionBlock::from_bytes(&self.bytes[address as usize..]).unwrap();
        block.resolve_all_dependencies_with_address(&self.bytes, address).unwrap();
        block
    }

    /// The crate's apply on a block that was resolved once. It takes the value, so a text is cloned for it.
    fn resolved(&self, case: &Case, n: usize) {
        let block = self.resolve(case.address);
        each(&case.input, n, |value| {
            black_box(&block.apply_decoded(value, &self.bytes).unwrap());
        });
    }

    /// The crate's parse, resolve and apply.
    fn whole(&self, case: &Case, n: usize) {
        each(&case.input, n, |value| {
            black_box(&self.resolve(case.address).apply_decoded(value, &self.bytes).unwrap());
        });
    }

    fn check(&self, address: u64) -> ours::Checked {
        unsafe { ours::mdf_check(self.bytes.as_ptr(), self.bytes.len(), address, LIMIT) }
    }

    fn checks(&self, address: u64, n: usize) {
        (0..n).for_each(|_| {
            black_box(&self.check(address));
        });
    }

    fn resolves(&self, address: u64, n: usize) {
        (0..n).for_each(|_| {
            black_box(&self.resolve(address));
        });
    }

    /// Nanoseconds a call, of the three sides.
    fn times(&self, case: &Case, n: usize, rounds: usize) -> [f64; 3] {
        let few = n.div_ceil(20);
        let mut rows = [const { Vec::new() }; 3];
        for _ in 0..rounds {
            rows[0].push(timed(n, || self.ours(case, n)));
            rows[1].push(timed(n, || self.resolved(case, n)));
            rows[2].push(timed(few, || self.whole(case, few)));
        }
        rows.map(median)
    }

    /// Nanoseconds a visit, of the check and of the crate's resolve.
    fn check_times(&self, address: u64, rounds: usize) -> [f64; 2] {
        let mut rows = [const { Vec::new() }; 2];
        for _ in 0..rounds {
            rows[0].push(timed(100, || self.checks(address, 100)));
            rows[1].push(timed(5, || self.resolves(address, 5)));
        }
        let visits = self.check(address).visits as f64;
        rows.map(|row| median(row) / visits)
    }

    fn table(&self, n: usize, rounds: usize) {
        let mut goals = Vec::new();
        println!("| conversion | ours, ns | crate on resolved, ns | ratio | crate parse, resolve, apply, ns | ratio |");
        println!("|---|---|---|---|---|---|");
        for case in &self.cases {
            let [a, b, c] = self.times(case, n, rounds);
            println!("| {} | {a:.0} | {b:.0} | {:.2} | {c:.0} | {:.3} |", case.name, a / b, a / c);
            goals_of(case.name, a / b, a / c, &mut goals);
        }
        println!("\n| check | visits | ours, ns a visit | crate's resolve, ns a visit | ratio |");
        println!("|---|---|---|---|---|");
        for (_, address, says, most) in self.checks {
            let [a, b] = self.check_times(address, rounds);
            println!("| {says} | {} | {a:.2} | {b:.1} | {:.4} |", self.check(address).visits, a / b);
            goals.push(Goal { says: format!("check, {says}, to the crate's resolve"), is: a / b, most });
        }
        println!("\n| goal, ours to the crate's | is | at most | |");
        println!("|---|---|---|---|");
        for goal in goals {
            let met = if goal.is <= goal.most { "met" } else { "missed" };
            println!("| {} | {:.4} | {} | {met} |", goal.says, goal.is, goal.most);
        }
    }

    /// Instructions a call, and a visit of the check.
    fn instructions(&self) {
        println!("| instructions a call | ours | crate on resolved | ratio |");
        println!("|---|---|---|---|");
        for (i, case) in self.cases.iter().enumerate() {
            let of = |side: &str| count::a_call(&[side, &i.to_string()], 1700, 5100).unwrap_or(f64::NAN);
            let (a, b) = (of("ours"), of("resolved"));
            println!("| {} | {a:.0} | {b:.0} | {:.2} |", case.name, a / b);
        }
        for (name, address, says, _) in self.checks {
            let visits = self.check(address).visits as f64;
            let of = |side: &str, few, many| count::a_call(&[side, name], few, many).unwrap_or(f64::NAN) / visits;
            let (a, b) = (of("check", 10, 30), of("resolve", 1, 3));
            println!("| check, {says}, a visit | {a:.2} | {b:.0} | {:.4} |", a / b);
        }
    }

    fn only(&self, side: &str, what: &str, n: usize) {
        let case = || &self.cases[what.parse::<usize>().expect("the line of a case")];
        let address = || self.checks.iter().find(|c| c.0 == what).expect("tree or twice").1;
        match side {
            "ours" => self.ours(case(), n),
            "resolved" => self.resolved(case(), n),
            "check" => self.checks(address(), n),
            "resolve" => self.resolves(address(), n),
            _ => self.whole(case(), n),
        }
    }
}

/// The goals that a line of the table has: to the crate's apply on a resolved block, and to its parse, resolve and apply.
fn goals_of(name: &str, resolved: f64, whole: f64, goals: &mut Vec<Goal>) {
    let most = match name.split(' ').next().unwrap_or("") {
        "1" if name == "1 linear" => 4.0,
        "7" | "8" => 1.6,
        "9" | "10" | "11" => 0.75,
        _ => return,
    };
    if name == "1 linear" {
        goals.push(Goal { says: format!("{name}, to parse, resolve and apply"), is: whole, most: 0.25 });
    }
    goals.push(Goal { says: format!("{name}, to apply on resolved"), is: resolved, most });
}

/// Each of n values in turn, as the crate takes them.
fn each(input: &Input, n: usize, mut apply: impl FnMut(DecodedValue)) {
    match input {
        Input::Unsigned(list) | Input::Moded(list) => turns(list, n).for_each(|v| apply(DecodedValue::UnsignedInteger(*v))),
        Input::Signed(list) => turns(list, n).for_each(|v| apply(DecodedValue::SignedInteger(*v))),
        Input::Float(list) => turns(list, n).for_each(|v| apply(DecodedValue::Float(*v))),
        Input::Text(list) => turns(list, n).for_each(|t| apply(DecodedValue::String(t.clone()))),
    }
}

/// What one call on a hostile image costs: instructions, or nanoseconds where there is no valgrind.
fn hostile_cost(name: &str, size: usize, counted: bool) -> f64 {
    if counted {
        return count::a_call(&["hostile", name, &size.to_string()], 1, 3).unwrap_or(f64::NAN);
    }
    let asked = hostile::named(name, size);
    (0..5).map(|_| timed(5, || asked.calls(5))).fold(f64::INFINITY, f64::min)
}

/// Whether each hostile image grows as it should, as far as instructions were counted: a time says little on a machine at work.
fn hostile_table() -> bool {
    let counted = count::possible();
    let unit = if counted { "instructions" } else { "ns" };
    let (mut grown, mut a_byte) = (0, Vec::new());
    println!("| hostile image | bytes | one call, {unit} | bytes at twice the size | one call, {unit} | growth | |");
    println!("|---|---|---|---|---|---|---|");
    for h in hostile::ALL {
        let bytes = [1, 2].map(|size| hostile::named(h.name, size).bytes());
        let [one, two] = [1, 2].map(|size| hostile_cost(h.name, size, counted));
        if hostile::named(h.name, 1).is_of_text_block() {
            a_byte.push(format!("{} {:.3}", h.name, (two - one) / (bytes[1] - bytes[0]) as f64));
        }
        let met = two / one <= MOST_GROWTH;
        grown += !met as usize;
        let says = if met { "met" } else { "missed" };
        println!("| {}: {} | {} | {one:.0} | {} | {two:.0} | {:.2} | {says} |", h.name, h.says, bytes[0], bytes[1], two / one);
    }
    println!("\n{unit} for each byte more of a text block: {}", a_byte.join(", "));
    println!("\nhostile images: {} of {} grow at most {MOST_GROWTH} times", hostile::ALL.len() - grown, hostile::ALL.len());
    grown == 0 || !counted
}

/// Nanoseconds a call, of n calls.
fn timed(n: usize, mut f: impl FnMut()) -> f64 {
    let start = Instant::now();
    f();
    start.elapsed().as_secs_f64() * 1e9 / n as f64
}

fn median(mut v: Vec<f64>) -> f64 {
    v.sort_by(|a, b| a.total_cmp(b));
    v[v.len() / 2]
}

fn number(word: Option<&String>, usual: usize) -> usize {
    word.map_or(usual, |w| w.parse().expect("a whole number"))
}

fn instructions() {
    if count::possible() {
        Bench::new().instructions();
        println!();
        blocks::instructions();
        println!();
        texts::instructions();
    } else {
        println!("no valgrind here, so not counted: instructions a call");
    }
}

fn main() -> ExitCode {
    let words: Vec<String> = std::env::args().skip(1).collect();
    let word = |i: usize| words.get(i).map_or("", String::as_str);
    let mut good = true;
    match (word(0), word(1)) {
        ("only", "block") => blocks::Blocks::new().calls(word(2), number(words.get(3), 1000)),
        ("only", "text") => texts::Texts::new(number(words.get(3), 20)).calls(word(2), number(words.get(4), 1000)),
        ("only", "hostile") => hostile::named(word(2), number(words.get(3), 1)).calls(number(words.get(4), 1)),
        ("only", "inverse") => inverse::Inverse::named(word(2), number(words.get(3), 8)).calls(number(words.get(4), 1)),
        ("only", side) => Bench::new().only(side, word(2), number(words.get(3), 1000)),
        ("table", _) => Bench::new().table(number(words.get(1), 1_000_000), number(words.get(2), 5)),
        ("instructions", _) => instructions(),
        ("hostile", _) => good = hostile_table(),
        ("inverse", "") => good = inverse::table(),
        ("inverse", name) => inverse::one(name, number(words.get(2), 8)),
        _ => {
            Bench::new().table(1_000_000, 5);
            println!();
            instructions();
            println!();
            good = hostile_table();
            println!();
            good &= inverse::table();
        }
    }
    ExitCode::from(!good as u8)
}
