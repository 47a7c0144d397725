// The work of a call is bounded: with S the bytes of the image, Q those of a text value, R the room, and r the root's references, it is at most a
// constant times S + Q + r * (Q + 1), and for each visit of the check the bytes of the visited block and R more. The length of a text that is not
// needed plays no part. That of an inversion of n keys is at most a constant times n * n, and the bytes of all their texts for each 255 keys. So the
// time is bounded too. It is taken on hostile images only, where a call that reads each text to its end needs many times as much as it may.
use crate::judge::{Difference, Verdict};
use crate::scene::{Ask, Scene};
use crate::second::RIGHT;
use crate::side::{Side, Value};
use crate::tally::Tally;
use std::collections::HashMap;
use std::hint::black_box;

/// Nanoseconds that any call may take, and those for each unit of its work: so many that a machine three times slower, or one under load, stays far
/// below. A run prints how many percent of this its calls take.
const FLOOR: u64 = 2_000_000;
const A_UNIT: u64 = 10;

/// A call is too long if it is so each time of so many.
const TRIES: usize = 3;

pub const TOO_LONG: &str = "a call longer than its bound";

/// What a tree costs at most: of the unfolded tree, the visits, the bytes of its blocks, and the bytes of the texts that its references and
/// names lead to, counted each time.
#[derive(Clone, Copy, Default)]
pub struct Tree {
    pub visits: u64,
    pub blocks: u64,
    pub texts: u64,
}

/// Of the tree at an address. A block that is met again is looked at once, and a loop ends where it closes.
pub fn tree_of(image: &[u8], address: u64, known: &mut HashMap<u64, Tree>) -> Tree {
    if let Some(tree) = known.get(&address) {
        return *tree;
    }
    known.insert(address, Tree::default());
    let Some(found) = RIGHT.opened(image, address) else { return Tree::default() };
    let text = |link: u64| RIGHT.text_of(image, link).map_or(0, |(from, end)| (end - from) as u64);
    let mut tree = Tree { visits: 1, blocks: 8 * (8 + found.refs.len() + found.values.len()) as u64, texts: text(found.fixed[0]) };
    for &link in found.refs.iter().filter(|&&link| link != 0) {
        let below = tree_of(image, link, known);
        tree = Tree { visits: tree.visits + below.visits, blocks: tree.blocks + below.blocks, texts: tree.texts + below.texts + text(link) };
    }
    known.insert(address, tree);
    tree
}

#[repr(C)]
struct Time {
    seconds: i64,
    nanoseconds: i64,
}

extern "C" {
    fn clock_gettime(clock: i32, time: *mut Time) -> i32;
}

const OF_THIS_THREAD: i32 = 3;

/// Nanoseconds that this thread has run.
fn now() -> u64 {
    let mut time = Time { seconds: 0, nanoseconds: 0 };
    unsafe { clock_gettime(OF_THIS_THREAD, &mut time) };
    (time.seconds * 1_000_000_000 + time.nanoseconds) as u64
}

/// Whether a call of so many units keeps to its time; how much of it the call takes is counted.
fn timed<T>(what: &str, units: u64, tally: &mut Tally, mut call: impl FnMut() -> T) -> Verdict {
    let most = FLOOR + A_UNIT * units;
    let mut least = u64::MAX;
    for _ in 0..TRIES {
        let start = now();
        black_box(&call());
        least = least.min(now() - start);
        if least <= most {
            tally.add("clock, calls by percent of their bound", percent_class(100 * least / most));
            return Ok(());
        }
    }
    Err(Difference { what: TOO_LONG, detail: format!("{what} took {least} ns, and {most} are its bound ({units} units)") })
}

/// The units of one call: see the head of this file.
fn units(scene: &Scene, tree: Tree, references: u64, ask: &Ask) -> u64 {
    let (image, question, room) = (scene.image.len() as u64, ask.text.len() as u64, ask.room as u64);
    image + question + tree.blocks + tree.visits * room + references * (question + 1)
}

/// Every call on a hostile image keeps to its time.
pub fn within(side: &dyn Side, scene: &Scene, tally: &mut Tally) -> Verdict {
    if !scene.hostile {
        return Ok(());
    }
    let (image, address, limit) = (&scene.image[..], scene.address, scene.limit);
    let tree = tree_of(image, address, &mut HashMap::new());
    let references = RIGHT.opened(image, address).map_or(0, |root| root.refs.len() as u64);
    tally.add("clock, hostile images by what a reader of whole texts reads", text_class(tree.texts));
    timed("the check", image.len() as u64 + tree.blocks, tally, || side.check(image, address, limit))?;
    for ask in &scene.asks {
        let units = units(scene, tree, references, ask);
        let mut out = vec![0; ask.room];
        timed("an application", units, tally, || side.apply(image, address, limit, ask.value, &ask.text, &mut out))?;
        timed("an application in a mode", units, tally, || side.apply_at(ask.mode, image, address, limit, ask.value, &ask.text, &mut out))?;
        if ask.value == Value::Text {
            timed("a translation", units, tally, || side.translate(image, address, limit, &ask.text))?;
        }
    }
    for &place in &scene.texts.places {
        timed("a text block read", image.len() as u64, tally, || side.read_text(image, place))?;
    }
    let (text, mut out) = (&scene.texts.text, vec![0; scene.texts.room]);
    timed("a text block written", (text.len() + out.len()) as u64, tally, || side.write_text(scene.texts.metadata, text, &mut out))?;
    let v = &scene.inversion;
    let mut out = vec![0; v.room];
    timed("an inversion", inversion_units(&v.image, v.address), tally, || side.invert(&v.image, v.address, &mut out))
}

/// The units of an inversion: with n keys n * n, and for each 255 of them the bytes of all their texts.
fn inversion_units(image: &[u8], address: u64) -> u64 {
    let Some(found) = RIGHT.opened(image, address) else { return 0 };
    let keys = RIGHT.keys_of(image, &found);
    let texts: usize = keys.iter().filter_map(|key| key.text).map(|text| text.len() + 1).sum();
    let n = keys.len();
    (n * n + n.div_ceil(255) * texts + 16 * n) as u64
}

fn text_class(bytes: u64) -> &'static str {
    match bytes {
        0..=999_999 => "0 to 1 MB",
        1_000_000..=9_999_999 => "1 to 10 MB",
        10_000_000..=99_999_999 => "10 to 100 MB",
        _ => "100 MB and more",
    }
}

fn percent_class(percent: u64) -> &'static str {
    match percent {
        0..=4 => "0 to 4",
        5..=9 => "5 to 9",
        10..=29 => "10 to 29",
        _ => "30 to 100",
    }
}
