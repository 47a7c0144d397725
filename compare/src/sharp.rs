// Is the comparison sharp? Each wrong build takes the place of ours and has to be caught by the judge that the list names.
use crate::bound::within;
use crate::judge::{with_crate, with_side, Difference};
use crate::ours::Ours;
use crate::reduce;
use crate::scene::{Scene, HOSTILE_EVERY};
use crate::second::{Second, RIGHT};
use crate::spill::guards_see;
use crate::tally::Tally;
use crate::wrong::{Judge, Wrong, LIST};

/// So many images are tried on a wrong build where no other number is given.
pub const MOST_SCENES: u64 = 100_000;

fn verdict(wrong: Wrong, judge: Judge, scene: &Scene) -> Option<Difference> {
    let (build, mut tally) = (Second { wrong }, Tally::default());
    match judge {
        Judge::Crate => with_crate(&build, scene, &mut tally).err(),
        Judge::Ours => with_side(&build, &Ours, scene, &mut tally).err(),
        // Where the second reading with no rule broken is in time.
        Judge::Clock => within(&build, scene, &mut tally).err().filter(|_| within(&RIGHT, scene, &mut tally).is_ok()),
    }
}

/// Prints the smallest input that shows one wrong build; true if there is one.
pub fn show(number: usize, seed: u64) -> bool {
    let Some(&(wrong, judge, says)) = LIST.get(number.wrapping_sub(1)) else { return false };
    println!("{says}");
    let found = tried(judge, MOST_SCENES).map(|i| Scene::new(seed, i)).find(|s| verdict(wrong, judge, s).is_some());
    found.map(|scene| reduce::tell_smallest(scene, &|s| verdict(wrong, judge, s))).is_some()
}

/// The scenes that a judge is asked on. The clock looks at hostile images alone, and how large one must be to give a wrong build away depends on the
/// machine: it goes through ten times as many scenes for them, and passes over the others.
fn tried(judge: Judge, scenes: u64) -> Box<dyn Iterator<Item = u64>> {
    match judge {
        Judge::Clock => Box::new((HOSTILE_EVERY - 1..10 * scenes).step_by(HOSTILE_EVERY as usize)),
        _ => Box::new(0..scenes),
    }
}

/// How many scenes it takes to catch a wrong build; none if so many do not.
fn caught_after(wrong: Wrong, judge: Judge, seed: u64, scenes: u64) -> Option<u64> {
    tried(judge, scenes).find(|&i| verdict(wrong, judge, &Scene::new(seed, i)).is_some())
}

/// Runs all wrong builds; true if each is caught.
pub fn run(seed: u64, scenes: u64) -> bool {
    let sound = guards_see(seed, scenes) && page_is_the_list();
    let mut caught = [0, 0, 0];
    for (i, &(wrong, judge, says)) in LIST.iter().enumerate() {
        match caught_after(wrong, judge, seed, scenes) {
            Some(n) => {
                caught[judge as usize] += 1;
                println!("{:3} caught by {judge:?} after {} images: {says}", i + 1, n + 1);
            }
            None => println!("{:3} NOT caught by {judge:?} in {scenes} images: {says}", i + 1),
        }
    }
    let all: usize = caught.iter().sum();
    let [by_crate, by_ours, by_clock] = caught;
    println!("{all} of {} wrong builds caught: {by_crate} by the crate, {by_ours} by the proved build, {by_clock} by the clock", LIST.len());
    sound && all == LIST.len()
}

/// The list as WRONG-BUILDS.md has it.
pub fn list() -> String {
    let mut lines = vec![
        "# Wrong builds".to_string(),
        String::new(),
        "Each is the second reading (src/second.rs) with one rule of document 01, or of request [2] on widths, [5] on malformed tables, [6] on"
            .to_string(),
        "padding, [7] on inverses, [8] on editions, [11] on few links or [13] on text blocks, broken. `make sharp` puts each in the place of ours,"
            .to_string(),
        "looks whether the comparison catches it, and prints how many it caught.".to_string(),
        String::new(),
        "\"Crate\": the comparison with the crate has to catch it. \"Ours\": the crate has no such rule or no say, and the comparison with the"
            .to_string(),
        "proved build has to catch it. \"Clock\": all its answers are right, and the time of its calls on hostile images has to give it away."
            .to_string(),
        "`compare list` prints this page, and `make sharp` says so if it is not the list that was run.".to_string(),
        String::new(),
        "| no. | caught by | the broken rule |".to_string(),
        "|---|---|---|".to_string(),
    ];
    let row = |(i, (_, judge, says)): (usize, &(Wrong, Judge, &str))| format!("| {} | {judge:?} | {says} |", i + 1);
    lines.extend(LIST.iter().enumerate().map(row));
    lines.join("\n") + "\n"
}

/// Whether WRONG-BUILDS.md is this list.
fn page_is_the_list() -> bool {
    let same = include_str!("../WRONG-BUILDS.md") == list();
    if !same {
        println!("WRONG-BUILDS.md is not the list of this build: write it anew by 'compare list'");
    }
    same
}
