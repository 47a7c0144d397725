// Compares the proved build with the crate mf4-rs 3.8.0 on generated images in document 01's domain, and with a second reading of
// document 01 on all images.
//
//     compare run CASES SEED     compare so many cases; a case is one value asked of one image
//     compare one SEED NUMBER    one image again
//     compare sharp SEED IMAGES  the wrong builds, each on at most so many images
//     compare wrong NUMBER SEED  the smallest input that shows one wrong build
//     compare part IMAGES SEED   where crate and proved build part outside the domain
//     compare record FOLDER EACH SEED
//                                so many of the crate's answers for each root type, as stdin and stdout of the program replay
//     compare list               WRONG-BUILDS.md
mod bound;
mod damage;
mod domain;
mod grow;
mod hostile;
mod inverse;
mod judge;
mod keyed;
mod lent;
mod numbers;
mod ours;
mod padding;
mod part;
mod plan;
mod random;
mod record;
mod reduce;
mod scene;
mod second;
mod sharp;
mod side;
mod spill;
mod tally;
mod texts;
mod theirs;
mod watch;
mod wrong;

use bound::{within, TOO_LONG};
use judge::{guards_stand, with_crate, with_side, Difference};
use lent::Guarded;
use ours::Ours;
use scene::{Scene, ASKS};
use second::RIGHT;
use std::process::ExitCode;
use std::time::Instant;
use tally::Tally;

/// A run stops after so many differences.
const MOST_DIFFERENCES: usize = 10;

/// This variable is set where the run is an emulator's, under which no call keeps to its time for certain.
const UNTIMED: &str = "COMPARE_UNTIMED";

/// What differs in a scene, from the second reading, from the crate, in time, or at a guard.
fn judged(ours: &Guarded<Ours>, scene: &Scene, timed: bool, tally: &mut Tally) -> Option<Difference> {
    let mut verdict = with_side(ours, &RIGHT, scene, tally).and_then(|_| with_crate(ours, scene, tally));
    if timed {
        verdict = verdict.and_then(|_| within(&Ours, scene, tally));
    }
    let guards = guards_stand(ours);
    verdict.and(guards).err()
}

/// Compares images `from` to `to`; the number of differences.
fn run(seed: u64, from: u64, to: u64) -> usize {
    let (ours, mut tally, mut differences) = (Guarded::new(Ours), Tally::default(), 0);
    let (start, mut images) = (Instant::now(), 0);
    let timed = std::env::var_os(UNTIMED).is_none();
    if !timed {
        println!("under an emulator, so not judged: the time that a call takes");
    }
    for number in from..to {
        watch::at(number);
        images += 1;
        let scene = Scene::new(seed, number);
        if let Some(difference) = judged(&ours, &scene, timed, &mut tally) {
            println!("difference at image {number} of seed {seed}: {}\n  {}", difference.what, difference.detail);
            if difference.what != TOO_LONG {
                reduce::tell_smallest(scene, &|s| judged(&ours, s, timed, &mut Tally::default()));
            }
            differences += 1;
            if differences == MOST_DIFFERENCES {
                break;
            }
        }
    }
    tally.tell();
    let seconds = start.elapsed().as_secs();
    let (cases, inside) = (images * ASKS as u64, tally.total("crate, applications by value"));
    println!("compared: {cases} cases on {images} images, {inside} of them in the domain with the crate, seed {seed}, {seconds} s: {differences} differences");
    differences
}

/// A number among the words, or the usual one where there is no word.
fn number(word: Option<&String>, usual: u64) -> u64 {
    let Some(word) = word else { return usual };
    word.parse().unwrap_or_else(|_| {
        println!("{word} is not a whole number");
        std::process::exit(1)
    })
}

fn main() -> ExitCode {
    let words: Vec<String> = std::env::args().skip(1).collect();
    theirs::quiet_panics();
    watch::start();
    let (first, second) = (words.get(1), words.get(2));
    let good = match words.first().map(String::as_str) {
        Some("run") => run(number(second, 1), 0, number(first, 100_000).div_ceil(ASKS as u64)) == 0,
        Some("one") => run(number(first, 1), number(second, 0), number(second, 0) + 1) == 0,
        Some("sharp") => sharp::run(number(first, 1), number(second, sharp::MOST_SCENES)),
        Some("wrong") => sharp::show(number(first, 1) as usize, number(second, 1)),
        Some("part") => {
            part::run(number(second, 1), number(first, 100_000));
            true
        }
        Some("record") => {
            let folder = words.get(1).map_or("crates/replay", String::as_str);
            println!("recorded: {} answers in {folder}", record::run(folder, number(words.get(2), 300) as usize, number(words.get(3), 1)));
            true
        }
        Some("list") => {
            print!("{}", sharp::list());
            true
        }
        _ => {
            println!("compare run CASES SEED | one SEED NUMBER | sharp SEED IMAGES | wrong NUMBER SEED | part IMAGES SEED | record FOLDER EACH SEED | list");
            false
        }
    };
    ExitCode::from(!good as u8)
}
