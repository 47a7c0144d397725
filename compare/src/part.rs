// Where the crate and the proved build part outside the domain, by the one reason that a case lies outside. None of it is a fault: it shows
// which points of document 01's list are needed, and gives the smallest input found for each. Then, by the padding of a block, how often what ours
// writes from the kept parse is something else than what the crate writes; and, by what is written or read, how often text blocks part.
use crate::judge::{parting, Difference, Verdict};
use crate::ours::Ours;
use crate::padding::kept_parting;
use crate::reduce;
use crate::scene::Scene;
use crate::texts::text_partings;
use std::collections::BTreeMap;

/// Images, or text blocks, of one kind, how many of them part, and of each kind of difference the smallest, with the number of its image.
#[derive(Default)]
struct Parted {
    images: u64,
    differing: u64,
    smallest: BTreeMap<&'static str, (usize, u64)>,
}

fn difference(scene: &Scene, reason: &str) -> Option<Difference> {
    parting(&Ours, scene).filter(|(why, _)| *why == reason).and_then(|(_, verdict)| verdict.err())
}

fn text_difference(scene: &Scene, reason: &str) -> Option<Difference> {
    text_partings(&Ours, scene).into_iter().filter(|parting| parting.kind == reason).find_map(|parting| parting.verdict.err())
}

impl Parted {
    /// The first of equal sizes is kept.
    fn add(&mut self, size: usize, number: u64, verdict: Verdict) {
        self.images += 1;
        if let Err(difference) = verdict {
            self.differing += 1;
            let smallest = self.smallest.entry(difference.what).or_insert((size, number));
            if size < smallest.0 {
                *smallest = (size, number);
            }
        }
    }
}

/// Looks at so many images and tells what parts.
pub fn run(seed: u64, images: u64) {
    let mut reasons: BTreeMap<&'static str, Parted> = BTreeMap::new();
    let mut paddings: BTreeMap<&'static str, Parted> = BTreeMap::new();
    let mut texts: BTreeMap<String, Parted> = BTreeMap::new();
    for number in 0..images {
        let scene = Scene::new(seed, number);
        for parting in text_partings(&Ours, &scene) {
            texts.entry(parting.kind).or_default().add(parting.size, number, parting.verdict);
        }
        if let Some((padding, parts)) = kept_parting(&Ours, &scene) {
            let parted = paddings.entry(padding).or_default();
            (parted.images, parted.differing) = (parted.images + 1, parted.differing + parts as u64);
        }
        if let Some((why, verdict)) = parting(&Ours, &scene) {
            reasons.entry(why).or_default().add(0, number, verdict);
        }
    }
    for (why, parted) in reasons {
        println!("{why}: {} images, {} part", parted.images, parted.differing);
        for (what, (_, number)) in parted.smallest {
            println!(" {what}, first at image {number}");
            reduce::tell_smallest(Scene::new(seed, number), &|s| difference(s, why));
        }
    }
    for (padding, parted) in paddings {
        println!("padding kept and written, {padding}: {} images, {} part", parted.images, parted.differing);
    }
    for (kind, parted) in texts {
        println!("text blocks {kind}: {}, {} part", parted.images, parted.differing);
        for (_, number) in parted.smallest.into_values() {
            reduce::tell_smallest(Scene::new(seed, number), &|s| text_difference(s, &kind));
        }
    }
}
