// What was compared, counted by kind, and how it is told at the end of a run.
use std::collections::BTreeMap;

#[derive(Default)]
pub struct Tally {
    counts: BTreeMap<(&'static str, String), u64>,
}

impl Tally {
    pub fn add(&mut self, group: &'static str, kind: impl ToString) {
        *self.counts.entry((group, kind.to_string())).or_insert(0) += 1;
    }

    pub fn add_if(&mut self, counts: bool, group: &'static str, kind: impl ToString) {
        if counts {
            self.add(group, kind);
        }
    }

    /// All that was counted in a group.
    pub fn total(&self, group: &str) -> u64 {
        self.counts.iter().filter(|((g, _), _)| *g == group).map(|(_, n)| n).sum()
    }

    /// One line a group: its kinds with their counts.
    pub fn tell(&self) {
        let mut groups: BTreeMap<&str, Vec<(&str, u64)>> = BTreeMap::new();
        for ((group, kind), n) in &self.counts {
            groups.entry(group).or_default().push((kind, *n));
        }
        for (group, mut kinds) in groups {
            kinds.sort_by_key(|(kind, _)| kind.split(' ').next().and_then(|w| w.parse::<u64>().ok()).unwrap_or(u64::MAX));
            let kinds: Vec<String> = kinds.iter().map(|(kind, n)| format!("{kind}: {n}")).collect();
            println!("{group}: {}", kinds.join(", "));
        }
    }
}
