//! How often something is met in the generated cases that the gate gives to `differ`.

use crate::generate::{case, Case};
use crate::random::Random;
use std::collections::{BTreeMap, BTreeSet};

/// In how many cases each thing is met.
pub struct Met(BTreeMap<String, usize>);

impl Met {
    pub fn in_the_gates_cases(met: impl Fn(&Case) -> BTreeSet<String>) -> Met {
        let mut counts = BTreeMap::new();
        for number in 0..20_000 {
            let case = case(&mut Random::of_case(1, number));
            met(&case).into_iter().for_each(|what| *counts.entry(what).or_default() += 1);
        }
        Met(counts)
    }

    pub fn of(&self, what: &str) -> usize {
        self.0.get(what).copied().unwrap_or(0)
    }

    /// Fails where something of what is wanted is met in fewer cases than `least`.
    pub fn has_all(&self, wanted: &[String], least: usize) {
        for what in wanted {
            println!("{what}: {}", self.of(what));
            assert!(self.of(what) >= least, "{what}: {} times", self.of(what));
        }
    }
}
