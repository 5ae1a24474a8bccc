//! The search for a difference: generated cases are compared until two subjects differ, and what was met is counted.

use crate::random::Random;
use std::collections::BTreeMap;
use std::fmt;

/// What came of a case: what was met, the answer in words and what else is counted; how much there was to do; how the two differ, if
/// they do.
pub struct Compared {
    pub met: Vec<String>,
    pub amount: usize,
    pub how: Option<String>,
}

/// How often each thing was met, to see that the cases reach all of them.
pub struct Tally {
    counts: BTreeMap<String, usize>,
    pub cases: usize,
    pub amount: usize,
    unit: &'static str,
}

impl Tally {
    /// Nothing yet; what there is to do is counted in this unit.
    pub fn of_unit(unit: &'static str) -> Tally {
        Tally { counts: BTreeMap::new(), cases: 0, amount: 0, unit }
    }

    fn count(&mut self, compared: &Compared) {
        compared.met.iter().for_each(|what| *self.counts.entry(what.clone()).or_default() += 1);
        self.cases += 1;
        self.amount += compared.amount;
    }

    pub fn of(&self, what: &str) -> usize {
        self.counts.get(what).copied().unwrap_or(0)
    }
}

impl fmt::Display for Tally {
    fn fmt(&self, f: &mut fmt::Formatter) -> fmt::Result {
        write!(f, "{} cases, {} {}:", self.cases, self.amount, self.unit)?;
        self.counts.iter().try_for_each(|(what, count)| write!(f, " {what} {count},"))
    }
}

/// A case on which the two differ, and how.
pub struct Found<Case> {
    pub number: u64,
    pub case: Case,
    pub how: String,
}

/// Compares the cases that are made from the seed until one differs or they are used up; `progress` hears of each case.
pub fn search<Case>(
    seed: u64,
    cases: std::ops::Range<u64>,
    mut tally: Tally,
    make: impl Fn(&mut Random) -> Case,
    compare: impl Fn(&Case) -> Compared,
    mut progress: impl FnMut(&Tally),
) -> (Tally, Option<Found<Case>>) {
    for number in cases {
        let case = make(&mut Random::of_case(seed, number));
        let compared = compare(&case);
        tally.count(&compared);
        if let Some(how) = compared.how {
            return (tally, Some(Found { number, case, how }));
        }
        progress(&tally);
    }
    (tally, None)
}
