//! The variables that the runs of the generated cases read too early or just in time, counted: they have what order 5 of document 02 is about.

use flagcopper_tests::early::{early, PLACES};
use flagcopper_tests::met::Met;

/// All that must be met: fault 8 in every place in which a variable is read, and what else a run may have to do with unset variables.
fn wanted() -> Vec<String> {
    let under = |(parent, _, place): (u16, usize, &str)| match parent {
        18 | 19 => vec![format!("{place} in while"), format!("{place} in if")],
        _ => vec![place.to_string()],
    };
    let others = [
        "too early beside a branch that sets it",
        "in time beside a branch that sets it",
        "too early in an atom",
        "argument with every frame used",
        "done with an unset cell",
    ];
    PLACES.into_iter().flat_map(under).chain(others.map(String::from)).collect()
}

#[test]
fn unset_variables_are_met() {
    Met::in_the_gates_cases(|case| early(&case.script, &case.choices)).has_all(&wanted(), 5);
}
