//! What the runs of the generated cases compare, counted: they have what order 3 of document 02 is about.

use flagcopper_tests::comparisons::{comparisons, Comparison, Unlike};
use flagcopper_tests::image::{children, Image};
use flagcopper_tests::met::Met;
use std::collections::BTreeSet;

/// How a long body is nested, by what would wait and by its depth.
fn nesting(comparison: &Comparison) -> Option<&'static str> {
    let [first, last] = comparison.would_wait;
    match () {
        () if first >= 30 && last <= 8 => Some("to the left"),
        () if last >= 30 && first <= 8 => Some("to the right"),
        () if first >= 10 && last >= 10 => Some("either way"),
        () if comparison.nodes >= 31 && comparison.depth <= 10 => Some("evenly"),
        () => None,
    }
}

/// Differences, selections, procedures, declarations, field assignments, sequences, loops, `if` and parallels.
const MIXED: [u16; 9] = [3, 6, 7, 32, 36, 38, 39, 40, 41];

/// Whether the nodes stand as the encoder puts them: children first, left before right.
fn in_the_encoders_order(image: &Image) -> bool {
    let mut open = vec![image.nodes.len() - 1];
    let mut expected = image.nodes.len();
    while let Some(node) = open.pop() {
        expected -= 1;
        if node != expected {
            return false;
        }
        open.extend(children(image.nodes[node]));
    }
    true
}

/// What is met in a comparison in a run of the script.
fn met(comparison: &Comparison, image: &Image) -> Vec<String> {
    let Comparison { alike, unlike, nodes, .. } = comparison;
    let answer = if *alike { "yes" } else { "no" };
    let command = if comparison.in_a_loop { "while" } else { "if" };
    let nested = nesting(comparison).map(|nesting| format!("nested {nesting}, unlike in {unlike:?}"));
    let mut met: Vec<String> = nested.into_iter().chain([format!("in {command}: {answer}")]).collect();
    if *unlike == Unlike::Itself {
        // nothing has to wait
        met.push(format!("itself in {command}{}", if *nodes > 1_000 { ", over 1,000 nodes" } else { "" }));
        return met;
    }
    if MIXED.iter().all(|tag| comparison.tags.contains(tag)) {
        met.push(format!("mixed: {answer}"));
    }
    let order = if in_the_encoders_order(image) { "the encoder's" } else { "another" };
    for (taken, waited) in ["first", "last"].into_iter().zip(comparison.waited) {
        met.push(format!("{waited} wait, {taken} child taken: {answer}"));
        for store in [32, 256].into_iter().filter(|store| waited > *store) {
            met.push(format!("over {store} wait in {order} order: {answer}"));
            met.push(format!("over {store} wait in {} nodes, {taken} child taken: {answer}", image.nodes.len()));
            met.push(format!("over {store} wait below node {}: {answer}", comparison.lower));
        }
    }
    met
}

/// All that must be met: every way to nest with everything in which bodies can be unlike, and with both answers the numbers
/// of pairs around the stores' limits, whichever child is taken first, the numbers of nodes, and the body's own.
fn wanted() -> Vec<String> {
    let mut wanted: Vec<String> = Vec::new();
    for nesting in ["to the left", "to the right", "either way", "evenly"] {
        for unlike in ["Itself", "Nothing", "FirstLeaf", "LastLeaf", "OneNode", "More"] {
            wanted.push(format!("nested {nesting}, unlike in {unlike}"));
        }
    }
    for command in ["if", "while"] {
        wanted.extend([format!("itself in {command}"), format!("itself in {command}, over 1,000 nodes")]);
    }
    for answer in ["yes", "no"] {
        wanted.extend(["in if", "in while", "mixed"].map(|what| format!("{what}: {answer}")));
        for store in [32, 256] {
            wanted.extend(["the encoder's", "another"].map(|o| format!("over {store} wait in {o} order: {answer}")));
        }
        wanted.extend([254, 256].map(|lower| format!("over 32 wait below node {lower}: {answer}")));
        for taken in ["first", "last"] {
            let taken = format!("{taken} child taken: {answer}");
            wanted.extend([16, 17, 31, 32, 33, 64, 65, 255, 256, 257].map(|waited| format!("{waited} wait, {taken}")));
            wanted.extend([2_047, 2_048].map(|nodes| format!("over 32 wait in {nodes} nodes, {taken}")));
        }
    }
    wanted
}

#[test]
fn long_bodies_are_compared() {
    let counts = Met::in_the_gates_cases(|case| {
        let Some(image) = Image::of_bytes(&case.script) else { return BTreeSet::new() };
        comparisons(&case.script, &case.choices).iter().flat_map(|comparison| met(comparison, &image)).collect()
    });
    counts.has_all(&wanted(), 3);
}
