//! Texts at the limits: just so many nodes, names or levels of nesting as there may be, or one more, or many more.

use super::tree::Wild;
use crate::assemble::{atom, sequence, skip, var, Branch};
use crate::random::Random;

/// A tree of exactly so many nodes, with something wild in it.
pub fn with_nodes(random: &mut Random, nodes: usize) -> Branch {
    let wild = random.below(nodes / 2);
    let mut tree = Wild { random, names: 5, fields: 0 }.command(wild);
    // what is wild is only about as large as it is asked to be
    if tree.nodes() > nodes {
        tree = skip();
    }
    while tree.nodes() + 2 <= nodes {
        tree = match random.below(3) {
            0 => sequence(skip(), tree),
            1 => sequence(tree, skip()),
            _ => atom(atom(tree)),
        };
    }
    if tree.nodes() < nodes {
        atom(tree)
    } else {
        tree
    }
}

/// A tree with so many names, the last declared innermost, with something wild in it.
pub fn with_names(random: &mut Random, names: u16) -> Branch {
    let inner = Wild { random, names, fields: 0 }.command(12);
    (0..names).rev().fold(inner, |tree, name| var(name, tree))
}

/// What opens, what is inside, what shuts.
const NESTS: [(&str, &str, &str); 13] = [
    ("(", "1", ")"),
    ("1 - (", "1", ")"),
    ("X.(", "X", ")"),
    ("(X.f - ", "1", ")"),
    ("{skip; ", "skip", "}"),
    ("{", "skip", "|| X = 1}"),
    ("atom(", "skip", ")"),
    ("var X; ", "skip", ""),
    ("while true ", "skip", ""),
    ("if X == (1) ", "skip", " else skip"),
    ("if true skip else ", "skip", ""),
    ("X = proc Y: ", "skip", ""),
    ("X.proc Y: ", "skip", " = 2"),
];

/// A text nested so many times, all in one manner or each time in any; now and then one thing that shuts is missing or there is one more.
pub fn nested(random: &mut Random, depth: usize) -> Vec<u8> {
    let groups = random.once_in(2);
    let nests = if groups { &NESTS[..4] } else { &NESTS[4..] };
    let one = random.pick(nests);
    let mixed = random.once_in(2);
    let levels: Vec<_> = (0..depth).map(|_| if mixed { random.pick(nests) } else { one }).collect();
    let mut text = String::from(if groups { "X = " } else { "" });
    text.extend(levels.iter().map(|(open, _, _)| *open));
    text += one.1;
    let shuts = levels.iter().rev().map(|(_, _, shut)| *shut);
    match random.below(4) {
        0 => text.extend(shuts.skip(1)),
        1 => text.extend(shuts.chain([one.2])),
        _ => text.extend(shuts),
    }
    text.into_bytes()
}
