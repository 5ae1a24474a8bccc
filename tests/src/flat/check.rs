//! The check: one pass over the nodes for refusals 5 to 8, and one for refusal 9, outward in.

use super::tag::{self, COMMAND, EXPRESSION, TEST};
use super::word::{Node, Nodes};
use crate::subject::{Refusal, Verdict};

/// The most nodes of a script.
const NODES: usize = 2_048;

/// An accepted script.
pub struct Script<'a> {
    pub fields: usize,
    pub nodes: Nodes<'a>,
}

pub fn refused<T>(number: u32, place: usize) -> Result<T, Refusal> {
    Err(Refusal { number, place: place as u32 })
}

/// All refusals but 10.
pub fn checked(script: &[u8]) -> Result<Script<'_>, Refusal> {
    let Some((contents, bodies)) = script.split_first_chunk::<10>() else { return refused(1, 0) };
    let [first, fields, second, count, names] = [0, 2, 4, 6, 8].map(|at| half_word(&contents[at..]));
    let counts = fields <= 16 && (1..=NODES).contains(&count) && names <= 128;
    if !counts || first != 10 || second != 10 + 2 * fields {
        return refused(2, 0);
    }
    if bodies.len() != 2 * fields + 8 * count {
        return refused(3, 0);
    }
    let (codes, nodes) = bodies.split_at(2 * fields);
    rising(codes)?;
    let nodes = Nodes(nodes.as_chunks().0);
    nodes_fit(nodes, fields, names)?;
    match lowest_stray(nodes, count - 1, 0, count) {
        stray if stray < count => refused(9, stray),
        _ => Ok(Script { fields, nodes }),
    }
}

fn half_word(bytes: &[u8]) -> usize {
    usize::from(bytes[0]) | usize::from(bytes[1]) << 8
}

/// Refusal 4.
fn rising(codes: &[u8]) -> Verdict {
    let mut before = 0;
    for (position, code) in codes.chunks_exact(2).map(half_word).enumerate() {
        if code <= before {
            return refused(4, position);
        }
        before = code;
    }
    Ok(())
}

/// Refusals 5, 6 and 7 node by node, then 8.
fn nodes_fit(nodes: Nodes, fields: usize, names: usize) -> Verdict {
    let mut uses = [0u8; NODES];
    let root = nodes.0.len() - 1;
    for number in 0..=root {
        let node = nodes.at(number);
        match UNUSED.get(node.tag()) {
            None | Some(&NO_TAG) => return refused(5, number),
            Some(&unused) if node.has(unused) => return refused(6, number),
            Some(_) => {}
        }
        // Every node below has passed, so its tag is one and has a kind.
        let child = |child: usize, kind: usize| {
            let uses = &mut uses[child % NODES];
            *uses = uses.saturating_add(1);
            child < number && tag::kind(nodes.at(child).tag()) == kind
        };
        if !words_fit(node, fields, names, child) {
            return refused(7, number);
        }
    }
    // Without a stop at the first wrong one many are looked at at once.
    if !uses[..root].iter().fold(true, |all, uses| all & (*uses == 1)) {
        let lowest = uses[..root].iter().position(|uses| *uses != 1);
        return refused(8, lowest.unwrap_or(root));
    }
    if tag::kind(nodes.at(root).tag()) != COMMAND {
        return refused(8, root);
    }
    Ok(())
}

const ABC: u64 = u64::MAX << 16;
const BC: u64 = u64::MAX << 32;
const C: u64 = u64::MAX << 48;
const NONE: u64 = 0;
const NO_TAG: u64 = u64::MAX;

/// By tag the bits of the words that its row doesn't list.
const UNUSED: [u64; 43] = {
    let rows = [
        (tag::FIELD, BC),
        (tag::INTEGER, C),
        (tag::DIFFERENCE, C),
        (tag::NULL, ABC),
        (tag::VARIABLE, BC),
        (tag::SELECTION, C),
        (tag::PROC, C),
        (tag::TRUE, ABC),
        (tag::FALSE, ABC),
        (tag::EQUAL, C),
        (tag::LESS, C),
        (tag::VAR, C),
        (tag::CALL, C),
        (tag::MALLOC, BC),
        (tag::ASSIGN, C),
        (tag::FIELD_ASSIGN, NONE),
        (tag::SKIP, ABC),
        (tag::SEQUENCE, C),
        (tag::WHILE, C),
        (tag::IF, NONE),
        (tag::PARALLEL, C),
        (tag::ATOM, BC),
    ];
    let mut unused = [NO_TAG; 43];
    let mut row = 0;
    while row < rows.len() {
        unused[rows[row].0] = rows[row].1;
        row += 1;
    }
    unused
};

/// Refusal 7 at one node, where `child` says whether a child is below and of the kind.
fn words_fit(node: Node, fields: usize, names: usize, mut child: impl FnMut(usize, usize) -> bool) -> bool {
    let (a, b, c) = (node.a(), node.b(), node.c());
    match node.tag() {
        tag::FIELD => (1..=fields).contains(&a),
        tag::VARIABLE | tag::MALLOC => a < names,
        tag::DIFFERENCE | tag::SELECTION | tag::EQUAL | tag::LESS | tag::CALL => {
            child(a, EXPRESSION) && child(b, EXPRESSION)
        }
        tag::PROC | tag::VAR => a < names && child(b, COMMAND),
        tag::ASSIGN => a < names && child(b, EXPRESSION),
        tag::FIELD_ASSIGN => child(a, EXPRESSION) && child(b, EXPRESSION) && child(c, EXPRESSION),
        tag::SEQUENCE | tag::PARALLEL => child(a, COMMAND) && child(b, COMMAND),
        tag::WHILE => child(a, TEST) && child(b, COMMAND),
        tag::IF => child(a, TEST) && child(b, COMMAND) && child(c, COMMAND),
        tag::ATOM => child(a, COMMAND),
        _ => true,
    }
}

/// Refusal 9: the lowest node at or under this one that uses a name where it isn't visible, or `lowest` where that is lower.
fn lowest_stray(nodes: Nodes, mut number: usize, mut visible: u128, mut lowest: usize) -> usize {
    let under = |child: usize, visible: u128, lowest: usize| {
        if NAMELESS_LEAF >> nodes.at(child).tag() & 1 == 1 {
            return lowest;
        }
        lowest_stray(nodes, child, visible, lowest)
    };
    loop {
        let node = nodes.at(number);
        let (a, b, c) = (node.a(), node.b(), node.c());
        if matches!(node.tag(), tag::VARIABLE | tag::MALLOC | tag::ASSIGN) && visible >> a & 1 == 0 {
            lowest = lowest.min(number);
        }
        number = match node.tag() {
            tag::PROC | tag::VAR => {
                visible |= 1 << a;
                b
            }
            tag::ASSIGN => b,
            tag::DIFFERENCE
            | tag::SELECTION
            | tag::EQUAL
            | tag::LESS
            | tag::CALL
            | tag::SEQUENCE
            | tag::WHILE
            | tag::PARALLEL => {
                lowest = under(a, visible, lowest);
                b
            }
            tag::FIELD_ASSIGN | tag::IF => {
                lowest = under(a, visible, lowest);
                lowest = under(b, visible, lowest);
                c
            }
            tag::ATOM => a,
            _ => return lowest,
        }
    }
}

/// By tag whether a node has neither a name nor a child: such a one needs no call.
const NAMELESS_LEAF: u64 =
    1 << tag::FIELD | 1 << tag::INTEGER | 1 << tag::NULL | 1 << tag::TRUE | 1 << tag::FALSE | 1 << tag::SKIP;
