//! Refused scripts (document 01), in the fixed order: 10, 1, 2, 3, 4, then 5, 6 and 7 node by node, then 8, then 9.

use super::scope::lowest_stray;
use super::tree::{tree, Command};
use super::Wrong;
use crate::image::{children, kind, row, Kind, Node, Word};
use crate::subject::{Refusal, Verdict, SIZE};
use std::rc::Rc;

/// An accepted script.
pub struct Script {
    pub codes: Vec<u16>,
    pub root: Rc<Command>,
}

fn refused<T>(number: u32, place: usize) -> Result<T, Refusal> {
    Err(Refusal { number, place: place as u32 })
}

pub fn checked(script: &[u8], workspace_words: usize, wrong: Option<Wrong>) -> Result<Script, Refusal> {
    if workspace_words < SIZE {
        return refused(10, 0);
    }
    if script.len() < 10 {
        return refused(1, 0);
    }
    let word = |i: usize| u16::from_le_bytes([script[2 * i], script[2 * i + 1]]);
    let (fields, nodes, names) = (usize::from(word(1)), usize::from(word(3)), word(4));
    let starts = word(0) == 10 && usize::from(word(2)) == 10 + 2 * fields;
    if !(starts && fields <= 16 && (1..=2_048).contains(&nodes) && names <= 128) {
        return refused(2, 0);
    }
    if script.len() != 10 + 2 * fields + 8 * nodes {
        return refused(3, 0);
    }
    let codes: Vec<u16> = (0..fields).map(|i| word(5 + i)).collect();
    let nodes: Vec<Node> = (0..nodes).map(|n| [0, 1, 2, 3].map(|i| word(5 + fields + 4 * n + i))).collect();
    rising(&codes)?;
    for number in 0..nodes.len() {
        well_formed(&nodes, number, fields, names)?;
    }
    used_once(&nodes)?;
    let root = tree(&nodes);
    match lowest_stray(&root, wrong == Some(Wrong::MissingNameIsFrameZero)) {
        Some(node) => refused(9, node),
        None => Ok(Script { codes, root }),
    }
}

/// Refusal 4. Zero is below every code, so "above the one before, or above zero" says both halves of the rule.
fn rising(codes: &[u16]) -> Verdict {
    let mut before = 0;
    for (position, &code) in codes.iter().enumerate() {
        if code <= before {
            return refused(4, position);
        }
        before = code;
    }
    Ok(())
}

/// Refusals 5, 6 and 7 at one node.
fn well_formed(nodes: &[Node], number: usize, fields: usize, names: u16) -> Verdict {
    let [tag, operands @ ..] = nodes[number];
    let Some(row) = row(tag) else { return refused(5, number) };
    if row.iter().zip(operands).any(|(is, word)| *is == Word::Unused && word != 0) {
        return refused(6, number);
    }
    let fits = |(is, word): (&Word, u16)| match is {
        Word::Unused | Word::Half => true,
        Word::Name => word < names,
        Word::Field => (1..=fields).contains(&usize::from(word)),
        Word::Child(kind_of_child) => {
            usize::from(word) < number && kind(nodes[usize::from(word)][0]) == Some(*kind_of_child)
        }
    };
    if !row.iter().zip(operands).all(fits) {
        return refused(7, number);
    }
    Ok(())
}

/// Refusal 8. The root is above all other nodes and so is no child; only its kind is asked.
fn used_once(nodes: &[Node]) -> Verdict {
    let mut uses = vec![0; nodes.len()];
    for child in nodes.iter().copied().flat_map(children) {
        uses[child] += 1;
    }
    let root = nodes.len() - 1;
    if let Some(node) = uses[..root].iter().position(|&count| count != 1) {
        return refused(8, node);
    }
    if kind(nodes[root][0]) != Some(Kind::Command) {
        return refused(8, root);
    }
    Ok(())
}
