//! What a run compares: the two procedures of each test of equality that is made of two with one chain, for the tests to see that
//! the generated cases have what order 3 of document 02 is about.

use crate::independent::alike::{compared, Own, Part, Taken};
use crate::independent::check::checked;
use crate::independent::control::Gardener;
use crate::independent::eval::Eval;
use crate::independent::machine::Machine;
use crate::independent::store::Value;
use crate::independent::tree::{Command, CommandIs, Proc, TestIs};
use crate::subject::SIZE;
use std::collections::BTreeSet;
use std::rc::Rc;

/// In what two bodies are unlike.
#[derive(Clone, Copy, Debug, PartialEq, Eq)]
pub enum Unlike {
    /// It is one procedure.
    Itself,
    Nothing,
    FirstLeaf,
    LastLeaf,
    /// One node that is neither.
    OneNode,
    More,
}

pub struct Comparison {
    pub alike: bool,
    pub unlike: Unlike,
    /// Whether the command that compares is `while`; else it is `if`.
    pub in_a_loop: bool,
    /// The nodes of the first body, and how many there are from its root to the deepest one.
    pub nodes: usize,
    pub depth: usize,
    /// The lower of the two bodies' node numbers.
    pub lower: usize,
    /// The tags in the first body.
    pub tags: BTreeSet<u16>,
    /// The most pairs that wait at once, where first children are taken first and where last ones are.
    pub waited: [usize; 2],
    /// The same of the first body compared to its end.
    pub would_wait: [usize; 2],
}

/// The nodes of a body, parents before children, left before right, each with the number of its children.
fn nodes(body: &Command) -> Vec<(Own, usize)> {
    let (mut nodes, mut open) = (Vec::new(), vec![Part::Command(body)]);
    while let Some(part) = open.pop() {
        let (own, children) = part.opened();
        nodes.push((own, children.len()));
        open.extend(children.into_iter().rev());
    }
    nodes
}

fn depth(body: &Command) -> usize {
    let (mut depth, mut level) = (0, vec![Part::Command(body)]);
    while !level.is_empty() {
        depth += 1;
        level = level.into_iter().flat_map(|part| part.opened().1).collect();
    }
    depth
}

fn unlike(one: &[(Own, usize)], other: &[(Own, usize)]) -> Unlike {
    let arity = |nodes: &[(Own, usize)]| nodes.iter().map(|(_, children)| *children).collect::<Vec<_>>();
    let places: Vec<usize> = (0..one.len().min(other.len())).filter(|&place| one[place].0 != other[place].0).collect();
    match places[..] {
        _ if arity(one) != arity(other) => Unlike::More,
        [] => Unlike::Nothing,
        [place] if place + 1 == one.len() => Unlike::LastLeaf,
        [place] if Some(place) == one.iter().position(|(_, children)| *children == 0) => Unlike::FirstLeaf,
        [_] => Unlike::OneNode,
        _ => Unlike::More,
    }
}

fn comparison(a: &Proc, b: &Proc, in_a_loop: bool) -> Comparison {
    let (one, other) = (nodes(&a.body), nodes(&b.body));
    let by_pairs = |a: &Proc, b: &Proc| {
        [Taken::First, Taken::Last].map(|taken| compared(Part::Command(&a.body), Part::Command(&b.body), taken, None))
    };
    let alike = a.body == b.body;
    let walks = by_pairs(a, b);
    assert!(walks.iter().all(|walk| walk.alike == alike), "pair by pair the answer is the same");
    Comparison {
        alike: alike && a.formal == b.formal,
        unlike: if a.at.0 == b.at.0 { Unlike::Itself } else { unlike(&one, &other) },
        in_a_loop,
        nodes: one.len(),
        depth: depth(&a.body),
        lower: usize::from(a.body.at.0.min(b.body.at.0)),
        tags: one.iter().map(|((tag, _), _)| *tag).collect(),
        waited: walks.map(|walk| walk.waited),
        would_wait: by_pairs(a, a).map(|walk| walk.waited),
    }
}

/// The comparisons of a run, each two nodes once.
pub fn comparisons(script: &[u8], choices: &[u8]) -> Vec<Comparison> {
    let Ok(script) = checked(script, SIZE, None) else { return Vec::new() };
    let (mut machine, _) = Machine::start(&Rc::new(script), None);
    let (mut seen, mut made) = (BTreeSet::new(), Vec::new());
    for &choice in choices {
        let Some(tree) = machine.control.as_ref().filter(|tree| usize::from(choice) < tree.movable) else { break };
        let (command, chain) = Gardener { wrong: None }.find(tree, usize::from(choice));
        if let CommandIs::If(test, ..) | CommandIs::While(test, _) = &command.is {
            if let TestIs::Equal(a, b) = &test.is {
                let eval = Eval { store: &machine.store, chain: &chain, wrong: None };
                if let (Ok(Value::Proc(a, of_a)), Ok(Value::Proc(b, of_b))) = (eval.exp(a), eval.exp(b)) {
                    if of_a.frame() == of_b.frame() && seen.insert((a.at.0, b.at.0)) {
                        made.push(comparison(&a, &b, matches!(command.is, CommandIs::While(..))));
                    }
                }
            }
        }
        if machine.step(choice).is_err() {
            break;
        }
    }
    made
}
