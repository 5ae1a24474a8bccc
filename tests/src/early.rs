//! Variables that a run reads before they are set, or just in time, for the tests to see that the generated cases have what order 5 of
//! document 02 is about.

use crate::image::{children, Image};
use crate::independent::check::checked;
use crate::independent::control::{Gardener, Tree, TreeIs};
use crate::independent::eval::{Fault, UNSET};
use crate::independent::machine::{End, Machine};
use crate::independent::store::{Chain, Value, FRAMES};
use crate::independent::tree::{Command, CommandIs};
use crate::subject::SIZE;
use std::collections::BTreeSet;
use std::rc::Rc;

const GARDENER: Gardener = Gardener { wrong: None };

/// The places in which a variable is read, by the tag of the node above it and its place among that node's children.
pub const PLACES: [(u16, usize, &str); 14] = [
    (3, 0, "left of minus"),
    (3, 1, "right of minus"),
    (6, 0, "selected object"),
    (6, 1, "selecting field"),
    (18, 0, "left of equal"),
    (18, 1, "right of equal"),
    (19, 0, "left of less"),
    (19, 1, "right of less"),
    (33, 0, "callee"),
    (33, 1, "argument"),
    (35, 0, "right side"),
    (36, 0, "object assigned in"),
    (36, 1, "field assigned to"),
    (36, 2, "right side of field"),
];

/// Where a variable's node stands, and for an operand of a test also under which command.
fn place(image: &Image, node: usize) -> String {
    let parents = image.parents();
    let (above, tag) = (parents[node], |node: usize| image.nodes[node][0]);
    let at = children(image.nodes[above]).position(|child| child == node);
    let known = PLACES.iter().find(|(parent, child, _)| *parent == tag(above) && Some(*child) == at);
    let (_, _, place) = known.expect("an expression stands in one of the places");
    match (tag(above), tag(parents[above])) {
        (18 | 19, 39) => format!("{place} in while"),
        (18 | 19, _) => format!("{place} in if"),
        _ => place.to_string(),
    }
}

/// The unset cell that a command sets, if it does.
fn sets(machine: &Machine, command: &Command, chain: &Chain) -> Option<usize> {
    let (CommandIs::Assign(name, _) | CommandIs::Malloc(name)) = &command.is else { return None };
    chain.cell(*name).filter(|cell| matches!(machine.store.frames[*cell].cell, Value::Unset))
}

fn movable(control: &Rc<Tree>) -> Vec<Rc<Tree>> {
    let mut movable = Vec::new();
    GARDENER.movable(control, &mut movable);
    movable
}

/// What is met at the end, where fault 8 stopped the command at the position.
fn met_at_the_end(machine: &Machine, image: &Image, position: usize, node: usize) -> Vec<String> {
    let control = machine.control.as_ref().expect("a step was to be taken");
    let (_, chain) = GARDENER.find(control, position);
    let cell = chain.cell(usize::from(image.nodes[node][1]));
    let sets_it = |part: &Rc<Tree>| match &part.is {
        TreeIs::Command(command, chain) => sets(machine, command, chain) == cell,
        _ => false,
    };
    let place = place(image, node);
    let conditions = [
        (movable(control).iter().any(sets_it), "too early beside a branch that sets it"),
        (control.entered, "too early in an atom"),
        (place == "argument" && machine.store.frames.len() == FRAMES, "argument with every frame used"),
    ];
    let met = conditions.into_iter().filter(|(holds, _)| *holds).map(|(_, what)| what.to_string());
    met.chain([place]).collect()
}

/// What is met in a run.
pub fn early(script: &[u8], choices: &[u8]) -> BTreeSet<String> {
    let mut met = BTreeSet::new();
    let (Some(image), Ok(script)) = (Image::of_bytes(script), checked(script, SIZE, None)) else { return met };
    let (mut machine, _) = Machine::start(&Rc::new(script), None);
    // the commands that would have stopped with fault 8 when another branch set a variable
    let mut saved: Vec<Rc<Tree>> = Vec::new();
    for &choice in choices {
        let position = usize::from(choice);
        let Some(control) = machine.control.clone().filter(|control| position < control.movable) else { break };
        let (command, chain) = GARDENER.find(&control, position);
        if control.movable > 1 && sets(&machine, &command, &chain).is_some() {
            let too_early = |at: usize| machine.fault(at as u8).is_some_and(|fault| fault.number == UNSET);
            let others = movable(&control).into_iter().enumerate().filter(|(at, _)| *at != position && too_early(*at));
            saved.extend(others.map(|(_, part)| part));
        }
        let part = (!saved.is_empty()).then(|| movable(&control).swap_remove(position));
        match machine.step(choice) {
            Ok(_) => {
                let in_time = part.is_some_and(|part| saved.iter().any(|saved| Rc::ptr_eq(saved, &part)));
                met.extend(in_time.then(|| "in time beside a branch that sets it".to_string()));
            }
            Err(End::Fault(Fault { number: UNSET, node })) => {
                met.extend(met_at_the_end(&machine, &image, position, node));
                break;
            }
            Err(_) => break,
        }
    }
    let unset = machine.store.frames.iter().any(|frame| matches!(frame.cell, Value::Unset));
    met.extend((machine.control.is_none() && unset).then(|| "done with an unset cell".to_string()));
    met
}
