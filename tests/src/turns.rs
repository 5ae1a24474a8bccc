//! The turns of a fair run, for the tests to see that the generated cases have what order 4 of document 02 is about. They are told from
//! the picks alone: a turn is over when no atom is entered.

use crate::independent::check::checked;
use crate::independent::control::Gardener;
use crate::independent::machine::{End, Machine};
use crate::independent::tree::CommandIs;
use crate::independent::turns::fair;
use crate::subject::SIZE;
use std::rc::Rc;

pub struct Turn {
    /// The position of the command that moved, and how many others there were.
    pub at: usize,
    pub others: usize,
    /// The steps, and of an atom's turn how many commands were movable inside at once, at most; of another's 0.
    pub steps: usize,
    pub movable_inside: usize,
    /// How many commands stand where the one stood that moved; none where the run ended before the turn did.
    pub left: Option<usize>,
    /// Whether the command ended with its step, so that those that are left waited after it.
    pub ended: bool,
}

impl Turn {
    pub fn is_atoms(&self) -> bool {
        self.movable_inside > 0
    }
}

pub struct Turns {
    pub turns: Vec<Turn>,
    pub end: End,
    pub steps: usize,
    pub picked: usize,
}

/// The turns of the fair run of an accepted script that picks at most so many choices. The step that stopped a run is of a turn too.
pub fn turns(script: &[u8], most: usize) -> Option<Turns> {
    let script = Rc::new(checked(script, SIZE, None).ok()?);
    let (finished, picks) = fair(&script, most, None);
    let (mut machine, _) = Machine::start(&script, None);
    let mut turns: Vec<Turn> = Vec::new();
    for &pick in &picks {
        let before = machine.control.clone().expect("no choice is picked after the end");
        if before.entered {
            let turn = turns.last_mut().expect("a turn entered the atom");
            turn.movable_inside = turn.movable_inside.max(before.movable);
        } else {
            let at = usize::from(pick);
            let (command, _) = Gardener { wrong: None }.find(&before, at);
            let ended = matches!(
                command.is,
                CommandIs::Malloc(..) | CommandIs::Assign(..) | CommandIs::FieldAssign(..) | CommandIs::Skip
            );
            let others = before.movable - 1;
            turns.push(Turn { at, others, steps: 0, movable_inside: 0, left: None, ended });
        }
        if machine.step(pick).is_ok() {
            let turn = turns.last_mut().expect("the step is of a turn");
            turn.steps += 1;
            let entered = machine.control.as_ref().is_some_and(|control| control.entered);
            turn.left = (!entered).then(|| machine.movable() - turn.others);
        }
    }
    Some(Turns { turns, end: finished.end, steps: finished.steps, picked: picks.len() })
}
