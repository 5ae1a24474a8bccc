//! Choices: a run is played on the independent interpreter, so that most choices are in range, in one of several manners. And how many
//! a fair run may pick.

use crate::independent::check::checked;
use crate::independent::machine::Machine;
use crate::independent::turns::fair;
use crate::random::Random;
use crate::subject::SIZE;
use std::rc::Rc;

/// How the next movable command is picked.
#[derive(Clone, Copy)]
enum Manner {
    First,
    Last,
    Any,
    InTurn,
    MostlyFirst,
}

/// Choices for a script; where it is worth it, most of the time as many as it takes to get far.
pub fn choices(random: &mut Random, script: &[u8], far: bool) -> Vec<u8> {
    let mut choices = Vec::new();
    if let Ok(script) = checked(script, SIZE, None) {
        let manner =
            random.pick(&[Manner::First, Manner::Last, Manner::Any, Manner::Any, Manner::InTurn, Manner::MostlyFirst]);
        let patient = far && !random.once_in(4);
        let most = if patient { 4_000 } else { random.pick(&[0, 1, 5, 20, 60, 200, 600, 1_200, 3_000]) };
        let careless = if patient { 100_000 } else { random.pick(&[20, 300, 3_000, 100_000, 100_000]) };
        let (mut machine, mut stop) = Machine::start(&Rc::new(script), None);
        while stop.is_none() && choices.len() < most {
            let choice = picked(random, manner, choices.len(), machine.movable(), careless);
            choices.push(choice);
            stop = machine.step(choice).err();
        }
        if stop.is_none() {
            return choices;
        }
        if random.once_in(4) {
            // Just enough to be done, or the choice is missing whose step would have faulted or found no room.
            choices.pop();
            return choices;
        }
    }
    // The run has ended, or there is none: what follows must not be read.
    for _ in 0..random.below(4) {
        choices.push(random.next() as u8);
    }
    choices
}

fn picked(random: &mut Random, manner: Manner, step: usize, movable: usize, careless: usize) -> u8 {
    if movable == 0 {
        return 0;
    }
    if random.once_in(careless) {
        return random.pick(&[movable, movable + 1, 2 * movable, 255]).min(255) as u8;
    }
    let position = match manner {
        Manner::First => 0,
        Manner::Last => movable - 1,
        Manner::Any => random.below(movable),
        Manner::InTurn => step % movable,
        Manner::MostlyFirst => random.below(movable) * random.below(2) * random.below(2),
    };
    position as u8
}

/// The length of a list for the picks of a fair run: any, or just so many as it picks until it is over, one less or a few more.
pub fn room_for_picks(random: &mut Random, script: &[u8]) -> usize {
    let any = random.pick(&[0, 1, 2, 3, 7, 20, 60, 200, 600, 1_200, 3_000, 4_096]);
    match checked(script, SIZE, None) {
        Ok(script) if random.once_in(2) => {
            let (_, picks) = fair(&Rc::new(script), any, None);
            [picks.len(), picks.len().saturating_sub(1), picks.len() + random.below(10)][random.below(3)]
        }
        _ => any,
    }
}
