//! Branches that wait for each other, for turns taken fairly (order 4 of document 02): loops, atoms in loops, forks, branches that end in
//! the same round, sequences after parallels; a few of them, or about as many as control has room for.

use super::grow::{Grower, Sort};
use crate::assemble::*;

/// Several branches side by side, at the start or later, with something after them or not.
pub fn branches(grower: &mut Grower) -> Branch {
    grower.slips = grower.random.pick(&[5, 60, 10_000]);
    let name = grower.name();
    if grower.random.once_in(6) {
        return without_end(grower, name);
    }
    let declared = grower.random.once_in(2);
    let inner = |grower: &mut Grower| {
        let first = if grower.random.once_in(3) { abreast(grower) } else { few(grower, 3) };
        match grower.random.below(4) {
            0 => sequence(first, few(grower, 1)),
            _ => first,
        }
    };
    if declared {
        let sort = grower.random.pick(&[Sort::Int, Sort::Object]);
        grower.declared(name, sort, inner)
    } else {
        inner(grower)
    }
}

/// Calls without end, beside each other or not: control is full, or the frames are.
fn without_end(grower: &mut Grower, name: u16) -> Branch {
    let formal = grower.names;
    grower.names += 1;
    let again = || call(variable(name), variable(formal));
    let body = match grower.random.below(7) {
        0..=1 => again(),
        2 => parallel(again(), again()),
        3 => parallel(again(), skip()),
        4 => parallel(again(), repeat(constant(true), skip())),
        5 => sequence(parallel(skip(), skip()), again()),
        _ => parallel(skip(), sequence(atom(inside(grower)), again())),
    };
    let calls = sequence(assign(name, proc(formal, body)), call(variable(name), null()));
    match grower.random.below(4) {
        0 => parallel(few(grower, 1), var(name, calls)),
        1 => var(name, parallel(calls, few(grower, 1))),
        2 => var(name, parallel(atom(calls), few(grower, 1))),
        _ => var(name, calls),
    }
}

/// Two to five branches, each of several commands.
fn few(grower: &mut Grower, depth: usize) -> Branch {
    let count = grower.random.within(2, 5);
    if grower.random.once_in(4) {
        // all alike, so that they end in the same round
        let one = branch(grower, depth);
        return side_by_side(grower, count, &mut |_| one.clone());
    }
    side_by_side(grower, count, &mut |grower| branch(grower, depth))
}

/// Many branches of a few commands, about as many as control has room for or half of it.
fn abreast(grower: &mut Grower) -> Branch {
    let count = grower.random.pick(&[12, 40, 64, 65, 85, 86, 127, 128, 128, 128, 129]);
    let form = grower.random.below(6);
    side_by_side(grower, count, &mut |grower| {
        let form = if form == 5 { grower.random.below(5) } else { form };
        match form {
            0 => skip(),
            1 => repeat(constant(true), skip()),
            2 => atom(skip()),
            _ => var(grower.name(), skip()),
        }
    })
}

/// So many branches, as a tree of any shape.
fn side_by_side(grower: &mut Grower, count: usize, make: &mut dyn FnMut(&mut Grower) -> Branch) -> Branch {
    if count < 2 {
        return make(grower);
    }
    let left = match grower.random.below(3) {
        0 => 1,
        1 => count - 1,
        _ => grower.random.within(1, count - 1),
    };
    parallel(side_by_side(grower, left, make), side_by_side(grower, count - left, make))
}

fn branch(grower: &mut Grower, depth: usize) -> Branch {
    let deeper = depth.saturating_sub(1);
    let form = if depth == 0 { grower.random.below(5) } else { grower.random.below(13) };
    match form {
        0 => row(grower),
        1 => repeat(constant(true), row(grower)),
        2 => repeat(constant(true), atom(inside(grower))),
        3 => atom(inside(grower)),
        4 => work(grower),
        5 => sequence(few(grower, deeper), few(grower, deeper)),
        6 => sequence(atom(inside(grower)), few(grower, deeper)),
        7 => repeat(constant(true), few(grower, deeper)),
        8 => sequence(row(grower), few(grower, deeper)),
        9 => {
            let name = grower.name();
            grower.declared(name, Sort::Int, |grower| few(grower, deeper))
        }
        10 => {
            let name = grower.name();
            let body = grower.under(name, Sort::Int, |grower| few(grower, deeper));
            call(proc(name, body), integer(1))
        }
        11 => choose(constant(grower.random.once_in(2)), few(grower, deeper), row(grower)),
        // frames or objects run out, with the others beside
        _ => {
            let name = grower.name();
            let made = if grower.random.once_in(2) { malloc(name) } else { var(name, skip()) };
            let made = if grower.random.once_in(3) { atom(made) } else { made };
            var(name, repeat(constant(true), made))
        }
    }
}

/// What an atom is around: commands in a row, side by side or both, an atom again, a short loop, or one without end.
fn inside(grower: &mut Grower) -> Branch {
    match grower.random.below(12) {
        0 => skip(),
        1..=3 => row(grower),
        4..=5 => parallel(row(grower), row(grower)),
        6..=7 => sequence(parallel(row(grower), skip()), row(grower)),
        8 => atom(parallel(row(grower), row(grower))),
        9 => work(grower),
        10 => {
            let (name, rounds) = (grower.names, grower.random.below(6) as i32);
            grower.names += 1;
            let down = assign(name, difference(variable(name), integer(1)));
            let count = repeat(less(integer(0), variable(name)), down);
            var(name, sequence(assign(name, integer(rounds)), count))
        }
        _ => repeat(constant(true), row(grower)),
    }
}

/// A few skips one after another.
fn row(grower: &mut Grower) -> Branch {
    (0..grower.random.below(4)).fold(skip(), |rest, _| sequence(skip(), rest))
}

fn work(grower: &mut Grower) -> Branch {
    grower.budget = grower.random.below(12);
    grower.command()
}
