//! Scripts that come close to the limits: 1,024 frames, 256 objects, 255 parts.

use super::grow::{Grower, Sort};
use crate::assemble::*;

/// Recursion that ends for room 1, or for an argument that leaves 32 bits where frames run out, with something done on the way.
pub fn calls_without_end(grower: &mut Grower) -> Branch {
    grower.budget = grower.random.below(20);
    grower.slips = 10_000;
    let name = grower.name();
    let formal = grower.names;
    grower.names += 1;
    let body = grower.under(name, Sort::Proc, |grower| {
        grower.under(formal, Sort::Int, |grower| {
            let argument = match grower.random.below(3) {
                0 => variable(formal),
                _ => difference(variable(formal), integer(1)),
            };
            let again = call(variable(name), argument);
            let work = grower.command();
            match grower.random.below(6) {
                0 => again,
                1 => sequence(work, again),
                2 => parallel(again, work),
                3 => atom(again),
                4 => choose(less(variable(formal), integer(-1_020)), work, again),
                _ => sequence(again, work),
            }
        })
    });
    // From the lowest number and 1,022 the call that would leave 32 bits is the one for which there is no frame.
    let start = grower.random.pick(&[0, 0, i32::MIN + 1_021, i32::MIN + 1_022, i32::MIN + 1_022, i32::MIN + 1_023]);
    var(name, sequence(assign(name, proc(formal, body)), call(variable(name), integer(start))))
}

/// A loop that ends for room 1 or 2.
pub fn frames_or_objects_without_end(grower: &mut Grower) -> Branch {
    grower.budget = grower.random.below(12);
    grower.slips = 10_000;
    let name = grower.name();
    let inner = grower.under(name, Sort::Object, |grower| {
        let work = grower.command();
        match grower.random.below(6) {
            0 => malloc(name),
            1 => sequence(malloc(name), work),
            2 => parallel(malloc(name), work),
            3 => atom(sequence(work, malloc(name))),
            4 => var(grower.name(), skip()),
            _ => var(grower.name(), work),
        }
    });
    if !grower.random.once_in(4) {
        return var(name, sequence(malloc(name), repeat(constant(true), inner)));
    }
    // The first object is kept and compared with each newer one.
    let first = grower.names;
    grower.names += 1;
    let compare = choose(equal(variable(name), variable(first)), skip(), inner);
    let newer = var(name, repeat(constant(true), sequence(malloc(name), compare)));
    var(first, sequence(malloc(first), newer))
}

/// Control of about 255 parts, at the start or later; or it would be, if what is stored in the same step didn't fault.
pub fn wide(grower: &mut Grower) -> Branch {
    let parts = grower.random.within(246, 258);
    let leaning = grower.random.below(4);
    let name = grower.name();
    grower.visible.push((name, Sort::Int));
    let command = of_parts(grower, parts, leaning);
    let inner = match grower.random.below(10) {
        0 => sequence(skip(), command),
        1 => choose(constant(true), command, skip()),
        2 => repeat(constant(true), command),
        3 => atom(command),
        4 => call(proc(grower.name(), command), null()),
        5 => parallel(sequence(skip(), command), skip()),
        6 => call(proc(grower.name(), command), grower.faulty()),
        7 => {
            let store = field_assign(variable(name), grower.literal(Sort::Field), grower.faulty());
            sequence(malloc(name), sequence(store, command))
        }
        _ => command,
    };
    grower.visible.pop();
    match grower.random.below(3) {
        0 => var(name, inner),
        1 => var(name, sequence(assign(name, integer(1)), inner)),
        _ => call(proc(name, inner), integer(1)),
    }
}

/// A command that is opened into so many parts.
fn of_parts(grower: &mut Grower, parts: usize, leaning: usize) -> Branch {
    if parts < 2 {
        grower.budget = grower.random.pick(&[0, 0, 0, 0, 0, 6]);
        return if grower.random.once_in(2) { skip() } else { grower.command() };
    }
    if parts == 2 || (leaning == 0) || (leaning == 1 && grower.random.once_in(2)) {
        grower.budget = grower.random.pick(&[0, 0, 0, 0, 0, 6]);
        let waiting = grower.command();
        return sequence(of_parts(grower, parts - 1, leaning), waiting);
    }
    let left = match leaning {
        1 => parts - 2,
        2 => 1,
        _ => grower.random.within(1, parts - 2),
    };
    parallel(of_parts(grower, left, leaning), of_parts(grower, parts - 1 - left, leaning))
}

/// Frames or objects made up to the limit or nearly so, and then commands that may want more, or fault.
pub fn to_the_brim(grower: &mut Grower) -> Branch {
    grower.budget = grower.random.below(12);
    let (name, counter) = (grower.name(), grower.names);
    grower.names += 1;
    if grower.random.once_in(2) {
        // One frame for the name and one for each call, the last of which has the counter 0.
        let depth = grower.random.within(1_018, 1_023) as i32;
        let last = grower.under(name, Sort::Proc, |grower| grower.under(counter, Sort::Object, pressed));
        let again = call(variable(name), difference(variable(counter), integer(1)));
        let body = choose(less(variable(counter), integer(1)), last, again);
        return var(name, sequence(assign(name, proc(counter, body)), call(variable(name), integer(depth))));
    }
    let count = grower.random.within(253, 256) as i32;
    let last = grower.under(name, Sort::Object, pressed);
    let round = sequence(malloc(name), assign(counter, difference(variable(counter), integer(1))));
    let fill = repeat(less(integer(0), variable(counter)), round);
    var(counter, sequence(assign(counter, integer(count)), var(name, sequence(fill, last))))
}

/// A few commands that want a frame or an object, or fault before they do.
fn pressed(grower: &mut Grower) -> Branch {
    let mut commands = grower.command();
    for _ in 0..grower.random.within(1, 3) {
        let (name, object) = (grower.name(), grower.name_of(Sort::Object));
        let next = match grower.random.below(9) {
            0 => call(null(), integer(0)),
            1 => call(grower.faulty(), integer(0)),
            2 => call(proc(name, skip()), grower.faulty()),
            3 => grower.faulty_call(),
            4 => grower.faulty_field_assignment(),
            5 => atom(sequence(grower.faulty_call(), skip())),
            6 => var(name, skip()),
            _ => object.map_or_else(skip, malloc),
        };
        commands = if grower.random.once_in(2) { sequence(next, commands) } else { parallel(next, commands) };
    }
    commands
}
