//! Whole scripts, by theme: grown at random, close to the limits, deep, with long procedures and long bodies to compare, with a fault in
//! an argument or a right side, with branches that wait for each other, with variables that are read before they are set.

use super::bodies::long_bodies;
use super::branches::branches;
use super::grow::{Grower, Sort};
use super::limits::{calls_without_end, frames_or_objects_without_end, to_the_brim, wide};
use super::unset::unset;
use crate::assemble::*;
use crate::image::{children, row, Image, Word};
use crate::random::Random;

pub const MOST_NODES: usize = 2_048;
const MOST_NAMES: u16 = 128;

/// A well-formed script, and whether it takes many steps to get where it is interesting.
pub struct Themed {
    pub image: Image,
    pub far: bool,
}

/// A script whose nodes stand in any order that has children below parents.
pub fn script(random: &mut Random) -> Themed {
    let names = random.within(1, 5) as u16;
    let fields = random.pick(&[0, 1, 2, 4, 4, 8, 16]);
    let weights = [0; 13].map(|_| random.pick(&[0, 1, 1, 3, 8]));
    let budget = random.pick(&[6, 12, 25, 40, 60, 90, 150, 400]);
    let slips = random.pick(&[5, 20, 60, 200]);
    let all = if weights.iter().all(|&weight| weight == 0) { [1; 13] } else { weights };
    let grower = &mut Grower { random, names, fields, visible: Vec::new(), budget, weights: all, slips };
    let theme = grower.random.below(27);
    let far = matches!(theme, 0 | 1 | 4 | 8 | 9 | 11..=14 | 18..=19);
    let root = match theme {
        0 => calls_without_end(grower),
        1 => frames_or_objects_without_end(grower),
        2..=3 => wide(grower),
        4 => long_chain(grower),
        5 => long_procedures(grower),
        6..=7 => atoms(grower),
        8 => deep(grower),
        9 => to_the_brim(grower),
        10 => faulting(grower),
        11..=14 => long_bodies(grower),
        15..=17 => branches(grower),
        18..=19 => unset(grower),
        _ => grown(grower),
    };
    let root = if root.nodes() > MOST_NODES { skip() } else { root };
    let names = grower.names;
    let root = if random.once_in(50) { filled(root, MOST_NODES) } else { root };
    let codes = codes(random, usize::from(fields));
    let image = match random.below(5) {
        0 => root.image(&codes, MOST_NAMES),
        1 => high_names(root.image(&codes, names)),
        more => root.image(&codes, names + u16::from(more == 2)),
    };
    let image = if random.once_in(2) { image } else { shuffled(random, &image) };
    Themed { image, far }
}

/// The same script with the highest names that there may be.
fn high_names(mut image: Image) -> Image {
    let up = MOST_NAMES - image.names;
    for node in &mut image.nodes {
        if row(node[0]).is_some_and(|row| row[0] == Word::Name) {
            node[1] += up;
        }
    }
    Image { names: MOST_NAMES, ..image }
}

/// The command followed by so many skips that the script has so many nodes, where it hasn't more.
pub fn filled(command: Branch, nodes: usize) -> Branch {
    let missing = nodes.saturating_sub(command.nodes());
    let command = if missing % 2 == 1 { atom(command) } else { command };
    if missing < 2 {
        return command;
    }
    sequence(command, (1..missing / 2).fold(skip(), |rest, _| sequence(skip(), rest)))
}

fn codes(random: &mut Random, fields: usize) -> Vec<u16> {
    let mut code = 0;
    let mut next = || {
        code += random.pick(&[1, 1, 2, 100, 4_000]);
        code
    };
    let mut codes: Vec<u16> = (0..fields).map(|_| next()).collect();
    if random.once_in(8) {
        codes.last_mut().into_iter().for_each(|last| *last = u16::MAX);
    }
    codes
}

/// The same script with its nodes in a random order that has children below parents.
fn shuffled(random: &mut Random, image: &Image) -> Image {
    let parents = image.parents();
    let mut missing: Vec<usize> = image.nodes.iter().map(|&node| children(node).count()).collect();
    let mut ready: Vec<usize> = (0..missing.len()).filter(|&number| missing[number] == 0).collect();
    let mut order = Vec::new();
    while !ready.is_empty() {
        let node = ready.swap_remove(random.below(ready.len()));
        order.push(node);
        if order.len() < missing.len() {
            missing[parents[node]] -= 1;
            if missing[parents[node]] == 0 {
                ready.push(parents[node]);
            }
        }
    }
    image.reordered(&order)
}

fn grown(grower: &mut Grower) -> Branch {
    let (outer, sort) = (grower.name(), grower.random.pick(&[Sort::Int, Sort::Object]));
    if grower.random.once_in(8) {
        grower.command()
    } else {
        grower.declared(outer, sort, Grower::command)
    }
}

/// Neighbours and atoms around commands that write the same few names.
fn atoms(grower: &mut Grower) -> Branch {
    grower.weights = [1, 1, 0, 6, 0, 1, 4, 1, 1, 6, 5, 1, 0];
    let name = grower.name();
    let inner = grower.under(name, Sort::Int, |grower| parallel(grower.command(), grower.command()));
    var(name, sequence(assign(name, integer(0)), inner))
}

/// A call or a field assignment whose argument or right side faults, with something else around, beside or before it.
fn faulting(grower: &mut Grower) -> Branch {
    grower.slips = 200;
    let name = grower.name();
    let inner = grower.under(name, Sort::Object, |grower| {
        let stops = if grower.random.once_in(2) { grower.faulty_call() } else { grower.faulty_field_assignment() };
        let work = grower.command();
        match grower.random.below(6) {
            0 => sequence(work, stops),
            1 => parallel(work, stops),
            2 => parallel(stops, work),
            3 => atom(sequence(work, stops)),
            4 => parallel(atom(sequence(skip(), stops)), work),
            _ => choose(grower.test(), stops, work),
        }
    });
    var(name, sequence(malloc(name), inner))
}

/// Many declarations inside each other, with few names, around a grown command.
fn long_chain(grower: &mut Grower) -> Branch {
    let depth = grower.random.pick(&[10, 100, 500, 1_000]);
    let names: Vec<u16> = (0..depth).map(|_| grower.name()).collect();
    grower.budget = grower.budget.min(100);
    for &name in &names {
        grower.visible.push((name, Sort::Int));
    }
    let inner = names.iter().rev().take(20).fold(grower.command(), |inner, &name| {
        let number = grower.random.below(90) as i32;
        sequence(assign(name, integer(number)), inner)
    });
    grower.visible.clear();
    names.iter().rev().fold(inner, |inner, &name| var(name, inner))
}

/// Long procedures, alike, kept in cells and compared.
fn long_procedures(grower: &mut Grower) -> Branch {
    grower.budget = grower.random.pick(&[10, 60, 300]);
    grower.slips = 1_000;
    let (one, other) = (grower.names, grower.names + 1);
    grower.names += 2;
    grower.visible = vec![(one, Sort::Proc), (other, Sort::Proc)];
    let procedure = grower.procedure();
    let second = match grower.random.below(4) {
        0 => grower.procedure(),
        1 => grower.nearly(procedure.clone()),
        _ => procedure.clone(),
    };
    let compare = choose(equal(variable(one), variable(other)), assign(one, integer(1)), assign(one, integer(2)));
    let again = if grower.random.once_in(2) { compare } else { call(variable(other), null()) };
    let set = match grower.random.below(3) {
        0 => var(grower.name(), assign(other, second)),
        _ => assign(other, second),
    };
    var(one, var(other, sequence(assign(one, procedure), sequence(set, again))))
}

/// One command or difference nested in itself many times, around a grown part.
fn deep(grower: &mut Grower) -> Branch {
    grower.budget = grower.budget.min(20);
    let (name, depth) = (grower.name(), grower.random.pick(&[3, 40, 250, 600]));
    let inner = grower.under(name, Sort::Int, |grower| {
        let form = grower.random.below(9);
        let number = grower.expression(Sort::Int, 1);
        let command = grower.command();
        let nested =
            |around: fn(Branch, u16) -> Branch, inmost| (0..depth).fold(inmost, |inner, _| around(inner, name));
        match form {
            0 => assign(name, nested(|e, _| difference(e, integer(1)), number)),
            1 => assign(name, nested(|e, _| difference(integer(1), e), number)),
            2 => assign(name, nested(|e, name| difference(variable(name), e), number)),
            3 => nested(|c, _| choose(constant(true), c, skip()), command),
            4 => nested(|c, name| choose(less(variable(name), integer(2)), skip(), c), command),
            5 => nested(|c, _| atom(c), command),
            6 => nested(|c, name| call(proc(name, c), integer(0)), command),
            7 => nested(|c, _| repeat(constant(true), c), command),
            _ => nested(|c, _| sequence(skip(), c), command),
        }
    });
    var(name, sequence(assign(name, integer(3)), inner))
}
