//! The turns of the fair runs of the generated cases, counted: they have what order 4 of document 02 is about.

use flagcopper_tests::generate::Case;
use flagcopper_tests::independent::machine::End;
use flagcopper_tests::met::Met;
use flagcopper_tests::subject::SIZE;
use flagcopper_tests::turns::{turns, Turn, Turns};
use std::collections::BTreeSet;

fn about(number: usize) -> &'static str {
    match number {
        0 => "none",
        1 => "one",
        2 => "two",
        3..=9 => "three to nine",
        10..=63 => "10 to 63",
        64..=126 => "64 to 126",
        _ => "127",
    }
}

fn kind(turn: &Turn) -> &'static str {
    if turn.is_atoms() {
        "an atom's turn"
    } else {
        "a command's turn"
    }
}

/// What is met in a turn that is over.
fn met_in(turn: &Turn, left: usize) -> Vec<String> {
    let Turn { at, others, steps, movable_inside, ended, .. } = *turn;
    let kind = kind(turn);
    let mut met = vec![format!("others: {}", about(others)), format!("at {}", about(at))];
    if others == 0 {
        return met;
    }
    met.push(format!("{kind} leaves {}", about(left)));
    if ended || turn.is_atoms() {
        met.push(format!("{kind} ends, and of what waits {} is opened", about(left)));
    }
    let (before, behind) = (at > 0, at < others);
    met.push(format!("{kind}, others before it {before}, behind it {behind}"));
    if behind && left != 1 {
        met.push(format!("{kind} moves others {}", if left == 0 { "down" } else { "up" }));
    }
    if turn.is_atoms() {
        met.push(format!("steps inside an atom: {}", about(steps - 1)));
        met.push(format!("movable inside an atom: {}", about(movable_inside)));
    }
    met
}

/// How the run ended: between turns or inside an atom, with which choice.
fn ending(turns: &Turns, room: usize) -> String {
    let open = turns.turns.last().is_some_and(|turn| turn.left.is_none() && turn.is_atoms());
    let place = if open { "inside an atom" } else { "between turns" };
    match turns.end {
        End::Done if turns.picked == room => "done with the last choice of the list".to_string(),
        End::Done => "done before the list is full".to_string(),
        End::UsedUp if room == 0 => "no list".to_string(),
        End::UsedUp => format!("full {place}"),
        End::Room(3) if turns.picked == 0 => "room 3 at the start".to_string(),
        End::Room(number) => format!("room {number} {place}"),
        End::Fault(_) => format!("fault {place}"),
        End::OutOfRange => "out of range".to_string(),
    }
}

fn met(turns: &Turns, room: usize) -> BTreeSet<String> {
    let over = turns.turns.iter().filter_map(|turn| turn.left.map(|left| (turn, left)));
    let mut met: BTreeSet<String> = over.flat_map(|(turn, left)| met_in(turn, left)).collect();
    let ends = |turn: &Turn| turn.left == Some(0);
    for together in [2, 3, 5] {
        // all of those that there are, and something stood after them or the run is done
        let end = turns.turns.windows(together).any(|some| some.iter().all(ends) && some[0].others + 1 >= together);
        met.extend(end.then(|| format!("{together} end after each other")));
    }
    met.insert(ending(turns, room));
    met
}

/// What is met in the fair run of a case.
fn met_by(case: &Case) -> BTreeSet<String> {
    let Some(turns) = turns(&case.script, case.picks).filter(|_| case.words >= SIZE) else { return BTreeSet::new() };
    let stopped = matches!(turns.end, End::Fault(_) | End::Room(_)) && turns.picked > 0;
    assert_eq!(turns.picked, turns.steps + usize::from(stopped), "the choices picked");
    met(&turns, case.picks)
}

/// All that must be met: of a command's turn and of an atom's what they leave and where, while others wait; of an atom's what is inside it; how many
/// wait, and at which positions; and every end.
fn wanted() -> Vec<String> {
    let upto_nine = ["one", "two", "three to nine"];
    let mut wanted: Vec<String> = Vec::new();
    for kind in ["a command's turn", "an atom's turn"] {
        wanted.push(format!("{kind} leaves none"));
        wanted.extend(upto_nine.map(|left| format!("{kind} leaves {left}")));
        wanted.extend(upto_nine.map(|left| format!("{kind} ends, and of what waits {left} is opened")));
        wanted.extend(["up", "down"].map(|way| format!("{kind} moves others {way}")));
        for (before, behind) in [(false, true), (true, false), (true, true)] {
            wanted.push(format!("{kind}, others before it {before}, behind it {behind}"));
        }
    }
    wanted.extend(["a command's turn leaves 10 to 63", "a command's turn leaves 64 to 126"].map(String::from));
    wanted.extend(upto_nine.map(|steps| format!("steps inside an atom: {steps}")));
    wanted.extend(upto_nine.map(|movable| format!("movable inside an atom: {movable}")));
    wanted.push("steps inside an atom: 10 to 63".to_string());
    for number in ["none", "one", "two", "three to nine", "10 to 63", "64 to 126", "127"] {
        wanted.extend([format!("others: {number}"), format!("at {number}")]);
    }
    wanted.extend([2, 3, 5].map(|together| format!("{together} end after each other")));
    for place in ["between turns", "inside an atom"] {
        wanted.extend(["full", "fault", "room 1", "room 2", "room 3"].map(|end| format!("{end} {place}")));
    }
    let ends =
        ["done with the last choice of the list", "done before the list is full", "no list", "room 3 at the start"];
    wanted.extend(ends.map(String::from));
    wanted
}

#[test]
fn turns_are_met() {
    let counts = Met::in_the_gates_cases(met_by);
    counts.has_all(&wanted(), 5);
    assert_eq!(counts.of("out of range"), 0, "a fair run picks what can move");
}
