//! The comparison finds nothing between the right ones, tells each wrong turn apart, and its cases reach every answer.

use flagcopper_tests::bodies::{bodies, STEPS};
use flagcopper_tests::compare::{difference, search};
use flagcopper_tests::generate::Case;
use flagcopper_tests::independent::{Independent, Wrong};
use flagcopper_tests::parse::script;
use flagcopper_tests::readback::{frame, Value};
use flagcopper_tests::shrink::{read, shrunk, written};
use flagcopper_tests::stops::{stops, Stop};
use flagcopper_tests::subject::{subjects, Subject, FAULTS, SIZE};
use flagcopper_tests::unset::{unset, End, Worked};

const SEED: u64 = 20;

/// So many cases are enough for each wrong turn.
const ENOUGH: u64 = 2_000;

#[test]
fn every_wrong_turn_is_told_apart() {
    for wrong in Wrong::ALL {
        let (right, subject) = (Independent::right(), Independent::wrong(wrong));
        let (tally, found) = search(&right, &subject, SEED, 0..ENOUGH, |_| {});
        let found = found.unwrap_or_else(|| panic!("{wrong:?} looks right on {tally}"));
        // a long script takes its time to shrink, and two equal bodies don't
        let differs = |case: &Case| case.script.len() < 4_000 && difference(&right, &subject, case).is_some();
        let case = found.case;
        let least = if differs(&case) { shrunk(&case, differs) } else { case.clone() };
        let how = difference(&right, &subject, &least).expect("shrinking keeps the difference");
        println!("{wrong:?}: case {}, {} to {} bytes, {how}", found.number, case.script.len(), least.script.len());
        assert_eq!(read(&written(&least, &how)), Some(least));
    }
}

/// The worked scripts of order 2 on which a wrong turn gives another answer.
fn told_apart_by(wrong: Wrong) -> Vec<&'static str> {
    let answers_otherwise = |stop: &Stop| {
        let (image, choices) = (script(&stop.text).bytes(), vec![0; stop.steps + 1]);
        let answer = Independent::wrong(wrong).run(&image, &choices, &mut [0; SIZE]);
        (answer.end, answer.number, answer.node, answer.steps) != (2, stop.number, Some(stop.node), stop.steps)
    };
    stops().iter().filter(|stop| answers_otherwise(stop)).map(|stop| stop.name).collect()
}

#[test]
fn each_wrong_turn_of_order_2_on_its_worked_scripts() {
    let seven = ["seven_before_argument"];
    let place = ["three_before_right_side", "four_before_right_side"];
    let frames = ["argument_before_room_1", "difference_before_room_1"];
    let control = ["argument_before_room_3", "right_side_before_room_3"];
    let plain = ["fault_in_argument", "fault_in_field", "fault_further_in", "fault_in_atom"];
    assert_eq!(told_apart_by(Wrong::ArgumentBeforeSeven), seven);
    assert_eq!(told_apart_by(Wrong::RightSideBeforePlace), place);
    assert_eq!(told_apart_by(Wrong::FramesBeforeFault), frames);
    assert_eq!(told_apart_by(Wrong::ControlBeforeFault), control);
    for wrong in [Wrong::FaultIsNull, Wrong::FaultIsStored, Wrong::FaultAtTheCommand] {
        assert_eq!(told_apart_by(wrong), [&plain[..], &frames, &control].concat(), "{wrong:?}");
    }
}

/// The worked scripts of order 3 on which a wrong turn gives another answer.
fn answered_otherwise_by(wrong: Wrong) -> Vec<&'static str> {
    let answers = |text: &str| {
        let mut workspace = vec![0; SIZE];
        Independent::wrong(wrong).run(&script(text).bytes(), &[0; STEPS], &mut workspace);
        frame(workspace[3]).map(|frame| frame.cell)
    };
    bodies()
        .iter()
        .filter(|bodies| answers(&bodies.text) != Some(Value::Int(bodies.answer)))
        .map(|bodies| bodies.name)
        .collect()
}

/// The first child's pair is taken first; of three children there are none.
#[test]
fn each_wrong_turn_of_order_3_on_its_worked_scripts() {
    let equal = ["left_bodies_equal", "right_bodies_equal"];
    let left = ["left_bodies_last_leaf", "left_bodies_first_leaf"];
    let right = ["right_bodies_last_leaf", "right_bodies_first_leaf"];
    assert_eq!(answered_otherwise_by(Wrong::LastPairForgotten), [left, right].concat());
    assert_eq!(answered_otherwise_by(Wrong::MiddleOfThreeForgotten), [""; 0]);
    assert_eq!(answered_otherwise_by(Wrong::ChildrenCrossed), equal);
    assert_eq!(answered_otherwise_by(Wrong::FullIsAlike), left);
    assert_eq!(answered_otherwise_by(Wrong::FullIsUnlike), equal[..1]);
    assert_eq!(answered_otherwise_by(Wrong::FullForgets), left[1..]);
}

/// The worked scripts of order 5 of which a wrong turn makes something else.
fn made_otherwise_by(wrong: Wrong) -> Vec<&'static str> {
    let otherwise = |worked: &&Worked| worked.unlike(&Independent::wrong(wrong)).is_some();
    unset().iter().filter(otherwise).map(|worked| worked.name).collect()
}

/// The worked scripts of order 5 that end with fault 8.
fn ending_with_8() -> Vec<&'static str> {
    let faulting = |worked: &&Worked| matches!(worked.end, End::Fault(8, _));
    unset().iter().filter(faulting).map(|worked| worked.name).collect()
}

#[test]
fn each_wrong_turn_of_order_5_on_its_worked_scripts() {
    for wrong in [Wrong::UnsetReadsNull, Wrong::UnsetAtTheCommand] {
        assert_eq!(made_otherwise_by(wrong), ending_with_8(), "{wrong:?}");
    }
    // where all cells that are told hold something in the end, nobody sees with what they began
    let set = ["assignment_sets", "malloc_sets", "null_is_set", "formal_is_set", "called_after_it_is_set"];
    let set = [&set[..], &["mentioned_and_compared", "branch_in_time", "atom_in_time"]].concat();
    let others: Vec<_> = unset().iter().map(|worked| worked.name).filter(|name| !set.contains(name)).collect();
    assert_eq!(made_otherwise_by(Wrong::CellBeginsNull), others);
    let stored = ["argument", "right_side", "right_side_of_field", "called_before_it_is_set", "again_in_a_loop"];
    let before_room = ["argument_before_room_1", "argument_before_room_3"];
    let assigned = ["inner_declaration"];
    let sides = ["assignment_before_room_3", "right_side_before_room_3"];
    assert_eq!(made_otherwise_by(Wrong::UnsetIsStored), [&stored[..], &assigned, &before_room, &sides].concat());
    let own = ["before_minus_own", "before_equal_own", "before_less_own", "before_selection_own"];
    assert_eq!(made_otherwise_by(Wrong::OwnFaultBeforeUnset), [&own[..], &["before_field_assignment_own"]].concat());
    let names = ["assignment_sets", "null_is_set", "nobody_reads_it", "mentioned"];
    let procedures = ["called_before_it_is_set", "called_after_it_is_set", "mentioned_and_compared"];
    let branches = ["branch_in_time", "atom_in_time"];
    let frames = ["again_in_a_loop", "inner_declaration", "outer_declaration"];
    assert_eq!(
        made_otherwise_by(Wrong::AssignReadsItsName),
        [&names[..], &procedures, &branches, &frames, &before_room[..1]].concat()
    );
    let objects = ["selecting_field", "field_assigned_to", "right_side_of_field"];
    let malloc = [&objects[..], &["four_before_it", "malloc_sets", "right_side_before_room_3"]].concat();
    assert_eq!(made_otherwise_by(Wrong::MallocReadsItsName), malloc);
    assert_eq!(made_otherwise_by(Wrong::FieldsBeginUnset), malloc);
    let formals = ["formal_is_set", "called_before_it_is_set", "formal_of_the_name", "argument_before_room_1"];
    assert_eq!(made_otherwise_by(Wrong::FormalBeginsUnset), formals);
    assert_eq!(made_otherwise_by(Wrong::ProcReadsUnset), [&["mentioned"], &procedures[..], &before_room[..1]].concat());
}

/// An unset argument or right side has the place that a stored fault had.
#[test]
fn each_wrong_turn_of_order_2_on_the_worked_scripts_of_order_5() {
    assert_eq!(made_otherwise_by(Wrong::ArgumentBeforeSeven), ["seven_before_it"]);
    assert_eq!(made_otherwise_by(Wrong::RightSideBeforePlace), ["three_before_it", "four_before_it"]);
    assert_eq!(made_otherwise_by(Wrong::FramesBeforeFault), ["argument_before_room_1"]);
    let control = ["argument_before_room_3", "right_side_before_room_3"];
    assert_eq!(made_otherwise_by(Wrong::ControlBeforeFault), control);
    let stored = ["argument", "right_side_of_field", "argument_before_room_1", control[0], control[1]];
    for wrong in [Wrong::FaultIsNull, Wrong::FaultIsStored, Wrong::FaultAtTheCommand] {
        assert_eq!(made_otherwise_by(wrong), stored, "{wrong:?}");
    }
}

/// Document 01: a body run in the caller's chain makes case e give 6.
#[test]
fn the_callers_chain_gives_six() {
    let image = script("var r; var h; {h = 1; var p; {p = proc y: r = y - (0 - h); var h; {h = 2; p(4)}}}");
    let mut workspace = vec![0; SIZE];
    Independent::wrong(Wrong::CallersChain).run(&image.bytes(), &[0; 9], &mut workspace);
    assert_eq!(workspace[3], 2 + 8 * 6);
}

#[test]
fn the_right_ones_agree_and_every_answer_is_met() {
    for (name, subject) in subjects() {
        let (tally, found) = search(&Independent::right(), subject.as_ref(), SEED, 0..6_000, |_| {});
        println!("{name}: {tally}");
        assert!(found.is_none(), "{name}: case {:?}", found.map(|found| (found.number, found.how)));
        let numbered =
            |what: &str, last: usize| (1..=last).map(|number| format!("{what} {number}")).collect::<Vec<_>>();
        let answers = [numbered("refusal", 10), numbered("fault", FAULTS), numbered("room", 3)].concat();
        let faults = ["fault of an argument", "fault of an argument, frames full", "fault of a right side"];
        for what in answers.iter().map(String::as_str).chain(["done", "used up", "out of range"]).chain(faults) {
            assert!(tally.of(what) >= 5, "{what} is met {} times", tally.of(what));
        }
        let ends = [&["done".to_string(), "used up".to_string()][..], &answers[10..]].concat();
        for what in ends.iter().filter(|_| subject.as_fair().is_some()).map(|end| format!("fair: {end}")) {
            assert!(tally.of(&what) >= 5, "{what} is met {} times", tally.of(&what));
        }
        assert_eq!(tally.of("fair: out of range"), 0);
    }
}
