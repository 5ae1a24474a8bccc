//! Turns taken fairly (document 02, order 4): the scripts worked by hand, on every subject that takes turns fairly.

use flagcopper_tests::independent::{Independent, Wrong};
use flagcopper_tests::parse::script;
use flagcopper_tests::readback::{Value, Words};
use flagcopper_tests::subject::{subjects, Answer, Fair, Turned, SIZE};
use flagcopper_tests::worked_turns::{worked_turns, Worked};

/// What a lent list and a lent workspace hold before a call.
const PICK: u8 = 0xA5;
const WORD: u64 = 0x1234_5678_9ABC_DEF0;

struct Run {
    turned: Turned,
    picks: Vec<u8>,
    workspace: Vec<u64>,
}

fn fair(subject: &dyn Fair, image: &[u8], room: usize, words: usize) -> Run {
    let (mut picks, mut workspace) = (vec![PICK; room], vec![WORD; words]);
    let turned = subject.fair(image, &mut picks, &mut workspace);
    Run { turned, picks, workspace }
}

fn on_every_subject(mut test: impl FnMut(&str, &dyn Fair)) {
    let mut tried = 0;
    for (name, subject) in subjects() {
        if let Some(subject) = subject.as_fair() {
            test(name, subject);
            tried += 1;
        }
    }
    assert_eq!(tried, if cfg!(feature = "library") { 2 } else { 1 }, "the independent interpreter and the library");
}

/// The list after a run that picked so: its rest is as it was.
fn with_rest(picks: &[u8], room: usize) -> Vec<u8> {
    picks.iter().copied().chain(std::iter::repeat(PICK)).take(room).collect()
}

fn answer(worked: &Worked) -> Answer {
    let (end, number, node) = worked.end;
    Answer { end, number, node, steps: worked.steps, ..Answer::default() }
}

#[test]
fn as_worked_by_hand() {
    on_every_subject(|name, subject| {
        for worked in worked_turns() {
            let what = format!("{name}, {}", worked.name);
            let image = script(&worked.text).bytes();
            let run = fair(subject, &image, worked.room, SIZE + 2);
            assert_eq!(run.turned, Turned { answer: answer(&worked), picked: worked.picks.len() }, "{what}");
            assert_eq!(run.picks, with_rest(&worked.picks, worked.room), "{what}");
            let words = Words::of(&run.workspace).expect("the workspace has the size");
            let cells: Vec<Value> = words.frames().map(|frame| frame.cell).take(worked.cells.len()).collect();
            let wanted: Vec<Value> = worked.cells.iter().map(|cell| cell.map_or(Value::Unset, Value::Int)).collect();
            assert_eq!(cells, wanted, "{what}: cells");
            let [frames, objects, parts] = [0, 1, 2].map(|word| run.workspace[word]);
            assert_eq!([parts, frames, objects], worked.left, "{what}: parts, frames and objects");
            let mut workspace = vec![WORD; SIZE + 2];
            assert_eq!(subject.run(&image, &worked.picks, &mut workspace), answer(&worked), "{what}: the base run");
            assert!(run.workspace == workspace, "{what}: the words of the base run");
        }
    });
}

/// Every length of the list, from none to more than enough: the picks are the front of those of a long list.
#[test]
fn lists_of_every_length() {
    on_every_subject(|name, subject| {
        for worked in worked_turns().iter().filter(|worked| worked.room < 20) {
            let image = script(&worked.text).bytes();
            let long = fair(subject, &image, 40, SIZE);
            let picked = long.turned.picked;
            for room in 0..40 {
                let what = format!("{name}, {}, room for {room}", worked.name);
                let run = fair(subject, &image, room, SIZE);
                assert_eq!(run.picks, with_rest(&long.picks[..picked.min(room)], room), "{what}");
                let full = Answer { end: 4, steps: room, ..Answer::default() };
                let answer = if room < picked { full } else { long.turned.answer };
                assert_eq!(run.turned, Turned { answer, picked: picked.min(room) }, "{what}");
            }
        }
    });
}

/// A refused script and a workspace that is too short: nothing is written and nothing picked.
#[test]
fn a_refusal_writes_nothing() {
    let good = script("var x; x = 1").bytes();
    let refused = |refusal, place| Answer { refusal, place: Some(place), ..Answer::default() };
    let unfit = script("{skip; malloc(x)}").bytes();
    let cases = [
        (&good[..9], SIZE, refused(1, 0)),
        (&good[..33], SIZE, refused(3, 0)),
        (&unfit, SIZE, refused(9, 1)),
        (&good, SIZE - 1, refused(10, 0)),
        (&good, 0, refused(10, 0)),
        (&[], 7, refused(10, 0)),
    ];
    on_every_subject(|name, subject| {
        for (image, words, answer) in &cases {
            for room in [0, 1, 5] {
                let run = fair(subject, image, room, *words);
                assert_eq!(run.turned, Turned { answer: *answer, picked: 0 }, "{name}");
                assert_eq!(run.picks, vec![PICK; room], "{name}, {answer:?}: the list");
                assert!(run.workspace.iter().all(|&word| word == WORD), "{name}, {answer:?}: the workspace");
            }
        }
    });
}

/// The worked scripts on which a wrong turn picks otherwise, leaves another list or tells another end.
fn told_apart_by(wrong: Wrong) -> Vec<&'static str> {
    let otherwise = |worked: &Worked| {
        let run = fair(&Independent::wrong(wrong), &script(&worked.text).bytes(), worked.room, SIZE);
        run.turned != Turned { answer: answer(worked), picked: worked.picks.len() }
            || run.picks != with_rest(&worked.picks, worked.room)
    };
    those(otherwise)
}

/// The names of the worked scripts of which this is true.
fn those(which: impl Fn(&Worked) -> bool) -> Vec<&'static str> {
    worked_turns().iter().filter(|worked| which(worked)).map(|worked| worked.name).collect()
}

#[test]
fn each_wrong_turn_on_the_worked_scripts() {
    let entries = ["two_from_one", "after_parallel", "left_atom", "nested_atoms", "fault_in_atom"];
    let others = ["three_from_one", "three_that_waited", "leftmost_in_atom"];
    let beside = ["fault_beside", "fault_beside_just", "fault_beside_full"];
    let rest = ["atom_in_loop", "loop_beside_atoms", "left_atom", "behind_two_loops"];
    let inside = ["loop_beside_atoms", "nested_atoms", "leftmost_in_atom"];
    let unset = ["branch_too_early", "branch_in_time"];
    assert_eq!(told_apart_by(Wrong::NewRightToLeft), [&entries[..], &others, &beside, &unset].concat());
    assert_eq!(told_apart_by(Wrong::AtomsRestInFront), rest);
    assert_eq!(told_apart_by(Wrong::RightmostInAtom), inside);
    assert_eq!(told_apart_by(Wrong::EnteringEndsTurn), inside[2..]);
    assert_eq!(told_apart_by(Wrong::FullBeforeDone), ["last_choice"]);
    let stopped = |worked: &Worked| worked.picks.len() > worked.steps;
    assert_eq!(told_apart_by(Wrong::StoppingChoiceForgotten), those(stopped));
    assert_eq!(told_apart_by(Wrong::RestOfListCleared), those(|worked| worked.room > worked.picks.len()));
    // the first moves second wherever there are two at first, unless there is no step
    let two = |worked: &Worked| worked.text.starts_with('{') && worked.steps + worked.picks.len() > 0;
    assert_eq!(told_apart_by(Wrong::StartRightToLeft), those(two));
    let (in_front, one_for_one) = (told_apart_by(Wrong::NewInFront), told_apart_by(Wrong::ReplacedKeepsPlace));
    assert!(["own_stacks", "loop_beside", "no_frame"].iter().all(|name| one_for_one.contains(name)));
    let only_in_front: Vec<_> = in_front.into_iter().filter(|name| !one_for_one.contains(name)).collect();
    assert_eq!(only_in_front, ["two_from_one", "left_atom", "three_from_one", "three_that_waited"]);
}
