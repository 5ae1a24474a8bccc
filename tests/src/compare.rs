//! The comparison: two subjects get the same case in memory that holds the same pattern, and must agree on verdict, answer,
//! rows and every word of the workspace, those past its size included; and where both take turns fairly, on how many choices are
//! picked and on every byte of the list, with which the base run must then come to the same.

use crate::generate::{case, Case};
use crate::image::{children, kind, Image, Kind};
use crate::search::{Compared, Found, Tally};
use crate::subject::{Answer, Fair, Subject, Turned, ROW};

/// What a subject made of a case by one of the calls.
#[derive(PartialEq, Eq)]
struct Outcome {
    answer: Answer,
    workspace: Vec<u64>,
    rows: Vec<u32>,
}

/// What a subject made of it by taking turns fairly.
struct Fairly {
    turned: Turned,
    workspace: Vec<u64>,
    picks: Vec<u8>,
}

fn pattern(case: &Case, length: usize) -> impl Iterator<Item = u64> + '_ {
    (0..length as u64).map(|place| case.pattern.rotate_left(place as u32 % 64) ^ place)
}

/// The outcome of a trace, or of a run, which is lent no rows.
fn outcome(subject: &dyn Subject, case: &Case, with_rows: bool) -> Outcome {
    let mut workspace: Vec<u64> = pattern(case, case.words).collect();
    let mut rows: Vec<u32> = pattern(case, case.rows).map(|word| word as u32).collect();
    let answer = if with_rows {
        subject.trace(&case.script, &case.choices, &mut workspace, &mut rows)
    } else {
        subject.run(&case.script, &case.choices, &mut workspace)
    };
    Outcome { answer, workspace, rows }
}

fn fairly(subject: &dyn Fair, case: &Case) -> Fairly {
    let mut workspace: Vec<u64> = pattern(case, case.words).collect();
    let mut picks: Vec<u8> = pattern(case, case.picks).map(|word| word as u8).collect();
    let turned = subject.fair(&case.script, &mut picks, &mut workspace);
    Fairly { turned, workspace, picks }
}

/// The first difference between the reference and a subject on a case, in words.
pub fn difference(reference: &dyn Fair, subject: &dyn Subject, case: &Case) -> Option<String> {
    differs(outcome(reference, case, true), subject, case)
        .or_else(|| turns_differ(&fairly(reference, case), subject.as_fair()?, case))
}

fn differs(wanted: Outcome, subject: &dyn Subject, case: &Case) -> Option<String> {
    let verdict = wanted.answer.verdict();
    let given = subject.check(&case.script, case.words);
    if verdict != given {
        return Some(format!("check: {given:?} in place of {verdict:?}"));
    }
    let traced = told_apart("trace", &wanted, &outcome(subject, case, true));
    traced.or_else(|| {
        let ran = outcome(subject, case, false);
        let without_rows = Outcome { rows: ran.rows.clone(), ..wanted };
        told_apart("run", &without_rows, &ran)
    })
}

fn turns_differ(wanted: &Fairly, subject: &dyn Fair, case: &Case) -> Option<String> {
    let given = fairly(subject, case);
    if wanted.turned != given.turned {
        return Some(format!("fair: {:?} in place of {:?}", given.turned, wanted.turned));
    }
    if let Some(place) = first_other(&wanted.picks, &given.picks) {
        return Some(format!("fair: pick {place} is {} in place of {}", given.picks[place], wanted.picks[place]));
    }
    let again = Case { choices: given.picks[..given.turned.picked].to_vec(), ..case.clone() };
    words_apart("fair", &wanted.workspace, &given.workspace).or_else(|| {
        let Outcome { answer, workspace, .. } = outcome(subject, &again, false);
        answers_apart("run on the picks", &wanted.turned.answer, &answer)
            .or_else(|| words_apart("run on the picks", &wanted.workspace, &workspace))
    })
}

fn told_apart(call: &str, wanted: &Outcome, given: &Outcome) -> Option<String> {
    if let Some(how) = answers_apart(call, &wanted.answer, &given.answer) {
        return Some(how);
    }
    if let Some(place) = first_other(&wanted.rows, &given.rows) {
        let (row, word) = (place / ROW, place % ROW);
        return Some(format!(
            "{call}: row {row} word {word} is {} in place of {}",
            given.rows[place], wanted.rows[place]
        ));
    }
    words_apart(call, &wanted.workspace, &given.workspace)
}

fn answers_apart(call: &str, wanted: &Answer, given: &Answer) -> Option<String> {
    (wanted != given).then(|| format!("{call}: {given:?} in place of {wanted:?}"))
}

fn words_apart(call: &str, wanted: &[u64], given: &[u64]) -> Option<String> {
    let place = first_other(wanted, given)?;
    let (word, right) = (given[place], wanted[place]);
    Some(format!("{call}: workspace word {place} is {word:#x} in place of {right:#x}"))
}

fn first_other<T: PartialEq>(left: &[T], right: &[T]) -> Option<usize> {
    left.iter().zip(right).position(|(a, b)| a != b)
}

/// What a case was answered.
fn told(answer: &Answer) -> String {
    match (answer.refusal, answer.end) {
        (0, 1) => "done".to_string(),
        (0, 2) => format!("fault {}", answer.number),
        (0, 3) => format!("room {}", answer.number),
        (0, 4) => "used up".to_string(),
        (0, _) => "out of range".to_string(),
        (refusal, _) => format!("refusal {refusal}"),
    }
}

/// What was met in a run: its answer, and whether what a call or a field assignment was to store faulted, with every frame used or not.
fn met(case: &Case, outcome: &Outcome) -> Vec<String> {
    let answer = &outcome.answer;
    let part = answer.node.and_then(|node| stored_part(&case.script, node as usize));
    let full = part.filter(|_| outcome.workspace[0] == 1_024).map(|part| format!("{part}, frames full"));
    [told(answer)].into_iter().chain(part.map(str::to_string)).chain(full).collect()
}

/// Of which part that is to be stored the expression at a node is, or is inside of, in an accepted script.
fn stored_part(script: &[u8], mut node: usize) -> Option<&'static str> {
    let image = Image::of_bytes(script)?;
    let parents = image.parents();
    while kind(image.nodes[node][0]) == Some(Kind::Expression) {
        let parent = image.nodes[parents[node]];
        match (parent[0], children(parent).position(|child| child == node)) {
            (33, Some(1)) => return Some("fault of an argument"),
            (36, Some(2)) => return Some("fault of a right side"),
            _ => node = parents[node],
        }
    }
    None
}

/// Compares on generated cases of the seed until they differ or the cases are used up; `progress` hears of each case.
pub fn search(
    reference: &dyn Fair,
    subject: &dyn Subject,
    seed: u64,
    cases: std::ops::Range<u64>,
    progress: impl FnMut(&Tally),
) -> (Tally, Option<Found<Case>>) {
    let compared = |case: &Case| {
        let wanted = outcome(reference, case, true);
        let (mut met, mut amount) = (met(case, &wanted), wanted.answer.steps);
        let mut how = differs(wanted, subject, case);
        if let Some(subject) = subject.as_fair() {
            let wanted = fairly(reference, case);
            met.extend((wanted.turned.answer.refusal == 0).then(|| format!("fair: {}", told(&wanted.turned.answer))));
            amount += wanted.turned.answer.steps;
            how = how.or_else(|| turns_differ(&wanted, subject, case));
        }
        Compared { met, amount, how }
    };
    crate::search::search(seed, cases, Tally::of_unit("steps"), case, compared, progress)
}
