//! The two opinions on written scripts held against each other and against trees that were printed; each wrong turn told apart.

use flagcopper_tests::chart;
use flagcopper_tests::chart::every::every;
use flagcopper_tests::chart::Chart;
use flagcopper_tests::encoding;
use flagcopper_tests::generate::written::{case, printed, Case, Length};
use flagcopper_tests::independent::Independent;
use flagcopper_tests::random::Random;
use flagcopper_tests::reading::{again, difference, kept, search};
use flagcopper_tests::shrink::shrunk;
use flagcopper_tests::subject::{readers, Reader, Reading, Refusal, Subject, SIZE};
use flagcopper_tests::written::{judged, Descent, Refused, Wrong};

const SEED: u64 = 20;

#[test]
fn every_list_of_a_few_words() {
    for (name, reader) in readers() {
        // a call through the bridge takes its time
        let words = if name == "library" && !cfg!(target_arch = "x86_64") { 5 } else { 6 };
        let seen = every(reader.as_ref(), words).unwrap_or_else(|how| panic!("{name}: {how}"));
        println!("{name}: {seen:?}");
    }
}

#[test]
fn the_readers_agree_with_the_chart_and_every_answer_is_met() {
    for (name, reader) in readers() {
        let (tally, found) = search((&Chart, reader.as_ref()), Length::Short, SEED, 0..10_000, |_| {});
        println!("{name}: {tally}");
        assert!(found.is_none(), "{name}: {:?}", found.map(|found| (found.number, kept(&found.case, &found.how))));
        for answer in [20, 21, 22, 23, 24, 25, 26, 28].map(|number| format!("refusal {number}")) {
            assert!(tally.of(&answer) >= 10, "{answer} is met {} times", tally.of(&answer));
        }
        assert!(tally.of("image") >= 1_000);
    }
}

#[test]
fn the_readers_agree_on_long_texts() {
    let right = Descent::right();
    for (name, reader) in readers() {
        let (tally, found) = search((&right, reader.as_ref()), Length::Any, SEED, 0..2_000, |_| {});
        println!("{name}: {tally}");
        assert!(found.is_none(), "{name}: {:?}", found.map(|found| (found.number, found.how)));
        assert!(tally.of("refusal 27") >= 10 && tally.of("refusal 26") >= 5);
    }
}

/// What could stand where a text is refused is the same by trial and by the chart.
#[test]
fn what_could_stand_there() {
    let mut told = 0;
    for number in 0..3_000 {
        let Case { text, list, .. } = case(&mut Random::of_case(SEED, number), Length::Short);
        if let Err(Refused { place: Some((place, _)), .. }) = judged(&text, &list) {
            let (trial, chart) = (encoding::could_be(&text, &list, place), chart::could_be(&text, place));
            assert_eq!(trial, chart, "{} from {place}", text.escape_ascii());
            told += 1;
        }
    }
    assert!(told >= 1_000, "{told}");
}

fn checks(image: &[u8]) -> bool {
    matches!(Independent::right().check(image, SIZE), Ok(()) | Err(Refusal { number: 9, .. }))
}

/// What is printed from a tree is read as that tree, its names numbered by first appearance; and nothing but the scoping is left to the
/// check, so that an image is accepted or refused with 9.
fn printed_and_read(reader: &dyn Reader, length: Length, cases: u64) {
    for number in 0..cases {
        let (case, wanted) = printed(&mut Random::of_case(SEED, number), length);
        let (mut work, mut out) = (vec![0; case.words], vec![0; case.bytes]);
        let given = reader.read(&case.text, &case.list, &mut work, &mut out);
        let right = match (&wanted, &given) {
            (Ok(image), Reading::Image(bytes)) => image == bytes && checks(bytes),
            (Err(wanted), Reading::Refused { number, .. }) => wanted == number,
            _ => false,
        };
        assert!(right, "{}", kept(&case, &format!("case {number}: {given:?} in place of {wanted:?}")));
    }
}

#[test]
fn what_is_printed_is_read() {
    printed_and_read(&Chart, Length::Short, 1_500);
    for (_, reader) in readers() {
        printed_and_read(reader.as_ref(), Length::Short, 10_000);
        printed_and_read(reader.as_ref(), Length::Any, 1_500);
    }
}

#[test]
fn every_wrong_turn_is_told_apart() {
    let right = Descent::right();
    for wrong in Wrong::ALL {
        let subject = Descent::wrong(wrong);
        // most show on short texts
        let (short, found) = search((&right, &subject), Length::Short, SEED, 0..10_000, |_| {});
        let (long, found) = match found {
            None => search((&right, &subject), Length::Any, SEED, 0..2_000, |_| {}),
            found => (short, found),
        };
        let found = found.unwrap_or_else(|| panic!("{wrong:?} looks right, at last on {long}"));
        // a long text takes its time to shrink
        let differs = |case: &Case| case.text.len() < 1_000 && difference(&right, &subject, case).is_some();
        let least = if differs(&found.case) { shrunk(&found.case, differs) } else { found.case };
        let how = difference(&right, &subject, &least).expect("shrinking keeps the difference");
        println!("{wrong:?}: case {}, {:?}, {how}", found.number, least.text.escape_ascii().to_string());
        assert_eq!(again(&kept(&least, &how)), Some(least));
    }
}
