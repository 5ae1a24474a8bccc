//! Compares a subject with the independent interpreter on generated cases, and saves the first difference, shrunk.
//!
//! `differ --cases N --seed S [--from K] [--against NAME]`, or `differ --replay FILE` for a saved case. The subject is the
//! library, or with `--against` the one of that name, `flat` or the independent interpreter with a wrong turn. It ends with 1
//! when a difference is found.

use flagcopper_tests::arguments::{number, option};
use flagcopper_tests::compare::{difference, search};
use flagcopper_tests::independent::{Independent, Wrong};
use flagcopper_tests::shrink::{read, shrunk, written};
use flagcopper_tests::subject::{subjects, Subject};
use std::process::ExitCode;
use std::time::{Duration, Instant};

const EVERY: Duration = Duration::from_secs(10);

fn subject() -> (String, Box<dyn Subject>) {
    let name = option("--against").unwrap_or_else(|| "library".to_string());
    let right = subjects().into_iter().find(|(known, _)| *known == name).map(|(_, subject)| subject);
    let wrong = || {
        let turn = Wrong::ALL.into_iter().find(|wrong| format!("{wrong:?}") == name)?;
        Some(Box::new(Independent::wrong(turn)) as Box<dyn Subject>)
    };
    let subject = right.or_else(wrong).unwrap_or_else(|| {
        panic!("no {name}: there are flat, library with the feature library, and the wrong turns {:?}", Wrong::ALL)
    });
    (name, subject)
}

fn main() -> ExitCode {
    let (name, subject) = subject();
    let right = Independent::right();
    if let Some(file) = option("--replay") {
        let text = std::fs::read_to_string(&file).unwrap_or_else(|error| panic!("{file}: {error}"));
        let case = read(&text).unwrap_or_else(|| panic!("{file} holds no case"));
        let how = difference(&right, subject.as_ref(), &case);
        println!("{name}: {}", how.as_deref().unwrap_or("no difference"));
        return ExitCode::from(u8::from(how.is_some()));
    }
    let (cases, seed, from) = (number("--cases", 100_000), number("--seed", 1), number("--from", 0));
    println!("{name} against the independent interpreter, seed {seed}, {cases} cases from {from}");
    let start = Instant::now();
    let mut last = start;
    let (tally, found) = search(&right, subject.as_ref(), seed, from..from + cases, |tally| {
        if last.elapsed() >= EVERY {
            last = Instant::now();
            println!("case {}, {} steps, {} s", from + tally.cases as u64, tally.amount, start.elapsed().as_secs());
        }
    });
    println!("{tally} {:.1} s", start.elapsed().as_secs_f64());
    let Some(found) = found else {
        println!("no difference");
        return ExitCode::SUCCESS;
    };
    println!("case {}: {}", found.number, found.how);
    let least = shrunk(&found.case, |case| difference(&right, subject.as_ref(), case).is_some());
    let how = difference(&right, subject.as_ref(), &least).expect("shrinking keeps the difference");
    let text = written(&least, &format!("{name}, seed {seed}, case {}, shrunk: {how}", found.number));
    let directory = concat!(env!("CARGO_MANIFEST_DIR"), "/../target/differ");
    let file = format!("{directory}/{name}-{seed}-{}.txt", found.number);
    std::fs::create_dir_all(directory).and_then(|()| std::fs::write(&file, &text)).expect("the case can be saved");
    println!("{text}saved to {file}");
    ExitCode::FAILURE
}
