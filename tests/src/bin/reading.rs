//! Compares a reader of written scripts with the independent one and with the chart on generated cases, and saves the first difference,
//! shrunk.
//!
//! `reading --cases N --seed S [--from K] [--against NAME]`: N short texts against the chart, and a tenth as many of any length against the
//! independent reader. `reading --words N`: every list of up to N words against the chart. `reading --replay FILE`: a saved case.
//! `reading --speed yes`: millions of bytes a second of every reader, by the length of the text. The reader is the last of `readers()`, or with
//! `--against` the one of that name, or the independent reader with a wrong turn. It ends with 1 when a difference is found.

use flagcopper_tests::arguments::{number, option};
use flagcopper_tests::chart::every::every;
use flagcopper_tests::chart::Chart;
use flagcopper_tests::generate::written::{Case, Length};
use flagcopper_tests::reading::{again, difference, kept, search};
use flagcopper_tests::search::Found;
use flagcopper_tests::shrink::shrunk;
use flagcopper_tests::subject::{readers, reading_words, Reader, LARGEST_IMAGE};
use flagcopper_tests::written::{Descent, Wrong};
use std::hint::black_box;
use std::process::ExitCode;
use std::time::Instant;

fn reader() -> (String, Box<dyn Reader>) {
    let mut readers = readers();
    let Some(name) = option("--against") else {
        let (name, reader) = readers.pop().expect("there is a reader");
        return (name.to_string(), reader);
    };
    let right = readers.into_iter().find(|(known, _)| *known == name).map(|(_, reader)| reader);
    let wrong = || {
        let turn = Wrong::ALL.into_iter().find(|wrong| format!("{wrong:?}") == name)?;
        Some(Box::new(Descent::wrong(turn)) as Box<dyn Reader>)
    };
    let reader =
        right.or_else(wrong).unwrap_or_else(|| panic!("no {name}: there are the readers and {:?}", Wrong::ALL));
    (name, reader)
}

/// Shows and saves what was found, shrunk.
fn save(name: &str, pair: (&dyn Reader, &dyn Reader), seed: u64, found: &Found<Case>) {
    println!("case {}: {}", found.number, found.how);
    let least = shrunk(&found.case, |case| difference(pair.0, pair.1, case).is_some());
    let how = difference(pair.0, pair.1, &least).expect("shrinking keeps the difference");
    let text = kept(&least, &format!("{name}, seed {seed}, case {}, shrunk: {how}", found.number));
    let directory = concat!(env!("CARGO_MANIFEST_DIR"), "/../target/reading");
    let file = format!("{directory}/{name}-{seed}-{}.txt", found.number);
    std::fs::create_dir_all(directory).and_then(|()| std::fs::write(&file, &text)).expect("the case can be saved");
    println!("{text}saved to {file}");
}

fn generated(name: &str, reader: &dyn Reader) -> ExitCode {
    let (cases, seed, from) = (number("--cases", 20_000), number("--seed", 1), number("--from", 0));
    let right = Descent::right();
    let kinds: [(&str, &dyn Reader, Length, u64); 2] = [
        ("the chart", &Chart, Length::Short, cases),
        ("the independent reader", &right, Length::Any, cases.div_ceil(10)),
    ];
    // the independent reader against itself would say nothing
    let kinds = if name == "descent" { &kinds[..1] } else { &kinds[..] };
    for &(other, reference, length, cases) in kinds {
        println!("{name} against {other}, seed {seed}, {cases} cases from {from}");
        let start = Instant::now();
        let (tally, found) = search((reference, reader), length, seed, from..from + cases, |_| {});
        println!("{tally} {:.1} s", start.elapsed().as_secs_f64());
        if let Some(found) = found {
            save(name, (reference, reader), seed, &found);
            return ExitCode::FAILURE;
        }
    }
    println!("no difference");
    ExitCode::SUCCESS
}

fn all_lists(name: &str, reader: &dyn Reader) -> ExitCode {
    match every(reader, number("--words", 6) as usize) {
        Ok(seen) => {
            println!("{name}: no difference: {seen:?}");
            ExitCode::SUCCESS
        }
        Err(how) => {
            println!("{name}: {how}");
            ExitCode::FAILURE
        }
    }
}

fn replayed(name: &str, reader: &dyn Reader, file: &str) -> ExitCode {
    let text = std::fs::read_to_string(file).unwrap_or_else(|error| panic!("{file}: {error}"));
    let case = again(&text).unwrap_or_else(|| panic!("{file} holds no case"));
    let how = difference(&Descent::right(), reader, &case);
    println!("{name}: {}", how.as_deref().unwrap_or("no difference"));
    ExitCode::from(u8::from(how.is_some()))
}

/// Texts of about so many bytes: commands as offices write them, one long difference, nothing but nesting.
fn texts(bytes: usize) -> [(&'static str, String); 3] {
    let command = "{if Feature.class == 4110 Feature.class = 4120 - -1 else skip;\n  ";
    let commands = bytes / (command.len() + 1);
    let groups = bytes / 2;
    [
        ("commands", format!("{}skip{}", command.repeat(commands), "}".repeat(commands))),
        ("a difference", format!("X = 1{}", " - Count.code".repeat(bytes / 13))),
        ("parentheses", format!("X = {}1{}", "(".repeat(groups), ")".repeat(groups))),
    ]
}

/// The time grows as the text does: the figures of a line stay about the same.
fn speed() -> ExitCode {
    let sizes = [65_536, 262_144, 1_048_576];
    println!("{:<28}{:>10}{:>10}{:>10}", "million bytes a second", "64 KB", "256 KB", "1 MB");
    let mut out = vec![0; LARGEST_IMAGE];
    for (name, reader) in readers() {
        for kind in 0..3 {
            let mut line = String::new();
            for size in sizes {
                let (what, text) = &texts(size)[kind];
                let mut work = vec![0; reading_words(text.len())];
                let mut once = || {
                    let start = Instant::now();
                    black_box(reader.read(text.as_bytes(), b"class,1\ncode,2\n", &mut work, &mut out));
                    start.elapsed().as_secs_f64()
                };
                let least = (0..7).map(|_| once()).fold(f64::INFINITY, f64::min);
                if line.is_empty() {
                    line = format!("{:<28}", format!("{name}, {what}"));
                }
                line += &format!("{:>10.1}", text.len() as f64 / least / 1e6);
            }
            println!("{line}");
        }
    }
    ExitCode::SUCCESS
}

fn main() -> ExitCode {
    let (name, reader) = reader();
    if option("--speed").is_some() {
        speed()
    } else if option("--words").is_some() {
        all_lists(&name, reader.as_ref())
    } else if let Some(file) = option("--replay") {
        replayed(&name, reader.as_ref(), &file)
    } else {
        generated(&name, reader.as_ref())
    }
}
