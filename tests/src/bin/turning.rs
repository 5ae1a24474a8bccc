//! The program `turns` from outside: what it prints, the choice file that it makes, and that it leaves nothing else behind; and that the
//! listing program, which lies beside it, shows the same end for that file.
//!
//! `turning --against PROGRAM --cases N --seed S` tries the program, one for x86-64, on situations by hand and on N that are made from the
//! seed: scripts as they are generated, missing, in a folder's place, with and without an old choice file, where none can be made.
//! `turning` alone does what the program does, here, with `script.img` and `choices.bin`.

use flagcopper_tests::arguments::here_or_against;
use flagcopper_tests::generate::case;
use flagcopper_tests::outside::{outcome, with, Files, Outcome, Situation, Trial};
use flagcopper_tests::parse::script;
use flagcopper_tests::random::Random;
use flagcopper_tests::turning::{turning, USAGE};
use flagcopper_tests::worked_turns::worked_turns;
use std::io::Result;
use std::path::Path;
use std::process::ExitCode;

const NAMES: [&str; 2] = ["script.img", "choices.bin"];

// ---- what must come of a situation

fn wanted(situation: &Situation) -> Outcome {
    let files = &situation.files;
    let [name, choices] = situation.arguments[..] else { return Outcome::quiet(USAGE, files) };
    if name == choices {
        return Outcome::quiet(USAGE, files);
    }
    let turned = turning(files.get(name).and_then(|file| file.as_deref()));
    match turned.choices {
        None => Outcome::quiet(turned.printed, files),
        Some(bytes) => Outcome::of_making(files, choices, bytes, turned.printed),
    }
}

/// The listing program's line about the end of the script's run by the choices that were made is what was printed.
fn listed(program: &Path, folder: &Path, situation: &Situation, given: &Outcome) -> Result<bool> {
    let [script, choices] = situation.arguments[..] else { return Ok(true) };
    if given.complains || !given.printed.starts_with(b"end") {
        return Ok(true);
    }
    let both = NAMES.into_iter().zip([script, choices]);
    let files: Files = both.map(|(name, made)| (name.to_string(), given.files[made].clone())).collect();
    let listing = program.with_file_name("listing");
    let printed = outcome(&listing, &folder.join("listing"), &Situation { files, arguments: Vec::new() })?.printed;
    let same = printed.split_inclusive(|&byte| byte == b'\n').any(|line| line == given.printed);
    if !same {
        println!("the listing program prints:\n{}", String::from_utf8_lossy(&printed));
    }
    Ok(same)
}

// ---- situations by hand

fn by_hand() -> Vec<(&'static str, Situation, Outcome)> {
    let mut all = Vec::new();
    let mut add = |what, files: &Files, arguments: &[&'static str], outcome| {
        all.push((what, Situation { files: files.clone(), arguments: arguments.to_vec() }, outcome));
    };
    let only = |name: &str, text: &str| with(&Files::new(), name, &script(text).bytes());
    let of = |text: &str| only("script.img", text);
    let in_branches = of("{var x; x = 1 || var x; x = 2}");
    let picks: &[u8] = &[0, 1, 0, 0];
    let mut ends = |what, text: &str, end: &str, picks: &[u8]| {
        add(what, &of(text), &NAMES, Outcome::quiet(end, &with(&of(text), "choices.bin", picks)));
    };
    ends("done", "var x; x = 1", "end 1 steps 2\n", &[0, 0]);
    ends("a fault", "var x; {{skip; skip} || x = null - 1}", "end 2 fault 1 node 5 steps 2\n", &[0, 0, 1]);
    let counting = |more: &str| format!("var x; {{x = 2046; {{while 0 < x x = x - 1; {more}}}}}");
    ends("done with the last choice", &counting("skip"), "end 1 steps 4096\n", &[0; 4_096]);
    ends("one choice more", &counting("{skip; skip}"), "end 4 steps 4096\n", &[0; 4_096]);
    for worked in worked_turns() {
        match worked.name {
            "no_frame" => ends("no frame", &worked.text, "end 3 room 1 steps 2051\n", &worked.picks),
            "too_large_as_opened" => ends("no choice", &worked.text, "end 3 room 3 steps 0\n", &[]),
            "too_large_at_the_first_step" => ends("no step", &worked.text, "end 3 room 3 steps 0\n", &[0]),
            _ => {}
        }
    }
    let old = with(&in_branches, "choices.bin", &[7; 5_000]);
    let done = Outcome::quiet("end 1 steps 4\n", &with(&old, "choices.bin", picks));
    add("a longer choice file before", &old, &NAMES, done);
    let mut apart = only("a script", "{var x; x = 1 || var x; x = 2}");
    apart.insert("out".into(), None);
    let made = Outcome::quiet("end 1 steps 4\n", &with(&apart, "out/my choices", picks));
    add("other names", &apart, &["a script", "out/my choices"], made);
    for arguments in [&[][..], &["script.img"], &["script.img", "choices.bin", "x"]] {
        add("a wrong number of arguments", &old, arguments, Outcome::quiet("usage: turns SCRIPT CHOICES\n", &old));
    }
    let usage = Outcome::quiet("usage: turns SCRIPT CHOICES\n", &old);
    add("one name for both", &old, &["script.img", "script.img"], usage);
    let refused = of("{skip; malloc(x)}");
    add("a refusal", &refused, &NAMES, Outcome::quiet("refused 9 at 1\n", &refused));
    let beside = with(&refused, "choices.bin", b"old");
    add("a refusal beside an old file", &beside, &NAMES, Outcome::quiet("refused 9 at 1\n", &beside));
    let empty = with(&beside, "script.img", b"");
    add("an empty script", &empty, &NAMES, Outcome::quiet("refused 1 at 0\n", &empty));
    let long = with(&beside, "script.img", &[script("skip").bytes(), vec![0; 100_000]].concat());
    add("a script that is too long", &long, &NAMES, Outcome::quiet("refused 3 at 0\n", &long));
    let none = with(&Files::new(), "choices.bin", b"old");
    add("no script", &none, &NAMES, Outcome::quiet("no input\n", &none));
    // a folder can be opened and not read: it is no empty file
    let mut folder = none.clone();
    folder.insert("script.img".into(), None);
    add("a folder in the script's place", &folder, &NAMES, Outcome::quiet("no input\n", &folder));
    let mut taken = in_branches.clone();
    taken.insert("choices.bin".into(), None);
    add("a folder in the choices' place", &taken, &NAMES, Outcome::loud(&taken));
    let part = with(&old, "choices.bin.part", b"another's");
    add("a part that is there", &part, &NAMES, Outcome::loud(&part));
    // in /proc nobody makes a file, not even root, whom the permissions of a folder don't hold
    for choices in ["out/choices.bin", "script.img/choices.bin", "/proc/choices.bin"] {
        add("a folder that isn't there or takes no file", &old, &["script.img", choices], Outcome::loud(&old));
    }
    all
}

// ---- generated situations

fn generated(seed: u64, number: u64) -> Situation {
    let random = &mut Random::of_case(seed, number);
    let mut bytes = case(random).script;
    if random.once_in(40) {
        bytes.resize(random.pick(&[16_426, 16_427, 70_000]), 0);
    }
    let [script, choices] = if random.once_in(5) { ["a script", "made.bin"] } else { NAMES };
    let mut files = Files::new();
    match random.below(40) {
        0 => {}
        1 => drop(files.insert(script.into(), None)),
        _ => drop(files.insert(script.into(), Some(bytes))),
    }
    match random.below(40) {
        0 => drop(files.insert(choices.into(), None)),
        1 => drop(files.insert(format!("{choices}.part"), Some(b"another's".to_vec()))),
        2..=20 => drop(files.insert(choices.into(), Some(vec![9; random.below(5_000)]))),
        _ => {}
    }
    let arguments = match random.below(40) {
        0 => vec![script],
        1 => vec![script, "out/choices.bin"],
        2 => vec![script, script],
        _ => vec![script, choices],
    };
    Situation { files, arguments }
}

fn compared(program: &str, cases: u64, seed: u64) -> Result<bool> {
    let program = std::fs::canonicalize(program)?;
    let trial = Trial { program, directory: "turnings", wanted, also: listed };
    trial.compared(&by_hand(), generated, cases, seed)
}

fn turned_here() {
    let turned = turning(std::fs::read(NAMES[0]).ok().as_deref());
    if let Some(choices) = turned.choices {
        std::fs::write(NAMES[1], choices).expect("the choices can be written");
    }
    print!("{}", turned.printed);
}

fn main() -> ExitCode {
    here_or_against("turning", turned_here, compared)
}
