//! The listing program of document 01 on the independent interpreter: reads `script.img` and `choices.bin` here and prints.
//!
//! `listing --against PROGRAM --cases N --seed S` compares another listing program, one for x86-64, with it on N cases, byte for byte;
//! some cases lack a file or have choices that are too long.

use flagcopper_tests::arguments::here_or_against;
use flagcopper_tests::generate::case;
use flagcopper_tests::independent::listing::listing;
use flagcopper_tests::lanes::all_right;
use flagcopper_tests::random::Random;
use flagcopper_tests::x86::command;
use std::path::Path;
use std::process::ExitCode;

fn here(directory: &Path) -> String {
    let file = |name: &str| std::fs::read(directory.join(name)).ok();
    listing(file("script.img").as_deref(), file("choices.bin").as_deref())
}

/// Puts the files of a case into the directory.
fn laid_out(directory: &Path, seed: u64, number: u64) -> std::io::Result<()> {
    let random = &mut Random::of_case(seed, number);
    let mut case = case(random);
    match random.below(20) {
        0 => case.choices.resize(4_096, 0),
        1 => case.choices.resize(4_097, 0),
        _ => {}
    }
    for (name, bytes) in [("script.img", &case.script), ("choices.bin", &case.choices)] {
        if random.once_in(40) {
            std::fs::remove_file(directory.join(name)).or_else(|_| Ok::<(), std::io::Error>(()))?;
        } else {
            std::fs::write(directory.join(name), bytes)?;
        }
    }
    Ok(())
}

/// Whether the program prints the same on a case, which is laid out in the directory.
fn same(program: &Path, directory: &Path, seed: u64, number: u64) -> std::io::Result<bool> {
    laid_out(directory, seed, number)?;
    let given = command(program).current_dir(directory).output()?;
    let wanted = here(directory);
    let same = given.stdout == wanted.as_bytes();
    if !same {
        println!("case {number} of seed {seed} lies in {}; wanted:\n{wanted}", directory.display());
        println!("given:\n{}", String::from_utf8_lossy(&given.stdout));
    }
    Ok(same)
}

fn compared(program: &str, cases: u64, seed: u64) -> std::io::Result<bool> {
    let program = &std::fs::canonicalize(program)?;
    let directory = &Path::new(env!("CARGO_MANIFEST_DIR")).join("../target/listings");
    let same = all_right(directory, cases, |lane, number| same(program, lane, seed, number))?;
    if same {
        println!("{cases} listings of seed {seed} are the same");
    }
    Ok(same)
}

fn main() -> ExitCode {
    here_or_against("listing", || print!("{}", here(Path::new("."))), compared)
}
