//! The arguments of the programs that compare: `--name value`.

use std::process::ExitCode;

pub fn option(name: &str) -> Option<String> {
    let arguments: Vec<String> = std::env::args().collect();
    let at = arguments.iter().position(|argument| argument == name)?;
    Some(arguments.get(at + 1).unwrap_or_else(|| panic!("{name} wants a value")).clone())
}

pub fn number(name: &str, default: u64) -> u64 {
    option(name).map_or(default, |value| value.parse().unwrap_or_else(|_| panic!("{name} wants a number")))
}

/// What a program does that plays another: without arguments the same as it, here; with `--against PROGRAM --cases N --seed S` it
/// compares that one with itself. It ends with 1 when they differ.
pub fn here_or_against(
    name: &str,
    here: impl FnOnce(),
    compared: impl FnOnce(&str, u64, u64) -> std::io::Result<bool>,
) -> ExitCode {
    let arguments: Vec<String> = std::env::args().skip(1).collect();
    match arguments.iter().map(String::as_str).collect::<Vec<_>>()[..] {
        [] => {
            here();
            ExitCode::SUCCESS
        }
        ["--against", program, "--cases", cases, "--seed", seed] => {
            let (cases, seed) = (cases.parse().expect("a number of cases"), seed.parse().expect("a seed"));
            let same = compared(program, cases, seed).expect("the program can be run");
            ExitCode::from(u8::from(!same))
        }
        _ => {
            eprintln!("{name} [--against PROGRAM --cases N --seed S]");
            ExitCode::FAILURE
        }
    }
}
