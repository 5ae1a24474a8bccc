//! Runs a script of two branches with turns taken fairly by the proved library, and shows the choices that the run picked and how it
//! ended; the base run on these choices ends the same.

use flagcopper_tests::library::Library;
use flagcopper_tests::parse::script;
use flagcopper_tests::subject::{Fair, Subject, SIZE};
use std::process::ExitCode;

fn main() -> ExitCode {
    let script = script("{var x; x = 1 || var y; y = 2}").bytes();
    let (mut picks, mut workspace) = ([0; 4_096], vec![0; SIZE]);
    let turned = Library.fair(&script, &mut picks, &mut workspace);
    if turned.answer.refusal != 0 {
        println!("refused {} at {}", turned.answer.refusal, turned.answer.place.expect("a refusal has a place"));
        return ExitCode::FAILURE;
    }
    let picks = &picks[..turned.picked];
    println!("picks {picks:?}");
    println!("end {} steps {}", turned.answer.end, turned.answer.steps);
    let again = Library.run(&script, picks, &mut workspace);
    println!("again: end {} steps {}", again.end, again.steps);
    ExitCode::SUCCESS
}
