//! Runs document 01's listing script, `var x; x = 1`, with the proved library, and reads its cell back.

use flagcopper_tests::library::Library;
use flagcopper_tests::readback::Words;
use flagcopper_tests::subject::{Subject, SIZE};
use std::process::ExitCode;

fn main() -> ExitCode {
    let script = [
        [10, 0, 10, 3, 1].as_slice(), // contents: no fields, 3 nodes, 1 name
        &[2, 1, 0, 0],                // node 0: integer 1
        &[35, 0, 0, 0],               // node 1: assign name 0, node 0
        &[32, 0, 1, 0],               // node 2: var name 0, node 1
    ];
    let script: Vec<u8> = script.concat().into_iter().flat_map(u16::to_le_bytes).collect();
    let mut workspace = vec![0; SIZE];
    let answer = Library.run(&script, &[0, 0], &mut workspace);
    if answer.refusal != 0 {
        println!("refused {} at {}", answer.refusal, answer.place.expect("a refusal has a place"));
        return ExitCode::FAILURE;
    }
    println!("end {} steps {}", answer.end, answer.steps);
    let words = Words::of(&workspace).expect("the workspace has the size");
    for (number, frame) in words.frames().enumerate() {
        println!("cell {number} name {} {:?}", frame.name, frame.cell);
    }
    ExitCode::SUCCESS
}
