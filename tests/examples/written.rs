//! Reads a written script with the proved library, runs its image, and says how the run ends.

use flagcopper_tests::library::{read_words, Library};
use flagcopper_tests::readback::Words;
use flagcopper_tests::subject::{Reader, Reading, Subject, LARGEST_IMAGE, SIZE};
use std::process::ExitCode;

const TEXT: &str = "var Feature; {malloc(Feature);\n    Feature.class = 4110 - -10}\n";
const LIST: &str = "class,3\n";

fn main() -> ExitCode {
    let (mut words, mut output) = (vec![0; read_words(TEXT.len())], vec![0; LARGEST_IMAGE]);
    let image = match Library.read(TEXT.as_bytes(), LIST.as_bytes(), &mut words, &mut output) {
        Reading::Image(image) => image,
        Reading::Refused { number, line } => {
            println!("refused {number} at line {line}");
            return ExitCode::FAILURE;
        }
    };
    println!("image {} bytes", image.len());
    let mut workspace = vec![0; SIZE];
    let answer = Library.run(&image, &[0; 4], &mut workspace);
    println!("end {} steps {}", answer.end, answer.steps);
    let state = Words::of(&workspace).expect("the workspace has the size");
    for (number, object) in state.objects().enumerate() {
        println!("object {number} field 1 {:?}", object[0]);
    }
    ExitCode::SUCCESS
}
