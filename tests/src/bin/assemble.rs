//! Makes the two files of a run, `script.img` and `choices.bin`, here: `assemble 'var x; x = 1' 0 0`. The script is written as
//! `parse` reads it; what follows are the choices. Neither file is written unless both are known.

use flagcopper_tests::parse::script;
use std::any::Any;
use std::panic::{catch_unwind, set_hook};
use std::process::ExitCode;

/// What the parser says of a mistake: it panics, as a mistake in a test should.
fn said(panic: &(dyn Any + Send)) -> String {
    let fixed = panic.downcast_ref::<&str>().map(|text| text.to_string());
    let made = panic.downcast_ref::<String>().cloned();
    fixed.or(made).unwrap_or_else(|| "no script".into())
}

/// The bytes of the image and of the choices, or what is wrong with the arguments.
fn files(arguments: &[String]) -> Result<(Vec<u8>, Vec<u8>), String> {
    let (text, choices) = arguments.split_first().ok_or("assemble SCRIPT CHOICE ...")?;
    let image = catch_unwind(|| script(text)).map_err(|panic| said(panic.as_ref()))?;
    let choice = |word: &String| word.parse().map_err(|_| format!("a choice is a number of 0 to 255: {word}"));
    Ok((image.bytes(), choices.iter().map(choice).collect::<Result<_, _>>()?))
}

fn main() -> ExitCode {
    // the message is printed below, once and without the place in the parser
    set_hook(Box::new(|_| {}));
    let arguments: Vec<String> = std::env::args().skip(1).collect();
    let written = files(&arguments).and_then(|(image, choices)| {
        let write = |name: &str, bytes| std::fs::write(name, bytes).map_err(|error| format!("{name}: {error}"));
        write("script.img", image).and_then(|()| write("choices.bin", choices))
    });
    match written {
        Ok(()) => ExitCode::SUCCESS,
        Err(wrong) => {
            eprintln!("{wrong}");
            ExitCode::FAILURE
        }
    }
}
