//! What the program `turns` prints, and the choice file that it makes, from the independent interpreter.

use crate::independent::check::checked;
use crate::independent::listing::{end_line, LONGEST};
use crate::independent::turns::fair;
use crate::subject::{Refusal, SIZE};
use std::rc::Rc;

/// What the program prints for any other number of arguments than two, and for one name twice: the choices would take the script's place.
pub const USAGE: &str = "usage: turns SCRIPT CHOICES\n";

pub struct Turning {
    pub printed: String,
    pub choices: Option<Vec<u8>>,
}

/// What the program does with its script, `None` where it is missing: a fair run of as many choices as the listing program takes.
pub fn turning(script: Option<&[u8]>) -> Turning {
    let Some(script) = script else { return Turning { printed: "no input\n".to_string(), choices: None } };
    match checked(script, SIZE, None) {
        Err(Refusal { number, place }) => Turning { printed: format!("refused {number} at {place}\n"), choices: None },
        Ok(script) => {
            let (finished, choices) = fair(&Rc::new(script), LONGEST, None);
            Turning { printed: end_line(&finished) + "\n", choices: Some(choices) }
        }
    }
}
