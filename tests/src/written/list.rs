//! The field list: rows of a name, a comma, a decimal code and byte 10.

use super::places::reserved;
use super::Wrong;

#[derive(Default)]
pub struct List {
    pub names: Vec<Vec<u8>>,
    pub codes: Vec<u16>,
}

/// The list that the bytes write, or none: refusal 21.
pub fn list(mut bytes: &[u8], wrong: Option<Wrong>) -> Option<List> {
    let mut list = List::default();
    while !bytes.is_empty() {
        let name = run(&mut bytes, u8::is_ascii_alphanumeric);
        one(&mut bytes, b',')?;
        let code = code(run(&mut bytes, u8::is_ascii_digit))?;
        if !(bytes.is_empty() && wrong == Some(Wrong::LastRowUnended)) {
            one(&mut bytes, 10)?;
        }
        let right = name.first().is_some_and(u8::is_ascii_lowercase) && reserved(name).is_none();
        let new = list.names.iter().all(|known| known != name);
        if !right || !new || list.codes.len() == 16 || list.codes.last().is_some_and(|&last| code <= last) {
            return None;
        }
        list.names.push(name.to_vec());
        list.codes.push(code);
    }
    Some(list)
}

fn run<'a>(bytes: &mut &'a [u8], belongs: fn(&u8) -> bool) -> &'a [u8] {
    let end = bytes.iter().position(|byte| !belongs(byte)).unwrap_or(bytes.len());
    let (run, rest) = bytes.split_at(end);
    *bytes = rest;
    run
}

fn one(bytes: &mut &[u8], wanted: u8) -> Option<()> {
    let (&first, rest) = bytes.split_first()?;
    *bytes = rest;
    (first == wanted).then_some(())
}

/// What the digits say, where it is from 1 to 65,535; nothing is left to say a number where all are zeros.
fn code(digits: &[u8]) -> Option<u16> {
    let zeros = digits.iter().take_while(|&&digit| digit == b'0').count();
    std::str::from_utf8(&digits[zeros..]).ok()?.parse().ok()
}
