//! The bytes of pieces: how names and fields are spelled, and what stands between.

use super::print::Piece;
use crate::random::Random;

/// How names and fields are spelled.
pub struct Spelling {
    pub names: Vec<String>,
    pub fields: Vec<String>,
}

/// Different words that begin with one of these letters. Some are near to reserved words, or each a beginning of the next.
pub fn words(random: &mut Random, count: usize, first: &[u8], near: &[&str]) -> Vec<String> {
    let mut words: Vec<String> = Vec::new();
    while words.len() < count {
        let letter = char::from(random.pick(first));
        let grown = words.last().map_or(String::from(letter), |last| format!("{last}{}", random.below(10)));
        let number = random.below(count);
        let word = match random.below(8) {
            0 => random.pick(near).to_string(),
            1 => grown,
            2..=4 => String::from(letter),
            _ => format!("{letter}{number}"),
        };
        if !words.contains(&word) {
            words.push(word);
        }
    }
    words
}

/// What stands between two pieces.
#[derive(Clone, Copy)]
pub enum Between {
    /// Nothing where nothing is needed.
    Nothing,
    /// One space.
    Space,
    /// A line for each piece, so that the line tells the place.
    Lines,
    /// Any blanks, or nothing.
    Any,
}

impl Between {
    pub fn any(random: &mut Random) -> Between {
        random.pick(&[Between::Nothing, Between::Nothing, Between::Space, Between::Lines, Between::Any, Between::Any])
    }
}

pub fn bytes(random: &mut Random, pieces: &[Piece], spelling: &Spelling, between: Between) -> Vec<u8> {
    let mut bytes: Vec<u8> = Vec::new();
    for (place, piece) in pieces.iter().enumerate() {
        let next = match piece {
            Piece::Name(name) => spelling.names[usize::from(*name)].as_bytes(),
            Piece::Field(field) => spelling.fields[usize::from(*field) - 1].as_bytes(),
            Piece::Number(number) => number.as_bytes(),
            Piece::Mark(mark) => mark.as_bytes(),
        };
        let gap = gap(random, between);
        if gap.is_empty() && touches(pieces[..place].last(), next) {
            bytes.push(b' ');
        }
        bytes.extend(gap);
        bytes.extend(next);
    }
    bytes.extend(gap(random, between));
    bytes
}

fn gap(random: &mut Random, between: Between) -> Vec<u8> {
    match between {
        Between::Nothing => Vec::new(),
        Between::Space => vec![b' '],
        Between::Lines => vec![b'\n'],
        Between::Any => (0..random.pick(&[0, 0, 1, 1, 2, 5])).map(|_| random.pick(b"\t\n\r  \n")).collect(),
    }
}

/// Whether the two would be one place, or other places, with nothing between them.
fn touches(before: Option<&Piece>, next: &[u8]) -> bool {
    let first = next[0];
    match before {
        None => false,
        Some(Piece::Number(_)) => first.is_ascii_digit(),
        Some(Piece::Mark("=" | "|")) => first == b'=' || first == b'|',
        // a minus before a digit is the difference's where one may stand, and elsewhere another text: both are wanted
        Some(Piece::Mark(mark)) if !mark.as_bytes()[0].is_ascii_alphabetic() => false,
        Some(_) => first.is_ascii_alphanumeric(),
    }
}
