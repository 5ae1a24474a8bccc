//! Texts and lists that break the rules: pieces exchanged, dropped, doubled, put in; bytes the same; ends cut off.

use super::print::Piece;
use crate::random::Random;

const MARKS: [&str; 28] = [
    "null", "proc", "true", "false", "var", "malloc", "skip", "while", "if", "else", "atom", "val", "{", "}", "(", ")",
    ";", ".", "-", "<", "=", "|", ":", "==", "||", "(", ")", "-",
];

/// Numbers inside 32 bits, just outside, and far outside.
const NUMBERS: [&str; 12] = [
    "0",
    "1",
    "-1",
    "2147483647",
    "2147483648",
    "-2147483648",
    "-2147483649",
    "4294967295",
    "4294967296",
    "18446744073709551617",
    "00000000000000000000002147483647",
    "-340282366920938463463374607431768211457",
];

/// Any piece of a text with so many names and fields; one more field is in no list.
pub fn piece(random: &mut Random, names: u16, fields: u16) -> Piece {
    match random.below(10) {
        0..=1 => Piece::Name(random.below(usize::from(names)) as u16),
        2 if fields == 0 || random.once_in(8) => Piece::Field(fields + 1),
        2 => Piece::Field(random.within(1, usize::from(fields)) as u16),
        3 if random.once_in(8) => Piece::Number(random.pick(&NUMBERS).into()),
        3 => Piece::Number(random.pick(&["0", "1", "-1", "25", "-025"]).into()),
        _ => Piece::Mark(random.pick(&MARKS)),
    }
}

pub fn pieces(random: &mut Random, pieces: &mut Vec<Piece>, names: u16, fields: u16) {
    for _ in 0..random.pick(&[1, 1, 1, 2, 3]) {
        let (at, other) = (random.below(pieces.len() + 1), piece(random, names, fields));
        if at == pieces.len() {
            pieces.push(other);
            continue;
        }
        match random.below(9) {
            0 => pieces.truncate(at),
            1 => drop(pieces.remove(at)),
            2 => pieces.insert(at, pieces[at].clone()),
            3 => pieces.insert(at, other),
            4 => {
                let with = random.below(pieces.len());
                pieces.swap(at, with);
            }
            5 => number(random, pieces),
            6..=7 => without_parentheses(pieces, at),
            _ => pieces[at] = other,
        }
    }
}

/// Takes the next parentheses away, both of them.
fn without_parentheses(pieces: &mut Vec<Piece>, from: usize) {
    let Some(open) = (from..pieces.len()).find(|&at| pieces[at] == Piece::Mark("(")) else {
        return;
    };
    let mut depth = 0;
    for at in open..pieces.len() {
        match pieces[at] {
            Piece::Mark("(") => depth += 1,
            Piece::Mark(")") => depth -= 1,
            _ => {}
        }
        if depth == 0 {
            pieces.remove(at);
            pieces.remove(open);
            return;
        }
    }
}

/// Another number in place of one that is there.
fn number(random: &mut Random, pieces: &mut [Piece]) {
    let mut numbers: Vec<_> = pieces.iter_mut().filter(|piece| matches!(piece, Piece::Number(_))).collect();
    if !numbers.is_empty() {
        let at = random.below(numbers.len());
        *numbers[at] = Piece::Number(random.pick(&NUMBERS).into());
    }
}

/// A byte changed, dropped, doubled or put in, or the end cut off.
pub fn bytes(random: &mut Random, bytes: &mut Vec<u8>) {
    let (any, near) = (random.next() as u8, random.pick(b"#,_&\0\x0b\x80-=|. \n09azAZ@[`{/:"));
    let byte = random.pick(&[any, near, near]);
    let at = random.below(bytes.len() + 1);
    if at == bytes.len() {
        bytes.push(byte);
        return;
    }
    match random.below(5) {
        0 => bytes[at] = byte,
        1 => drop(bytes.remove(at)),
        2 => bytes.insert(at, bytes[at]),
        3 => bytes.insert(at, byte),
        _ => bytes.truncate(at),
    }
}

/// Rows that break a rule of the list, or just don't.
pub fn rows(random: &mut Random, rows: &mut Vec<(String, String)>) {
    let names = ["", "val", "true", "F", "f_", "1f", "f ", "f", "g", "ab0Z", "atom1"];
    let codes = [
        "",
        "0",
        "00",
        "1",
        "65535",
        "65536",
        "0000000000000000000000001",
        "-1",
        "+5",
        " 7",
        "7\r",
        "99999999999999999999999",
    ];
    for _ in 0..random.within(1, 2) {
        let at = random.below(rows.len() + 1);
        let row = (random.pick(&names).to_string(), random.pick(&codes).to_string());
        if at == rows.len() {
            rows.push(row);
            continue;
        }
        match random.below(6) {
            0 => rows[at].0 = row.0,
            1 => rows[at].1 = row.1,
            2 => rows.insert(at, row),
            3 => rows.insert(at, rows[at].clone()),
            4 => rows[at].1 = rows[random.below(rows.len())].1.clone(),
            _ => rows[at].0 = rows[random.below(rows.len())].0.clone(),
        }
    }
}
