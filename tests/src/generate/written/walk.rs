//! Texts grown word by word along the chart: each word is one that some text goes on with, and the last often isn't. So every border of
//! the grammar is met, however seldom a tree leads there.

use super::damage::piece;
use super::print::Piece;
use crate::chart::{Earley, Token};
use crate::random::Random;

fn tokens(piece: &Piece) -> Vec<Token> {
    match piece {
        Piece::Name(_) => vec![Token::Name(0)],
        Piece::Field(_) => vec![Token::Field(0)],
        Piece::Number(number) if number.starts_with('-') => vec![Token::Minus { sign: true }, Token::Number(None)],
        Piece::Number(_) => vec![Token::Number(None)],
        Piece::Mark("-") => vec![Token::Minus { sign: false }],
        Piece::Mark(mark) => vec![Token::Mark(mark)],
    }
}

/// Beginnings behind which something has just ended or is just due.
const BEGINNINGS: [&str; 16] = [
    "",
    "X",
    "X = Y",
    "X . f",
    "X - Y",
    "( X )",
    "X = proc Y : skip",
    "X . proc Y : skip",
    "X = ( proc Y : skip )",
    "X = 1 - proc Y : Z = 1",
    "while true",
    "while X",
    "while X == Y",
    "while X == proc Y : skip",
    "if X < proc Y : Z = 1",
    "{ skip",
];

/// What may or may not follow.
const NEXT: [&str; 20] = [
    "-1",
    "- 1",
    "- X",
    "1",
    "X",
    "f",
    "( X )",
    ". f",
    ". proc X : skip",
    "== X",
    "= X",
    "< 1",
    "; skip",
    "|| skip",
    "proc X : skip",
    "skip",
    "else skip",
    "}",
    ")",
    "",
];

fn split(words: &'static str) -> impl Iterator<Item = Piece> {
    words.split_ascii_whitespace().map(|word| match word {
        "X" | "Y" | "Z" => Piece::Name(u16::from(word.as_bytes()[0] - b'X')),
        "f" => Piece::Field(1),
        "1" | "-1" => Piece::Number(word.into()),
        mark => Piece::Mark(mark),
    })
}

/// One thing behind another, and one more behind both.
pub fn borders(random: &mut Random) -> Vec<Piece> {
    let words = [random.pick(&BEGINNINGS), random.pick(&NEXT), random.pick(&NEXT)];
    words.into_iter().flat_map(split).collect()
}

/// About so many pieces, from a beginning on.
pub fn walk(random: &mut Random, length: usize, names: u16, fields: u16) -> Vec<Piece> {
    let mut chart = Earley::default();
    let mut pieces: Vec<Piece> = split(random.pick(&BEGINNINGS)).collect();
    for token in pieces.iter().flat_map(tokens) {
        assert!(chart.push(token), "a text goes on from every beginning");
    }
    while pieces.len() < length {
        let next = piece(random, names, fields);
        let tokens = tokens(&next);
        let read = tokens.iter().take_while(|&&token| chart.push(token)).count();
        if read == tokens.len() {
            pieces.push(next);
        } else if random.once_in(40) {
            pieces.push(next);
            return pieces;
        } else {
            (0..read).for_each(|_| chart.pop());
        }
    }
    pieces
}
