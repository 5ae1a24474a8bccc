//! Written scripts made from a seed: trees printed in many manners, pieces at random, texts at the limits, all of them damaged now and
//! then, with the field list and the lengths that go with them.

mod damage;
mod limits;
mod print;
mod spacing;
mod tree;
mod walk;

use crate::assemble::Branch;
use crate::image::{row, Word};
use crate::random::Random;
use crate::subject::{reading_words, LARGEST_IMAGE};
use print::{Piece, Printer};
use spacing::{words, Between, Spelling};
use tree::Wild;

#[derive(Clone, Debug, PartialEq, Eq)]
pub struct Case {
    pub text: Vec<u8>,
    pub list: Vec<u8>,
    /// The length of the lent words.
    pub words: usize,
    /// The length of the lent output.
    pub bytes: usize,
    /// What the lent memory holds before the call.
    pub pattern: u64,
}

/// Short texts are for the chart, which takes its time.
#[derive(Clone, Copy, Debug, PartialEq, Eq)]
pub enum Length {
    Short,
    Any,
}

const MOST_FIELDS: usize = 16;

pub fn case(random: &mut Random, length: Length) -> Case {
    let (spelling, mut rows) = fields(random);
    let text = text(random, &spelling, length);
    if random.once_in(12) {
        damage::rows(random, &mut rows);
    }
    let mut list = listed(&rows);
    if random.once_in(30) {
        damage::bytes(random, &mut list);
    }
    let enough = reading_words(text.len());
    let words = match random.below(30) {
        0 => random.below(enough),
        1 => enough - 1,
        2..=15 => enough,
        _ => enough + random.below(20),
    };
    let bytes = match random.below(40) {
        0 => random.below(LARGEST_IMAGE),
        1 => LARGEST_IMAGE - 1,
        2..=20 => LARGEST_IMAGE,
        _ => LARGEST_IMAGE + random.below(20),
    };
    Case { text, list, words, bytes, pattern: random.next() }
}

fn listed(rows: &[(String, String)]) -> Vec<u8> {
    rows.iter().map(|(name, code)| format!("{name},{code}\n")).collect::<String>().into_bytes()
}

/// A printed tree as a case, and what reading it must give: the image's bytes, or the number of the refusal for too many names or nodes.
pub fn printed(random: &mut Random, length: Length) -> (Case, Result<Vec<u8>, u32>) {
    let (spelling, rows) = fields(random);
    let (tree, _) = tree(random, rows.len() as u16, length);
    let pieces = pieces(random, &tree);
    let text = bytes(random, &pieces, &spelling);
    let codes: Vec<u16> = rows.iter().map(|(_, code)| code.parse().expect("a code")).collect();
    let (renamed, names) = renamed(&tree, &pieces);
    let read = match (names, tree.nodes()) {
        (129.., _) => Err(26),
        (_, 2_049..) => Err(27),
        _ => Ok(renamed.image(&codes, names).bytes()),
    };
    let words = reading_words(text.len());
    (Case { text, list: listed(&rows), words, bytes: LARGEST_IMAGE, pattern: 0 }, read)
}

/// The tree with its names numbered as they first appear in the pieces, and how many they are.
fn renamed(tree: &Branch, pieces: &[Piece]) -> (Branch, u16) {
    let mut order = Vec::new();
    for piece in pieces {
        if let Piece::Name(name) = piece {
            if !order.contains(name) {
                order.push(*name);
            }
        }
    }
    let mut tree = tree.clone();
    for (tag, number) in tree.numbers() {
        if row(tag).is_some_and(|row| row[0] == Word::Name) {
            *number = order.iter().position(|name| name == number).expect("every name is printed") as u16;
        }
    }
    (tree, order.len() as u16)
}

/// How all names and fields are spelled, one more than the list has, and the rows of the list.
fn fields(random: &mut Random) -> (Spelling, Vec<(String, String)>) {
    let count = random.pick(&[0, 1, 2, 3, 5, MOST_FIELDS]);
    let names = words(random, 140, b"XYZABP", &["Null", "Var", "Val", "Proc", "XX", "True"]);
    let fields = words(random, count + 1, b"fghxy", &["nul", "nulls", "proc0", "valu", "fX", "then"]);
    let mut code = 0;
    let row = |name: &String| {
        code += random.pick(&[1, 1, 2, 10, 400, 4_000]);
        let zeros = if random.once_in(10) { "000" } else { "" };
        (name.clone(), format!("{zeros}{code}"))
    };
    let rows = fields[..count].iter().map(row).collect();
    (Spelling { names, fields }, rows)
}

/// A tree with so many fields to take from, and how many names.
fn tree(random: &mut Random, fields: u16, length: Length) -> (Branch, u16) {
    let names = random.pick(&[1, 2, 3, 6]);
    let small = random.pick(&[1, 3, 5, 8, 12, 18, 25]);
    let rare = random.below(60);
    match (length, rare) {
        (_, 0) => (limits::with_names(random, 128), 128),
        (_, 1) => (limits::with_names(random, 129), 129),
        (Length::Any, 2) => (limits::with_nodes(random, 2_048), 5),
        (Length::Any, 3) => (limits::with_nodes(random, 2_049), 5),
        (Length::Any, 4) => (limits::with_nodes(random, 3_000), 5),
        (Length::Any, 5..=15) => {
            let nodes = random.pick(&[100, 400, 1_500]);
            (Wild { random, names, fields }.command(nodes), names)
        }
        _ => (Wild { random, names, fields }.command(small), names),
    }
}

fn pieces(random: &mut Random, tree: &Branch) -> Vec<Piece> {
    let needless = random.pick(&[0, 0, 3, 10]);
    Printer { random, needless }.command(tree)
}

fn bytes(random: &mut Random, pieces: &[Piece], spelling: &Spelling) -> Vec<u8> {
    let between = Between::any(random);
    spacing::bytes(random, pieces, spelling, between)
}

fn text(random: &mut Random, spelling: &Spelling, length: Length) -> Vec<u8> {
    let fields = spelling.fields.len() as u16 - 1;
    let pieces = match random.below(20) {
        0 => {
            let depth = if length == Length::Short { 12 } else { random.pick(&[20, 300, 3_000, 20_000]) };
            let depth = random.within(1, depth);
            return limits::nested(random, depth);
        }
        1 => return (0..random.below(40)).map(|_| random.next() as u8).collect(),
        2 => (0..random.below(12)).map(|_| damage::piece(random, 4, fields)).collect(),
        3..=4 => walk::borders(random),
        5..=8 => {
            let count = random.pick(&[6, 12, 25, 40]);
            walk::walk(random, count, 3, fields)
        }
        more => {
            let (tree, names) = tree(random, fields, length);
            let mut pieces = pieces(random, &tree);
            if more < 14 {
                damage::pieces(random, &mut pieces, names, fields);
            }
            pieces
        }
    };
    let mut text = bytes(random, &pieces, spelling);
    if random.once_in(12) {
        damage::bytes(random, &mut text);
    }
    text
}
