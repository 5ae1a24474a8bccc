//! Images that break the rules: a well-formed one damaged in one to three places, aimed at each refusal, and bytes at random.

use super::themes::script;
use crate::image::{kind, row, Image, Word};
use crate::random::Random;

pub fn damaged(random: &mut Random) -> Vec<u8> {
    let mut image = script(random).image;
    for _ in 0..random.pick(&[0, 1, 1, 1, 2, 3]) {
        match random.below(7) {
            0 => code(random, &mut image),
            1 => tag(random, &mut image),
            2 => word(random, &mut image, |is| is == Word::Unused),
            3 => word(random, &mut image, |is| is != Word::Unused),
            4 => child(random, &mut image),
            5 => name(random, &mut image),
            _ => stray(random, &mut image),
        }
    }
    let mut bytes = image.bytes();
    match random.below(8) {
        0 => contents(random, &mut bytes),
        1 => length(random, &mut bytes),
        2 => any_byte(random, &mut bytes),
        _ => {}
    }
    bytes
}

/// Near to zero, to the limits or to the number itself, or anything.
fn odd(random: &mut Random, now: u16) -> u16 {
    let near = random.pick(&[0, 1, 2, 10, 16, 17, 32, 128, 129, 2_047, 2_048, 2_049, 65_535]);
    let any = random.next() as u16;
    random.pick(&[near, now.wrapping_add(1), now.wrapping_sub(1), any % 64, any])
}

fn code(random: &mut Random, image: &mut Image) {
    if let Some(last) = image.codes.len().checked_sub(1) {
        let position = random.within(0, last);
        image.codes[position] = odd(random, image.codes[position]);
    }
}

fn tag(random: &mut Random, image: &mut Image) {
    let node = random.below(image.nodes.len());
    let near = random.within(0, 45) as u16;
    let other = odd(random, near);
    image.nodes[node][0] = random.pick(&[near, near, other]);
}

/// Changes a word of some node that its row has as wanted.
fn word(random: &mut Random, image: &mut Image, wanted: impl Fn(Word) -> bool) {
    let node = random.below(image.nodes.len());
    let row = row(image.nodes[node][0]).unwrap_or([Word::Unused; 3]);
    for place in (1..4).filter(|place| wanted(row[place - 1])) {
        if random.once_in(2) {
            image.nodes[node][place] = odd(random, image.nodes[node][place]);
        }
    }
}

/// Points a node to another child of the kind that it wants.
fn child(random: &mut Random, image: &mut Image) {
    let node = random.below(image.nodes.len());
    let row = row(image.nodes[node][0]).unwrap_or([Word::Unused; 3]);
    let other = random.below(image.nodes.len());
    let fits = |is: &Word| matches!(is, Word::Child(wanted) if kind(image.nodes[other][0]) == Some(*wanted));
    if let Some(place) = row.iter().position(fits) {
        image.nodes[node][place + 1] = other as u16;
    }
}

/// Changes the name of a node to another that exists.
fn name(random: &mut Random, image: &mut Image) {
    image.names = image.names.max(random.within(1, 5) as u16);
    let node = random.below(image.nodes.len());
    if row(image.nodes[node][0]).is_some_and(|row| row[0] == Word::Name) {
        image.nodes[node][1] = random.below(usize::from(image.names)) as u16;
    }
}

/// Adds or takes away a node at the end, so that another is the root.
fn stray(random: &mut Random, image: &mut Image) {
    if random.once_in(2) && image.nodes.len() > 1 {
        image.nodes.pop();
    } else if image.nodes.len() < 2_048 {
        let below = random.below(image.nodes.len()) as u16;
        image.nodes.push(random.pick(&[
            [4, 0, 0, 0],
            [16, 0, 0, 0],
            [37, 0, 0, 0],
            [42, below, 0, 0],
            [3, below, below, 0],
        ]));
    }
}

fn contents(random: &mut Random, bytes: &mut [u8]) {
    let word = 2 * random.below(5);
    let now = u16::from_le_bytes([bytes[word], bytes[word + 1]]);
    bytes[word..word + 2].copy_from_slice(&odd(random, now).to_le_bytes());
}

fn length(random: &mut Random, bytes: &mut Vec<u8>) {
    let length = match random.below(4) {
        0 => random.below(12),
        1 => bytes.len() + random.within(1, 9),
        2 => bytes.len() - 1,
        _ => random.below(bytes.len()),
    };
    bytes.resize(length, random.next() as u8);
}

fn any_byte(random: &mut Random, bytes: &mut [u8]) {
    let place = random.below(bytes.len());
    bytes[place] = random.next() as u8;
}

/// Bytes at random, or random words behind contents that fit.
pub fn arbitrary(random: &mut Random) -> Vec<u8> {
    if random.once_in(3) {
        return (0..random.below(80)).map(|_| random.next() as u8).collect();
    }
    let tags = [1, 2, 3, 4, 5, 6, 7, 16, 17, 18, 19, 32, 33, 34, 35, 36, 37, 38, 39, 40, 41, 42];
    let nodes = random.within(1, 6);
    let node = |number: usize, random: &mut Random| {
        let tag = random.pick(&tags);
        let words = row(tag).expect("a tag of the table").map(|is| match is {
            Word::Unused => 0,
            _ => random.below(number + 1) as u16,
        });
        [tag, words[0], words[1], words[2]]
    };
    Image { codes: vec![4], names: 2, nodes: (0..nodes).map(|number| node(number, random)).collect() }.bytes()
}
