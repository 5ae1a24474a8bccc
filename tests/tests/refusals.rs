//! Every refusal with its place, on every subject, and the order of the reasons.

use flagcopper_tests::image::{Image, Node};
use flagcopper_tests::parse::script;
use flagcopper_tests::subject::{subjects, Answer, Refusal, SIZE};

/// Wants this verdict of the check, the same refusal of run and trace, and a workspace and rows that nobody wrote.
fn refused_in(bytes: &[u8], words: usize, number: u32, place: u32) {
    for (name, subject) in subjects() {
        let refusal = Refusal { number, place };
        assert_eq!(subject.check(bytes, words), Err(refusal), "{name}");
        let (mut workspace, mut rows) = (vec![7; words], vec![7; 50]);
        assert_eq!(subject.run(bytes, &[0], &mut workspace), Answer::refused(refusal), "{name}");
        assert_eq!(subject.trace(bytes, &[0], &mut workspace, &mut rows), Answer::refused(refusal), "{name}");
        assert!(workspace.iter().all(|&word| word == 7) && rows.iter().all(|&word| word == 7), "{name} writes");
    }
}

fn refused(bytes: &[u8], number: u32, place: u32) {
    refused_in(bytes, SIZE, number, place);
}

fn accepted(image: &Image) {
    for (name, subject) in subjects() {
        assert_eq!(subject.check(&image.bytes(), SIZE), Ok(()), "{name}");
    }
}

/// An image with two fields and two names.
fn of_nodes(nodes: &[Node]) -> Image {
    Image { codes: vec![3, 9], names: 2, nodes: nodes.to_vec() }
}

const SKIP: Node = [37, 0, 0, 0];
const NULL: Node = [4, 0, 0, 0];
const TRUE: Node = [16, 0, 0, 0];

#[test]
fn ten_comes_before_all() {
    refused_in(&[], SIZE - 1, 10, 0);
    refused_in(&script("skip").bytes(), 0, 10, 0);
    accepted(&script("skip"));
}

#[test]
fn one_under_ten_bytes() {
    for length in 0..10 {
        refused(&vec![10; length], 1, 0);
    }
}

#[test]
fn two_contents() {
    let good = of_nodes(&[SKIP]).bytes();
    let wrong: [(usize, &[u16]); 5] = [
        (0, &[0, 9, 11, 2_560]),
        (1, &[1, 3, 17, 65_535]),
        (2, &[10, 13, 15]),
        (3, &[0, 2_049, 65_535]),
        (4, &[129, 65_535]),
    ];
    for (word, values) in wrong {
        for value in values {
            let mut bytes = good.clone();
            bytes[2 * word..2 * word + 2].copy_from_slice(&value.to_le_bytes());
            refused(&bytes, 2, 0);
            refused(&bytes[..10], 2, 0);
        }
    }
    accepted(&Image { codes: (1..=16).collect(), names: 128, nodes: vec![SKIP] });
}

#[test]
fn three_length() {
    let good = of_nodes(&[SKIP]).bytes();
    for length in 10..good.len() {
        refused(&good[..length], 3, 0);
    }
    for more in [1, 2, 8, 100_000] {
        refused(&[good.clone(), vec![0; more]].concat(), 3, 0);
    }
}

#[test]
fn four_codes() {
    for (codes, place) in [([0, 5, 6], 0), ([5, 0, 6], 1), ([5, 5, 6], 1), ([5, 6, 3], 2), ([9, 8, 7], 1)] {
        refused(&Image { codes: codes.to_vec(), names: 0, nodes: vec![[0; 4]] }.bytes(), 4, place);
    }
    accepted(&Image { codes: vec![1, 2, 65_535], names: 0, nodes: vec![SKIP] });
}

#[test]
fn five_tags() {
    for tag in
        (0..=65_535).filter(|tag| !matches!(tag, 1..=7 | 16..=19 | 32..=42)).filter(|tag| tag % 97 == 0 || *tag < 60)
    {
        refused(&of_nodes(&[NULL, [tag, 9, 9, 9], SKIP]).bytes(), 5, 1);
    }
}

#[test]
fn six_unused_words() {
    let listed = [(1, 1), (2, 2), (3, 2), (4, 0), (5, 1), (6, 2), (7, 2), (16, 0), (17, 0), (18, 2), (19, 2), (32, 2)];
    let others = [(33, 2), (34, 1), (35, 2), (37, 0), (38, 2), (39, 2), (41, 2), (42, 1)];
    for (tag, words) in listed.into_iter().chain(others) {
        for unused in words + 1..4 {
            let mut node = [tag, 0, 0, 0];
            node[unused] = 1;
            refused(&of_nodes(&[NULL, node, SKIP]).bytes(), 6, 1);
        }
    }
    refused(&of_nodes(&[[36, 0, 0, 0]]).bytes(), 7, 0);
    refused(&of_nodes(&[[40, 0, 0, 0]]).bytes(), 7, 0);
}

#[test]
fn seven_words_that_do_not_fit() {
    for node in [[1, 0, 0, 0], [1, 3, 0, 0], [5, 2, 0, 0], [34, 2, 0, 0], [35, 2, 0, 0], [32, 2, 1, 0], [7, 2, 1, 0]] {
        refused(&of_nodes(&[NULL, SKIP, node]).bytes(), 7, 2);
    }
    for node in [[3, 0, 2, 0], [42, 2, 0, 0], [42, 9, 0, 0], [38, 1, 0, 0], [3, 0, 1, 0], [39, 1, 1, 0], [36, 0, 0, 1]]
    {
        refused(&of_nodes(&[NULL, SKIP, node]).bytes(), 7, 2);
    }
    refused(&Image { codes: vec![], names: 0, nodes: vec![[1, 1, 0, 0]] }.bytes(), 7, 0);
    refused(&of_nodes(&[[42, 0, 0, 0], [0; 4]]).bytes(), 7, 0);
}

#[test]
fn eight_uses() {
    refused(&of_nodes(&[NULL, SKIP]).bytes(), 8, 0);
    refused(&of_nodes(&[SKIP, [38, 0, 0, 0]]).bytes(), 8, 0);
    refused(&of_nodes(&[NULL, NULL, [3, 0, 1, 0], SKIP]).bytes(), 8, 2);
    refused(&of_nodes(&[SKIP, [42, 0, 0, 0], [42, 0, 0, 0], [38, 1, 2, 0]]).bytes(), 8, 0);
    refused(&of_nodes(&[NULL, [5, 1, 0, 0], [3, 0, 1, 0]]).bytes(), 8, 2);
    refused(&of_nodes(&[TRUE]).bytes(), 8, 0);
}

#[test]
fn nine_names() {
    refused(&script("x = 1").bytes(), 9, 1);
    refused(&script("malloc(x)").bytes(), 9, 0);
    refused(&script("{var x; skip; malloc(x)}").bytes(), 9, 2);
    refused(&script("var x; {(proc y: skip)(x); x = y}").bytes(), 9, 4);
    refused(&script("var x; if y == x z = 1 else skip").bytes(), 9, 0);
    accepted(&script("var x; var x; {x = proc x: x = x; x(x)}"));
}
