//! The words of the workspace and the rows of the trace, written out by hand, on every subject.

use flagcopper_tests::image::Image;
use flagcopper_tests::parse::script;
use flagcopper_tests::subject::{subjects, SIZE};

const OBJECTS: usize = 1_027;
const PARTS: usize = 5_123;

/// Wants these words after the run, all others of the size zero, and a word past it untouched.
fn words(image: &Image, choices: &[u8], wanted: &[(usize, u64)]) {
    for (name, subject) in subjects() {
        let mut workspace = vec![99; SIZE + 1];
        subject.run(&image.bytes(), choices, &mut workspace);
        let mut expected = vec![0; SIZE + 1];
        expected[SIZE] = 99;
        wanted.iter().for_each(|&(place, word)| expected[place] = word);
        let other = workspace.iter().zip(&expected).position(|(word, right)| word != right);
        assert_eq!(other.map(|place| (place, workspace[place], expected[place])), None, "{name}");
    }
}

#[test]
fn parts_in_preorder() {
    let image = script("var x; {{skip; x = 1} || atom(skip)}");
    let (skip, assign, inside, atom) = (0, 2, 4, 5);
    let (command, waiting) = (|node: u64| 1 + 8 * (1 + 2_048 * node), |node: u64| 2 + 8 * (1 + 2_048 * node));
    let start = [(2, 1), (PARTS, 1 + 8 * (2_048 * 7))];
    words(&image, &[], &start);
    let opened = [(PARTS, 3), (PARTS + 1, waiting(assign)), (PARTS + 2, command(skip)), (PARTS + 3, command(atom))];
    words(&image, &[0], &[&[(0, 1), (2, 4), (3, 7)], &opened[..]].concat());
    let entered = [(0, 1), (2, 5), (3, 7), (PARTS + 3, 4), (PARTS + 4, command(inside))];
    words(&image, &[0, 1], &[&opened[..3], &entered].concat());
    words(&image, &[0, 1, 0], &[(0, 1), (2, 2), (3, 7), (PARTS, waiting(assign)), (PARTS + 1, command(skip))]);
    words(&image, &[0, 1, 0, 0, 0], &[(0, 1), (3, 2 + 8)]);
}

#[test]
fn values_in_cells_and_fields() {
    let image = script("fields a 5, b 9: var x; {malloc(x); {x.b = proc y: skip; (proc z: skip)(b)}}");
    let (procedure, body) = (4, 6);
    let frames = [(0, 2), (3, 4), (4, 3 + 16 + ((2 + 256) << 35))];
    let fields = [(1, 1), (OBJECTS, 1), (OBJECTS + 1, 5 + 8 * (1 + 2_048 * procedure))];
    let parts = [(2, 1), (PARTS, 1 + 8 * (2 + 2_048 * body))];
    words(&image, &[0; 4], &[&frames[..], &fields, &parts].concat());
    let numbers = script("fields a 5, b 9: var x; var y; {x = -1; {y = b; malloc(y)}}");
    let minus_one = 2 + 8 * 0xFFFF_FFFF;
    let opened = [(2, 2), (PARTS, 2 + 8 * (2 + 2_048 * 5)), (PARTS + 1, 1 + 8 * (2 + 2_048))];
    words(&numbers, &[0; 2], &[&[(0, 2), (3, 7), (4, 7 + ((1 + 256) << 35))], &opened[..]].concat());
    words(
        &numbers,
        &[0; 4],
        &[(0, 2), (2, 1), (3, minus_one), (4, 3 + 16 + ((1 + 256) << 35)), (PARTS, 1 + 8 * (2 + 2_048 * 4))],
    );
}

#[test]
fn only_whole_rows_are_written() {
    let image = script("var x; {malloc(x) || skip}").bytes();
    let rows = [[0, 3, 32, 1, 0], [1, 1, 37, 1, 0], [0, 0, 34, 1, 1]].concat();
    for (name, subject) in subjects() {
        for length in 0..25 {
            let (mut workspace, mut lent) = (vec![0; SIZE], vec![7; length]);
            let answer = subject.trace(&image, &[0, 1, 0, 0], &mut workspace, &mut lent);
            assert_eq!((answer.end, answer.steps), (1, 3), "{name}");
            let whole = (length / 5 * 5).min(rows.len());
            assert_eq!(lent[..whole], rows[..whole], "{name}: {length} words");
            assert!(lent[whole..].iter().all(|&word| word == 7), "{name}: {length} words");
        }
    }
}
