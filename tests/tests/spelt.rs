//! Images as text, by the library: worked images, refusals, and that what is written of a text's image is read as the same image.

#![cfg(feature = "library")]

use flagcopper_tests::generate::written::{printed, Length};
use flagcopper_tests::image::Image;
use flagcopper_tests::library::{write, Library};
use flagcopper_tests::random::Random;
use flagcopper_tests::subject::{reading_words, Reader, Reading, LARGEST_IMAGE};

const LIST: &str = "f,3\ng,7\n";

fn read(text: &[u8], list: &[u8]) -> Reading {
    let (mut work, mut out) = (vec![7; reading_words(text.len())], vec![7; LARGEST_IMAGE]);
    Library.read(text, list, &mut work, &mut out)
}

fn image(text: &str) -> Vec<u8> {
    match read(text.as_bytes(), LIST.as_bytes()) {
        Reading::Image(bytes) => bytes,
        refused => panic!("{text}: {refused:?}"),
    }
}

/// The text, with the bytes behind it as they were lent.
fn written(image: &[u8], list: &[u8], lent: usize) -> Result<Vec<u8>, u32> {
    let mut out = vec![0xA5; lent];
    let answer = write(image, list, &mut out);
    let length = answer.unwrap_or(0);
    assert!(out[length..].iter().all(|&byte| byte == 0xA5), "bytes behind the text, or of a refusal");
    answer.map(|length| out[..length].to_vec())
}

fn holds(text: &str, list: &str, wanted: &str) {
    let given = written(&image(text), list.as_bytes(), 4_096).expect("a text");
    assert_eq!(String::from_utf8(given).expect("ASCII"), wanted);
}

#[test]
fn worked_images() {
    holds("var X; X = 1", LIST, "var A0; A0 = 1");
    holds("X.f = ((1 - (2 - 3)))", LIST, "A0.f = 1 - (2 - 3)");
    holds("X.f = (1 - 2) - 3", "", "A0.a0 = 1 - 2 - 3");
    holds("(proc Y: skip)((X.g).f)", LIST, "(proc A0: skip)(A1.g.f)");
    holds("while X == Y (-1)(-2147483648)", LIST, "while A0 == A1(-1)(-2147483648)");
    holds(
        "{atom(malloc(Z)) || if true skip else {skip; Z = null}}",
        "",
        "{atom(malloc(A0)) || if true skip else {skip; A0 = null}}",
    );
}

#[test]
fn refusals() {
    let good = image("X.f = 1");
    assert_eq!(written(&good[1..], LIST.as_bytes(), 100), Err(30));
    assert_eq!(written(&good, b"f,3", 100), Err(31));
    assert_eq!(written(&good, b"f,3\ng,8\n", 100), Err(32));
    assert_eq!(written(&good, LIST.as_bytes(), 7), Err(33));
    assert_eq!(written(&good, LIST.as_bytes(), 8), Ok(b"A0.f = 1".to_vec()));
    // in the order of their numbers
    assert_eq!(written(b"", b"f,3", 0), Err(30));
    assert_eq!(written(&good, b"f,3", 0), Err(31));
    assert_eq!(written(&good, b"f,3\n", 0), Err(32));
}

/// A text's image has its names by first appearance and its nodes children first, so its own text gives it again.
#[test]
fn written_and_read_again() {
    let mut random = Random::new(1);
    let mut images = 0;
    for _ in 0..1_500 {
        let (case, _) = printed(&mut random, Length::Short);
        if let Reading::Image(bytes) = read(&case.text, &case.list) {
            let text = written(&bytes, &case.list, 100_000).expect("a text");
            assert_eq!(read(&text, &case.list), Reading::Image(bytes), "{}", text.escape_ascii());
            images += 1;
        }
    }
    assert!(images > 1_000, "{images} images");
}

/// An image that no text gives: three names of which the last is used, eleven fields, and the node of the field before that of the name.
#[test]
fn an_image_that_was_not_read() {
    let codes: Vec<u16> = (1..=11).collect();
    let nodes = [[1, 11, 0, 0], [5, 2, 0, 0], [2, 1, 0, 0], [36, 1, 0, 2]];
    let old = Image { codes: codes.clone(), names: 3, nodes: nodes.to_vec() };
    let text = written(&old.bytes(), b"", 100).expect("a text");
    assert_eq!(text, b"A2.a10 = 1");
    let list: String = codes.iter().map(|code| format!("a{},{code}\n", code - 1)).collect();
    let renumbered = [[5, 0, 0, 0], [1, 11, 0, 0], [2, 1, 0, 0], [36, 0, 1, 2]];
    let new = Image { codes, names: 1, nodes: renumbered.to_vec() };
    assert_eq!(read(&text, list.as_bytes()), Reading::Image(new.bytes()));
}
