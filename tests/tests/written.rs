//! The texts worked by hand: small ones on every reader, long ones on those that are made for them.

use flagcopper_tests::chart::Chart;
use flagcopper_tests::image::Image;
use flagcopper_tests::independent::Independent;
use flagcopper_tests::subject::{readers, reading_words, Reader, Reading, Refusal, Subject, LARGEST_IMAGE, SIZE};
use flagcopper_tests::worked::{long, longest, rows, LIST, LISTS, TEXTS};
use flagcopper_tests::written;

fn read(reader: &dyn Reader, text: &str, list: &str) -> Reading {
    let mut work = vec![7; reading_words(text.len())];
    reader.read(text.as_bytes(), list.as_bytes(), &mut work, &mut [0; LARGEST_IMAGE])
}

fn image(bytes: &[u8]) -> Image {
    Image::of_bytes(bytes).expect("the image has the layout")
}

/// The answer in words. Nothing but the scoping is left to the check, so that an image is accepted or refused with 9.
fn told(reading: &Reading) -> String {
    match reading {
        Reading::Refused { number, line } => format!("refused {number}, line {line}"),
        Reading::Image(bytes) => {
            let verdict = Independent::right().check(bytes, SIZE);
            assert!(matches!(verdict, Ok(()) | Err(Refusal { number: 9, .. })), "{verdict:?}");
            let Image { names, nodes, .. } = image(bytes);
            let node = |[tag, a, b, c]: &[u16; 4]| format!("{tag} {a} {b} {c}");
            format!("N {names}: {}", nodes.iter().map(node).collect::<Vec<_>>().join("; "))
        }
    }
}

/// The answer with the image's counts alone.
fn counted(reading: &Reading) -> String {
    match reading {
        Reading::Image(bytes) => format!("accepted, M {}, N {}", image(bytes).nodes.len(), image(bytes).names),
        refused => told(refused),
    }
}

fn holds(reader: &dyn Reader, text: &str, list: &str, answer: &str) {
    let reading = read(reader, text, list);
    let given = if answer.starts_with("accepted") { counted(&reading) } else { told(&reading) };
    let start: String = text.chars().take(80).collect();
    assert_eq!(given, answer, "{start} with {list}");
}

/// The readers and, for short texts, the slow one.
fn all_readers() -> Vec<(&'static str, Box<dyn Reader>)> {
    readers().into_iter().chain([("chart", Box::new(Chart) as Box<dyn Reader>)]).collect()
}

#[test]
fn texts() {
    for (_, reader) in all_readers() {
        TEXTS.iter().for_each(|(text, answer)| holds(reader.as_ref(), text, LIST, answer));
    }
}

#[test]
fn lists() {
    for (_, reader) in all_readers() {
        LISTS.iter().for_each(|(list, answer)| holds(reader.as_ref(), "skip", list, answer));
        holds(reader.as_ref(), "skip", &rows(16), "N 0: 37 0 0 0");
        holds(reader.as_ref(), "skip", &rows(17), "refused 21, line 0");
    }
}

#[test]
fn long_texts() {
    let texts = long().into_iter().map(|(_, text, answer)| (text, answer)).chain(longest());
    let texts: Vec<_> = texts.collect();
    for (_, reader) in readers() {
        texts.iter().for_each(|(text, answer)| holds(reader.as_ref(), text, LIST, answer));
    }
}

/// Lengths alone decide 20 and 28, in this order; no length is too large to be lent.
#[test]
fn lent_lengths() {
    let enough = reading_words(4);
    for (words, bytes, number) in [
        (0, 0, 20),
        (usize::MAX, LARGEST_IMAGE - 1, 20),
        (enough - 1, LARGEST_IMAGE, 28),
        (0, usize::MAX, 28),
        (enough, LARGEST_IMAGE, 21),
        (usize::MAX, usize::MAX, 21),
    ] {
        assert_eq!(written::read(b"skip", b"#", words, bytes), Reading::Refused { number, line: 0 });
    }
}

/// The answers by what is lent, and what they leave in it: text, list, words and bytes more than enough, answer.
#[test]
fn lent_memory() {
    let cases = [
        ("skip", LIST, 0, 0, Reading::Image(vec![])),
        ("skip", LIST, 5, 9, Reading::Image(vec![])),
        ("#", "#", -5, -1, Reading::Refused { number: 20, line: 0 }),
        ("#", "#", -1, 0, Reading::Refused { number: 28, line: 0 }),
        ("#", "#", 0, 0, Reading::Refused { number: 21, line: 0 }),
        ("\n#", LIST, 2, 3, Reading::Refused { number: 22, line: 2 }),
        ("", LIST, 1, 0, Reading::Refused { number: 23, line: 1 }),
    ];
    for (_, reader) in all_readers() {
        for (text, list, words, bytes, answer) in &cases {
            let wanted = reading_words(text.len());
            let mut work = vec![7; wanted.checked_add_signed(*words).expect("some words")];
            let mut out = vec![7; LARGEST_IMAGE.checked_add_signed(*bytes).expect("some bytes")];
            let given = reader.read(text.as_bytes(), list.as_bytes(), &mut work, &mut out);
            let length = match &given {
                Reading::Image(image) => {
                    assert_eq!(out[..image.len()], *image);
                    image.len()
                }
                refused => {
                    assert_eq!(refused, answer);
                    0
                }
            };
            assert!(out[length..].iter().all(|&byte| byte == 7), "{text} with {list}");
            let untouched = matches!(given, Reading::Refused { number: 20 | 28 | 21, .. });
            let zeros = if untouched { 0 } else { wanted };
            assert!(work[..zeros].iter().all(|&word| word == 0) && work[zeros..].iter().all(|&word| word == 7));
        }
    }
}

/// The words that the library asks for: three for each byte and four, or the largest number.
#[cfg(feature = "library")]
#[test]
fn the_library_names_the_same_words() {
    let last = (usize::MAX - 4) / 3;
    for bytes in [0, 1, 4, 262_144, last, last + 1, last + 2, usize::MAX / 2, usize::MAX] {
        assert_eq!(flagcopper_tests::library::read_words(bytes), reading_words(bytes));
    }
}
