//! What the program `encode` prints, and the image that it writes, from the independent reader.
//!
//! What could stand at a place is found by trial: a token of each kind is put on a line of its own behind the part of the text that is right,
//! and can stand there if the reader doesn't refuse it on that line.

use crate::subject::{reading_words, Reading, LARGEST_IMAGE};
use crate::written::places::reserved;
use crate::written::{judged, read, Refused};

/// The longest text and the longest list that the program takes.
pub const LONGEST_TEXT: usize = 262_144;
pub const LONGEST_LIST: usize = 4_096;

/// What the program prints for any other number of arguments than none and three.
pub const USAGE: &str = "usage: encode [TEXT FIELDS IMAGE]\n";

/// Bytes of a place that are shown.
const SHOWN: usize = 64;

/// A token of each kind, in the order of the kinds, and the word for it. A minus is told once, whether a digit comes next or not.
const KINDS: [(&str, &str); 27] = [
    ("X", "a name"),
    ("x", "a field"),
    ("1", "a number"),
    ("-1", "-"),
    ("-", "-"),
    ("null", "null"),
    ("proc", "proc"),
    ("true", "true"),
    ("false", "false"),
    ("var", "var"),
    ("malloc", "malloc"),
    ("skip", "skip"),
    ("while", "while"),
    ("if", "if"),
    ("else", "else"),
    ("atom", "atom"),
    ("(", "("),
    (")", ")"),
    ("{", "{"),
    ("}", "}"),
    (";", ";"),
    ("||", "||"),
    (".", "."),
    ("=", "="),
    ("==", "=="),
    ("<", "<"),
    (":", ":"),
];

#[derive(Debug, PartialEq, Eq)]
pub struct Encoding {
    pub printed: Vec<u8>,
    pub image: Option<Vec<u8>>,
}

/// What the program does with its two files, each `None` where it is missing, if the image is to have this name.
pub fn encoding(text: Option<&[u8]>, list: Option<&[u8]>, name: &str) -> Encoding {
    let printed = |lines: &str| Encoding { printed: lines.as_bytes().to_vec(), image: None };
    let (Some(text), Some(list)) = (text, list) else { return printed("no input\n") };
    if text.len() > LONGEST_TEXT {
        return printed("text too long\n");
    }
    if list.len() > LONGEST_LIST {
        return printed("list too long\n");
    }
    match judged(text, list) {
        Ok(image) => Encoding { printed: format!("{name} {} bytes\n", image.len()).into_bytes(), image: Some(image) },
        Err(refused) => {
            let first = format!("refused {} at line {}\n", refused.number, refused.line);
            Encoding { printed: [first.into_bytes(), why(text, list, refused), vec![10]].concat(), image: None }
        }
    }
}

/// The second line of a refusal.
fn why(text: &[u8], list: &[u8], refused: Refused) -> Vec<u8> {
    let Some((from, to)) = refused.place else {
        return match refused.number {
            21 => {
                let (row, what) = bad_row(list).expect("a list that is refused has a bad row");
                format!("row {row}: {what}").into_bytes()
            }
            27 => b"too many nodes: over 2048".to_vec(),
            other => unreachable!("{other} isn't met: enough is lent"),
        };
    };
    let stood = &text[from..to];
    let what = match refused.number {
        22 => format!("bad byte {}", stood[0]).into_bytes(),
        23 if stood.is_empty() => b"early end".to_vec(),
        23 => [b"bad word order: ", shown(stood).as_slice()].concat(),
        24 => [b"unknown field: ", shown(stood).as_slice()].concat(),
        25 => [b"number outside 32 bits: ", shown(stood).as_slice()].concat(),
        26 => [b"too many names: ", shown(stood).as_slice()].concat(),
        other => unreachable!("{other} isn't given at a place"),
    };
    [what, b"; could be: ".to_vec(), could_be(text, list, from).join(", ").into_bytes()].concat()
}

fn shown(stood: &[u8]) -> Vec<u8> {
    match stood.get(..SHOWN) {
        Some(first) if stood.len() > SHOWN => [first, b".."].concat(),
        _ => stood.to_vec(),
    }
}

/// The kinds of tokens with which the text can go on from a place, what stands before it being right, and whether it can end there.
pub fn could_be(text: &[u8], list: &[u8], place: usize) -> Vec<&'static str> {
    let right = &text[..place];
    // a minus is another kind where a digit comes next
    let sign = right.ends_with(b"-") && text.get(place).is_some_and(u8::is_ascii_digit);
    let before = [right, if sign { b"" } else { b"\n" }].concat();
    let mut could: Vec<_> =
        KINDS.into_iter().filter(|(token, _)| goes_on(&before, token, list)).map(|(_, word)| word).collect();
    could.dedup();
    could.extend(whole(right, list).then_some("the end"));
    could
}

fn answer(text: &[u8], list: &[u8]) -> Reading {
    read(text, list, reading_words(text.len()), LARGEST_IMAGE)
}

/// Whether the token isn't refused where it stands, behind bytes that are right. Its field, number or name may be.
fn goes_on(before: &[u8], token: &str, list: &[u8]) -> bool {
    let line = 1 + before.iter().filter(|&&byte| byte == b'\n').count() as u32;
    match answer(&[before, token.as_bytes(), b"\n"].concat(), list) {
        Reading::Refused { number: 23, line: refused } => refused > line,
        _ => true,
    }
}

/// Whether this is a whole text, though it may have too many nodes.
fn whole(text: &[u8], list: &[u8]) -> bool {
    matches!(answer(text, list), Reading::Image(_) | Reading::Refused { number: 27, .. })
}

/// The first bad row of a list, from 1, and the first thing that is wrong with it.
fn bad_row(list: &[u8]) -> Option<(usize, &'static str)> {
    let mut rest = list;
    let (mut names, mut last) = (Vec::new(), 0);
    for row in 1.. {
        if rest.is_empty() {
            return None;
        }
        let name = front(rest, u8::is_ascii_alphanumeric);
        let behind_name = &rest[name.len()..];
        let digits = front(behind_name.get(1..).unwrap_or_default(), u8::is_ascii_digit);
        let behind_digits = behind_name.get(1 + digits.len()..).unwrap_or_default();
        // as far as it need be told from others
        let code = digits.iter().fold(0, |code: u32, digit| (10 * code + u32::from(digit - b'0')).min(1 << 20));
        let faults = [
            (row > 16, "over 16 rows"),
            (!name.first().is_some_and(u8::is_ascii_lowercase), "no field name"),
            (reserved(name).is_some(), "a reserved word as name"),
            (names.contains(&name), "a name that stands before"),
            (!behind_name.starts_with(b","), "no comma behind the name"),
            (digits.is_empty(), "no digit behind the comma"),
            (!behind_digits.starts_with(b"\n"), "no byte 10 behind the code"),
            (!(1..=65_535).contains(&code), "a code not from 1 to 65535"),
            (code <= last, "a code not above the one before"),
        ];
        if let Some((_, what)) = faults.into_iter().find(|(wrong, _)| *wrong) {
            return Some((row, what));
        }
        names.push(name);
        last = code;
        rest = &behind_digits[1..];
    }
    unreachable!("rows are counted without end")
}

fn front(bytes: &[u8], belongs: fn(&u8) -> bool) -> &[u8] {
    let end = bytes.iter().position(|byte| !belongs(byte)).unwrap_or(bytes.len());
    &bytes[..end]
}
