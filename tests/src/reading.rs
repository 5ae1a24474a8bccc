//! The comparison of readers: both get the same text, list and lent memory, and must agree on the answer, on every byte of the output and
//! on every lent word, those that nobody may touch included. A difference is made smaller and kept in a file that can be tried again.

use crate::generate::written::{case, Case, Length};
use crate::search::{Compared, Found, Tally};
use crate::shrink::{fewer, hex, unhex, Smaller};
use crate::subject::{reading_words, Reader, Reading, LARGEST_IMAGE};

#[derive(PartialEq, Eq)]
struct Outcome {
    reading: Reading,
    work: Vec<u32>,
    out: Vec<u8>,
}

fn outcome(reader: &dyn Reader, case: &Case) -> Outcome {
    let pattern = |length: usize| (0..length as u64).map(|place| case.pattern.rotate_left(place as u32 % 64) ^ place);
    let mut work: Vec<u32> = pattern(case.words).map(|word| word as u32).collect();
    let mut out: Vec<u8> = pattern(case.bytes).map(|byte| byte as u8).collect();
    let reading = reader.read(&case.text, &case.list, &mut work, &mut out);
    Outcome { reading, work, out }
}

fn first_other<T: PartialEq>(left: &[T], right: &[T]) -> Option<usize> {
    left.iter().zip(right).position(|(a, b)| a != b)
}

/// The first difference between the reference and a reader on a case, in words.
pub fn difference(reference: &dyn Reader, reader: &dyn Reader, case: &Case) -> Option<String> {
    compared(reference, reader, case).1
}

fn compared(reference: &dyn Reader, reader: &dyn Reader, case: &Case) -> (Reading, Option<String>) {
    let (wanted, given) = (outcome(reference, case), outcome(reader, case));
    let how = if wanted.reading != given.reading {
        Some(format!("{} in place of {}", told(&given.reading), told(&wanted.reading)))
    } else if let Some(place) = first_other(&wanted.out, &given.out) {
        Some(format!("byte {place} is {} in place of {}", given.out[place], wanted.out[place]))
    } else {
        first_other(&wanted.work, &given.work)
            .map(|place| format!("word {place} is {:#x} in place of {:#x}", given.work[place], wanted.work[place]))
    };
    (wanted.reading, how)
}

fn told(reading: &Reading) -> String {
    match reading {
        Reading::Image(bytes) => format!("image {}", hex(bytes)),
        Reading::Refused { number, line } => format!("refusal {number} at line {line}"),
    }
}

/// Compares on generated cases of the seed until they differ or the cases are used up; `progress` hears of each case.
pub fn search(
    (reference, reader): (&dyn Reader, &dyn Reader),
    length: Length,
    seed: u64,
    cases: std::ops::Range<u64>,
    progress: impl FnMut(&Tally),
) -> (Tally, Option<Found<Case>>) {
    let compared = |case: &Case| {
        let (reading, how) = compared(reference, reader, case);
        let answer = match reading {
            Reading::Image(_) => "image".to_string(),
            Reading::Refused { number, .. } => format!("refusal {number}"),
        };
        Compared { met: vec![answer], amount: case.text.len(), how }
    };
    crate::search::search(seed, cases, Tally::of_unit("bytes"), |random| case(random, length), compared, progress)
}

impl Smaller for Case {
    /// Less text or list, with just the memory that it asks for; then spaces in place of other blanks, and less in place of more.
    fn smaller(&self) -> Box<dyn Iterator<Item = Case> + '_> {
        let lent = |text: Vec<u8>, list: Vec<u8>| Case { words: reading_words(text.len()), text, list, ..self.clone() };
        let plain = Case { bytes: LARGEST_IMAGE, pattern: 0, ..lent(self.text.clone(), self.list.clone()) };
        let enough = self.words >= plain.words && self.bytes >= plain.bytes;
        let plain = (enough && *self != plain).then_some(plain);
        let short =
            move |case: Case| Case { words: if enough { case.words } else { self.words.min(case.words) }, ..case };
        let texts = fewer(&self.text).map(move |text| short(lent(text, self.list.clone())));
        let lists = fewer(&self.list).map(move |list| Case { list, ..self.clone() });
        let blanks = (0..self.text.len()).filter(|&at| matches!(self.text[at], b'\t' | b'\n' | b'\r')).map(|at| {
            let mut text = self.text.clone();
            text[at] = b' ';
            Case { text, ..self.clone() }
        });
        let simpler = simpler(&self.text).map(move |text| short(lent(text, self.list.clone())));
        Box::new(plain.into_iter().chain(texts).chain(lists).chain(blanks).chain(simpler))
    }
}

/// A short text with any part of it left out, something small in its place, or nothing but that part.
fn simpler(text: &[u8]) -> impl Iterator<Item = Vec<u8>> + '_ {
    let short = if text.len() <= 150 { text.len() } else { 0 };
    let parts =
        (1..=short).rev().flat_map(move |length| (0..=short - length).map(move |start| (start, start + length)));
    parts.flat_map(move |(start, end)| {
        let smaller = ["", "1", "skip"].into_iter().filter(move |other| other.len() < end - start);
        let without = smaller.map(move |other| [&text[..start], other.as_bytes(), &text[end..]].concat());
        without.chain((end - start < text.len()).then(|| text[start..end].to_vec()))
    })
}

/// The text of a case, with remarks and the written script for a reader.
pub fn kept(case: &Case, remarks: &str) -> String {
    let shown = |bytes: &[u8]| bytes.escape_ascii().to_string();
    format!(
        "# {remarks}\n# {}\n# {}\ntext {}\nlist {}\nwords {}\nbytes {}\npattern {}\n",
        shown(&case.text),
        shown(&case.list),
        hex(&case.text),
        hex(&case.list),
        case.words,
        case.bytes,
        case.pattern
    )
}

/// The case that a text holds.
pub fn again(text: &str) -> Option<Case> {
    let value = |key: &str| text.lines().find_map(|line| line.strip_prefix(key)).map(str::trim);
    Some(Case {
        text: unhex(value("text")?)?,
        list: unhex(value("list")?)?,
        words: value("words")?.parse().ok()?,
        bytes: value("bytes")?.parse().ok()?,
        pattern: value("pattern")?.parse().ok()?,
    })
}
