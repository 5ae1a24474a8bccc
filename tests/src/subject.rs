//! What is compared: anything that checks and runs scripts as document 01 says, with its answers as numbers.
//!
//! The size of the workspace and the numbers are those of docs/; zero means nothing in all of them. A place or a node,
//! which count from 0, is `None` where there is none.

/// Words of 8 bytes that a run needs: 3 counts, 1,024 frames, 256 objects of 16 values, 255 parts.
pub const SIZE: usize = 5_378;

/// The faults are numbered from 1 to this.
pub const FAULTS: usize = 8;

/// Words of a row of the trace: choice, node, tag, frames after, objects after.
pub const ROW: usize = 5;

#[derive(Clone, Copy, Debug, PartialEq, Eq)]
pub struct Refusal {
    pub number: u32,
    pub place: u32,
}

/// The answer of a check: accepted, or the refusal.
pub type Verdict = Result<(), Refusal>;

/// The answer of a run: a refusal with its place and nothing else, or an end with its number, node and steps.
#[derive(Clone, Copy, Debug, Default, PartialEq, Eq)]
pub struct Answer {
    pub refusal: u32,
    pub place: Option<u32>,
    pub end: u32,
    pub number: u32,
    pub node: Option<u32>,
    pub steps: usize,
}

impl Answer {
    pub fn refused(refusal: Refusal) -> Answer {
        Answer { refusal: refusal.number, place: Some(refusal.place), ..Answer::default() }
    }

    /// The verdict of the check before this answer.
    pub fn verdict(&self) -> Verdict {
        self.place.map_or(Ok(()), |place| Err(Refusal { number: self.refusal, place }))
    }
}

/// The answer of a fair run, and how many choices it picked: they stand at the front of the lent list.
#[derive(Clone, Copy, Debug, PartialEq, Eq)]
pub struct Turned {
    pub answer: Answer,
    pub picked: usize,
}

pub trait Subject {
    fn check(&self, script: &[u8], workspace_words: usize) -> Verdict;

    fn run(&self, script: &[u8], choices: &[u8], workspace: &mut [u64]) -> Answer;

    /// A run that also writes a row for each step, as many whole rows as fit.
    fn trace(&self, script: &[u8], choices: &[u8], workspace: &mut [u64], rows: &mut [u32]) -> Answer;

    /// The same as one who takes turns fairly; the flat interpreter doesn't.
    fn as_fair(&self) -> Option<&dyn Fair> {
        None
    }
}

/// A subject that takes turns fairly too, as order 4 says.
pub trait Fair: Subject {
    /// A run that picks its own choices, at most as many as there is room for, and writes them into the list.
    fn fair(&self, script: &[u8], picks: &mut [u8], workspace: &mut [u64]) -> Turned;
}

/// Words of 4 bytes that the reader of a text of so many bytes is lent: more than what such a text can leave open.
pub fn reading_words(text_bytes: usize) -> usize {
    text_bytes.saturating_mul(3).saturating_add(4)
}

/// Bytes that the reader is lent for the image: as many as the largest has.
pub const LARGEST_IMAGE: usize = 10 + 2 * 16 + 8 * 2_048;

/// The answer of a reading: the image, or the refusal with its line, which is 0 where the text has no part in it.
#[derive(Clone, Debug, PartialEq, Eq)]
pub enum Reading {
    Image(Vec<u8>),
    Refused { number: u32, line: u32 },
}

impl Reading {
    /// What a reading leaves in the memory that it was lent: the image's bytes and no other; 20, 28 and 21 touch none of the words, and
    /// every other answer leaves those that the text asks for zero.
    pub fn leave(&self, text: &[u8], work: &mut [u32], out: &mut [u8]) {
        if let Reading::Image(bytes) = self {
            out[..bytes.len()].copy_from_slice(bytes);
        }
        if !matches!(self, Reading::Refused { number: 20 | 28 | 21, .. }) {
            work[..reading_words(text.len())].fill(0);
        }
    }
}

/// Anything that reads written scripts as order 1 says.
pub trait Reader {
    fn read(&self, text: &[u8], list: &[u8], work: &mut [u32], out: &mut [u8]) -> Reading;
}

/// Everyone who must give order 1's answers: the independent reader, and the library where it is linked.
pub fn readers() -> Vec<(&'static str, Box<dyn Reader>)> {
    vec![
        ("descent", Box::new(crate::written::Descent::right())),
        #[cfg(feature = "library")]
        ("library", Box::new(crate::library::Library)),
    ]
}

/// Everyone who must give the documents' answers: the independent interpreter, the flat one, and the library where it is linked.
pub fn subjects() -> Vec<(&'static str, Box<dyn Subject>)> {
    vec![
        ("independent", Box::new(crate::independent::Independent::right())),
        ("flat", Box::new(crate::flat::Flat)),
        #[cfg(feature = "library")]
        ("library", Box::new(crate::library::Library)),
    ]
}
