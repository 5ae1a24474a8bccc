//! The proved library behind its C interface: linked on x86-64, and elsewhere asked of a program that is.

#[cfg(not(target_arch = "x86_64"))]
mod bridged;
#[cfg(target_arch = "x86_64")]
mod linked;

use crate::subject::{Answer, Fair, Reader, Reading, Refusal, Subject, Turned, Verdict};
#[cfg(not(target_arch = "x86_64"))]
use bridged as reached;
#[cfg(target_arch = "x86_64")]
use linked as reached;

#[derive(Debug)]
#[repr(C)]
struct RawVerdict {
    verdict: u32,
    number: u32,
    place: u32,
}

#[repr(C)]
struct RawAnswer {
    refusal: u32,
    place: u32,
    end: u32,
    number: u32,
    node: u32,
    steps: usize,
}

#[repr(C)]
struct RawTurned {
    told: RawAnswer,
    picked: usize,
}

#[derive(Debug)]
#[repr(C)]
struct RawReading {
    verdict: u32,
    number: u32,
    line: usize,
    length: usize,
}

#[derive(Debug)]
#[repr(C)]
struct RawText {
    verdict: u32,
    number: u32,
    length: usize,
}

/// What the library says for no place and no node.
const NOWHERE: u32 = u32::MAX;

/// The size that the library itself names.
pub fn size() -> usize {
    reached::size()
}

/// The words that the library itself asks for to read a text of so many bytes.
pub fn read_words(text_bytes: usize) -> usize {
    reached::read_words(text_bytes)
}

/// An image as text, by the words of a list or by words that are made up: the bytes that it takes in `out`, or the refusal's number.
pub fn write(image: &[u8], list: &[u8], out: &mut [u8]) -> Result<usize, u32> {
    match reached::write(image, list, out) {
        RawText { verdict: 1, number: 0, length } => Ok(length),
        RawText { verdict: 2, number, length: 0 } => Err(number),
        neither => panic!("neither a text nor a refusal: {neither:?}"),
    }
}

pub struct Library;

impl Subject for Library {
    fn check(&self, script: &[u8], workspace_words: usize) -> Verdict {
        match reached::check(script, workspace_words) {
            RawVerdict { verdict: 1, number: 0, place: NOWHERE } => Ok(()),
            RawVerdict { verdict: 2, number, place } => Err(Refusal { number, place }),
            neither => panic!("neither accepted nor refused: {neither:?}"),
        }
    }

    fn run(&self, script: &[u8], choices: &[u8], workspace: &mut [u64]) -> Answer {
        answer(reached::run(script, choices, workspace))
    }

    fn trace(&self, script: &[u8], choices: &[u8], workspace: &mut [u64], rows: &mut [u32]) -> Answer {
        answer(reached::trace(script, choices, workspace, rows))
    }

    fn as_fair(&self) -> Option<&dyn Fair> {
        Some(self)
    }
}

impl Fair for Library {
    fn fair(&self, script: &[u8], picks: &mut [u8], workspace: &mut [u64]) -> Turned {
        let RawTurned { told, picked } = reached::fair(script, picks, workspace);
        Turned { answer: answer(told), picked }
    }
}

impl Reader for Library {
    fn read(&self, text: &[u8], list: &[u8], work: &mut [u32], out: &mut [u8]) -> Reading {
        match reached::read(text, list, work, out) {
            RawReading { verdict: 1, number: 0, line: 0, length } => Reading::Image(out[..length].to_vec()),
            RawReading { verdict: 2, number, line, length: 0 } => {
                Reading::Refused { number, line: line.try_into().expect("as many lines as the tests have") }
            }
            neither => panic!("neither an image nor a refusal: {neither:?}"),
        }
    }
}

fn known(number: u32) -> Option<u32> {
    (number != NOWHERE).then_some(number)
}

fn answer(raw: RawAnswer) -> Answer {
    Answer {
        refusal: raw.refusal,
        place: known(raw.place),
        end: raw.end,
        number: raw.number,
        node: known(raw.node),
        steps: raw.steps,
    }
}
