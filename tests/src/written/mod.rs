//! An independent reader of written scripts, from order 1's own words: one function for each thing that is written, which looks at
//! one place and goes on or refuses there (recursive descent), and writes its nodes as it ends, children first. What is judged at a
//! place is whether the text can go on with it at all, and only then its field, number or name.
//!
//! It can be asked to take a wrong turn; the comparison must then tell it from the right one.

mod calls;
mod commands;
mod expressions;
mod list;
pub mod places;
mod text;

use crate::image::Image;
use crate::subject::{reading_words, Reader, Reading, LARGEST_IMAGE};
use text::Text;

/// Wrong readers to rule out.
#[derive(Clone, Copy, Debug, PartialEq, Eq)]
pub enum Wrong {
    /// A sign begins a command directly behind a bare proc.
    SignBehindProc,
    /// A bare proc is followed by a minus or a dot.
    ProcGoesOn,
    /// Braces hold one command.
    OneInBraces,
    /// Differences associate to the right.
    DifferenceToTheRight,
    /// The halves of a parallel are exchanged.
    RightHalfFirst,
    /// The name of a var is numbered behind those of its body.
    NameBehindBody,
    /// Lines are counted at byte 13.
    LineAtReturn,
    /// An early end is told at the line of the last word.
    EndAtLastWord,
    /// 24 is told where no field may stand.
    FieldBeforeOrder,
    /// 2,147,483,648 is outside 32 bits behind a sign too.
    NoLeastNumber,
    /// 26 at the 128th name.
    NamesFull,
    /// 27 at the first node too many.
    NodesAtOnce,
    /// Only fields that are used have a code in the image.
    FieldsUsed,
    /// The last row of the list needs no byte 10.
    LastRowUnended,
    /// The list is judged before the words are counted.
    ListFirst,
    /// A bad list has the words cleared.
    ClearsForList,
    /// The output behind the image is cleared.
    ClearsBehindImage,
}

impl Wrong {
    pub const ALL: [Wrong; 17] = [
        Wrong::SignBehindProc,
        Wrong::ProcGoesOn,
        Wrong::OneInBraces,
        Wrong::DifferenceToTheRight,
        Wrong::RightHalfFirst,
        Wrong::NameBehindBody,
        Wrong::LineAtReturn,
        Wrong::EndAtLastWord,
        Wrong::FieldBeforeOrder,
        Wrong::NoLeastNumber,
        Wrong::NamesFull,
        Wrong::NodesAtOnce,
        Wrong::FieldsUsed,
        Wrong::LastRowUnended,
        Wrong::ListFirst,
        Wrong::ClearsForList,
        Wrong::ClearsBehindImage,
    ];
}

/// A refusal's number and line, and from where to where in the text the place stands at which it is given, if it is given at one.
#[derive(Clone, Copy, Debug, PartialEq, Eq)]
pub struct Refused {
    pub number: u32,
    pub line: u32,
    pub place: Option<(usize, usize)>,
}

impl Refused {
    fn nowhere(number: u32) -> Refused {
        Refused { number, line: 0, place: None }
    }
}

/// The image of a text for which enough is lent, or how and where it is refused.
pub fn judged(text: &[u8], list: &[u8]) -> Result<Vec<u8>, Refused> {
    image(text, list, reading_words(text.len()), LARGEST_IMAGE, None).map(|image| image.bytes())
}

/// The image of a text, or its refusal, by the lengths of what is lent.
pub fn read(text: &[u8], list: &[u8], words_lent: usize, out_len: usize) -> Reading {
    read_with(text, list, words_lent, out_len, None)
}

fn read_with(text: &[u8], list: &[u8], words_lent: usize, out_len: usize, wrong: Option<Wrong>) -> Reading {
    match image(text, list, words_lent, out_len, wrong) {
        Ok(image) => Reading::Image(image.bytes()),
        Err(Refused { number, line, .. }) => Reading::Refused { number, line },
    }
}

fn image(text: &[u8], list: &[u8], words_lent: usize, out_len: usize, wrong: Option<Wrong>) -> Result<Image, Refused> {
    if out_len < LARGEST_IMAGE {
        return Err(Refused::nowhere(20));
    }
    let listed = list::list(list, wrong).ok_or(Refused::nowhere(21));
    let list_first = wrong == Some(Wrong::ListFirst) && listed.is_err();
    if words_lent < reading_words(text.len()) && !list_first {
        return Err(Refused::nowhere(28));
    }
    Text::read(text, listed?, wrong)
}

pub struct Descent {
    wrong: Option<Wrong>,
}

impl Descent {
    pub fn right() -> Descent {
        Descent { wrong: None }
    }

    pub fn wrong(wrong: Wrong) -> Descent {
        Descent { wrong: Some(wrong) }
    }
}

impl Reader for Descent {
    fn read(&self, text: &[u8], list: &[u8], work: &mut [u32], out: &mut [u8]) -> Reading {
        let reading = read_with(text, list, work.len(), out.len(), self.wrong);
        reading.leave(text, work, out);
        match (self.wrong, &reading) {
            (Some(Wrong::ClearsForList), Reading::Refused { number: 21, .. }) => work.fill(0),
            (Some(Wrong::ClearsBehindImage), Reading::Image(bytes)) => out[bytes.len()..].fill(0),
            _ => {}
        }
        reading
    }
}
