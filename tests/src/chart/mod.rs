//! A second opinion on written scripts, slow and by definition: a place is right when a chart over the paper's own rules can go on
//! with it, and a text's tree is the one tree that the rules give it. It is for texts of some hundred places at most.

mod earley;
pub mod every;
mod rules;
mod spell;

use crate::subject::{reading_words, Reader, Reading, LARGEST_IMAGE};
pub use earley::{Earley, Token};
use spell::{is_number, places, reserved, rows, spelled, symbol, Place};

pub struct Chart;

impl Reader for Chart {
    fn read(&self, text: &[u8], list: &[u8], work: &mut [u32], out: &mut [u8]) -> Reading {
        let reading = read(text, list, work.len(), out.len());
        reading.leave(text, work, out);
        reading
    }
}

fn refused<T>(number: u32, line: u32) -> Result<T, Reading> {
    Err(Reading::Refused { number, line })
}

fn read(text: &[u8], list: &[u8], words_lent: usize, out_len: usize) -> Reading {
    if out_len < LARGEST_IMAGE {
        return Reading::Refused { number: 20, line: 0 };
    }
    if words_lent < reading_words(text.len()) {
        return Reading::Refused { number: 28, line: 0 };
    }
    match rows(list) {
        None => Reading::Refused { number: 21, line: 0 },
        Some(rows) => judged(text, &rows).map_or_else(|refused| refused, Reading::Image),
    }
}

fn judged(text: &[u8], rows: &[(&str, u16)]) -> Result<Vec<u8>, Reading> {
    let mut chart = Earley::default();
    let mut names = Vec::new();
    for place in places(text) {
        if place.spelling.is_empty() {
            return ended(&chart, rows, names.len(), place.line);
        }
        taken(&mut chart, rows, &mut names, place)?;
    }
    unreachable!("the end is a place")
}

/// The token that a spelling is, whatever its name, field or number.
fn kind(word: &str, before_digit: bool) -> Token {
    match reserved(word).or(symbol(word)) {
        Some("-") => Token::Minus { sign: before_digit },
        Some(mark) => Token::Mark(mark),
        None if is_number(word) => Token::Number(None),
        None if word.starts_with(|c: char| c.is_uppercase()) => Token::Name(0),
        None => Token::Field(0),
    }
}

/// Goes on with a place, or says what is wrong with it: 22 to 26, in that order.
fn taken<'a>(
    chart: &mut Earley,
    rows: &[(&str, u16)],
    names: &mut Vec<&'a str>,
    place: Place<'a>,
) -> Result<(), Reading> {
    let Some(word) = spelled(place.spelling) else {
        return refused(22, place.line);
    };
    let token = kind(word, place.before_digit);
    if !chart.push(token) {
        return refused(23, place.line);
    }
    // the same once more, now with what it says
    chart.pop();
    let valued = match token {
        Token::Field(_) => match rows.iter().position(|(name, _)| *name == word) {
            Some(index) => Token::Field(index as u16 + 1),
            None => return refused(24, place.line),
        },
        // what has too many digits for the machine is as wrong as the largest
        Token::Number(_) => Token::Number(Some(word.parse().unwrap_or(u64::MAX))),
        Token::Name(_) => {
            let number = names.iter().position(|name| *name == word).unwrap_or(names.len());
            match (number, names.len()) {
                (128, _) => return refused(26, place.line),
                (new, count) if new == count => names.push(word),
                _ => {}
            }
            Token::Name(number as u16)
        }
        other => other,
    };
    if chart.push(valued) {
        Ok(())
    } else {
        refused(25, place.line)
    }
}

fn ended(chart: &Earley, rows: &[(&str, u16)], names: usize, line: u32) -> Result<Vec<u8>, Reading> {
    let readings = chart.readings();
    let [tree] = readings.as_slice() else {
        assert!(readings.is_empty(), "a text has one reading, not {}", readings.len());
        return refused(23, line);
    };
    if tree.nodes() > 2_048 {
        return refused(27, 0);
    }
    let codes: Vec<u16> = rows.iter().map(|(_, code)| *code).collect();
    Ok(tree.image(&codes, names as u16).bytes())
}

/// The words of those kinds with which the text can go on from a place, and last whether it can end there: `encoding::could_be` by the chart.
pub fn could_be(text: &[u8], place: usize) -> Vec<&'static str> {
    const MARKS: &str = "null proc true false var malloc skip while if else atom ( ) { } ; || . = == < :";
    let before = places(&text[..place]).len() - 1; // the end is a place
    let mut chart = Earley::default();
    for place in &places(text)[..before] {
        let word = spelled(place.spelling).expect("what stands before the place is right");
        assert!(chart.push(kind(word, place.before_digit)), "what stands before the place is right");
    }
    let values = [(Token::Name(0), "a name"), (Token::Field(0), "a field"), (Token::Number(None), "a number")];
    let minuses = [true, false].map(|sign| (Token::Minus { sign }, "-"));
    let marks = MARKS.split(' ').map(|mark| (Token::Mark(mark), mark));
    let mut could: Vec<_> = values.into_iter().chain(minuses).chain(marks).collect();
    could.retain(|(token, _)| {
        let goes_on = chart.push(*token);
        if goes_on {
            chart.pop();
        }
        goes_on
    });
    could.dedup_by_key(|(_, word)| *word);
    let ends = (!chart.readings().is_empty()).then_some("the end");
    could.into_iter().map(|(_, word)| word).chain(ends).collect()
}
