//! The places of a text and the rows of a list, by what they are rather than by how they are found: the longest beginning of the
//! rest that is a word, a number or a symbol.

use std::str::from_utf8;

const RESERVED: &str = " null proc true false var malloc skip while if else atom val ";
const SYMBOLS: &str = " { } ( ) ; . - < = | : == || ";

#[derive(Clone, Copy, Debug)]
pub struct Place<'a> {
    /// Empty at the end of the text.
    pub spelling: &'a [u8],
    pub line: u32,
    /// The byte directly behind it is a digit.
    pub before_digit: bool,
}

/// Whether the words hold this one.
fn held(words: &'static str, word: &str) -> Option<&'static str> {
    words.split_ascii_whitespace().find(|known| *known == word)
}

pub fn reserved(word: &str) -> Option<&'static str> {
    held(RESERVED, word)
}

pub fn symbol(word: &str) -> Option<&'static str> {
    held(SYMBOLS, word)
}

pub fn is_number(word: &str) -> bool {
    !word.is_empty() && word.chars().all(|c| c.is_ascii_digit())
}

pub fn is_word(word: &str) -> bool {
    word.starts_with(|c: char| c.is_ascii_alphabetic()) && word.chars().all(|c| c.is_ascii_alphanumeric())
}

/// The spelling as text, where it is one place; a bad byte is none.
pub fn spelled(spelling: &[u8]) -> Option<&str> {
    from_utf8(spelling).ok().filter(|word| is_word(word) || is_number(word) || symbol(word).is_some())
}

/// All places, the end last.
pub fn places(text: &[u8]) -> Vec<Place<'_>> {
    let mut places = Vec::new();
    let mut at = 0;
    loop {
        let line = 1 + text[..at].iter().filter(|&&byte| byte == b'\n').count() as u32;
        match text.get(at) {
            Some(b'\t' | b'\n' | b'\r' | b' ') => at += 1,
            None => {
                places.push(Place { spelling: &[], line, before_digit: false });
                return places;
            }
            Some(_) => {
                // what is no place by itself is a bad byte and stands alone
                let ends = (at + 1..=text.len()).take_while(|&end| end == at + 1 || spelled(&text[at..end]).is_some());
                let end = ends.last().expect("at least one byte");
                let before_digit = text.get(end).is_some_and(u8::is_ascii_digit);
                places.push(Place { spelling: &text[at..end], line, before_digit });
                at = end;
            }
        }
    }
}

/// The names and codes of a list, or none where it is to be refused.
pub fn rows(list: &[u8]) -> Option<Vec<(&str, u16)>> {
    let text = from_utf8(list).ok()?;
    let row = |row: &'_ str| {
        let (name, code) = row.strip_suffix('\n')?.split_once(',')?;
        let right = is_word(name) && name.starts_with(|c: char| c.is_lowercase()) && reserved(name).is_none();
        // leading zeros say nothing, so any number of digits can be asked
        let code = Some(code).filter(|code| is_number(code))?.parse::<u16>().ok()?;
        right.then_some((name.len(), code))
    };
    let mut rows: Vec<(&str, u16)> = Vec::new();
    for line in text.split_inclusive('\n') {
        let (length, code) = row(line)?;
        rows.push((&line[..length], code));
    }
    let increasing = rows.windows(2).all(|pair| pair[0].1 < pair[1].1);
    let different = rows.iter().all(|(name, _)| rows.iter().filter(|(other, _)| other == name).count() == 1);
    (rows.len() <= 16 && increasing && different && rows.iter().all(|(_, code)| *code > 0)).then_some(rows)
}
