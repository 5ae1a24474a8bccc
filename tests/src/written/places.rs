//! The places of a text: a word, a number, a symbol, a bad byte, or the end.

/// What stands at a place. Reserved words and symbols are told by their spelling.
#[derive(Clone, Copy, Debug, PartialEq, Eq)]
pub enum Kind {
    Name,
    Field,
    Number,
    Mark(&'static str),
    Bad,
    End,
}

#[derive(Clone, Copy, Debug)]
pub struct Place {
    pub kind: Kind,
    pub start: usize,
    pub end: usize,
}

const RESERVED: [&str; 12] =
    ["null", "proc", "true", "false", "var", "malloc", "skip", "while", "if", "else", "atom", "val"];

/// The pairs stand before their first byte alone.
const SYMBOLS: [&str; 13] = ["==", "||", "{", "}", "(", ")", ";", ".", "-", "<", "=", "|", ":"];

/// "Reserved: null, proc, .."
pub fn reserved(word: &[u8]) -> Option<&'static str> {
    RESERVED.into_iter().find(|known| known.as_bytes() == word)
}

/// The place of the text that comes next from `at`.
pub fn next(text: &[u8], mut at: usize) -> Place {
    while let Some(9 | 10 | 13 | 32) = text.get(at) {
        at += 1;
    }
    let place = |kind, length| Place { kind, start: at, end: at + length };
    let rest = &text[at..];
    let run = |belongs: fn(&u8) -> bool| rest.iter().position(|byte| !belongs(byte)).unwrap_or(rest.len());
    match rest.first() {
        None => place(Kind::End, 0),
        Some(b'0'..=b'9') => place(Kind::Number, run(u8::is_ascii_digit)),
        Some(first) if first.is_ascii_alphabetic() => {
            let length = run(u8::is_ascii_alphanumeric);
            let lower = reserved(&rest[..length]).map_or(Kind::Field, Kind::Mark);
            place(if first.is_ascii_uppercase() { Kind::Name } else { lower }, length)
        }
        Some(_) => match SYMBOLS.into_iter().find(|symbol| rest.starts_with(symbol.as_bytes())) {
            Some(symbol) => place(Kind::Mark(symbol), symbol.len()),
            None => place(Kind::Bad, 1),
        },
    }
}
