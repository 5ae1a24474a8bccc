//! Every list of a few words, held against the chart. Where a text is refused depends on nothing behind that place, so that a list is
//! gone on with only where a text of the grammar goes on.

use super::{Earley, Token};
use crate::subject::{reading_words, Reader, Reading, LARGEST_IMAGE};

/// Every kind of word and symbol once, and an integer with its minus.
const WORDS: [&str; 29] = [
    "X", "f", "1", "-1", "-", "null", "proc", "true", "false", "var", "malloc", "skip", "while", "if", "else", "atom",
    "val", "(", ")", "{", "}", ";", "||", ".", "=", "==", "<", ":", "|",
];

/// Words that end whatever has been begun, what is due before what would go on; each is one token.
const ENDS: [&str; 11] = [")", "}", "else", ":", "==", "=", "skip", "1", "X", ";", "("];

/// Lists of up to so many words are ended, to see that a text indeed goes on from them.
const ENDED: usize = 4;

/// No list of so few words needs so many to end.
const MOST: usize = 40;

fn tokens(word: &'static str) -> Vec<Token> {
    match word {
        "X" => vec![Token::Name(0)],
        "f" => vec![Token::Field(1)],
        "1" => vec![Token::Number(Some(1))],
        "-1" => vec![Token::Minus { sign: true }, Token::Number(Some(1))],
        "-" => vec![Token::Minus { sign: false }],
        mark => vec![Token::Mark(mark)],
    }
}

/// Lists that were tried, those that a text goes on from, and those that are a text.
#[derive(Debug, Default, PartialEq, Eq)]
pub struct Seen {
    pub tried: usize,
    pub go_on: usize,
    pub texts: usize,
}

struct Every<'a> {
    reader: &'a dyn Reader,
    chart: Earley,
    words: Vec<&'static str>,
    seen: Seen,
    work: Vec<u32>,
    out: Vec<u8>,
}

/// Tries all lists of up to so many words, or says on which the reader and the chart differ.
pub fn every(reader: &dyn Reader, words: usize) -> Result<Seen, String> {
    // the longest word has six letters and is followed by a line's end
    let work = vec![0; reading_words(7 * words.max(MOST))];
    let (seen, out) = (Seen::default(), vec![0; LARGEST_IMAGE]);
    let mut every = Every { reader, chart: Earley::default(), words: Vec::new(), seen, work, out };
    every.longer(words).map(|()| every.seen)
}

impl Every<'_> {
    /// Goes on with a word, if a text of the grammar does.
    fn push(&mut self, word: &'static str) -> bool {
        let tokens = tokens(word);
        let read = tokens.iter().take_while(|&&token| self.chart.push(token)).count();
        if read < tokens.len() {
            (0..read).for_each(|_| self.chart.pop());
        }
        read == tokens.len()
    }

    fn longer(&mut self, more: usize) -> Result<(), String> {
        for word in WORDS {
            self.words.push(word);
            let goes_on = self.push(word);
            self.seen.tried += 1;
            self.seen.go_on += usize::from(goes_on);
            self.seen.texts += self.judge(goes_on)?;
            if goes_on {
                if self.words.len() <= ENDED {
                    self.end()?;
                }
                if more > 1 {
                    self.longer(more - 1)?;
                }
                tokens(word).iter().for_each(|_| self.chart.pop());
            }
            self.words.pop();
        }
        Ok(())
    }

    /// Goes on to a text of the grammar.
    fn end(&mut self) -> Result<(), String> {
        let length = self.words.len();
        while self.chart.readings().is_empty() {
            let next = ENDS.into_iter().find(|word| self.push(word));
            let next =
                next.filter(|_| self.words.len() < MOST).ok_or(format!("no text begins with {:?}", self.words))?;
            self.words.push(next);
        }
        self.judge(true)?;
        (length..self.words.len()).for_each(|_| self.chart.pop());
        self.words.truncate(length);
        Ok(())
    }

    /// Holds the reader against the chart on the words; how many readings they have.
    fn judge(&mut self, goes_on: bool) -> Result<usize, String> {
        // a line for each word and one for the end, so that the line tells the place
        let text = self.words.join("\n") + "\n";
        let work = &mut self.work[..reading_words(text.len())];
        let given = self.reader.read(text.as_bytes(), b"f,3\n", work, &mut self.out);
        let line = self.words.len() as u32 + u32::from(goes_on);
        let trees = if goes_on { self.chart.readings() } else { Vec::new() };
        let wanted = match trees.as_slice() {
            [] => Reading::Refused { number: 23, line },
            [tree] => Reading::Image(tree.image(&[3], u16::from(self.words.contains(&"X"))).bytes()),
            more => return Err(format!("{:?} has {} readings", self.words, more.len())),
        };
        if given == wanted {
            Ok(trees.len())
        } else {
            Err(format!("{:?}: {given:?} in place of {wanted:?}", self.words))
        }
    }
}
