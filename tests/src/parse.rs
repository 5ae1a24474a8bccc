//! A written form of scripts for the tests, close to section 1 of document 002, so that cases read as in document 01.
//!
//! Names are numbered as they are first met. Fields are listed first with their codes: `fields c 3, f 7: COMMAND`. A
//! number may carry a minus sign; a proc reaches as far as its command does; parentheses group expressions.

use crate::assemble::*;
use crate::image::Image;

/// The image of a written script; a mistake in it is a mistake of the test and panics.
pub fn script(text: &str) -> Image {
    let mut parser = Parser { words: words(text), at: 0, fields: Vec::new(), names: Vec::new() };
    let mut codes = Vec::new();
    if parser.eat("fields") {
        loop {
            let field = parser.word();
            parser.fields.push(field);
            codes.push(parser.word().parse().expect("an attribute code"));
            if !parser.eat(",") {
                break;
            }
        }
        parser.expect(":");
    }
    let root = parser.command();
    assert_eq!(parser.at, parser.words.len(), "the script goes on after its command: {text}");
    root.image(&codes, parser.names.len() as u16)
}

fn words(text: &str) -> Vec<String> {
    let mut words: Vec<String> = Vec::new();
    let mut rest = text.trim_start();
    while let Some(first) = rest.chars().next() {
        let length = if first.is_alphanumeric() {
            rest.find(|c: char| !c.is_alphanumeric()).unwrap_or(rest.len())
        } else if rest.starts_with("||") || rest.starts_with("==") {
            2
        } else {
            first.len_utf8()
        };
        words.push(rest[..length].into());
        rest = rest[length..].trim_start();
    }
    words
}

struct Parser {
    words: Vec<String>,
    at: usize,
    fields: Vec<String>,
    names: Vec<String>,
}

fn number_in(list: &mut Vec<String>, word: &str) -> u16 {
    let place = list.iter().position(|known| known == word).unwrap_or_else(|| {
        list.push(word.into());
        list.len() - 1
    });
    place as u16
}

impl Parser {
    fn word(&mut self) -> String {
        self.at += 1;
        self.words.get(self.at - 1).expect("the script ends too early").clone()
    }

    fn eat(&mut self, word: &str) -> bool {
        let found = self.words.get(self.at).is_some_and(|next| next == word);
        self.at += usize::from(found);
        found
    }

    fn expect(&mut self, word: &str) {
        assert!(self.eat(word), "{word} is missing at word {} of {:?}", self.at, self.words);
    }

    fn name(&mut self) -> u16 {
        let word = self.word();
        number_in(&mut self.names, &word)
    }

    fn bracketed<T>(&mut self, inside: impl FnOnce(&mut Parser) -> T) -> T {
        self.expect("(");
        let result = inside(self);
        self.expect(")");
        result
    }

    fn command(&mut self) -> Branch {
        if self.eat("var") {
            let name = self.name();
            self.expect(";");
            return var(name, self.command());
        }
        if self.eat("malloc") {
            return malloc(self.bracketed(Parser::name));
        }
        if self.eat("skip") {
            return skip();
        }
        if self.eat("atom") {
            return atom(self.bracketed(Parser::command));
        }
        if self.eat("while") {
            return repeat(self.test(), self.command());
        }
        if self.eat("if") {
            let (test, yes) = (self.test(), self.command());
            self.expect("else");
            return choose(test, yes, self.command());
        }
        if self.eat("{") {
            return self.braced();
        }
        self.call_or_assignment()
    }

    fn braced(&mut self) -> Branch {
        let left = self.command();
        let side_by_side = self.eat("||");
        if !side_by_side {
            self.expect(";");
        }
        let right = self.command();
        self.expect("}");
        if side_by_side {
            parallel(left, right)
        } else {
            sequence(left, right)
        }
    }

    fn call_or_assignment(&mut self) -> Branch {
        let left = self.expression();
        if self.eat("(") {
            let argument = self.expression();
            self.expect(")");
            return call(left, argument);
        }
        self.expect("=");
        match left.into_selection() {
            Ok((a, b)) => field_assign(a, b, self.expression()),
            Err(left) => assign(left.as_variable().expect("a variable or a selection"), self.expression()),
        }
    }

    fn test(&mut self) -> Branch {
        if self.eat("true") {
            return constant(true);
        }
        if self.eat("false") {
            return constant(false);
        }
        let left = self.expression();
        if self.eat("<") {
            return less(left, self.expression());
        }
        self.expect("==");
        equal(left, self.expression())
    }

    fn expression(&mut self) -> Branch {
        let mut left = self.selected();
        while self.eat("-") {
            left = difference(left, self.selected());
        }
        left
    }

    fn selected(&mut self) -> Branch {
        let mut left = self.primary();
        while self.eat(".") {
            left = selection(left, self.primary());
        }
        left
    }

    fn primary(&mut self) -> Branch {
        let word = self.word();
        match word.as_str() {
            "(" => {
                let inside = self.expression();
                self.expect(")");
                inside
            }
            "null" => null(),
            "proc" => {
                let formal = self.name();
                self.expect(":");
                proc(formal, self.command())
            }
            "-" => integer(format!("-{}", self.word()).parse().expect("a number")),
            word if word.starts_with(|c: char| c.is_ascii_digit()) => integer(word.parse().expect("a number")),
            word => match self.fields.iter().position(|field| field == word) {
                Some(index) => field(index as u16 + 1),
                None => variable(number_in(&mut self.names, word)),
            },
        }
    }
}
