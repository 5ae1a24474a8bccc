//! Trees as texts: the pieces of a text in order, with parentheses where they are needed and some where they aren't, and the bytes of
//! the pieces with blanks where they are needed and some where they aren't.

use crate::assemble::{Branch, Operand};
use crate::random::Random;

/// A word, a number or a symbol; names and fields by number.
#[derive(Clone, Debug, PartialEq, Eq)]
pub enum Piece {
    Name(u16),
    Field(u16),
    Number(String),
    Mark(&'static str),
}

/// What an expression is, as it is printed.
#[derive(Clone, Copy, PartialEq, Eq)]
enum Shape {
    Operand,
    Selection,
    Difference,
    Procedure,
}

struct Printed {
    pieces: Vec<Piece>,
    shape: Shape,
    /// Its last piece belongs to a proc that isn't in parentheses.
    bare: bool,
}

pub struct Printer<'a> {
    pub random: &'a mut Random,
    /// One expression in so many gets needless parentheses; none for 0.
    pub needless: usize,
}

fn marks(marks: &[&'static str]) -> Vec<Piece> {
    marks.iter().map(|mark| Piece::Mark(mark)).collect()
}

impl Printer<'_> {
    pub fn command(&mut self, branch: &Branch) -> Vec<Piece> {
        self.begun(branch, true)
    }

    /// A command; the first number in it is in parentheses if it has a minus that may not stand there.
    fn begun(&mut self, branch: &Branch, sign: bool) -> Vec<Piece> {
        let child = |place: usize| match &branch.words[place] {
            Operand::Child(child) => child,
            Operand::Number(_) => unreachable!("tag {} has a child there", branch.tag),
        };
        let name = || match branch.words[0] {
            Operand::Number(name) => vec![Piece::Name(name)],
            Operand::Child(_) => unreachable!("tag {} has a name first", branch.tag),
        };
        match branch.tag {
            32 => [marks(&["var"]), name(), marks(&[";"]), self.command(child(1))].concat(),
            33 => [self.left(child(0), sign), marks(&["("]), self.any(child(1)), marks(&[")"])].concat(),
            34 => [marks(&["malloc", "("]), name(), marks(&[")"])].concat(),
            35 => [name(), marks(&["="]), self.any(child(1))].concat(),
            36 => {
                let left = self.beside_dot(child(0), sign);
                let right = self.behind_dot(child(1)).pieces;
                [left, marks(&["."]), right, marks(&["="]), self.any(child(2))].concat()
            }
            37 => marks(&["skip"]),
            38 | 41 => {
                let between = if branch.tag == 38 { ";" } else { "||" };
                let (left, right) = (self.command(child(0)), self.command(child(1)));
                [marks(&["{"]), left, marks(&[between]), right, marks(&["}"])].concat()
            }
            39 => [marks(&["while"]), self.tested(child(0), child(1))].concat(),
            40 => {
                let (yes, no) = (self.tested(child(0), child(1)), self.command(child(2)));
                [marks(&["if"]), yes, marks(&["else"]), no].concat()
            }
            42 => [marks(&["atom", "("]), self.command(child(0)), marks(&[")"])].concat(),
            tag => unreachable!("{tag} is no command"),
        }
    }

    fn tested(&mut self, test: &Branch, body: &Branch) -> Vec<Piece> {
        match (test.tag, test.words.as_slice()) {
            (16, _) => [marks(&["true"]), self.command(body)].concat(),
            (17, _) => [marks(&["false"]), self.command(body)].concat(),
            (tag, [Operand::Child(a), Operand::Child(b)]) => {
                let compares = if tag == 18 { "==" } else { "<" };
                [self.left(a, true), marks(&[compares]), self.any(b), self.begun(body, false)].concat()
            }
            (tag, _) => unreachable!("{tag} is no test"),
        }
    }

    fn any(&mut self, branch: &Branch) -> Vec<Piece> {
        self.where_it_fits(branch, true, |_| true).pieces
    }

    /// Left of a comparison or an argument.
    fn left(&mut self, branch: &Branch, sign: bool) -> Vec<Piece> {
        self.where_it_fits(branch, sign, |printed| !printed.bare).pieces
    }

    fn beside_dot(&mut self, branch: &Branch, sign: bool) -> Vec<Piece> {
        let fits = |printed: &Printed| !printed.bare && printed.shape != Shape::Difference;
        self.where_it_fits(branch, sign, fits).pieces
    }

    fn behind_dot(&mut self, branch: &Branch) -> Printed {
        self.where_it_fits(branch, true, |printed| matches!(printed.shape, Shape::Operand | Shape::Procedure))
    }

    /// An expression, in parentheses unless it fits without.
    fn where_it_fits(&mut self, branch: &Branch, sign: bool, fits: impl Fn(&Printed) -> bool) -> Printed {
        let mut printed = self.expression(branch, sign);
        while !fits(&printed) || (self.needless > 0 && self.random.once_in(self.needless)) {
            let pieces = [marks(&["("]), printed.pieces, marks(&[")"])].concat();
            printed = Printed { pieces, shape: Shape::Operand, bare: false };
        }
        printed
    }

    fn expression(&mut self, branch: &Branch, sign: bool) -> Printed {
        let operand = |pieces| Printed { pieces, shape: Shape::Operand, bare: false };
        match (branch.tag, branch.words.as_slice()) {
            (1, [Operand::Number(field)]) => operand(vec![Piece::Field(*field)]),
            (2, [Operand::Number(low), Operand::Number(high)]) => {
                let number = (u32::from(*high) << 16 | u32::from(*low)) as i32;
                operand(self.number(number, sign))
            }
            (3, [Operand::Child(a), Operand::Child(b)]) => {
                let left = self.left(a, sign);
                let right = self.where_it_fits(b, true, |printed| printed.shape != Shape::Difference);
                let pieces = [left, marks(&["-"]), right.pieces].concat();
                Printed { pieces, shape: Shape::Difference, bare: right.bare }
            }
            (4, []) => operand(marks(&["null"])),
            (5, [Operand::Number(name)]) => operand(vec![Piece::Name(*name)]),
            (6, [Operand::Child(a), Operand::Child(b)]) => {
                let (left, right) = (self.beside_dot(a, sign), self.behind_dot(b));
                let pieces = [left, marks(&["."]), right.pieces].concat();
                Printed { pieces, shape: Shape::Selection, bare: right.bare }
            }
            (7, [Operand::Number(formal), Operand::Child(body)]) => {
                let head = [marks(&["proc"]), vec![Piece::Name(*formal)], marks(&[":"])].concat();
                let pieces = [head, self.command(body)].concat();
                Printed { pieces, shape: Shape::Procedure, bare: true }
            }
            (tag, _) => unreachable!("{tag} is no expression"),
        }
    }

    /// A number, now and then with zeros before it, and zero with a minus.
    fn number(&mut self, number: i32, sign: bool) -> Vec<Piece> {
        let zeros = if self.random.once_in(8) { self.random.below(30) } else { 0 };
        let minus = if number < 0 || (number == 0 && self.random.once_in(3)) { "-" } else { "" };
        let piece = Piece::Number(format!("{minus}{}{}", "0".repeat(zeros), number.unsigned_abs()));
        if sign || minus.is_empty() {
            vec![piece]
        } else {
            [marks(&["("]), vec![piece], marks(&[")"])].concat()
        }
    }
}
