//! Trees of any shape: what the grammar can write, whether it makes sense to the interpreter or not, since scoping is left to the check.

use crate::assemble::*;
use crate::random::Random;

pub struct Wild<'a> {
    pub random: &'a mut Random,
    /// How many names and fields there are to take from; there is a name, and there may be no field.
    pub names: u16,
    pub fields: u16,
}

impl Wild<'_> {
    fn name(&mut self) -> u16 {
        self.random.below(usize::from(self.names)) as u16
    }

    /// Two shares of about so many nodes.
    fn shares(&mut self, nodes: usize) -> (usize, usize) {
        let first = self.random.within(0, nodes);
        (first, nodes - first)
    }

    /// A command of about so many nodes.
    pub fn command(&mut self, nodes: usize) -> Branch {
        let rest = nodes.saturating_sub(1);
        let (a, b) = self.shares(rest);
        match self.random.below(if nodes < 2 { 2 } else { 14 }) {
            0 => skip(),
            1 => malloc(self.name()),
            2..=3 => var(self.name(), self.command(rest)),
            4 => call(self.expression(a), self.expression(b)),
            5..=6 => assign(self.name(), self.expression(rest)),
            7..=8 => {
                let (b, c) = self.shares(b);
                field_assign(self.expression(a), self.expression(b), self.expression(c))
            }
            9 => sequence(self.command(a), self.command(b)),
            10 => parallel(self.command(a), self.command(b)),
            11 => repeat(self.test(a), self.command(b)),
            12 => {
                let (b, c) = self.shares(b);
                choose(self.test(a), self.command(b), self.command(c))
            }
            _ => atom(self.command(rest)),
        }
    }

    fn test(&mut self, nodes: usize) -> Branch {
        let (a, b) = self.shares(nodes.saturating_sub(1));
        match self.random.below(6) {
            0 => constant(true),
            1 => constant(false),
            2..=3 => equal(self.expression(a), self.expression(b)),
            _ => less(self.expression(a), self.expression(b)),
        }
    }

    fn expression(&mut self, nodes: usize) -> Branch {
        let rest = nodes.saturating_sub(1);
        let (a, b) = self.shares(rest);
        match self.random.below(if nodes < 2 { 5 } else { 12 }) {
            0 => self.number(),
            1 => null(),
            2 if self.fields > 0 => field(self.random.within(1, usize::from(self.fields)) as u16),
            2..=4 => variable(self.name()),
            5..=7 => difference(self.expression(a), self.expression(b)),
            8..=9 => selection(self.expression(a), self.expression(b)),
            _ => proc(self.name(), self.command(rest)),
        }
    }

    fn number(&mut self) -> Branch {
        let any = self.random.next() as i32;
        integer(self.random.pick(&[0, 1, -1, 7, -20, i32::MAX, i32::MIN, i32::MIN + 1, any]))
    }
}
