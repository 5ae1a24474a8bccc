//! Random expressions and tests, and those that fault on purpose.

use super::grow::{Grower, Sort, SORTS};
use crate::assemble::*;

const EXTREMES: [i32; 10] = [i32::MIN, i32::MIN + 1, -65_536, -32_768, -1, 1, 32_767, 65_535, 65_536, i32::MAX];

impl Grower<'_> {
    /// An expression that faults, whatever the names hold; the fault may stand further in.
    pub fn faulty(&mut self) -> Branch {
        match self.random.below(9) {
            0 => difference(null(), integer(1)),
            1 => difference(integer(i32::MIN), integer(1)),
            2 => difference(integer(-2), integer(i32::MAX)),
            3 => selection(null(), null()),
            4 | 5 => selection(self.object(1), integer(0)),
            6 => difference(self.expression(Sort::Int, 0), self.faulty()),
            7 => selection(self.faulty(), self.literal(Sort::Field)),
            _ => selection(self.object(0), self.faulty()),
        }
    }

    /// A call whose argument faults; the callee's fault and 7 come before it.
    pub fn faulty_call(&mut self) -> Branch {
        let callee = match self.random.below(5) {
            0 => self.faulty(),
            1 => self.literal(Sort::Int),
            _ => proc(self.name(), skip()),
        };
        call(callee, self.faulty())
    }

    /// A field assignment whose right side faults; the faults of the other two parts, 3 and 4 come before it.
    pub fn faulty_field_assignment(&mut self) -> Branch {
        let object = match self.random.below(6) {
            0 => self.faulty(),
            1 => null(),
            _ => self.object(1),
        };
        let place = match self.random.below(6) {
            0 => self.faulty(),
            1 => null(),
            _ => self.literal(Sort::Field),
        };
        field_assign(object, place, self.faulty())
    }

    /// What a selection or field assignment looks into: mostly a name that was given an object.
    pub fn object(&mut self, depth: usize) -> Branch {
        match self.name_of(Sort::Object) {
            Some(name) if !self.random.once_in(6) => variable(name),
            _ => self.expression(Sort::Object, depth),
        }
    }

    /// An expression that is not of the sort that is wanted; where both operands fault, the left one's fault counts.
    fn slip(&mut self) -> Branch {
        match self.random.below(4) {
            0 => self.faulty(),
            1 => difference(self.faulty(), self.faulty()),
            2 => selection(self.faulty(), self.faulty()),
            _ => {
                let sort = self.random.pick(&SORTS);
                self.literal(sort)
            }
        }
    }

    pub fn expression(&mut self, sort: Sort, depth: usize) -> Branch {
        self.spend();
        if self.random.once_in(self.slips) {
            return self.slip();
        }
        let deeper = depth > 0 && self.budget > 2;
        match self.random.below(6) {
            0..=2 => match self.name_of(sort) {
                Some(name) => variable(name),
                None => self.literal(sort),
            },
            3 if deeper && self.name_of(Sort::Object).is_some() => match self.field_of(sort) {
                Some(index) if !self.random.once_in(self.slips) => selection(self.object(depth - 1), field(index)),
                _ => selection(self.object(depth - 1), self.expression(Sort::Field, depth - 1)),
            },
            4 if deeper && sort == Sort::Int => {
                difference(self.expression(Sort::Int, depth - 1), self.expression(Sort::Int, depth - 1))
            }
            _ => self.literal(sort),
        }
    }

    pub fn literal(&mut self, sort: Sort) -> Branch {
        match sort {
            Sort::Int if self.random.once_in(4) => integer(self.random.pick(&EXTREMES)),
            Sort::Int => integer(self.random.below(7) as i32 - 2),
            Sort::Proc => self.procedure(),
            Sort::Field if self.fields > 0 => field(self.random.within(1, usize::from(self.fields)) as u16),
            Sort::Object | Sort::Field | Sort::Unset => null(),
        }
    }

    pub fn procedure(&mut self) -> Branch {
        let (formal, sort, share) = (self.name(), self.sort(), self.random.within(0, self.budget / 2));
        proc(formal, self.under(formal, sort, |grower| grower.within(share, Self::command)))
    }

    pub fn test(&mut self) -> Branch {
        if self.random.once_in(self.slips) {
            let (left, right) = (self.faulty(), self.faulty());
            return if self.random.once_in(2) { less(left, right) } else { equal(left, right) };
        }
        match self.random.below(8) {
            0 => constant(self.random.once_in(2)),
            1..=3 => less(self.expression(Sort::Int, 2), self.expression(Sort::Int, 2)),
            4 => self.like_procedures(),
            _ => {
                let sort = self.random.pick(&[Sort::Int, Sort::Proc, Sort::Object]);
                equal(self.expression(sort, 2), self.expression(sort, 2))
            }
        }
    }

    /// Two procedures at different nodes, alike or nearly so.
    fn like_procedures(&mut self) -> Branch {
        let (formal, sort, share) = (self.name(), self.sort(), self.random.within(0, self.budget / 2));
        let body = self.under(formal, sort, |grower| grower.within(share, Self::command));
        let left = proc(formal, body.clone());
        let right = match self.random.below(6) {
            0 => proc(formal, sequence(body, skip())),
            1 => proc(formal, self.under(formal, sort, |grower| grower.within(2, Self::command))),
            // Another formal; the body may mean an outer name by the old one, if there is one.
            2 if self.visible.iter().any(|(name, _)| *name == formal) => proc(self.name(), body),
            3 => self.nearly(proc(formal, body)),
            _ => proc(formal, body),
        };
        equal(left, right)
    }

    /// The same with one number changed: a bit of an integer, a field, or a name to one that is visible all over.
    pub fn nearly(&mut self, mut branch: Branch) -> Branch {
        let rare = self.random.once_in(2);
        let mut numbers = branch.numbers();
        if rare && numbers.iter().any(|(tag, _)| *tag == 1) {
            numbers.retain(|(tag, _)| *tag == 1);
        }
        if !numbers.is_empty() {
            let at = self.random.below(numbers.len());
            let (tag, number) = &mut numbers[at];
            match tag {
                1 => **number = self.random.within(1, usize::from(self.fields)) as u16,
                2 => **number ^= 1 << self.random.below(16),
                5 | 34 | 35 if !self.visible.is_empty() => **number = self.random.pick(&self.visible).0,
                _ => {}
            }
        }
        branch
    }
}
