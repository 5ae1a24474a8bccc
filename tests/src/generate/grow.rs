//! Random commands in which every name is declared. Names and fields have an intended sort, so that most operations
//! find what they want and runs get far; slips are made on purpose. The weights of the commands differ from script to script.

use crate::assemble::*;
use crate::random::Random;

#[derive(Clone, Copy, PartialEq, Eq)]
pub enum Sort {
    Int,
    Proc,
    Object,
    Field,
    /// Nothing yet: no expression asks for it.
    Unset,
}

pub const SORTS: [Sort; 4] = [Sort::Int, Sort::Proc, Sort::Object, Sort::Field];

/// The sorts as often as names hold them.
const USUAL: [Sort; 8] =
    [Sort::Int, Sort::Int, Sort::Int, Sort::Proc, Sort::Proc, Sort::Object, Sort::Object, Sort::Field];

/// The commands that are made, the last two out of several.
#[derive(Clone, Copy, PartialEq, Eq)]
enum Form {
    Var,
    Call,
    Malloc,
    Assign,
    FieldAssign,
    Skip,
    Sequence,
    While,
    If,
    Parallel,
    Atom,
    Counting,
    Recursion,
}

const FORMS: [Form; 13] = [
    Form::Var,
    Form::Call,
    Form::Malloc,
    Form::Assign,
    Form::FieldAssign,
    Form::Skip,
    Form::Sequence,
    Form::While,
    Form::If,
    Form::Parallel,
    Form::Atom,
    Form::Counting,
    Form::Recursion,
];

pub struct Grower<'a> {
    pub random: &'a mut Random,
    pub names: u16,
    pub fields: u16,
    /// The declared names, newest last, with what they are meant to hold.
    pub visible: Vec<(u16, Sort)>,
    /// About how many nodes may still be made.
    pub budget: usize,
    /// How often each form of command is made, in the order of `FORMS`; not all are 0.
    pub weights: [usize; 13],
    /// One expression in so many is of any sort.
    pub slips: usize,
}

impl Grower<'_> {
    pub fn sort(&mut self) -> Sort {
        self.random.pick(&USUAL)
    }

    pub fn name(&mut self) -> u16 {
        self.random.below(usize::from(self.names)) as u16
    }

    /// A declared name that is meant to hold the sort.
    pub fn name_of(&mut self, sort: Sort) -> Option<u16> {
        let newest = |&(at, &(name, held)): &(usize, &(u16, Sort))| {
            held == sort && self.visible[at + 1..].iter().all(|(later, _)| *later != name)
        };
        let fitting: Vec<u16> = self.visible.iter().enumerate().filter(newest).map(|(_, (name, _))| *name).collect();
        if fitting.is_empty() {
            return None;
        }
        Some(self.random.pick(&fitting))
    }

    /// A field that is meant to hold the sort; the sorts take turns.
    pub fn field_of(&mut self, sort: Sort) -> Option<u16> {
        let turn = match sort {
            Sort::Int => 1,
            Sort::Proc => 2,
            Sort::Object => 0,
            Sort::Field => 3,
            Sort::Unset => return None,
        };
        let fitting: Vec<u16> = (1..=self.fields).filter(|index| index % 4 == turn).collect();
        if fitting.is_empty() {
            return None;
        }
        Some(self.random.pick(&fitting))
    }

    pub fn spend(&mut self) {
        self.budget = self.budget.saturating_sub(1);
    }

    /// What `make` makes from the share of the budget.
    pub fn within<T>(&mut self, share: usize, make: impl FnOnce(&mut Self) -> T) -> T {
        let share = share.min(self.budget);
        let rest = self.budget - share;
        self.budget = share;
        let made = make(self);
        self.budget += rest;
        made
    }

    /// What `make` makes where one more name is declared.
    pub fn under<T>(&mut self, name: u16, sort: Sort, make: impl FnOnce(&mut Self) -> T) -> T {
        self.visible.push((name, sort));
        let made = make(self);
        self.visible.pop();
        made
    }

    fn two(&mut self) -> (Branch, Branch) {
        let share = self.random.within(0, self.budget);
        (self.within(share, Self::command), self.command())
    }

    /// A form by its weight; near the end of the budget only those that need nothing.
    fn form(&mut self) -> Form {
        let mut ticket = self.random.below(self.weights.iter().sum());
        let mut taken = |weight: usize| {
            let here = ticket < weight;
            ticket = ticket.saturating_sub(weight);
            here
        };
        let at = self.weights.iter().position(|&weight| taken(weight)).expect("a ticket is below the sum");
        match FORMS[at] {
            form @ (Form::Malloc | Form::Skip) => form,
            form if self.budget >= 4 => form,
            _ => Form::Assign,
        }
    }

    pub fn command(&mut self) -> Branch {
        self.spend();
        match self.form() {
            Form::Var => self.declaration(),
            Form::Call => self.call(),
            Form::Malloc => self.malloc(),
            Form::Assign => self.assignment(),
            Form::FieldAssign => self.field_assignment(),
            Form::Skip => skip(),
            Form::Sequence => {
                let (first, second) = self.two();
                sequence(first, second)
            }
            Form::While => repeat(self.test(), self.command()),
            Form::If => {
                let test = self.test();
                let (yes, no) = self.two();
                choose(test, yes, no)
            }
            Form::Parallel => {
                let (left, right) = self.two();
                parallel(left, right)
            }
            Form::Atom => atom(self.command()),
            Form::Counting => self.counting(),
            Form::Recursion => self.recursion(),
        }
    }

    fn declaration(&mut self) -> Branch {
        let (name, sort) = (self.name(), self.sort());
        if self.random.once_in(12) {
            // it is used as if it were set
            return var(name, self.under(name, sort, Self::command));
        }
        self.declared(name, sort, Self::command)
    }

    /// A declaration of a name that is set before the rest, which `make` makes.
    pub fn declared(&mut self, name: u16, sort: Sort, make: impl FnOnce(&mut Self) -> Branch) -> Branch {
        let start = match sort {
            Sort::Object => malloc(name),
            _ => assign(name, self.under(name, Sort::Unset, |grower| grower.expression(sort, 2))),
        };
        var(name, sequence(start, self.under(name, sort, make)))
    }

    fn call(&mut self) -> Branch {
        if self.random.once_in(self.slips) {
            return self.faulty_call();
        }
        let callee = self.expression(Sort::Proc, 2);
        let sort = self.sort();
        call(callee, self.expression(sort, 2))
    }

    fn malloc(&mut self) -> Branch {
        self.name_of(Sort::Object).map_or_else(skip, malloc)
    }

    fn assignment(&mut self) -> Branch {
        let sort = self.sort();
        match self.name_of(sort) {
            Some(name) => assign(name, self.expression(sort, 3)),
            None => skip(),
        }
    }

    fn field_assignment(&mut self) -> Branch {
        if self.random.once_in(self.slips) {
            return self.faulty_field_assignment();
        }
        if self.name_of(Sort::Object).is_none() {
            return self.assignment();
        }
        let sort = self.random.pick(&SORTS);
        let object = self.object(2);
        let place = match self.field_of(sort) {
            Some(index) if !self.random.once_in(self.slips) => field(index),
            _ => self.expression(Sort::Field, 1),
        };
        field_assign(object, place, self.expression(sort, 2))
    }

    fn counting(&mut self) -> Branch {
        let (name, rounds) = (self.name(), self.random.below(6) as i32);
        let body = self.under(name, Sort::Int, Self::command);
        let down = assign(name, difference(variable(name), integer(1)));
        let count = repeat(less(integer(0), variable(name)), sequence(body, down));
        var(name, sequence(assign(name, integer(rounds)), count))
    }

    fn recursion(&mut self) -> Branch {
        let (name, formal, rounds) = (self.name(), self.name(), self.random.below(5) as i32);
        if name == formal {
            return self.declaration();
        }
        let body = self.under(name, Sort::Proc, |grower| {
            grower.under(formal, Sort::Int, |grower| {
                let (last, work) = grower.two();
                let again = call(variable(name), difference(variable(formal), integer(1)));
                choose(less(variable(formal), integer(1)), last, sequence(work, again))
            })
        });
        var(name, sequence(assign(name, proc(formal, body)), call(variable(name), integer(rounds))))
    }
}
