//! Variables that are read before they are set, order 5 of document 02: in every place in which a variable is read; in a branch that another
//! branch sets, in a procedure that is called too early, after another declaration of the name, with every frame used; or set in time.

use super::grow::{Grower, Sort};
use crate::assemble::*;

/// The names of such a script, which no other part of it uses.
struct Names {
    /// The variable that may be read before it is set.
    late: u16,
    /// It holds an object.
    object: u16,
    /// It is assigned to, and never read.
    result: u16,
    procedure: u16,
    formal: u16,
}

pub fn unset(grower: &mut Grower) -> Branch {
    let [late, object, result, procedure, formal] = [0, 1, 2, 3, 4].map(|next| grower.names + next);
    grower.names += 5;
    let names = Names { late, object, result, procedure, formal };
    let (read, sort) = names.read(grower);
    let set = names.set(grower, sort);
    let inner = match grower.random.below(17) {
        0..=4 => beside(grower, read, set),
        5..=6 => read,
        7..=8 => sequence(set, read),
        9..=10 => names.called(grower, read, set),
        11 => names.again(grower, read, set),
        12 => sequence(set, var(late, read)),
        13 => var(late, sequence(set, read)),
        14 => choose(constant(grower.random.once_in(2)), sequence(set, skip()), read),
        _ => names.in_the_last_frame(grower, read),
    };
    var(object, sequence(malloc(object), var(result, var(late, inner))))
}

/// One branch reads what another sets, now or after a while, in an atom or not.
fn beside(grower: &mut Grower, read: Branch, set: Branch) -> Branch {
    let [read, set] = [read, set].map(|command| match grower.random.below(6) {
        0 => sequence(skip(), command),
        1 => sequence(command, skip()),
        2 => atom(sequence(skip(), command)),
        _ => command,
    });
    if grower.random.once_in(2) {
        parallel(read, set)
    } else {
        parallel(set, read)
    }
}

impl Names {
    /// A command that reads the variable in one of the places, and what it wants to find there.
    fn read(&self, grower: &mut Grower) -> (Branch, Sort) {
        let late = || variable(self.late);
        let sort = grower.random.pick(&[Sort::Int, Sort::Proc, Sort::Object]);
        match grower.random.below(15) {
            0 => self.valued(grower, Sort::Int, |other| difference(late(), other)),
            1 => self.valued(grower, Sort::Int, |other| difference(other, late())),
            2 => (self.valued(grower, Sort::Field, |other| selection(late(), other)).0, Sort::Object),
            3 => (self.valued(grower, Sort::Object, |other| selection(other, late())).0, Sort::Field),
            4 => self.tested(grower, Sort::Int, |other| less(late(), other)),
            5 => self.tested(grower, Sort::Int, |other| less(other, late())),
            6..=7 => self.tested(grower, sort, |other| equal(late(), other)),
            8 => self.tested(grower, sort, |other| equal(other, late())),
            9 => (call(late(), self.operand(grower, Sort::Int)), Sort::Proc),
            10 => (call(self.operand(grower, Sort::Proc), late()), sort),
            11 => (assign(self.result, late()), sort),
            12 => (field_assign(late(), self.operand(grower, Sort::Field), integer(1)), Sort::Object),
            13 => (field_assign(self.operand(grower, Sort::Object), late(), integer(1)), Sort::Field),
            _ => {
                let (object, place) = (self.operand(grower, Sort::Object), self.operand(grower, Sort::Field));
                (field_assign(object, place, late()), sort)
            }
        }
    }

    /// What stands beside the variable: mostly of the sort, or else of another, so that the operation has a fault of its own, or a fault itself.
    fn operand(&self, grower: &mut Grower, sort: Sort) -> Branch {
        match grower.random.below(12) {
            0..=1 => null(),
            2 => integer(3),
            3 => grower.faulty(),
            _ => self.of_sort(grower, sort),
        }
    }

    fn of_sort(&self, grower: &mut Grower, sort: Sort) -> Branch {
        match sort {
            Sort::Object => variable(self.object),
            Sort::Proc => proc(self.formal, skip()),
            _ => grower.literal(sort),
        }
    }

    /// An expression with such an operand, in one of the places of an expression.
    fn valued(&self, grower: &mut Grower, sort: Sort, expression: impl Fn(Branch) -> Branch) -> (Branch, Sort) {
        let value = expression(self.operand(grower, sort));
        let command = match grower.random.below(4) {
            0 => call(proc(self.formal, skip()), value),
            1 => choose(less(value, integer(1)), skip(), skip()),
            _ => assign(self.result, value),
        };
        (command, sort)
    }

    /// A test with such an operand. A loop that goes on stores null, at which most tests fault.
    fn tested(&self, grower: &mut Grower, sort: Sort, test: impl Fn(Branch) -> Branch) -> (Branch, Sort) {
        let test = test(self.operand(grower, sort));
        let command = match grower.random.below(2) {
            0 => choose(test, skip(), assign(self.result, integer(2))),
            _ => repeat(test, assign(self.late, null())),
        };
        (command, sort)
    }

    fn set(&self, grower: &mut Grower, sort: Sort) -> Branch {
        match sort {
            Sort::Object if grower.random.once_in(2) => malloc(self.late),
            _ => assign(self.late, self.of_sort(grower, sort)),
        }
    }

    /// A procedure reads, and is called before the variable is set, after it or beside it.
    fn called(&self, grower: &mut Grower, read: Branch, set: Branch) -> Branch {
        let made = assign(self.procedure, proc(self.formal, read));
        let called = call(variable(self.procedure), integer(0));
        let then = match grower.random.below(4) {
            0 => sequence(called, set),
            1 => beside(grower, called, set),
            2 => skip(),
            _ => sequence(set, called),
        };
        var(self.procedure, sequence(made, then))
    }

    /// A loop of two rounds declares the variable in each; what it was set to in the first is gone in the second.
    fn again(&self, grower: &mut Grower, read: Branch, set: Branch) -> Branch {
        let counter = self.procedure;
        let down = assign(counter, difference(variable(counter), integer(1)));
        let inner = match grower.random.below(3) {
            0 => sequence(set, read),
            _ => choose(less(variable(counter), integer(2)), read, set),
        };
        let rounds = repeat(less(integer(0), variable(counter)), sequence(var(self.late, inner), down));
        var(counter, sequence(assign(counter, integer(2)), rounds))
    }

    /// A procedure calls itself until all frames are used or nearly so, four of them by names, and reads there.
    fn in_the_last_frame(&self, grower: &mut Grower, read: Branch) -> Branch {
        let read = match grower.random.below(3) {
            0 => read,
            _ => call(self.of_sort(grower, Sort::Proc), variable(self.late)),
        };
        let (again, depth) = (variable(self.procedure), grower.random.pick(&[1_017, 1_018, 1_019, 1_019, 1_019]));
        let deeper = call(again.clone(), difference(variable(self.formal), integer(1)));
        let body = choose(less(variable(self.formal), integer(1)), read, deeper);
        let made = assign(self.procedure, proc(self.formal, body));
        var(self.procedure, sequence(made, call(again, integer(depth))))
    }
}
