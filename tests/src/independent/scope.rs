//! Section 3 of document 002: the uses of names that aren't declared where they stand, for refusal 9.

use super::tree::{Command, CommandIs, Exp, ExpIs, Test, TestIs};
use std::collections::BTreeSet;

pub struct Strays {
    found: Vec<usize>,
    /// Leaves out what stands under some declaration, as one who reads a missing name as frame 0 would.
    lenient: bool,
}

type Visible = BTreeSet<usize>;

/// The lowest node that uses a name where it isn't declared.
pub fn lowest_stray(root: &Command, lenient: bool) -> Option<usize> {
    let mut strays = Strays { found: Vec::new(), lenient };
    strays.command(root, &Visible::new());
    strays.found.into_iter().min()
}

fn with(visible: &Visible, name: usize) -> Visible {
    visible.iter().copied().chain([name]).collect()
}

impl Strays {
    fn used(&mut self, node: usize, name: usize, visible: &Visible) {
        if !visible.contains(&name) && !(self.lenient && !visible.is_empty()) {
            self.found.push(node);
        }
    }

    fn exp(&mut self, exp: &Exp, visible: &Visible) {
        match &exp.is {
            ExpIs::Field(_) | ExpIs::Integer(_) | ExpIs::Null => {}
            ExpIs::Variable(name) => self.used(exp.at.0, *name, visible),
            ExpIs::Difference(a, b) | ExpIs::Selection(a, b) => {
                self.exp(a, visible);
                self.exp(b, visible);
            }
            ExpIs::Proc(proc) => self.command(&proc.body, &with(visible, proc.formal)),
        }
    }

    fn test(&mut self, test: &Test, visible: &Visible) {
        if let TestIs::Equal(a, b) | TestIs::Less(a, b) = &test.is {
            self.exp(a, visible);
            self.exp(b, visible);
        }
    }

    fn command(&mut self, command: &Command, visible: &Visible) {
        match &command.is {
            CommandIs::Var(name, inner) => self.command(inner, &with(visible, *name)),
            CommandIs::Call(a, b) => {
                self.exp(a, visible);
                self.exp(b, visible);
            }
            CommandIs::Malloc(name) => self.used(command.at.0, *name, visible),
            CommandIs::Assign(name, exp) => {
                self.used(command.at.0, *name, visible);
                self.exp(exp, visible);
            }
            CommandIs::FieldAssign(a, b, c) => {
                self.exp(a, visible);
                self.exp(b, visible);
                self.exp(c, visible);
            }
            CommandIs::Skip => {}
            CommandIs::Sequence(a, b) | CommandIs::Parallel(a, b) => {
                self.command(a, visible);
                self.command(b, visible);
            }
            CommandIs::While(test, inner) => {
                self.test(test, visible);
                self.command(inner, visible);
            }
            CommandIs::If(test, a, b) => {
                self.test(test, visible);
                self.command(a, visible);
                self.command(b, visible);
            }
            CommandIs::Atom(inner) => self.command(inner, visible),
        }
    }
}
