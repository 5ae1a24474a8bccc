//! Scripts as trees (section 1 of document 002), each node with its number in the image.
//!
//! Two trees are equal when they are alike apart from node numbers: `At` equals every `At`, the rest is derived.

use crate::image::{kind, Kind, Node};
use std::rc::Rc;

#[derive(Clone, Copy)]
pub struct At(pub usize);

impl PartialEq for At {
    fn eq(&self, _: &At) -> bool {
        true
    }
}

#[derive(PartialEq)]
pub struct Exp {
    pub at: At,
    pub is: ExpIs,
}

#[derive(PartialEq)]
pub enum ExpIs {
    Field(usize),
    Integer(i32),
    Difference(Box<Exp>, Box<Exp>),
    Null,
    Variable(usize),
    Selection(Box<Exp>, Box<Exp>),
    Proc(Rc<Proc>),
}

#[derive(PartialEq)]
pub struct Proc {
    pub at: At,
    pub formal: usize,
    pub body: Rc<Command>,
}

#[derive(PartialEq)]
pub struct Test {
    pub at: At,
    pub is: TestIs,
}

#[derive(PartialEq)]
pub enum TestIs {
    True,
    False,
    Equal(Box<Exp>, Box<Exp>),
    Less(Box<Exp>, Box<Exp>),
}

#[derive(PartialEq)]
pub struct Command {
    pub at: At,
    pub tag: u16,
    pub is: CommandIs,
}

#[derive(PartialEq)]
pub enum CommandIs {
    Var(usize, Rc<Command>),
    Call(Exp, Exp),
    Malloc(usize),
    Assign(usize, Exp),
    FieldAssign(Exp, Exp, Exp),
    Skip,
    Sequence(Rc<Command>, Rc<Command>),
    While(Test, Rc<Command>),
    If(Test, Rc<Command>, Rc<Command>),
    Parallel(Rc<Command>, Rc<Command>),
    Atom(Rc<Command>),
}

enum Grown {
    Exp(Exp),
    Test(Test),
    Command(Rc<Command>),
}

/// Trees that no parent has taken yet, by node.
struct Grove(Vec<Option<Grown>>);

impl Grove {
    fn take(&mut self, child: u16) -> Grown {
        self.0[usize::from(child)].take().expect("refusal 8: every node is a child once")
    }

    fn exp(&mut self, child: u16) -> Exp {
        match self.take(child) {
            Grown::Exp(exp) => exp,
            _ => unreachable!("refusal 7: the child is an expression"),
        }
    }

    fn boxed(&mut self, child: u16) -> Box<Exp> {
        Box::new(self.exp(child))
    }

    fn test(&mut self, child: u16) -> Test {
        match self.take(child) {
            Grown::Test(test) => test,
            _ => unreachable!("refusal 7: the child is a test"),
        }
    }

    fn command(&mut self, child: u16) -> Rc<Command> {
        match self.take(child) {
            Grown::Command(command) => command,
            _ => unreachable!("refusal 7: the child is a command"),
        }
    }

    fn grow_exp(&mut self, at: At, [tag, a, b, _]: Node) -> Exp {
        let name = usize::from(a);
        let is = match tag {
            1 => ExpIs::Field(name),
            2 => ExpIs::Integer((u32::from(b) << 16 | u32::from(a)) as i32),
            3 => ExpIs::Difference(self.boxed(a), self.boxed(b)),
            4 => ExpIs::Null,
            5 => ExpIs::Variable(name),
            6 => ExpIs::Selection(self.boxed(a), self.boxed(b)),
            _ => ExpIs::Proc(Rc::new(Proc { at, formal: name, body: self.command(b) })),
        };
        Exp { at, is }
    }

    fn grow_test(&mut self, at: At, [tag, a, b, _]: Node) -> Test {
        let is = match tag {
            16 => TestIs::True,
            17 => TestIs::False,
            18 => TestIs::Equal(self.boxed(a), self.boxed(b)),
            _ => TestIs::Less(self.boxed(a), self.boxed(b)),
        };
        Test { at, is }
    }

    fn grow_command(&mut self, at: At, [tag, a, b, c]: Node) -> Rc<Command> {
        let name = usize::from(a);
        let is = match tag {
            32 => CommandIs::Var(name, self.command(b)),
            33 => CommandIs::Call(self.exp(a), self.exp(b)),
            34 => CommandIs::Malloc(name),
            35 => CommandIs::Assign(name, self.exp(b)),
            36 => CommandIs::FieldAssign(self.exp(a), self.exp(b), self.exp(c)),
            37 => CommandIs::Skip,
            38 => CommandIs::Sequence(self.command(a), self.command(b)),
            39 => CommandIs::While(self.test(a), self.command(b)),
            40 => CommandIs::If(self.test(a), self.command(b), self.command(c)),
            41 => CommandIs::Parallel(self.command(a), self.command(b)),
            _ => CommandIs::Atom(self.command(a)),
        };
        Rc::new(Command { at, tag, is })
    }
}

/// The tree of a table of nodes that refusals 5 to 8 have passed.
pub fn tree(nodes: &[Node]) -> Rc<Command> {
    let mut grove = Grove(Vec::new());
    for (number, &node) in nodes.iter().enumerate() {
        let at = At(number);
        let grown = match kind(node[0]).expect("refusal 5: the tag is known") {
            Kind::Expression => Grown::Exp(grove.grow_exp(at, node)),
            Kind::Test => Grown::Test(grove.grow_test(at, node)),
            Kind::Command => Grown::Command(grove.grow_command(at, node)),
        };
        grove.0.push(Some(grown));
    }
    grove.command((nodes.len() - 1) as u16)
}
