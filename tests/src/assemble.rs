//! Scripts as trees that are easy to write down, and their images: children first, left to right, the root last.

use crate::image::{Image, Node};

/// A node of a script with its children in it, and its words in order, as far as its tag's row has them.
#[derive(Clone, Debug, PartialEq, Eq)]
pub struct Branch {
    pub tag: u16,
    pub words: Vec<Operand>,
}

#[derive(Clone, Debug, PartialEq, Eq)]
pub enum Operand {
    Number(u16),
    Child(Branch),
}

fn leaf(tag: u16, numbers: &[u16]) -> Branch {
    Branch { tag, words: numbers.iter().map(|&number| Operand::Number(number)).collect() }
}

fn branch<const N: usize>(tag: u16, children: [Branch; N]) -> Branch {
    Branch { tag, words: children.map(Operand::Child).into() }
}

fn named(tag: u16, name: u16, child: Branch) -> Branch {
    Branch { tag, words: vec![Operand::Number(name), Operand::Child(child)] }
}

pub fn field(index: u16) -> Branch {
    leaf(1, &[index])
}

pub fn integer(number: i32) -> Branch {
    leaf(2, &[number as u16, (number >> 16) as u16])
}

pub fn difference(a: Branch, b: Branch) -> Branch {
    branch(3, [a, b])
}

pub fn null() -> Branch {
    leaf(4, &[])
}

pub fn variable(name: u16) -> Branch {
    leaf(5, &[name])
}

pub fn selection(a: Branch, b: Branch) -> Branch {
    branch(6, [a, b])
}

pub fn proc(formal: u16, body: Branch) -> Branch {
    named(7, formal, body)
}

/// The tests true and false.
pub fn constant(truth: bool) -> Branch {
    leaf(if truth { 16 } else { 17 }, &[])
}

pub fn equal(a: Branch, b: Branch) -> Branch {
    branch(18, [a, b])
}

pub fn less(a: Branch, b: Branch) -> Branch {
    branch(19, [a, b])
}

pub fn var(name: u16, inner: Branch) -> Branch {
    named(32, name, inner)
}

pub fn call(callee: Branch, argument: Branch) -> Branch {
    branch(33, [callee, argument])
}

pub fn malloc(name: u16) -> Branch {
    leaf(34, &[name])
}

pub fn assign(name: u16, right: Branch) -> Branch {
    named(35, name, right)
}

pub fn field_assign(a: Branch, b: Branch, right: Branch) -> Branch {
    branch(36, [a, b, right])
}

pub fn skip() -> Branch {
    leaf(37, &[])
}

pub fn sequence(a: Branch, b: Branch) -> Branch {
    branch(38, [a, b])
}

pub fn repeat(test: Branch, body: Branch) -> Branch {
    branch(39, [test, body])
}

pub fn choose(test: Branch, yes: Branch, no: Branch) -> Branch {
    branch(40, [test, yes, no])
}

pub fn parallel(a: Branch, b: Branch) -> Branch {
    branch(41, [a, b])
}

pub fn atom(inner: Branch) -> Branch {
    branch(42, [inner])
}

impl Branch {
    /// The two parts of a selection, or the branch itself where it is none.
    pub fn into_selection(self) -> Result<(Branch, Branch), Branch> {
        match (self.tag, <[Operand; 2]>::try_from(self.words)) {
            (6, Ok([Operand::Child(a), Operand::Child(b)])) => Ok((a, b)),
            (tag, Ok(words)) => Err(Branch { tag, words: words.into() }),
            (tag, Err(words)) => Err(Branch { tag, words }),
        }
    }

    /// The name, where the branch is a variable.
    pub fn as_variable(&self) -> Option<u16> {
        match (self.tag, self.words.as_slice()) {
            (5, [Operand::Number(name)]) => Some(*name),
            _ => None,
        }
    }

    /// The number of its nodes.
    pub fn nodes(&self) -> usize {
        1 + self.children().map(Branch::nodes).sum::<usize>()
    }

    fn children(&self) -> impl Iterator<Item = &Branch> {
        self.words.iter().filter_map(|word| match word {
            Operand::Number(_) => None,
            Operand::Child(child) => Some(child),
        })
    }

    pub fn is_leaf(&self) -> bool {
        self.children().next().is_none()
    }

    /// This node and those below, parents before children, left before right.
    pub fn all(&self) -> Vec<&Branch> {
        let (mut all, mut open) = (Vec::new(), vec![self]);
        while let Some(node) = open.pop() {
            all.push(node);
            let below = open.len();
            open.extend(node.children());
            open[below..].reverse();
        }
        all
    }

    /// The node at a place of `all`, to be changed.
    pub fn at(&mut self, place: usize) -> Option<&mut Branch> {
        fn found<'a>(node: &'a mut Branch, left: &mut usize) -> Option<&'a mut Branch> {
            if *left == 0 {
                return Some(node);
            }
            *left -= 1;
            node.words.iter_mut().find_map(|word| match word {
                Operand::Number(_) => None,
                Operand::Child(child) => found(child, left),
            })
        }
        found(self, &mut { place })
    }

    /// The numbers in this node and below, each with the tag of its node, to be changed.
    pub fn numbers(&mut self) -> Vec<(u16, &mut u16)> {
        let tag = self.tag;
        let mut numbers = Vec::new();
        for word in &mut self.words {
            match word {
                Operand::Number(number) => numbers.push((tag, number)),
                Operand::Child(child) => numbers.extend(child.numbers()),
            }
        }
        numbers
    }

    fn push(&self, nodes: &mut Vec<Node>) -> u16 {
        let mut node = [self.tag, 0, 0, 0];
        for (place, word) in node[1..].iter_mut().zip(&self.words) {
            *place = match word {
                Operand::Number(number) => *number,
                Operand::Child(child) => child.push(nodes),
            };
        }
        nodes.push(node);
        (nodes.len() - 1) as u16
    }

    /// The image with this branch as its root.
    pub fn image(&self, codes: &[u16], names: u16) -> Image {
        let mut nodes = Vec::new();
        self.push(&mut nodes);
        Image { codes: codes.to_vec(), names, nodes }
    }
}
