//! The state, read back from the words that a run leaves (docs/WORKSPACE.md). Past the counts, and for a word that is none
//! of these, the answer is `None`: nothing here panics, whatever the words are.

use crate::subject::SIZE;

const FRAMES_AT: usize = 3;
const OBJECTS_AT: usize = 1_027;
const PARTS_AT: usize = 5_123;
const FIELDS: usize = 16;

/// A frame with its outer frames, by its number; or no frame.
pub type Chain = Option<u32>;

#[derive(Clone, Copy, Debug, PartialEq, Eq)]
pub enum Value {
    /// In cells alone: declared, and nothing was stored there yet.
    Unset,
    Null,
    Int(i32),
    /// The index of a field, from 1.
    Field(u32),
    Object(u32),
    Proc {
        node: u32,
        chain: Chain,
    },
}

#[derive(Clone, Copy, Debug, PartialEq, Eq)]
pub struct Frame {
    pub name: u32,
    pub outer: Chain,
    pub cell: Value,
}

/// A part of control; the parts stand in preorder.
#[derive(Clone, Copy, Debug, PartialEq, Eq)]
pub enum Part {
    Command {
        node: u32,
        chain: Chain,
    },
    /// A tree, which stands next, followed by this command.
    Then {
        node: u32,
        chain: Chain,
    },
    /// Two trees, left and right, which stand next.
    Beside,
    /// An atom around a tree, which stands next.
    Entered,
}

fn chain(code: u64) -> Chain {
    (code as u32).checked_sub(1)
}

/// A node and a chain, of a procedure or of a part.
fn placed(payload: u64) -> (u32, Chain) {
    ((payload >> 11) as u32, chain(payload & 0x7FF))
}

pub fn value(word: u64) -> Option<Value> {
    let payload = word >> 3;
    Some(match word & 7 {
        1 => Value::Null,
        2 => Value::Int(payload as u32 as i32),
        3 => Value::Field(payload as u32),
        4 => Value::Object(payload as u32),
        5 => {
            let (node, chain) = placed(payload);
            Value::Proc { node, chain }
        }
        7 => Value::Unset,
        // 0 is no kind; 6 is reserved: a stored fault until order 2, and not used again
        _ => return None,
    })
}

pub fn frame(word: u64) -> Option<Frame> {
    let cell = value(word & ((1 << 35) - 1))?;
    Some(Frame { name: (word >> 35) as u32 & 0xFF, outer: chain(word >> 43), cell })
}

pub fn part(word: u64) -> Option<Part> {
    let (node, chain) = placed(word >> 3);
    Some(match word & 7 {
        1 => Part::Command { node, chain },
        2 => Part::Then { node, chain },
        3 => Part::Beside,
        4 => Part::Entered,
        _ => return None,
    })
}

/// The words of a workspace after a run.
pub struct Words<'a>(&'a [u64]);

impl<'a> Words<'a> {
    /// Nothing if these are fewer words than a run needs.
    pub fn of(workspace: &'a [u64]) -> Option<Words<'a>> {
        workspace.get(..SIZE).map(Words)
    }

    /// The words between the two places that the count at `counted` says are used.
    fn used(&self, counted: usize, from: usize, to: usize) -> impl Iterator<Item = u64> + 'a {
        self.0[from..to].iter().copied().take(self.0[counted] as usize)
    }

    pub fn frames(&self) -> impl Iterator<Item = Frame> + '_ {
        self.used(0, FRAMES_AT, OBJECTS_AT).map_while(frame)
    }

    /// The objects, each with its fields in order.
    pub fn objects(&self) -> impl Iterator<Item = Vec<Value>> + '_ {
        let count = (self.0[1] as usize).min((PARTS_AT - OBJECTS_AT) / FIELDS);
        let words = self.0[OBJECTS_AT..PARTS_AT].chunks_exact(FIELDS).take(count);
        words.map(|fields| fields.iter().map_while(|&word| value(word)).collect())
    }

    /// The parts of control in preorder; none when the run is done.
    pub fn parts(&self) -> impl Iterator<Item = Part> + '_ {
        self.used(2, PARTS_AT, SIZE).map_while(part)
    }
}
