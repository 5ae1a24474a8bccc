//! The words of the workspace (docs/): counts, frames, objects and the parts of control in preorder, all others zero.

use super::control::{Tree, TreeIs};
use super::machine::Machine;
use super::store::{Chain, Value};
use crate::subject::SIZE;

pub const FRAMES_AT: usize = 3;
pub const OBJECTS_AT: usize = FRAMES_AT + 1_024;
pub const PARTS_AT: usize = OBJECTS_AT + 256 * 16;

/// No frame is 0, frame k is k + 1.
fn chain_code(chain: &Chain) -> u64 {
    chain.frame().map_or(0, |frame| frame as u64 + 1)
}

/// A node beside the chain in which it is or was met.
fn placed(node: usize, chain: &Chain) -> u64 {
    chain_code(chain) + 2_048 * node as u64
}

fn value_word(value: &Value) -> u64 {
    let (kind, payload) = match value {
        Value::Null => (1, 0),
        Value::Int(number) => (2, u64::from(*number as u32)),
        Value::Field(index) => (3, *index as u64),
        Value::Object(number) => (4, *number as u64),
        Value::Proc(proc, chain) => (5, placed(proc.at.0, chain)),
        Value::Unset => (7, 0),
    };
    kind + 8 * payload
}

fn part_words(tree: &Tree, words: &mut Vec<u64>) {
    match &tree.is {
        TreeIs::Command(command, chain) => words.push(1 + 8 * placed(command.at.0, chain)),
        TreeIs::Then(first, command, chain) => {
            words.push(2 + 8 * placed(command.at.0, chain));
            part_words(first, words);
        }
        TreeIs::Beside(left, right) => {
            words.push(3);
            part_words(left, words);
            part_words(right, words);
        }
        TreeIs::Entered(inside) => {
            words.push(4);
            part_words(inside, words);
        }
    }
}

/// Writes the state into the first words of a workspace that is long enough.
pub fn write(machine: &Machine, workspace: &mut [u64]) {
    let words = &mut workspace[..SIZE];
    words.fill(0);
    let mut parts = Vec::new();
    if let Some(tree) = &machine.control {
        part_words(tree, &mut parts);
    }
    let store = &machine.store;
    words[0] = store.frames.len() as u64;
    words[1] = store.objects.len() as u64;
    words[2] = parts.len() as u64;
    for (number, frame) in store.frames.iter().enumerate() {
        let binding = frame.name as u64 + 256 * chain_code(&frame.outer);
        words[FRAMES_AT + number] = value_word(&frame.cell) + (binding << 35);
    }
    for (number, object) in store.objects.iter().enumerate() {
        for (field, value) in object {
            words[OBJECTS_AT + 16 * number + field - 1] = value_word(value);
        }
    }
    words[PARTS_AT..PARTS_AT + parts.len()].copy_from_slice(&parts);
}
