//! The listing (document 01), byte for byte.

use super::check::checked;
use super::machine::{End, Finished, Machine};
use super::store::Value;
use crate::subject::{Refusal, ROW, SIZE};
use std::fmt::Write;
use std::rc::Rc;

/// The longest list of choices that the listing program takes.
pub const LONGEST: usize = 4_096;

/// What the listing program prints for the contents of its two files, none where a file is missing.
pub fn listing(script: Option<&[u8]>, choices: Option<&[u8]>) -> String {
    let (Some(script), Some(choices)) = (script, choices) else { return "no input\n".into() };
    if choices.len() > LONGEST {
        return "choices too long\n".into();
    }
    let script = match checked(script, SIZE, None) {
        Ok(script) => Rc::new(script),
        Err(Refusal { number, place }) => return format!("refused {number} at {place}\n"),
    };
    let mut text = String::from("step choice node tag frames objects\n");
    let (mut step, mut choices) = (0, choices.iter().copied());
    let row = |[choice, node, tag, frames, objects]: [u32; ROW]| {
        step += 1;
        line(&mut text, format_args!("{step} {choice} {node} {tag} {frames} {objects}"));
    };
    let finished = Machine::run(&script, None, |_| choices.next(), row);
    line(&mut text, format_args!("{}", end_line(&finished)));
    let codes = &script.codes;
    for (number, frame) in finished.machine.store.frames.iter().enumerate() {
        line(&mut text, format_args!("cell {number} name {} {}", frame.name, value(&frame.cell, codes)));
    }
    for (number, object) in finished.machine.store.objects.iter().enumerate() {
        for (field, held) in object {
            line(&mut text, format_args!("object {number} field {} {}", codes[field - 1], value(held, codes)));
        }
    }
    text
}

/// How a run ended, in the listing's words.
pub fn end_line(finished: &Finished) -> String {
    let end = match finished.end {
        End::Done => "end 1".to_string(),
        End::Fault(fault) => format!("end 2 fault {} node {}", fault.number, fault.node),
        End::Room(number) => format!("end 3 room {number}"),
        End::UsedUp => "end 4".to_string(),
        End::OutOfRange => "end 5".to_string(),
    };
    format!("{end} steps {}", finished.steps)
}

fn line(text: &mut String, what: std::fmt::Arguments) {
    writeln!(text, "{what}").expect("a string takes every line");
}

fn value(value: &Value, codes: &[u16]) -> String {
    match value {
        Value::Unset => "unset".to_string(),
        Value::Null => "null".to_string(),
        Value::Int(number) => format!("int {number}"),
        Value::Field(index) => format!("field {}", codes[index - 1]),
        Value::Object(number) => format!("object {number}"),
        Value::Proc(proc, chain) => match chain.frame() {
            Some(frame) => format!("proc {} {frame}", proc.at.0),
            None => format!("proc {} none", proc.at.0),
        },
    }
}
