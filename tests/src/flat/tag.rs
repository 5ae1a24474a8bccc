//! The tags of document 01. The upper bits of a tag say what it is: 0 an expression, 1 a test, 2 a command.

pub const FIELD: usize = 1;
pub const INTEGER: usize = 2;
pub const DIFFERENCE: usize = 3;
pub const NULL: usize = 4;
pub const VARIABLE: usize = 5;
pub const SELECTION: usize = 6;
pub const PROC: usize = 7;
pub const TRUE: usize = 16;
pub const FALSE: usize = 17;
pub const EQUAL: usize = 18;
pub const LESS: usize = 19;
pub const VAR: usize = 32;
pub const CALL: usize = 33;
pub const MALLOC: usize = 34;
pub const ASSIGN: usize = 35;
pub const FIELD_ASSIGN: usize = 36;
pub const SKIP: usize = 37;
pub const SEQUENCE: usize = 38;
pub const WHILE: usize = 39;
pub const IF: usize = 40;
pub const PARALLEL: usize = 41;
pub const ATOM: usize = 42;

pub const EXPRESSION: usize = 0;
pub const TEST: usize = 1;
pub const COMMAND: usize = 2;

pub fn kind(tag: usize) -> usize {
    tag / 16
}
