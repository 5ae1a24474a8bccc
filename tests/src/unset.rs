//! Order 5, worked by hand: scripts with variables that weren't set, for the tests of every subject and for the vectors of the program
//! `vectors`. Nodes stand children first, left before right; "var" is a step, and so is each command that is done after it.

use crate::parse::script;
use crate::readback::{Value, Words};
use crate::stops::skips;
use crate::subject::{Subject, SIZE};

pub struct Worked {
    pub name: &'static str,
    pub text: String,
    pub choices: Vec<u8>,
    pub end: End,
    pub steps: usize,
    pub frames: usize,
    pub objects: usize,
    /// What the first cells hold. Every field of every object is null.
    pub cells: Vec<Value>,
}

#[derive(Clone, Copy, Debug, PartialEq, Eq)]
pub enum End {
    Done,
    /// A fault's number and its node.
    Fault(u32, u32),
}

use Value::{Int, Null, Object, Unset};

/// A procedure that was made in the chain of frame 1.
fn made(node: u32) -> Value {
    Value::Proc { node, chain: Some(1) }
}

impl Worked {
    /// In what a subject's run is unlike what was worked out.
    pub fn unlike(&self, subject: &dyn Subject) -> Option<String> {
        let mut workspace = vec![u64::MAX; SIZE];
        let answer = subject.run(&script(&self.text).bytes(), &self.choices, &mut workspace);
        let words = Words::of(&workspace).expect("the workspace has the size");
        let (end, number, node) = match self.end {
            End::Done => (1, 0, None),
            End::Fault(number, node) => (2, number, Some(node)),
        };
        let cells: Vec<Value> = words.frames().map(|frame| frame.cell).take(self.cells.len()).collect();
        let told = (answer.refusal, answer.end, answer.number, answer.node, answer.steps);
        let counts = (words.frames().count(), words.objects().count());
        let null = words.objects().flatten().all(|value| value == Null);
        let right = told == (0, end, number, node, self.steps)
            && counts == (self.frames, self.objects)
            && cells == self.cells
            && null;
        (!right).then(|| format!("{answer:?}, {counts:?} frames and objects, {cells:?}, every field null: {null}"))
    }

    /// Another list of choices, and what comes of it.
    fn or(&self, name: &'static str, choices: &[u8], end: End, steps: usize, cells: &[Value]) -> Worked {
        let (text, choices, cells) = (self.text.clone(), choices.to_vec(), cells.to_vec());
        Worked { name, text, choices, end, steps, cells, ..*self }
    }
}

/// A run in which every choice is 0.
fn worked(
    name: &'static str,
    text: &str,
    end: End,
    steps: usize,
    (frames, objects): (usize, usize),
    cells: &[Value],
) -> Worked {
    let text = text.replace("SKIPS", &skips(129));
    // one choice more than steps, for the step that stops
    Worked { name, text, choices: vec![0; steps + 1], end, steps, frames, objects, cells: cells.to_vec() }
}

/// A run that stops at the first step after `var x;`.
fn first(name: &'static str, command: &str, (number, node): (u32, u32)) -> Worked {
    worked(name, &format!("fields f 7: var x; {command}"), End::Fault(number, node), 1, (1, 0), &[Unset])
}

/// A run that stops at the first step after o was given an object, which is node 0.
fn with_object(name: &'static str, command: &str, (number, node): (u32, u32)) -> Worked {
    let text = format!("fields f 7: var o; var x; {{malloc(o); {command}}}");
    worked(name, &text, End::Fault(number, node), 3, (2, 1), &[Object(0), Unset])
}

pub fn unset() -> Vec<Worked> {
    [uses(), order(), set(), procedures(), branches(), frames(), rooms()].into_iter().flatten().collect()
}

/// Every place in which a variable is read.
fn uses() -> Vec<Worked> {
    vec![
        first("left_of_minus", "x = x - 1", (8, 0)),
        first("right_of_minus", "x = 1 - x", (8, 1)),
        first("left_of_equal_in_if", "if x == 1 skip else skip", (8, 0)),
        first("right_of_equal_in_if", "if 1 == x skip else skip", (8, 1)),
        first("left_of_less_in_if", "if x < 1 skip else skip", (8, 0)),
        first("right_of_less_in_if", "if 1 < x skip else skip", (8, 1)),
        first("left_of_equal_in_while", "while x == 1 skip", (8, 0)),
        first("right_of_equal_in_while", "while 1 == x skip", (8, 1)),
        first("left_of_less_in_while", "while x < 1 skip", (8, 0)),
        first("right_of_less_in_while", "while 1 < x skip", (8, 1)),
        first("selected_object", "x = x.f", (8, 0)),
        with_object("selecting_field", "o = o.x", (8, 2)),
        first("callee", "x(1)", (8, 0)),
        // skip 0, the procedure 1
        first("argument", "(proc y: skip)(x)", (8, 2)),
        first("right_side", "x = x", (8, 0)),
        first("object_assigned_in", "x.f = 1", (8, 0)),
        with_object("field_assigned_to", "o.x = 1", (8, 2)),
        with_object("right_side_of_field", "o.f = x", (8, 3)),
    ]
}

/// After the left operand's fault, before the operation's own, and in an argument and a right side where a stored fault had its place.
fn order() -> Vec<Worked> {
    vec![
        // null 0, 1 1, their difference 2, x 3
        first("left_operand_before_it", "x = (null - 1) - x", (1, 2)),
        first("before_the_right_operand", "x = x - (null - 1)", (8, 0)),
        first("before_minus_own", "x = null - x", (8, 1)),
        first("left_before_minus_own", "x = x - null", (8, 0)),
        first("before_equal_own", "if f == x skip else skip", (8, 1)),
        first("before_less_own", "while null < x skip", (8, 1)),
        first("before_selection_own", "x = null.x", (8, 1)),
        first("before_field_assignment_own", "null.x = 1", (8, 1)),
        first("callee_before_argument", "x(null - 1)", (8, 0)),
        first("callees_fault_before_it", "(null - 1)(x)", (1, 2)),
        // 1 0, x 1, the call 2
        first("seven_before_it", "1(x)", (7, 2)),
        // null 0, f 1, x 2, the field assignment 3
        first("three_before_it", "null.f = x", (3, 3)),
        // o 1, 1 2, x 3, the field assignment 4
        with_object("four_before_it", "o.1 = x", (4, 4)),
    ]
}

/// What sets a variable, what was never unset, and what nobody read.
fn set() -> Vec<Worked> {
    let null = "var x; {x = null; if x == null x = 1 else x = 2}";
    vec![
        worked("assignment_sets", "var x; {x = 1; x = x - 1}", End::Done, 3, (1, 0), &[Int(0)]),
        worked("malloc_sets", "fields f 7: var x; {malloc(x); x = x.f}", End::Done, 3, (1, 1), &[Null]),
        worked("null_is_set", null, End::Done, 4, (1, 0), &[Int(1)]),
        worked("formal_is_set", "(proc y: y = y - 1)(5)", End::Done, 2, (1, 0), &[Int(4)]),
        worked("nobody_reads_it", "var x; var y; y = 1", End::Done, 3, (2, 0), &[Unset, Int(1)]),
    ]
}

/// A procedure that mentions a variable reads it when its body does.
fn procedures() -> Vec<Worked> {
    // x 0, the assignment to y 1, the procedure 2; var, var, p, and where it is called the call
    let (mentions, before) = ("var x; var p; p = proc y: y = x", "var x; var p; {p = proc y: y = x; {p(0); x = 1}}");
    let after = "var x; var p; {p = proc y: y = x; {x = 1; p(0)}}";
    let compared = "var x; if proc y: y = x == proc y: y = x x = 1 else x = 2";
    vec![
        worked("mentioned", mentions, End::Done, 3, (2, 0), &[Unset, made(2)]),
        worked("called_before_it_is_set", before, End::Fault(8, 0), 4, (3, 0), &[Unset, made(2), Int(0)]),
        worked("called_after_it_is_set", after, End::Done, 6, (3, 0), &[Int(1), made(2), Int(1)]),
        worked("mentioned_and_compared", compared, End::Done, 3, (1, 0), &[Int(1)]),
    ]
}

/// A branch reads what another sets: one script, two lists of choices, two ends.
fn branches() -> Vec<Worked> {
    let early = worked(
        "branch_too_early",
        "var x; {x = x - 1 || x = 5}", // x 0
        End::Fault(8, 0),
        1,
        (1, 0),
        &[Unset],
    );
    let in_time = early.or("branch_in_time", &[0, 1, 0], End::Done, 3, &[Int(4)]);
    let in_atom = worked(
        "atom_too_early",
        "var x; {atom({skip; x = x - 1}) || x = 5}", // skip 0, x 1; var, atom, skip
        End::Fault(8, 1),
        3,
        (1, 0),
        &[Unset],
    );
    let before_atom = in_atom.or("atom_in_time", &[0, 1, 0, 0, 0], End::Done, 5, &[Int(4)]);
    vec![early, in_time, in_atom, before_atom]
}

/// Each declaration makes a cell of its own.
fn frames() -> Vec<Worked> {
    // 2 and c = 2 are 0 and 1, 0 < c 2 to 4, c < 2 5 to 7, the x that is read 8. Round one: while, var, if, x = 1, c; round two: while, var, if.
    let again = "var c; {c = 2; while 0 < c var x; {if c < 2 c = x else x = 1; c = c - 1}}";
    let inner = "var x; {x = 1; var x; x = x}"; // 1 0, x = 1 1, x 2
    let outer = "var x; var x; {x = 1; x = x - 1}";
    vec![
        worked("again_in_a_loop", again, End::Fault(8, 8), 10, (3, 0), &[Int(1), Int(1), Unset]),
        worked("inner_declaration", inner, End::Fault(8, 2), 3, (2, 0), &[Int(1), Unset]),
        worked("outer_declaration", outer, End::Done, 4, (2, 0), &[Unset, Int(0)]),
        worked("formal_of_the_name", "var x; (proc x: x = x - 1)(5)", End::Done, 3, (2, 0), &[Unset, Int(4)]),
    ]
}

/// Fault 8 comes before room. With 1,022 calls all frames are used; y, 1, y < 1, p and x are nodes 0 to 4, and the steps are var, var,
/// p, the calls, and an `if` after each. With SKIPS control would have 257 parts after the step; they are 257 nodes too.
fn rooms() -> Vec<Worked> {
    let last_call = "var x; var p; {p = proc y: if y < 1 p(x) else p(y - 1); p(1021)}";
    let right_side = "{o.f = x; SKIPS}";
    vec![
        worked("argument_before_room_1", last_call, End::Fault(8, 4), 2_047, (1_024, 0), &[Unset, made(12)]),
        first("argument_before_room_3", "(proc y: SKIPS)(x)", (8, 258)),
        first("assignment_before_room_3", "{x = x; SKIPS}", (8, 0)),
        with_object("right_side_before_room_3", right_side, (8, 3)),
    ]
}
