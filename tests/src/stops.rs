//! Order 2, worked by hand: scripts in which what a call or a field assignment is to store faults, for the tests of every subject and
//! for the vectors of the program `vectors`. Every choice is 0.

pub struct Stop {
    pub name: &'static str,
    pub text: String,
    /// The fault's number, and its node where nodes stand children first, left before right.
    pub number: u32,
    pub node: u32,
    pub steps: usize,
    pub frames: u64,
    pub objects: u64,
}

/// So many skips side by side: 257 parts for 129.
pub fn skips(count: usize) -> String {
    (1..count).fold("skip".to_string(), |left, _| format!("{{{left} || skip}}"))
}

pub fn stops() -> Vec<Stop> {
    let stop = |name, text: &str, (number, node), steps, (frames, objects)| {
        let text = text.replace("SKIPS", &skips(129));
        Stop { name, text, number, node, steps, frames, objects }
    };
    let last_call = "var p; {p = proc y: if y < 1 p(null - 1) else p(y - 1); p(1022)}";
    vec![
        stop("fault_in_argument", "var x; {x = null; (proc y: x = y)(x - 1)}", (1, 7), 2, (1, 0)),
        stop("fault_in_field", "fields f 7: var x; {malloc(x); {x.f = null - 1; x = x.f}}", (1, 5), 2, (1, 1)),
        stop("fault_further_in", "fields f 7: (proc y: skip)(1 - null.f.f)", (3, 5), 0, (0, 0)),
        stop("fault_in_atom", "var x; {x = null; {atom({skip; (proc y: skip)(x - 1)}) || skip}}", (1, 7), 4, (1, 0)),
        stop("callee_before_argument", "var x; {x = null; x.x(null - 1)}", (3, 4), 2, (1, 0)),
        stop("seven_before_argument", "var x; {x = null; x(null - 1)}", (7, 6), 2, (1, 0)),
        stop("three_before_right_side", "fields f 7: var x; {x = null; x.f = null - 1}", (3, 7), 2, (1, 0)),
        stop("four_before_right_side", "fields f 7: var x; {malloc(x); x.x = null - 1}", (4, 6), 2, (1, 1)),
        stop("argument_before_room_1", last_call, (1, 6), 2_048, (1_024, 0)),
        stop("difference_before_room_1", "var p; {p = proc y: p(y - 1); p(-2147482626)}", (2, 3), 1_025, (1_024, 0)),
        stop("argument_before_room_3", "(proc y: SKIPS)(null - 1)", (1, 260), 0, (0, 0)),
        stop("right_side_before_room_3", "fields f 7: var x; {malloc(x); {x.f = null - 1; SKIPS}}", (1, 5), 2, (1, 1)),
    ]
}
