//! Order 4, worked by hand: scripts with the choices that a fair run of them picks, for the tests of every subject that takes turns
//! fairly. Those up to `last_choice` are the entries of fair/proofs/FairCases, worked out there with commands on slips of paper, and
//! the others, the last two with order 5, were found in the same way: a queue is written front first, and "A at 1" is that A has one
//! other to the left of it.

pub struct Worked {
    pub name: &'static str,
    pub text: String,
    /// The bytes of the lent list.
    pub room: usize,
    pub picks: Vec<u8>,
    /// The end, its number and its node.
    pub end: (u32, u32, Option<u32>),
    pub steps: usize,
    /// How many parts of control, frames and objects are left.
    pub left: [u64; 3],
    /// The integers in the first cells; none where nothing was stored.
    pub cells: Vec<Option<i32>>,
}

const DONE: (u32, u32, Option<u32>) = (1, 0, None);
const FULL: (u32, u32, Option<u32>) = (4, 0, None);

fn worked(
    name: &'static str,
    text: &str,
    (room, picks): (usize, &[u8]),
    (end, steps): ((u32, u32, Option<u32>), usize),
    left: [u64; 3],
    cells: &[Option<i32>],
) -> Worked {
    Worked { name, text: text.to_string(), room, picks: picks.to_vec(), end, steps, left, cells: cells.to_vec() }
}

/// So many of the command side by side, each pair the left part of the next.
fn side_by_side(count: usize, command: &str) -> String {
    (1..count).fold(command.to_string(), |left, _| format!("{{{left} || {command}}}"))
}

pub fn worked_turns() -> Vec<Worked> {
    [entries(), left_behind(), atoms(), lists(), rooms(), many(), unset()].into_iter().flatten().collect()
}

/// The entries of FairCases but those about the list.
fn entries() -> Vec<Worked> {
    let (own, three) = ("{var x; x = 1 || var x; x = 2}", "{{var x; skip || var x; skip} || var x; skip}");
    let after_parallel = "{{{skip || skip}; {skip || skip}} || var x; {skip; skip}}";
    let atom_in_loop = "{while true atom({skip; skip}) || while true skip}";
    let beside_atoms = "{while true skip || while true atom({skip || skip})}";
    let left_atom = "var x; {{atom(x = 1); {x = 2 || x = 3}} || x = 4}";
    let nested = "var x; {atom(atom({x = 1 || x = 2})) || x = 3}";
    let fault_in_atom = "var x; {atom(x = null - 1) || x = 2}";
    let two_from_one = "{var x; {skip || skip} || {skip || skip}}";
    let first_ends = "{skip || {var x; skip || var x; skip}}";
    let loop_beside = "{while true skip || var x; {skip; skip}}";
    let between = "{{var x; skip || atom(skip)} || var x; skip}";
    vec![
        worked("own_stacks", own, (9, &[0, 1, 0, 0]), (DONE, 4), [0, 2, 0], &[Some(1), Some(2)]),
        worked("three_abreast", three, (9, &[0, 1, 2, 0, 0, 0]), (DONE, 6), [0, 3, 0], &[None; 3]),
        worked("two_from_one", two_from_one, (9, &[0, 2, 2, 0, 0]), (DONE, 5), [0, 1, 0], &[None]),
        worked("first_ends", first_ends, (9, &[0, 0, 1, 0, 0]), (DONE, 5), [0, 2, 0], &[None; 2]),
        worked("loop_beside", loop_beside, (8, &[0, 1, 0, 1, 0, 1, 0, 0]), (FULL, 8), [2, 1, 0], &[None]),
        worked("after_parallel", after_parallel, (9, &[0, 0, 2, 0, 0, 0, 0]), (DONE, 7), [0, 1, 0], &[None]),
        worked("atom_in_loop", atom_in_loop, (12, &[0, 1, 0, 0, 0, 1, 0, 1, 0, 0, 0, 1]), (FULL, 12), [3, 0, 0], &[]),
        worked("loop_beside_atoms", beside_atoms, (9, &[0, 1, 0, 1, 0, 0, 0, 1, 0]), (FULL, 9), [4, 0, 0], &[]),
        worked("atom_between", between, (9, &[0, 1, 0, 1, 0, 0]), (DONE, 6), [0, 2, 0], &[None; 2]),
        worked("left_atom", left_atom, (9, &[0, 0, 0, 2, 0, 0]), (DONE, 6), [0, 1, 0], &[Some(3)]),
        worked("nested_atoms", nested, (9, &[0; 6]), (DONE, 6), [0, 1, 0], &[Some(3)]),
        worked("fault_in_atom", fault_in_atom, (9, &[0; 3]), ((2, 1, Some(2)), 2), [4, 1, 0], &[None]),
    ]
}

/// Of the sentence "The front one moves; what its step leaves movable goes to the back, left to right."
fn left_behind() -> Vec<Worked> {
    // A B C. A at 0, ends: B C. B at 0 leaves three: C B₁ B₂ B₃, while control is B₁ B₂ B₃ C. C at 3, then the three, each at 0.
    let three_from_one = "{{skip || var x; {skip || {skip || skip}}} || skip}";
    // A B C, and A is followed by three. A at 0, ends, and they are opened: B C A₁ A₂ A₃, while control is A₁ A₂ A₃ B C. B at 3, ends: C at 3.
    let three_that_waited = "{{skip; {{skip || skip} || skip}} || {skip || skip}}";
    vec![
        worked("three_from_one", three_from_one, (9, &[0, 0, 3, 0, 0, 0]), (DONE, 6), [0, 1, 0], &[None]),
        worked("three_that_waited", three_that_waited, (9, &[0, 3, 3, 0, 0, 0]), (DONE, 6), [0, 0, 0], &[]),
    ]
}

/// Of the sentence "Inside an entered atom the leftmost always moves, and the whole atom counts as one turn."
fn atoms() -> Vec<Worked> {
    // V at 0: A D. A at 0 enters. The leftmost, x = 1, at 0, then what it leaves, x = 2, at 0, then x = 3 at 0. D at 0.
    let leftmost = "var x; {atom({{x = 1; x = 2} || x = 3}) || skip}";
    // W and X are loops, K is a skip. W X K. W at 0: X K S. X at 1: K S A. K at 2, ends: S A. S at 0: A W. A at 1 enters, its inside at 0
    // is its last, X is opened: W X. W at 0, X at 1. Full, with S and W, A and X.
    let behind = "{{while true skip || while true atom(skip)} || skip}";
    // A D. A at 0 enters and is never left: D never moves.
    let endless = "{atom(while true skip) || skip}";
    vec![
        worked("leftmost_in_atom", leftmost, (9, &[0; 6]), (DONE, 6), [0, 1, 0], &[Some(3)]),
        worked("behind_two_loops", behind, (8, &[0, 1, 2, 0, 1, 0, 0, 1]), (FULL, 8), [5, 0, 0], &[]),
        worked("endless_atom", endless, (9, &[0; 9]), (FULL, 9), [4, 0, 0], &[]),
        // as above, and full when one of the atom's two has moved: the entered atom with the other, W, S, X
        worked(
            "full_in_atom",
            "{while true atom({skip; skip}) || while true skip}",
            (4, &[0, 1, 0, 0]),
            (FULL, 4),
            [6, 0, 0],
            &[],
        ),
    ]
}

/// Lists that are too short, just long enough and longer; the last entries of FairCases are among them.
fn lists() -> Vec<Worked> {
    let (fault, one) = ("var x; {{skip; skip} || x = null - 1}", "var x; x = 1");
    let stops = (2, 1, Some(5));
    vec![
        worked("fault_beside", fault, (9, &[0, 0, 1]), (stops, 2), [3, 1, 0], &[None]),
        worked("fault_beside_just", fault, (3, &[0, 0, 1]), (stops, 2), [3, 1, 0], &[None]),
        worked("fault_beside_full", fault, (2, &[0, 0]), (FULL, 2), [3, 1, 0], &[None]),
        worked("fault_beside_no_list", fault, (0, &[]), (FULL, 0), [1, 0, 0], &[]),
        worked("longer_list", one, (3, &[0, 0]), (DONE, 2), [0, 1, 0], &[Some(1)]),
        worked("last_choice", one, (2, &[0, 0]), (DONE, 2), [0, 1, 0], &[Some(1)]),
        worked("one_choice_less", one, (1, &[0]), (FULL, 1), [1, 1, 0], &[None]),
        worked("no_choice", one, (0, &[]), (FULL, 0), [1, 0, 0], &[]),
    ]
}

/// Runs that stop for room: at the start no choice is picked, at a step its choice is.
fn rooms() -> Vec<Worked> {
    let too_many = side_by_side(129, "skip");
    let call = format!("(proc y: {too_many})(0)");
    let (left, right) = (format!("{{{call} || skip}}"), format!("{{skip || {call}}}"));
    // a loop beside calls without end: they take turns, and the 1,024th call finds no frame after 1,025 steps of its own side
    let calls = "{while true skip || var p; {p = proc y: p(y); p(0)}}";
    let objects = "var x; while true malloc(x)";
    vec![
        worked("too_large_as_opened", &too_many, (9, &[]), ((3, 3, None), 0), [0, 0, 0], &[]),
        worked("too_large_and_no_list", &too_many, (0, &[]), ((3, 3, None), 0), [0, 0, 0], &[]),
        worked("too_large_at_the_first_step", &left, (9, &[0]), ((3, 3, None), 0), [3, 0, 0], &[]),
        worked("too_large_at_the_second", &right, (9, &[0, 0]), ((3, 3, None), 1), [1, 0, 0], &[]),
        worked("no_frame", calls, (4_096, &[0, 1].repeat(1_026)), ((3, 1, None), 2_051), [3, 1_024, 0], &[]),
        worked("no_object", objects, (4_096, &[0; 515]), ((3, 2, None), 514), [2, 1, 256], &[]),
    ]
}

/// As many as control has room for.
fn many() -> Vec<Worked> {
    let (loops, variables) = (side_by_side(85, "while true skip"), side_by_side(128, "var x; skip"));
    let round: Vec<u8> = (0..85).collect();
    // in the second round each ends, so that the next stands first
    let ending: Vec<u8> = (0..128).chain([0; 128]).collect();
    vec![
        worked("eighty_five_loops", &loops, (170, &round.repeat(2)), (FULL, 170), [169, 0, 0], &[]),
        worked("all_that_have_room", &variables, (300, &ending), (DONE, 256), [0, 128, 0], &[None; 128]),
    ]
}

/// Order 5: of two branches the left one moves first, and reads before the other has set the variable, or sets it for the other.
fn unset() -> Vec<Worked> {
    // V at 0: A B. A at 0, and stops, at node 0.
    let early = "var x; {x = x - 1 || x = 5}";
    // V at 0: A B. A at 0, ends: B at 0.
    let in_time = "var x; {x = 5 || x = x - 1}";
    vec![
        worked("branch_too_early", early, (9, &[0, 0]), ((2, 8, Some(0)), 1), [3, 1, 0], &[None]),
        worked("branch_in_time", in_time, (9, &[0, 0, 0]), (DONE, 3), [0, 1, 0], &[Some(4)]),
    ]
}
