//! Order 3, worked by hand: two bodies of 1,000 nodes each are compared, for the tests of every subject and for the vectors of the program
//! `vectors`. Every choice is 0, and three steps end the run: the declaration, the test, and the assignment that tells its answer.

pub struct Bodies {
    pub name: &'static str,
    pub text: String,
    /// What x is given: 1 where the bodies are equal, 2 where they aren't.
    pub answer: i32,
}

pub const STEPS: usize = 3;

/// 499 sequences, each the left part of the next, with 500 leaves, in an atom: 1,000 nodes.
fn left(first: &str, last: &str) -> String {
    let all_but_the_last = (0..498).fold(first.to_string(), |inner, _| format!("{{{inner}; skip}}"));
    format!("atom({{{all_but_the_last}; {last}}})")
}

/// The same with each the right part of the next.
fn right(first: &str, last: &str) -> String {
    let all_but_the_first = (0..498).fold(last.to_string(), |inner, _| format!("{{skip; {inner}}}"));
    format!("atom({{{first}; {all_but_the_first}}})")
}

pub fn bodies() -> Vec<Bodies> {
    let bodies = |name, body: fn(&str, &str) -> String, (first, last), answer| {
        let (one, other) = (body("skip", "skip"), body(first, last));
        let text = format!("var x; if proc y: {one} == proc y: {other} x = 1 else x = 2");
        Bodies { name, text, answer }
    };
    vec![
        bodies("left_bodies_equal", left, ("skip", "skip"), 1),
        bodies("left_bodies_last_leaf", left, ("skip", "malloc(y)"), 2),
        bodies("left_bodies_first_leaf", left, ("malloc(y)", "skip"), 2),
        bodies("right_bodies_equal", right, ("skip", "skip"), 1),
        bodies("right_bodies_last_leaf", right, ("skip", "malloc(y)"), 2),
        bodies("right_bodies_first_leaf", right, ("malloc(y)", "skip"), 2),
    ]
}
