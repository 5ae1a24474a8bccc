//! Cases made from a seed: well-formed scripts biased to what is interesting, damaged images, arbitrary bytes, and the
//! choices, the workspace and the rows that go with them.

mod bodies;
mod branches;
mod choices;
mod damage;
mod express;
mod grow;
mod limits;
mod themes;
mod unset;
pub mod written;

use crate::random::Random;
use crate::subject::{ROW, SIZE};

#[derive(Clone, Debug, PartialEq, Eq)]
pub struct Case {
    pub script: Vec<u8>,
    pub choices: Vec<u8>,
    /// The length of the lent workspace.
    pub words: usize,
    /// The length of the lent rows.
    pub rows: usize,
    /// The length of the list lent to a fair run.
    pub picks: usize,
    /// What the lent memory holds before the call.
    pub pattern: u64,
}

pub fn case(random: &mut Random) -> Case {
    let (script, far) = match random.below(20) {
        0..=13 => {
            let themed = themes::script(random);
            (themed.image.bytes(), themed.far)
        }
        14..=18 => (damage::damaged(random), false),
        _ => (damage::arbitrary(random), false),
    };
    let choices = choices::choices(random, &script, far);
    let words = match random.below(20) {
        0..=11 => SIZE + random.below(40),
        12..=18 => SIZE,
        _ => random.pick(&[0, 1, SIZE / 2, SIZE - 2, SIZE - 1]),
    };
    let rows = match random.below(4) {
        0 => random.below(3 * ROW),
        1 => (ROW * choices.len() / 2) + random.below(ROW),
        _ => ROW * choices.len() + random.below(2 * ROW),
    };
    let picks = choices::room_for_picks(random, &script);
    Case { script, choices, words, rows, picks, pattern: random.next() }
}
