//! Long bodies to compare, order 3 of document 02: nested to the left, to the right, either way or evenly, alike or unlike in one place.
//! The library keeps pairs of nodes that wait to be compared in a store of 16 and, where these are full, of 64 and 256, or of 256
//! and 2,048, by whether the body with the lower number is a node below 256: the sizes lie around these numbers, and around 32, at
//! which wrong turns of the independent interpreter go wrong.

use super::grow::Grower;
use super::themes::{filled, MOST_NODES};
use crate::assemble::*;
use crate::image::{kind, row, Kind, Word};

/// In which of its parent's children a body goes on.
#[derive(Clone, Copy, PartialEq, Eq)]
enum Nesting {
    First,
    Last,
    Either,
    All,
}

/// In what the second body is unlike the first.
#[derive(Clone, Copy, PartialEq, Eq)]
enum Unlike {
    Nothing,
    FirstLeaf,
    LastLeaf,
    Middle,
    SecondOfThree,
    /// The two children of one node have changed places.
    Order,
}

/// So many children stand beside the nested ones, and one pair more waits at once: about 16, 32, 64, 256 and between; with 127 and 128
/// the body itself is node 254 or 256, where nothing stands before it.
const SIDES: [usize; 32] = [
    3, 15, 16, 29, 30, 30, 31, 31, 32, 32, 32, 33, 45, 62, 63, 64, 64, 127, 127, 127, 128, 128, 128, 254, 254, 255,
    255, 255, 256, 256, 300, 490,
];

/// As many nodes as each of two bodies may have, so that there is room for what compares them.
const MOST_OF_A_BODY: usize = MOST_NODES / 2 - 10;

/// The tags of nodes with children; sequences and parallels twice as often.
const TAGS: [u16; 16] = [3, 6, 7, 18, 19, 32, 33, 35, 36, 38, 39, 40, 41, 42, 38, 41];

/// The kinds of a tag's children, in order.
fn kinds(tag: u16) -> Vec<Kind> {
    let child = |is| match is {
        Word::Child(kind) => Some(kind),
        _ => None,
    };
    row(tag).into_iter().flatten().filter_map(child).collect()
}

/// Two procedures, or one twice, that are kept or written where they are compared.
pub fn long_bodies(grower: &mut Grower) -> Branch {
    let [one, other, formal] = [0, 1, 2].map(|next| grower.names + next);
    grower.names += 3;
    let nesting = [Nesting::First, Nesting::First, Nesting::Last, Nesting::Last, Nesting::Either, Nesting::All];
    let leaves = [Unlike::FirstLeaf, Unlike::LastLeaf];
    let others = [Unlike::Middle, Unlike::SecondOfThree, Unlike::Order];
    let nesting = grower.random.pick(&nesting);
    let unlike = match grower.random.below(4) {
        0 => grower.random.pick(&leaves),
        1 => grower.random.pick(&others),
        _ => Unlike::Nothing,
    };
    let (itself, in_a_loop, kept) = (grower.random.once_in(8), grower.random.once_in(3), grower.random.once_in(2));
    let plain = grower.random.once_in(2);
    let maker = &mut Maker { grower, formal, plain, bodies: if itself { 1 } else { 2 } };
    let body = maker.body(nesting);
    let second = proc(formal, maker.unlike(body.clone(), unlike));
    let first = proc(formal, body);
    let compared = |a, b| {
        if in_a_loop {
            // after the answer yes comes fault 1, or 8 where nothing was stored
            repeat(equal(a, b), assign(one, difference(variable(one), integer(1))))
        } else {
            choose(equal(a, b), assign(one, integer(1)), assign(one, integer(2)))
        }
    };
    let root = match (itself, kept) {
        (true, true) => var(one, sequence(assign(one, first), compared(variable(one), variable(one)))),
        (true, false) => call(proc(one, compared(variable(one), variable(one))), first),
        (false, true) => {
            let last = compared(variable(one), variable(other));
            var(one, var(other, sequence(assign(one, first), sequence(assign(other, second), last))))
        }
        (false, false) => var(one, compared(first, second)),
    };
    let nodes = grower.random.pick(&[0, 255, 255, 256, 256, 257, 257, MOST_NODES - 1, MOST_NODES]);
    filled(root, nodes)
}

/// Makes bodies that use no name but the formal, so that any name may be declared anywhere in them.
struct Maker<'a, 'b> {
    grower: &'a mut Grower<'b>,
    formal: u16,
    /// Nothing but sequences and parallels is nested, or nothing but differences and selections.
    plain: bool,
    /// How many bodies the script is to have room for.
    bodies: usize,
}

impl Maker<'_, '_> {
    fn leaf(&mut self, kind: Kind) -> Branch {
        let (random, fields) = (&mut self.grower.random, usize::from(self.grower.fields));
        match (kind, random.below(3)) {
            (Kind::Expression, 0) => variable(self.formal),
            (Kind::Expression, 1) if fields > 0 => field(random.within(1, fields) as u16),
            (Kind::Expression, _) if random.once_in(3) => null(),
            (Kind::Expression, _) => integer(random.next() as i32),
            (Kind::Test, _) => constant(random.once_in(2)),
            (Kind::Command, 0) => malloc(self.formal),
            (Kind::Command, _) => skip(),
        }
    }

    /// A node of the tag with the children that `child` makes, each by its place among them and its kind.
    fn node(&mut self, tag: u16, mut child: impl FnMut(&mut Self, usize, Kind) -> Branch) -> Branch {
        let mut words = Vec::new();
        if row(tag).is_some_and(|row| row[0] == Word::Name) {
            words.push(Operand::Number(if tag == 35 { self.formal } else { self.grower.name() }));
        }
        for (place, kind) in kinds(tag).into_iter().enumerate() {
            words.push(Operand::Child(child(self, place, kind)));
        }
        Branch { tag, words }
    }

    /// A tag that is wanted and, in a plain body, joins two parts of one kind.
    fn tag(&mut self, wanted: impl Fn(u16) -> bool) -> u16 {
        let fits = |tag: &u16| wanted(*tag) && (!self.plain || matches!(tag, 3 | 6 | 38 | 41));
        let tags: Vec<u16> = TAGS.into_iter().filter(fits).collect();
        self.grower.random.pick(&tags)
    }

    fn body(&mut self, nesting: Nesting) -> Branch {
        let of_expressions = self.plain && self.grower.random.once_in(3);
        let inside = if of_expressions { Kind::Expression } else { Kind::Command };
        let body = if nesting == Nesting::All {
            // up to 511 nodes with two children each, up to 364 with three
            let levels = if self.plain { self.grower.random.within(3, 8) } else { self.grower.random.within(2, 5) };
            self.even(inside, levels)
        } else {
            self.nested(inside, nesting)
        };
        match kind(body.tag) {
            Some(Kind::Expression) => assign(self.formal, body),
            Some(Kind::Test) => repeat(body, skip()),
            _ => body,
        }
    }

    fn even(&mut self, wanted: Kind, levels: usize) -> Branch {
        if levels == 0 {
            return self.leaf(wanted);
        }
        let tag = self.tag(|tag| kind(tag) == Some(wanted) && (kinds(tag).len() > 1 || tag == 7));
        self.node(tag, |maker, _, kind| maker.even(kind, levels - 1))
    }

    fn nested(&mut self, inmost: Kind, nesting: Nesting) -> Branch {
        let share = 2 / self.bodies;
        let wanted = share * self.grower.random.pick(&SIDES);
        let (mut body, mut sides, mut nodes) = (self.leaf(inmost), 0, 1);
        while sides < wanted && nodes + 3 < share * MOST_OF_A_BODY {
            let inner = kind(body.tag).expect("a tag of the table");
            // a test is never a last child
            let last = inner != Kind::Test
                && (nesting == Nesting::Last || nesting == Nesting::Either && self.grower.random.once_in(2));
            let at = |tag| if last { kinds(tag).len() - 1 } else { 0 };
            let tag = self.tag(|tag| kinds(tag)[at(tag)] == inner);
            let mut inside = Some(body);
            body = self.node(tag, |maker, place, kind| match inside.take_if(|_| place == at(tag)) {
                Some(inside) => inside,
                None => maker.leaf(kind),
            });
            sides += kinds(tag).len() - 1;
            nodes += kinds(tag).len();
        }
        body
    }

    /// The body, unlike itself in what is wanted where there is such a place.
    fn unlike(&mut self, mut body: Branch, unlike: Unlike) -> Branch {
        let all = body.all();
        let last = all.len() - 1;
        let first_leaf = all.iter().position(|node| node.is_leaf()).unwrap_or(last);
        let seconds: Vec<usize> = all.iter().enumerate().filter_map(|(at, node)| second_of_three(at, node)).collect();
        let start = self.grower.random.below(all.len());
        let from_start = || (start..last).chain(0..start);
        let mut change = |place: usize| body.at(place).is_some_and(|node| self.changed(node));
        match unlike {
            Unlike::Nothing => false,
            Unlike::FirstLeaf => change(first_leaf),
            Unlike::LastLeaf => change(last),
            Unlike::Middle => from_start().filter(|place| *place != first_leaf).any(change),
            Unlike::SecondOfThree => from_start().filter(|place| seconds.contains(place)).any(change),
            Unlike::Order => from_start().any(|place| body.at(place).is_some_and(exchanged)),
        };
        body
    }

    /// Makes another node of it with the same children, where there is one that may stand there.
    fn changed(&mut self, node: &mut Branch) -> bool {
        let (random, names) = (&mut self.grower.random, self.grower.names);
        match (node.tag, &mut node.words[..]) {
            (1 | 5, _) => *node = null(),
            (4, _) => *node = variable(self.formal),
            (34, _) => *node = skip(),
            (37, _) => *node = malloc(self.formal),
            (2, [Operand::Number(low), Operand::Number(high)]) => {
                let half = if random.once_in(2) { low } else { high };
                *half ^= 1 << random.below(16);
            }
            (7 | 32, [Operand::Number(name), _]) => *name = (*name + 1) % names,
            (3 | 6, _) => node.tag = 3 + 6 - node.tag,
            (16 | 17, _) => node.tag = 16 + 17 - node.tag,
            (18 | 19, _) => node.tag = 18 + 19 - node.tag,
            (38 | 41, _) => node.tag = 38 + 41 - node.tag,
            _ => return false,
        }
        true
    }
}

/// The place of the second child of a node at a place, in `all`, where it has three.
fn second_of_three(at: usize, node: &Branch) -> Option<usize> {
    match &node.words[..] {
        [Operand::Child(first), Operand::Child(_), Operand::Child(_)] => Some(at + 1 + first.nodes()),
        _ => None,
    }
}

/// Puts the second of two unlike children of one kind first.
fn exchanged(node: &mut Branch) -> bool {
    let two = matches!(kinds(node.tag)[..], [a, b] if a == b) && node.words[0] != node.words[1];
    if two {
        node.words.swap(0, 1);
    }
    two
}
