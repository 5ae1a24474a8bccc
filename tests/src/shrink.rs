//! Makes a case that shows a difference smaller while it still shows one, and keeps it in a file that can be tried again.

use crate::generate::Case;
use crate::image::{children, kind, Image, Kind};
use crate::subject::SIZE;

/// What can be made smaller.
pub trait Smaller: Clone {
    /// A little smaller each, the boldest first.
    fn smaller(&self) -> Box<dyn Iterator<Item = Self> + '_>;
}

/// The smallest case found by taking something away, as long as `differs`. A pass goes on where it last took
/// something away, and passes are made until one takes nothing.
pub fn shrunk<C: Smaller>(case: &C, differs: impl Fn(&C) -> bool) -> C {
    let mut least = case.clone();
    let (mut tried, mut taken) = (0, false);
    loop {
        let next = least.smaller().enumerate().skip(tried).find(|(_, smaller)| differs(smaller));
        match next {
            Some((at, smaller)) => (least, tried, taken) = (smaller, at, true),
            None if taken => (tried, taken) = (0, false),
            None => return least,
        }
    }
}

impl Smaller for Case {
    fn smaller(&self) -> Box<dyn Iterator<Item = Case> + '_> {
        Box::new(smaller(self))
    }
}

/// Cases with nodes, choices or room for picks taken away.
fn smaller(case: &Case) -> impl Iterator<Item = Case> + '_ {
    let lent = Case { words: SIZE, rows: 0, pattern: 0, ..case.clone() };
    let lent = (case.words >= SIZE && *case != lent).then_some(lent);
    let choices = fewer(&case.choices).map(|choices| Case { choices, ..case.clone() });
    let shorter = [0, case.picks / 2, case.picks.saturating_sub(1)].into_iter().filter(|&picks| picks < case.picks);
    let picks = shorter.map(|picks| Case { picks, ..case.clone() });
    let zeroed = (0..case.choices.len()).filter(|&at| case.choices[at] != 0).map(|at| {
        let mut choices = case.choices.clone();
        choices[at] = 0;
        Case { choices, ..case.clone() }
    });
    // In a smaller script the same command may stand at another position, so that lower choices are tried too.
    let scripts = scripts(&case.script).flat_map(|script| {
        let with = |choices| Case { script: script.clone(), choices, ..case.clone() };
        let lower = case.choices.iter().map(|choice| choice.saturating_sub(1)).collect();
        [with(case.choices.clone()), with(lower), with(vec![0; case.choices.len()])]
    });
    lent.into_iter().chain(scripts).chain(choices).chain(zeroed).chain(picks)
}

/// The list without its second half, quarters, and so on down to single elements.
pub fn fewer(list: &[u8]) -> impl Iterator<Item = Vec<u8>> + '_ {
    let sizes = std::iter::successors(Some(list.len().div_ceil(2)), |size| (*size > 1).then_some(size.div_ceil(2)));
    sizes.filter(|size| *size > 0).flat_map(move |size| {
        let starts = (0..list.len()).step_by(size).collect::<Vec<_>>().into_iter().rev();
        starts.map(move |start| [&list[..start], &list[(start + size).min(list.len())..]].concat())
    })
}

fn scripts(bytes: &[u8]) -> Box<dyn Iterator<Item = Vec<u8>> + '_> {
    match Image::of_bytes(bytes) {
        None => Box::new(fewer(bytes)),
        Some(image) => Box::new(images(image).map(|image| image.bytes())),
    }
}

/// Images with a code less, with a node in place of its parent, or one that stands alone in place of one with children.
fn images(image: Image) -> impl Iterator<Item = Image> {
    let codes = image.codes.split_last().map(|(_, codes)| Image { codes: codes.to_vec(), ..image.clone() });
    let numbers = (0..image.nodes.len()).rev();
    let nodes = numbers.flat_map(move |number| {
        let node = image.nodes[number];
        let alone = match kind(node[0]) {
            Some(Kind::Expression) => [4, 0, 0, 0],
            Some(Kind::Test) => [17, 0, 0, 0],
            _ => [37, 0, 0, 0],
        };
        let below = children(node).filter(|&child| child < number).map(|child| image.nodes[child]);
        let simpler = below.filter(|child| kind(child[0]) == kind(node[0])).chain([alone]);
        let with = simpler.filter(|other| *other != node).map(|other| {
            let mut changed = image.clone();
            changed.nodes[number] = other;
            reached(&changed)
        });
        with.collect::<Vec<_>>()
    });
    nodes.chain(codes)
}

/// The image without the nodes that its root doesn't reach.
fn reached(image: &Image) -> Image {
    let mut kept = vec![false; image.nodes.len()];
    let mut open = vec![image.nodes.len() - 1];
    while let Some(node) = open.pop() {
        if !std::mem::replace(&mut kept[node], true) {
            open.extend(children(image.nodes[node]).filter(|&child| child < image.nodes.len()));
        }
    }
    let order: Vec<usize> = (0..kept.len()).filter(|&node| kept[node]).collect();
    image.reordered(&order)
}

pub fn hex(bytes: &[u8]) -> String {
    bytes.iter().map(|byte| format!("{byte:02x}")).collect()
}

pub fn unhex(text: &str) -> Option<Vec<u8>> {
    let digit = |at: usize| text.get(at..at + 2).and_then(|pair| u8::from_str_radix(pair, 16).ok());
    (0..text.len()).step_by(2).map(digit).collect()
}

/// The text of a case, with remarks and its nodes for a reader.
pub fn written(case: &Case, remarks: &str) -> String {
    let nodes: String = Image::of_bytes(&case.script).map_or(String::new(), |image| {
        let line = |(number, node): (usize, &[u16; 4])| format!("# node {number}: {node:?}\n");
        image.nodes.iter().enumerate().map(line).collect()
    });
    format!(
        "# {remarks}\nscript {}\nchoices {}\nwords {}\nrows {}\npicks {}\npattern {}\n{nodes}",
        hex(&case.script),
        hex(&case.choices),
        case.words,
        case.rows,
        case.picks,
        case.pattern
    )
}

/// The case that a text holds.
pub fn read(text: &str) -> Option<Case> {
    let value = |key: &str| text.lines().find_map(|line| line.strip_prefix(key)).map(str::trim);
    Some(Case {
        script: unhex(value("script")?)?,
        choices: unhex(value("choices")?)?,
        words: value("words")?.parse().ok()?,
        rows: value("rows")?.parse().ok()?,
        picks: value("picks")?.parse().ok()?,
        pattern: value("pattern")?.parse().ok()?,
    })
}
