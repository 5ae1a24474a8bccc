//! The script image of document 01 as a table of words, before anyone has judged it, and the table of tags.

/// What a word of a node is, by its tag's row.
#[derive(Clone, Copy, Debug, PartialEq, Eq)]
pub enum Word {
    Unused,
    Half,
    Name,
    Field,
    Child(Kind),
}

#[derive(Clone, Copy, Debug, PartialEq, Eq)]
pub enum Kind {
    Expression,
    Test,
    Command,
}

/// The words a, b, c of a tag; nothing for a number that is no tag.
pub fn row(tag: u16) -> Option<[Word; 3]> {
    use Word::{Child, Field, Half, Name, Unused};
    let (e, t, c) = (Child(Kind::Expression), Child(Kind::Test), Child(Kind::Command));
    Some(match tag {
        1 => [Field, Unused, Unused],        // field
        2 => [Half, Half, Unused],           // integer
        3 => [e, e, Unused],                 // difference
        4 => [Unused, Unused, Unused],       // null
        5 => [Name, Unused, Unused],         // variable
        6 => [e, e, Unused],                 // selection
        7 => [Name, c, Unused],              // proc
        16 | 17 => [Unused, Unused, Unused], // true, false
        18 | 19 => [e, e, Unused],           // equal, less
        32 => [Name, c, Unused],             // var
        33 => [e, e, Unused],                // call
        34 => [Name, Unused, Unused],        // malloc
        35 => [Name, e, Unused],             // assign
        36 => [e, e, e],                     // field assign
        37 => [Unused, Unused, Unused],      // skip
        38 => [c, c, Unused],                // sequence
        39 => [t, c, Unused],                // while
        40 => [t, c, c],                     // if
        41 => [c, c, Unused],                // parallel
        42 => [c, Unused, Unused],           // atom
        _ => return None,
    })
}

pub fn kind(tag: u16) -> Option<Kind> {
    match tag {
        1..=7 => Some(Kind::Expression),
        16..=19 => Some(Kind::Test),
        32..=42 => Some(Kind::Command),
        _ => None,
    }
}

pub type Node = [u16; 4];

/// The children of a node, in order, as its row has them; none for a number that is no tag.
pub fn children(node: Node) -> impl Iterator<Item = usize> {
    let row = row(node[0]).unwrap_or([Word::Unused; 3]);
    (0..3).filter(move |&i| matches!(row[i], Word::Child(_))).map(move |i| usize::from(node[i + 1]))
}

#[derive(Clone, Debug, PartialEq, Eq)]
pub struct Image {
    pub codes: Vec<u16>,
    pub names: u16,
    pub nodes: Vec<Node>,
}

impl Image {
    /// The parent of each node where every child is there; 0 for the root.
    pub fn parents(&self) -> Vec<usize> {
        let mut parents = vec![0; self.nodes.len()];
        for (number, &node) in self.nodes.iter().enumerate() {
            children(node).for_each(|child| parents[child] = number);
        }
        parents
    }

    pub fn bytes(&self) -> Vec<u8> {
        let fields = self.codes.len() as u16;
        let contents = [10, fields, 10 + 2 * fields, self.nodes.len() as u16, self.names];
        let words = contents.iter().chain(&self.codes).chain(self.nodes.iter().flatten());
        words.flat_map(|word| word.to_le_bytes()).collect()
    }

    /// The image whose bytes these are, if they have the layout: contents, codes, nodes and the exact length.
    pub fn of_bytes(bytes: &[u8]) -> Option<Image> {
        let words: Vec<u16> = bytes.chunks_exact(2).map(|pair| u16::from_le_bytes([pair[0], pair[1]])).collect();
        let fields = usize::from(*words.get(1)?);
        let names = *words.get(4)?;
        let codes = words.get(5..5 + fields)?.to_vec();
        let nodes = words[5 + fields..].chunks_exact(4).map(|node| [node[0], node[1], node[2], node[3]]).collect();
        let image = Image { codes, names, nodes };
        (fields <= 16 && image.bytes() == bytes).then_some(image)
    }

    /// The same script with its nodes in another order: the node at `order[i]` becomes node i.
    pub fn reordered(&self, order: &[usize]) -> Image {
        let mut place = vec![0; self.nodes.len()];
        for (new, &old) in order.iter().enumerate() {
            place[old] = new as u16;
        }
        let moved = |&old: &usize| {
            let mut node = self.nodes[old];
            let row = row(node[0]).unwrap_or([Word::Unused; 3]);
            for (word, is) in node[1..].iter_mut().zip(row) {
                if matches!(is, Word::Child(_)) {
                    *word = place.get(usize::from(*word)).copied().unwrap_or(*word);
                }
            }
            node
        };
        Image { codes: self.codes.clone(), names: self.names, nodes: order.iter().map(moved).collect() }
    }
}
