//! A text that is being read: the place that is looked at, the names and the nodes so far.

use super::calls::Calls;
use super::list::List;
use super::places::{next, Kind, Place};
use super::{Refused, Wrong};
use crate::image::{Image, Node};
use std::cell::{Cell, RefCell};
use std::collections::HashMap;
use std::rc::Rc;

const MOST_NODES: usize = 2_048;
const MOST_NAMES: usize = 128;

/// A text that is being read, up to the place that is looked at.
pub struct Text {
    bytes: Vec<u8>,
    list: List,
    pub place: Cell<Place>,
    names: RefCell<HashMap<Vec<u8>, usize>>,
    nodes: RefCell<Vec<Node>>,
    /// The nodes written, those past the limit too.
    count: Cell<usize>,
    pub calls: Calls<Refused>,
    wrong: Option<Wrong>,
}

impl Text {
    pub fn read(bytes: &[u8], list: List, wrong: Option<Wrong>) -> Result<Image, Refused> {
        let text = Rc::new(Text {
            place: Cell::new(next(bytes, 0)),
            bytes: bytes.to_vec(),
            list,
            names: RefCell::default(),
            nodes: RefCell::default(),
            count: Cell::new(0),
            calls: Calls::default(),
            wrong,
        });
        text.calls.run(Box::pin(Rc::clone(&text).whole()))?;
        if text.too_many_nodes() {
            return Err(Refused::nowhere(27));
        }
        let names = text.names.borrow().len() as u16;
        let codes = text.codes();
        Ok(Image { codes, names, nodes: text.nodes.take() })
    }

    fn codes(&self) -> Vec<u16> {
        let nodes = self.nodes.borrow();
        let used = |index: &usize| nodes.iter().any(|node| node[0] == 1 && usize::from(node[1]) == index + 1);
        let kept = |index: &usize| !self.takes(Wrong::FieldsUsed) || used(index);
        (0..self.list.codes.len()).filter(kept).map(|index| self.list.codes[index]).collect()
    }

    pub fn takes(&self, wrong: Wrong) -> bool {
        self.wrong == Some(wrong)
    }

    /// A refusal at the place: its line is 1 and the bytes 10 that stand before it.
    pub fn refused<T>(&self, number: u32) -> Result<T, Refused> {
        let place = self.place.get();
        let unknown = place.kind == Kind::Field && self.field_index(place).is_none();
        let number = if number == 23 && unknown && self.takes(Wrong::FieldBeforeOrder) { 24 } else { number };
        let mut before = &self.bytes[..place.start];
        if place.kind == Kind::End && self.takes(Wrong::EndAtLastWord) {
            before = before.trim_ascii_end();
        }
        let ends_line = |byte: &&u8| **byte == 10 || (**byte == 13 && self.takes(Wrong::LineAtReturn));
        let line = 1 + before.iter().filter(ends_line).count() as u32;
        Err(Refused { number, line, place: Some((place.start, place.end)) })
    }

    /// What stands at the place. A bad byte is told before anything else is asked of it.
    pub fn look(&self) -> Result<Kind, Refused> {
        match self.place.get().kind {
            Kind::Bad => self.refused(22),
            kind => Ok(kind),
        }
    }

    pub fn spelling(&self) -> &[u8] {
        let place = self.place.get();
        &self.bytes[place.start..place.end]
    }

    /// The byte directly behind the place.
    pub fn behind(&self) -> Option<&u8> {
        self.bytes.get(self.place.get().end)
    }

    pub fn pass(&self) {
        self.place.set(next(&self.bytes, self.place.get().end));
    }

    /// Passes the mark if it stands here.
    pub fn met(&self, mark: &'static str) -> Result<bool, Refused> {
        let here = self.look()? == Kind::Mark(mark);
        if here {
            self.pass();
        }
        Ok(here)
    }

    pub fn mark(&self, mark: &'static str) -> Result<(), Refused> {
        if self.met(mark)? {
            Ok(())
        } else {
            self.refused(23)
        }
    }

    /// A variable name: its number.
    pub fn name(&self) -> Result<usize, Refused> {
        if self.look()? != Kind::Name {
            return self.refused(23);
        }
        let number = self.numbered(self.place.get())?;
        self.pass();
        Ok(number)
    }

    /// The number of the name at a place, by first appearance.
    pub fn numbered(&self, place: Place) -> Result<usize, Refused> {
        let spelling = &self.bytes[place.start..place.end];
        let mut names = self.names.borrow_mut();
        if let Some(&number) = names.get(spelling) {
            return Ok(number);
        }
        if names.len() == MOST_NAMES - usize::from(self.takes(Wrong::NamesFull)) {
            return self.refused(26);
        }
        let number = names.len();
        names.insert(spelling.to_vec(), number);
        Ok(number)
    }

    fn field_index(&self, place: Place) -> Option<usize> {
        self.list.names.iter().position(|name| *name == self.bytes[place.start..place.end])
    }

    /// A field: its index, from 1.
    pub fn field(&self) -> Result<usize, Refused> {
        match self.field_index(self.place.get()) {
            None => self.refused(24),
            Some(index) => {
                self.pass();
                Ok(index + 1)
            }
        }
    }

    /// More nodes are written than an image has.
    pub fn too_many_nodes(&self) -> bool {
        self.count.get() > MOST_NODES
    }

    /// Writes a node down. Past the limit they are only counted: such a text gets no image.
    pub fn node(&self, tag: u16, words: [usize; 3]) -> usize {
        let number = self.count.get();
        self.count.set(number + 1);
        if number < MOST_NODES {
            let [a, b, c] = words.map(|word| word as u16);
            self.nodes.borrow_mut().push([tag, a, b, c]);
        }
        number
    }
}
