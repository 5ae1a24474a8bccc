//! All readings of a list of tokens at once (Earley). After each token the chart has every rule that the tokens so far may be in the
//! middle of; since whatever has been begun can be ended, there is one exactly when the tokens can go on to a text of the grammar.
//! Nothing here knows that a text has one reading.

use super::rules::{rules, Phrase, Rule, Symbol};
use crate::assemble::{Branch, Operand};
use std::collections::{HashMap, HashSet};
use std::rc::Rc;

/// A token with its name, field or number. No number stands for any number.
#[derive(Clone, Copy, Debug, PartialEq, Eq)]
pub enum Token {
    Name(u16),
    Field(u16),
    Number(Option<u64>),
    Minus { sign: bool },
    Mark(&'static str),
}

fn matches(symbol: Symbol, token: Token) -> bool {
    match (symbol, token) {
        (Symbol::Name, Token::Name(_)) | (Symbol::Field, Token::Field(_)) => true,
        (Symbol::Number { signed }, Token::Number(number)) => number.is_none_or(|n| n < (1 << 31) + u64::from(signed)),
        (Symbol::Minus { sign: wanted }, Token::Minus { sign }) => sign || !wanted,
        (Symbol::Mark(wanted), Token::Mark(mark)) => wanted == mark,
        _ => false,
    }
}

/// A rule of which so many symbols are read, from the origin on.
#[derive(Clone, Copy, PartialEq, Eq, Hash)]
struct Item {
    rule: usize,
    read: usize,
    origin: usize,
}

/// Where the tokens so far may be: inside rules, and before all rules of a set of phrases.
struct Spot {
    inside: Vec<Item>,
    before: u32,
}

pub struct Earley {
    rules: Vec<Rule>,
    /// The rules that begin with a token, and those that begin with each phrase.
    with_token: Vec<usize>,
    with_phrase: Vec<Vec<usize>>,
    /// For each phrase the set of those that may stand first in it, itself among them.
    leads: Vec<u32>,
    spots: Vec<Spot>,
    tokens: Vec<Token>,
}

const COMMANDS: [Phrase; 2] = [Phrase::Command { signed: false }, Phrase::Command { signed: true }];

fn leads(rules: &[Rule]) -> Vec<u32> {
    let mut leads: Vec<u32> = (0..Phrase::COUNT).map(|phrase| 1 << phrase).collect();
    loop {
        let before = leads.clone();
        for rule in rules {
            if let Symbol::Phrase(first) = rule.of[0] {
                leads[rule.makes.number()] |= leads[first.number()];
            }
        }
        if leads == before {
            return leads;
        }
    }
}

impl Default for Earley {
    fn default() -> Earley {
        let rules = rules();
        let (mut with_token, mut with_phrase) = (Vec::new(), vec![Vec::new(); Phrase::COUNT]);
        for (number, rule) in rules.iter().enumerate() {
            match rule.of[0] {
                Symbol::Phrase(first) => with_phrase[first.number()].push(number),
                _ => with_token.push(number),
            }
        }
        let leads = leads(&rules);
        let before = COMMANDS.iter().fold(0, |set, command| set | leads[command.number()]);
        let spots = vec![Spot { inside: Vec::new(), before }];
        Earley { rules, with_token, with_phrase, leads, spots, tokens: Vec::new() }
    }
}

impl Earley {
    /// Goes on with the token, if a text of the grammar does.
    pub fn push(&mut self, token: Token) -> bool {
        let mut inside = Vec::new();
        let mut known = HashSet::new();
        let mut found =
            |new: Vec<Item>, inside: &mut Vec<Item>| inside.extend(new.into_iter().filter(|&new| known.insert(new)));
        found(self.advanced(self.spots.len() - 1, &self.with_token, |symbol| matches(symbol, token)), &mut inside);
        let mut at = 0;
        while let Some(&item) = inside.get(at) {
            at += 1;
            let rule = &self.rules[item.rule];
            if item.read == rule.of.len() {
                let (whole, begun) = (Symbol::Phrase(rule.makes), &self.with_phrase[rule.makes.number()]);
                found(self.advanced(item.origin, begun, |symbol| symbol == whole), &mut inside);
            }
        }
        if inside.is_empty() {
            return false;
        }
        let before = inside.iter().fold(0, |set, item| match self.rules[item.rule].of.get(item.read) {
            Some(Symbol::Phrase(next)) => set | self.leads[next.number()],
            _ => set,
        });
        self.spots.push(Spot { inside, before });
        self.tokens.push(token);
        true
    }

    pub fn pop(&mut self) {
        self.spots.pop();
        self.tokens.pop();
    }

    /// What stands at a spot with such a symbol next, with that symbol read: rules that it is inside of, and of those that may
    /// begin with it the ones that it is before.
    fn advanced(&self, spot: usize, may_begin: &[usize], reads: impl Fn(Symbol) -> bool) -> Vec<Item> {
        let Spot { inside, before } = &self.spots[spot];
        let next = |item: &&Item| self.rules[item.rule].of.get(item.read).is_some_and(|&symbol| reads(symbol));
        let begun = inside.iter().filter(next).map(|item| Item { read: item.read + 1, ..*item });
        let first =
            |&&rule: &&usize| reads(self.rules[rule].of[0]) && before >> self.rules[rule].makes.number() & 1 == 1;
        let begins = may_begin.iter().filter(first).map(|&rule| Item { rule, read: 1, origin: spot });
        begun.chain(begins).collect()
    }

    /// All trees that the tokens write as a command; none where they are no text.
    pub fn readings(&self) -> Vec<Branch> {
        let mut readings = Readings { chart: self, known: HashMap::new() };
        COMMANDS.iter().flat_map(|&command| readings.of(command, 0, self.tokens.len()).to_vec()).collect()
    }
}

struct Readings<'a> {
    chart: &'a Earley,
    /// By number of the phrase, and from where to where.
    known: HashMap<(usize, usize, usize), Rc<Vec<Branch>>>,
}

impl Readings<'_> {
    /// The trees of a phrase that the tokens from one place to another write.
    fn of(&mut self, phrase: Phrase, from: usize, to: usize) -> Rc<Vec<Branch>> {
        if let Some(known) = self.known.get(&(phrase.number(), from, to)) {
            return Rc::clone(known);
        }
        let chart = self.chart;
        let ended = |item: &&Item| item.origin == from && item.read == chart.rules[item.rule].of.len();
        let mut trees = Vec::new();
        for rule in chart.spots[to].inside.iter().filter(ended).map(|item| &chart.rules[item.rule]) {
            if rule.makes == phrase {
                let all = self.parts(&rule.of, from, to);
                trees.extend(all.into_iter().map(|words| grown(rule.tag, words)));
            }
        }
        let trees = Rc::new(trees);
        self.known.insert((phrase.number(), from, to), Rc::clone(&trees));
        trees
    }

    /// The words of a node, in each way in which the tokens are the symbols.
    fn parts(&mut self, of: &[Symbol], from: usize, to: usize) -> Vec<Vec<Operand>> {
        let Some((&first, rest)) = of.split_first() else {
            return if from == to { vec![Vec::new()] } else { Vec::new() };
        };
        if from == to {
            return Vec::new();
        }
        let Symbol::Phrase(phrase) = first else {
            let token = self.chart.tokens[from];
            let behind = if matches(first, token) { self.parts(rest, from + 1, to) } else { Vec::new() };
            return behind.into_iter().map(|words| [value(first, token), words].concat()).collect();
        };
        let mut all = Vec::new();
        for end in from + 1..=to {
            let behind = self.parts(rest, end, to);
            let trees = if behind.is_empty() { Rc::default() } else { self.of(phrase, from, end) };
            for tree in trees.iter() {
                all.extend(behind.iter().map(|words| [vec![Operand::Child(tree.clone())], words.clone()].concat()));
            }
        }
        all
    }
}

/// What a token gives to the words of its node.
fn value(symbol: Symbol, token: Token) -> Vec<Operand> {
    match (symbol, token) {
        (_, Token::Name(number) | Token::Field(number)) => vec![Operand::Number(number)],
        (Symbol::Number { signed }, Token::Number(Some(number))) => {
            let bits = if signed { -(number as i64) } else { number as i64 } as u32;
            vec![Operand::Number(bits as u16), Operand::Number((bits >> 16) as u16)]
        }
        _ => Vec::new(),
    }
}

/// The node, or what is in the parentheses.
fn grown(tag: Option<u16>, mut words: Vec<Operand>) -> Branch {
    match (tag, words.pop()) {
        (None, Some(Operand::Child(inner))) => inner,
        (None, _) => unreachable!("a group has one expression"),
        (Some(tag), last) => Branch { tag, words: words.into_iter().chain(last).collect() },
    }
}
