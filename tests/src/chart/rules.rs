//! The rules of document 002, section 1, as they stand there, ambiguous, with order 1's sentences as conditions on what is put
//! together. A phrase carries what the conditions ask for, so that each rule is written once for all phrases that may stand in it.

/// What an expression is where it isn't in parentheses.
#[derive(Clone, Copy, Debug, PartialEq, Eq)]
pub enum Top {
    Operand,
    Selection,
    Difference,
    Procedure,
}

#[derive(Clone, Copy, Debug, PartialEq, Eq)]
pub enum Phrase {
    /// `bare`: it ends with a proc that is not in parentheses. `signed`: it begins with a sign.
    Expression {
        top: Top,
        bare: bool,
        signed: bool,
    },
    /// `operand`: it ends with an operand.
    Test {
        operand: bool,
    },
    Command {
        signed: bool,
    },
}

impl Phrase {
    /// Phrases are numbered, so that a set of them is the bits of a word.
    pub const COUNT: usize = 20;

    pub fn number(self) -> usize {
        match self {
            Phrase::Expression { top, bare, signed } => 4 * top as usize + 2 * usize::from(bare) + usize::from(signed),
            Phrase::Test { operand } => 16 + usize::from(operand),
            Phrase::Command { signed } => 18 + usize::from(signed),
        }
    }
}

#[derive(Clone, Copy, Debug, PartialEq, Eq)]
pub enum Symbol {
    Phrase(Phrase),
    Name,
    Field,
    /// A number, within 32 bits behind a sign or without one.
    Number {
        signed: bool,
    },
    /// A minus, and if it must be one with a digit directly behind it.
    Minus {
        sign: bool,
    },
    Mark(&'static str),
}

/// What the symbols are put together to: a node of the tag, or nothing new where they are a group.
#[derive(Clone, Debug)]
pub struct Rule {
    pub makes: Phrase,
    pub of: Vec<Symbol>,
    pub tag: Option<u16>,
}

use Symbol::{Field, Mark, Minus, Name, Number};

/// An expression as a part of a rule.
#[derive(Clone, Copy)]
struct Part {
    top: Top,
    bare: bool,
    signed: bool,
}

impl Part {
    fn symbol(self) -> Symbol {
        let Part { top, bare, signed } = self;
        Symbol::Phrase(Phrase::Expression { top, bare, signed })
    }

    /// "a proc not in parentheses is followed by no dot, minus, comparison or argument"
    fn may_be_followed(&self) -> bool {
        !self.bare
    }

    /// "Selection binds tightest, then difference, both to the left"
    fn left_of_dot(&self) -> bool {
        self.may_be_followed() && self.top != Top::Difference
    }

    fn right_of_dot(&self) -> bool {
        self.top != Top::Difference && self.top != Top::Selection
    }

    fn right_of_minus(&self) -> bool {
        self.top != Top::Difference
    }
}

fn command(signed: bool) -> Symbol {
    Symbol::Phrase(Phrase::Command { signed })
}

fn parts() -> impl Iterator<Item = Part> + Clone {
    let tops = [Top::Operand, Top::Selection, Top::Difference, Top::Procedure].into_iter();
    let ends = tops.flat_map(|top| [(top, false), (top, true)]);
    ends.flat_map(|(top, bare)| [false, true].map(|signed| Part { top, bare, signed }))
}

/// Every rule with everything that may stand in it.
pub fn rules() -> Vec<Rule> {
    let mut rules = Vec::new();
    expressions(&mut rules);
    tests(&mut rules);
    commands(&mut rules);
    productive(rules)
}

/// e ::= f | 1 | e - e | null | x | e.e | proc y: C | (e)
fn expressions(rules: &mut Vec<Rule>) {
    let mut rule = |top, bare, signed, tag, of: &[Symbol]| {
        rules.push(Rule { makes: Phrase::Expression { top, bare, signed }, of: of.to_vec(), tag });
    };
    let (plain, negative) = (Number { signed: false }, Number { signed: true });
    rule(Top::Operand, false, false, Some(1), &[Field]);
    rule(Top::Operand, false, false, Some(2), &[plain]);
    rule(Top::Operand, false, true, Some(2), &[Minus { sign: true }, negative]);
    rule(Top::Operand, false, false, Some(4), &[Mark("null")]);
    rule(Top::Operand, false, false, Some(5), &[Name]);
    for signed in [false, true] {
        rule(Top::Procedure, true, false, Some(7), &[Mark("proc"), Name, Mark(":"), command(signed)]);
    }
    for inner in parts() {
        rule(Top::Operand, false, false, None, &[Mark("("), inner.symbol(), Mark(")")]);
    }
    for left in parts() {
        for right in parts() {
            let (a, b) = (left.symbol(), right.symbol());
            if left.may_be_followed() && right.right_of_minus() {
                rule(Top::Difference, right.bare, left.signed, Some(3), &[a, Minus { sign: false }, b]);
            }
            if left.left_of_dot() && right.right_of_dot() {
                rule(Top::Selection, right.bare, left.signed, Some(6), &[a, Mark("."), b]);
            }
        }
    }
}

/// b ::= true | false | e == e | e < e
fn tests(rules: &mut Vec<Rule>) {
    let mut rule = |operand, tag, of: &[Symbol]| {
        rules.push(Rule { makes: Phrase::Test { operand }, of: of.to_vec(), tag: Some(tag) });
    };
    rule(false, 16, &[Mark("true")]);
    rule(false, 17, &[Mark("false")]);
    for left in parts().filter(Part::may_be_followed) {
        for right in parts() {
            rule(true, 18, &[left.symbol(), Mark("=="), right.symbol()]);
            rule(true, 19, &[left.symbol(), Mark("<"), right.symbol()]);
        }
    }
}

/// C ::= var x; C | e(e) | malloc(x) | x = e | e.e = e | skip | {C; C} | while b C | if b C else C | {C || C} | atom(C)
fn commands(rules: &mut Vec<Rule>) {
    let mut rule = |signed, tag, of: &[Symbol]| {
        rules.push(Rule { makes: Phrase::Command { signed }, of: of.to_vec(), tag: Some(tag) });
    };
    rule(false, 34, &[Mark("malloc"), Mark("("), Name, Mark(")")]);
    rule(false, 37, &[Mark("skip")]);
    for a in parts() {
        rule(false, 35, &[Name, Mark("="), a.symbol()]);
        for b in parts() {
            if a.may_be_followed() {
                rule(a.signed, 33, &[a.symbol(), Mark("("), b.symbol(), Mark(")")]);
            }
            for c in parts().filter(|_| a.left_of_dot() && b.right_of_dot()) {
                rule(a.signed, 36, &[a.symbol(), Mark("."), b.symbol(), Mark("="), c.symbol()]);
            }
        }
    }
    for one in [false, true] {
        let c = command(one);
        rule(false, 32, &[Mark("var"), Name, Mark(";"), c]);
        rule(false, 42, &[Mark("atom"), Mark("("), c, Mark(")")]);
        for operand in [false, true] {
            // "where no operand has just ended": a sign begins no command there
            if operand && one {
                continue;
            }
            let test = Symbol::Phrase(Phrase::Test { operand });
            rule(false, 39, &[Mark("while"), test, c]);
            for other in [false, true] {
                rule(false, 40, &[Mark("if"), test, c, Mark("else"), command(other)]);
            }
        }
        for other in [false, true] {
            rule(false, 38, &[Mark("{"), c, Mark(";"), command(other), Mark("}")]);
            rule(false, 41, &[Mark("{"), c, Mark("||"), command(other), Mark("}")]);
        }
    }
}

/// The rules that some text follows: without the others, whatever has been begun can be ended.
fn productive(rules: Vec<Rule>) -> Vec<Rule> {
    let mut written = 0;
    let ends = |rule: &&Rule, written: u32| {
        let missing = |symbol: &Symbol| matches!(symbol, Symbol::Phrase(phrase) if written >> phrase.number() & 1 == 0);
        !rule.of.iter().any(missing)
    };
    loop {
        let more = rules.iter().filter(|rule| ends(rule, written)).fold(0, |set, rule| set | 1 << rule.makes.number());
        if more == written {
            return rules.iter().filter(|rule| ends(rule, written)).cloned().collect();
        }
        written = more;
    }
}
