//! Expressions, by order 1: operands with dots, those with minuses, both to the left; a proc that is not in parentheses stands only at
//! the end, since no dot, minus, comparison or argument follows it.

use super::places::Kind;
use super::text::Text;
use super::{Refused, Wrong};
use std::rc::Rc;

impl Text {
    /// An expression that may end with a bare proc.
    pub async fn inner_expression(self: &Rc<Self>) -> usize {
        self.calls.call(Box::pin(Rc::clone(self).expression())).await
    }

    async fn expression(self: Rc<Self>) -> Result<usize, Refused> {
        let (mut left, mut bare) = self.selection_or_proc().await?;
        while !self.over(bare) && self.met("-")? {
            if self.takes(Wrong::DifferenceToTheRight) {
                let right = self.inner_expression().await;
                return Ok(self.node(3, [left, right, 0]));
            }
            let right;
            (right, bare) = self.selection_or_proc().await?;
            left = self.node(3, [left, right, 0]);
        }
        Ok(left)
    }

    /// Nothing follows a bare proc.
    fn over(&self, bare: bool) -> bool {
        bare && !self.takes(Wrong::ProcGoesOn)
    }

    /// Operands with dots, and whether the last is a bare proc.
    async fn selection_or_proc(self: &Rc<Self>) -> Result<(usize, bool), Refused> {
        let (mut left, mut bare) = self.operand_or_proc().await?;
        while !self.over(bare) && self.met(".")? {
            let right;
            (right, bare) = self.operand_or_proc().await?;
            left = self.node(6, [left, right, 0]);
        }
        Ok((left, bare))
    }

    pub async fn operand_or_proc(self: &Rc<Self>) -> Result<(usize, bool), Refused> {
        if !self.met("proc")? {
            return Ok((self.operand(false).await?, false));
        }
        let formal = self.name()?;
        self.mark(":")?;
        let body = self.inner_command().await;
        Ok((self.node(7, [formal, body, 0]), true))
    }

    /// An expression that stands left of a comparison: it doesn't end with a bare proc.
    pub async fn difference(self: &Rc<Self>) -> Result<usize, Refused> {
        let mut left = self.selection().await?;
        while self.met("-")? {
            let right = self.selection().await?;
            left = self.node(3, [left, right, 0]);
        }
        Ok(left)
    }

    pub async fn selection(self: &Rc<Self>) -> Result<usize, Refused> {
        let mut left = self.operand(false).await?;
        while self.met(".")? {
            let right = self.operand(false).await?;
            left = self.node(6, [left, right, 0]);
        }
        Ok(left)
    }

    /// A field, an integer, null, a variable or an expression in parentheses. Behind an operand a minus is no integer's.
    pub async fn operand(self: &Rc<Self>, behind_operand: bool) -> Result<usize, Refused> {
        match self.look()? {
            Kind::Name => Ok(self.node(5, [self.name()?, 0, 0])),
            Kind::Field => Ok(self.node(1, [self.field()?, 0, 0])),
            Kind::Number => self.integer(false),
            Kind::Mark("-") if !behind_operand && self.behind().is_some_and(u8::is_ascii_digit) => {
                self.pass();
                self.integer(true)
            }
            Kind::Mark("null") => {
                self.pass();
                Ok(self.node(4, [0; 3]))
            }
            Kind::Mark("(") => {
                self.pass();
                let inner = self.inner_expression().await;
                self.mark(")")?;
                Ok(inner)
            }
            _ => self.refused(23),
        }
    }

    /// The digits of an integer, within 32 bits.
    fn integer(&self, negative: bool) -> Result<usize, Refused> {
        let least = negative && !self.takes(Wrong::NoLeastNumber);
        let most = if least { 2_147_483_648 } else { 2_147_483_647 };
        // any number of digits: none that is as large as this is inside
        let number = self.spelling().iter().fold(0, |sum, digit| (10 * sum + u64::from(digit - b'0')).min(1 << 40));
        if number > most {
            return self.refused(25);
        }
        self.pass();
        let bits = if negative { (number as u32).wrapping_neg() } else { number as u32 };
        Ok(self.node(2, [(bits & 0xFFFF) as usize, (bits >> 16) as usize, 0]))
    }
}
