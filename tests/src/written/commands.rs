//! Commands and tests, by order 1: `var X; C`, `E(E)`, `malloc(X)`, `X = E`, `E.E = E`, `skip`, `{C; C}`, `{C || C}`, `while T C`,
//! `if T C else C`, `atom(C)`; `true`, `false`, `E == E`, `E < E`.

use super::places::Kind;
use super::text::Text;
use super::{Refused, Wrong};
use std::rc::Rc;

impl Text {
    pub async fn whole(self: Rc<Self>) -> Result<usize, Refused> {
        let root = self.inner_command().await;
        match self.look()? {
            Kind::End => Ok(root),
            _ => self.refused(23),
        }
    }

    /// A command where no operand has just ended.
    pub async fn inner_command(self: &Rc<Self>) -> usize {
        self.calls.call(Box::pin(Rc::clone(self).command(false))).await
    }

    /// A command; behind an operand, no sign may begin it.
    async fn command(self: Rc<Self>, behind_operand: bool) -> Result<usize, Refused> {
        if self.takes(Wrong::NodesAtOnce) && self.too_many_nodes() {
            return Err(Refused::nowhere(27));
        }
        match self.look()? {
            Kind::Mark("var") => {
                self.pass();
                self.declaration().await
            }
            Kind::Mark("malloc") => {
                self.pass();
                self.mark("(")?;
                let name = self.name()?;
                self.mark(")")?;
                Ok(self.node(34, [name, 0, 0]))
            }
            Kind::Mark("skip") => {
                self.pass();
                Ok(self.node(37, [0; 3]))
            }
            Kind::Mark("{") => {
                self.pass();
                self.braced().await
            }
            Kind::Mark("while") => {
                self.pass();
                let (test, body) = self.tested().await?;
                Ok(self.node(39, [test, body, 0]))
            }
            Kind::Mark("if") => {
                self.pass();
                let (test, yes) = self.tested().await?;
                self.mark("else")?;
                let no = self.inner_command().await;
                Ok(self.node(40, [test, yes, no]))
            }
            Kind::Mark("atom") => {
                self.pass();
                self.mark("(")?;
                let inner = self.inner_command().await;
                self.mark(")")?;
                Ok(self.node(42, [inner, 0, 0]))
            }
            _ => self.call_or_assignment(behind_operand).await,
        }
    }

    async fn declaration(self: &Rc<Self>) -> Result<usize, Refused> {
        let place = self.place.get();
        let late = self.takes(Wrong::NameBehindBody) && self.look()? == Kind::Name;
        let mut name = 0;
        if late {
            self.pass();
        } else {
            name = self.name()?;
        }
        self.mark(";")?;
        let body = self.inner_command().await;
        if late {
            name = self.numbered(place)?;
        }
        Ok(self.node(32, [name, body, 0]))
    }

    async fn braced(self: &Rc<Self>) -> Result<usize, Refused> {
        let left = self.inner_command().await;
        if self.takes(Wrong::OneInBraces) && self.met("}")? {
            return Ok(left);
        }
        let side_by_side = self.met("||")?;
        if !side_by_side {
            self.mark(";")?;
        }
        let right = self.inner_command().await;
        self.mark("}")?;
        Ok(match side_by_side {
            true if self.takes(Wrong::RightHalfFirst) => self.node(41, [right, left, 0]),
            true => self.node(41, [left, right, 0]),
            false => self.node(38, [left, right, 0]),
        })
    }

    /// A test and the command behind it.
    async fn tested(self: &Rc<Self>) -> Result<(usize, usize), Refused> {
        let constant = match self.look()? {
            Kind::Mark("true") => Some(16),
            Kind::Mark("false") => Some(17),
            _ => None,
        };
        if let Some(tag) = constant {
            self.pass();
            let test = self.node(tag, [0; 3]);
            return Ok((test, self.inner_command().await));
        }
        let left = self.difference().await?;
        let tag = if self.met("==")? { 18 } else { 19 };
        if tag == 19 {
            self.mark("<")?;
        }
        let right = self.inner_expression().await;
        let test = self.node(tag, [left, right, 0]);
        let behind_operand = !self.takes(Wrong::SignBehindProc);
        let body = self.calls.call(Box::pin(Rc::clone(self).command(behind_operand))).await;
        Ok((test, body))
    }

    /// `E(E)`, `X = E` or `E.E = E`: what stands left decides, and it is told by what follows.
    async fn call_or_assignment(self: &Rc<Self>, behind_operand: bool) -> Result<usize, Refused> {
        let mut left = if self.look()? == Kind::Name {
            let name = self.name()?;
            if self.met("=")? {
                let right = self.inner_expression().await;
                return Ok(self.node(35, [name, right, 0]));
            }
            self.node(5, [name, 0, 0])
        } else {
            self.operand(behind_operand).await?
        };
        while self.met(".")? {
            let (right, bare) = self.operand_or_proc().await?;
            if bare {
                self.mark("=")?;
            }
            if bare || self.met("=")? {
                let value = self.inner_expression().await;
                return Ok(self.node(36, [left, right, value]));
            }
            left = self.node(6, [left, right, 0]);
        }
        while self.met("-")? {
            let right = self.selection().await?;
            left = self.node(3, [left, right, 0]);
        }
        self.mark("(")?;
        let argument = self.inner_expression().await;
        self.mark(")")?;
        Ok(self.node(33, [left, argument, 0]))
    }
}
