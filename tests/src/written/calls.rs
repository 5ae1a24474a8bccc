//! Calls with a stack of our own, so that a text nested deeply needs no more of the machine's stack than a flat one.
//!
//! A reading function is a future. One that calls another leaves it in `asked` and waits; `run` keeps all that wait in a list and
//! goes on with the last alone, whose answer it leaves in `answer` for the one before it.

use std::cell::{Cell, RefCell};
use std::future::{poll_fn, Future};
use std::pin::Pin;
use std::task::{Context, Poll, Waker};

pub type Task<Wrong> = Pin<Box<dyn Future<Output = Result<usize, Wrong>>>>;

pub struct Calls<Wrong> {
    asked: RefCell<Option<Task<Wrong>>>,
    answer: Cell<Option<usize>>,
}

impl<Wrong> Default for Calls<Wrong> {
    fn default() -> Calls<Wrong> {
        Calls { asked: RefCell::new(None), answer: Cell::new(None) }
    }
}

impl<Wrong> Calls<Wrong> {
    /// What the task answers. A task that finds something wrong ends the whole run, so that its caller never hears of it.
    pub fn call(&self, task: Task<Wrong>) -> impl Future<Output = usize> + '_ {
        self.asked.replace(Some(task));
        poll_fn(|_| self.answer.take().map_or(Poll::Pending, Poll::Ready))
    }

    pub fn run(&self, first: Task<Wrong>) -> Result<usize, Wrong> {
        let mut context = Context::from_waker(Waker::noop());
        let mut last = first;
        let mut waiting = Vec::new();
        loop {
            match last.as_mut().poll(&mut context) {
                Poll::Pending => {
                    let asked = self.asked.take().expect("a task waits for a call alone");
                    waiting.push(std::mem::replace(&mut last, asked));
                }
                Poll::Ready(answer) => match waiting.pop() {
                    Some(caller) => {
                        self.answer.set(Some(answer?));
                        last = caller;
                    }
                    None => return answer,
                },
            }
        }
    }
}
