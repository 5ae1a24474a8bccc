//! The library on a machine whose programs can't link it: each call goes to `bridge.c`, which `build.rs` built with the library and which
//! runs under the kit's emulator, one for each thread. It gets all that is lent and sends it back whole.

use super::{RawAnswer, RawReading, RawText, RawTurned, RawVerdict};
use crate::x86::command;
use std::cell::RefCell;
use std::io::{Read, Result, Write};
use std::path::Path;
use std::process::{Child, Stdio};

/// By their numbers in `bridge.c`.
enum Function {
    Size = 1,
    Check = 2,
    Run = 3,
    Trace = 4,
    ReadWords = 5,
    Read = 6,
    Write = 7,
    Fair = 8,
}

struct Bridge(Child);

impl Bridge {
    fn start() -> Bridge {
        let mut command = command(Path::new(env!("FLAGCOPPER_BRIDGE")));
        let started = command.stdin(Stdio::piped()).stdout(Stdio::piped()).spawn();
        Bridge(started.expect("the bridge can be started"))
    }

    fn exchange(&mut self, call: &[u8], answer: &mut [u8]) -> Result<()> {
        self.0.stdin.as_mut().expect("it is piped").write_all(call)?;
        self.0.stdout.as_mut().expect("it is piped").read_exact(answer)
    }
}

impl Drop for Bridge {
    fn drop(&mut self) {
        let _ = self.0.wait(); // after closing its input, at whose end it ends
    }
}

thread_local! {
    static BRIDGE: RefCell<Bridge> = RefCell::new(Bridge::start());
}

/// Words of the answer before what was lent.
const WORDS: usize = 7;

/// What is lent, as the bytes that cross the bridge.
trait Lent {
    fn bytes(&self) -> usize;
    fn send(&self, bytes: &mut Vec<u8>);
    fn receive(&mut self, bytes: &[u8]);
}

impl Lent for [u8] {
    fn bytes(&self) -> usize {
        self.len()
    }

    fn send(&self, bytes: &mut Vec<u8>) {
        bytes.extend(self);
    }

    fn receive(&mut self, bytes: &[u8]) {
        self.copy_from_slice(bytes);
    }
}

macro_rules! lent_words {
    ($($word:ty)*) => {$(
        impl Lent for [$word] {
            fn bytes(&self) -> usize {
                size_of_val(self)
            }

            fn send(&self, bytes: &mut Vec<u8>) {
                bytes.reserve(self.bytes());
                self.iter().for_each(|word| bytes.extend_from_slice(&word.to_le_bytes()));
            }

            fn receive(&mut self, bytes: &[u8]) {
                for (word, bytes) in self.iter_mut().zip(bytes.chunks_exact(size_of::<$word>())) {
                    *word = <$word>::from_le_bytes(bytes.try_into().expect("a chunk is so long"));
                }
            }
        }
    )*};
}

lent_words!(u32 u64);

fn nothing() -> &'static mut [u8] {
    &mut []
}

fn call<A: Lent + ?Sized, B: Lent + ?Sized>(
    function: Function,
    number: usize,
    given: [&[u8]; 2],
    first: &mut A,
    second: &mut B,
) -> [u64; WORDS] {
    let numbers = [function as usize, number, given[0].len(), given[1].len(), first.bytes(), second.bytes()];
    let mut sent: Vec<u8> = numbers.into_iter().flat_map(|number| (number as u64).to_le_bytes()).collect();
    given.into_iter().for_each(|bytes| sent.extend(bytes));
    first.send(&mut sent);
    second.send(&mut sent);
    let mut got = vec![0; 8 * WORDS + first.bytes() + second.bytes()];
    BRIDGE.with_borrow_mut(|bridge| bridge.exchange(&sent, &mut got)).expect("the bridge answers");
    let (told, lent) = got.split_at(8 * WORDS);
    let (of_first, of_second) = lent.split_at(first.bytes());
    first.receive(of_first);
    second.receive(of_second);
    let mut answer = [0; WORDS];
    answer.receive(told);
    answer
}

/// A number of 32 bits, which the bridge sends as a word.
fn narrow(word: u64) -> u32 {
    word.try_into().expect("a number of 32 bits")
}

fn told([refusal, place, end, number, node, steps, _]: [u64; WORDS]) -> RawAnswer {
    let [refusal, place, end, number, node] = [refusal, place, end, number, node].map(narrow);
    RawAnswer { refusal, place, end, number, node, steps: steps as usize }
}

pub fn size() -> usize {
    call(Function::Size, 0, [&[], &[]], nothing(), nothing())[0] as usize
}

pub fn check(script: &[u8], workspace_words: usize) -> RawVerdict {
    let [verdict, number, place, ..] =
        call(Function::Check, workspace_words, [script, &[]], nothing(), nothing()).map(narrow);
    RawVerdict { verdict, number, place }
}

pub fn run(script: &[u8], choices: &[u8], workspace: &mut [u64]) -> RawAnswer {
    told(call(Function::Run, 0, [script, choices], workspace, nothing()))
}

pub fn trace(script: &[u8], choices: &[u8], workspace: &mut [u64], rows: &mut [u32]) -> RawAnswer {
    told(call(Function::Trace, 0, [script, choices], workspace, rows))
}

pub fn fair(script: &[u8], picks: &mut [u8], workspace: &mut [u64]) -> RawTurned {
    let answer = call(Function::Fair, 0, [script, &[]], workspace, picks);
    RawTurned { told: told(answer), picked: answer[6] as usize }
}

pub fn read_words(text_bytes: usize) -> usize {
    call(Function::ReadWords, text_bytes, [&[], &[]], nothing(), nothing())[0] as usize
}

pub fn read(text: &[u8], list: &[u8], work: &mut [u32], out: &mut [u8]) -> RawReading {
    let [verdict, number, line, length, ..] = call(Function::Read, 0, [text, list], work, out);
    RawReading { verdict: narrow(verdict), number: narrow(number), line: line as usize, length: length as usize }
}

pub fn write(image: &[u8], list: &[u8], out: &mut [u8]) -> RawText {
    let [verdict, number, length, ..] = call(Function::Write, 0, [image, list], nothing(), out);
    RawText { verdict: narrow(verdict), number: narrow(number), length: length as usize }
}
