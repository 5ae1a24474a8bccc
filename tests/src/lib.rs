//! A second and a third opinion on the proved interpreter: two other interpreters of MiniOO scripts, written from documents 01
//! and 002 (the words from docs/WORKSPACE.md), one to be seen to be right and one to be fast, and the means to compare them all on scripts by hand,
//! generated, damaged and arbitrary. And the same for the reading of written scripts, order 1 of document 02.
//!
//! Reading order: `subject` (what is compared), `image`, `assemble` and `parse` (scripts), `independent` (the reference),
//! `flat` (the measure of speed), `generate`, `search`, `compare` and `shrink`; `readback` (the state in the words of a run); `stops`,
//! `bodies`, `worked_turns` and `unset` (scripts by hand of orders 2, 3, 4 and 5), `comparisons` (what a run compares), `turns` (the turns of a fair run), `early` (what it reads too early) and `met` (how often something is met). For written
//! scripts `written` (the reference), `chart` (the second opinion), `generate::written` and `reading` (their comparison), `worked` (texts by hand).
//! For programs `outside` (a folder before and after), `encoding` and `turning` (what `encode` and `turns` print and make).

pub mod arguments;
pub mod assemble;
pub mod bodies;
pub mod chart;
pub mod compare;
pub mod comparisons;
pub mod early;
pub mod encoding;
pub mod flat;
pub mod generate;
pub mod image;
pub mod independent;
pub mod lanes;
#[cfg(feature = "library")]
pub mod library;
pub mod met;
pub mod outside;
pub mod parse;
pub mod random;
pub mod readback;
pub mod reading;
pub mod search;
pub mod shrink;
pub mod stops;
pub mod subject;
pub mod turning;
pub mod turns;
pub mod unset;
pub mod worked;
pub mod worked_turns;
pub mod written;
pub mod x86;
