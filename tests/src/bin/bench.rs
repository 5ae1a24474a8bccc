//! Nanoseconds a step of each subject on the same scripts in one run, and the library's ratio to the independent interpreter and
//! to the flat one, which is the measure; how they grow with the script; a step of a fair run, divided by the same step by a given
//! choice; the check a node; a whole short run with its start-up, beside the mere clearing of the workspace.
//!
//! A step's time is that of a run less that of the same run without choices, so that the check and the clearing of the
//! workspace don't count. Each time is the least of many short rounds, and what is compared takes turns, round by round:
//! what slows the machine down for a while slows all of it. Without the feature `library` its columns are missing.
//!
//! The flat interpreter is fast enough to be the measure as long as it takes about a seventh of the independent one's time on
//! the counting loop, or less: the last column.

use flagcopper_tests::assemble::*;
use flagcopper_tests::image::Image;
use flagcopper_tests::parse::script;
use flagcopper_tests::subject::{subjects, Subject, SIZE};
use std::hint::black_box;
use std::time::{Duration, Instant};

/// Whose time is divided by whose, and how the column is called.
const RATIOS: [(&str, &str, &str); 3] =
    [("library", "independent", "lib/ind"), ("library", "flat", "lib/flat"), ("flat", "independent", "flat/ind")];

const ROUNDS: usize = 150;
const ROUND: Duration = Duration::from_millis(2);

/// How many calls a round has.
fn calls_a_round(mut call: impl FnMut()) -> u32 {
    let (start, mut calls) = (Instant::now(), 0);
    while start.elapsed() < ROUND {
        call();
        calls += 1;
    }
    calls
}

/// The least nanoseconds of each of `count` calls, which take turns.
fn least(count: usize, mut call: impl FnMut(usize)) -> Vec<f64> {
    let calls: Vec<u32> = (0..count).map(|which| calls_a_round(|| call(which))).collect();
    let mut times = vec![f64::INFINITY; count];
    for _ in 0..ROUNDS {
        for (which, time) in times.iter_mut().enumerate() {
            let start = Instant::now();
            (0..calls[which]).for_each(|_| call(which));
            *time = time.min(start.elapsed().as_nanos() as f64 / f64::from(calls[which]));
        }
    }
    times
}

/// Keeps the compiler from leaving a call out.
fn seen<T>(result: T) {
    black_box(result);
}

struct Bench {
    subjects: Vec<(&'static str, Box<dyn Subject>)>,
    workspace: Vec<u64>,
}

impl Bench {
    fn header(&self) {
        print!("{:<44}{:>6}", "nanoseconds a step, or each", "count");
        self.subjects.iter().for_each(|(name, _)| print!("{name:>13}"));
        self.ratios().for_each(|(_, _, title)| print!("{title:>10}"));
        println!();
    }

    /// One line: the time of each subject for each of `count` things, and the ratios.
    fn line(&self, what: &str, count: usize, times: &[f64]) {
        print!("{what:<44}{count:>6}");
        times.iter().for_each(|time| print!("{:>13.1}", time / count as f64));
        self.ratios().for_each(|(over, under, _)| print!("{:>10.3}", times[over] / times[under]));
        println!();
    }

    /// The ratios between those who are there: the places of their times, and the title.
    fn ratios(&self) -> impl Iterator<Item = (usize, usize, &'static str)> + '_ {
        let place = |name: &str| self.subjects.iter().position(|(known, _)| *known == name);
        RATIOS.iter().filter_map(move |(over, under, title)| Some((place(over)?, place(under)?, *title)))
    }

    /// The time of a whole run of each subject, then that of the same without choices.
    fn runs(&mut self, image: &Image, choices: &[u8]) -> (Vec<f64>, Vec<f64>) {
        let bytes = image.bytes();
        let (subjects, workspace) = (&self.subjects, &mut self.workspace);
        let mut whole = least(2 * subjects.len(), |which| {
            let choices = if which < subjects.len() { choices } else { &[] };
            seen(subjects[which % subjects.len()].1.run(&bytes, choices, workspace));
        });
        let start = whole.split_off(subjects.len());
        (whole, start)
    }

    fn steps(&mut self, what: &str, image: &Image, choices: &[u8]) {
        let bytes = image.bytes();
        let answers = self.subjects.iter().map(|(_, subject)| subject.run(&bytes, choices, &mut self.workspace));
        let answers: Vec<_> = answers.collect();
        let first = answers[0];
        assert!(first.steps > 0 && answers.iter().all(|answer| *answer == first), "{what}: {answers:?}");
        let (whole, start) = self.runs(image, choices);
        let steps: Vec<f64> = whole.iter().zip(&start).map(|(whole, start)| whole - start).collect();
        self.line(what, first.steps, &steps);
    }

    /// A fair step over the same step by a given choice, of each who takes turns fairly.
    fn fair(&mut self, what: &str, command: &Branch) {
        let bytes = command.image(&[], 0).bytes();
        print!("{:<50}", format!("a fair step over a given, {what}"));
        for (_, subject) in &self.subjects {
            let Some(subject) = subject.as_fair() else {
                print!("{:>13}", "");
                continue;
            };
            let (mut picks, workspace) = ([0; 2_000], &mut self.workspace);
            assert_eq!(subject.fair(&bytes, &mut picks, workspace).picked, picks.len(), "{what}: it has no end");
            let choices = picks;
            let times = least(4, |which| match which {
                0 => seen(subject.fair(&bytes, &mut picks, workspace)),
                1 => seen(subject.fair(&bytes, &mut [], workspace)),
                2 => seen(subject.run(&bytes, &choices, workspace)),
                _ => seen(subject.run(&bytes, &[], workspace)),
            });
            print!("{:>13.3}", (times[0] - times[1]) / (times[2] - times[3]));
        }
        println!();
    }

    fn check(&mut self, what: &str, image: &Image) {
        let bytes = image.bytes();
        let times = least(self.subjects.len(), |which| seen(self.subjects[which].1.check(&bytes, SIZE)));
        self.line(what, image.nodes.len(), &times);
    }

    fn whole(&mut self, what: &str, image: &Image, choices: &[u8]) {
        let (whole, _) = self.runs(image, choices);
        self.line(what, 1, &whole);
    }

    /// A run of one step beside the mere clearing of the workspace and that step.
    fn shortest(&mut self) {
        let bytes = script("skip").bytes();
        let (subjects, workspace) = (&self.subjects, &mut self.workspace);
        let count = subjects.len();
        let times = least(2 * count + 1, |which| match which / count {
            0 => seen(subjects[which].1.run(&bytes, &[0], workspace)),
            1 => seen(subjects[which - count].1.run(&bytes, &[], workspace)),
            _ => black_box(&mut workspace[..SIZE]).fill(0),
        });
        let clearing = times[2 * count];
        let over = |which: usize| times[which] / (clearing + times[which] - times[count + which]);
        self.line("a whole run of one step", 1, &times[..count]);
        println!("{:<50}{clearing:>13.1}", "clearing the workspace");
        print!("{:<50}", "a run of one step, over clearing and the step");
        (0..count).for_each(|which| print!("{:>13.3}", over(which)));
        println!();
    }
}

/// `count` commands side by side, as a balanced tree.
fn side_by_side(count: usize, command: &Branch) -> Branch {
    if count < 2 {
        return command.clone();
    }
    parallel(side_by_side(count / 2, command), side_by_side(count - count / 2, command))
}

fn in_turn(count: usize, command: &Branch) -> Branch {
    (1..count).fold(command.clone(), |rest, _| sequence(command.clone(), rest))
}

/// A loop of so many rounds over name 0, which only its test and its end use.
fn rounds(count: i32, body: Branch) -> Branch {
    let down = assign(0, difference(variable(0), integer(1)));
    let count_down = repeat(less(integer(0), variable(0)), sequence(body, down));
    var(0, sequence(assign(0, integer(count)), count_down))
}

/// Reclasses objects, as the offices do: for each code a test and two field assignments, over 30 objects.
fn migration() -> Image {
    let class = || selection(variable(1), field(1));
    let recode = |code: i32| {
        let set = |index, value| field_assign(variable(1), field(index), value);
        let both = sequence(set(2, integer(100 + code)), set(1, difference(class(), integer(1_000))));
        choose(equal(class(), integer(code)), both, skip())
    };
    let codes = (1..7).fold(recode(0), |rest, code| sequence(recode(code), rest));
    let object = sequence(malloc(1), field_assign(variable(1), field(1), integer(3)));
    var(1, rounds(30, sequence(object, atom(codes)))).image(&[11, 12, 13], 2)
}

fn endless() -> Branch {
    repeat(constant(true), skip())
}

/// What it takes to pick the choice, with the width of control and inside an atom.
fn picking(bench: &mut Bench) {
    for width in [1, 16, 85] {
        bench.fair(&format!("{width} wide"), &side_by_side(width, &endless()));
    }
    bench.fair("in an atom", &atom(endless()));
    bench.fair("in an atom beside 84", &parallel(atom(endless()), side_by_side(84, &endless())));
}

/// How a step's time grows: with the width of control, the depth of atoms, the length of a chain and of bodies compared.
fn growing(bench: &mut Bench) {
    for width in [1, 4, 16, 60, 64, 85] {
        let image = side_by_side(width, &endless()).image(&[], 0);
        bench.steps(&format!("parallels, {width} wide, the first moves"), &image, &[0; 2_000]);
        bench.steps(&format!("parallels, {width} wide, the last moves"), &image, &[width as u8 - 1; 2_000]);
    }
    for depth in [1, 8, 64, 250] {
        let inside = (0..depth).fold(endless(), |inner, _| atom(inner));
        bench.steps(&format!("a loop in {depth} atoms"), &inside.image(&[], 0), &[0; 2_000]);
    }
    for length in [1, 10, 100, 900] {
        let inner = rounds(300, assign(1, integer(1)));
        let chain = (0..length).fold(inner, |inner, name| var(if name + 1 == length { 1 } else { 2 }, inner));
        bench.steps(&format!("a loop under a chain of {length}"), &chain.image(&[], 3), &[0; 3_000]);
    }
    for length in [1, 10, 100, 400] {
        let body = in_turn(length, &skip());
        let test = equal(proc(1, body.clone()), proc(1, body));
        let image = rounds(300, choose(test, skip(), skip())).image(&[], 2);
        bench.steps(&format!("comparing bodies of {} nodes", 2 * length - 1), &image, &[0; 3_000]);
    }
}

fn main() {
    let mut bench = Bench { subjects: subjects(), workspace: vec![0; SIZE] };
    bench.header();
    let zeros = [0; 5_000];
    bench.steps("calls", &script("var p; {p = proc y: if y < 1 skip else p(y - 1); p(1000)}"), &zeros);
    bench.steps("a counting loop", &script("var x; {x = 1000; while 0 < x x = x - 1}"), &zeros);
    let fields = script("fields a 1, b 2: var x; {malloc(x); {x.a = 1000; while 0 < x.a {x.b = x.a; x.a = x.a - 1}}}");
    bench.steps("field updates", &fields, &zeros);
    bench.steps("objects", &script("fields a 1: var x; while true malloc(x)"), &zeros);
    bench.steps(&format!("a migration of {} nodes", migration().nodes.len()), &migration(), &zeros);
    growing(&mut bench);
    picking(&mut bench);
    for nodes in [10, 100, 1_000] {
        bench.check(&format!("check a node, {} nodes", 2 * nodes - 1), &in_turn(nodes, &skip()).image(&[], 0));
    }
    bench.check("check a node, the migration", &migration());
    bench.shortest();
    bench.whole("a whole run of the migration", &migration(), &zeros);
}
