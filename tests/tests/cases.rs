//! The scripts tried by hand (document 01, a to o), those of orders 2, 3 and 5, and the listing's example, on every subject.

use flagcopper_tests::assemble::{parallel, skip, Branch};
use flagcopper_tests::bodies::{bodies, Bodies, STEPS};
use flagcopper_tests::image::Image;
use flagcopper_tests::independent::listing::listing;
use flagcopper_tests::parse::script;
use flagcopper_tests::stops::{stops, Stop};
use flagcopper_tests::subject::{subjects, Answer, SIZE};
use flagcopper_tests::unset::unset;

const DONE: (u32, u32) = (1, 0);
const USED_UP: (u32, u32) = (4, 0);
const OUT_OF_RANGE: (u32, u32) = (5, 0);

fn int(number: i32) -> u64 {
    2 + 8 * u64::from(number as u32)
}

struct Run {
    answer: Answer,
    workspace: Vec<u64>,
}

impl Run {
    fn cell(&self, frame: usize) -> u64 {
        self.workspace[3 + frame] % (1 << 35)
    }
}

/// Runs the script on everyone and wants this end with its number, and these steps, frames and objects.
fn wants(image: &Image, choices: &[u8], end: (u32, u32), steps: usize, frames: u64, objects: u64) -> Vec<Run> {
    let run = |(name, subject): (&str, Box<dyn flagcopper_tests::subject::Subject>)| {
        let mut workspace = vec![u64::MAX; SIZE];
        let answer = subject.run(&image.bytes(), choices, &mut workspace);
        assert_eq!(answer.refusal, 0, "{name} refuses");
        assert_eq!((answer.end, answer.number, answer.steps), (end.0, end.1, steps), "{name}");
        assert_eq!(workspace[..2], [frames, objects], "{name}: frames and objects");
        Run { answer, workspace }
    };
    subjects().into_iter().map(run).collect()
}

fn zeros(count: usize) -> Vec<u8> {
    vec![0; count]
}

#[test]
fn a_b_c_skip_alone() {
    let image = script("skip");
    wants(&image, &[0], DONE, 1, 0, 0);
    wants(&image, &[], USED_UP, 0, 0, 0);
    wants(&image, &[1], OUT_OF_RANGE, 0, 0, 0);
}

#[test]
fn d_recursive_procedure() {
    let image = script("var p; {p = proc y: if y < 1 p = 1 else p(y - 1); p(1)}");
    for run in wants(&image, &zeros(7), DONE, 7, 3, 0) {
        assert_eq!([run.cell(0), run.cell(1), run.cell(2)], [int(1), int(1), int(0)]);
    }
    wants(&image, &zeros(6), USED_UP, 6, 3, 0);
}

#[test]
fn e_static_scoping() {
    let image = script("var r; var h; {h = 1; var p; {p = proc y: r = y - (0 - h); var h; {h = 2; p(4)}}}");
    for run in wants(&image, &zeros(9), DONE, 9, 5, 0) {
        assert_eq!(run.cell(0), int(5));
    }
}

#[test]
fn f_object_creation() {
    let image = script(
        "fields c 1, f 2, r 3: var x; {malloc(x); {x.c = 0; \
         {x.f = proc y: if y < 1 x.r = x.c else x.f(y - 1); x.f(2)}}}",
    );
    for run in wants(&image, &zeros(11), DONE, 11, 4, 1) {
        assert_eq!(run.workspace[1_027 + 2], int(0));
    }
}

#[test]
fn g_neighbours_interleave() {
    let image = script("var x; {{x = 0; {x = x - -1; x = x - -1}} || x = 0}");
    for run in wants(&image, &[0, 0, 0, 1, 0], DONE, 5, 1, 0) {
        assert_eq!(run.cell(0), int(1));
    }
}

#[test]
fn h_i_j_atoms() {
    let image = script("var x; {{x = 0; atom({x = x - -1; x = x - -1})} || x = 0}");
    wants(&image, &[0, 0, 0, 1], OUT_OF_RANGE, 3, 1, 0);
    for run in wants(&image, &[0, 1, 0, 0, 0, 0], DONE, 6, 1, 0) {
        assert_eq!(run.cell(0), int(2));
    }
    for run in wants(&image, &zeros(6), DONE, 6, 1, 0) {
        assert_eq!(run.cell(0), int(0));
    }
}

#[test]
fn k_own_frames() {
    let image = script("{var x; x = 1 || var x; x = 2}");
    for run in wants(&image, &[0, 1, 0, 0], DONE, 4, 2, 0) {
        assert_eq!([run.cell(0), run.cell(1)], [int(1), int(2)]);
    }
}

#[test]
fn l_integers_have_32_bits() {
    for run in wants(&script("var x; x = -2147483648 - 0"), &zeros(2), DONE, 2, 1, 0) {
        assert_eq!(run.cell(0), int(i32::MIN));
    }
    for run in wants(&script("var x; x = -2147483648 - 1"), &zeros(2), (2, 2), 1, 1, 0) {
        assert_eq!(run.answer.node, Some(2));
    }
}

#[test]
fn m_procedures_compared() {
    let same = script("var x; if proc y: skip == proc y: skip x = 1 else x = 2");
    let other = script("var x; if proc y: skip == proc z: skip x = 1 else x = 2");
    for (image, result) in [(same, 1), (other, 2)] {
        for run in wants(&image, &zeros(3), DONE, 3, 1, 0) {
            assert_eq!(run.cell(0), int(result));
        }
    }
}

#[test]
fn n_rooms() {
    let calls = script("var p; {p = proc y: p(y); p(0)}");
    wants(&calls, &zeros(2_000), (3, 1), 1_025, 1_024, 0);
    let objects = script("var x; while true malloc(x)");
    wants(&objects, &zeros(2_000), (3, 2), 514, 1, 256);
}

fn skips(count: usize) -> Image {
    let all = (1..count).fold(skip(), |left: Branch, _| parallel(left, skip()));
    all.image(&[], 0)
}

#[test]
fn o_control_has_255_parts() {
    for run in wants(&skips(128), &zeros(200), DONE, 128, 0, 0) {
        assert_eq!(run.workspace[2], 0);
    }
    for run in wants(&skips(128), &[], USED_UP, 0, 0, 0) {
        assert_eq!(run.workspace[2], 255);
    }
    for run in wants(&skips(129), &zeros(200), (3, 3), 0, 0, 0) {
        assert!(run.workspace.iter().all(|&word| word == 0));
    }
}

#[test]
fn a_fault_to_store_stops_the_run() {
    for Stop { name, text, number, node, steps, frames, objects } in stops() {
        println!("{name}");
        for run in wants(&script(&text), &zeros(steps + 1), (2, number), steps, frames, objects) {
            assert_eq!(run.answer.node, Some(node));
            assert_eq!(run.workspace[1_027], objects, "the field of an object that is there stays null, which is 1");
        }
        wants(&script(&text), &zeros(steps), USED_UP, steps, frames, objects);
    }
}

/// Without the fault the scripts about room stop for room at that step.
#[test]
fn room_comes_after_a_fault_to_store() {
    for Stop { name, text, steps, frames, objects, .. } in stops() {
        let Some((_, room)) = name.split_once("_before_room_") else { continue };
        let text = text.replace("null - 1", "0 - 1").replace("-2147482626", "-2147482625");
        let room = room.parse().expect("a number of room");
        wants(&script(&text), &zeros(steps + 1), (3, room), steps, frames, objects);
    }
}

#[test]
fn long_bodies_compared() {
    for Bodies { name, text, answer } in bodies() {
        println!("{name}");
        let image = script(&text);
        assert_eq!(image.nodes.len(), 2 * 1_000 + 9);
        for run in wants(&image, &zeros(STEPS), DONE, STEPS, 1, 0) {
            assert_eq!(run.cell(0), int(answer));
        }
    }
}

#[test]
fn unset_is_not_null() {
    for worked in unset() {
        for (name, subject) in subjects() {
            assert_eq!(worked.unlike(subject.as_ref()), None, "{name}, {}: {}", worked.name, worked.text);
        }
    }
}

/// Without the fault the scripts about room stop for room at that step.
#[test]
fn room_comes_after_an_unset_variable() {
    for worked in unset() {
        let Some((_, room)) = worked.name.split_once("_before_room_") else { continue };
        let text = worked.text.replace("p(x)", "p(0)").replace(")(x)", ")(0)").replace("= x;", "= 0;");
        let room = room.parse().expect("a number of room");
        let (frames, objects) = (worked.frames as u64, worked.objects as u64);
        wants(&script(&text), &worked.choices, (3, room), worked.steps, frames, objects);
    }
}

#[test]
fn listing_example() {
    let image = script("var x; x = 1").bytes();
    assert_eq!(image.len(), 34);
    let text = "step choice node tag frames objects\n1 0 2 32 1 0\n2 0 1 35 1 0\nend 1 steps 2\ncell 0 name 0 int 1\n";
    assert_eq!(listing(Some(&image), Some(&[0, 0])), text);
    assert_eq!(listing(None, Some(&[0; 5_000])), "no input\n");
    assert_eq!(listing(Some(&image), None), "no input\n");
    assert_eq!(listing(Some(&[]), Some(&[0; 4_097])), "choices too long\n");
    assert_eq!(listing(Some(&[]), Some(&[0; 4_096])), "refused 1 at 0\n");
    assert_eq!(listing(Some(&image), Some(&[])), "step choice node tag frames objects\nend 4 steps 0\n");
    assert!(listing(Some(&image), Some(&[0, 1])).ends_with("\nend 5 steps 1\ncell 0 name 0 unset\n"));
    assert!(listing(Some(&script("var x; while true malloc(x)").bytes()), Some(&[0; 600]))
        .ends_with("\nend 3 room 2 steps 514\ncell 0 name 0 object 255\n"));
    assert_eq!(listing(Some(&script("{malloc(x); x = 1}").bytes()), Some(&[])), "refused 9 at 0\n");
}

#[test]
fn listing_of_every_value_and_end() {
    let image = script(
        "fields c 12, f 700, g 701: var u; var x; {malloc(x); {x.c = proc y: skip; {x.f = c; {x.c = x.c; \
         {x.g = x; {(proc z: skip)(null); {x = -5; x.c = 1}}}}}}}",
    );
    let text = listing(Some(&image.bytes()), Some(&[0; 20]));
    let (rows, rest) = text.split_at(text.find("end").expect("an end"));
    assert_eq!(rows.lines().count(), 11);
    let at = image.nodes.len() - 10;
    assert_eq!(
        rest,
        format!(
            "end 2 fault 3 node {at} steps 10\ncell 0 name 0 unset\ncell 1 name 1 int -5\ncell 2 name 3 null\n\
             object 0 field 12 proc 4 1\nobject 0 field 700 field 12\nobject 0 field 701 object 0\n"
        )
    );
    let rootless = script("(proc y: skip)(proc y: skip)");
    assert!(listing(Some(&rootless.bytes()), Some(&[0])).ends_with("end 4 steps 1\ncell 0 name 0 proc 3 none\n"));
}

#[cfg(feature = "library")]
#[test]
fn the_library_names_the_same_size() {
    assert_eq!(flagcopper_tests::library::size(), SIZE);
}
