//! Writes the vectors: `vectors DIRECTORY` puts the images and choices into DIRECTORY/data, their names into
//! DIRECTORY/args, and the listings of the independent interpreter, each under the name of its image, into
//! DIRECTORY/stdout. docs/VECTORS.md says what each vector is for.

use flagcopper_tests::assemble::{atom, parallel, skip, var, Branch};
use flagcopper_tests::bodies::{bodies, STEPS};
use flagcopper_tests::image::{Image, Node};
use flagcopper_tests::independent::listing::listing;
use flagcopper_tests::parse::script;
use flagcopper_tests::stops::stops;
use flagcopper_tests::subject::FAULTS;
use flagcopper_tests::unset::unset;
use std::path::Path;

struct Vector {
    name: String,
    script: Option<Vec<u8>>,
    choices: Option<Vec<u8>>,
}

fn zeros(count: usize) -> Vec<u8> {
    vec![0; count]
}

fn of(name: &str, script: Vec<u8>, choices: &[u8]) -> Vector {
    Vector { name: name.into(), script: Some(script), choices: Some(choices.to_vec()) }
}

fn written(name: &str, text: &str, choices: &[u8]) -> Vector {
    of(name, script(text).bytes(), choices)
}

fn skips(count: usize) -> Vec<u8> {
    (1..count).fold(skip(), |left: Branch, _| parallel(left, skip())).image(&[], 0).bytes()
}

/// Document 01, "Scripts tried by hand", and the listing's example.
fn cases() -> Vec<Vector> {
    let recursive = "var p; {p = proc y: if y < 1 p = 1 else p(y - 1); p(1)}";
    let neighbours = "var x; {{x = 0; {x = x - -1; x = x - -1}} || x = 0}";
    let atoms = "var x; {{x = 0; atom({x = x - -1; x = x - -1})} || x = 0}";
    let static_scope = "var r; var h; {h = 1; var p; {p = proc y: r = y - (0 - h); var h; {h = 2; p(4)}}}";
    let object = "fields c 1, f 2, r 3: var x; {malloc(x); {x.c = 0; \
                  {x.f = proc y: if y < 1 x.r = x.c else x.f(y - 1); x.f(2)}}}";
    vec![
        written("example", "var x; x = 1", &[0, 0]),
        written("a", "skip", &[0]),
        written("b", "skip", &[]),
        written("c", "skip", &[1]),
        written("d", recursive, &zeros(7)),
        written("d_six", recursive, &zeros(6)),
        written("e", static_scope, &zeros(9)),
        written("f", object, &zeros(11)),
        written("g", neighbours, &[0, 0, 0, 1, 0]),
        written("h", atoms, &[0, 0, 0, 1]),
        written("i", atoms, &[0, 1, 0, 0, 0, 0]),
        written("j", atoms, &zeros(6)),
        written("k", "{var x; x = 1 || var x; x = 2}", &[0, 1, 0, 0]),
        written("l_fits", "var x; x = -2147483648 - 0", &zeros(2)),
        written("l_faults", "var x; x = -2147483648 - 1", &zeros(2)),
        written("m_same", "var x; if proc y: skip == proc y: skip x = 1 else x = 2", &zeros(3)),
        written("m_other", "var x; if proc y: skip == proc z: skip x = 1 else x = 2", &zeros(3)),
        written("n_frames", "var p; {p = proc y: p(y); p(0)}", &zeros(1_100)),
        written("n_objects", "var x; while true malloc(x)", &zeros(600)),
        of("o_fits", skips(128), &zeros(200)),
        of("o_start", skips(128), &[]),
        of("o_room", skips(129), &zeros(200)),
    ]
}

/// Every kind of value in cells and fields, every fault, those that aren't stored, the longest listings, long bodies compared, and variables
/// that weren't set.
fn values() -> Vec<Vector> {
    let all = "fields c 12, f 700, g 701: var u; var x; {malloc(x); {x.c = proc y: skip; {x.f = c; {x.c = x.c; \
               {x.g = x; {(proc z: skip)(null); {x = -5; x.c = 1}}}}}}}";
    let wide = "fields a 1, b 2, c 3, d 4, e 5, f 6, g 7, h 8, i 9, j 10, k 11, l 12, m 13, n 14, o 15, p 65535: \
                var x; while true {malloc(x); x.p = x}";
    let mut vectors = vec![
        written("values", all, &zeros(20)),
        written("no_outer", "(proc y: skip)(proc y: skip)", &[0]),
        written("wide_objects", wide, &zeros(1_000)),
        written("longest", "while true skip", &zeros(4_096)),
    ];
    let faults: [&str; FAULTS] = [
        "{x = null; x = x - null}",
        "x = 2147483647 - -1",
        "{x = null; x = x.f}",
        "{malloc(x); x = x.x}",
        "if f == f skip else skip",
        "{x = null; while x < 1 skip}",
        "{x = null; x(1)}",
        "{skip; x = x - 1}",
    ];
    for (number, text) in (1..).zip(faults) {
        vectors.push(written(&format!("fault_{number}"), &format!("fields f 7: var x; {text}"), &zeros(9)));
    }
    // the last choice is the one of the step that stops
    vectors.extend(stops().iter().map(|stop| written(stop.name, &stop.text, &zeros(stop.steps + 1))));
    vectors.extend(bodies().iter().map(|bodies| written(bodies.name, &bodies.text, &zeros(STEPS))));
    for worked in unset() {
        vectors.push(written(&format!("unset_{}", worked.name), &worked.text, &worked.choices));
    }
    vectors
}

const SKIP: Node = [37, 0, 0, 0];
const NULL: Node = [4, 0, 0, 0];

/// An image with two fields and two names.
fn of_nodes(nodes: &[Node]) -> Vec<u8> {
    Image { codes: vec![3, 9], names: 2, nodes: nodes.to_vec() }.bytes()
}

/// A good image with one word of its contents changed.
fn contents(word: usize, value: u16) -> Vec<u8> {
    let mut bytes = of_nodes(&[SKIP]);
    bytes[2 * word..2 * word + 2].copy_from_slice(&value.to_le_bytes());
    bytes
}

fn codes(codes: &[u16]) -> Vec<u8> {
    Image { codes: codes.to_vec(), names: 0, nodes: vec![SKIP] }.bytes()
}

/// An atom in an atom, 2,048 nodes in all.
fn deep_atoms() -> Branch {
    (1..2_048).fold(skip(), |inner, _| atom(inner))
}

/// Each refusal at its first place and at a later one, and the bounds of F, M and N.
fn refusals() -> Vec<Vector> {
    let good = of_nodes(&[SKIP]);
    let longest = Image { codes: (1..=16).collect(), ..deep_atoms().image(&[], 128) }.bytes();
    let images: Vec<(&str, Vec<u8>)> = vec![
        ("1_empty", vec![]),
        ("1_nine_bytes", good[..9].to_vec()),
        ("2_ten_bytes_of_zero", zeros(10)),
        ("2_first_start", contents(0, 11)),
        ("2_f_17", contents(1, 17)),
        ("2_second_start", contents(2, 13)),
        ("2_m_0", contents(3, 0)),
        ("2_m_2049", contents(3, 2_049)),
        ("2_n_129", contents(4, 129)),
        ("2_before_3", contents(4, 129)[..11].to_vec()),
        ("3_contents_alone", good[..10].to_vec()),
        ("3_one_short", good[..good.len() - 1].to_vec()),
        ("3_one_more", [good.clone(), zeros(1)].concat()),
        ("3_longest_and_one", [longest.clone(), zeros(1)].concat()),
        ("3_far_too_long", [longest.clone(), zeros(70_000)].concat()),
        ("4_zero_first", codes(&[0, 5, 6])),
        ("4_equal_later", codes(&[5, 6, 6])),
        ("4_below_later", codes(&[5, 9, 7])),
        ("5_first", of_nodes(&[[0, 0, 0, 0], SKIP])),
        ("5_later", of_nodes(&[NULL, [43, 9, 9, 9], SKIP])),
        ("5_between", of_nodes(&[NULL, SKIP, [20, 0, 0, 0]])),
        ("6_first", of_nodes(&[[37, 0, 0, 1], SKIP])),
        ("6_later", of_nodes(&[NULL, [2, 1, 1, 1], SKIP])),
        ("7_first", of_nodes(&[[42, 0, 0, 0], [0; 4]])),
        ("7_field_0", of_nodes(&[NULL, [1, 0, 0, 0]])),
        ("7_field_3", of_nodes(&[NULL, [1, 3, 0, 0]])),
        ("7_no_fields", Image { codes: vec![], names: 0, nodes: vec![[1, 1, 0, 0]] }.bytes()),
        ("7_name_used", of_nodes(&[NULL, [35, 2, 0, 0]])),
        ("7_name_declared", of_nodes(&[SKIP, [32, 2, 0, 0]])),
        ("7_child_not_below", of_nodes(&[SKIP, [38, 0, 1, 0]])),
        ("7_child_of_wrong_kind", of_nodes(&[NULL, SKIP, [38, 0, 1, 0]])),
        ("8_not_used", of_nodes(&[NULL, SKIP])),
        ("8_used_twice", of_nodes(&[SKIP, [38, 0, 0, 0]])),
        ("8_stray_top", of_nodes(&[NULL, NULL, [3, 0, 1, 0], SKIP])),
        ("8_root_is_no_command", of_nodes(&[NULL, [5, 1, 0, 0], [3, 0, 1, 0]])),
        ("9_first", script("malloc(x)").bytes()),
        ("9_later", script("{var x; skip; malloc(x)}").bytes()),
        ("9_formal_outside", script("var x; {(proc y: skip)(x); x = y}").bytes()),
        ("9_lowest", script("var x; if y == x z = 1 else skip").bytes()),
        ("accepted_f_0_m_1_n_0", script("skip").bytes()),
        ("accepted_f_16_n_128", Image { codes: (1..=16).collect(), names: 128, nodes: vec![SKIP] }.bytes()),
        ("accepted_code_65535", codes(&[1, 2, 65_535])),
        ("accepted_name_127", var(127, skip()).image(&[], 128).bytes()),
        ("accepted_m_2048", deep_atoms().image(&[], 0).bytes()),
        ("accepted_longest", longest),
        ("accepted_redeclared", script("var x; var x; {x = proc x: x = x; x(x)}").bytes()),
    ];
    images.into_iter().map(|(name, image)| of(name, image, &zeros(3))).collect()
}

/// What is tested before the script's check.
fn files() -> Vec<Vector> {
    let good = script("var x; x = 1").bytes();
    let missing = |name: &str, script, choices| Vector { name: name.into(), script, choices };
    vec![
        missing("no_script", None, Some(zeros(2))),
        missing("no_script_long_choices", None, Some(zeros(4_097))),
        missing("no_choices", Some(good.clone()), None),
        missing("no_choices_bad_script", Some(vec![]), None),
        missing("neither", None, None),
        of("choices_4096", good.clone(), &zeros(4_096)),
        of("choices_4097", good, &zeros(4_097)),
        of("choices_4097_bad_script", vec![], &zeros(4_097)),
    ]
}

fn main() -> std::io::Result<()> {
    let directory = std::env::args().nth(1).expect("the directory of the vectors");
    let directory = Path::new(&directory);
    let (mut arguments, mut listings) = (String::new(), String::new());
    let _ = std::fs::remove_dir_all(directory.join("data"));
    std::fs::create_dir_all(directory.join("data"))?;
    for vector in [cases(), values(), refusals(), files()].into_iter().flatten() {
        let (image, choices) = (format!("{}.img", vector.name), format!("{}.choices", vector.name));
        for (name, bytes) in [(&image, &vector.script), (&choices, &vector.choices)] {
            if let Some(bytes) = bytes {
                std::fs::write(directory.join("data").join(name), bytes)?;
            }
        }
        arguments += &format!("{image}\n{choices}\n");
        listings += &format!("{image}\n{}", listing(vector.script.as_deref(), vector.choices.as_deref()));
    }
    std::fs::write(directory.join("args"), arguments)?;
    std::fs::write(directory.join("stdout"), listings)
}
