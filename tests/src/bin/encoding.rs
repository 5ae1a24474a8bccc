//! The program `encode` from outside: what it prints, the image that it writes, and that it leaves nothing else behind.
//!
//! `encoding --against PROGRAM --cases N --seed S` tries the program, one for x86-64, on situations by hand and on N that are made from the
//! seed: texts and lists as they are generated, missing, empty, as long as they may be and one byte longer, with and without an old image.
//! `encoding` alone does what the program does, here.

use flagcopper_tests::arguments::here_or_against;
use flagcopper_tests::encoding::{encoding, LONGEST_LIST, LONGEST_TEXT, USAGE};
use flagcopper_tests::generate::written::{case, Length};
use flagcopper_tests::outside::{with, Files, Outcome, Situation, Trial};
use flagcopper_tests::random::Random;
use std::io::Result;
use std::process::ExitCode;

const NAMES: [&str; 3] = ["script.txt", "fields.txt", "script.img"];

// ---- what must come of a situation

fn wanted(situation: &Situation) -> Outcome {
    let files = &situation.files;
    let names = match situation.arguments[..] {
        [] => NAMES,
        [text, list, image] => [text, list, image],
        _ => return Outcome::quiet(USAGE, files),
    };
    let file = |name: &str| files.get(name).and_then(|file| file.as_deref());
    let encoded = encoding(file(names[0]), file(names[1]), names[2]);
    match encoded.image {
        None => Outcome::quiet(encoded.printed, files),
        Some(image) => Outcome::of_making(files, names[2], image, encoded.printed),
    }
}

// ---- situations by hand

fn by_hand() -> Vec<(&'static str, Situation, Outcome)> {
    let files = |files: &[(&str, Option<&str>)]| -> Files {
        files.iter().map(|(name, bytes)| (name.to_string(), bytes.map(|bytes| bytes.as_bytes().to_vec()))).collect()
    };
    let given = [("script.txt", Some("var X; X = 1\n")), ("fields.txt", Some(""))];
    let image: &[u8] =
        &[10, 0, 0, 0, 10, 0, 3, 0, 1, 0, 2, 0, 1, 0, 0, 0, 0, 0, 35, 0, 0, 0, 0, 0, 0, 0, 32, 0, 0, 0, 1, 0, 0, 0];
    let and = |more: &[(&str, Option<&str>)]| files(&[&given[..], more].concat());
    let made = |files: &Files, name: &str| with(files, name, image);
    let mut all = Vec::new();
    let mut add = |what, files: &Files, arguments: &[&'static str], outcome| {
        all.push((what, Situation { files: files.clone(), arguments: arguments.to_vec() }, outcome));
    };
    let plain = and(&[]);
    add("an image", &plain, &[], Outcome::quiet("script.img 34 bytes\n", &made(&plain, "script.img")));
    let old = and(&[("script.img", Some("old"))]);
    add("an old image", &old, &[], Outcome::quiet("script.img 34 bytes\n", &made(&old, "script.img")));
    let refused = files(&[
        ("script.txt", Some("var X;\nX = Y.height")),
        ("fields.txt", Some("f,3\n")),
        ("script.img", Some("old")),
    ]);
    let lines = "refused 24 at line 2\nunknown field: height; could be: a name, a field, a number, -, null, proc, (\n";
    add("a refusal beside an old image", &refused, &[], Outcome::quiet(lines, &refused));
    for arguments in
        [&["script.txt"][..], &["script.txt", "fields.txt"], &["script.txt", "fields.txt", "script.img", "x"]]
    {
        add(
            "a wrong number of arguments",
            &old,
            arguments,
            Outcome::quiet("usage: encode [TEXT FIELDS IMAGE]\n", &old),
        );
    }
    let apart = and(&[("out", None), ("script.img", Some("old"))]);
    let three = ["script.txt", "fields.txt", "out/my image"];
    add("three arguments", &apart, &three, Outcome::quiet("out/my image 34 bytes\n", &made(&apart, "out/my image")));
    add("three arguments, none of them there", &plain, &["a", "b", "c"], Outcome::quiet("no input\n", &plain));
    let folder = and(&[("script.img", None)]);
    add("a folder in the image's place", &folder, &[], Outcome::loud(&folder));
    add("a folder that is missing", &plain, &["script.txt", "fields.txt", "out/script.img"], Outcome::loud(&plain));
    let part = and(&[("script.img", Some("old")), ("script.img.part", Some("another's"))]);
    add("a part that is there", &part, &[], Outcome::loud(&part));
    let empty = files(&[("script.txt", Some("")), ("fields.txt", Some(""))]);
    let early = "refused 23 at line 1\nearly end; could be: a name, a field, a number, -, null, var, malloc, skip, while, if, atom, (, {\n";
    add("empty files", &empty, &[], Outcome::quiet(early, &empty));
    let long_text = "skip".to_string() + &" ".repeat(LONGEST_TEXT - 4);
    let longer_text = long_text.clone() + "\n";
    let list = |length: usize| format!("f,{:0>1$}\n", 3, length - 3);
    let texts = |text: &str, list: &str| files(&[("script.txt", Some(text)), ("fields.txt", Some(list))]);
    let limit = texts(&long_text, &list(LONGEST_LIST));
    let skip = [10, 0, 1, 0, 12, 0, 1, 0, 0, 0, 3, 0, 37, 0, 0, 0, 0, 0, 0, 0];
    let after = with(&limit, "script.img", &skip);
    add("as long as allowed", &limit, &[], Outcome::quiet("script.img 20 bytes\n", &after));
    let text_too_long = texts(&longer_text, &list(LONGEST_LIST + 1));
    add("both too long", &text_too_long, &[], Outcome::quiet("text too long\n", &text_too_long));
    let list_too_long = texts("#", &list(LONGEST_LIST + 1));
    add("the list too long", &list_too_long, &[], Outcome::quiet("list too long\n", &list_too_long));
    let one = files(&[("script.txt", Some(&longer_text))]);
    add("a text too long and no list", &one, &[], Outcome::quiet("no input\n", &one));
    let other = files(&[("fields.txt", Some("f,3\n")), ("script.img", Some("old"))]);
    add("no text", &other, &[], Outcome::quiet("no input\n", &other));
    // a folder can be opened and not read: it is no empty file
    let as_text = files(&[("script.txt", None), ("fields.txt", Some("")), ("script.img", Some("old"))]);
    add("a folder in the text's place", &as_text, &[], Outcome::quiet("no input\n", &as_text));
    let as_list = files(&[("script.txt", Some("skip")), ("fields.txt", None), ("script.img", Some("old"))]);
    add("a folder in the list's place", &as_list, &[], Outcome::quiet("no input\n", &as_list));
    all
}

// ---- generated situations

/// The bytes with blanks before or behind them, so many in all.
fn stretched(random: &mut Random, mut bytes: Vec<u8>, length: usize) -> Vec<u8> {
    bytes.truncate(length);
    let blanks = vec![random.pick(b" \n"); length - bytes.len()];
    if random.once_in(2) {
        [blanks, bytes].concat()
    } else {
        [bytes, blanks].concat()
    }
}

fn generated(seed: u64, number: u64) -> Situation {
    let random = &mut Random::of_case(seed, number);
    let length = if random.once_in(8) { Length::Any } else { Length::Short };
    let case = case(random, length);
    let text = match random.below(60) {
        0 => stretched(random, case.text, LONGEST_TEXT),
        1 => stretched(random, case.text, LONGEST_TEXT + 1),
        2 => Vec::new(),
        _ => case.text,
    };
    let list = match random.below(60) {
        0 => format!("f,{:0>1$}\n", random.pick(&[0, 3, 65_535, 65_536]), LONGEST_LIST - 3).into_bytes(),
        1 => format!("f,{:0>1$}\n", 3, LONGEST_LIST - 2).into_bytes(),
        2 => Vec::new(),
        _ => case.list,
    };
    let arguments = if random.once_in(5) { vec!["a text", "list", "made.img"] } else { Vec::new() };
    let names = if arguments.is_empty() { NAMES } else { ["a text", "list", "made.img"] };
    let mut files = Files::new();
    for (name, bytes) in names.into_iter().zip([text, list]) {
        if !random.once_in(40) {
            files.insert(name.into(), Some(bytes));
        }
    }
    if random.once_in(2) {
        files.insert(names[2].into(), Some(b"an old image".to_vec()));
    }
    Situation { files, arguments }
}

fn compared(program: &str, cases: u64, seed: u64) -> Result<bool> {
    let program = std::fs::canonicalize(program)?;
    let trial = Trial { program, directory: "encodings", wanted, also: |_, _, _, _| Ok(true) };
    trial.compared(&by_hand(), generated, cases, seed)
}

fn encoded_here() {
    let file = |name: &str| std::fs::read(name).ok();
    let encoded = encoding(file(NAMES[0]).as_deref(), file(NAMES[1]).as_deref(), NAMES[2]);
    if let Some(image) = encoded.image {
        std::fs::write(NAMES[2], image).expect("the image can be written");
    }
    print!("{}", String::from_utf8_lossy(&encoded.printed));
}

fn main() -> ExitCode {
    here_or_against("encoding", encoded_here, compared)
}
