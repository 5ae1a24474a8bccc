//! Writes the vectors of the program `encoded`: `encoded DIRECTORY` puts the texts and lists into DIRECTORY/data, their names into
//! DIRECTORY/args, and what the independent version of `encode` prints, each time under the name of the text and with the image behind it, into
//! DIRECTORY/stdout. docs/VECTORS.md says what each vector is for.

use flagcopper_tests::encoding::{encoding, LONGEST_LIST};
use flagcopper_tests::shrink::hex;
use flagcopper_tests::worked::{long, rows, LIST, LISTS, TEXTS};
use std::path::Path;

struct Vector {
    name: String,
    text: Option<String>,
    list: Option<String>,
}

fn of(name: impl Into<String>, text: &str, list: &str) -> Vector {
    Vector { name: name.into(), text: Some(text.into()), list: Some(list.into()) }
}

/// The texts and lists worked by hand.
fn worked() -> Vec<Vector> {
    let texts = (1..).zip(TEXTS).map(|(number, (text, _))| of(format!("text_{number:03}"), text, LIST));
    let lists = (1..).zip(LISTS).map(|(number, (list, _))| of(format!("list_{number:02}"), "skip", list));
    let long = long().into_iter().map(|(name, text, _)| of(name, &text, LIST));
    let counts = [16, 17].map(|count| of(format!("rows_{count}"), "skip", &rows(count)));
    texts.chain(long).chain(lists).chain(counts).collect()
}

/// What is told of a place: all that could stand there, and at most 64 bytes of what stood there.
fn places() -> Vec<Vector> {
    let fields = |letters: usize| format!("X = {}", "f".repeat(letters));
    let texts = [
        ("field_of_64", fields(64)),
        ("field_of_65", fields(65)),
        ("number_of_65", format!("X = 1{}", "0".repeat(64))),
        ("name_of_65", format!("skip\nN{}", "x".repeat(64))),
        ("sign_behind_operand", "X = 0 -9999999999".into()),
        ("sign_of_a_number", "X =\n-9999999999".into()),
        ("behind_a_call", "X(1)\n#".into()),
        ("behind_a_name", "X\n#".into()),
        ("behind_a_selection", "X.f\n#".into()),
        ("behind_a_difference", "X = 1 - Y\n#".into()),
        ("behind_a_proc", "while X == proc Y: skip\n#".into()),
        ("behind_a_test", "while true\n#".into()),
        ("behind_a_half", "{skip\n#".into()),
        ("behind_if", "if true skip\n#".into()),
        ("high_byte", "skip\n\u{e9}".into()),
        ("bad_list_and_text", "#".into()),
    ];
    let list = |name: &str| if name == "bad_list_and_text" { "#" } else { LIST };
    texts.into_iter().map(|(name, text)| of(name, &text, list(name))).collect()
}

/// What is tested before the list and the text are read; a text that is too long isn't kept here.
fn files() -> Vec<Vector> {
    let of_length = |length: usize| format!("f,{:0>1$}\n", 3, length - 3);
    let missing = |name: &str, text: Option<&str>, list: Option<&str>| Vector {
        name: name.into(),
        text: text.map(Into::into),
        list: list.map(Into::into),
    };
    vec![
        missing("no_text", None, Some(LIST)),
        missing("no_list", Some("skip"), None),
        missing("neither", None, None),
        missing("no_text_long_list", None, Some(&of_length(LONGEST_LIST + 1))),
        of("list_of_4096", "X.f = 1", &of_length(LONGEST_LIST)),
        of("list_of_4097", "#", &of_length(LONGEST_LIST + 1)),
    ]
}

fn main() -> std::io::Result<()> {
    let directory = std::env::args().nth(1).expect("the directory of the vectors");
    let directory = Path::new(&directory);
    let (mut arguments, mut printed) = (String::new(), Vec::new());
    let _ = std::fs::remove_dir_all(directory.join("data"));
    std::fs::create_dir_all(directory.join("data"))?;
    for vector in [worked(), places(), files()].into_iter().flatten() {
        // many have the same list
        let common = vector.list.as_deref() == Some(LIST);
        let list = if common { "fields.txt".into() } else { format!("{}.fields", vector.name) };
        let text = format!("{}.txt", vector.name);
        for (name, bytes) in [(&text, &vector.text), (&list, &vector.list)] {
            if let Some(bytes) = bytes {
                std::fs::write(directory.join("data").join(name), bytes)?;
            }
        }
        arguments += &format!("{text}\n{list}\n");
        let bytes = |file: &Option<String>| file.as_ref().map(|text| text.as_bytes().to_vec());
        let encoded = encoding(bytes(&vector.text).as_deref(), bytes(&vector.list).as_deref(), "script.img");
        let image = encoded.image.map(|image| format!("{}\n", hex(&image))).unwrap_or_default();
        printed.push([format!("{text}\n").as_bytes(), &encoded.printed, image.as_bytes()].concat());
    }
    std::fs::write(directory.join("args"), arguments)?;
    std::fs::write(directory.join("stdout"), printed.concat())
}
