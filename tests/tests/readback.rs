//! Reading the state back: the words of docs/WORKSPACE.md, and states of runs, on every subject.

use flagcopper_tests::image::Image;
use flagcopper_tests::parse::script;
use flagcopper_tests::readback::{frame, part, value, Frame, Part, Value, Words};
use flagcopper_tests::subject::{subjects, SIZE};

#[test]
fn the_words_of_the_page() {
    assert_eq!(frame(7), Some(Frame { name: 0, outer: None, cell: Value::Unset }));
    assert_eq!(frame(10), Some(Frame { name: 0, outer: None, cell: Value::Int(1) }));
    let made = Value::Proc { node: 7, chain: Some(0) };
    assert_eq!(frame(8_899_172_352_013), Some(Frame { name: 3, outer: Some(0), cell: made }));
    assert_eq!(part(32_769), Some(Part::Command { node: 2, chain: None }));
    assert_eq!(part(16_393), Some(Part::Command { node: 1, chain: Some(0) }));
    assert_eq!((value(0), frame(0), part(0)), (None, None, None));
    assert_eq!((value(1), value(7), part(7)), (Some(Value::Null), Some(Value::Unset), None));
    assert_eq!(value(2 + 8 * 0xFFFF_FFFF), Some(Value::Int(-1)));
}

fn read(image: &Image, choices: &[u8], wanted: (&[Frame], &[&[Value]], &[Part])) {
    for (name, subject) in subjects() {
        let mut workspace = vec![99; SIZE + 1];
        subject.run(&image.bytes(), choices, &mut workspace);
        let words = Words::of(&workspace).expect("the size");
        assert_eq!(words.frames().collect::<Vec<_>>(), wanted.0, "{name}");
        assert_eq!(words.objects().collect::<Vec<_>>(), wanted.1, "{name}");
        assert_eq!(words.parts().collect::<Vec<_>>(), wanted.2, "{name}");
    }
}

#[test]
fn frames_objects_and_parts() {
    let image = script("fields a 5, b 9: var x; {malloc(x); {x.b = proc y: skip; (proc z: skip)(0 - 1)}}");
    let frames = [
        Frame { name: 0, outer: None, cell: Value::Object(0) },
        Frame { name: 2, outer: Some(0), cell: Value::Int(-1) },
    ];
    let fields = [Value::Null, Value::Proc { node: 4, chain: Some(0) }];
    read(&image, &[0; 4], (&frames, &[&fields], &[Part::Command { node: 6, chain: Some(1) }]));
    let trees = script("var x; {{skip; x = 1} || atom(skip)}");
    let unset = [Frame { name: 0, outer: None, cell: Value::Unset }];
    let chain = Some(0);
    let (waiting, first) = (Part::Then { node: 2, chain }, Part::Command { node: 0, chain });
    let inside = Part::Command { node: 4, chain };
    read(&trees, &[0, 1], (&unset, &[], &[Part::Beside, waiting, first, Part::Entered, inside]));
}

#[test]
fn nothing_is_read_of_other_words() {
    assert!(Words::of(&[1; SIZE - 1]).is_none());
    // 6 was a stored fault until order 2
    for word in [0, 6, 6 + 8, u64::MAX - 1] {
        assert_eq!((value(word), frame(word), part(word)), (None, None, None));
        let words = vec![word; SIZE];
        let words = Words::of(&words).expect("the size");
        assert_eq!((words.frames().count(), words.parts().count()), (0, 0));
        assert!(words.objects().all(|fields| fields.is_empty()));
    }
}

#[test]
fn no_count_reaches_into_the_words_after() {
    let mut words = vec![9; SIZE]; // null in a frame or a field, a command in a part
    words[..3].fill(u64::MAX);
    let words = Words::of(&words).expect("the size");
    assert_eq!((words.frames().count(), words.objects().count(), words.parts().count()), (1_024, 256, 255));
}
