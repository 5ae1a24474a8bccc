//! The program that makes the two files of a run: the stored example's bytes, and nothing at all where something is wrong.

use std::path::{Path, PathBuf};
use std::process::{Command, Output};

/// An empty folder of the test's own.
fn folder(name: &str) -> PathBuf {
    let folder = Path::new(env!("CARGO_TARGET_TMPDIR")).join(name);
    let _ = std::fs::remove_dir_all(&folder);
    std::fs::create_dir_all(&folder).expect("a folder can be made");
    folder
}

fn assemble(folder: &Path, arguments: &[&str]) -> Output {
    Command::new(env!("CARGO_BIN_EXE_assemble")).current_dir(folder).args(arguments).output().expect("assemble runs")
}

#[test]
fn the_example_of_the_listing() {
    let folder = folder("example");
    assert!(assemble(&folder, &["var x; x = 1", "0", "0"]).status.success());
    let made = |name: &str| std::fs::read(folder.join(name)).expect("it was made");
    assert_eq!(made("script.img"), include_bytes!("../../crates/listing/data/script.img"));
    assert_eq!(made("choices.bin"), [0, 0]);
}

#[test]
fn nothing_is_written_of_wrong_arguments() {
    let folder = folder("wrong");
    let wrong: [&[&str]; 5] = [&[], &["var x; x ="], &["skip skip"], &["skip", "0", "256"], &["skip", "no"]];
    for arguments in wrong {
        let output = assemble(&folder, arguments);
        assert!(!output.status.success() && !output.stderr.is_empty(), "{arguments:?}");
        assert_eq!(std::fs::read_dir(&folder).expect("the folder").count(), 0, "{arguments:?}");
    }
}
