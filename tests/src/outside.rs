//! Programs from outside: a folder is laid out, the program is run in it, and what it printed and what lies there afterwards is held against
//! what must come of it.

use crate::lanes::all_right;
use crate::x86::command;
use std::collections::BTreeMap;
use std::io::Result;
use std::path::{Path, PathBuf};

/// What lies in a folder, by its name; `None` for a folder.
pub type Files = BTreeMap<String, Option<Vec<u8>>>;

pub struct Situation {
    pub files: Files,
    pub arguments: Vec<&'static str>,
}

#[derive(Debug, PartialEq, Eq)]
pub struct Outcome {
    pub printed: Vec<u8>,
    /// Something is said on standard error.
    pub complains: bool,
    pub files: Files,
}

impl Outcome {
    /// Something is printed, and this lies there.
    pub fn quiet(printed: impl Into<Vec<u8>>, files: &Files) -> Outcome {
        Outcome { printed: printed.into(), complains: false, files: files.clone() }
    }

    /// Nothing but a complaint, and this lies there.
    pub fn loud(files: &Files) -> Outcome {
        Outcome { printed: Vec::new(), complains: true, files: files.clone() }
    }

    /// What comes of a file that is to be made: it is made under a name that must be free, and takes the place of a file; then something is
    /// printed. Or nothing is changed.
    pub fn of_making(files: &Files, name: &str, bytes: Vec<u8>, printed: impl Into<Vec<u8>>) -> Outcome {
        let folder = name.rsplit_once('/').is_none_or(|(folder, _)| files.get(folder) == Some(&None));
        if folder && !files.contains_key(&format!("{name}.part")) && files.get(name) != Some(&None) {
            Outcome::quiet(printed, &with(files, name, &bytes))
        } else {
            Outcome::loud(files)
        }
    }
}

/// The files, and one more or another in its place.
pub fn with(files: &Files, name: &str, bytes: &[u8]) -> Files {
    let mut files = files.clone();
    files.insert(name.to_string(), Some(bytes.to_vec()));
    files
}

/// Empties the folder and puts the files into it.
fn laid_out(folder: &Path, files: &Files) -> Result<()> {
    if folder.exists() {
        std::fs::remove_dir_all(folder)?;
    }
    std::fs::create_dir_all(folder)?;
    files.iter().try_for_each(|(name, bytes)| match bytes {
        None => std::fs::create_dir(folder.join(name)),
        Some(bytes) => std::fs::write(folder.join(name), bytes),
    })
}

fn found(folder: &Path, before: &str, files: &mut Files) -> Result<()> {
    for entry in std::fs::read_dir(folder)? {
        let path = entry?.path();
        let name = format!("{before}{}", path.file_name().unwrap_or_default().to_string_lossy());
        if path.is_dir() {
            found(&path, &format!("{name}/"), files)?;
            files.insert(name, None);
        } else {
            files.insert(name, Some(std::fs::read(&path)?));
        }
    }
    Ok(())
}

pub fn outcome(program: &Path, folder: &Path, situation: &Situation) -> Result<Outcome> {
    laid_out(folder, &situation.files)?;
    let given = command(program).args(&situation.arguments).current_dir(folder).output()?;
    let mut files = Files::new();
    found(folder, "", &mut files)?;
    Ok(Outcome { printed: given.stdout, complains: !given.stderr.is_empty(), files })
}

/// A program that is tried.
pub struct Trial {
    pub program: PathBuf,
    /// Where the folders are laid out, in `target`.
    pub directory: &'static str,
    pub wanted: fn(&Situation) -> Outcome,
    /// What else must be true of a situation and its outcome, with a folder to try it in; if it isn't, it is told.
    pub also: fn(&Path, &Path, &Situation, &Outcome) -> Result<bool>,
}

impl Trial {
    /// Whether the program does what is wanted; if not, the situation stays in the folder and the difference is told.
    fn right(&self, folder: &Path, what: &str, situation: &Situation) -> Result<bool> {
        let wanted = (self.wanted)(situation);
        let given = outcome(&self.program, folder, situation)?;
        if given == wanted && (self.also)(&self.program, folder, situation, &given)? {
            return Ok(true);
        }
        laid_out(folder, &situation.files)?;
        println!("{what} lies in {}, arguments {:?}", folder.display(), situation.arguments);
        for (who, outcome) in [("wanted", &wanted), ("given", &given)] {
            let Outcome { printed, complains, files } = outcome;
            let length = |bytes: &Option<Vec<u8>>| bytes.as_ref().map(Vec::len);
            let files: Vec<_> = files.iter().map(|(name, bytes)| (name, length(bytes))).collect();
            println!("{who}, complaining {complains}, with {files:?}:\n{}", String::from_utf8_lossy(printed));
        }
        if wanted.files != given.files {
            println!("the files differ");
        }
        Ok(false)
    }

    /// Whether all is right in the situations by hand, with what was found by hand to come of them, and in so many generated ones.
    pub fn compared(
        &self,
        by_hand: &[(&'static str, Situation, Outcome)],
        generated: fn(u64, u64) -> Situation,
        cases: u64,
        seed: u64,
    ) -> Result<bool> {
        let directory = &Path::new(env!("CARGO_MANIFEST_DIR")).join("../target").join(self.directory);
        by_hand.iter().for_each(|(what, situation, outcome)| assert_eq!((self.wanted)(situation), *outcome, "{what}"));
        for (what, situation, _) in by_hand {
            if !self.right(&directory.join("hand"), what, situation)? {
                return Ok(false);
            }
        }
        let right = all_right(directory, cases, |lane, number| {
            self.right(lane, &format!("case {number} of seed {seed}"), &generated(seed, number))
        })?;
        if right {
            println!("{} situations by hand and {cases} of seed {seed} are right", by_hand.len());
        }
        Ok(right)
    }
}
