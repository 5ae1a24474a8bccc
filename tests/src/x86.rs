//! How a program for x86-64 is started: on x86-64 as it is, elsewhere by the script `x86` of this package.

use std::path::Path;
use std::process::Command;

pub fn command(program: &Path) -> Command {
    if cfg!(target_arch = "x86_64") {
        return Command::new(program);
    }
    let mut command = Command::new(concat!(env!("CARGO_MANIFEST_DIR"), "/x86"));
    command.arg("run").arg(program);
    command
}
