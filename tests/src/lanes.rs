//! Cases of a program in as many lanes as the machine has processors, each lane with a folder of its own: under an emulator a start takes
//! its time.

use std::io::Result;
use std::path::Path;
use std::thread::{available_parallelism, scope};

/// Whether all cases are right; a lane ends at the first that isn't.
pub fn all_right(directory: &Path, cases: u64, right: impl Fn(&Path, u64) -> Result<bool> + Sync) -> Result<bool> {
    let lanes = available_parallelism()?.get();
    let lane = |lane: usize| {
        let own = directory.join(lane.to_string());
        std::fs::create_dir_all(&own)?;
        for number in (lane as u64..cases).step_by(lanes) {
            if !right(&own, number)? {
                return Ok(false);
            }
        }
        Ok(true)
    };
    let lane = &lane;
    let lanes = scope(|scope| {
        let started: Vec<_> = (0..lanes).map(|number| scope.spawn(move || lane(number))).collect();
        started.into_iter().map(|lane| lane.join().expect("no lane panics")).collect::<Result<Vec<_>>>()
    })?;
    Ok(lanes.into_iter().all(|right| right))
}
