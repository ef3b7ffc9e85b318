//! A line on standard error every few seconds of long work.

use crate::stop::Stop;
use std::io::{self, Write};
use std::time::{Duration, Instant};

const EVERY: Duration = Duration::from_secs(3);

/// Does this for so many seeds from the first on, and tells how far it has come.
/// `doing` says what happens to the inputs, such as `compared`.
pub fn each_seed(
    doing: &'static str,
    first: u64,
    count: u64,
    mut each: impl FnMut(u64) -> Result<(), Stop>,
) -> Result<(), Stop> {
    let mut progress = Progress::new(doing, count);
    for done in 0..count {
        each(first.wrapping_add(done))?;
        progress.tell(done + 1);
    }
    Ok(())
}

struct Progress {
    doing: &'static str,
    total: u64,
    last_told: Instant,
}

impl Progress {
    fn new(doing: &'static str, total: u64) -> Progress {
        Progress { doing, total, last_told: Instant::now() }
    }

    fn tell(&mut self, so_far: u64) {
        if self.last_told.elapsed() >= EVERY {
            self.last_told = Instant::now();
            // Nobody has to listen.
            let _ = writeln!(io::stderr(), "{} {so_far} of {} inputs", self.doing, self.total);
        }
    }
}
