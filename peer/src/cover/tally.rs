//! How often each of some named things was met, where each has to be.

use super::{print_met, unmet};
use std::io::{self, Write};

/// `T` tests one of the things.
pub struct Tally<T: 'static> {
    heading: &'static str,
    /// What is said of one that was not met.
    never: &'static str,
    tests: &'static [(&'static str, T)],
    counts: Vec<u64>,
}

impl<T> Tally<T> {
    pub fn new(
        heading: &'static str,
        never: &'static str,
        tests: &'static [(&'static str, T)],
    ) -> Tally<T> {
        Tally { heading, never, tests, counts: vec![0; tests.len()] }
    }

    pub fn note(&mut self, is_met: impl Fn(&T) -> bool) {
        for (count, (_, test)) in self.counts.iter_mut().zip(self.tests) {
            *count += u64::from(is_met(test));
        }
    }

    pub fn print(&self, out: &mut impl Write) -> io::Result<()> {
        writeln!(out, "\n{}", self.heading)?;
        print_met(out, "", self.tests, &self.counts)
    }

    pub fn faults(&self) -> impl Iterator<Item = String> + '_ {
        unmet(self.tests, &self.counts).map(|name| format!("{}: {name}", self.never))
    }
}
