//! Why a command ends early, and the exit status it ends with.

use std::io;

#[derive(Debug)]
pub enum Stop {
    /// A check found what it looks for: exit status 1.
    Found(String),
    /// The command cannot be carried out as given: exit status 2.
    Cannot(String),
    /// Standard input or output failed: exit status 2, or 0 when the reader has left.
    Stream(io::Error),
}

impl Stop {
    /// Says where it was that something was found.
    pub fn at(self, place: &str) -> Stop {
        match self {
            Stop::Found(what) => Stop::Found(format!("{place}: {what}")),
            other => other,
        }
    }

    /// What was found is about the input that this command makes.
    pub fn on_input_of(self, command: &str) -> Stop {
        self.at(&format!("input of '{command}'"))
    }
}

impl From<io::Error> for Stop {
    fn from(error: io::Error) -> Stop {
        Stop::Stream(error)
    }
}
