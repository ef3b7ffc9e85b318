//! The rule of a house (CR 7): when signals are given. The opener names it, and the house keeps it.

use crate::wire::Operation;
use std::fmt;

#[derive(Clone, Copy, Debug, PartialEq, Eq)]
pub enum Rule {
    A,
    B,
}

impl Rule {
    /// In the order of their numbers.
    pub const ALL: [Rule; 2] = [Rule::A, Rule::B];

    pub fn from_number(number: u8) -> Option<Rule> {
        Rule::ALL.get(usize::from(number)).copied()
    }

    pub fn number(self) -> u8 {
        self as u8
    }

    /// The rule of this name, A or B.
    pub fn named(name: &str) -> Option<Rule> {
        Rule::ALL.into_iter().find(|rule| rule.to_string() == name)
    }

    /// The operation that gives the signals.
    pub fn signals_at(self) -> Operation {
        match self {
            Rule::A => Operation::Certify,
            Rule::B => Operation::Commit,
        }
    }
}

impl fmt::Display for Rule {
    fn fmt(&self, f: &mut fmt::Formatter) -> fmt::Result {
        write!(f, "{self:?}")
    }
}
