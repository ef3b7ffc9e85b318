//! What a house is opened with, as a caller hands it over: the desk judges it.

use crate::order::TABLE_BYTES;
use crate::rule::Rule;

#[derive(Clone, Debug, PartialEq, Eq)]
pub struct Opening {
    /// The level of each item.
    pub levels: Vec<u8>,
    /// Which level dominates which.
    pub table: Vec<u8>,
    /// The number of a rule (CR 7). An opening over the wire names none, and takes A.
    pub rule: u8,
}

impl Opening {
    /// Under rule A.
    pub fn new(levels: &[u8], table: &[u8]) -> Opening {
        Opening { levels: levels.to_vec(), table: table.to_vec(), rule: Rule::A.number() }
    }

    /// The same under another rule.
    pub fn under(self, rule: Rule) -> Opening {
        Opening { rule: rule.number(), ..self }
    }

    /// The bytes that open the house over the wire: how many items, the levels, the table.
    pub fn header(&self) -> Vec<u8> {
        [&[self.levels.len() as u8], &self.levels[..], &self.table].concat()
    }

    /// The same with another table.
    pub fn with_table(&self, table: &[u8]) -> Opening {
        Opening { table: table.to_vec(), ..self.clone() }
    }
}

/// The header of an input, as much of it as there is, and the bytes behind it.
pub fn split_header(input: &[u8]) -> (&[u8], &[u8]) {
    let header_bytes = 1 + usize::from(input.first().copied().unwrap_or(0)) + TABLE_BYTES;
    input.split_at(header_bytes.min(input.len()))
}

/// The count of items of a header, and its levels and table, as much as there is of each.
pub fn split_opening(header: &[u8]) -> (usize, Opening) {
    let (&count, rest) = header.split_first().unwrap_or((&0, &[]));
    let count = usize::from(count);
    let (levels, table) = rest.split_at(rest.len().min(count));
    (count, Opening::new(levels, table))
}
