//! Which level dominates which (CR 6): the table of an opening, and the laws it has to keep.

use crate::desk::LEVELS;
use std::fmt;
use std::sync::OnceLock;

pub const TABLE_BYTES: usize = 16;

/// Row by row; 1 says that the column's level dominates the row's.
pub type Table = [u8; TABLE_BYTES];

/// A table that is an order.
#[derive(Clone, Copy, Debug, PartialEq, Eq)]
pub struct Order(Table);

impl Order {
    /// Document 01's: a larger number dominates a smaller one.
    pub const CHAIN: Order = Order([1, 1, 1, 1, 0, 1, 1, 1, 0, 0, 1, 1, 0, 0, 0, 1]);
    /// Two subjects side by side: pupils 0, geography 1, history 2, examiners 3.
    pub const DIAMOND: Order = Order([1, 1, 1, 1, 0, 1, 0, 1, 0, 0, 1, 1, 0, 0, 0, 1]);

    pub fn of(table: &Table) -> Option<Order> {
        flaws(table).is_empty().then_some(Order(*table))
    }

    /// All there are, always in the same order.
    pub fn all() -> &'static [Order] {
        static ALL: OnceLock<Vec<Order>> = OnceLock::new();
        ALL.get_or_init(|| reflexive_tables().iter().filter_map(Order::of).collect())
    }

    pub fn table(self) -> Table {
        self.0
    }

    /// A byte above 3 is no level: it dominates none, and none dominates it.
    pub fn dominates(self, level: u8, other: u8) -> bool {
        level < LEVELS && other < LEVELS && has(&self.0, level, other)
    }

    /// Strict dominance.
    pub fn is_above(self, level: u8, other: u8) -> bool {
        level != other && self.dominates(level, other)
    }

    /// Neither dominates the other.
    pub fn are_apart(self, level: u8, other: u8) -> bool {
        !self.dominates(level, other) && !self.dominates(other, level)
    }

    /// Takes any table for an order, as the slips do.
    pub fn unjudged(table: Table) -> Order {
        Order(table)
    }

    /// The pairs, the lower level first, with no level between them.
    fn neighbours(self) -> Vec<(u8, u8)> {
        let is_between = |low, level, high| self.is_above(level, low) && self.is_above(high, level);
        let are_near = |&(low, high): &(u8, u8)| {
            self.is_above(high, low) && !levels().any(|level| is_between(low, level, high))
        };
        pairs().filter(are_near).collect()
    }
}

impl fmt::Display for Order {
    /// In the words of `talk`.
    fn fmt(&self, f: &mut fmt::Formatter) -> fmt::Result {
        if *self == Order::CHAIN {
            return write!(f, "the old chain 0<1<2<3");
        }
        let words = self.neighbours().into_iter().map(|(low, high)| format!("{low}<{high}"));
        let words: Vec<String> = words.collect();
        if words.is_empty() {
            return write!(f, "no level above another");
        }
        write!(f, "the order {}", words.join(" "))
    }
}

/// Where a table is no order.
#[derive(Clone, Copy, Debug, PartialEq, Eq)]
pub enum Flaw {
    Byte { row: u8, column: u8, byte: u8 },
    NotReflexive { level: u8 },
    NotAntisymmetric { one: u8, other: u8 },
    NotTransitive { low: u8, middle: u8, high: u8 },
}

impl fmt::Display for Flaw {
    fn fmt(&self, f: &mut fmt::Formatter) -> fmt::Result {
        match *self {
            Flaw::Byte { row, column, byte } => {
                write!(f, "the byte of row {row} and column {column} is {byte}, above 1")
            }
            Flaw::NotReflexive { level } => {
                write!(f, "not reflexive: {level} does not dominate itself")
            }
            Flaw::NotAntisymmetric { one, other } => {
                write!(f, "not antisymmetric: {one} and {other} dominate each other")
            }
            Flaw::NotTransitive { low, middle, high } => write!(
                f,
                "not transitive: {middle} dominates {low} and {high} dominates {middle}, but {high} \
                 does not dominate {low}"
            ),
        }
    }
}

/// All flaws of a table. One with a byte above 1 says nothing of dominance, so nothing else is looked
/// for in it.
pub fn flaws(table: &Table) -> Vec<Flaw> {
    let bytes = bytes_above_1(table);
    if !bytes.is_empty() {
        return bytes;
    }
    let dominates = |level, other| has(table, level, other);
    let mut flaws = Vec::new();
    for level in levels().filter(|&level| !dominates(level, level)) {
        flaws.push(Flaw::NotReflexive { level });
    }
    for (one, other) in pairs().filter(|(one, other)| one < other) {
        if dominates(one, other) && dominates(other, one) {
            flaws.push(Flaw::NotAntisymmetric { one, other });
        }
    }
    for (low, middle) in pairs().filter(|&(low, middle)| dominates(middle, low)) {
        for high in levels().filter(|&high| dominates(high, middle) && !dominates(high, low)) {
            flaws.push(Flaw::NotTransitive { low, middle, high });
        }
    }
    flaws
}

fn bytes_above_1(table: &Table) -> Vec<Flaw> {
    let cells = levels().flat_map(|row| levels().map(move |column| (row, column)));
    let flaw = |((row, column), &byte)| Flaw::Byte { row, column, byte };
    cells.zip(table).filter(|(_, byte)| **byte > 1).map(flaw).collect()
}

/// The smallest reflexive and transitive table with these pairs, the lower level first.
pub fn closed(pairs: &[(u8, u8)]) -> Table {
    let mut table = [0; TABLE_BYTES];
    for level in levels() {
        table[entry(level, level)] = 1;
    }
    for &(low, high) in pairs {
        table[entry(high, low)] = 1;
    }
    for middle in levels() {
        for (low, high) in self::pairs() {
            if has(&table, middle, low) && has(&table, high, middle) {
                table[entry(high, low)] = 1;
            }
        }
    }
    table
}

/// The tables of bytes 0 and 1 by which each level dominates itself.
pub fn reflexive_tables() -> Vec<Table> {
    let table = |set: u32| {
        let mut table = closed(&[]);
        for (_, (low, high)) in (0..).zip(pairs()).filter(|(bit, _)| set >> bit & 1 == 1) {
            table[entry(high, low)] = 1;
        }
        table
    };
    (0..1 << pairs().count()).map(table).collect()
}

/// The row is the level that is dominated, the column the one that dominates it.
pub fn entry(level: u8, other: u8) -> usize {
    usize::from(LEVELS * other + level)
}

fn has(table: &Table, level: u8, other: u8) -> bool {
    table[entry(level, other)] == 1
}

pub fn levels() -> impl Iterator<Item = u8> {
    0..LEVELS
}

/// The pairs of two different levels.
fn pairs() -> impl Iterator<Item = (u8, u8)> {
    levels()
        .flat_map(|one| levels().map(move |other| (one, other)))
        .filter(|(one, other)| one != other)
}

#[cfg(test)]
mod tests {
    use super::*;

    /// The number of partial orders on four labelled elements.
    const ORDERS: usize = 219;

    #[test]
    fn the_orders_are_all_there_are() {
        assert_eq!(Order::all().len(), ORDERS);
        for order in [Order::CHAIN, Order::DIAMOND] {
            assert!(Order::all().contains(&order));
        }
        let antisymmetric = |table: &&Table| {
            flaws(table).iter().all(|flaw| matches!(flaw, Flaw::NotTransitive { .. }))
        };
        assert_eq!(reflexive_tables().iter().filter(antisymmetric).count(), 3_usize.pow(6));
    }

    #[test]
    fn rows_are_dominated_by_columns() {
        let order = Order::of(&[1, 1, 0, 0, 0, 1, 0, 0, 0, 0, 1, 0, 0, 0, 0, 1]).expect("an order");
        assert!(order.dominates(1, 0) && order.is_above(1, 0));
        assert!(!order.dominates(0, 1) && !order.are_apart(0, 1));
        assert!(order.dominates(2, 2) && !order.is_above(2, 2) && order.are_apart(2, 3));
        assert!(!order.dominates(4, 0) && !order.dominates(0, 4) && !order.dominates(255, 255));
        for (level, other) in pairs() {
            assert_eq!(Order::CHAIN.dominates(level, other), level > other);
            let apart = [(1, 2), (2, 1)].contains(&(level, other));
            assert_eq!(Order::DIAMOND.are_apart(level, other), apart);
        }
    }

    #[test]
    fn each_flaw_is_found_and_told() {
        let with = |changes: &[(usize, u8)]| {
            let mut table = Order::DIAMOND.table();
            changes.iter().for_each(|&(index, byte)| table[index] = byte);
            table
        };
        let cases: [(&[(usize, u8)], &str); 5] = [
            (&[(1, 2)], "the byte of row 0 and column 1 is 2, above 1"),
            (&[(10, 0)], "not reflexive: 2 does not dominate itself"),
            (&[(9, 1), (6, 1)], "not antisymmetric: 1 and 2 dominate each other"),
            (&[(3, 0), (2, 0)], "not transitive: 1 dominates 0 and 3 dominates 1, but 3 does not"),
            (&[(15, 255), (0, 0)], "the byte of row 3 and column 3 is 255, above 1"),
        ];
        for (changes, wanted) in cases {
            let flaws = flaws(&with(changes));
            assert_eq!(flaws.len(), 1, "{flaws:?}");
            assert!(flaws[0].to_string().starts_with(wanted), "{}", flaws[0]);
        }
    }

    #[test]
    fn an_order_is_told_by_its_neighbours_and_made_of_them_again() {
        assert_eq!(Order::DIAMOND.to_string(), "the order 0<1 0<2 1<3 2<3");
        assert_eq!(Order::CHAIN.to_string(), "the old chain 0<1<2<3");
        assert_eq!(Order(closed(&[])).to_string(), "no level above another");
        for order in Order::all() {
            assert_eq!(closed(&order.neighbours()), order.table());
        }
        assert_eq!(flaws(&closed(&[(0, 1), (1, 2), (2, 0)])).len(), 3);
    }
}
