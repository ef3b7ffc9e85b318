//! Openings: every order (CR 6), every number that refuses one, and on either side of each.

use super::{print_met, unmet};
use crate::desk::LEVELS;
use crate::opening::{split_opening, Opening};
use crate::order::{flaws, Flaw, Order, Table, TABLE_BYTES};
use std::io::{self, Write};

/// A header that was refused, as much of it as came.
struct Refused {
    count: usize,
    opening: Opening,
    number: u8,
}

impl Refused {
    fn is(&self, number: u8) -> bool {
        self.number == number
    }

    fn has_level_above_3(&self) -> bool {
        self.opening.levels.iter().any(|&level| level >= LEVELS)
    }

    fn has_all_levels(&self) -> bool {
        (1..=64).contains(&self.count) && self.opening.levels.len() == self.count
    }

    fn is_cut_in_table(&self) -> bool {
        self.has_all_levels() && self.opening.table.len() < TABLE_BYTES
    }

    fn flaws(&self) -> Vec<Flaw> {
        Table::try_from(&self.opening.table[..]).map(|table| flaws(&table)).unwrap_or_default()
    }

    /// The one thing that is wrong with the table, where it is the only one.
    fn one_flaw(&self) -> Option<Flaw> {
        self.flaws().first().copied().filter(|_| self.is(16) && self.flaws().len() == 1)
    }
}

/// One of the things that refused openings have to meet.
type Meets = fn(&Refused) -> bool;

const MEETS: [(&str, Meets); 12] = [
    ("13: no items", |at| at.is(13) && at.count == 0),
    ("13: more than 64 items", |at| at.is(13) && at.count > 64),
    ("13: levels cut short", |at| {
        at.is(13) && at.count <= 64 && at.opening.levels.len() < at.count
    }),
    ("13: the table cut short", |at| at.is(13) && at.is_cut_in_table() && !at.has_level_above_3()),
    ("13: the table cut short, and a level byte above 3", |at| {
        at.is(13) && at.is_cut_in_table() && at.has_level_above_3()
    }),
    ("14: a level byte above 3 alone", |at| at.is(14) && at.flaws().is_empty()),
    ("14: a level byte above 3, and a table that is no order", |at| {
        at.is(14) && !at.flaws().is_empty()
    }),
    ("16: a byte above 1 alone", |at| matches!(at.one_flaw(), Some(Flaw::Byte { .. }))),
    ("16: a level that does not dominate itself alone", |at| {
        matches!(at.one_flaw(), Some(Flaw::NotReflexive { .. }))
    }),
    ("16: two levels that dominate each other alone", |at| {
        matches!(at.one_flaw(), Some(Flaw::NotAntisymmetric { .. }))
    }),
    ("16: three levels that are not transitive alone", |at| {
        matches!(at.one_flaw(), Some(Flaw::NotTransitive { .. }))
    }),
    ("16: several things", |at| at.is(16) && at.flaws().len() > 1),
];

#[derive(Default)]
pub struct Openings {
    opened: u64,
    /// The orders of houses that were opened, each once.
    orders: Vec<Order>,
    refused: [u64; MEETS.len()],
    /// Refusals that are none of these.
    strange: u64,
}

impl Openings {
    pub fn note_opened(&mut self, order: Order) {
        self.opened += 1;
        if !self.orders.contains(&order) {
            self.orders.push(order);
        }
    }

    pub fn note_refused(&mut self, header: &[u8], reply: &[u8]) {
        let (count, opening) = split_opening(header);
        let number = reply.first().copied().unwrap_or(0);
        let refused = Refused { count, opening, number };
        let mut is_known = false;
        for (met, (_, is_met)) in self.refused.iter_mut().zip(MEETS) {
            *met += u64::from(is_met(&refused));
            is_known |= is_met(&refused);
        }
        self.strange += u64::from(!is_known);
    }

    pub fn print(&self, out: &mut impl Write) -> io::Result<()> {
        let (orders, all) = (self.orders.len(), Order::all().len());
        writeln!(out, "openings: {} opened, with {orders} of {all} orders", self.opened)?;
        print_met(out, "refused ", &MEETS, &self.refused)
    }

    pub fn faults(&self) -> Vec<String> {
        let missing = unmet(&MEETS, &self.refused);
        let mut faults: Vec<String> =
            missing.map(|name| format!("no opening was refused {name}")).collect();
        let unmet = Order::all().iter().filter(|order| !self.orders.contains(order));
        faults.extend(unmet.map(|order| format!("no house was opened with {order}")));
        if self.strange > 0 {
            faults.push(format!("{} openings are refused as nobody may", self.strange));
        }
        faults
    }
}
