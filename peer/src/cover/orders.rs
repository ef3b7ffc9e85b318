//! What levels mean to each other (CR 6): what has to be met, so that a desk that goes by the numbers
//! of levels, or by the table in another way, gives another reply.

use super::moment::Moment;
use super::tally::Tally;
use crate::desk::{Place, Refusal};
use crate::order::Order;
use crate::wire::Operation;

impl Moment<'_> {
    fn order(&self) -> Order {
        self.before.order
    }

    /// The level of the asker and that of the item, of a read that got this number.
    fn read(&self, number: u8) -> Option<(u8, u8)> {
        let item = self.before.items.get(usize::from(self.request.item))?;
        let is_meant = self.request.is(Operation::Read) && self.reply.number == number;
        is_meant.then_some((self.request.level, item.level))
    }

    fn is_barred(&self, fits: impl Fn(u8, u8) -> bool) -> bool {
        let levels = self.read(Refusal::WrongLevel.number());
        levels.is_some_and(|(level, item)| fits(level, item))
    }

    /// Whether it has signalled one of such a level.
    fn signals(&self, fits: impl Fn(u8) -> bool) -> bool {
        self.signalled().any(|(place, _)| fits(place.level))
    }

    /// Whether one of such a level, who has read something, sees it give the signals of a write.
    fn is_beside(&self, fits: impl Fn(u8) -> bool) -> bool {
        let reads = |place: &Place| place.cells.values().any(|cell| cell.read);
        let mut others = self.before.places.iter().filter(|place| fits(place.level));
        self.may_signal() && !self.changed().is_empty() && others.any(reads)
    }
}

/// One of the things that have to be met.
pub type Meets = fn(&Moment) -> bool;

const MEETS: [(&str, Meets); 10] = [
    ("a read of an item above refused by 8", |at| {
        at.is_barred(|level, item| at.order().is_above(item, level))
    }),
    ("a read of an item above with a smaller number refused by 8", |at| {
        at.is_barred(|level, item| at.order().is_above(item, level) && item < level)
    }),
    ("a read between incomparable levels refused by 8, of a larger number", |at| {
        at.is_barred(|level, item| at.order().are_apart(level, item) && item > level)
    }),
    ("a read between incomparable levels refused by 8, of a smaller number", |at| {
        at.is_barred(|level, item| at.order().are_apart(level, item) && item < level)
    }),
    ("a done read of an item of a lower level with a larger number", |at| {
        at.read(0).is_some_and(|(level, item)| item > level)
    }),
    ("a delayed read of an item of a lower level with a larger number", |at| {
        at.read(Refusal::Delayed.number()).is_some_and(|(level, item)| item > level)
    }),
    ("signals to one above", |at| at.signals(|above| above > at.request.level)),
    ("signals to one above with a smaller number", |at| {
        at.signals(|above| above < at.request.level)
    }),
    ("signals of level 3 to level 0 above it", |at| {
        at.request.level == 3 && at.signals(|above| above == 0)
    }),
    ("signals beside a reader of an incomparable level", |at| {
        at.is_beside(|level| at.order().are_apart(level, at.request.level))
    }),
];

pub fn tally() -> Tally<Meets> {
    Tally::new("requests by what levels mean to each other", "never met", &MEETS)
}

#[cfg(test)]
mod tests {
    use super::*;
    use crate::desk::tests::house_and_last;
    use crate::rule::Rule;

    /// Which of `MEETS` the last of the requests meets, by their numbers from 0 on, in a house with
    /// one item at each level, where one of each is open.
    fn met(order: &str, requests: &str) -> Vec<usize> {
        let open = format!("open 0 1 2 3 order {order}\nbegin 0\nbegin 1\nbegin 2\nbegin 3\n");
        let lines = format!("{open}{}", requests.replace("; ", "\n"));
        let (before, request) = house_and_last(&lines, Rule::A);
        let mut after = before.clone();
        let reply = after.answer(&request);
        let moment = Moment { before: &before, after: &after, request: &request, reply };
        (0..MEETS.len()).filter(|&number| MEETS[number].1(&moment)).collect()
    }

    #[test]
    fn each_is_met_where_it_should_be() {
        // Examiners at level 3, and the same turned over, with examiners at level 0.
        let (up, down) = ("0<1<3 0<2<3", "3<1<0 3<2<0");
        let certified = "write 3 #1 item 3 = 7; certify 3 #1";
        let cases: [(&str, &str, &[usize]); 10] = [
            (up, "read 0 #1 item 3", &[0]),
            (down, "read 3 #1 item 0", &[0, 1]),
            (up, "read 1 #1 item 2", &[2]),
            (down, "read 2 #1 item 1", &[3]),
            (up, "read 3 #1 item 0", &[]),
            (down, "read 0 #1 item 3", &[4]),
            (down, &format!("{certified}; read 0 #1 item 3"), &[5]),
            (up, "read 2 #1 item 0; write 0 #1 item 0 = 7; certify 0 #1", &[6]),
            (down, &format!("read 0 #1 item 3; {certified}"), &[7, 8]),
            (up, "read 2 #1 item 2; write 1 #1 item 1 = 7; certify 1 #1", &[9]),
        ];
        for (order, requests, meets) in cases {
            assert_eq!(met(order, requests), meets, "{order}: {requests}");
        }
    }
}
