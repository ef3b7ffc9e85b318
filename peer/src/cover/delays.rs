//! Who holds it (CR 5): the delays that have to be met, so that a desk that names the holder by
//! another rule, or tells it in another way, gives another reply.

use super::tally::Tally;
use crate::desk::{delayed_by, Desk, Place};
use crate::wire::{Operation, Reply, Request};

/// A delayed request, in the house that it was asked in.
pub struct Delay<'a> {
    house: &'a Desk,
    request: &'a Request,
    /// The place of the asker.
    me: usize,
    /// The lowest item with a lock in the way, and the lowest place that has one there.
    item: usize,
    holder: usize,
    /// The other locks in the way, by item and place.
    others: Vec<(usize, usize)>,
}

impl<'a> Delay<'a> {
    /// None where the reply is no delay that names the holder. The house is the same before and
    /// after one.
    pub fn of(house: &'a Desk, request: &'a Request, reply: &Reply) -> Option<Delay<'a>> {
        let me = house.find(request.level, request.ticket).ok()?;
        let conflicts = house.conflicts(me, request);
        let (&(item, holder), others) = conflicts.split_first()?;
        let delay = Delay { house, request, me, item, holder, others: others.to_vec() };
        Some(delay).filter(|delay| *reply == delayed_by(delay.holder(), request))
    }

    fn is(&self, operation: Operation) -> bool {
        self.request.is(operation)
    }

    fn holder(&self) -> &Place {
        &self.house.places[self.holder]
    }

    fn is_of_one_level(&self) -> bool {
        self.holder().level == self.request.level
    }

    /// The places that read the item.
    fn readers(&self, item: usize) -> impl Iterator<Item = usize> + '_ {
        (0..self.house.places.len()).filter(move |&place| self.house.places[place].cell(item).read)
    }

    fn is_read_above(&self, item: usize) -> bool {
        let is_above = |place: &Place| self.house.order.is_above(place.level, self.request.level);
        self.readers(item).any(|place| is_above(&self.house.places[place]))
    }

    /// What the asker seeks to certify.
    fn certified(&self) -> impl Iterator<Item = usize> + '_ {
        let written = self.house.places[self.me].written();
        written.into_iter().filter(|_| self.is(Operation::Certify))
    }
}

/// One of the things that the delays have to meet.
pub type Meets = fn(&Delay) -> bool;

const MEETS: [(&str, Meets); 13] = [
    ("a read, by one of the asker's level", |at| at.is(Operation::Read) && at.is_of_one_level()),
    ("a read, by one of a lower level", |at| at.is(Operation::Read) && !at.is_of_one_level()),
    ("a write", |at| at.is(Operation::Write)),
    ("a certify", |at| at.is(Operation::Certify)),
    ("by one whose ticket is not the number of its level", |at| {
        at.holder().ticket != at.holder().level.into()
    }),
    ("by one of the asker's level at a lower place", |at| {
        at.is_of_one_level() && at.holder < at.me
    }),
    ("by one of the asker's level at a higher place", |at| {
        at.is_of_one_level() && at.holder > at.me
    }),
    ("a write, while one at a lower place than the holder reads the item", |at| {
        at.is(Operation::Write) && at.readers(at.item).any(|p| p != at.me && p < at.holder)
    }),
    ("a certify, while several read the item", |at| {
        at.others.iter().any(|(item, _)| *item == at.item)
    }),
    ("a certify, while one at a lower place than the holder reads a later item", |at| {
        at.others.iter().any(|(_, place)| *place < at.holder)
    }),
    ("a certify, while the asker itself reads such an item, before the holder", |at| {
        let mut before = at.certified().filter(|item| (*item, at.me) < (at.item, at.holder));
        before.any(|item| at.readers(item).any(|place| place == at.me))
    }),
    ("a certify, while one above reads the item too", |at| {
        at.certified().any(|item| item == at.item && at.is_read_above(item))
    }),
    ("a certify, while one above reads an earlier item", |at| {
        at.certified().any(|item| item < at.item && at.is_read_above(item))
    }),
];

pub fn tally() -> Tally<Meets> {
    Tally::new("requests delayed", "never delayed", &MEETS)
}

#[cfg(test)]
mod tests {
    use super::*;
    use crate::desk::tests::house_and_last;
    use crate::rule::Rule;

    /// Three items at level 0, one at level 1.
    const OPEN: &str = "open 0 0 0 1\nbegin 0\nbegin 0\nbegin 0\nbegin 1\nbegin 1\n";

    /// Which of `MEETS` the last of the requests meets, by their numbers from 0 on.
    fn met(requests: &[&str]) -> Vec<usize> {
        let (mut house, last) = house_and_last(&format!("{OPEN}{}", requests.join("\n")), Rule::A);
        let reply = house.answer(&last);
        let delay = Delay::of(&house, &last, &reply).expect("a delay that names the holder");
        (0..MEETS.len()).filter(|&number| MEETS[number].1(&delay)).collect()
    }

    #[test]
    fn each_is_met_where_it_should_be() {
        let write = "write 0 #1 item 0 = 7";
        let cases: [(&[&str], &[usize]); 13] = [
            (&["write 0 #2 item 0 = 7", "certify 0 #2", "read 0 #1 item 0"], &[0, 4, 6]),
            (&["write 1 #1 item 3 = 7", "certify 1 #1", "read 1 #2 item 3"], &[0, 5]),
            (&[write, "certify 0 #1", "read 1 #1 item 0"], &[1, 4]),
            (&[write, "write 0 #2 item 0 = 8"], &[2, 4, 5]),
            (&["read 0 #3 item 0", write, "write 0 #2 item 0 = 8"], &[2, 4, 5]),
            (&["read 0 #1 item 0", "write 0 #3 item 0 = 7", "write 0 #1 item 0 = 8"], &[2, 4, 6]),
            (
                &["read 0 #1 item 0", "write 0 #3 item 0 = 7", "write 0 #2 item 0 = 8"],
                &[2, 4, 6, 7],
            ),
            (&[write, "read 0 #2 item 0", "certify 0 #1"], &[3, 4, 6]),
            (&[write, "read 0 #3 item 0", "read 0 #2 item 0", "certify 0 #1"], &[3, 4, 6, 8]),
            (
                &[
                    "write 0 #2 item 0 = 7",
                    "write 0 #2 item 1 = 7",
                    "read 0 #1 item 1",
                    "read 0 #3 item 0",
                    "certify 0 #2",
                ],
                &[3, 4, 6, 9],
            ),
            (&[write, "read 0 #1 item 0", "read 0 #2 item 0", "certify 0 #1"], &[3, 4, 6, 10]),
            (&[write, "read 1 #1 item 0", "read 0 #2 item 0", "certify 0 #1"], &[3, 4, 6, 11]),
            (
                &[
                    write,
                    "write 0 #1 item 1 = 7",
                    "read 1 #1 item 0",
                    "read 0 #2 item 1",
                    "certify 0 #1",
                ],
                &[3, 4, 6, 12],
            ),
        ];
        for (requests, wanted) in cases {
            assert_eq!(met(requests), wanted, "{requests:?}");
        }
    }

    #[test]
    fn each_is_missed_where_nothing_is_delayed() {
        assert_eq!(tally().faults().count(), MEETS.len());
    }

    #[test]
    fn a_delay_that_names_nobody_is_none() {
        let lines = format!("{OPEN}write 0 #1 item 0 = 7\nwrite 0 #2 item 0 = 8");
        let (house, last) = house_and_last(&lines, Rule::A);
        let reply = Reply { number: 1, value: 0, ..Reply::repeating(&last) };
        assert!(Delay::of(&house, &last, &reply).is_none());
        assert!(Delay::of(&house, &last, &Reply { value: 1, ..reply }).is_some());
        assert!(Delay::of(&house, &last, &Reply { value: 1, version: 1, ..reply }).is_none());
    }
}
