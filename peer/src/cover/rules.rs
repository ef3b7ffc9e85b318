//! When signals are given (CR 7): what has to be met under either rule, so that a desk that gives them
//! at another request, or for other items, gives another reply.

use super::moment::Moment;
use super::tally::Tally;
use crate::desk::{Place, Refusal, Standing};
use crate::rule::Rule;
use crate::wire::Operation;

impl Moment<'_> {
    fn is_refused_as_signalled(&self, operation: Operation) -> bool {
        self.request.is(operation) && self.reply.number == Refusal::Signalled.number()
    }

    fn asker(&self) -> Option<&Place> {
        let place = self.before.find(self.request.level, self.request.ticket).ok()?;
        Some(&self.before.places[place])
    }

    /// Whether one above has read something that the asker has written.
    fn is_read_above(&self) -> bool {
        let changed = self.changed();
        self.above().any(|place| place.reads_one_of(&changed))
    }

    /// The same of one above that is not signalled.
    fn is_read_by_unsignalled(&self) -> bool {
        let changed = self.changed();
        let mut free = self.above().filter(|place| place.signalled().is_empty());
        free.any(|place| place.reads_one_of(&changed))
    }

    /// Whether one above that is not signalled has read such an item, which the asker has not written.
    fn spares_reader(&self, of: impl Fn(&Place, usize) -> bool) -> bool {
        let (Some(me), changed) = (self.asker(), self.changed()) else { return false };
        let items = (0..self.before.items.len()).filter(|item| of(me, *item));
        let spared: Vec<usize> = items.filter(|item| !changed.contains(item)).collect();
        let is_free = |place: &&Place| place.signalled().is_empty();
        self.above().filter(is_free).any(|place| place.reads_one_of(&spared))
    }

    /// Whether the asker has read what another has certified.
    fn has_read_what_is_certified(&self) -> bool {
        let certified = self.before.places.iter().filter(|p| p.standing == Standing::Certified);
        let Some(me) = self.asker() else { return false };
        certified.filter(|place| *place != me).any(|place| me.reads_one_of(&place.changed()))
    }

    fn aborts_certified(&self) -> bool {
        let is_certified = |place: &Place| place.standing == Standing::Certified;
        self.is_done(Operation::Abort) && self.asker().is_some_and(is_certified)
    }
}

/// One of the things that have to be met.
pub type Meets = fn(&Moment) -> bool;

const UNDER_A: [(&str, Meets); 5] = [
    ("a done certify that signals one", |at| at.signalled().count() == 1),
    ("a done certify that signals several", |at| at.signalled().count() > 1),
    ("a done commit of what a signalled one has read", |at| {
        at.is_done(Operation::Commit) && at.is_read_above()
    }),
    ("an abort whose signals stand", |at| at.aborts_certified() && at.is_read_above()),
    ("a certify refused 2", |at| at.is_refused_as_signalled(Operation::Certify)),
];

const UNDER_B: [(&str, Meets); 15] = [
    ("a done certify that signals nobody, of what one above has read", |at| {
        at.is_done(Operation::Certify) && at.is_read_above() && at.signalled().next().is_none()
    }),
    ("a done commit between the certify of what it has read and the commit", |at| {
        at.is_done(Operation::Commit) && at.has_read_what_is_certified()
    }),
    ("a done certify of one above in between", |at| {
        at.is_done(Operation::Certify) && at.has_read_what_is_certified()
    }),
    ("a done commit that signals one", |at| at.signalled().count() == 1),
    ("a done commit that signals several", |at| at.signalled().count() > 1),
    ("a done commit that signals one for several items", |at| {
        at.signalled().any(|(_, more)| more > 1)
    }),
    ("a done commit that signals one who is certified", |at| {
        at.signalled().any(|(place, _)| place.standing == Standing::Certified)
    }),
    ("a done commit beside a reader above of what it has only read", |at| {
        at.may_signal() && at.spares_reader(|me, item| me.cell(item).read)
    }),
    ("a done commit beside a reader above of another item of its level", |at| {
        let level_of = |item: usize| at.before.items[item].level;
        at.may_signal() && at.spares_reader(|me, item| level_of(item) == me.level)
    }),
    ("a commit refused 2, of what one above has read that is not signalled", |at| {
        at.is_refused_as_signalled(Operation::Commit) && at.is_read_by_unsignalled()
    }),
    ("an abort of a certified one that signals nobody, of what one above has read", |at| {
        at.aborts_certified() && at.is_read_above() && at.signalled().next().is_none()
    }),
    ("an ask that tells of a signal", |at| at.is_done(Operation::Ask) && at.reply.value > 0),
    ("a certify refused 2", |at| at.is_refused_as_signalled(Operation::Certify)),
    ("a read refused 2", |at| at.is_refused_as_signalled(Operation::Read)),
    ("a delayed read of what the reader has read before", |at| {
        let item = usize::from(at.request.item);
        let is_delayed = at.reply.number == Refusal::Delayed.number();
        let has_read = at.asker().is_some_and(|me| me.cell(item).read);
        at.request.is(Operation::Read) && is_delayed && has_read
    }),
];

fn meets(rule: Rule) -> &'static [(&'static str, Meets)] {
    match rule {
        Rule::A => &UNDER_A,
        Rule::B => &UNDER_B,
    }
}

pub fn tally(rule: Rule) -> Tally<Meets> {
    Tally::new("requests by the signals they give", "never met", meets(rule))
}

#[cfg(test)]
mod tests {
    use super::*;
    use crate::desk::tests::house_and_last;

    /// Which of the things under a rule the last of the requests meets, by their numbers from 0 on: items
    /// 0 and 1 are at level 0, item 2 at level 1, item 3 at level 2; two are open at level 0, two at 1,
    /// one at 2.
    fn met(rule: Rule, requests: &str) -> Vec<usize> {
        let open = "open 0 0 1 2\nbegin 0\nbegin 0\nbegin 1\nbegin 1\nbegin 2\n";
        let (before, request) =
            house_and_last(&format!("{open}{}", requests.replace("; ", "\n")), rule);
        let mut after = before.clone();
        let reply = after.answer(&request);
        let moment = Moment { before: &before, after: &after, request: &request, reply };
        let meets = meets(rule);
        (0..meets.len()).filter(|&number| meets[number].1(&moment)).collect()
    }

    /// Level 0 writes item 0 and certifies.
    const CERTIFIED: &str = "write 0 #1 item 0 = 7; certify 0 #1";

    #[test]
    fn each_is_met_under_a_where_it_should_be() {
        let cases: [(String, &[usize]); 6] = [
            (CERTIFIED.into(), &[]),
            (format!("read 1 #1 item 0; {CERTIFIED}"), &[0]),
            (format!("read 1 #1 item 0; read 2 #1 item 0; {CERTIFIED}"), &[1]),
            (format!("read 1 #1 item 0; {CERTIFIED}; commit 0 #1"), &[2]),
            (format!("read 1 #1 item 0; {CERTIFIED}; abort 0 #1"), &[3]),
            (format!("read 1 #1 item 0; {CERTIFIED}; certify 1 #1"), &[4]),
        ];
        for (requests, wanted) in cases {
            assert_eq!(met(Rule::A, &requests), wanted, "{requests}");
        }
    }

    #[test]
    fn each_is_met_under_b_where_it_should_be() {
        let read = "read 1 #1 item 0";
        let committed = format!("{CERTIFIED}; commit 0 #1");
        let both = "write 0 #1 item 1 = 8";
        let reader = "read 1 #1 item 0; write 1 #1 item 2 = 9; read 2 #1 item 2; certify 1 #1";
        let cases: [(String, &[usize]); 17] = [
            (CERTIFIED.into(), &[]),
            (format!("{read}; {CERTIFIED}"), &[0]),
            (format!("{read}; certify 1 #1; {CERTIFIED}; commit 1 #1"), &[1]),
            (format!("{read}; {CERTIFIED}; certify 1 #1"), &[2]),
            (format!("{read}; {committed}"), &[3]),
            (format!("{read}; read 2 #1 item 0; {committed}"), &[4]),
            (format!("{read}; read 1 #1 item 1; {both}; {committed}"), &[3, 5]),
            (format!("{read}; certify 1 #1; {committed}"), &[3, 6]),
            (format!("read 0 #1 item 1; read 1 #1 item 1; {committed}"), &[7, 8]),
            (format!("read 1 #1 item 1; {committed}"), &[8]),
            (format!("{reader}; {committed}; commit 1 #1"), &[9]),
            (format!("{read}; {CERTIFIED}; abort 0 #1"), &[10]),
            (format!("{read}; abort 0 #1"), &[]),
            (format!("{read}; {committed}; ask 1 #1"), &[11]),
            (format!("{read}; {committed}; certify 1 #1"), &[12]),
            (format!("{read}; {committed}; read 1 #1 item 2"), &[13]),
            (format!("{read}; {CERTIFIED}; {read}"), &[14]),
        ];
        for (requests, wanted) in cases {
            assert_eq!(met(Rule::B, &requests), wanted, "{requests}");
        }
        assert_eq!(tally(Rule::B).faults().count(), UNDER_B.len());
    }
}
