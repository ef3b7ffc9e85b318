//! One request, seen with the houses before and after it.

use crate::desk::{Desk, Place};
use crate::wire::{Operation, Reply, Request};

pub struct Moment<'a> {
    pub before: &'a Desk,
    pub after: &'a Desk,
    pub request: &'a Request,
    pub reply: Reply,
}

impl Moment<'_> {
    pub fn is_done(&self, operation: Operation) -> bool {
        self.request.is(operation) && self.reply.number == 0
    }

    /// Whether it is the operation that gives signals in this house, and done.
    pub fn may_signal(&self) -> bool {
        self.is_done(self.before.rule.signals_at())
    }

    /// What the asker has written.
    pub fn changed(&self) -> Vec<usize> {
        self.before.changed_by(self.request)
    }

    /// The transactions that it has signalled: as they are after it, each with how many more of its
    /// cells are signalled.
    pub fn signalled(&self) -> impl Iterator<Item = (&Place, usize)> {
        let places = self.before.places.iter().zip(&self.after.places);
        let marks = |place: &Place| place.signalled().len();
        let more = move |(old, new)| (new, marks(new).saturating_sub(marks(old)));
        places.map(more).filter(|(_, more)| *more > 0)
    }

    /// The places of the levels above the asker's.
    pub fn above(&self) -> impl Iterator<Item = &Place> {
        let Desk { places, order, .. } = self.before;
        places.iter().filter(|place| order.is_above(place.level, self.request.level))
    }
}
