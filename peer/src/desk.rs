//! The desk: the house of document 01 and its rules, with the change requests that have landed
//! (CR 1, CR 5, CR 6, CR 7), written as plainly as they stand there.

use crate::opening::Opening;
use crate::order::{Order, Table};
use crate::rule::Rule;
use crate::wire::{Operation, Reply, Request};
use std::collections::BTreeMap;

#[cfg(test)]
pub mod tests;

pub const LEVELS: u8 = 4;
pub const PLACES_PER_LEVEL: usize = 8;
pub const MOST_ITEMS: usize = 64;

/// The reply numbers other than 0 (done).
#[derive(Clone, Copy, Debug, PartialEq, Eq)]
pub enum Refusal {
    Delayed = 1,
    Signalled = 2,
    NoSuchOperation = 3,
    NoSuchLevel = 4,
    UnusedNotZero = 5,
    NoTransaction = 6,
    NoItem = 7,
    WrongLevel = 8,
    WrongTime = 9,
    VersionsSpent = 10,
    PlacesTaken = 11,
    TicketsSpent = 12,
    ItemCount = 13,
    LevelByte = 14,
    BlankSheet = 15,
    NoOrder = 16,
    NoRule = 28,
}

impl Refusal {
    pub fn number(self) -> u8 {
        self as u8
    }
}

#[derive(Clone, Debug, PartialEq, Eq)]
pub struct Item {
    pub level: u8,
    pub value: u32,
    pub version: u32,
    pub pending: u32,
}

#[derive(Clone, Copy, Debug, Default, PartialEq, Eq)]
pub struct Cell {
    pub read: bool,
    pub write: bool,
    pub certify: bool,
    pub signalled: bool,
}

#[derive(Clone, Copy, Debug, PartialEq, Eq)]
pub enum Standing {
    Free,
    Active,
    Certified,
}

/// One of the eight places of a level, with the cells of its transaction by item.
/// An item that is not in the map has a clear cell.
#[derive(Clone, Debug, PartialEq, Eq)]
pub struct Place {
    pub level: u8,
    pub standing: Standing,
    pub ticket: u32,
    pub cells: BTreeMap<usize, Cell>,
}

impl Place {
    fn free(level: u8) -> Place {
        Place { level, standing: Standing::Free, ticket: 0, cells: BTreeMap::new() }
    }

    pub fn is_taken(&self) -> bool {
        self.standing != Standing::Free
    }

    pub fn cell(&self, item: usize) -> Cell {
        self.cells.get(&item).copied().unwrap_or_default()
    }

    pub fn cell_mut(&mut self, item: usize) -> &mut Cell {
        self.cells.entry(item).or_default()
    }

    fn items_where(&self, marked: impl Fn(&Cell) -> bool) -> Vec<usize> {
        self.cells.iter().filter(|(_, cell)| marked(cell)).map(|(&item, _)| item).collect()
    }

    pub fn written(&self) -> Vec<usize> {
        self.items_where(|cell| cell.write)
    }

    /// What it has written, certified or not.
    pub fn changed(&self) -> Vec<usize> {
        self.items_where(|cell| cell.write || cell.certify)
    }

    pub fn signalled(&self) -> Vec<usize> {
        self.items_where(|cell| cell.signalled)
    }

    pub fn reads_one_of(&self, items: &[usize]) -> bool {
        items.iter().any(|&item| self.cell(item).read)
    }
}

/// The desk with the one house it keeps.
#[derive(Clone, Debug, PartialEq, Eq)]
pub struct Desk {
    pub items: Vec<Item>,
    /// Eight places for each level, level 0 first.
    pub places: Vec<Place>,
    pub next_ticket: [Option<u32>; LEVELS as usize],
    pub order: Order,
    pub rule: Rule,
}

impl Desk {
    /// A table that is not 16 bytes long gives 13, as a wrong count of items does. A rule that is
    /// none comes first (CR 14 names its number).
    pub fn open(opening: &Opening) -> Result<Desk, Refusal> {
        let Opening { levels, table, rule } = opening;
        let rule = Rule::from_number(*rule).ok_or(Refusal::NoRule)?;
        let table = Table::try_from(&table[..]).map_err(|_| Refusal::ItemCount)?;
        if levels.is_empty() || levels.len() > MOST_ITEMS {
            return Err(Refusal::ItemCount);
        }
        if levels.iter().any(|&level| level >= LEVELS) {
            return Err(Refusal::LevelByte);
        }
        let order = Order::of(&table).ok_or(Refusal::NoOrder)?;
        Ok(Desk::fresh(levels, order, rule))
    }

    /// What a refused opening yields: no items, the old chain, and rule A.
    pub fn refused() -> Desk {
        Desk::fresh(&[], Order::CHAIN, Rule::A)
    }

    fn fresh(levels: &[u8], order: Order, rule: Rule) -> Desk {
        let fresh = |&level: &u8| Item { level, value: 0, version: 0, pending: 0 };
        let places_of = |level| vec![Place::free(level); PLACES_PER_LEVEL];
        Desk {
            items: levels.iter().map(fresh).collect(),
            places: (0..LEVELS).flat_map(places_of).collect(),
            next_ticket: [Some(1); LEVELS as usize],
            order,
            rule,
        }
    }

    /// One request, one reply. Any reply but done leaves the house as it was.
    pub fn answer(&mut self, request: &Request) -> Reply {
        match self.serve(request) {
            // A delay carries its holder; a refusal carries nothing.
            Ok(done_or_delayed) => done_or_delayed,
            Err(refusal) => Reply { number: refusal.number(), ..Reply::repeating(request) },
        }
    }

    /// The checks of every request come first (3, 4, 5); each operation goes on in the order
    /// 6, 7, 8, 15, 2, 9, 10, 11, 12, 1 with those that concern it.
    fn serve(&mut self, request: &Request) -> Result<Reply, Refusal> {
        let operation =
            Operation::from_number(request.operation).ok_or(Refusal::NoSuchOperation)?;
        if request.level >= LEVELS {
            return Err(Refusal::NoSuchLevel);
        }
        if !unused_fields_are_zero(operation, request) {
            return Err(Refusal::UnusedNotZero);
        }
        match operation {
            Operation::Begin => self.begin(request),
            Operation::Read => self.read(request),
            Operation::Write => self.write(request),
            Operation::Certify => self.certify(request),
            Operation::Commit => self.commit(request),
            Operation::Abort => self.abort(request),
            Operation::Ask => self.ask(request),
        }
    }

    fn begin(&mut self, request: &Request) -> Result<Reply, Refusal> {
        let level = request.level;
        let place = self
            .places
            .iter_mut()
            .find(|place| place.level == level && !place.is_taken())
            .ok_or(Refusal::PlacesTaken)?;
        let next_ticket = &mut self.next_ticket[usize::from(level)];
        let ticket = next_ticket.ok_or(Refusal::TicketsSpent)?;
        *next_ticket = ticket.checked_add(1);
        place.standing = Standing::Active;
        place.ticket = ticket;
        Ok(Reply { ticket, ..Reply::repeating(request) })
    }

    fn read(&mut self, request: &Request) -> Result<Reply, Refusal> {
        let me = self.find(request.level, request.ticket)?;
        let number = usize::from(request.item);
        let item = self.items.get(number).ok_or(Refusal::NoItem)?;
        if !self.order.dominates(request.level, item.level) {
            return Err(Refusal::WrongLevel);
        }
        self.check_unsignalled(me)?;
        self.check_standing(me, Standing::Active)?;
        if let Some(holder) = self.holder(me, request) {
            return Ok(delayed_by(holder, request));
        }
        // The lock decides whose value is read, not the pending value.
        let (value, version) = if self.places[me].cell(number).write {
            (item.pending, item.version.saturating_add(1))
        } else {
            (item.value, item.version)
        };
        self.places[me].cell_mut(number).read = true;
        Ok(Reply { value, version, ..Reply::repeating(request) })
    }

    fn write(&mut self, request: &Request) -> Result<Reply, Refusal> {
        let me = self.find(request.level, request.ticket)?;
        let number = usize::from(request.item);
        let item = self.items.get(number).ok_or(Refusal::NoItem)?;
        if item.level != request.level {
            return Err(Refusal::WrongLevel);
        }
        if request.value == 0 {
            return Err(Refusal::BlankSheet);
        }
        self.check_unsignalled(me)?;
        self.check_standing(me, Standing::Active)?;
        if item.version == u32::MAX {
            return Err(Refusal::VersionsSpent);
        }
        if let Some(holder) = self.holder(me, request) {
            return Ok(delayed_by(holder, request));
        }
        self.places[me].cell_mut(number).write = true;
        self.items[number].pending = request.value;
        Ok(Reply::repeating(request))
    }

    fn certify(&mut self, request: &Request) -> Result<Reply, Refusal> {
        let me = self.find(request.level, request.ticket)?;
        self.check_unsignalled(me)?;
        self.check_standing(me, Standing::Active)?;
        if let Some(holder) = self.holder(me, request) {
            return Ok(delayed_by(holder, request));
        }
        self.give_signals(me, Operation::Certify);
        for item in self.places[me].written() {
            let cell = self.places[me].cell_mut(item);
            cell.write = false;
            cell.certify = true;
        }
        self.places[me].standing = Standing::Certified;
        Ok(Reply::repeating(request))
    }

    fn commit(&mut self, request: &Request) -> Result<Reply, Refusal> {
        let me = self.find(request.level, request.ticket)?;
        self.check_unsignalled(me)?;
        self.check_standing(me, Standing::Certified)?;
        self.give_signals(me, Operation::Commit);
        for number in self.places[me].changed() {
            let item = &mut self.items[number];
            item.value = item.pending;
            item.version = item.version.saturating_add(1);
            item.pending = 0;
        }
        self.places[me] = Place::free(request.level);
        Ok(Reply::repeating(request))
    }

    fn abort(&mut self, request: &Request) -> Result<Reply, Refusal> {
        let me = self.find(request.level, request.ticket)?;
        for number in self.places[me].changed() {
            self.items[number].pending = 0;
        }
        self.places[me] = Place::free(request.level);
        Ok(Reply::repeating(request))
    }

    fn ask(&self, request: &Request) -> Result<Reply, Refusal> {
        let me = self.find(request.level, request.ticket)?;
        let signalled = self.places[me].signalled();
        let lowest = signalled.first().copied().unwrap_or(0);
        Ok(Reply {
            item: lowest as u16,
            value: signalled.len() as u32,
            ..Reply::repeating(request)
        })
    }

    /// The signals of a done request of the transaction at place `me`, if its operation is the one
    /// that gives them in this house.
    fn give_signals(&mut self, me: usize, operation: Operation) {
        if self.rule.signals_at() == operation {
            self.signal_readers(self.places[me].level, &self.places[me].changed());
        }
    }

    /// Marks each read lock on these items that is held from above the level.
    pub fn signal_readers(&mut self, level: u8, items: &[usize]) {
        let is_above = |place: &&mut Place| self.order.is_above(place.level, level);
        for above in self.places.iter_mut().filter(is_above) {
            for (item, cell) in &mut above.cells {
                cell.signalled |= cell.read && items.contains(item);
            }
        }
    }

    /// The place of the open transaction with this name.
    pub fn find(&self, level: u8, ticket: u32) -> Result<usize, Refusal> {
        self.places
            .iter()
            .position(|place| place.is_taken() && place.level == level && place.ticket == ticket)
            .ok_or(Refusal::NoTransaction)
    }

    /// The items that the requester has written, certified or not, if it is open.
    pub fn changed_by(&self, request: &Request) -> Vec<usize> {
        let place = self.find(request.level, request.ticket);
        place.map(|place| self.places[place].changed()).unwrap_or_default()
    }

    /// The level of each item.
    pub fn levels(&self) -> Vec<u8> {
        self.items.iter().map(|item| item.level).collect()
    }

    /// What opens a house like this one.
    pub fn opening(&self) -> Opening {
        Opening::new(&self.levels(), &self.order.table()).under(self.rule)
    }

    /// The locks in the way of what the transaction at place `me` asks for, each by its item and
    /// place: the lowest item first, on each the lowest place. Its own locks never conflict with it.
    pub fn conflicts(&self, me: usize, request: &Request) -> Vec<(usize, usize)> {
        let is_certify = request.is(Operation::Certify);
        let items = if is_certify { self.places[me].written() } else { vec![request.item.into()] };
        let mut conflicts = Vec::new();
        for item in items {
            for (place, other) in self.places.iter().enumerate() {
                if place != me && other.is_taken() && is_in_the_way(request, other, item) {
                    conflicts.push((item, place));
                }
            }
        }
        conflicts
    }

    /// The conflict test: who holds the first of the locks in the way (CR 5).
    fn holder(&self, me: usize, request: &Request) -> Option<&Place> {
        self.conflicts(me, request).first().map(|&(_, place)| &self.places[place])
    }

    fn check_unsignalled(&self, me: usize) -> Result<(), Refusal> {
        if self.places[me].signalled().is_empty() {
            Ok(())
        } else {
            Err(Refusal::Signalled)
        }
    }

    fn check_standing(&self, me: usize, wanted: Standing) -> Result<(), Refusal> {
        if self.places[me].standing == wanted {
            Ok(())
        } else {
            Err(Refusal::WrongTime)
        }
    }
}

/// The reply of a delay: the value field carries the holder's ticket, the version field its level
/// (CR 5).
pub fn delayed_by(holder: &Place, request: &Request) -> Reply {
    Reply {
        number: Refusal::Delayed.number(),
        value: holder.ticket,
        version: holder.level.into(),
        ..Reply::repeating(request)
    }
}

/// Whether a lock of another transaction on the item conflicts with the request.
fn is_in_the_way(request: &Request, other: &Place, item: usize) -> bool {
    let cell = other.cell(item);
    match Operation::from_number(request.operation) {
        Some(Operation::Read) => cell.certify,
        Some(Operation::Write) => cell.write || cell.certify,
        Some(Operation::Certify) => cell.read && other.level == request.level,
        _ => false,
    }
}

fn unused_fields_are_zero(operation: Operation, request: &Request) -> bool {
    (operation.uses_item() || request.item == 0)
        && (operation.uses_ticket() || request.ticket == 0)
        && (operation.uses_value() || request.value == 0)
}
