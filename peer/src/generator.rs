//! Makes inputs. It keeps a desk of its own while it writes, so that most requests mean something
//! in the house as it stands: contended items, signals, full levels, old tickets.

mod openings;

use crate::desk::{Cell, Desk, Item, Place, Standing, LEVELS, MOST_ITEMS};
use crate::opening::Opening;
use crate::order::{levels, Order};
use crate::rng::Rng;
use crate::rule::Rule;
use crate::wire::{Operation, Request, REQUEST_BYTES};
use openings::{any_order, order_of};
pub use openings::{rule_of, spoil};

/// What most requests of a stretch are about.
struct Mood {
    /// How many requests of a hundred are begins.
    begins: usize,
    /// How often a transaction at work asks for each operation, in the order of their numbers.
    weights: [usize; 7],
    /// How many of the items it may use are sought.
    items: usize,
    /// How many of the open transactions are at work.
    crowd: usize,
}

const MOODS: [Mood; 6] = [
    // The places fill up.
    Mood { begins: 60, weights: [0, 6, 4, 1, 1, 1, 1], items: 4, crowd: 32 },
    // A class begins, and seeks the same few items.
    Mood { begins: 30, weights: [0, 8, 8, 1, 1, 1, 1], items: 8, crowd: 8 },
    // Readers spread over the house.
    Mood { begins: 8, weights: [0, 16, 2, 2, 1, 1, 2], items: MOST_ITEMS, crowd: 12 },
    // Writers certify with few readers beside them, so that readers above are signalled.
    Mood { begins: 8, weights: [0, 2, 8, 8, 1, 1, 1], items: 4, crowd: 8 },
    // Work is brought to its end.
    Mood { begins: 8, weights: [0, 2, 3, 10, 2, 2, 1], items: 8, crowd: 16 },
    // The house empties.
    Mood { begins: 4, weights: [0, 1, 1, 6, 1, 8, 1], items: 3, crowd: 32 },
];

/// A transaction that holds no lock yet mostly takes one.
const WHEN_FRESH: [usize; 7] = [0, 10, 8, 1, 1, 1, 1];
/// One whose certify others hold up tries it, and writes on, so that several items are in its way.
const WHEN_HELD_UP: [usize; 7] = [0, 1, 4, 4, 0, 0, 0];
/// A signalled one asks, tries the rest as well, and lingers, so that signals add up.
const WHEN_SIGNALLED: [usize; 7] = [0, 2, 2, 2, 3, 1, 4];
/// A certified one mostly commits, and now and then forgets that it is certified.
const WHEN_CERTIFIED: [usize; 7] = [0, 1, 1, 1, 5, 1, 1];

/// Under rule B a signal takes a commit more than under A, and the moods alone give few. So one request
/// in this many is a step towards one.
const REQUESTS_PER_STEP_TO_SIGNAL: usize = 8;

/// How many tickets of ended transactions may come back in late requests.
const OLD_TICKETS_KEPT: usize = 40;

pub struct Generator {
    rng: Rng,
    desk: Desk,
    mood: &'static Mood,
    requests_left_in_mood: usize,
    /// The level where most begins of the stretch happen.
    busy_level: u8,
    /// Where among the open transactions the crowd of the stretch starts.
    crowd_start: usize,
    /// Tickets of transactions that have ended.
    old_tickets: Vec<u32>,
}

impl Generator {
    /// A generator with a house that is opened, whatever the seed.
    pub fn new(seed: u64, rule: Rule) -> Generator {
        let mut rng = Rng::new(seed);
        let order = order_of(seed, &mut rng);
        let desk = proper_house(&mut rng, order, rule);
        Generator::with_house(rng, desk)
    }

    fn with_house(rng: Rng, desk: Desk) -> Generator {
        Generator {
            rng,
            desk,
            mood: &MOODS[0],
            requests_left_in_mood: 0,
            busy_level: 0,
            crowd_start: 0,
            old_tickets: Vec::new(),
        }
    }

    /// The house after all requests made so far.
    pub fn desk(&self) -> &Desk {
        &self.desk
    }

    pub fn next_request(&mut self) -> Request {
        if self.requests_left_in_mood == 0 {
            self.change_mood();
        }
        self.requests_left_in_mood -= 1;
        let mut request = self.sensible_request();
        match self.rng.below(40) {
            0..=4 => self.spoil(&mut request),
            // Several faults at once show which check comes first.
            5..=6 => (0..2 + self.rng.below(2)).for_each(|_| self.spoil(&mut request)),
            7 => request = self.garbage(),
            _ => {}
        }
        self.follow(&request);
        request
    }

    fn change_mood(&mut self) {
        self.mood = &MOODS[self.rng.below(MOODS.len())];
        self.requests_left_in_mood = 10 + self.rng.below(60);
        self.busy_level = self.level_with_items();
        self.crowd_start = self.rng.below(self.desk.places.len());
    }

    /// A level that has items, or one above it that may read them.
    fn level_with_items(&mut self) -> u8 {
        let Desk { items, order, .. } = &self.desk;
        let level = items[self.rng.below(items.len())].level;
        let above: Vec<u8> = levels().filter(|&above| order.is_above(above, level)).collect();
        let above = self.rng.pick(&above).unwrap_or(level);
        self.rng.pick(&[level, above]).unwrap_or(level)
    }

    /// Keeps the desk up with the request, and remembers tickets that end with it.
    pub fn follow(&mut self, request: &Request) {
        let was_open = self.desk.find(request.level, request.ticket).is_ok();
        self.desk.answer(request);
        if was_open && self.desk.find(request.level, request.ticket).is_err() {
            if self.old_tickets.len() == OLD_TICKETS_KEPT {
                self.old_tickets.remove(0);
            }
            self.old_tickets.push(request.ticket);
        }
    }

    fn sensible_request(&mut self) -> Request {
        if self.desk.rule == Rule::B && self.rng.one_in(REQUESTS_PER_STEP_TO_SIGNAL) {
            if let Some(request) = self.step_to_signal() {
                return request;
            }
        }
        let begins = self.rng.below(100) < self.mood.begins;
        let Some(place) = self.place_at_work().filter(|_| !begins) else {
            let level = match self.rng.below(16) {
                0 => self.rng.below(LEVELS.into()) as u8,
                1..=7 => self.level_with_items(),
                _ => self.busy_level,
            };
            return Request { operation: Operation::Begin.number(), level, ..Request::default() };
        };
        let Place { level, ticket, .. } = self.desk.places[place];
        let operation = self.next_operation(place);
        let mut request =
            Request { operation: operation.number(), level, ticket, ..Request::default() };
        if operation.uses_item() {
            request.item = self.item_for(operation, level);
        }
        if operation.uses_value() {
            request.value = self.value();
        }
        request
    }

    /// The next of write, certify and commit by somebody at an item's level, where one above reads it.
    fn step_to_signal(&mut self) -> Option<Request> {
        let Desk { items, places, order, .. } = &self.desk;
        let is_read_above = |item: &usize| {
            let is_above = |place: &&Place| order.is_above(place.level, items[*item].level);
            let mut above = places.iter().filter(is_above);
            above.any(|place| place.cell(*item).read && !place.cell(*item).signalled)
        };
        let read: Vec<usize> = (0..items.len()).filter(is_read_above).collect();
        let item = self.rng.pick(&read)?;
        let level = items[item].level;
        let at_level = places.iter().filter(|place| place.level == level && place.is_taken());
        let names: Vec<(u32, Cell)> = at_level.map(|p| (p.ticket, p.cell(item))).collect();
        let writer = names.iter().find(|(_, cell)| cell.write || cell.certify).copied();
        let (ticket, cell) = writer.or_else(|| self.rng.pick(&names))?;
        let operation = match cell {
            Cell { certify: true, .. } => Operation::Commit,
            // A commit that is refused signals nobody.
            Cell { write: true, .. } if self.rng.one_in(3) => Operation::Commit,
            Cell { write: true, .. } => Operation::Certify,
            _ => Operation::Write,
        };
        let mut request =
            Request { operation: operation.number(), level, ticket, ..Request::default() };
        if operation == Operation::Write {
            (request.item, request.value) = (item as u16, self.value());
        }
        Some(request)
    }

    /// The place of one of the crowd, if anybody is there.
    fn place_at_work(&mut self) -> Option<usize> {
        let places = 0..self.desk.places.len();
        let open: Vec<usize> = places.filter(|&place| self.desk.places[place].is_taken()).collect();
        let index = self.crowd_start + self.rng.below(self.mood.crowd);
        open.get(index % open.len().max(1)).copied()
    }

    fn next_operation(&mut self, me: usize) -> Operation {
        let place = &self.desk.places[me];
        let weights = if !place.signalled().is_empty() {
            &WHEN_SIGNALLED
        } else if place.standing == Standing::Certified {
            &WHEN_CERTIFIED
        } else if place.cells.is_empty() {
            &WHEN_FRESH
        } else if self.is_held_up(me) {
            &WHEN_HELD_UP
        } else {
            &self.mood.weights
        };
        let level = place.level;
        let operation = Operation::ALL[self.rng.weighted(weights)];
        let can_write = self.desk.items.iter().any(|item| item.level == level);
        if operation == Operation::Write && !can_write {
            Operation::Read
        } else {
            operation
        }
    }

    /// Whether a certify of the transaction at this place would be delayed.
    fn is_held_up(&self, me: usize) -> bool {
        let Place { level, ticket, .. } = self.desk.places[me];
        let operation = Operation::Certify.number();
        let certify = Request { operation, level, ticket, ..Request::default() };
        !self.desk.conflicts(me, &certify).is_empty()
    }

    /// An item that the level may use, or any when it has none.
    fn item_for(&mut self, operation: Operation, level: u8) -> u16 {
        let may_use = |item: &Item| match operation {
            Operation::Write => item.level == level,
            _ => self.desk.order.dominates(level, item.level),
        };
        let items = (0..).zip(&self.desk.items);
        let usable: Vec<u16> = items.filter(|(_, item)| may_use(item)).map(|(n, _)| n).collect();
        let is_below = |item: &&u16| {
            self.desk.order.is_above(level, self.desk.items[usize::from(**item)].level)
        };
        let preferred: Vec<u16> = match self.rng.below(16) {
            // Reads below are where signals come from.
            0..=5 => usable.iter().filter(is_below).copied().collect(),
            // Items that somebody is changing.
            6..=10 => usable.iter().filter(|item| self.is_changing(**item)).copied().collect(),
            // Items that may be forbidden.
            11 => vec![self.rng.below(self.desk.items.len()) as u16],
            _ => Vec::new(),
        };
        let any = self.rng.below(self.desk.items.len()) as u16;
        let sought = if preferred.is_empty() { usable } else { preferred };
        self.rng.pick(&sought[..sought.len().min(self.mood.items)]).unwrap_or(any)
    }

    fn is_changing(&self, item: u16) -> bool {
        let mut cells = self.desk.places.iter().map(|place| place.cell(item.into()));
        cells.any(|cell| cell.write || cell.certify)
    }

    /// Written values: now and then the blank sheet, and the largest.
    fn value(&mut self) -> u32 {
        match self.rng.below(16) {
            0 => 0,
            1 | 2 => u32::MAX,
            3..=10 => 1 + self.rng.below(100) as u32,
            _ => self.rng.next() as u32,
        }
    }

    /// Changes one thing about a request, mostly for the worse.
    fn spoil(&mut self, request: &mut Request) {
        match self.rng.below(9) {
            0 => request.operation = at_or_above(&mut self.rng, Operation::ALL.len() as u8),
            1 => request.level = at_or_above(&mut self.rng, LEVELS),
            2 => request.value = 1 << self.rng.below(32),
            3 => request.item = 1 << self.rng.below(16),
            // The ticket of one level used at another.
            4 => request.level = self.rng.below(LEVELS.into()) as u8,
            5 => request.operation = self.rng.below(Operation::ALL.len()) as u8,
            6 => request.item = strange_item(&mut self.rng, self.desk.items.len()),
            7 => request.item = self.rng.below(self.desk.items.len()) as u16,
            _ => request.ticket = self.strange_ticket(request.level),
        }
    }

    fn strange_ticket(&mut self, level: u8) -> u32 {
        let any = self.rng.next() as u32;
        let old = self.rng.pick(&self.old_tickets).unwrap_or(0);
        let next = self.desk.next_ticket.get(usize::from(level)).copied().flatten().unwrap_or(0);
        self.rng.pick(&[0, old, old, old, next, 256, any]).unwrap_or(any)
    }

    fn garbage(&mut self) -> Request {
        let mut bytes = [0; REQUEST_BYTES];
        bytes.fill_with(|| self.rng.byte());
        // Often operation or level exists, so that the rest of the garbage is looked at.
        if self.rng.one_in(2) {
            bytes[0] %= Operation::ALL.len() as u8;
        }
        if self.rng.one_in(2) {
            bytes[1] %= LEVELS;
        }
        Request::from_bytes(&bytes)
    }
}

/// The number of an item that a house of so many mostly does not have.
pub fn strange_item(rng: &mut Rng, items: usize) -> u16 {
    let count = items as u16;
    let any = rng.next() as u16;
    rng.pick(&[count, count + 1, 64, 256, u16::MAX, any]).unwrap_or(any)
}

/// A byte past the edge: half of the time the first one.
pub fn at_or_above(rng: &mut Rng, first: u8) -> u8 {
    if rng.one_in(2) {
        first
    } else {
        first + rng.below(256 - usize::from(first)) as u8
    }
}

fn proper_levels(rng: &mut Rng) -> Vec<u8> {
    let few = 1 + rng.below(10);
    let many = 1 + rng.below(MOST_ITEMS);
    let count = rng.pick(&[few, few, few, many, many, MOST_ITEMS]).unwrap_or(few);
    // Mostly all four levels; sometimes only some of them have items.
    let lowest = if rng.one_in(6) { rng.below(4) } else { 0 };
    let span = if rng.one_in(3) { 1 + rng.below(4 - lowest) } else { 4 - lowest };
    (0..count).map(|_| (lowest + rng.below(span)) as u8).collect()
}

fn proper_house(rng: &mut Rng, order: Order, rule: Rule) -> Desk {
    loop {
        let opening = Opening::new(&proper_levels(rng), &order.table()).under(rule);
        if let Ok(desk) = Desk::open(&opening) {
            return desk;
        }
    }
}

/// The whole input of a seed, for a house under the rule: a header and `requests` requests, sometimes
/// with an unfinished one at the end. Requests follow a refused opening too, to see that nobody
/// answers them.
pub fn input(seed: u64, rule: Rule, requests: usize) -> Vec<u8> {
    let mut rng = Rng::new(seed);
    let order = order_of(seed, &mut rng);
    let desk = proper_house(&mut rng, order, rule);
    let mut bytes = desk.opening().header();
    if spoil(seed, &mut rng, &mut bytes) {
        return bytes;
    }
    let unfinished = if rng.one_in(4) { 1 + rng.below(REQUEST_BYTES - 1) } else { 0 };
    let mut generator = Generator::with_house(rng, desk);
    for _ in 0..requests {
        bytes.extend_from_slice(&generator.next_request().to_bytes());
    }
    bytes.extend_from_slice(&generator.next_request().to_bytes()[..unfinished]);
    bytes
}

/// The longest byte string of `random_bytes`.
pub const LONGEST_RANDOM: usize = 4096;

/// A random byte string. Even seeds step through all lengths from 0 up, odd ones take any length.
/// A quarter are any bytes; a quarter are small bytes, which make openings and operations likely;
/// the others open a house and go on with either.
pub fn random_bytes(seed: u64) -> Vec<u8> {
    let mut rng = Rng::new(!seed);
    let lengths = LONGEST_RANDOM + 1;
    let length = if seed & 1 == 0 { (seed / 2) as usize % lengths } else { rng.below(lengths) };
    let mut bytes = Vec::new();
    if rng.one_in(2) {
        let order = any_order(&mut rng);
        bytes = proper_house(&mut rng, order, Rule::A).opening().header();
    }
    let is_small = rng.one_in(2);
    let small = |rng: &mut Rng| rng.below(4) as u8 * rng.below(3) as u8;
    bytes.resize_with(length, || if is_small { small(&mut rng) } else { rng.byte() });
    bytes
}

#[cfg(test)]
mod tests {
    use super::*;

    #[test]
    fn a_seed_always_means_the_same_input() {
        for seed in [0, 1, 17, u64::MAX] {
            for rule in Rule::ALL {
                assert_eq!(input(seed, rule, 100), input(seed, rule, 100));
            }
            assert_eq!(random_bytes(seed), random_bytes(seed));
        }
        assert_ne!(input(1, Rule::A, 100), input(2, Rule::A, 100));
        assert_ne!(input(17, Rule::A, 500), input(17, Rule::B, 500));
        // Written down once, so that a changed generator is noticed.
        assert_eq!(fingerprint(&input(17, Rule::A, 500)), 671922192592430017);
    }

    fn fingerprint(bytes: &[u8]) -> u64 {
        bytes.iter().fold(5381, |sum: u64, &byte| sum.wrapping_mul(33) ^ u64::from(byte))
    }

    #[test]
    fn random_strings_have_every_length() {
        for length in 0..=LONGEST_RANDOM {
            assert_eq!(random_bytes(2 * length as u64).len(), length);
            assert!(random_bytes(2 * length as u64 + 1).len() <= LONGEST_RANDOM);
        }
    }
}
