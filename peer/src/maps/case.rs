//! A case of `maps`: a house, what is asked in it before the map, the map, and what is asked after.

use super::Open;
use crate::desk::{Desk, Place, Standing, LEVELS};
use crate::generator::{at_or_above, rule_of, spoil, strange_item, Generator};
use crate::opening::{split_opening, Opening};
use crate::rng::Rng;
use crate::wire::{Operation, Request, REPLY_BYTES, REQUEST_BYTES};

/// Lengths of lists that even seeds step through: on either side of what one part of a map may
/// hold, wherever a desk reads it in parts of up to 64 or 128. Odd seeds take any up to the last.
pub const LENGTHS: [usize; 10] = [0, 1, 2, 63, 64, 65, 127, 128, 129, 200];
const LONGEST: usize = LENGTHS[LENGTHS.len() - 1];

/// Lengths of tables that are refused. Every eighth seed has one of them.
pub const TABLE_LENGTHS: [usize; 6] = [15, 17, 0, 32, 1, 255];

/// Numbers that are no rule.
const NO_RULES: [u8; 4] = [2, 255, 3, 128];

/// How many requests at most go on until there is the reader that is sought.
const LONGEST_WAIT: usize = 400;

/// Keeps the numbers drawn here apart from the generator's of the same seed.
const OWN_STREAM: u64 = 0x6d61_7073_6d61_7073;

#[derive(Clone, Debug, PartialEq, Eq)]
pub struct Map {
    pub level: u8,
    pub ticket: u32,
    pub items: Vec<u16>,
}

impl Map {
    /// The single read of an item of the list.
    pub fn read(&self, item: u16) -> Request {
        let Map { level, ticket, .. } = *self;
        Request { operation: Operation::Read.number(), level, item, ticket, value: 0 }
    }
}

#[derive(Clone, Debug, PartialEq, Eq)]
pub struct Case {
    pub opening: Opening,
    /// Whole requests.
    pub before: Vec<u8>,
    pub map: Map,
    /// How many bytes are lent for the replies to the map.
    pub room: usize,
    /// Requests, the last perhaps unfinished.
    pub after: Vec<u8>,
}

impl Case {
    pub fn of_seed(seed: u64) -> Case {
        let mut rng = Rng::new(seed ^ OWN_STREAM);
        let mut generator = Generator::new(seed, rule_of(seed));
        let opening = opening(seed, &mut rng, generator.desk());
        let mut before = stretch(&mut generator, rng.below(200));
        let (level, ticket) = reader(&mut rng, &mut generator, &mut before);
        let even = LENGTHS[(seed / 2) as usize % LENGTHS.len()];
        let length = if seed & 1 == 0 { even } else { rng.below(LONGEST + 1) };
        let items = items(&mut rng, generator.desk(), level, length);
        let map = Map { level, ticket, items };
        let room = room(&mut rng, map.items.len());
        for &item in map.items.iter().take(room / REPLY_BYTES) {
            generator.follow(&map.read(item));
        }
        let after = after(&mut rng, generator, &map);
        Case { opening, before, map, room, after }
    }

    /// The number of the opening, and the house it yields.
    pub fn house(&self, open: Open) -> (u8, Desk) {
        match open(&self.opening) {
            Ok(desk) => (0, desk),
            Err(refusal) => (refusal.number(), Desk::refused()),
        }
    }

    /// The same asked by single requests: the first `handled` items of the map as reads.
    pub fn by_single_requests(&self, handled: usize) -> Vec<u8> {
        let items = self.map.items.iter().take(handled);
        let reads = items.flat_map(|&item| self.map.read(item).to_bytes()).collect();
        [self.before.clone(), reads, self.after.clone()].concat()
    }

    /// The bytes of a case; `bench/maps.c` says how they lie.
    pub fn to_bytes(&self) -> Vec<u8> {
        let Case { opening, before, map, room, after } = self;
        let two = |number: usize| (number as u16).to_le_bytes();
        let mut bytes = Vec::new();
        for part in [&opening.levels, &opening.table] {
            bytes.push(part.len() as u8);
            bytes.extend(part);
        }
        bytes.push(opening.rule);
        bytes.push(map.level);
        bytes.extend(map.ticket.to_le_bytes());
        bytes.extend(two(map.items.len()));
        bytes.extend(map.items.iter().flat_map(|item| item.to_le_bytes()));
        bytes.extend(two(*room));
        bytes.extend(two(before.len() / REQUEST_BYTES));
        bytes.extend(before);
        bytes.extend(after);
        bytes
    }

    /// None where the bytes end too early.
    pub fn from_bytes(bytes: &[u8]) -> Option<Case> {
        let (levels, rest) = counted(bytes)?;
        let (table, rest) = counted(rest)?;
        let (&[rule, level], rest) = rest.split_first_chunk::<2>()?;
        let (&ticket, rest) = rest.split_first_chunk::<4>()?;
        let (items, rest) = two_bytes(rest)?;
        let (items, rest) = rest.split_at_checked(2 * items)?;
        let (room, rest) = two_bytes(rest)?;
        let (before, rest) = two_bytes(rest)?;
        let (before, after) = rest.split_at_checked(REQUEST_BYTES * before)?;
        let items = items.chunks_exact(2).map(|item| u16::from_le_bytes([item[0], item[1]]));
        let map = Map { level, ticket: u32::from_le_bytes(ticket), items: items.collect() };
        let (before, after) = (before.to_vec(), after.to_vec());
        let opening = Opening { rule, ..Opening::new(levels, table) };
        Some(Case { opening, before, map, room, after })
    }
}

/// Bytes behind one that counts them.
fn counted(bytes: &[u8]) -> Option<(&[u8], &[u8])> {
    let (&count, rest) = bytes.split_first()?;
    rest.split_at_checked(count.into())
}

fn two_bytes(bytes: &[u8]) -> Option<(usize, &[u8])> {
    let (&number, rest) = bytes.split_first_chunk::<2>()?;
    Some((u16::from_le_bytes(number).into(), rest))
}

/// The opening of the house, or in two seeds of eight one that is refused: that of a spoiled header, or
/// with a table of another length. In one seed of eight, of either kind, the rule is none. The requests
/// stay those of the house.
fn opening(seed: u64, rng: &mut Rng, desk: &Desk) -> Opening {
    let mut header = desk.opening().header();
    spoil(seed, rng, &mut header);
    let (_, mut opening) = split_opening(&header);
    opening.rule = desk.rule.number();
    if [5, 13, 22, 31].contains(&(seed % 32)) {
        opening.rule = NO_RULES[(seed / 32) as usize % NO_RULES.len()];
    }
    if seed % 8 == 6 {
        let length = TABLE_LENGTHS[(seed / 8) as usize % TABLE_LENGTHS.len()];
        opening.table = opening.table.iter().copied().cycle().take(length).collect();
    }
    opening
}

/// The bytes of the generator's next requests.
fn stretch(generator: &mut Generator, requests: usize) -> Vec<u8> {
    (0..requests).flat_map(|_| generator.next_request().to_bytes()).collect()
}

/// The items on which somebody holds certify.
fn certified_items(desk: &Desk) -> Vec<u16> {
    let is_certified = |item: &usize| desk.places.iter().any(|place| place.cell(*item).certify);
    (0..desk.items.len()).filter(is_certified).map(|item| item as u16).collect()
}

fn up_to_level<'a>(desk: &'a Desk, items: &'a [u16], level: u8) -> impl Iterator<Item = u16> + 'a {
    let level_of = |item: u16| desk.items[usize::from(item)].level;
    items.iter().copied().filter(move |&item| desk.order.dominates(level, level_of(item)))
}

/// Which of the open transactions are sought to read a map.
type Sought = fn(&Desk, &Place) -> bool;

fn is_signalled(_: &Desk, place: &Place) -> bool {
    !place.signalled().is_empty()
}

fn is_certified(_: &Desk, place: &Place) -> bool {
    place.standing == Standing::Certified
}

fn may_read(desk: &Desk, place: &Place) -> bool {
    !is_signalled(desk, place) && !is_certified(desk, place)
}

/// It may read, and finds certify of another on an item.
fn may_wait(desk: &Desk, place: &Place) -> bool {
    let certified = certified_items(desk);
    let has_one = up_to_level(desk, &certified, place.level).next().is_some();
    may_read(desk, place) && has_one
}

/// Who reads the map: mostly a transaction that may, often where something is in its way; now and
/// then one that is signalled, certified or not open, or a level that does not exist. The requests
/// before the map go on until there is such a transaction.
fn reader(rng: &mut Rng, generator: &mut Generator, before: &mut Vec<u8>) -> (u8, u32) {
    let sought: Sought = match rng.below(16) {
        0 => return (at_or_above(rng, LEVELS), 1),
        1 => return (rng.below(LEVELS.into()) as u8, 0),
        2 | 3 => is_signalled,
        4 => is_certified,
        5..=10 => may_wait,
        _ => may_read,
    };
    for _ in 0..LONGEST_WAIT {
        let desk = generator.desk();
        let found = desk.places.iter().filter(|place| place.is_taken() && sought(desk, place));
        let names: Vec<(u8, u32)> = found.map(|place| (place.level, place.ticket)).collect();
        if let Some(name) = rng.pick(&names) {
            return name;
        }
        before.extend(stretch(generator, 1));
    }
    (0, 1)
}

/// One list in four is the house in order, over and over. The others are drawn, mostly of what the
/// level may read, so that items come again; what is in the way and what does not exist between.
fn items(rng: &mut Rng, desk: &Desk, level: u8, length: usize) -> Vec<u16> {
    let count = desk.items.len();
    let house: Vec<u16> = (0..count).map(|item| item as u16).collect();
    if rng.one_in(4) {
        return house.iter().copied().cycle().take(length).collect();
    }
    let readable: Vec<u16> = up_to_level(desk, &house, level).collect();
    let certified: Vec<u16> = up_to_level(desk, &certified_items(desk), level).collect();
    let mut draw = || {
        let sought = match rng.below(16) {
            0 => return strange_item(rng, count),
            1 => &house,
            2 | 3 => &certified,
            _ => &readable,
        };
        let any = rng.below(count) as u16;
        rng.pick(sought).unwrap_or(any)
    };
    (0..length).map(|_| draw()).collect()
}

/// The bytes lent for the replies: places enough, too few, too many, and a part of one more.
fn room(rng: &mut Rng, length: usize) -> usize {
    let fewer = rng.below(length + 1);
    let edge = rng.pick(&[0, 1, 63, 64, 65, 128]).unwrap_or(0);
    let more = length + 1 + rng.below(5);
    let places = rng.pick(&[length, length, fewer, fewer, edge, more]).unwrap_or(length);
    let part = rng.below(REPLY_BYTES);
    places * REPLY_BYTES + rng.pick(&[0, 1, REPLY_BYTES - 1, part]).unwrap_or(0)
}

/// What is asked after the map, in the house that it left: sometimes nothing, sometimes a stretch
/// of the generator's first, sometimes an unfinished request at the end.
fn after(rng: &mut Rng, mut generator: Generator, map: &Map) -> Vec<u8> {
    if rng.one_in(16) {
        return Vec::new();
    }
    let requests = if rng.one_in(2) { rng.below(40) } else { 0 };
    let mut bytes = stretch(&mut generator, requests);
    bytes.extend(look(generator.desk().clone(), map));
    let unfinished = if rng.one_in(4) { 1 + rng.below(REQUEST_BYTES - 1) } else { 0 };
    bytes.resize(bytes.len() + unfinished, 0);
    bytes
}

/// Requests whose replies show every read lock of the map's reader. All others leave; then
/// somebody writes and certifies item after item, and commits where signals are given then: a lock at
/// its own level delays the certify, one from above is signalled, and the reader asks how many are.
fn look(mut desk: Desk, map: &Map) -> Vec<u8> {
    let Map { level, ticket, .. } = *map;
    let others = desk.places.iter().filter(|place| place.is_taken());
    let others: Vec<(u8, u32)> = others.map(|place| (place.level, place.ticket)).collect();
    let (levels, rule) = (desk.levels(), desk.rule);
    let mut bytes = Vec::new();
    let mut ask = |operation: Operation, (level, ticket), item: usize, value| {
        let operation = operation.number();
        let request = Request { operation, level, item: item as u16, ticket, value };
        bytes.extend(request.to_bytes());
        desk.answer(&request).ticket
    };
    for other in others.into_iter().filter(|&other| other != (level, ticket)) {
        ask(Operation::Abort, other, 0, 0);
    }
    for (item, item_level) in levels.into_iter().enumerate() {
        let writer = (item_level, ask(Operation::Begin, (item_level, 0), 0, 0));
        ask(Operation::Write, writer, item, 1);
        ask(Operation::Certify, writer, 0, 0);
        if rule.signals_at() == Operation::Commit {
            ask(Operation::Commit, writer, 0, 0);
        }
        ask(Operation::Ask, (level, ticket), 0, 0);
        ask(Operation::Abort, writer, 0, 0);
    }
    bytes
}

#[cfg(test)]
mod tests {
    use super::*;

    #[test]
    fn a_seed_always_means_the_same_case_and_its_bytes_come_back() {
        for seed in [0, 1, 2, 17, 58, u64::MAX] {
            let case = Case::of_seed(seed);
            assert_eq!(case, Case::of_seed(seed));
            assert_eq!(Case::from_bytes(&case.to_bytes()), Some(case));
        }
        assert_ne!(Case::of_seed(1), Case::of_seed(2));
    }

    #[test]
    fn the_bytes_lie_as_the_program_reads_them() {
        let map = Map { level: 3, ticket: 0x07060504, items: vec![0x0908, 1] };
        let (before, after) = (vec![5; REQUEST_BYTES], vec![6; 2]);
        let opening = Opening { rule: 9, ..Opening::new(&[0, 1], &[1, 1, 2]) };
        let case = Case { opening, before, map, room: 0x0102, after };
        let start = [2, 0, 1, 3, 1, 1, 2, 9, 3, 4, 5, 6, 7, 2, 0, 8, 9, 1, 0, 2, 1, 1, 0];
        let bytes = [&start[..], &[5; REQUEST_BYTES], &[6; 2]].concat();
        assert_eq!(case.to_bytes(), bytes);
        // All but the requests after the map has to be there.
        for cut in 0..bytes.len() - 2 {
            assert_eq!(Case::from_bytes(&bytes[..cut]), None, "{cut} bytes");
        }
    }
}
