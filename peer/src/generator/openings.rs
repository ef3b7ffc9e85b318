//! Which order and which rule a seed's house has, and how the opening of every eighth seed is spoiled.

use super::at_or_above;
use crate::desk::{LEVELS, MOST_ITEMS};
use crate::order::{entry, flaws, levels, reflexive_tables, Flaw, Order, Table, TABLE_BYTES};
use crate::rng::Rng;
use crate::rule::Rule;
use std::sync::OnceLock;

/// Of eight seeds six take the next orders of all, one the chain or the diamond, and the last, whose
/// opening is spoiled, any. So every order opens a house within 300 seeds.
const ROUND: u64 = 8;
const IN_TURN: u64 = 6;
const SPOILED: u64 = 7;
/// Neighbours among all orders are much alike. It has no factor in common with their number.
const STRIDE: u64 = 100;

pub fn order_of(seed: u64, rng: &mut Rng) -> Order {
    let (round, turn) = (seed / ROUND, seed % ROUND);
    if turn < IN_TURN {
        let count = Order::all().len() as u64;
        return Order::all()[((round * IN_TURN + turn) % count * STRIDE % count) as usize];
    }
    match (turn, round % 2) {
        (SPOILED, _) => any_order(rng),
        (_, 0) => Order::CHAIN,
        _ => Order::DIAMOND,
    }
}

/// Half of the seeds take rule B, wherever a caller can name one. Every order opens a house under
/// either rule within 600 seeds, and openings under either are spoiled in every way within 200.
pub fn rule_of(seed: u64) -> Rule {
    let (round, turn) = (seed / ROUND, seed % ROUND);
    let number = if turn < IN_TURN { turn } else { round / 2 + round / SPOILS.len() as u64 };
    Rule::ALL[(number % 2) as usize]
}

pub fn any_order(rng: &mut Rng) -> Order {
    rng.pick(Order::all()).unwrap_or(Order::CHAIN)
}

/// Spoils a header, which is proper and ends with its table.
type Spoil = fn(&mut Rng, &mut Vec<u8>);

const SPOILS: [Spoil; 12] = [
    put_byte_above_1,
    break_one_triple,
    // 14 comes before 16.
    |rng, header| {
        put_level_above_3(rng, header);
        put_any_table(rng, header);
    },
    make_two_alike,
    cut_table,
    clear_diagonal,
    put_level_above_3,
    // 13 comes before 14.
    |rng, header| {
        put_level_above_3(rng, header);
        cut_table(rng, header);
    },
    cut_levels,
    |_, header| header[0] = 0,
    put_any_table,
    claim_too_many,
];

/// Spoils the opening of every eighth seed, each time in the next way. Says whether the input is cut
/// short and ends with it.
pub fn spoil(seed: u64, rng: &mut Rng, header: &mut Vec<u8>) -> bool {
    if seed % ROUND != SPOILED {
        return false;
    }
    let whole = header.len();
    SPOILS[(seed / ROUND) as usize % SPOILS.len()](rng, header);
    header.len() < whole
}

fn claim_too_many(rng: &mut Rng, header: &mut Vec<u8>) {
    header[0] = at_or_above(rng, MOST_ITEMS as u8 + 1);
    let whole = 1 + usize::from(header[0]) + TABLE_BYTES;
    header.resize_with(whole, || rng.below(LEVELS.into()) as u8);
}

fn put_level_above_3(rng: &mut Rng, header: &mut Vec<u8>) {
    let spot = 1 + rng.below(header[0].into());
    header[spot] = at_or_above(rng, LEVELS);
}

/// Levels cut short are refused as such, also where a byte above 3 stands among them.
fn cut_levels(rng: &mut Rng, header: &mut Vec<u8>) {
    if rng.one_in(2) {
        put_level_above_3(rng, header);
    }
    header.truncate(rng.below(1 + usize::from(header[0])));
}

fn cut_table(rng: &mut Rng, header: &mut Vec<u8>) {
    header.truncate(1 + usize::from(header[0]) + rng.below(TABLE_BYTES));
}

fn table_in(header: &mut [u8]) -> &mut [u8] {
    let start = header.len() - TABLE_BYTES;
    &mut header[start..]
}

/// Mostly where a 1 belongs: to whom any byte but 0 is a 1, the table is an order.
fn put_byte_above_1(rng: &mut Rng, header: &mut Vec<u8>) {
    let table = table_in(header);
    let ones: Vec<usize> = (0..TABLE_BYTES).filter(|&spot| table[spot] == 1).collect();
    let spot = if rng.one_in(4) { None } else { rng.pick(&ones) };
    let spot = spot.unwrap_or(rng.below(TABLE_BYTES));
    table[spot] = rng.pick(&[2, 3, 255]).unwrap_or(2);
}

fn clear_diagonal(rng: &mut Rng, header: &mut Vec<u8>) {
    let level = rng.below(LEVELS.into()) as u8;
    table_in(header)[entry(level, level)] = 0;
}

/// Two levels that dominate each other and stand alike to the others: nothing else is wrong.
fn make_two_alike(rng: &mut Rng, header: &mut Vec<u8>) {
    let one = rng.below(LEVELS.into()) as u8;
    let other = (one + 1 + rng.below(usize::from(LEVELS) - 1) as u8) % LEVELS;
    let table = table_in(header);
    for level in levels().filter(|level| ![one, other].contains(level)) {
        table[entry(level, other)] = table[entry(level, one)];
        table[entry(other, level)] = table[entry(one, level)];
    }
    table[entry(one, other)] = 1;
    table[entry(other, one)] = 1;
}

fn break_one_triple(rng: &mut Rng, header: &mut Vec<u8>) {
    static BROKEN: OnceLock<Vec<Table>> = OnceLock::new();
    let is_broken = |table: &Table| matches!(flaws(table)[..], [Flaw::NotTransitive { .. }]);
    let broken = BROKEN
        .get_or_init(|| reflexive_tables().into_iter().filter(is_broken).collect::<Vec<Table>>());
    if let Some(table) = rng.pick(broken) {
        table_in(header).copy_from_slice(&table);
    }
}

/// Any table of bytes 0 and 1. Mostly it is no order.
fn put_any_table(rng: &mut Rng, header: &mut Vec<u8>) {
    table_in(header).fill_with(|| rng.below(2) as u8);
}
