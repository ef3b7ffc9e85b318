//! The slips that CR 2 invites, and those of an opening that no input on the wire shows (CR 6, CR 7),
//! made on purpose: a map call that behaves but for one slip.

use super::{read_map, Call, Conduct, Map, Open};
use crate::desk::{Desk, Refusal, MOST_ITEMS};
use crate::opening::Opening;
use crate::order::TABLE_BYTES;
use crate::wire::REPLY_BYTES;

pub const SLIPS: [(&str, Conduct); 15] = [
    ("leaves the last item out", reads(leaves_last_out)),
    ("stops after a refusal", reads(stops_after_refusal)),
    ("gives no reply where it refuses", reads(skips_refused)),
    ("reports the list's length", reads(reports_length)),
    ("uses a reply place that is not whole", reads(uses_unfinished_place)),
    ("clears the bytes past the last reply", reads(clears_rest)),
    ("takes no lock", reads(takes_no_lock)),
    ("handles no more items than a house has", reads(handles_a_house)),
    ("keeps the locks of the last 64 reads only", reads(keeps_last_part)),
    ("takes the first 16 bytes of a longer table", opens(takes_longer_table)),
    ("goes by a shorter table as if zeros followed", opens(fills_shorter_table)),
    ("takes rule B for rule A", opens(|opening| Desk::open(&under(opening, |rule| rule & !1)))),
    (
        "takes any number above 1 for rule B",
        opens(|opening| Desk::open(&under(opening, |rule| rule.min(1)))),
    ),
    (
        "takes the lowest bit of a number for the rule",
        opens(|opening| Desk::open(&under(opening, |rule| rule & 1))),
    ),
    ("looks at the rule last", opens(rule_last)),
];

const fn reads(call: Call) -> Conduct {
    Conduct { open: Desk::open, call }
}

const fn opens(open: Open) -> Conduct {
    Conduct { open, call: read_map }
}

/// The map of these items only.
fn with_items(map: &Map, items: &[u16]) -> Map {
    Map { items: items.to_vec(), ..*map }
}

fn leaves_last_out(desk: &mut Desk, map: &Map, replies: &mut [u8]) -> usize {
    let most = map.items.len().saturating_sub(1);
    read_map(desk, &with_items(map, &map.items[..most]), replies)
}

fn stops_after_refusal(desk: &mut Desk, map: &Map, replies: &mut [u8]) -> usize {
    let numbers = |reply: &[u8]| reply[0];
    let mut alone = replies.to_vec();
    let count = read_map(&mut desk.clone(), map, &mut alone);
    let done = alone.chunks_exact(REPLY_BYTES).map(numbers).take_while(|&number| number == 0);
    let most = (done.count() + 1).min(count);
    read_map(desk, &with_items(map, &map.items[..most]), replies)
}

fn skips_refused(desk: &mut Desk, map: &Map, replies: &mut [u8]) -> usize {
    let mut is_done = |item: &&u16| desk.clone().answer(&map.read(**item)).number == 0;
    let done: Vec<u16> = map.items.iter().filter(&mut is_done).copied().collect();
    read_map(desk, &with_items(map, &done), replies)
}

fn reports_length(desk: &mut Desk, map: &Map, replies: &mut [u8]) -> usize {
    read_map(desk, map, replies);
    map.items.len()
}

fn uses_unfinished_place(desk: &mut Desk, map: &Map, replies: &mut [u8]) -> usize {
    let mut longer = replies.to_vec();
    longer.resize(replies.len().next_multiple_of(REPLY_BYTES), 0);
    let count = read_map(desk, map, &mut longer);
    replies.copy_from_slice(&longer[..replies.len()]);
    count
}

fn clears_rest(desk: &mut Desk, map: &Map, replies: &mut [u8]) -> usize {
    replies.fill(0);
    read_map(desk, map, replies)
}

fn takes_no_lock(desk: &mut Desk, map: &Map, replies: &mut [u8]) -> usize {
    read_map(&mut desk.clone(), map, replies)
}

fn handles_a_house(desk: &mut Desk, map: &Map, replies: &mut [u8]) -> usize {
    let most = map.items.len().min(MOST_ITEMS);
    read_map(desk, &with_items(map, &map.items[..most]), replies)
}

fn keeps_last_part(desk: &mut Desk, map: &Map, replies: &mut [u8]) -> usize {
    let (fresh, mut count) = (desk.clone(), 0);
    for (items, places) in map.items.chunks(64).zip(replies.chunks_mut(64 * REPLY_BYTES)) {
        *desk = fresh.clone();
        count += read_map(desk, &with_items(map, items), places);
    }
    count
}

fn takes_longer_table(opening: &Opening) -> Result<Desk, Refusal> {
    let most = opening.table.len().min(TABLE_BYTES);
    Desk::open(&opening.with_table(&opening.table[..most]))
}

fn fills_shorter_table(opening: &Opening) -> Result<Desk, Refusal> {
    let zeros = vec![0; TABLE_BYTES.saturating_sub(opening.table.len())];
    Desk::open(&opening.with_table(&[&opening.table[..], &zeros].concat()))
}

/// The opening with another number for its rule.
fn under(opening: &Opening, number: fn(u8) -> u8) -> Opening {
    Opening { rule: number(opening.rule), ..opening.clone() }
}

fn rule_last(opening: &Opening) -> Result<Desk, Refusal> {
    Desk::open(&under(opening, |_| 0)).and_then(|_| Desk::open(opening))
}
