//! Whole maps (CR 2): runs a program around the map call on many cases and compares its bytes with
//! the peer's own, which come of single reads. `bench/maps.c` is such a program, and says how the
//! bytes of a case and of what a call leaves lie.

mod case;
mod slips;

pub use case::{Case, Map};
pub use slips::SLIPS;

use crate::compare::{compare_one, explain_in, first_difference, reply_at};
use crate::cover::{self, check_met, print_met, unmet};
use crate::desk::{Desk, Refusal};
use crate::opening::Opening;
use crate::progress::each_seed;
use crate::rule::Rule;
use crate::run::answer_whole;
use crate::stop::Stop;
use crate::wire::{hex, Operation, REPLY_BYTES};
use case::{LENGTHS, TABLE_LENGTHS};
use std::io::{self, Write};

pub type Open = fn(&Opening) -> Result<Desk, Refusal>;
/// Reads a map into the bytes lent for its replies, and gives the count of items handled.
pub type Call = fn(&mut Desk, &Map, &mut [u8]) -> usize;

/// How a house is opened and a map read: by the rules, or with one of the deliberate slips.
#[derive(Clone, Copy)]
pub struct Conduct {
    open: Open,
    call: Call,
}

pub const BY_THE_RULES: Conduct = Conduct { open: Desk::open, call: read_map };

/// What the reply bytes are before the call, and how many more of them lie behind those lent.
const GUARD: u8 = 0xa5;
const GUARDS: usize = 16;

/// How many bytes the count takes.
const COUNT_BYTES: usize = 8;

/// CR 2 as it stands there: single reads in list order, none skipped after a refusal, as many as
/// the list and the whole reply places both allow. Bytes past the last reply stay.
pub fn read_map(desk: &mut Desk, map: &Map, replies: &mut [u8]) -> usize {
    let mut count = 0;
    for (&item, place) in map.items.iter().zip(replies.chunks_exact_mut(REPLY_BYTES)) {
        place.copy_from_slice(&desk.answer(&map.read(item)).to_bytes());
        count += 1;
    }
    count
}

/// What a call left of a case.
struct Left {
    /// The number of the opening.
    number: u8,
    count: usize,
    before: Vec<u8>,
    /// The bytes lent for the map's replies, and those behind them.
    replies: Vec<u8>,
    after: Vec<u8>,
    /// Whether the replies after the map would be others if the map had left the house as it was.
    shows: bool,
}

impl Left {
    fn by(case: &Case, conduct: Conduct) -> Left {
        let (number, mut desk) = case.house(conduct.open);
        let (before, _) = answer_whole(&mut desk, Desk::answer, &case.before);
        let mut untouched = desk.clone();
        let mut replies = vec![GUARD; case.room + GUARDS];
        let count = (conduct.call)(&mut desk, &case.map, &mut replies[..case.room]);
        let (after, _) = answer_whole(&mut desk, Desk::answer, &case.after);
        let shows = after != answer_whole(&mut untouched, Desk::answer, &case.after).0;
        Left { number, count, before, replies, after, shows }
    }

    fn to_bytes(&self) -> Vec<u8> {
        let count = (self.count as u64).to_le_bytes();
        [&[self.number], &count[..], &self.before, &self.replies, &self.after].concat()
    }

    /// How many bytes of the lent ones are replies.
    fn reply_bytes(&self) -> usize {
        self.count * REPLY_BYTES
    }

    /// The numbers of the map's replies.
    fn numbers(&self) -> Vec<u8> {
        let replies = self.replies[..self.reply_bytes()].chunks_exact(REPLY_BYTES);
        replies.map(|reply| reply[0]).collect()
    }
}

/// Answers one case, given and answered in bytes.
pub fn answer(input: &[u8], conduct: Conduct) -> Result<Vec<u8>, Stop> {
    let case = Case::from_bytes(input)
        .ok_or_else(|| Stop::Cannot("no case of a map: the input ends too early".to_string()))?;
    Ok(Left::by(&case, conduct).to_bytes())
}

pub fn compare(command: &str, from: u64, count: u64, out: &mut impl Write) -> Result<(), Stop> {
    let mut met = Met::default();
    each_seed("compared", from, count, |seed| {
        let case = Case::of_seed(seed);
        let ours = ours(&case);
        let explained = |theirs: &[u8]| explain(&case, &ours, theirs);
        compare_one(command, &case.to_bytes(), ours.to_bytes().len(), explained)
            .map_err(|stop| stop.on_input_of(&format!("peer gen --map {seed}")))?;
        met.note(&case, &ours);
        Ok(())
    })?;
    met.print(out)?;
    check_met(count, &met.faults())?;
    writeln!(out, "compared {count} maps of {} items handled: no difference", met.handled)?;
    Ok(())
}

fn ours(case: &Case) -> Left {
    Left::by(case, BY_THE_RULES)
}

/// The first difference in words, if there is one.
fn explain(case: &Case, ours: &Left, theirs: &[u8]) -> Option<String> {
    let due = ours.to_bytes();
    let same = first_difference(&due, theirs)?;
    let untouched = ours.replies.len() - ours.reply_bytes();
    let sizes =
        [1, COUNT_BYTES, ours.before.len(), ours.reply_bytes(), untouched, ours.after.len()];
    let mut offset = same;
    let part = sizes.into_iter().position(|size| {
        let is_here = offset < size;
        offset -= if is_here { 0 } else { size };
        is_here
    });
    let index = offset / REPLY_BYTES;
    // By single requests the reply has this number among all, from 0 on.
    let replies = |earlier: usize| {
        let start = same - offset % REPLY_BYTES;
        let (ours_here, theirs_here) = (reply_at(&due[start..], 0), reply_at(&theirs[start..], 0));
        let requests = case.by_single_requests(ours.count);
        let (_, house) = case.house(Desk::open);
        let (ours, theirs) = (("peer", ours_here), ("program", theirs_here));
        explain_in(Ok(house), &requests, earlier + index, ours, theirs)
    };
    let before = ours.before.len() / REPLY_BYTES;
    Some(match part {
        Some(0) => words_for_openings(case, ours.number, theirs.first()),
        Some(1) => words_for_counts(case, ours, theirs.get(1..).unwrap_or_default()),
        Some(2) => format!("the replies before the map differ\n{}", replies(0)),
        Some(3) => format!(
            "the map differs at item {} of its list (the first is 1)\nasked singly it is {}",
            index + 1,
            replies(before)
        ),
        Some(4) => words_for_untouched(case, ours.reply_bytes() + offset, theirs.get(same)),
        Some(_) => format!(
            "the map is the same, but not what it left in the house: the replies after it differ\n\
             with its items asked singly, it is {}",
            replies(before + ours.count)
        ),
        None => format!("the output goes on after all that is due: {}", hex(&theirs[same..])),
    })
}

fn words_for_openings(case: &Case, ours: u8, theirs: Option<&u8>) -> String {
    let Opening { levels, table, rule } = &case.opening;
    let (levels, table) = (hex(levels), hex(table));
    let theirs = theirs.map_or("nothing".to_string(), u8::to_string);
    format!(
        "the openings differ\n  the peer:    {ours}\n  the program: {theirs}\n\
         the levels are {levels}\nthe table is {table}\nthe rule is {rule}"
    )
}

/// `theirs` begins with the count.
fn words_for_counts(case: &Case, ours: &Left, theirs: &[u8]) -> String {
    let count = ours.count;
    let theirs = match theirs.first_chunk::<COUNT_BYTES>() {
        Some(bytes) => u64::from_le_bytes(*bytes).to_string(),
        None => format!("only {} bytes of a count", theirs.len()),
    };
    let (items, room) = (case.map.items.len(), case.room);
    format!(
        "the counts differ\n  the peer:    {count}\n  the program: {theirs}\n\
         the list has {items} items, the {room} bytes lent have {} whole reply places",
        room / REPLY_BYTES
    )
}

/// `byte` counts from the first that was lent.
fn words_for_untouched(case: &Case, byte: usize, theirs: Option<&u8>) -> String {
    let place = match byte.checked_sub(case.room) {
        None => format!("byte {byte} of the reply bytes, past the last reply,"),
        Some(behind) => format!("byte {behind} behind the reply bytes, which was not lent,"),
    };
    match theirs {
        Some(byte) => format!("{place} has to stay {GUARD:02x} and is {byte:02x}"),
        None => format!("{place} is missing: the output ends there"),
    }
}

/// One of the things that the cases have to meet.
type Meets = fn(&Case, &Left) -> bool;

const MEETS: [(&str, Meets); 14] = [
    ("a refusal and a done read behind it", |_, left| {
        has_then_done(left, |number| number > Refusal::Delayed.number())
    }),
    ("a delay and a done read behind it", |_, left| {
        has_then_done(left, |number| number == Refusal::Delayed.number())
    }),
    ("an item read, and read again", |case, left| {
        let items: Vec<&u16> = case.map.items.iter().take(left.count).collect();
        let mut numbers = left.numbers().into_iter().enumerate();
        numbers.any(|(k, number)| number == 0 && items[..k].contains(&items[k]))
    }),
    ("a done read behind the 64th", |_, left| left.numbers().iter().skip(64).any(|n| *n == 0)),
    ("a done read behind the 128th", |_, left| left.numbers().iter().skip(128).any(|n| *n == 0)),
    ("places left behind the last item", |case, _| case.map.items.len() < case.room / REPLY_BYTES),
    ("items left behind the last place", |case, left| left.count < case.map.items.len()),
    ("a part of a place left, and items for it", |case, left| {
        left.count < case.map.items.len() && case.room > left.reply_bytes()
    }),
    ("items, and no whole place", |case, _| !case.map.items.is_empty() && case.room < REPLY_BYTES),
    ("rule A, and a lock of the map seen after it", |case, left| {
        left.shows && is_under(case, Rule::A)
    }),
    ("rule B, and a lock of the map seen after it", |case, left| {
        left.shows && is_under(case, Rule::B)
    }),
    ("a rule that is none, alone", |case, left| is_no_rule(left) && !is_wrong_otherwise(case)),
    ("a rule that is none, and an opening wrong in other ways", |case, left| {
        is_no_rule(left) && is_wrong_otherwise(case)
    }),
    ("the rule 2", |case, left| is_no_rule(left) && case.opening.rule == 2),
];

fn is_under(case: &Case, rule: Rule) -> bool {
    case.opening.rule == rule.number()
}

fn is_no_rule(left: &Left) -> bool {
    left.number == Refusal::NoRule.number()
}

fn is_wrong_otherwise(case: &Case) -> bool {
    Desk::open(&case.opening.clone().under(Rule::A)).is_err()
}

fn zipped<const N: usize>(numbers: [usize; N], counts: [u64; N]) -> Vec<(usize, u64)> {
    numbers.into_iter().zip(counts).collect()
}

fn has_then_done(left: &Left, wanted: fn(u8) -> bool) -> bool {
    let numbers = left.numbers();
    let first = numbers.iter().position(|&number| wanted(number));
    first.is_some_and(|first| numbers[first..].contains(&0))
}

/// The numbers that an opening can get.
const OPENINGS: [u8; 5] = [0, 13, 14, 16, 28];

/// What the cases met, so that a comparison that tried nothing is noticed.
#[derive(Default)]
struct Met {
    handled: usize,
    /// By the number of the opening.
    openings: [u64; OPENINGS.len()],
    tables: [u64; TABLE_LENGTHS.len()],
    numbers: [u64; 16],
    lengths: [u64; LENGTHS.len()],
    meets: [u64; MEETS.len()],
}

impl Met {
    fn note(&mut self, case: &Case, left: &Left) {
        self.handled += left.count;
        for (count, number) in self.openings.iter_mut().zip(OPENINGS) {
            *count += u64::from(left.number == number);
        }
        for (count, length) in self.tables.iter_mut().zip(TABLE_LENGTHS) {
            let is_refused = left.number == Refusal::ItemCount.number();
            *count += u64::from(is_refused && case.opening.table.len() == length);
        }
        for number in left.numbers() {
            self.numbers[usize::from(number)] += 1;
        }
        for (count, length) in self.lengths.iter_mut().zip(LENGTHS) {
            *count += u64::from(case.map.items.len() == length);
        }
        for (count, (_, is_met)) in self.meets.iter_mut().zip(MEETS) {
            *count += u64::from(is_met(case, left));
        }
    }

    /// The numbers a read can get, but 5: a map has no field that it does not use.
    fn numbers(&self) -> impl Iterator<Item = (u8, u64)> + '_ {
        let numbers = cover::reachable(Operation::Read).iter().copied();
        let numbers = numbers.filter(|&number| number != Refusal::UnusedNotZero.number());
        numbers.map(|number| (number, self.numbers[usize::from(number)]))
    }

    fn print(&self, out: &mut impl Write) -> io::Result<()> {
        let tell = |out: &mut dyn Write, what: &str, counts: Vec<(usize, u64)>| {
            let words = counts.iter().map(|(number, count)| format!("{number} {count}"));
            writeln!(out, "{what}: {}", words.collect::<Vec<_>>().join("; "))
        };
        tell(out, "openings by number", zipped(OPENINGS.map(usize::from), self.openings))?;
        tell(out, "refused tables by their length", zipped(TABLE_LENGTHS, self.tables))?;
        let numbers = self.numbers().map(|(number, count)| (number.into(), count)).collect();
        tell(out, "replies to items by number", numbers)?;
        tell(out, "maps by the length of the list, of these", zipped(LENGTHS, self.lengths))?;
        print_met(out, "maps with ", &MEETS, &self.meets)
    }

    fn faults(&self) -> Vec<String> {
        let openings = OPENINGS.iter().zip(self.openings).filter(|(_, count)| *count == 0);
        let openings = openings.map(|(number, _)| format!("no opening was answered {number}"));
        let tables = TABLE_LENGTHS.iter().zip(self.tables).filter(|(_, count)| *count == 0);
        let tables = tables.map(|(length, _)| format!("no table had {length} bytes"));
        let numbers = self.numbers().filter(|(_, count)| *count == 0);
        let numbers = numbers.map(|(number, _)| format!("no item of a map was answered {number}"));
        let lengths = LENGTHS.iter().zip(self.lengths).filter(|(_, count)| *count == 0);
        let lengths = lengths.map(|(length, _)| format!("no map had a list of {length}"));
        let meets = unmet(&MEETS, &self.meets).map(|name| format!("no map had {name}"));
        openings.chain(tables).chain(numbers).chain(lengths).chain(meets).collect()
    }
}

#[cfg(test)]
mod tests {
    use super::*;
    use crate::cover::ENOUGH;
    use crate::order::Order;

    fn met(seeds: std::ops::Range<u64>) -> Met {
        let mut met = Met::default();
        for case in seeds.map(Case::of_seed) {
            met.note(&case, &ours(&case));
        }
        met
    }

    #[test]
    fn enough_cases_meet_everything() {
        assert_eq!(met(0..ENOUGH).faults(), Vec::<String>::new());
        assert_eq!(met(1_000_000..1_000_000 + ENOUGH).faults(), Vec::<String>::new());
    }

    #[test]
    fn too_few_cases_are_noticed() {
        let faults = met(0..2).faults().join("\n");
        for wanted in ["was answered 9", "a list of 200", "no map had a delay and a done read"] {
            assert!(faults.contains(wanted), "{faults}");
        }
    }

    #[test]
    fn each_slip_shows_in_the_bytes() {
        let cases: Vec<Case> = (0..100).map(Case::of_seed).collect();
        let due: Vec<Left> = cases.iter().map(ours).collect();
        for (name, conduct) in SLIPS {
            let differs = |(case, due): &(&Case, &Left)| {
                let theirs = Left::by(case, conduct).to_bytes();
                explain(case, due, &theirs).is_some()
            };
            let found = cases.iter().zip(&due).filter(differs).count();
            assert!(found >= 4, "a map call that {name} was found on {found} of 100 cases only");
        }
    }

    /// Item 1 is above the reader, item 2 does not exist; the fourth has no whole place.
    fn small_case() -> Case {
        let begin = [0; 12];
        let ask = [6, 0, 0, 0, 1, 0, 0, 0, 0, 0, 0, 0];
        let map = Map { level: 0, ticket: 1, items: vec![0, 1, 2, 0] };
        let (before, after) = (begin.to_vec(), ask.to_vec());
        let opening = Opening::new(&[0, 1], &Order::CHAIN.table());
        Case { opening, before, map, room: 3 * REPLY_BYTES + 5, after }
    }

    #[test]
    fn a_map_by_the_words_of_the_request() {
        let left = ours(&small_case());
        assert_eq!((left.count, left.numbers()), (3, vec![0, 8, 7]));
        assert_eq!(left.replies[left.reply_bytes()..], [GUARD; 5 + GUARDS]);
        let third = [7, 1, 2, 0, 1, 0, 0, 0, 0, 0, 0, 0, 0, 0, 0, 0];
        assert_eq!(left.replies[32..48], third);
    }

    #[test]
    fn differences_are_put_in_words() {
        let case = small_case();
        let left = ours(&case);
        let due = left.to_bytes();
        assert_eq!(explain(&case, &left, &due), None);
        // Where a byte is changed, and what is then said.
        let cases = [
            (0, "the openings differ\n  the peer:    0\n  the program: 1\nthe levels are 00 01\n"),
            (1, "the program: 2\nthe list has 4 items, the 53 bytes lent have 3 whole"),
            (9, "before the map differ\nrequest 1 (the first is 1): begin at level 0"),
            (25 + 16, "at item 2 of its list (the first is 1)\nasked singly it is request 3"),
            (25 + 16, "they differ in number (peer: 8, program: 9)\nthe house before it"),
            (25 + 48, "byte 48 of the reply bytes, past the last reply, has to stay a5"),
            (25 + 53, "byte 0 behind the reply bytes, which was not lent, has to stay a5"),
            (25 + 69, "the replies after it differ\nwith its items asked singly, it is request 5"),
        ];
        for (byte, wanted) in cases {
            let mut theirs = due.clone();
            theirs[byte] ^= 1;
            let text = explain(&case, &left, &theirs).expect("a difference");
            assert!(text.contains(wanted), "byte {byte}: {text}");
        }
        let cuts = [
            (0, "  the program: nothing\nthe levels are 00 01\nthe table is 01 01 01 01 00 01"),
            (4, "only 3 bytes of a count"),
            (25 + 20, "only 4 bytes of a reply"),
            (25 + 60, "is missing: the output ends there"),
            (25 + 69, "the program: nothing"),
        ];
        for (cut, wanted) in cuts {
            let text = explain(&case, &left, &due[..cut]).expect("a difference");
            assert!(text.contains(wanted), "{cut} bytes: {text}");
        }
        let text = explain(&case, &left, &[&due[..], &[7]].concat()).expect("a difference");
        assert!(text.contains("goes on after all that is due: 07"), "{text}");
    }
}
