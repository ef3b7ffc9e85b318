//! CR 3 by brute force: requests struck that a level does not dominate change no reply to the others,
//! and nothing of the house at the levels that it dominates.

use crate::compare::{
    answer_of, compare_one, explain_replies, first_difference, reply_at, Inputs, Rules,
};
use crate::cover::check_met;
use crate::desk::{Desk, Item, Place, Refusal, LEVELS, PLACES_PER_LEVEL};
use crate::generator;
use crate::opening::split_header;
use crate::order::Order;
use crate::progress::each_seed;
use crate::rule::Rule;
use crate::run::{opened, Conduct, BY_THE_RULES};
use crate::stop::Stop;
use crate::strike::{stays, Struck, STRUCK, WHOLE};
use crate::wire::{requests_in, Operation, Request, REPLY_BYTES};
use crate::words;
use std::io::{self, Write};

/// The replies are the program's, under the rules that it can be told; the houses are the peer's own,
/// under either.
pub fn quiet(
    command: &str,
    rules: Rules,
    requests: usize,
    from: u64,
    count: u64,
    out: &mut impl Write,
) -> Result<(), Stop> {
    let inputs = Inputs::Generated { requests, rules };
    let (mut met, mut compared) = (Met::default(), 0);
    each_seed("struck", from, count, |seed| {
        let (rule, input) = (inputs.rule(seed), inputs.bytes(seed));
        compared += check_replies(&rules.command(command, rule), &input, rule)
            .map_err(|stop| stop.on_input_of(&inputs.how_to_make(seed)))?;
        Rule::ALL.into_iter().try_for_each(|rule| {
            let input = generator::input(seed, rule, requests);
            check_houses(&input, rule, BY_THE_RULES, &mut met)
                .map_err(Stop::Found)
                .map_err(|stop| stop.on_input_of(&format!("peer gen {seed} {requests} {rule}")))
        })
    })?;
    met.print(out)?;
    check_met(count, &met.faults())?;
    writeln!(
        out,
        "struck {count} inputs at each level, {compared} replies that stay: no difference"
    )?;
    Ok(())
}

/// Holds what the program answers to the struck lists against its own answer to the whole one, and
/// gives the number of replies that were held against each other.
fn check_replies(command: &str, input: &[u8], rule: Rule) -> Result<usize, Stop> {
    let whole = answer_of(Some(command), WHOLE, input, rule)?;
    let mut compared = 0;
    for k in 0..LEVELS {
        let struck = Struck::of(input, k);
        let due = struck.replies(&whole);
        let explained = |theirs: &[u8]| explain(input, rule, &struck, &due, theirs);
        compare_one(command, &struck.input, due.len(), explained)
            .map_err(|stop| stop.at(&struck_at(k)))?;
        compared += due.len() / REPLY_BYTES;
    }
    Ok(compared)
}

fn struck_at(k: u8) -> String {
    format!("with the requests struck that level {k} does not dominate")
}

/// The first difference in words, if there is one.
fn explain(input: &[u8], rule: Rule, struck: &Struck, due: &[u8], theirs: &[u8]) -> Option<String> {
    let index = first_difference(due, theirs)? / REPLY_BYTES;
    let (left, right) = ((WHOLE, reply_at(due, index)), (STRUCK, reply_at(theirs, index)));
    let replies = explain_replies(input, rule, struck.index_in_whole(index), left, right);
    Some(format!("a reply is not the same\n{replies}"))
}

/// What has to be the same in two houses at level k: the items, the places with their cells, and the
/// next tickets of the levels that k dominates. What the opening fixed is nobody's secret.
fn up_to(desk: &Desk, k: u8, order: Order) -> impl PartialEq + '_ {
    let sees = |level| order.dominates(k, level);
    let items: Vec<&Item> = desk.items.iter().filter(|item| sees(item.level)).collect();
    let places: Vec<&Place> = desk.places.iter().filter(|place| sees(place.level)).collect();
    let tickets = (0..LEVELS).zip(desk.next_ticket).filter(|(level, _)| sees(*level));
    (desk.opening(), items, places, tickets.collect::<Vec<_>>())
}

/// A second reading of CR 3, on the peer's own desk: after each request the house of the whole list
/// and that of the struck one are the same up to k. Notes what the whole list meets.
fn check_houses(input: &[u8], rule: Rule, conduct: Conduct, met: &mut Met) -> Result<(), String> {
    let (header, requests) = split_header(input);
    let houses = (opened(header, rule), (conduct.open)(header, rule));
    let (Some(Desk { order, .. }), Some(Ok(mut whole))) = houses else {
        return Ok(());
    };
    let mut struck = vec![whole.clone(); LEVELS.into()];
    for (request, number) in requests_in(requests).zip(1..) {
        let before = whole.clone();
        let reply = (conduct.answer)(&mut whole, &request);
        for (k, desk) in (0..LEVELS).zip(&mut struck) {
            let moment =
                Moment { k, order, house: &before, request: &request, number: reply.number };
            met.note(&moment);
            if stays(&request, k, order) {
                (conduct.answer)(desk, &request);
            }
            if up_to(&whole, k, order) != up_to(desk, k, order) {
                return Err(explain_houses(k, number, &request, &whole, desk));
            }
        }
    }
    Ok(())
}

fn explain_houses(k: u8, number: usize, request: &Request, whole: &Desk, struck: &Desk) -> String {
    format!(
        "{}: the peer's own house is not the same at the levels it dominates\n\
         after request {number} (the first is 1): {}\nthe {WHOLE}:\n{}the {STRUCK}:\n{}",
        struck_at(k),
        words::request(request),
        words::lock_table(whole),
        words::lock_table(struck)
    )
}

/// A request of the whole list in the house before it, and the number of its reply.
struct Moment<'a> {
    k: u8,
    order: Order,
    house: &'a Desk,
    request: &'a Request,
    number: u8,
}

impl Moment<'_> {
    fn stays(&self) -> bool {
        stays(self.request, self.k, self.order)
    }

    /// Whether the level is one that k does not dominate.
    fn is_unseen(&self, level: u8) -> bool {
        !self.order.dominates(self.k, level)
    }

    fn is_delayed(&self) -> bool {
        self.number == Refusal::Delayed.number()
    }

    fn stays_and_is_done(&self, operation: Operation) -> bool {
        self.stays() && self.number == 0 && self.request.is(operation)
    }

    /// The open transactions that k does not dominate.
    fn unseen(&self) -> impl Iterator<Item = &Place> {
        self.house.places.iter().filter(|place| self.is_unseen(place.level) && place.is_taken())
    }

    fn is_read_unseen(&self) -> bool {
        let changed = self.house.changed_by(self.request);
        self.unseen().any(|place| place.reads_one_of(&changed))
    }

    /// Whether it gives signals in its house.
    fn signals(&self) -> bool {
        self.stays_and_is_done(self.house.rule.signals_at())
    }

    /// Whether a begin that k does not dominate was done before.
    fn has_begun_unseen(&self) -> bool {
        let mut tickets = (0..LEVELS).zip(self.house.next_ticket);
        tickets.any(|(level, next)| self.is_unseen(level) && next != Some(1))
    }
}

/// One of the things that the lists have to meet.
type Meets = fn(&Moment) -> bool;

/// Unseen is whom the level does not dominate.
const MEETS: [(&str, Meets); 9] = [
    ("a struck request that was done", |at| !at.stays() && at.number == 0),
    ("a struck request that was done, of a level that does not dominate it either", |at| {
        at.number == 0 && at.order.are_apart(at.k, at.request.level)
    }),
    ("a done certify, under rule A, of what somebody unseen has read", |at| {
        at.house.rule == Rule::A && at.signals() && at.is_read_unseen()
    }),
    ("a done commit, under rule B, of what somebody unseen has read", |at| {
        at.house.rule == Rule::B && at.signals() && at.is_read_unseen()
    }),
    ("a done begin while eight or more unseen are open", |at| {
        at.stays_and_is_done(Operation::Begin) && at.unseen().count() >= PLACES_PER_LEVEL
    }),
    ("a done begin after a done begin unseen", |at| {
        at.stays_and_is_done(Operation::Begin) && at.has_begun_unseen()
    }),
    ("a delayed request that stays", |at| at.stays() && at.is_delayed()),
    // The certifier is told who holds it, and not that somebody unseen reads it too (CR 5).
    ("a delayed certify of what somebody unseen has read", |at| {
        at.stays() && at.is_delayed() && at.request.is(Operation::Certify) && at.is_read_unseen()
    }),
    ("a struck request whose level byte is above 3", |at| {
        !at.stays() && at.request.level >= LEVELS
    }),
];

/// What the lists met at each level, so that a check that struck nothing is noticed.
#[derive(Default)]
struct Met([[u64; LEVELS as usize]; MEETS.len()]);

impl Met {
    fn note(&mut self, moment: &Moment) {
        for (counts, (_, is_met)) in self.0.iter_mut().zip(MEETS) {
            counts[usize::from(moment.k)] += u64::from(is_met(moment));
        }
    }

    /// What has to be met, with the level at which, and how often it was.
    fn counts(&self) -> impl Iterator<Item = (&str, Vec<(u8, u64)>)> {
        let by_level = |counts: &[u64]| (0..LEVELS).zip(counts.iter().copied()).collect();
        self.0.iter().zip(MEETS).map(move |(counts, (name, _))| (name, by_level(counts)))
    }

    fn print(&self, out: &mut impl Write) -> io::Result<()> {
        for (name, counts) in self.counts() {
            let counts: Vec<String> =
                counts.iter().map(|(k, count)| format!("{count} at level {k}")).collect();
            writeln!(out, "{name}: {}", counts.join(", "))?;
        }
        Ok(())
    }

    fn faults(&self) -> Vec<String> {
        let fault = |name: &str, k: u8| format!("at level {k} the lists never met {name}");
        let missing = self.counts().flat_map(|(name, counts)| {
            let never = counts.into_iter().filter(|(_, count)| *count == 0);
            never.map(move |(k, _)| fault(name, k))
        });
        missing.collect()
    }
}

#[cfg(test)]
mod tests {
    use super::*;
    use crate::cover::ENOUGH;
    use crate::slips::SLIPS;
    use std::ops::Range;

    fn met(seeds: Range<u64>, requests: usize) -> Met {
        let mut met = Met::default();
        for seed in seeds {
            for rule in Rule::ALL {
                let input = generator::input(seed, rule, requests);
                let checked = check_houses(&input, rule, BY_THE_RULES, &mut met);
                checked.expect("no house shows what was struck");
            }
        }
        met
    }

    #[test]
    fn enough_inputs_meet_everything() {
        assert_eq!(met(0..ENOUGH, 400).faults(), Vec::<String>::new());
        assert_eq!(met(1_000_000..1_000_000 + ENOUGH, 400).faults(), Vec::<String>::new());
    }

    #[test]
    fn too_few_inputs_are_noticed() {
        let faults = met(0..3, 20).faults().join("\n");
        for wanted in ["at level 0 the lists never met a done begin while", "at level 2 "] {
            assert!(faults.contains(wanted), "{faults}");
        }
    }

    /// Slips 1, 15 and 40 show in a reply alone; the others by which a level can notice those that it
    /// does not dominate show in the house.
    #[test]
    fn the_houses_show_what_a_level_can_notice() {
        for (number, (name, conduct)) in (1..).zip(SLIPS) {
            let shows = |seed: &u64| {
                let rule = generator::rule_of(*seed);
                let input = generator::input(*seed, rule, 400);
                check_houses(&input, rule, conduct, &mut Met::default()).is_err()
            };
            let found = (0..24).filter(shows).count();
            let is_noticed = [2, 10, 11, 20, 27, 28, 30, 41].contains(&number);
            assert_eq!(found > 0, is_noticed, "{found} of 24: {name}");
        }
    }
}
