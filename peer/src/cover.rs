//! Which replies the generated inputs meet: all that the rules let a run reach must be there.

mod delays;
mod moment;
mod openings;
mod orders;
mod rules;
mod tally;

use crate::desk::{Desk, Place, Refusal, Standing, PLACES_PER_LEVEL};
use crate::generator;
use crate::opening::split_header;
use crate::progress::each_seed;
use crate::rule::Rule;
use crate::run::{opened, output_for, BY_THE_RULES};
use crate::stop::Stop;
use crate::wire::{Operation, Reply, Request, REQUEST_BYTES};
use delays::Delay;
use moment::Moment;
use openings::Openings;
use std::io::{self, Write};
use tally::Tally;

/// Rows: the operations, then all numbers above 6 together.
const ROWS: usize = 8;
const ROW_NAMES: [&str; ROWS] =
    ["begin", "read", "write", "certify", "commit", "abort", "ask", "above 6"];
/// Columns: the reply numbers that a request can get.
const NUMBERS: [u8; 14] = [0, 1, 2, 3, 4, 5, 6, 7, 8, 9, 10, 11, 12, 15];

/// The numbers each operation can get in a run. A number is missing where its row in the
/// table names another operation, or a field that the operation does not have.
const REACHABLE: [&[u8]; ROWS] = [
    // Begin names no transaction and no item (no 6, 7, 8, 2, 9) and takes no lock (no 1).
    &[0, 4, 5, 11],
    &[0, 1, 2, 4, 5, 6, 7, 8, 9],
    // Write uses every field, so none is left to be 5.
    &[0, 1, 2, 4, 6, 7, 8, 9, 15],
    // Certify, commit, abort and ask name no item (no 7, 8).
    &[0, 1, 2, 4, 5, 6, 9],
    // A commit is never delayed: its locks were settled by the certify.
    &[0, 2, 4, 5, 6, 9],
    // Abort and ask work whether or not signalled or certified (no 2, 9).
    &[0, 4, 5, 6],
    &[0, 4, 5, 6],
    // The operation is checked before anything else.
    &[3],
];

/// The numbers that the operation can get in a run.
pub fn reachable(operation: Operation) -> &'static [u8] {
    REACHABLE[usize::from(operation.number())]
}

/// Possible by the rules, but no run on the wire gets there in practice.
const OUT_OF_REACH: [(Operation, u8, &str); 2] = [
    (Operation::Write, 10, "takes 4,294,967,295 commits of writes to one item"),
    (Operation::Begin, 12, "takes 4,294,967,295 begins at one level"),
];

/// From this many inputs on, everything that a comparison counts has to be met.
pub const ENOUGH: u64 = 100;

/// Standings a requester can be in; every operation that names it should meet each.
const STANDINGS: [&str; 4] = ["active", "active, signalled", "certified", "certified, signalled"];

/// What the inputs for houses under one rule meet.
struct Counts {
    rule: Rule,
    replies: [[u64; NUMBERS.len()]; ROWS],
    /// By operation and standing of the transaction that the request names.
    standings: [[u64; STANDINGS.len()]; ROWS],
    /// By how many places a search that begins at the ticket modulo 8 passes before the transaction
    /// that the request names.
    passed: [u64; PLACES_PER_LEVEL],
    /// Writes of 0, by what the same write of 1 is answered: 15 comes behind some of these numbers
    /// and before the others.
    blank: [u64; NUMBERS.len()],
    delays: Tally<delays::Meets>,
    openings: Openings,
    orders: Tally<orders::Meets>,
    signals: Tally<rules::Meets>,
    /// Replies that no reading of the rules allows.
    strange: u64,
}

impl Counts {
    fn new(rule: Rule) -> Counts {
        Counts {
            rule,
            replies: Default::default(),
            standings: Default::default(),
            passed: Default::default(),
            blank: Default::default(),
            delays: delays::tally(),
            openings: Openings::default(),
            orders: orders::tally(),
            signals: rules::tally(rule),
            strange: 0,
        }
    }

    fn note_input(&mut self, input: &[u8]) {
        let (header, mut requests) = split_header(input);
        let Some(mut desk) = opened(header, self.rule) else {
            let refusal = output_for(header, self.rule, BY_THE_RULES);
            self.openings.note_refused(header, &refusal);
            return;
        };
        self.openings.note_opened(desk.order);
        while let Some((bytes, rest)) = requests.split_first_chunk::<REQUEST_BYTES>() {
            let request = Request::from_bytes(bytes);
            self.note_named(&desk, &request);
            self.note_blank(&desk, &request);
            let before = desk.clone();
            let reply = desk.answer(&request);
            let moment = Moment { before: &before, after: &desk, request: &request, reply };
            self.orders.note(|is_met| is_met(&moment));
            self.signals.note(|is_met| is_met(&moment));
            self.note_reply(&desk, &request, &reply);
            requests = rest;
        }
    }

    fn note_named(&mut self, desk: &Desk, request: &Request) {
        if let Ok(place) = desk.find(request.level, request.ticket) {
            let row = usize::from(request.operation).min(ROWS - 1);
            self.standings[row][standing(&desk.places[place])] += 1;
            let start = request.ticket as usize % PLACES_PER_LEVEL;
            self.passed[(place + PLACES_PER_LEVEL - start) % PLACES_PER_LEVEL] += 1;
        }
    }

    fn note_blank(&mut self, desk: &Desk, request: &Request) {
        if !request.is_blank_write() {
            return;
        }
        let otherwise = desk.clone().answer(&request.with_sheet());
        match column(otherwise.number) {
            Some(column) => self.blank[column] += 1,
            None => self.strange += 1,
        }
    }

    fn note_reply(&mut self, desk: &Desk, request: &Request, reply: &Reply) {
        if reply.number == Refusal::Delayed.number() {
            match Delay::of(desk, request, reply) {
                Some(delay) => self.delays.note(|is_met| is_met(&delay)),
                None => self.strange += 1,
            }
        }
        let row = usize::from(reply.operation).min(ROWS - 1);
        match column(reply.number) {
            Some(column) => self.replies[row][column] += 1,
            None => self.strange += 1,
        }
    }

    /// What should have been met and was not, or should never be and was.
    fn faults(&self) -> Vec<String> {
        let mut faults = Vec::new();
        for (row, name) in ROW_NAMES.iter().enumerate() {
            for (number, count) in NUMBERS.into_iter().zip(self.replies[row]) {
                match (REACHABLE[row].contains(&number), count) {
                    (true, 0) => faults.push(format!("{name} was never answered {number}")),
                    (false, 1..) => faults.push(format!("{name} cannot be answered {number}")),
                    _ => {}
                }
            }
        }
        for operation in Operation::ALL.into_iter().filter(|operation| operation.uses_ticket()) {
            let counts = self.standings[usize::from(operation.number())];
            for (name, _) in STANDINGS.iter().zip(counts).filter(|(_, count)| *count == 0) {
                faults.push(format!("no {} came from a transaction {name}", operation.name()));
            }
        }
        for (number, _) in self.blank_writes().filter(|(_, count)| *count == 0) {
            faults.push(format!("no write of 0 came that would be answered {number} without it"));
        }
        for (passed, _) in self.passed.iter().enumerate().filter(|(_, count)| **count == 0) {
            faults.push(format!("no search from the ticket modulo 8 had to pass {passed} places"));
        }
        faults.extend(self.delays.faults());
        faults.extend(self.orders.faults());
        faults.extend(self.signals.faults());
        faults.extend(self.openings.faults());
        if self.strange > 0 {
            faults.push(format!("{} replies are such as nobody may give", self.strange));
        }
        faults.iter().map(|fault| format!("under rule {}: {fault}", self.rule)).collect()
    }

    /// The writes of 0 by every answer that a write may get instead.
    fn blank_writes(&self) -> impl Iterator<Item = (u8, u64)> {
        let row = reachable(Operation::Write);
        let blank = Refusal::BlankSheet.number();
        let others = NUMBERS.into_iter().zip(self.blank);
        others.filter(move |(number, _)| *number != blank && row.contains(number))
    }

    fn print(&self, out: &mut impl Write) -> io::Result<()> {
        writeln!(out, "UNDER RULE {}", self.rule)?;
        self.openings.print(out)?;
        writeln!(
            out,
            "\nreplies by operation and number (. cannot be, far: out of reach in a run)"
        )?;
        write!(out, "{:<8}", "")?;
        for number in NUMBERS {
            write!(out, "{number:>8}")?;
        }
        for (row, name) in ROW_NAMES.iter().enumerate() {
            write!(out, "\n{name:<8}")?;
            for (number, count) in NUMBERS.into_iter().zip(self.replies[row]) {
                write!(out, "{:>8}", count_or_mark(row, number, count))?;
            }
        }
        writeln!(out)?;
        for (operation, number, why) in OUT_OF_REACH {
            writeln!(out, "far: {} answered {number} {why}", operation.name())?;
        }
        let blank: Vec<String> =
            self.blank_writes().map(|(number, count)| format!("{number} {count}")).collect();
        writeln!(out, "\nwrites of 0 by the answer to the same write of 1: {}", blank.join("; "))?;
        writeln!(
            out,
            "requests by the places that their search passes, 0 to 7: {}",
            self.passed.map(|count| count.to_string()).join("; ")
        )?;
        self.delays.print(out)?;
        self.orders.print(out)?;
        self.signals.print(out)?;
        writeln!(out, "\nrequests by operation and standing of the transaction named")?;
        for operation in Operation::ALL.into_iter().filter(|operation| operation.uses_ticket()) {
            let counts = self.standings[usize::from(operation.number())];
            let cells = STANDINGS.iter().zip(counts).map(|(name, count)| format!("{name} {count}"));
            writeln!(out, "{:<8}{}", operation.name(), cells.collect::<Vec<_>>().join("; "))?;
        }
        Ok(())
    }
}

fn column(number: u8) -> Option<usize> {
    NUMBERS.iter().position(|&known| known == number)
}

fn standing(place: &Place) -> usize {
    let certified = usize::from(place.standing == Standing::Certified);
    2 * certified + usize::from(!place.signalled().is_empty())
}

fn count_or_mark(row: usize, number: u8, count: u64) -> String {
    let is_far = |&(operation, far, _): &(Operation, u8, &str)| {
        usize::from(operation.number()) == row && far == number
    };
    if count > 0 || REACHABLE[row].contains(&number) {
        count.to_string()
    } else if OUT_OF_REACH.iter().any(is_far) {
        "far".to_string()
    } else {
        ".".to_string()
    }
}

pub fn cover(seeds: u64, requests: usize, out: &mut impl Write) -> Result<(), Stop> {
    let mut counts = Rule::ALL.map(Counts::new);
    each_seed("counted", 0, seeds, |seed| {
        let rule = generator::rule_of(seed);
        let input = generator::input(seed, rule, requests);
        counts[usize::from(rule.number())].note_input(&input);
        Ok(())
    })?;
    for counts in &counts {
        counts.print(out)?;
        writeln!(out)?;
    }
    check_faults(&counts.iter().flat_map(Counts::faults).collect::<Vec<_>>())?;
    writeln!(out, "covered: every reply that a run can reach was met, under either rule")?;
    Ok(())
}

fn check_faults(faults: &[String]) -> Result<(), Stop> {
    if faults.is_empty() {
        return Ok(());
    }
    Err(Stop::Found(faults.join("\n")))
}

/// How often each of the named things was met, a line each.
pub fn print_met<T>(
    out: &mut impl Write,
    before: &str,
    meets: &[(&str, T)],
    counts: &[u64],
) -> io::Result<()> {
    for ((name, _), count) in meets.iter().zip(counts) {
        writeln!(out, "{before}{name}: {count}")?;
    }
    Ok(())
}

/// Those of the named things that were never met.
pub fn unmet<'a, T>(
    meets: &'a [(&'a str, T)],
    counts: &'a [u64],
) -> impl Iterator<Item = &'a str> + 'a {
    meets.iter().zip(counts).filter(|(_, count)| **count == 0).map(|((name, _), _)| *name)
}

/// Notices a comparison that tried too little; `faults` says what its inputs did not meet.
pub fn check_met(inputs: u64, faults: &[String]) -> Result<(), Stop> {
    if inputs < ENOUGH {
        return Ok(());
    }
    check_faults(faults)
}

#[cfg(test)]
mod tests {
    use super::*;

    #[test]
    fn enough_inputs_meet_everything() {
        assert!(cover(600, 200, &mut io::sink()).is_ok());
    }

    #[test]
    fn too_few_inputs_are_noticed() {
        let Err(Stop::Found(faults)) = cover(3, 20, &mut io::sink()) else {
            panic!("three inputs are enough");
        };
        let wanted = [
            "begin was never answered 11",
            "no house was opened with the order 0<1 0<2 1<3 2<3",
            "no opening was refused 16: three levels that are not transitive alone",
            "under rule A: never met: signals of level 3 to level 0 above it",
            "under rule B: never met: a done commit that signals several",
        ];
        for words in wanted {
            assert!(faults.contains(words), "{words}: {faults}");
        }
    }
}
