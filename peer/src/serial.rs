//! Demand 3 by brute force: committed transactions, run alone in the order of their commits on a
//! plain table, read what the desk answered and leave what the desk holds.

use crate::desk::Desk;
use crate::generator::{rule_of, Generator};
use crate::order::Order;
use crate::progress::each_seed;
use crate::rule::Rule;
use crate::run::Answer;
use crate::stop::Stop;
use crate::wire::{Operation, Reply, Request};
use std::collections::HashMap;
use std::io::Write;

/// A value and its version.
type Pair = (u32, u32);

/// A done read with its answer, or a done write.
enum Deed {
    Read { item: usize, answered: Pair },
    Write { item: usize, value: u32 },
}

/// The plain table: values and versions, no locks.
struct Table(Vec<Pair>);

impl Table {
    /// Repeats one transaction's deeds in their order, and ends it.
    fn run_alone(&mut self, deeds: &[Deed]) -> Result<(), String> {
        let mut written: HashMap<usize, u32> = HashMap::new();
        for deed in deeds {
            match *deed {
                Deed::Write { item, value } => {
                    written.insert(item, value);
                }
                Deed::Read { item, answered } => {
                    let (value, version) = self.0[item];
                    let alone = match written.get(&item) {
                        Some(&own) => (own, version.saturating_add(1)),
                        None => (value, version),
                    };
                    if alone != answered {
                        return Err(format!(
                            "its read of item {item} was answered {answered:?}, alone it reads \
                             {alone:?} (value, version)"
                        ));
                    }
                }
            }
        }
        for (item, value) in written {
            self.0[item] = (value, self.0[item].1.saturating_add(1));
        }
        Ok(())
    }

    fn check_against(&self, desk: &Desk) -> Result<(), String> {
        for (number, (item, alone)) in desk.items.iter().zip(&self.0).enumerate() {
            let held = (item.value, item.version);
            if held != *alone {
                return Err(format!(
                    "the desk holds {held:?} for item {number}, the table {alone:?} (value, version)"
                ));
            }
        }
        Ok(())
    }
}

/// What the open transactions have done so far, by level and ticket.
struct Watch {
    table: Table,
    open: HashMap<(u8, u32), Vec<Deed>>,
    commits: u64,
    reads: u64,
}

impl Watch {
    fn new(desk: &Desk) -> Watch {
        let table = Table(vec![(0, 0); desk.items.len()]);
        Watch { table, open: HashMap::new(), commits: 0, reads: 0 }
    }

    /// Notes one request and its reply; `desk` is the house after it.
    fn note(&mut self, request: &Request, reply: &Reply, desk: &Desk) -> Result<(), String> {
        if reply.number != 0 {
            return Ok(());
        }
        let name = (request.level, request.ticket);
        let item = usize::from(request.item);
        match Operation::from_number(request.operation) {
            Some(Operation::Begin) => {
                self.open.insert((request.level, reply.ticket), Vec::new());
            }
            Some(Operation::Read) => {
                let answered = (reply.value, reply.version);
                self.open.entry(name).or_default().push(Deed::Read { item, answered });
            }
            Some(Operation::Write) => {
                let value = request.value;
                self.open.entry(name).or_default().push(Deed::Write { item, value });
            }
            Some(Operation::Abort) => {
                self.open.remove(&name);
            }
            Some(Operation::Commit) => return self.commit(name, desk),
            Some(Operation::Certify | Operation::Ask) | None => {}
        }
        Ok(())
    }

    fn commit(&mut self, name: (u8, u32), desk: &Desk) -> Result<(), String> {
        let deeds = self.open.remove(&name).unwrap_or_default();
        self.commits += 1;
        self.reads += deeds.iter().filter(|deed| matches!(deed, Deed::Read { .. })).count() as u64;
        let checked = self.table.run_alone(&deeds).and_then(|()| self.table.check_against(desk));
        checked.map_err(|what| {
            let (level, ticket) = name;
            format!("commit {} (level {level} #{ticket}): {what}", self.commits)
        })
    }
}

/// One random run: how many transactions were committed, and how many reads they had.
fn check_run(
    mut generator: Generator,
    requests: usize,
    answer: Answer,
) -> Result<(u64, u64), String> {
    let mut desk = generator.desk().clone();
    let mut watch = Watch::new(&desk);
    for index in 1..=requests {
        let request = generator.next_request();
        let reply = answer(&mut desk, &request);
        watch.note(&request, &reply, &desk).map_err(|what| format!("request {index}: {what}"))?;
    }
    watch.table.check_against(&desk).map_err(|what| format!("at its end: {what}"))?;
    Ok((watch.commits, watch.reads))
}

pub fn serial(seeds: u64, requests: usize, out: &mut impl Write) -> Result<(), Stop> {
    let (mut commits, mut reads) = (0, 0);
    let (mut orders, mut under_b) = (Vec::<Order>::new(), 0);
    each_seed("checked", 0, seeds, |seed| {
        let rule = rule_of(seed);
        let generator = Generator::new(seed, rule);
        let order = generator.desk().order;
        let (more_commits, more_reads) = check_run(generator, requests, Desk::answer)
            .map_err(|what| Stop::Found(format!("run {seed}, {what}")))?;
        commits += more_commits;
        reads += more_reads;
        under_b += u64::from(rule == Rule::B);
        orders.extend((!orders.contains(&order)).then_some(order));
        Ok(())
    })?;
    writeln!(
        out,
        "checked {seeds} runs of {requests} requests, {under_b} of them under rule B, with {} orders \
         of levels: {commits} committed transactions, with {reads} reads, are as if run alone in the \
         order of their commits",
        orders.len()
    )?;
    Ok(())
}

#[cfg(test)]
mod tests {
    use super::*;
    use crate::slips::SLIPS;

    #[test]
    fn the_desk_is_serial() {
        for (seed, rule) in (0..40).flat_map(|seed| Rule::ALL.map(|rule| (seed, rule))) {
            let generator = Generator::new(seed, rule);
            let (commits, _) = check_run(generator, 400, Desk::answer).expect("serial");
            assert!(commits > 0, "run {seed} under rule {rule} commits nothing");
        }
    }

    /// Under which rules the slip of this name breaks demand 3.
    fn broken_by(name: &str) -> Vec<Rule> {
        let (_, slip) = SLIPS.into_iter().find(|(slip, _)| *slip == name).expect(name);
        let fails = |seed, rule| check_run(Generator::new(seed, rule), 400, slip.answer).is_err();
        let is_broken = |rule: &Rule| (0..80).any(|seed| fails(seed, *rule));
        Rule::ALL.into_iter().filter(is_broken).collect()
    }

    #[test]
    fn a_commit_after_a_signal_and_a_signal_not_given_are_noticed() {
        let late = "lets a certified transaction commit after it was signalled";
        assert_eq!(broken_by(late), Rule::ALL);
        assert_eq!(broken_by("gives no signal under rule B"), [Rule::B]);
    }
}
