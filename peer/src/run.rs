//! The running desk: bytes in, bytes out, in whatever pieces they arrive.

use crate::desk::{Desk, Refusal, MOST_ITEMS};
use crate::opening::{split_header, Opening};
use crate::order::TABLE_BYTES;
use crate::rule::Rule;
use crate::wire::{Reply, Request, REQUEST_BYTES};
use std::io::{self, Read, Write};

/// Opens a house from the bytes that have come, which do not tell the rule: None until the whole
/// header is there.
pub type Open = fn(&[u8], Rule) -> Option<Result<Desk, Refusal>>;
pub type Answer = fn(&mut Desk, &Request) -> Reply;

/// How a desk opens and answers: as the rules say, or with one of the deliberate slips.
#[derive(Clone, Copy)]
pub struct Conduct {
    pub open: Open,
    pub answer: Answer,
}

pub const BY_THE_RULES: Conduct = Conduct { open, answer: Desk::answer };

pub fn open(bytes: &[u8], rule: Rule) -> Option<Result<Desk, Refusal>> {
    open_with(bytes, rule, Desk::open)
}

/// Opens by the levels and the table of a header. A count of 0 or above 64 is refused without them.
pub fn open_with(
    bytes: &[u8],
    rule: Rule,
    open: impl FnOnce(&Opening) -> Result<Desk, Refusal>,
) -> Option<Result<Desk, Refusal>> {
    let (&count, rest) = bytes.split_first()?;
    let count = usize::from(count);
    if count == 0 || count > MOST_ITEMS {
        return Some(Err(Refusal::ItemCount));
    }
    let (levels, rest) = rest.split_at_checked(count)?;
    let table = rest.get(..TABLE_BYTES)?;
    Some(open(&Opening::new(levels, table).under(rule)))
}

enum State {
    Opening,
    Open(Desk),
    Stopped,
}

/// One run of the program, fed with input as it comes.
pub struct Run {
    rule: Rule,
    conduct: Conduct,
    state: State,
    /// What has arrived and is not yet a whole header or request.
    waiting: Vec<u8>,
}

impl Run {
    pub fn new(rule: Rule, conduct: Conduct) -> Run {
        Run { rule, conduct, state: State::Opening, waiting: Vec::new() }
    }

    pub fn is_stopped(&self) -> bool {
        matches!(self.state, State::Stopped)
    }

    /// Takes what has arrived and gives the replies due now.
    pub fn feed(&mut self, bytes: &[u8]) -> Vec<u8> {
        self.waiting.extend_from_slice(bytes);
        if matches!(self.state, State::Opening) {
            match (self.conduct.open)(&self.waiting, self.rule) {
                None => return Vec::new(),
                Some(Err(refusal)) => return self.stop(refusal),
                Some(Ok(desk)) => {
                    self.waiting.drain(..1 + desk.items.len() + TABLE_BYTES);
                    self.state = State::Open(desk);
                }
            }
        }
        self.answer_whole_requests()
    }

    /// The input has ended. A header cut short is refused; an unfinished request gets no reply.
    pub fn end(&mut self) -> Vec<u8> {
        match self.state {
            State::Opening => self.stop(Refusal::ItemCount),
            State::Open(_) | State::Stopped => Vec::new(),
        }
    }

    fn stop(&mut self, refusal: Refusal) -> Vec<u8> {
        self.state = State::Stopped;
        Reply { number: refusal.number(), ..Reply::default() }.to_bytes().to_vec()
    }

    fn answer_whole_requests(&mut self) -> Vec<u8> {
        let State::Open(desk) = &mut self.state else {
            return Vec::new();
        };
        let (replies, rest) = answer_whole(desk, self.conduct.answer, &self.waiting);
        self.waiting = rest.to_vec();
        replies
    }
}

/// The replies to the whole requests of these bytes, and the bytes behind them.
pub fn answer_whole<'a>(
    desk: &mut Desk,
    answer: Answer,
    mut bytes: &'a [u8],
) -> (Vec<u8>, &'a [u8]) {
    let mut replies = Vec::new();
    while let Some((request, rest)) = bytes.split_first_chunk::<REQUEST_BYTES>() {
        let reply = answer(desk, &Request::from_bytes(request));
        replies.extend_from_slice(&reply.to_bytes());
        bytes = rest;
    }
    (replies, bytes)
}

/// The house that this header opens, if it is whole and not refused.
pub fn opened(header: &[u8], rule: Rule) -> Option<Desk> {
    open(header, rule).and_then(Result::ok)
}

/// How many replies are due to a whole input: one to each whole request, or one to an opening that
/// is refused or cut short.
pub fn replies_due(input: &[u8]) -> usize {
    let (header, requests) = split_header(input);
    opened(header, Rule::A).map_or(1, |_| requests.len() / REQUEST_BYTES)
}

/// All that the program writes for this whole input.
pub fn output_for(input: &[u8], rule: Rule, conduct: Conduct) -> Vec<u8> {
    let mut run = Run::new(rule, conduct);
    let mut output = run.feed(input);
    output.extend(run.end());
    output
}

/// Runs until the input ends or the opening is refused. Each reply leaves as soon as it is due.
pub fn serve(
    mut input: impl Read,
    mut output: impl Write,
    rule: Rule,
    conduct: Conduct,
) -> io::Result<()> {
    let mut run = Run::new(rule, conduct);
    let mut buffer = [0; 1 << 16];
    while !run.is_stopped() {
        let replies = match input.read(&mut buffer) {
            Ok(0) => {
                output.write_all(&run.end())?;
                return output.flush();
            }
            Ok(count) => run.feed(&buffer[..count]),
            Err(error) if error.kind() == io::ErrorKind::Interrupted => continue,
            Err(error) => return Err(error),
        };
        output.write_all(&replies)?;
        output.flush()?;
    }
    Ok(())
}

#[cfg(test)]
mod tests {
    use super::*;
    use crate::generator;
    use crate::order::Order;
    use crate::talk::{DAY_INPUT, DAY_OUTPUT};
    use crate::wire::REPLY_BYTES;

    fn refused(number: u8) -> Vec<u8> {
        Reply { number, ..Reply::default() }.to_bytes().to_vec()
    }

    #[test]
    fn the_worked_day() {
        assert_eq!(output_for(&DAY_INPUT, Rule::A, BY_THE_RULES), DAY_OUTPUT);
    }

    #[test]
    fn refused_and_cut_openings() {
        let chain = Order::CHAIN.table();
        let mut reversed = chain;
        reversed.reverse();
        let cases: [(&[u8], &[u8], u8); 13] = [
            (&[], &[], 13),
            (&[0], &[], 13),
            (&[0], &chain, 13),
            (&[65], &[], 13),
            (&[2, 0], &[], 13),
            (&[2, 9], &[], 13),
            (&[1, 0], &[], 13),
            (&[1, 0], &chain[..15], 13),
            (&[2, 0, 4], &[2; 15], 13),
            (&[1, 4], &chain, 14),
            (&[2, 0, 255], &[2; 30], 14),
            (&[1, 0], &[0; 16], 16),
            (&[1, 3], &[1; 30], 16),
        ];
        for (levels, table, number) in cases {
            let input = [levels, table].concat();
            assert_eq!(
                output_for(&input, Rule::A, BY_THE_RULES),
                refused(number),
                "input {input:?}"
            );
        }
        assert_eq!(
            output_for(&[&[1, 0][..], &reversed].concat(), Rule::A, BY_THE_RULES),
            Vec::new()
        );
        assert_eq!(output_for(&DAY_INPUT[..53], Rule::A, BY_THE_RULES), DAY_OUTPUT[..32]);
    }

    #[test]
    fn pieces_do_not_matter() {
        for seed in 0..60 {
            let rule = generator::rule_of(seed);
            let input = generator::input(seed, rule, 20);
            let whole = output_for(&input, rule, BY_THE_RULES);
            for size in 1..30 {
                let mut run = Run::new(rule, BY_THE_RULES);
                let mut output = Vec::new();
                for piece in input.chunks(size) {
                    output.extend(run.feed(piece));
                }
                output.extend(run.end());
                assert_eq!(output, whole, "seed {seed} in pieces of {size}");
            }
        }
    }

    #[test]
    fn as_many_replies_come_as_are_due() {
        for seed in 0..200 {
            let rule = generator::rule_of(seed);
            for input in [generator::input(seed, rule, 20), generator::random_bytes(seed)] {
                let output = output_for(&input, rule, BY_THE_RULES);
                assert_eq!(output.len(), replies_due(&input) * REPLY_BYTES, "seed {seed}");
            }
        }
    }

    #[test]
    fn the_streams_carry_the_same_bytes() {
        for seed in 0..60 {
            let rule = generator::rule_of(seed);
            let input = generator::input(seed, rule, 50);
            let mut output = Vec::new();
            serve(input.as_slice(), &mut output, rule, BY_THE_RULES).expect("reading from memory");
            assert_eq!(output, output_for(&input, rule, BY_THE_RULES));
        }
    }
}
