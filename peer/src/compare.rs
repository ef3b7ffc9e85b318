//! Runs a program on many inputs and compares its bytes with the peer's own.

use crate::desk::Desk;
use crate::generator;
use crate::opening::split_header;
use crate::program::Program;
use crate::progress::each_seed;
use crate::rule::Rule;
use crate::run::{answer_whole, opened, output_for, replies_due, BY_THE_RULES};
use crate::stop::Stop;
use crate::wire::{hex, Reply, Request, REPLY_BYTES, REQUEST_BYTES};
use crate::words;
use std::io::Write;
use std::time::Duration;

/// How long a program may go without writing anything or ending.
const PATIENCE: Duration = Duration::from_secs(60);

/// Which rules a program can be told (CR 7).
#[derive(Clone, Copy, PartialEq, Eq)]
pub enum Rules {
    /// None: it takes rule A, as the program does.
    OnlyA,
    /// Either, as its last word.
    Either,
}

impl Rules {
    /// The command that serves a house under the rule.
    pub fn command(self, command: &str, rule: Rule) -> String {
        match self {
            Rules::OnlyA => command.to_string(),
            Rules::Either => format!("{command} {rule}"),
        }
    }
}

/// Which inputs are compared.
pub enum Inputs {
    /// `gen`'s inputs of this many requests.
    Generated { requests: usize, rules: Rules },
    /// Random byte strings.
    Random,
}

impl Inputs {
    fn rules(&self) -> Rules {
        match self {
            Inputs::Generated { rules, .. } => *rules,
            Inputs::Random => Rules::OnlyA,
        }
    }

    pub fn rule(&self, seed: u64) -> Rule {
        match self.rules() {
            Rules::OnlyA => Rule::A,
            Rules::Either => generator::rule_of(seed),
        }
    }

    pub fn bytes(&self, seed: u64) -> Vec<u8> {
        match self {
            Inputs::Generated { requests, .. } => {
                generator::input(seed, self.rule(seed), *requests)
            }
            Inputs::Random => generator::random_bytes(seed),
        }
    }

    pub fn how_to_make(&self, seed: u64) -> String {
        match self {
            Inputs::Generated { requests, rules: Rules::OnlyA } => {
                format!("peer gen {seed} {requests}")
            }
            Inputs::Generated { requests, rules: Rules::Either } => {
                format!("peer gen {seed} {requests} {}", self.rule(seed))
            }
            Inputs::Random => format!("peer gen --random {seed}"),
        }
    }
}

pub fn compare(
    command: &str,
    inputs: &Inputs,
    from: u64,
    count: u64,
    out: &mut impl Write,
) -> Result<(), Stop> {
    let (mut requests, mut refused, mut under_b) = (0, 0, 0);
    each_seed("compared", from, count, |seed| {
        let (rule, input) = (inputs.rule(seed), inputs.bytes(seed));
        let command = inputs.rules().command(command, rule);
        let ours = output_for(&input, rule, BY_THE_RULES);
        let explained = |theirs: &[u8]| explain(&input, rule, &ours, theirs);
        compare_one(&command, &input, ours.len(), explained)
            .map_err(|stop| stop.on_input_of(&inputs.how_to_make(seed)))?;
        match opened(split_header(&input).0, rule) {
            None => refused += 1,
            Some(_) => requests += ours.len() / REPLY_BYTES,
        }
        under_b += u64::from(rule == Rule::B);
        Ok(())
    })?;
    let rules = match inputs.rules() {
        Rules::OnlyA => String::new(),
        Rules::Either => format!(", {under_b} of them under rule B"),
    };
    writeln!(
        out,
        "compared {count} inputs{rules}, {requests} requests, {refused} refused openings: no \
         difference"
    )?;
    Ok(())
}

/// Runs the program on one input and gives what it writes, `due` bytes where all is well; of these
/// `explain` says the first difference.
pub fn compare_one(
    command: &str,
    input: &[u8],
    due: usize,
    explain: impl FnOnce(&[u8]) -> Option<String>,
) -> Result<Vec<u8>, Stop> {
    let mut program = Program::start(command)?;
    program.send_all_and_close(input.to_vec())?;
    let theirs = program.receive_rest(due, PATIENCE).map_err(Stop::Found)?;
    let Some(difference) = explain(&theirs) else {
        program.check_end().map_err(Stop::Found)?;
        return Ok(theirs);
    };
    let end = program.failed_end().unwrap_or_default();
    Err(Stop::Found(format!("{}\n{end}", difference.trim_end())))
}

/// What the program answers to an input, or the peer's own desk where there is none. It has to be
/// as long as it is due to be; whether it is right is not looked at. `list` names the input, `rule`
/// is that of its house.
pub fn answer_of(
    command: Option<&str>,
    list: &str,
    input: &[u8],
    rule: Rule,
) -> Result<Vec<u8>, Stop> {
    let Some(command) = command else {
        return Ok(output_for(input, rule, BY_THE_RULES));
    };
    let due = replies_due(input) * REPLY_BYTES;
    let explained = |output: &[u8]| match output.len() {
        length if length < due => Some(format!("its output ends after {length} of {due} bytes")),
        length if length > due => Some(format!("its output goes on after the {due} bytes due")),
        _ => None,
    };
    let answer = compare_one(command, input, due, explained);
    answer.map_err(|stop| stop.at(&format!("the {list}")))
}

/// The first byte at which two outputs differ, if they do; it may lie past the end of one.
pub fn first_difference(one: &[u8], other: &[u8]) -> Option<usize> {
    let same = one.iter().zip(other).take_while(|(one, other)| one == other).count();
    (one != other).then_some(same)
}

/// The first difference in words, if there is one.
pub fn explain(input: &[u8], rule: Rule, ours: &[u8], theirs: &[u8]) -> Option<String> {
    let same = first_difference(ours, theirs)?;
    let index = same / REPLY_BYTES;
    let (ours, theirs) = (reply_at(ours, index), reply_at(theirs, index));
    let replies = explain_replies(input, rule, index, ("peer", ours), ("program", theirs));
    Some(format!("the outputs differ at byte {same}\n{replies}"))
}

/// Who gave a reply, and its bytes.
pub type Given<'a> = (&'a str, &'a [u8]);

/// Two replies to the request of this index in words, and the house it was asked in.
pub fn explain_replies(
    input: &[u8],
    rule: Rule,
    index: usize,
    left: Given,
    right: Given,
) -> String {
    let (header, requests) = split_header(input);
    let house = opened(header, rule).ok_or_else(|| refused_opening(header));
    explain_in(house, requests, index, left, right)
}

/// The same of requests in a house as it was opened, or in words why there is none.
pub fn explain_in(
    house: Result<Desk, String>,
    requests: &[u8],
    index: usize,
    left: Given,
    right: Given,
) -> String {
    let place = words_for_place(house, requests, index);
    let width = "the :".len() + left.0.len().max(right.0.len());
    let line = |name: &str, words: &str| format!("\n  {name:<width$} {words}");
    let mut text = place.what;
    if let Some(bytes) = place.bytes {
        text += &line("bytes:", &bytes);
    }
    for (name, reply) in [left, right] {
        text += &line(&format!("the {name}:"), &words_for_reply(reply));
    }
    if let (Some(one), Some(other)) = (whole(left.1), whole(right.1)) {
        let fields = words::differing_fields((left.0, &one), (right.0, &other));
        text += &format!("\n  they differ in {fields}");
    }
    if let Some(house) = place.house {
        text += &format!("\nthe house before it, as the peer sees it:\n{house}");
    }
    text
}

/// What a reply answers, in words and in bytes, and the house it was asked in.
struct Place {
    what: String,
    bytes: Option<String>,
    house: Option<String>,
}

fn words_for_place(house: Result<Desk, String>, requests: &[u8], index: usize) -> Place {
    let mut desk = match house {
        Ok(desk) => desk,
        Err(what) => return Place { what, bytes: None, house: None },
    };
    let start = (index * REQUEST_BYTES).min(requests.len());
    answer_whole(&mut desk, Desk::answer, &requests[..start]);
    let house = Some(words::lock_table(&desk));
    let Some(bytes) = requests[start..].first_chunk::<REQUEST_BYTES>() else {
        let what = format!("after the last whole request ({index} were answered)");
        return Place { what, bytes: None, house };
    };
    let request = words::request(&Request::from_bytes(bytes));
    let what = format!("request {} (the first is 1): {request}", index + 1);
    Place { what, bytes: Some(hex(bytes)), house }
}

/// The header in words, of an input that opens no house.
pub fn refused_opening(header: &[u8]) -> String {
    let shown = if header.is_empty() { "no bytes".to_string() } else { hex(header) };
    format!("the opening is refused: {shown}")
}

pub fn reply_at(output: &[u8], index: usize) -> &[u8] {
    let start = (index * REPLY_BYTES).min(output.len());
    &output[start..(start + REPLY_BYTES).min(output.len())]
}

fn whole(reply: &[u8]) -> Option<Reply> {
    reply.first_chunk::<REPLY_BYTES>().map(Reply::from_bytes)
}

fn words_for_reply(bytes: &[u8]) -> String {
    match whole(bytes) {
        Some(reply) => format!("{}  {}", hex(bytes), words::reply(&reply)),
        None if bytes.is_empty() => "nothing".to_string(),
        None => format!("{}  (only {} bytes of a reply)", hex(bytes), bytes.len()),
    }
}

#[cfg(test)]
mod tests {
    use super::*;
    use crate::slips::SLIPS;
    use crate::talk::{DAY_INPUT, DAY_OUTPUT};

    fn explain_day(theirs: &[u8]) -> Option<String> {
        explain(&DAY_INPUT, Rule::A, &DAY_OUTPUT, theirs)
    }

    #[test]
    fn equal_outputs_need_no_words() {
        assert_eq!(explain_day(&DAY_OUTPUT), None);
    }

    #[test]
    fn a_wrong_reply_is_put_in_words() {
        let mut wrong = DAY_OUTPUT;
        wrong[44] = 9;
        let text = explain_day(&wrong).expect("a difference");
        assert!(text.contains("request 3 (the first is 1): level 0 #1 reads item 0"), "{text}");
        assert!(text.contains("they differ in version (peer: 1, program: 9)"), "{text}");
    }

    #[test]
    fn missing_and_spare_bytes_are_put_in_words() {
        let text = explain_day(&DAY_OUTPUT[..20]).expect("a difference");
        assert!(text.contains("only 4 bytes of a reply"), "{text}");
        let more = [&DAY_OUTPUT[..], &[1]].concat();
        let text = explain_day(&more).expect("a difference");
        assert!(text.contains("after the last whole request (3 were answered)"), "{text}");
        let due = output_for(&[0], Rule::A, BY_THE_RULES);
        let text = explain(&[0], Rule::A, &due, &[]).expect("a difference");
        assert!(text.contains("the opening is refused: 00"), "{text}");
    }

    #[test]
    fn each_slip_of_the_trade_shows_in_the_bytes() {
        // Slips of the opening need no requests, but many openings.
        let seeds = (0..120).map(|seed| (seed, 400)).chain((0..400).map(|seed| (seed, 1)));
        let cases: Vec<(Rule, Vec<u8>, Vec<u8>)> = seeds
            .map(|(seed, requests)| {
                let rule = generator::rule_of(seed);
                let input = generator::input(seed, rule, requests);
                let due = output_for(&input, rule, BY_THE_RULES);
                (rule, input, due)
            })
            .collect();
        for (name, conduct) in SLIPS {
            let differs = |(rule, input, due): &&(Rule, Vec<u8>, Vec<u8>)| {
                *due != output_for(input, *rule, conduct)
            };
            let found = cases.iter().filter(differs).count();
            assert!(found >= 4, "a desk that {name} was found on {found} inputs only");
        }
    }
}
