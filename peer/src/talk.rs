//! Words to wire and back: a person types requests in words and sees the replies in words, with
//! the bytes of both beside them.

use crate::desk::{Desk, Refusal, LEVELS};
use crate::opening::Opening;
use crate::order::{closed, flaws, Flaw, Order, Table, TABLE_BYTES};
use crate::program::Program;
use crate::rule::Rule;
use crate::stop::Stop;
use crate::wire::{hex, Reply, Request, REPLY_BYTES, REQUEST_BYTES};
use crate::words;
use std::io::{self, BufRead, Write};

#[rustfmt::skip]
pub const DAY_INPUT: [u8; 2 + TABLE_BYTES + 3 * REQUEST_BYTES] = [
    1, 0,
    1, 1, 1, 1,  0, 1, 0, 1,  0, 0, 1, 1,  0, 0, 0, 1,
    0, 0, 0, 0, 0, 0, 0, 0, 0, 0, 0, 0,
    2, 0, 0, 0, 1, 0, 0, 0, 7, 0, 0, 0,
    1, 0, 0, 0, 1, 0, 0, 0, 0, 0, 0, 0,
];
#[rustfmt::skip]
pub const DAY_OUTPUT: [u8; 3 * REPLY_BYTES] = [
    0, 0, 0, 0, 1, 0, 0, 0, 0, 0, 0, 0, 0, 0, 0, 0,
    0, 2, 0, 0, 1, 0, 0, 0, 0, 0, 0, 0, 0, 0, 0, 0,
    0, 1, 0, 0, 1, 0, 0, 0, 7, 0, 0, 0, 1, 0, 0, 0,
];
pub const DAY_WORDS: &str = "\
open 0 order 0<1 0<2 1<3 2<3
begin 0
write 0 #1 item 0 = 7
read 0 #1 item 0
";

const HELP: &str = "\
one line each:
  open 0 0 2               opens a fresh house: the level of each item, 0 to 3, in the old
                           chain, where a larger level dominates a smaller one
  open 0 1 2 3 order 0<1 0<2 1<3 2<3
                           the same with an order: 1 and 2 above 0, 3 above both, and all that
                           follows from these; 'order' alone puts no level above another
  open 0 1 2 3 table 1111 0101 0011 0001
                           the same with the bytes of the table, row by row: 1 says that the
                           column's level dominates the row's
  open 0 0 2 rule B        any of these under rule B: signals are given at commit and not at
                           certify. The wire tells no rule, and a program takes A: under B
                           the peer's own desk answers
  begin 0                  a new transaction at level 0; its ticket comes back
  read 0 #1 item 0         level 0, ticket 1
  map 0 #1 items 0 1 0     a whole map: the single reads of these items
  write 0 #1 item 0 = 7
  certify 0 #1             then  commit 0 #1
  abort 0 #1
  ask 2 #1                 which items are signalled
  raw 07 00 00 00 01 00 00 00 00 00 00 00     any 12 bytes, in hex
  show                     the lock table
  help, quit
";

/// Said of a request before any opening.
pub const OPEN_FIRST: &str = "open a house first; say 'open 0 0 2'";

/// Said of a house that no program can be asked for.
const OWN_DESK: &str = "the wire tells no rule: here the peer's own desk answers";

/// A prompt for a person, or the line itself for a transcript of a pipe.
#[derive(Clone, Copy, PartialEq, Eq)]
pub enum Manner {
    Prompt,
    Echo,
}

struct Talk<'a, W> {
    /// The program to talk to, or None to use the peer's own desk.
    command: Option<&'a str>,
    /// Started, and waiting for its house.
    ready: Option<Program>,
    house: Option<House>,
    out: W,
    /// All bytes sent and received.
    sent: Vec<u8>,
    received: Vec<u8>,
    requests: u64,
    /// How many of them came in houses where no program answers.
    without_program: u64,
    /// How often the program did not do what the peer's desk does.
    differences: u64,
}

/// The house as the peer sees it, and the program that keeps its own.
struct House {
    desk: Desk,
    program: Option<Program>,
}

pub fn talk(
    command: Option<&str>,
    lines: impl BufRead,
    out: impl Write,
    manner: Manner,
) -> Result<(), Stop> {
    let mut talk = Talk::new(command, out)?;
    talk.converse(lines, manner)?;
    talk.sum_up()
}

/// A talk that was played, without the sentence that sums it up.
#[derive(Debug)]
pub struct Played {
    pub transcript: String,
    pub requests: u64,
    /// Of these requests, those in a house under rule B, where the peer's own desk answers.
    pub under_b: u64,
    pub differences: u64,
}

/// Plays these lines of words.
pub fn play(command: Option<&str>, lines: &str) -> Result<Played, Stop> {
    let mut transcript = Vec::new();
    let mut talk = Talk::new(command, &mut transcript)?;
    talk.converse(lines.as_bytes(), Manner::Echo)?;
    let Talk { requests, without_program: under_b, differences, .. } = talk;
    let transcript = String::from_utf8_lossy(&transcript).into_owned();
    Ok(Played { transcript, requests, under_b, differences })
}

/// Plays document 01's day and checks that its bytes are those of the document.
pub fn day(command: Option<&str>, out: impl Write) -> Result<(), Stop> {
    let mut talk = Talk::new(command, out)?;
    talk.converse(DAY_WORDS.as_bytes(), Manner::Echo)?;
    if talk.sent != DAY_INPUT || talk.received != DAY_OUTPUT {
        return Err(Stop::Found("these are not the bytes of document 01's day".to_string()));
    }
    let day = "document 01, \"One day at the desk, whole\", with its table (CR 6)";
    writeln!(talk.out, "these are the bytes of {day}")?;
    talk.sum_up()
}

impl<'a, W: Write> Talk<'a, W> {
    /// Starts the program at once: one that cannot be talked to is told before any prompt.
    fn new(command: Option<&'a str>, out: W) -> Result<Talk<'a, W>, Stop> {
        let ready = start(command)?;
        Ok(Talk {
            command,
            ready,
            house: None,
            out,
            sent: Vec::new(),
            received: Vec::new(),
            requests: 0,
            without_program: 0,
            differences: 0,
        })
    }

    fn converse(&mut self, mut lines: impl BufRead, manner: Manner) -> Result<(), Stop> {
        if manner == Manner::Prompt {
            let examples = "open 0 0 2, or open 0 1 2 order 0<1 0<2";
            writeln!(self.out, "Start with the levels of the items: {examples} (or help)")?;
        }
        loop {
            if manner == Manner::Prompt {
                write!(self.out, "> ")?;
                self.out.flush()?;
            }
            let mut bytes = Vec::new();
            if lines.read_until(b'\n', &mut bytes)? == 0 {
                if manner == Manner::Prompt {
                    writeln!(self.out)?;
                }
                return self.close_house();
            }
            let text = String::from_utf8_lossy(&bytes);
            let line = text.trim();
            if manner == Manner::Echo && !line.is_empty() {
                writeln!(self.out, "> {line}")?;
            }
            if line == "quit" {
                return self.close_house();
            }
            self.take_line(line)?;
            self.out.flush()?;
        }
    }

    fn take_line(&mut self, line: &str) -> Result<(), Stop> {
        match line.split_whitespace().next() {
            None => return Ok(()),
            Some("help") => return Ok(write!(self.out, "{HELP}")?),
            Some("show") => return self.show(),
            Some(_) => {}
        }
        match parse_line(line) {
            Ok(Line::Open(opening)) => self.open(&opening),
            Ok(Line::Ask(requests)) => requests.iter().try_for_each(|request| self.ask(request)),
            Err(message) => self.say(&message),
        }
    }

    fn say(&mut self, message: &str) -> Result<(), Stop> {
        Ok(writeln!(self.out, "  {message}")?)
    }

    fn show(&mut self) -> Result<(), Stop> {
        match &self.house {
            Some(house) => Ok(write!(self.out, "{}", words::lock_table(&house.desk))?),
            None => self.say("no house is open; say 'open 0 0 2'"),
        }
    }

    /// The program for a house under this rule, if one can be asked.
    fn program_for(&mut self, rule: u8) -> Result<Option<Program>, Stop> {
        if rule != Rule::A.number() {
            return Ok(None);
        }
        match self.ready.take() {
            None => start(self.command),
            ready => Ok(ready),
        }
    }

    /// Each opening has a desk of its own, and a program of its own.
    fn open(&mut self, opening: &Opening) -> Result<(), Stop> {
        self.close_house()?;
        let mut program = self.program_for(opening.rule)?;
        let header = opening.header();
        if let Some(Err(message)) = program.as_mut().map(|program| program.send(&header)) {
            return self.lose_program(&message);
        }
        self.sent.extend_from_slice(&header);
        match Desk::open(opening) {
            Ok(desk) => {
                self.tell_opening(opening, &words::house(&desk))?;
                self.house = Some(House { desk, program });
                Ok(())
            }
            Err(refusal) => {
                self.tell_opening(opening, &words::items(&opening.levels))?;
                let ours = Reply { number: refusal.number(), ..Reply::default() };
                let theirs = program.as_mut().map(|program| {
                    let reply = program.receive_reply()?;
                    program.check_silent_end().map(|()| reply)
                });
                let flaws = Table::try_from(&opening.table[..]).map(|table| flaws(&table));
                let flaw = flaws.unwrap_or_default().first().map(Flaw::to_string);
                self.take_reply(ours, theirs, flaw.map(|flaw| (Refusal::NoOrder, flaw)))?;
                self.say("the desk has stopped; open again to go on")
            }
        }
    }

    fn tell_opening(&mut self, opening: &Opening, words: &str) -> Result<(), Stop> {
        self.line("opening", &opening.header(), words)?;
        if opening.rule == Rule::A.number() {
            return Ok(());
        }
        self.say(OWN_DESK)
    }

    fn ask(&mut self, request: &Request) -> Result<(), Stop> {
        let Some(house) = &mut self.house else {
            return self.say(OPEN_FIRST);
        };
        let theirs = house.program.as_mut().map(|program| program.ask(request));
        let why = words::why(&house.desk, request);
        let ours = house.desk.answer(request);
        self.requests += 1;
        self.without_program += u64::from(house.desk.rule != Rule::A);
        self.sent.extend_from_slice(&request.to_bytes());
        self.line("request", &request.to_bytes(), &words::request(request))?;
        self.take_reply(ours, theirs, why)
    }

    /// Shows the program's reply, or the peer's own where there is no program. `why` says more of the
    /// refusal that it goes with.
    fn take_reply(
        &mut self,
        ours: Reply,
        theirs: Option<Result<Reply, String>>,
        why: Option<(Refusal, String)>,
    ) -> Result<(), Stop> {
        let reply = match theirs {
            Some(Err(message)) => return self.lose_program(&message),
            Some(Ok(theirs)) => theirs,
            None => ours,
        };
        self.received.extend_from_slice(&reply.to_bytes());
        let mut words = words::reply(&reply);
        if let Some((_, why)) = why.filter(|(refusal, _)| refusal.number() == reply.number) {
            words += &format!(": {why}");
        }
        self.line("reply", &reply.to_bytes(), &words)?;
        if reply != ours {
            self.differences += 1;
            self.line(
                "DIFFERS",
                &ours.to_bytes(),
                &format!("by the peer: {}", words::reply(&ours)),
            )?;
            let fields = words::differing_fields(("peer", &ours), ("program", &reply));
            self.say(&format!("they differ in {fields}"))?;
        }
        Ok(())
    }

    fn lose_program(&mut self, message: &str) -> Result<(), Stop> {
        self.differences += 1;
        self.house = None;
        self.say(&format!("THE PROGRAM FAILED: {message}; open again to go on"))
    }

    fn close_house(&mut self) -> Result<(), Stop> {
        let program = self.house.take().and_then(|house| house.program);
        if let Some(Err(message)) = program.map(|mut program| program.finish()) {
            return self.lose_program(&message);
        }
        Ok(())
    }

    fn line(&mut self, kind: &str, bytes: &[u8], words: &str) -> Result<(), Stop> {
        Ok(writeln!(self.out, "  {kind:<8} {:<47}  {words}", hex(bytes))?)
    }

    fn sum_up(&mut self) -> Result<(), Stop> {
        if self.differences > 0 {
            let count = self.differences;
            let message = format!("differences between the program and the peer's desk: {count}");
            return Err(Stop::Found(message));
        }
        if self.command.is_some() {
            let (own, requests) = (self.without_program, self.requests - self.without_program);
            writeln!(self.out, "{requests} requests answered; the peer's desk agrees with each")?;
            if own > 0 {
                writeln!(
                    self.out,
                    "{own} requests under rule B answered by the peer's desk alone"
                )?;
            }
        }
        Ok(())
    }
}

/// A program that waits for its house.
fn start(command: Option<&str>) -> Result<Option<Program>, Stop> {
    let Some(command) = command else {
        return Ok(None);
    };
    let mut program = Program::start(command)?;
    let waits = program.check_waits();
    waits.map_err(|end| Stop::Cannot(format!("'{command}' takes no house: {end}")))?;
    Ok(Some(program))
}

/// What a line asks of a desk.
pub enum Line {
    Open(Opening),
    /// One request, or the single reads of a map.
    Ask(Vec<Request>),
}

pub fn parse_line(line: &str) -> Result<Line, String> {
    let (verb, rest) = line.split_once(char::is_whitespace).unwrap_or((line, ""));
    Ok(match verb {
        "open" => Line::Open(parse_opening(rest)?),
        "map" => Line::Ask(parse_map(rest)?),
        "raw" => Line::Ask(vec![parse_raw(rest)?]),
        _ => Line::Ask(vec![words::parse_request(line)?]),
    })
}

/// Takes `rule A` or `rule B` out of the words of an opening; without them it is A.
fn take_rule(words: &mut Vec<&str>) -> Result<Rule, String> {
    let Some(at) = words.iter().position(|word| *word == "rule") else {
        return Ok(Rule::A);
    };
    let told: Vec<&str> = words.drain(at..words.len().min(at + 2)).collect();
    let name = told.get(1).ok_or("a rule is missing: say 'rule A' or 'rule B'")?;
    Rule::named(name).ok_or_else(|| format!("'{name}' is not a rule: A or B is wanted"))
}

/// Levels alone mean the old chain.
fn parse_opening(words: &str) -> Result<Opening, String> {
    let mut words: Vec<&str> = words.split_whitespace().collect();
    let rule = take_rule(&mut words)?;
    let is_told = |word: &&str| ["order", "table"].contains(word);
    let (levels, told) = words.split_at(words.iter().position(is_told).unwrap_or(words.len()));
    let levels = parse_levels(levels.iter(), u8::MAX)?;
    // The wire has one byte for the count and one for each level; the desk judges the rest.
    if levels.len() > usize::from(u8::MAX) {
        return Err("the count of items is one byte: at most 255 levels".to_string());
    }
    let table = match told.split_first() {
        None => Order::CHAIN.table(),
        Some((&"order", pairs)) => parse_order(pairs)?,
        Some((_, rows)) => parse_table(&rows.concat())?,
    };
    Ok(Opening::new(&levels, &table).under(rule))
}

fn parse_levels(words: impl Iterator<Item = impl AsRef<str>>, most: u8) -> Result<Vec<u8>, String> {
    let level = |word: &str| words::number(Some(word), "a level", most.into());
    words.map(|word| level(word.as_ref()).map(|number| number as u8)).collect()
}

/// Pairs such as `0<1`, or several in one word such as `0<1<3`, and all that follows from them.
fn parse_order(words: &[&str]) -> Result<Table, String> {
    let mut pairs = Vec::new();
    for word in words {
        let levels = parse_levels(word.split('<'), LEVELS - 1)?;
        if levels.len() < 2 {
            return Err(format!("an order is told in pairs such as 0<1, not '{word}'"));
        }
        pairs.extend(levels.windows(2).map(|pair| (pair[0], pair[1])));
    }
    Ok(closed(&pairs))
}

/// A digit for each byte; the desk judges which of them make an order.
fn parse_table(digits: &str) -> Result<Table, String> {
    let bytes: Option<Vec<u8>> =
        digits.chars().map(|digit| digit.to_digit(10).map(|byte| byte as u8)).collect();
    let table = bytes.and_then(|bytes| Table::try_from(bytes).ok());
    table.ok_or_else(|| "a table needs 16 digits, such as 1111 0101 0011 0001".to_string())
}

/// A map is the same as its single reads over the wire (CR 2).
fn parse_map(words: &str) -> Result<Vec<Request>, String> {
    let Some((name, items)) = words.split_once(" items ") else {
        return Err("map needs more; say 'map 0 #1 items 0 1 0'".to_string());
    };
    let read = |item| words::parse_request(&format!("read {name} item {item}"));
    items.split_whitespace().map(read).collect()
}

fn parse_raw(words: &str) -> Result<Request, String> {
    let byte = |word: &str| {
        let digits = word.chars().all(|digit| digit.is_ascii_hexdigit());
        u8::from_str_radix(word, 16).ok().filter(|_| digits && word.len() <= 2)
    };
    let bytes: Option<Vec<u8>> = words.split_whitespace().map(byte).collect();
    let request = bytes.and_then(|bytes| <[u8; REQUEST_BYTES]>::try_from(bytes).ok());
    let wanted = "raw needs 12 bytes in hex, such as 07 00 00 00 01 00 00 00 00 00 00 00";
    request.map(|bytes| Request::from_bytes(&bytes)).ok_or_else(|| wanted.to_string())
}

/// Talks with the person or pipe at standard input.
pub fn talk_here(command: Option<&str>) -> Result<(), Stop> {
    let stdin = io::stdin();
    let is_person = io::IsTerminal::is_terminal(&stdin);
    let manner = if is_person { Manner::Prompt } else { Manner::Echo };
    talk(command, stdin.lock(), io::stdout().lock(), manner)
}

#[cfg(test)]
mod tests {
    use super::*;

    fn transcript(lines: &str) -> String {
        let mut out = Vec::new();
        talk(None, lines.as_bytes(), &mut out, Manner::Echo).expect("a talk in memory");
        String::from_utf8(out).expect("words")
    }

    #[test]
    fn the_day_has_the_bytes_of_the_document() {
        let mut out = Vec::new();
        day(None, &mut out).expect("the day");
        let text = String::from_utf8(out).expect("words");
        assert!(text.contains("02 00 00 00 01 00 00 00 07 00 00 00"), "{text}");
        assert!(text.contains("done: value 7, version 1"), "{text}");
    }

    #[test]
    fn bad_lines_do_not_end_the_talk() {
        let text = transcript(
            "begin 0\nopen x\nopen 0 0 2\ndance\nraw 01\nraw +1 0 0 0 0 0 0 0 0 0 0 0\n\u{fffd}\n\
             begin 2\nread 2 #1 item 9\nshow\nquit\nbegin 0\n",
        );
        assert!(text.contains("open a house first"), "{text}");
        assert!(text.contains("'x' is not a level"), "{text}");
        assert!(text.contains("'dance' is not known"), "{text}");
        assert_eq!(text.matches("raw needs 12 bytes").count(), 2, "{text}");
        assert!(text.contains("7, refused: no such item"), "{text}");
        assert!(text.contains("2#1"), "{text}");
        assert!(text.trim_end().ends_with("> quit"), "{text}");
    }

    #[test]
    fn a_map_is_its_single_reads() {
        let reads = "read 1 #1 item 0\nread 1 #1 item 9\nread 1 #1 item 0\n";
        let played = |lines: &str| transcript(&format!("open 0 1\nbegin 1\n{lines}ask 1 #1\n"));
        let without_echo = |text: String| {
            text.lines().filter(|line| !line.starts_with('>')).map(String::from).collect::<Vec<_>>()
        };
        let by_map = without_echo(played("map 1 #1 items 0 9 0\n"));
        assert_eq!(by_map, without_echo(played(reads)));
        assert!(by_map.iter().any(|line| line.contains("7, refused: no such item")));
        let text = played("map 1 #1\nmap 1 items 0\nmap 1 #1 items x\n");
        for wanted in ["map needs more", "read needs more", "'x' is not an item"] {
            assert!(text.contains(wanted), "{text}");
        }
    }

    #[test]
    fn refused_openings_are_told() {
        let text = transcript("open\nopen 0 4\nbegin 0\n");
        assert!(text.contains("13, refused"), "{text}");
        assert!(text.contains("14, refused"), "{text}");
        assert!(text.contains("open a house first"), "{text}");
    }

    #[test]
    fn an_order_is_told_in_pairs_or_by_its_bytes() {
        let diamond = "open 0 1 2 3 order 0<1 0<2 1<3 2<3\n";
        for line in ["order 0<1<3 0<2<3 0<3", "table 1111 0101 0011 0001", "table 1111010100110001"]
        {
            let told = |line: &str| transcript(line).lines().skip(1).collect::<String>();
            assert_eq!(told(&format!("open 0 1 2 3 {line}\n")), told(diamond));
        }
        let text =
            transcript(&format!("{diamond}begin 1\nread 1 #1 item 2\nread 1 #1 item 0\nshow\n"));
        assert!(text.contains("a house with 4 items, at levels 0 1 2 3; the order 0<1 0<2 1<3 2<3"));
        let wanted = "whose level is not dominated: level 1 does not dominate level 2\n";
        assert!(text.contains(wanted), "{text}");
        assert!(text.contains("done: value 0, version 0\n"), "{text}");
        assert!(text.ends_with("levels: the order 0<1 0<2 1<3 2<3; rule A\n"), "{text}");
        let text = transcript("open 0 0 2\nopen 0 order\nopen order 0<1\n");
        assert!(text.contains("at levels 0 0 2; the old chain 0<1<2<3\n"), "{text}");
        assert!(text.contains("at level 0; no level above another\n"), "{text}");
        assert!(
            text.contains("13, refused: opening: not 1 to 64 items, or the levels or"),
            "{text}"
        );
    }

    /// The reader above is not signalled by the certify, and is by the commit.
    #[test]
    fn a_house_opens_under_either_rule() {
        let lines = "begin 0\nbegin 2\nread 2 #1 item 0\nwrite 0 #1 item 0 = 7\ncertify 0 #1\n\
                     ask 2 #1\ncommit 0 #1\nask 2 #1\nshow\n";
        let told = |rule: &str| {
            let text = transcript(&format!("open 0 0 2{rule}\n{lines}"));
            let asked =
                text.lines().filter(|line| line.contains("  done: ") && line.contains("06"));
            let is_signalled =
                |line: &str| line.ends_with("done: 1 signalled, the lowest is item 0");
            (asked.map(is_signalled).collect::<Vec<bool>>(), text)
        };
        for (rule, name, signals) in [
            ("", "A", [true, true]),
            (" rule A", "A", [true, true]),
            (" rule B", "B", [false, true]),
        ] {
            let (asked, text) = told(rule);
            assert_eq!(asked, signals, "{text}");
            assert!(text.ends_with(&format!("the old chain 0<1<2<3; rule {name}\n")), "{text}");
            assert_eq!(text.contains(OWN_DESK), name == "B", "{text}");
        }
        let text =
            transcript("open 9 rule B\nopen 0 rule\nopen 0 rule C\nopen rule B 0 order 0<1\n");
        for wanted in [
            &format!("{OWN_DESK}\n  reply    0e"),
            "a rule is missing: say 'rule A' or 'rule B'",
            "'C' is not a rule: A or B is wanted",
            "at level 0; the order 0<1; rule B\n",
        ] {
            assert!(text.contains(wanted), "{wanted}: {text}");
        }
    }

    #[test]
    fn a_table_that_is_no_order_is_told_with_its_flaw() {
        let refused = "16, refused: opening: the table is no order: ";
        let cases = [
            ("order 0<1 1<2 2<1", "not antisymmetric: 1 and 2 dominate each other"),
            (
                "table 1100 0101 0010 0001",
                "not transitive: 1 dominates 0 and 3 dominates 1, but 3 ",
            ),
            ("table 1111 0101 0001 0001", "not reflexive: 2 does not dominate itself"),
            ("table 1111 0101 0011 0002", "the byte of row 3 and column 3 is 2, above 1"),
        ];
        for (words, flaw) in cases {
            let text = transcript(&format!("open 0 {words}\nbegin 0\n"));
            assert!(text.contains(&format!("{refused}{flaw}")), "{text}");
            assert!(text.contains("the desk has stopped"), "{text}");
        }
        // A byte above 3 comes first, and the flaw of the table is not told.
        let text = transcript("open 4 table 0\nopen 4 table 0000000000000000\n");
        assert!(text.contains("  a table needs 16 digits"), "{text}");
        assert!(text.contains("14, refused: opening: a level byte above 3\n"), "{text}");
        for (words, wanted) in
            [("0", "in pairs such as 0<1, not '0'"), ("0<4", "'4' is not a level")]
        {
            let text = transcript(&format!("open 0 order {words}\n"));
            assert!(text.contains(wanted), "{text}");
        }
    }
}
