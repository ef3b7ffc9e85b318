//! The conversation test: a client that writes one request, waits for its reply, and only then
//! writes the next. A program that keeps replies back fails here by silence.

use crate::desk::{Desk, Refusal};
use crate::generator::Generator;
use crate::opening::{split_header, Opening};
use crate::order::{Order, TABLE_BYTES};
use crate::program::Program;
use crate::rule::Rule;
use crate::run::opened;
use crate::stop::Stop;
use crate::talk::{DAY_INPUT, DAY_OUTPUT};
use crate::wire::{hex, requests_in, Operation, Reply, Request, REPLY_BYTES, REQUEST_BYTES};
use crate::words;
use std::io::Write;
use std::time::Duration;

/// Between the pieces of a request or header.
const PAUSE: Duration = Duration::from_millis(4);

type Scene = fn(&str) -> Result<u64, Stop>;

/// Each scene gives the number of requests that were answered.
const SCENES: [(&str, Scene); 7] = [
    ("the worked day", worked_day),
    ("header and requests in pieces", in_pieces),
    ("several transactions interleaved", interleaved),
    ("generated dialogues", generated),
    ("several requests at once, the last one unfinished", in_bursts),
    ("refused openings", refused_openings),
    ("input that ends too early", cut_short),
];

fn header(levels: &[u8], table: &[u8]) -> Vec<u8> {
    Opening::new(levels, table).header()
}

/// One request at a time, each reply checked against the peer's own desk.
struct Client {
    program: Program,
    desk: Desk,
    asked: u64,
}

impl Client {
    /// Opens the house, with the header in pieces of this many bytes.
    fn open(command: &str, header: &[u8], piece: usize) -> Result<Client, Stop> {
        let desk =
            opened(header, Rule::A).ok_or_else(|| Stop::Cannot("no house opens".to_string()))?;
        let mut client = Client { program: Program::start(command)?, desk, asked: 0 };
        client.send_in_pieces(header, piece)?;
        client.check_quiet("a header alone")?;
        Ok(client)
    }

    fn send_in_pieces(&mut self, bytes: &[u8], piece: usize) -> Result<(), Stop> {
        for (index, part) in bytes.chunks(piece).enumerate() {
            if index > 0 {
                self.check_quiet("an unfinished piece")?;
            }
            self.program.send(part).map_err(Stop::Found)?;
        }
        Ok(())
    }

    fn check_quiet(&mut self, after: &str) -> Result<(), Stop> {
        match self.program.unasked(PAUSE) {
            [] => Ok(()),
            bytes => Err(Stop::Found(format!("{after} was answered: {}", hex(bytes)))),
        }
    }

    fn ask(&mut self, request: &Request) -> Result<Reply, Stop> {
        self.ask_in_pieces(request, REQUEST_BYTES)
    }

    fn ask_in_pieces(&mut self, request: &Request, piece: usize) -> Result<Reply, Stop> {
        self.send_in_pieces(&request.to_bytes(), piece)?;
        self.expect_reply(request)
    }

    /// Waits for the reply to a request that was sent.
    fn expect_reply(&mut self, request: &Request) -> Result<Reply, Stop> {
        self.asked += 1;
        let asked = format!("request {}, {}", self.asked, words::request(request));
        let house = self.desk.clone();
        let ours = self.desk.answer(request);
        let theirs = self.program.receive_reply();
        let theirs = theirs.map_err(|what| Stop::Found(format!("{asked}: no reply: {what}")))?;
        if theirs == ours {
            return Ok(ours);
        }
        Err(Stop::Found(format!(
            "{asked}\n  the peer:    {}  {}\n  the program: {}  {}\n  they differ in {}\n\
             the house before it, as the peer sees it:\n{}",
            hex(&ours.to_bytes()),
            words::reply(&ours),
            hex(&theirs.to_bytes()),
            words::reply(&theirs),
            words::differing_fields(("peer", &ours), ("program", &theirs)),
            words::lock_table(&house),
        )))
    }

    /// Leaves: nothing more may come, and the program ends.
    fn leave(mut self) -> Result<u64, Stop> {
        self.program.finish().map_err(Stop::Found)?;
        Ok(self.asked)
    }
}

fn worked_day(command: &str) -> Result<u64, Stop> {
    let (header, requests) = split_header(&DAY_INPUT);
    let mut client = Client::open(command, header, header.len())?;
    let mut replies = DAY_OUTPUT.chunks(REPLY_BYTES);
    for request in requests_in(requests) {
        let reply = client.ask(&request)?;
        if replies.next() != Some(&reply.to_bytes()[..]) {
            return Err(Stop::Found("not the bytes of document 01's day".to_string()));
        }
    }
    client.leave()
}

fn in_pieces(command: &str) -> Result<u64, Stop> {
    let mut asked = 0;
    for piece in [1, 2, 5, 11] {
        let mut generator = Generator::new(piece as u64, Rule::A);
        let mut client = Client::open(command, &generator.desk().opening().header(), piece)?;
        for _ in 0..6 {
            client.ask_in_pieces(&generator.next_request(), piece)?;
        }
        asked += client.leave()?;
    }
    Ok(asked)
}

/// A day of three transactions at two levels, with the number each reply must have.
const INTERLEAVED: [(&str, u8); 24] = [
    ("begin 0", 0),
    ("begin 0", 0),
    ("begin 2", 0),
    ("write 0 #1 item 0 = 7", 0),
    ("read 2 #1 item 0", 0),
    ("write 0 #2 item 0 = 8", 1),
    ("read 0 #2 item 0", 0),
    ("certify 0 #1", 1),
    ("write 2 #1 item 2 = 5", 0),
    ("ask 2 #1", 0),
    ("abort 0 #2", 0),
    ("certify 0 #1", 0),
    ("ask 2 #1", 0),
    ("certify 2 #1", 2),
    ("begin 0", 0),
    ("read 0 #3 item 0", 1),
    ("commit 0 #1", 0),
    ("read 0 #3 item 0", 0),
    ("certify 0 #1", 6),
    ("read 2 #1 item 0", 2),
    ("abort 2 #1", 0),
    ("commit 0 #3", 9),
    ("certify 0 #3", 0),
    ("commit 0 #3", 0),
];

fn interleaved(command: &str) -> Result<u64, Stop> {
    let mut client = Client::open(command, &header(&[0, 0, 2], &Order::CHAIN.table()), 4)?;
    for (line, number) in INTERLEAVED {
        let request = words::parse_request(line).map_err(Stop::Cannot)?;
        let reply = client.ask(&request)?;
        if reply.number != number {
            let words = words::reply(&reply);
            return Err(Stop::Found(format!("'{line}' is answered {words}, not {number}")));
        }
    }
    client.leave()
}

fn generated(command: &str) -> Result<u64, Stop> {
    let mut asked = 0;
    for seed in 1..=4 {
        let mut generator = Generator::new(seed, Rule::A);
        let mut client = Client::open(command, &generator.desk().opening().header(), 65)?;
        for index in 0..300 {
            let piece = if index % 40 == 0 { 7 } else { REQUEST_BYTES };
            client.ask_in_pieces(&generator.next_request(), piece)?;
        }
        asked += client.leave()?;
    }
    Ok(asked)
}

/// Whole requests are answered though the one after them is unfinished.
fn in_bursts(command: &str) -> Result<u64, Stop> {
    let mut generator = Generator::new(5, Rule::A);
    let mut client = Client::open(command, &generator.desk().opening().header(), 65)?;
    for whole in 1..=20 {
        let requests: Vec<Request> = (0..=whole).map(|_| generator.next_request()).collect();
        let bytes: Vec<u8> = requests.iter().flat_map(|request| request.to_bytes()).collect();
        let (now, later) = bytes.split_at(whole * REQUEST_BYTES + whole % REQUEST_BYTES);
        client.program.send(now).map_err(Stop::Found)?;
        for request in &requests[..whole] {
            client.expect_reply(request)?;
        }
        client.check_quiet("an unfinished request")?;
        client.program.send(later).map_err(Stop::Found)?;
        client.expect_reply(&requests[whole])?;
    }
    client.leave()
}

/// The one reply comes while the input is still open, and then the program stops.
fn refused_openings(command: &str) -> Result<u64, Stop> {
    let cases: [(&[u8], Refusal); 4] = [
        (&[0], Refusal::ItemCount),
        (&[65], Refusal::ItemCount),
        (&header(&[0, 4, 1], &[2; TABLE_BYTES]), Refusal::LevelByte),
        (&header(&[0, 3, 1], &[1; TABLE_BYTES]), Refusal::NoOrder),
    ];
    for (header, refusal) in cases {
        let mut program = Program::start(command)?;
        program.send(header).map_err(Stop::Found)?;
        expect_refusal(&mut program, header, refusal)?;
        program.check_silent_end().map_err(Stop::Found)?;
    }
    Ok(0)
}

fn expect_refusal(program: &mut Program, header: &[u8], refusal: Refusal) -> Result<(), Stop> {
    let wanted = Reply { number: refusal.number(), ..Reply::default() };
    let opening = hex(header);
    match program.receive_reply() {
        Ok(reply) if reply == wanted => Ok(()),
        Ok(reply) => Err(Stop::Found(format!(
            "opening {opening} is answered {}, not {}",
            hex(&reply.to_bytes()),
            hex(&wanted.to_bytes())
        ))),
        Err(what) => Err(Stop::Found(format!("opening {opening}: no reply: {what}"))),
    }
}

fn cut_short(command: &str) -> Result<u64, Stop> {
    let whole = header(&[0, 9], &[2; TABLE_BYTES]);
    for header in [&[][..], &[1], &[3, 0, 9], &whole[..3], &whole[..whole.len() - 1]] {
        let mut program = Program::start(command)?;
        program.send(header).map_err(Stop::Found)?;
        program.close_input();
        expect_refusal(&mut program, header, Refusal::ItemCount)?;
        program.check_silent_end().map_err(Stop::Found)?;
    }
    let mut client = Client::open(command, &header(&[0], &Order::DIAMOND.table()), 2)?;
    let begin = Request { operation: Operation::Begin.number(), ..Request::default() };
    client.ask(&begin)?;
    client.program.send(&begin.to_bytes()[..11]).map_err(Stop::Found)?;
    client.leave()
}

pub fn converse(command: &str, out: &mut impl Write) -> Result<(), Stop> {
    let mut asked = 0;
    for (name, scene) in SCENES {
        asked += scene(command).map_err(|stop| stop.at(name))?;
        writeln!(out, "{name}: as it should be")?;
        out.flush()?;
    }
    let scenes = SCENES.len();
    writeln!(
        out,
        "conversed in {scenes} scenes, {asked} requests: every reply came, and is right"
    )?;
    Ok(())
}

#[cfg(test)]
mod tests {
    use super::*;

    /// `sort` says nothing until its input ends, as a program does that keeps its replies back.
    #[test]
    fn a_program_that_keeps_replies_back_fails() {
        match converse("sort", &mut std::io::sink()) {
            Err(Stop::Found(what)) => assert!(what.contains("0 of 16 bytes came within"), "{what}"),
            other => panic!("{other:?}"),
        }
    }
}
