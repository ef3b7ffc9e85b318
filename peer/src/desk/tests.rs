//! The marked examples M1 to M12, and M11 and M12 under rule B, who holds what is delayed, the replies that a run cannot reach, and
//! what every run keeps.

use super::*;
use crate::bytes::input_of;
use crate::generator::Generator;
use crate::opening::split_header;
use crate::order::levels;
use crate::run::opened;
use crate::wire::requests_in;

fn request(operation: Operation, level: u8, ticket: u32) -> Request {
    Request { operation: operation.number(), level, ticket, ..Request::default() }
}

fn open(levels: &[u8], table: &[u8]) -> Result<Desk, Refusal> {
    Desk::open(&Opening::new(levels, table))
}

fn begin(desk: &mut Desk, level: u8) -> Reply {
    desk.answer(&request(Operation::Begin, level, 0))
}

fn read(desk: &mut Desk, level: u8, ticket: u32, item: u16) -> Reply {
    desk.answer(&Request { item, ..request(Operation::Read, level, ticket) })
}

fn write(desk: &mut Desk, level: u8, ticket: u32, item: u16, value: u32) -> u8 {
    desk.answer(&Request { item, value, ..request(Operation::Write, level, ticket) }).number
}

fn plain(desk: &mut Desk, operation: Operation, level: u8, ticket: u32) -> u8 {
    desk.answer(&request(operation, level, ticket)).number
}

/// Items 0 and 1 at level 0, item 2 at level 2, the old chain, rule A, and nobody there.
fn empty_house() -> Desk {
    open(&[0, 0, 2], &Order::CHAIN.table()).expect("proper levels and a proper table")
}

/// The house of the marked examples: level-0 tickets 1 and 2 and level-2 ticket 1 are open.
fn house() -> Desk {
    house_under(Rule::A)
}

fn house_under(rule: Rule) -> Desk {
    let opening = empty_house().opening().under(rule);
    let mut desk = Desk::open(&opening).expect("proper under either rule");
    for (level, ticket) in [(0, 1), (0, 2), (2, 1)] {
        assert_eq!(begin(&mut desk, level).ticket, ticket);
    }
    desk
}

/// The holder by ticket and level, as the reply of a delay carries them.
fn holder_in(reply: &Reply) -> (u32, u32) {
    assert_eq!(reply.number, 1);
    (reply.value, reply.version)
}

fn after_m8() -> Desk {
    let mut desk = house();
    assert_eq!(write(&mut desk, 0, 1, 0, 7), 0);
    let second = Request { value: 8, ..request(Operation::Write, 0, 2) };
    assert_eq!(holder_in(&desk.answer(&second)), (1, 0));
    desk
}

fn after_m9() -> Desk {
    let mut desk = after_m8();
    let reply = read(&mut desk, 0, 2, 0);
    assert_eq!((reply.number, reply.value, reply.version), (0, 0, 0));
    assert_eq!(holder_in(&desk.answer(&request(Operation::Certify, 0, 1))), (2, 0));
    desk
}

/// Level 2 has read item 0, and level 0 has written and certified it, which tells the certifier nothing.
fn after_certify(rule: Rule) -> Desk {
    let mut desk = house_under(rule);
    assert_eq!(read(&mut desk, 2, 1, 0).number, 0);
    assert_eq!(write(&mut desk, 0, 1, 0, 7), 0);
    let certify = request(Operation::Certify, 0, 1);
    assert_eq!(desk.answer(&certify), Reply::repeating(&certify));
    desk
}

/// What level 2 is told that asks for its signals: the lowest item, and how many.
fn asked(desk: &mut Desk) -> (u16, u32) {
    let ask = desk.answer(&request(Operation::Ask, 2, 1));
    assert_eq!(ask.number, 0);
    (ask.item, ask.value)
}

fn after_m11() -> Desk {
    let mut desk = after_certify(Rule::A);
    assert_eq!(plain(&mut desk, Operation::Certify, 2, 1), 2);
    assert_eq!(asked(&mut desk), (0, 1));
    desk
}

#[test]
fn m1_read_above() {
    assert_eq!(read(&mut house(), 0, 1, 2).number, 8);
}

#[test]
fn m2_write_below() {
    assert_eq!(write(&mut house(), 2, 1, 0, 7), 8);
}

#[test]
fn m3_no_such_item() {
    assert_eq!(read(&mut house(), 0, 1, 3).number, 7);
}

#[test]
fn m4_ticket_0_names_nobody() {
    assert_eq!(read(&mut house(), 0, 0, 0).number, 6);
}

#[test]
fn m5_unused_value() {
    let reply = house().answer(&Request { value: 1, ..request(Operation::Read, 0, 1) });
    assert_eq!(reply.number, 5);
}

#[test]
fn m6_and_m7_places_and_tickets() {
    let mut desk = empty_house();
    for ticket in 1..=8 {
        let reply = begin(&mut desk, 0);
        assert_eq!((reply.number, reply.ticket), (0, ticket));
    }
    assert_eq!(begin(&mut desk, 0).number, 11);
    let above = begin(&mut desk, 1);
    assert_eq!((above.number, above.ticket), (0, 1));
    assert_eq!(plain(&mut desk, Operation::Abort, 0, 3), 0);
    let next = begin(&mut desk, 0);
    assert_eq!((next.number, next.ticket), (0, 9));
    assert_eq!(desk.find(0, 9), Ok(2), "the third place");
}

#[test]
fn m8_two_writers() {
    after_m8();
}

#[test]
fn m9_reader_beside_writer() {
    after_m9();
}

#[test]
fn m10_committed_pair() {
    let mut desk = after_m9();
    assert_eq!(plain(&mut desk, Operation::Abort, 0, 2), 0);
    assert_eq!(plain(&mut desk, Operation::Certify, 0, 1), 0);
    assert_eq!(plain(&mut desk, Operation::Commit, 0, 1), 0);
    let reader = begin(&mut desk, 0).ticket;
    let reply = read(&mut desk, 0, reader, 0);
    assert_eq!((reply.number, reply.value, reply.version), (0, 7, 1));
}

#[test]
fn m11_signal() {
    after_m11();
}

#[test]
fn m12_signal_stands_after_abort() {
    let mut desk = after_m11();
    assert_eq!(plain(&mut desk, Operation::Abort, 0, 1), 0);
    assert_eq!(plain(&mut desk, Operation::Certify, 2, 1), 2);
}

/// Under rule B the certify signals nobody, so the reader above may commit before the writer does.
#[test]
fn m11_under_b_the_reader_commits_in_between() {
    let mut desk = after_certify(Rule::B);
    assert_eq!(asked(&mut desk), (0, 0));
    assert_eq!(write(&mut desk, 2, 1, 2, 90), 0);
    assert_eq!(plain(&mut desk, Operation::Certify, 2, 1), 0);
    assert_eq!(plain(&mut desk, Operation::Commit, 2, 1), 0);
    assert_eq!(plain(&mut desk, Operation::Commit, 0, 1), 0);
    assert_eq!((desk.items[0].value, desk.items[2].value), (7, 90));
}

/// The commit signals the reader above, certified or not, and tells the committer nothing.
#[test]
fn m11_under_b_the_commit_signals() {
    for certifies in [false, true] {
        let mut desk = after_certify(Rule::B);
        if certifies {
            assert_eq!(plain(&mut desk, Operation::Certify, 2, 1), 0);
        }
        let commit = request(Operation::Commit, 0, 1);
        assert_eq!(desk.answer(&commit), Reply::repeating(&commit));
        assert_eq!(asked(&mut desk), (0, 1));
        let next = if certifies { Operation::Commit } else { Operation::Certify };
        assert_eq!(plain(&mut desk, next, 2, 1), 2);
    }
}

/// The teacher of M12 loses nothing: an abort signals nobody.
#[test]
fn m12_under_b_the_abort_signals_nobody() {
    let mut desk = after_certify(Rule::B);
    assert_eq!(plain(&mut desk, Operation::Abort, 0, 1), 0);
    assert_eq!(asked(&mut desk), (0, 0));
    assert_eq!(plain(&mut desk, Operation::Certify, 2, 1), 0);
    assert_eq!(plain(&mut desk, Operation::Commit, 2, 1), 0);
}

/// Of two items read from above, only what the committer wrote is signalled.
#[test]
fn a_commit_under_b_signals_for_what_it_wrote_alone() {
    let mut desk = house_under(Rule::B);
    for (level, item) in [(2, 0), (2, 1), (0, 1)] {
        assert_eq!(read(&mut desk, level, 1, item).number, 0);
    }
    assert_eq!(write(&mut desk, 0, 1, 0, 7), 0);
    assert_eq!(plain(&mut desk, Operation::Certify, 0, 1), 0);
    assert_eq!(plain(&mut desk, Operation::Commit, 0, 1), 0);
    assert_eq!(asked(&mut desk), (0, 1));
}

#[test]
fn the_first_refused_check_of_a_rule_is_28() {
    let named = |number: u8, levels: &[u8], table: &[u8]| {
        Desk::open(&Opening { rule: number, ..Opening::new(levels, table) })
    };
    let proper = Order::CHAIN.table();
    for number in [2, 3, 128, 255] {
        assert_eq!(named(number, &[0], &proper), Err(Refusal::NoRule));
        assert_eq!(named(number, &[], &[]), Err(Refusal::NoRule), "28 is checked before 13");
    }
    for rule in Rule::ALL {
        let desk = named(rule.number(), &[0], &proper).expect("a rule");
        assert_eq!((desk.rule, desk.opening().rule), (rule, rule.number()));
        assert_eq!(named(rule.number(), &[4], &proper), Err(Refusal::LevelByte));
    }
    assert_eq!(Desk::refused().rule, Rule::A);
}

#[test]
fn versions_can_be_spent() {
    let mut desk = house();
    desk.items[0].version = u32::MAX;
    assert_eq!(write(&mut desk, 0, 1, 0, 7), 10);
    assert_eq!(read(&mut desk, 0, 1, 0).version, u32::MAX);
}

#[test]
fn tickets_can_be_spent() {
    let mut desk = empty_house();
    desk.next_ticket[0] = Some(u32::MAX);
    assert_eq!(begin(&mut desk, 0).ticket, u32::MAX);
    assert_eq!(begin(&mut desk, 0).number, 12);
    for _ in 0..7 {
        desk.next_ticket[0] = Some(1);
        begin(&mut desk, 0);
    }
    desk.next_ticket[0] = None;
    assert_eq!(begin(&mut desk, 0).number, 11, "11 is checked before 12");
}

#[test]
fn an_own_read_lock_is_no_conflict() {
    let mut desk = house();
    assert_eq!(write(&mut desk, 0, 1, 0, 7), 0);
    assert_eq!(read(&mut desk, 0, 1, 0).version, 1);
    assert_eq!(plain(&mut desk, Operation::Certify, 0, 1), 0);
    assert_eq!(plain(&mut desk, Operation::Commit, 0, 1), 0);
    assert_eq!(desk.items[0].version, 1);
}

#[test]
fn no_blank_sheets() {
    let mut desk = house();
    assert_eq!(read(&mut desk, 0, 1, 0).value, 0, "an opened item may hold 0");
    assert_eq!(write(&mut desk, 0, 1, 0, 0), 15);
    assert_eq!(write(&mut desk, 0, 1, 3, 0), 7, "7 is checked before 15");
    assert_eq!(write(&mut desk, 0, 1, 2, 0), 8, "8 is checked before 15");
    assert_eq!(write(&mut desk, 0, 2, 0, 7), 0);
    assert_eq!(write(&mut desk, 0, 1, 0, 0), 15, "15 is checked before 1");
    desk.items[1].version = u32::MAX;
    assert_eq!(write(&mut desk, 0, 1, 1, 0), 15, "15 is checked before 10");
    assert_eq!(plain(&mut desk, Operation::Certify, 0, 1), 0);
    assert_eq!(write(&mut desk, 0, 1, 1, 0), 15, "15 is checked before 9");
    assert_eq!(write(&mut after_m11(), 2, 1, 2, 0), 15, "15 is checked before 2");
}

#[test]
fn certify_takes_all_or_none() {
    let mut desk = house();
    assert_eq!(write(&mut desk, 0, 1, 0, 7), 0);
    assert_eq!(write(&mut desk, 0, 1, 1, 8), 0);
    assert_eq!(read(&mut desk, 0, 2, 1).number, 0);
    let before = desk.clone();
    assert_eq!(plain(&mut desk, Operation::Certify, 0, 1), 1);
    assert_eq!(desk, before);
}

/// The last request of these lines of words, and the house under the rule that the others leave, which
/// are done.
pub fn house_and_last(lines: &str, rule: Rule) -> (Desk, Request) {
    let input = input_of(lines).expect("lines that make an input");
    let (header, requests) = split_header(&input);
    let mut desk = opened(header, rule).expect("a house that opens");
    let mut requests: Vec<Request> = requests_in(requests).collect();
    let last = requests.pop().expect("a request");
    for request in requests {
        assert_eq!(desk.answer(&request).number, 0, "{lines}: {request:?}");
    }
    (desk, last)
}

/// The holder that the last of these requests is told; two items are at level 0, one at level 1.
fn holder(requests: &str) -> (u32, u32) {
    let open = "open 0 0 1\nbegin 0\nbegin 0\nbegin 0\nbegin 0\nbegin 1\nbegin 1\nbegin 1\n";
    let lines = format!("{open}{}", requests.replace("; ", "\n"));
    let (mut desk, last) = house_and_last(&lines, Rule::A);
    let reply = desk.answer(&last);
    let repeated = Reply { number: 0, value: 0, version: 0, ..reply };
    assert_eq!(repeated, Reply::repeating(&last), "all else is as it was before CR 5");
    holder_in(&reply)
}

#[test]
fn a_delay_names_whoever_holds_it() {
    let taken = "write 1 #3 item 2 = 7; ";
    assert_eq!(holder(&format!("{taken}write 1 #2 item 2 = 8")), (3, 1), "ticket, then level");
    assert_eq!(holder(&format!("{taken}certify 1 #3; write 1 #2 item 2 = 8")), (3, 1));
    assert_eq!(holder(&format!("{taken}certify 1 #3; read 1 #1 item 2")), (3, 1));
    assert_eq!(holder(&format!("{taken}read 1 #2 item 2; certify 1 #3")), (2, 1));
}

#[test]
fn a_reader_above_is_told_the_holder_and_its_level() {
    assert_eq!(holder("write 0 #4 item 0 = 7; certify 0 #4; read 1 #2 item 0"), (4, 0));
}

#[test]
fn of_several_the_lowest_item_and_then_the_lowest_place_is_named() {
    let written = "write 0 #3 item 0 = 7; write 0 #3 item 1 = 8; ";
    let certify = |reads: &str| holder(&format!("{written}{reads}; certify 0 #3"));
    assert_eq!(certify("read 0 #4 item 0; read 0 #2 item 0"), (2, 0), "the lowest place");
    assert_eq!(certify("read 0 #1 item 1; read 0 #4 item 0"), (4, 0), "the lowest item first");
    assert_eq!(certify("read 0 #1 item 1; read 0 #4 item 0; read 0 #2 item 0"), (2, 0));
    // Tickets say nothing of places: ticket 5 comes to stand at the first.
    assert_eq!(certify("abort 0 #1; begin 0; read 0 #2 item 0; read 0 #5 item 0"), (5, 0));
}

#[test]
fn neither_the_asker_nor_a_reader_above_is_named() {
    let written = "write 0 #1 item 0 = 7; write 0 #1 item 1 = 8; ";
    let certify = |reads: &str| holder(&format!("{written}{reads}; certify 0 #1"));
    assert_eq!(certify("read 0 #1 item 0; read 0 #3 item 0"), (3, 0));
    assert_eq!(certify("read 0 #1 item 0; read 0 #3 item 1"), (3, 0));
    assert_eq!(certify("read 1 #2 item 0; read 0 #3 item 0"), (3, 0));
    assert_eq!(certify("read 1 #2 item 0; read 0 #3 item 1"), (3, 0));
}

#[test]
fn openings() {
    let proper = Order::DIAMOND.table();
    assert_eq!(open(&[], &proper), Err(Refusal::ItemCount));
    assert_eq!(open(&[9; 65], &proper), Err(Refusal::ItemCount), "13 is checked before 14");
    for length in [0, 1, 15, 17, 32, 255] {
        let table = vec![2; length];
        assert_eq!(open(&[0, 4], &table), Err(Refusal::ItemCount), "a table of {length}");
    }
    assert_eq!(open(&[0, 4], &proper), Err(Refusal::LevelByte));
    assert_eq!(open(&[0, 4], &[2; 16]), Err(Refusal::LevelByte), "14 is checked before 16");
    assert_eq!(open(&[0, 3], &[2; 16]), Err(Refusal::NoOrder));
    let desk = open(&[3; 64], &proper).expect("a house that opens");
    assert_eq!((desk.items.len(), desk.order), (64, Order::DIAMOND));
    assert_eq!((Desk::refused().items.len(), Desk::refused().order), (0, Order::CHAIN));
}

/// Two subjects side by side: one item at each level, and one of each level is open.
fn diamond() -> Desk {
    diamond_under(Rule::A)
}

fn diamond_under(rule: Rule) -> Desk {
    let opening = Opening::new(&[0, 1, 2, 3], &Order::DIAMOND.table()).under(rule);
    let mut desk = Desk::open(&opening).expect("a house that opens");
    levels().for_each(|level| assert_eq!(begin(&mut desk, level).ticket, 1));
    desk
}

#[test]
fn geography_and_history_do_not_read_each_other() {
    for level in levels() {
        let numbers: Vec<u8> =
            levels().map(|item| read(&mut diamond(), level, 1, item.into()).number).collect();
        let wanted = [[0, 8, 8, 8], [0, 0, 8, 8], [0, 8, 0, 8], [0, 0, 0, 0]];
        assert_eq!(numbers, wanted[usize::from(level)], "level {level}");
    }
    let mut desk = diamond();
    assert_eq!(write(&mut desk, 3, 1, 1, 7), 8, "a write is of the asker's own level only");
}

/// Which levels the signals of this level reach, where everybody has read what they may.
fn signalled_by(level: u8, rule: Rule) -> Vec<u8> {
    let mut desk = diamond_under(rule);
    for (reader, item) in levels().flat_map(|reader| levels().map(move |item| (reader, item))) {
        read(&mut desk, reader, 1, item.into());
    }
    assert_eq!(write(&mut desk, level, 1, level.into(), 7), 0);
    assert_eq!(plain(&mut desk, Operation::Certify, level, 1), 0);
    if rule.signals_at() == Operation::Commit {
        assert_eq!(plain(&mut desk, Operation::Commit, level, 1), 0);
    }
    let is_signalled = |reader: &u8| {
        let ask = desk.clone().answer(&request(Operation::Ask, *reader, 1));
        (ask.value, ask.item) == (1, level.into())
    };
    levels().filter(is_signalled).collect()
}

#[test]
fn signals_reach_whoever_is_above_by_the_table() {
    for rule in Rule::ALL {
        assert_eq!(signalled_by(0, rule), [1, 2, 3]);
        assert_eq!(signalled_by(1, rule), [3]);
        assert_eq!(signalled_by(2, rule), [3]);
        assert_eq!(signalled_by(3, rule), []);
    }
}

/// The old chain gives the old replies: levels are compared by number.
#[test]
fn the_old_chain_is_document_01() {
    for (level, other) in levels().flat_map(|level| levels().map(move |other| (level, other))) {
        let mut desk = open(&[other], &Order::CHAIN.table()).expect("a house that opens");
        begin(&mut desk, level);
        let number = if other > level { 8 } else { 0 };
        assert_eq!(read(&mut desk, level, 1, 0).number, number, "{level} reads {other}");
        let writer = begin(&mut desk, other).ticket;
        assert_eq!(write(&mut desk, other, writer, 0, 7), 0);
        let delayed = u8::from(level == other);
        assert_eq!(plain(&mut desk, Operation::Certify, other, writer), delayed);
        let signals = desk.answer(&request(Operation::Ask, level, 1)).value;
        assert_eq!(signals, u32::from(other < level), "{level} reads {other}");
    }
}

/// What holds of every house that a run can reach.
fn check_house(desk: &Desk) {
    for (number, item) in desk.items.iter().enumerate() {
        let holds = |place: &&Place| place.cell(number).write || place.cell(number).certify;
        let writers: Vec<&Place> = desk.places.iter().filter(holds).collect();
        assert!(writers.len() <= 1, "item {number} has two writers");
        assert_eq!(writers.is_empty(), item.pending == 0, "item {number}: a stray or blank value");
        assert_eq!(item.value == 0, item.version == 0, "item {number}: a blank sheet was saved");
    }
    for place in desk.places.iter().filter(|place| !place.is_taken()) {
        assert_eq!(*place, Place::free(place.level));
    }
}

/// True when no transaction but this one is open at its level or below.
fn is_undisturbed(desk: &Desk, request: &Request) -> bool {
    let is_near = |level| desk.order.dominates(request.level, level);
    let near = |place: &&Place| place.is_taken() && is_near(place.level);
    desk.places.iter().filter(near).all(|p| (p.level, p.ticket) == (request.level, request.ticket))
}

/// The locks of the matrix, in its order.
#[derive(Clone, Copy)]
enum Lock {
    Read,
    Write,
    Signal,
    Certify,
}

/// The matrix of document 01, requested by granted.
const GOES_WITH: [[bool; 4]; 4] = [
    [true, true, true, false],
    [true, false, true, false],
    [true, true, true, false],
    [false, false, true, false],
];

/// The lock that the request asks for on the item, if any.
fn requested(desk: &Desk, request: &Request, me: &Place, item: usize) -> Option<Lock> {
    let is_below = desk.order.is_above(me.level, desk.items[item].level);
    let is_named = item == usize::from(request.item);
    match Operation::ALL[usize::from(request.operation)] {
        Operation::Read if is_named && is_below => Some(Lock::Signal),
        Operation::Read if is_named => Some(Lock::Read),
        Operation::Write if is_named => Some(Lock::Write),
        Operation::Certify if me.cell(item).write => Some(Lock::Certify),
        _ => None,
    }
}

/// Whether a place has a lock on the item that does not go with the one requested.
fn is_refused_by(desk: &Desk, place: &Place, item: usize, requested: Lock) -> bool {
    let Cell { read, write, certify, .. } = place.cell(item);
    let is_below = desk.order.is_above(place.level, desk.items[item].level);
    let granted = [read && !is_below, write, read && is_below, certify];
    granted.iter().zip(GOES_WITH[requested as usize]).any(|(granted, goes)| *granted && !goes)
}

/// The holder by the matrix: on the lowest item, at the lowest place.
fn holder_by_matrix(desk: &Desk, request: &Request) -> Option<(u32, u32)> {
    let me = &desk.places[desk.find(request.level, request.ticket).ok()?];
    for item in 0..desk.items.len() {
        let Some(lock) = requested(desk, request, me, item) else { continue };
        for place in desk.places.iter().filter(|place| *place != me) {
            if is_refused_by(desk, place, item, lock) {
                return Some((place.ticket, place.level.into()));
            }
        }
    }
    None
}

#[test]
fn every_run_keeps_the_house_in_order() {
    for (seed, rule) in (0..40).flat_map(|seed| Rule::ALL.map(|rule| (seed, rule))) {
        let mut generator = Generator::new(seed, rule);
        let mut desk = generator.desk().clone();
        for _ in 0..400 {
            let request = generator.next_request();
            let before = desk.clone();
            let reply = desk.answer(&request);
            assert!(reply.number == 0 || desk == before, "a refusal changed the house");
            if reply.number == 1 {
                assert!(!is_undisturbed(&before, &request), "delayed alone");
                let named = holder_in(&reply);
                assert_eq!(Some(named), holder_by_matrix(&before, &request), "not by the matrix");
                let is_near = before.order.dominates(request.level, named.1 as u8);
                assert!(is_near, "the holder is not at the asker's level or below");
            }
            check_house(&desk);
        }
        assert_eq!(desk, *generator.desk());
    }
}
