//! The slips the trade has made (document 01) and those that the change requests invite, made here
//! on purpose: a desk that behaves but for one slip. The checks must find each of them, or they are
//! not worth running.
//!
//! Of the slips that CR 7 invites no reply shows these, so they are not listed: to signal others
//! that are not above (nobody else of the level reads what is certified), to signal again at commit under
//! rule A, and to keep the rule in a house whose opening is refused (it has no items).

use crate::desk::{
    delayed_by, Cell, Desk, Item, Place, Refusal, Standing, LEVELS, PLACES_PER_LEVEL,
};
use crate::opening::Opening;
use crate::order::{entry, flaws, levels, Flaw, Order, Table};
use crate::rule::Rule;
use crate::run::{self, open_with, Answer, Conduct, Open};
use crate::wire::{Operation, Reply, Request};
use std::cmp::Reverse;

pub const SLIPS: [(&str, Conduct); 43] = [
    ("tells the certifier how many readers were signalled", answers(tells_count)),
    ("delays a certify for a reader above", answers(delays_for_reader_above)),
    ("counts a transaction's own read lock against its certify", answers(counts_own_read)),
    ("converts the free items of a certify and leaves the rest", answers(converts_free_items)),
    ("gives an ended transaction's ticket again", answers(gives_old_ticket)),
    ("lets a certified transaction commit after it was signalled", answers(commits_when_signalled)),
    ("takes a blank sheet", answers(takes_blank)),
    ("tells of a blank sheet before it looks whose item it is", answers(tells_blank_early)),
    ("tells of a blank sheet only where nothing else is wrong", answers(tells_blank_late)),
    ("counts the tickets of all levels with one counter", answers(counts_tickets_together)),
    ("begins while any of the 32 places is free", answers(begins_in_any_place)),
    ("looks a ticket up at seven places of its level", answers(goes_round_seven)),
    ("names the holder at the highest place", answers(names_highest_place)),
    ("names the asker itself, which has read what it wrote", answers(names_asker)),
    ("names a reader above to a certifier", answers(names_reader_above)),
    (
        "tells the holder's level for its ticket and its ticket for its level",
        answers(swaps_ticket_and_level),
    ),
    ("names the holder at the lowest place on whatever item", answers(looks_at_places_first)),
    ("takes the holder for one of the asker's level", answers(tells_own_level)),
    ("names whoever has a lock on the item, in the way or not", answers(names_any_lock)),
    (
        "takes the table's rows for its columns",
        opens(|bytes, rule| open_with(bytes, rule, by_columns)),
    ),
    (
        "takes a table that is not transitive",
        opens(|bytes, rule| open_with(bytes, rule, not_transitive)),
    ),
    (
        "takes a table that is not antisymmetric",
        opens(|bytes, rule| open_with(bytes, rule, not_antisymmetric)),
    ),
    (
        "takes a table that is not reflexive",
        opens(|bytes, rule| open_with(bytes, rule, not_reflexive)),
    ),
    (
        "takes a byte above 1 in the table for 1",
        opens(|bytes, rule| open_with(bytes, rule, byte_above_1)),
    ),
    (
        "looks at the table before the levels",
        opens(|bytes, rule| open_with(bytes, rule, table_first)),
    ),
    ("tells of a level byte above 3 before the header is whole", opens(tells_level_early)),
    ("does a read between incomparable levels", answers(reads_beside)),
    ("compares levels by number where it reads", answers(reads_by_number)),
    ("compares levels by number where a certify signals", answers(signals_by_number)),
    ("delays a certify for a reader of a level with a smaller number", answers(delays_by_number)),
    ("opens every house under rule A", opens(|bytes, _| run::open(bytes, Rule::A))),
    ("opens every house under rule B", opens(|bytes, _| run::open(bytes, Rule::B))),
    ("signals at certify too under rule B", answers(signals_at_both)),
    ("signals at certify under rule B, and takes it back at an abort", answers(takes_back)),
    ("gives no signal under rule B", answers(never_signals)),
    ("signals at an abort too under rule B", answers(signals_at_abort)),
    ("signals at commit for what it has only read", answers(signals_for_reads)),
    ("signals at commit for every item of its level", answers(signals_for_level)),
    ("signals though the commit is refused", answers(signals_when_refused)),
    ("tells the committer how many readers were signalled", answers(tells_committer_count)),
    ("delays a commit under rule B for a reader above", answers(delays_commit_for_reader)),
    ("compares levels by number where a commit signals", answers(commit_signals_by_number)),
    ("reads again what is certified below, under rule B", answers(reads_again)),
];

/// A desk that opens by the rules and answers so.
const fn answers(answer: Answer) -> Conduct {
    Conduct { open: run::open, answer }
}

/// A desk that opens so and answers by the rules.
const fn opens(open: Open) -> Conduct {
    Conduct { open, answer: Desk::answer }
}

fn signals(desk: &Desk) -> usize {
    desk.places.iter().map(|place| place.signalled().len()).sum()
}

/// Who reads what the asker has written, of the places that count: on the lowest item, at the lowest
/// place.
fn first_reader(desk: &Desk, request: &Request, counts: impl Fn(&Place) -> bool) -> Option<usize> {
    let reader = |item| desk.places.iter().position(|place| counts(place) && place.cell(item).read);
    desk.changed_by(request).into_iter().find_map(reader)
}

/// Answers as the desk does, but delays a certify when one of the places that count reads its items.
fn delay_certify_if(desk: &mut Desk, request: &Request, counts: impl Fn(&Place) -> bool) -> Reply {
    delay_if(Operation::Certify, desk, request, counts)
}

fn delay_if(
    operation: Operation,
    desk: &mut Desk,
    request: &Request,
    counts: impl Fn(&Place) -> bool,
) -> Reply {
    let before = desk.clone();
    let reply = desk.answer(request);
    match first_reader(&before, request, counts) {
        Some(holder) if request.is(operation) && reply.number == 0 => {
            *desk = before;
            delayed_by(&desk.places[holder], request)
        }
        _ => reply,
    }
}

/// Answers as the desk does, but a delay names whom `named` gives for the asker's place, if anybody.
fn name_instead(
    desk: &mut Desk,
    request: &Request,
    named: impl Fn(&Desk, usize) -> Option<usize>,
) -> Reply {
    let reply = desk.answer(request);
    let me = desk.find(request.level, request.ticket).ok().filter(|_| is_delay(&reply));
    match me.and_then(|me| named(desk, me)) {
        Some(holder) => delayed_by(&desk.places[holder], request),
        None => reply,
    }
}

fn is_delay(reply: &Reply) -> bool {
    reply.number == Refusal::Delayed.number()
}

fn tells_count(desk: &mut Desk, request: &Request) -> Reply {
    tells_count_at(Operation::Certify, desk, request)
}

fn tells_count_at(operation: Operation, desk: &mut Desk, request: &Request) -> Reply {
    let before = signals(desk);
    let reply = desk.answer(request);
    if request.is(operation) && reply.number == 0 {
        return Reply { value: signals(desk).saturating_sub(before) as u32, ..reply };
    }
    reply
}

fn delays_for_reader_above(desk: &mut Desk, request: &Request) -> Reply {
    let order = desk.order;
    delay_certify_if(desk, request, |place| order.is_above(place.level, request.level))
}

fn counts_own_read(desk: &mut Desk, request: &Request) -> Reply {
    let own = (request.level, request.ticket);
    delay_certify_if(desk, request, |place| (place.level, place.ticket) == own)
}

fn converts_free_items(desk: &mut Desk, request: &Request) -> Reply {
    let reply = desk.answer(request);
    if !request.is(Operation::Certify) || !is_delay(&reply) {
        return reply;
    }
    let Ok(me) = desk.find(request.level, request.ticket) else {
        return reply;
    };
    let conflicts = desk.conflicts(me, request);
    let is_free = |item: &usize| conflicts.iter().all(|(taken, _)| taken != item);
    for item in desk.changed_by(request).into_iter().filter(is_free) {
        let cell = desk.places[me].cell_mut(item);
        cell.write = false;
        cell.certify = true;
    }
    reply
}

fn gives_old_ticket(desk: &mut Desk, request: &Request) -> Reply {
    let reply = desk.answer(request);
    let ends = request.is(Operation::Commit) || request.is(Operation::Abort);
    if ends && reply.number == 0 {
        desk.next_ticket[usize::from(request.level)] = Some(request.ticket);
    }
    reply
}

fn commits_when_signalled(desk: &mut Desk, request: &Request) -> Reply {
    let reply = desk.answer(request);
    if !request.is(Operation::Commit) || reply.number != Refusal::Signalled.number() {
        return reply;
    }
    match desk.find(request.level, request.ticket) {
        Ok(me) if desk.places[me].standing == Standing::Certified => {
            desk.places[me].cells.values_mut().for_each(|cell| cell.signalled = false);
            desk.answer(request)
        }
        _ => reply,
    }
}

fn takes_blank(desk: &mut Desk, request: &Request) -> Reply {
    let reply = desk.answer(request);
    if reply.number != Refusal::BlankSheet.number() {
        return reply;
    }
    let reply = desk.answer(&request.with_sheet());
    if reply.number == 0 {
        desk.items[usize::from(request.item)].pending = 0;
    }
    reply
}

fn tells_blank_early(desk: &mut Desk, request: &Request) -> Reply {
    let reply = desk.answer(request);
    if request.is_blank_write() && reply.number == Refusal::WrongLevel.number() {
        return Reply { number: Refusal::BlankSheet.number(), ..reply };
    }
    reply
}

fn tells_blank_late(desk: &mut Desk, request: &Request) -> Reply {
    let reply = desk.answer(request);
    if reply.number != Refusal::BlankSheet.number() {
        return reply;
    }
    let otherwise = desk.clone().answer(&request.with_sheet());
    if otherwise.number == 0 {
        reply
    } else {
        otherwise
    }
}

fn counts_tickets_together(desk: &mut Desk, request: &Request) -> Reply {
    let reply = desk.answer(request);
    if request.is(Operation::Begin) && reply.number == 0 {
        desk.next_ticket = [desk.next_ticket[usize::from(request.level)]; LEVELS as usize];
    }
    reply
}

/// Where its level has no place left, the transaction takes a free one of another level, which is
/// its own level's from then on.
fn begins_in_any_place(desk: &mut Desk, request: &Request) -> Reply {
    let reply = desk.answer(request);
    if reply.number != Refusal::PlacesTaken.number() {
        return reply;
    }
    match desk.places.iter_mut().find(|place| !place.is_taken()) {
        Some(place) => {
            place.level = request.level;
            desk.answer(request)
        }
        None => reply,
    }
}

/// The search begins at the ticket modulo 8 and goes round, but not to the last place.
fn goes_round_seven(desk: &mut Desk, request: &Request) -> Reply {
    let last = (request.ticket as usize + PLACES_PER_LEVEL - 1) % PLACES_PER_LEVEL;
    match desk.find(request.level, request.ticket) {
        Ok(me) if me % PLACES_PER_LEVEL == last => {
            let mut unseen = desk.clone();
            unseen.places[me].standing = Standing::Free;
            unseen.answer(request)
        }
        _ => desk.answer(request),
    }
}

fn names_highest_place(desk: &mut Desk, request: &Request) -> Reply {
    name_instead(desk, request, |desk, me| {
        let conflicts = desk.conflicts(me, request).into_iter();
        conflicts.max_by_key(|(item, place)| (Reverse(*item), *place)).map(|(_, place)| place)
    })
}

fn names_asker(desk: &mut Desk, request: &Request) -> Reply {
    name_instead(desk, request, |desk, _| {
        first_reader(desk, request, |place| place.level == request.level)
    })
}

fn names_reader_above(desk: &mut Desk, request: &Request) -> Reply {
    let own = (request.level, request.ticket);
    name_instead(desk, request, |desk, _| {
        first_reader(desk, request, |place| (place.level, place.ticket) != own)
    })
}

fn swaps_ticket_and_level(desk: &mut Desk, request: &Request) -> Reply {
    let reply = desk.answer(request);
    if is_delay(&reply) {
        return Reply { value: reply.version, version: reply.value, ..reply };
    }
    reply
}

fn looks_at_places_first(desk: &mut Desk, request: &Request) -> Reply {
    name_instead(desk, request, |desk, me| {
        desk.conflicts(me, request).into_iter().map(|(_, place)| place).min()
    })
}

fn tells_own_level(desk: &mut Desk, request: &Request) -> Reply {
    let reply = desk.answer(request);
    if is_delay(&reply) {
        return Reply { version: request.level.into(), ..reply };
    }
    reply
}

fn names_any_lock(desk: &mut Desk, request: &Request) -> Reply {
    name_instead(desk, request, |desk, me| {
        let item = desk.conflicts(me, request).first()?.0;
        (0..desk.places.len()).find(|&p| p != me && desk.places[p].cell(item) != Cell::default())
    })
}

/// Opens with a table whose flaws are all of this kind, and otherwise by the rules.
fn forgiving(opening: &Opening, is_forgiven: fn(&Flaw) -> bool) -> Result<Desk, Refusal> {
    match (Desk::open(opening), Table::try_from(&opening.table[..])) {
        (Err(Refusal::NoOrder), Ok(table)) if flaws(&table).iter().all(is_forgiven) => {
            let house = Desk::open(&opening.with_table(&Order::CHAIN.table()))?;
            Ok(Desk { order: Order::unjudged(table), ..house })
        }
        (opened, _) => opened,
    }
}

fn by_columns(opening: &Opening) -> Result<Desk, Refusal> {
    let cell = |row, column| opening.table[entry(row, column)];
    let cells = levels().flat_map(|row| levels().map(move |column| cell(row, column)));
    Desk::open(&opening.with_table(&cells.collect::<Vec<u8>>()))
}

fn not_transitive(opening: &Opening) -> Result<Desk, Refusal> {
    forgiving(opening, |flaw| matches!(flaw, Flaw::NotTransitive { .. }))
}

fn not_antisymmetric(opening: &Opening) -> Result<Desk, Refusal> {
    forgiving(opening, |flaw| matches!(flaw, Flaw::NotAntisymmetric { .. }))
}

fn not_reflexive(opening: &Opening) -> Result<Desk, Refusal> {
    forgiving(opening, |flaw| matches!(flaw, Flaw::NotReflexive { .. }))
}

fn byte_above_1(opening: &Opening) -> Result<Desk, Refusal> {
    let bits: Vec<u8> = opening.table.iter().map(|&byte| byte.min(1)).collect();
    Desk::open(&opening.with_table(&bits))
}

fn table_first(opening: &Opening) -> Result<Desk, Refusal> {
    let proper = Opening { levels: vec![0], ..opening.clone() };
    Desk::open(&proper).and_then(|_| Desk::open(opening))
}

fn tells_level_early(bytes: &[u8], rule: Rule) -> Option<Result<Desk, Refusal>> {
    match run::open(&[bytes, &Order::CHAIN.table()].concat(), rule) {
        Some(Err(Refusal::LevelByte)) => Some(Err(Refusal::LevelByte)),
        _ => run::open(bytes, rule),
    }
}

/// Answers as the desk does, but by another order.
fn answer_by(order: Order, desk: &mut Desk, request: &Request) -> Reply {
    let own = std::mem::replace(&mut desk.order, order);
    let reply = desk.answer(request);
    desk.order = own;
    reply
}

fn reads_beside(desk: &mut Desk, request: &Request) -> Reply {
    let Desk { items, order, .. } = &*desk;
    let mut table = order.table();
    match items.get(usize::from(request.item)).filter(|_| request.is(Operation::Read)) {
        Some(item) if request.level < LEVELS && order.are_apart(request.level, item.level) => {
            table[entry(request.level, item.level)] = 1;
            answer_by(Order::unjudged(table), desk, request)
        }
        _ => desk.answer(request),
    }
}

fn by_number(operation: Operation, desk: &mut Desk, request: &Request) -> Reply {
    let order = if request.is(operation) { Order::CHAIN } else { desk.order };
    answer_by(order, desk, request)
}

fn reads_by_number(desk: &mut Desk, request: &Request) -> Reply {
    by_number(Operation::Read, desk, request)
}

fn signals_by_number(desk: &mut Desk, request: &Request) -> Reply {
    by_number(Operation::Certify, desk, request)
}

fn delays_by_number(desk: &mut Desk, request: &Request) -> Reply {
    delay_certify_if(desk, request, |place| place.level < request.level)
}

/// Answers a request of this operation as if the house were under rule A.
fn under_a(operation: Operation, desk: &mut Desk, request: &Request) -> Reply {
    let own = desk.rule;
    if request.is(operation) {
        desk.rule = Rule::A;
    }
    let reply = desk.answer(request);
    desk.rule = own;
    reply
}

/// Answers as the desk does; and in a house under rule B, where a request of this operation gets this
/// number, the readers above of more items are signalled. `items` gives them for the house before the
/// request and the place of its asker.
fn signal_more(
    desk: &mut Desk,
    request: &Request,
    (operation, number): (Operation, u8),
    items: impl Fn(&Desk, usize) -> Vec<usize>,
) -> Reply {
    let before = desk.clone();
    let reply = desk.answer(request);
    let is_meant = desk.rule == Rule::B && request.is(operation) && reply.number == number;
    if let (true, Ok(me)) = (is_meant, before.find(request.level, request.ticket)) {
        desk.signal_readers(request.level, &items(&before, me));
    }
    reply
}

fn signals_at_both(desk: &mut Desk, request: &Request) -> Reply {
    under_a(Operation::Certify, desk, request)
}

fn takes_back(desk: &mut Desk, request: &Request) -> Reply {
    let changed = desk.changed_by(request);
    let reply = under_a(Operation::Certify, desk, request);
    if desk.rule == Rule::B && request.is(Operation::Abort) {
        let cells = desk.places.iter_mut().flat_map(|place| place.cells.iter_mut());
        for (_, cell) in cells.filter(|(item, _)| changed.contains(item)) {
            cell.signalled = false;
        }
    }
    reply
}

fn never_signals(desk: &mut Desk, request: &Request) -> Reply {
    under_a(Operation::Commit, desk, request)
}

fn signals_at_abort(desk: &mut Desk, request: &Request) -> Reply {
    signal_more(desk, request, (Operation::Abort, 0), |before, me| before.places[me].changed())
}

fn signals_for_reads(desk: &mut Desk, request: &Request) -> Reply {
    signal_more(desk, request, (Operation::Commit, 0), |before, me| {
        before.places[me].cells.keys().copied().collect()
    })
}

fn signals_for_level(desk: &mut Desk, request: &Request) -> Reply {
    signal_more(desk, request, (Operation::Commit, 0), |before, _| {
        let levels = before.levels();
        (0..levels.len()).filter(|item| levels[*item] == request.level).collect()
    })
}

fn signals_when_refused(desk: &mut Desk, request: &Request) -> Reply {
    let refused = (Operation::Commit, Refusal::Signalled.number());
    signal_more(desk, request, refused, |before, me| before.places[me].changed())
}

fn tells_committer_count(desk: &mut Desk, request: &Request) -> Reply {
    tells_count_at(Operation::Commit, desk, request)
}

fn delays_commit_for_reader(desk: &mut Desk, request: &Request) -> Reply {
    let Desk { order, rule, .. } = *desk;
    delay_if(Operation::Commit, desk, request, |place| {
        rule == Rule::B && order.is_above(place.level, request.level)
    })
}

fn commit_signals_by_number(desk: &mut Desk, request: &Request) -> Reply {
    by_number(Operation::Commit, desk, request)
}

/// Whoever has the read lock is not delayed. Under rule A it is signalled or in the certifier's way.
fn reads_again(desk: &mut Desk, request: &Request) -> Reply {
    let reply = desk.answer(request);
    let item = usize::from(request.item);
    match desk.find(request.level, request.ticket) {
        Ok(me)
            if request.is(Operation::Read)
                && is_delay(&reply)
                && desk.places[me].cell(item).read =>
        {
            let Item { value, version, .. } = desk.items[item];
            Reply { value, version, ..Reply::repeating(request) }
        }
        _ => reply,
    }
}
