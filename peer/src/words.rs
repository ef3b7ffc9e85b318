//! Requests, replies and the house in words.

use crate::desk::{Cell, Desk, Place, Refusal, Standing};
use crate::rule::Rule;
use crate::wire::{Operation, Reply, Request};
use std::fmt::Write;

/// A request in words, such as `level 0 #1 writes 7 to item 0`.
pub fn request(request: &Request) -> String {
    let Request { operation, level, item, ticket, value } = *request;
    let Some(known) = Operation::from_number(operation) else {
        return format!(
            "operation {operation}, level {level}, item {item}, ticket #{ticket}, value {value}"
        );
    };
    let mut words = match known {
        Operation::Begin => format!("begin at level {level}"),
        Operation::Read => format!("level {level} #{ticket} reads item {item}"),
        Operation::Write => format!("level {level} #{ticket} writes {value} to item {item}"),
        Operation::Certify => format!("level {level} #{ticket} certifies"),
        Operation::Commit => format!("level {level} #{ticket} commits"),
        Operation::Abort => format!("level {level} #{ticket} aborts"),
        Operation::Ask => format!("level {level} #{ticket} asks for its signals"),
    };
    let unused = [
        ("item", u32::from(item), known.uses_item()),
        ("ticket", ticket, known.uses_ticket()),
        ("value", value, known.uses_value()),
    ];
    for (name, content, _) in unused.iter().filter(|(_, content, used)| !used && *content != 0) {
        words += &format!(", with {content} in the unused {name} field");
    }
    words
}

/// A reply in words, with the reason of a refusal.
pub fn reply(reply: &Reply) -> String {
    match (reply.number, Operation::from_number(reply.operation)) {
        (0, Some(Operation::Begin)) => format!("done: ticket #{}", reply.ticket),
        (0, Some(Operation::Read)) => {
            format!("done: value {}, version {}", reply.value, reply.version)
        }
        (0, Some(Operation::Ask)) if reply.value == 0 => "done: nothing is signalled".to_string(),
        (0, Some(Operation::Ask)) => {
            format!("done: {} signalled, the lowest is item {}", reply.value, reply.item)
        }
        (0, _) => "done".to_string(),
        (1, operation) => {
            let (ticket, level, lock) = (reply.value, reply.version, lock_in_the_way(operation));
            format!(
                "1, delayed: ticket {ticket} of level {level} holds it ({lock}); ask again later"
            )
        }
        (number, operation) => format!("{number}, refused: {}", reason(number, operation)),
    }
}

/// What the holder of a delay has, and on what.
fn lock_in_the_way(operation: Option<Operation>) -> &'static str {
    match operation {
        Some(Operation::Read) => "a certify lock on the item",
        Some(Operation::Write) => "a write or certify lock on the item",
        Some(Operation::Certify) => "a read lock on an item this one has written",
        _ => "a lock",
    }
}

/// Of a read that may get 8, which level does not dominate which.
pub fn why(desk: &Desk, request: &Request) -> Option<(Refusal, String)> {
    let item = desk.items.get(usize::from(request.item))?;
    let (level, other) = (request.level, item.level);
    let is_barred = request.is(Operation::Read) && !desk.order.dominates(level, other);
    is_barred
        .then(|| (Refusal::WrongLevel, format!("level {level} does not dominate level {other}")))
}

/// The reasons of the table of numbers, put for the operation at hand where it names several.
fn reason(number: u8, operation: Option<Operation>) -> &'static str {
    match (number, operation) {
        (2, _) => {
            "the transaction is signalled: an item it read is changing below it, or has changed"
        }
        (3, _) => "operation above 6",
        (4, _) => "level above 3",
        (5, _) => "an unused field is not zero",
        (6, _) => "no open transaction at that level has that ticket",
        (7, _) => "no such item",
        (8, Some(Operation::Write)) => "write of an item not at the level",
        (8, _) => "read of an item whose level is not dominated",
        (9, Some(Operation::Commit)) => "wrong time: the transaction is not certified yet",
        (9, _) => "wrong time: the transaction is certified already",
        (10, _) => "the committed version of the item is 4,294,967,295",
        (11, _) => "all eight places of the level are taken",
        (12, _) => "no ticket is left at the level",
        (13, _) => "opening: not 1 to 64 items, or the levels or the table were cut short",
        (14, _) => "opening: a level byte above 3",
        (15, _) => "write of a blank sheet: the value is 0",
        (16, _) => "opening: the table is no order",
        (28, _) => "opening: the rule is neither 0 (A) nor 1 (B)",
        _ => "a number that the table does not have",
    }
}

/// Where two replies differ, field by field; `left` and `right` name who gave them.
pub fn differing_fields(left: (&str, &Reply), right: (&str, &Reply)) -> String {
    let fields = |reply: &Reply| {
        [
            ("number", u32::from(reply.number)),
            ("operation", reply.operation.into()),
            ("item", reply.item.into()),
            ("ticket", reply.ticket),
            ("value", reply.value),
            ("version", reply.version),
        ]
    };
    let differing: Vec<String> = fields(left.1)
        .iter()
        .zip(fields(right.1))
        .filter(|((_, one), (_, other))| one != other)
        .map(|((name, one), (_, other))| {
            format!("{name} ({}: {one}, {}: {other})", left.0, right.0)
        })
        .collect();
    differing.join(", ")
}

/// A house as it was opened, such as `a house with 1 item, at level 0; the order 0<1`. Rule A goes
/// without saying.
pub fn house(desk: &Desk) -> String {
    let rule = match desk.rule {
        Rule::A => String::new(),
        rule => format!("; rule {rule}"),
    };
    format!("a house with {}; {}{rule}", items(&desk.levels()), desk.order)
}

pub fn items(levels: &[u8]) -> String {
    match levels {
        [] => "no items".to_string(),
        [level] => format!("1 item, at level {level}"),
        _ => {
            let words: Vec<String> = levels.iter().map(u8::to_string).collect();
            format!("{} items, at levels {}", levels.len(), words.join(" "))
        }
    }
}

/// The lock table: items by open transactions with their marks, then the next tickets, the order and the
/// rule.
pub fn lock_table(desk: &Desk) -> String {
    let open: Vec<&Place> = desk.places.iter().filter(|place| place.is_taken()).collect();
    let names: Vec<String> = open.iter().map(|place| name(place)).collect();
    let mut text = String::from("item level      value    version    pending ");
    for name in &names {
        let _ = write!(text, "  {name:<4}");
    }
    text.truncate(text.trim_end().len());
    for (number, item) in desk.items.iter().enumerate() {
        let _ = write!(
            text,
            "\n{number:>4} {:>5} {:>10} {:>10} {:>10} ",
            item.level, item.value, item.version, item.pending
        );
        for (place, name) in open.iter().zip(&names) {
            let width = name.len().max(4);
            let _ = write!(text, "  {:<width$}", marks(place.cell(number)));
        }
        text.truncate(text.trim_end().len());
    }
    text.push_str("\nmarks: r read, w write, c certify, s signalled; 0#1* is certified\n");
    for (level, next) in desk.next_ticket.iter().enumerate() {
        let taken = open.iter().filter(|place| usize::from(place.level) == level).count();
        let next = next.map_or("none left".to_string(), |ticket| format!("#{ticket}"));
        let _ = writeln!(text, "level {level}: next ticket {next}, {taken} of 8 places taken");
    }
    let _ = writeln!(text, "levels: {}; rule {}", desk.order, desk.rule);
    text
}

fn name(place: &Place) -> String {
    let star = if place.standing == Standing::Certified { "*" } else { "" };
    format!("{}#{}{star}", place.level, place.ticket)
}

fn marks(cell: Cell) -> String {
    let letters = [(cell.read, 'r'), (cell.write, 'w'), (cell.certify, 'c'), (cell.signalled, 's')];
    let set: String = letters.iter().filter(|(is_set, _)| *is_set).map(|(_, mark)| mark).collect();
    if set.is_empty() {
        ".".to_string()
    } else {
        set
    }
}

/// Reads a request in words: `OPERATION LEVEL [#TICKET] [item ITEM] [= VALUE]`.
/// Fields that the operation uses must be named; the others may be, and are 0 otherwise.
pub fn parse_request(line: &str) -> Result<Request, String> {
    let line = line.replace('=', " = ").to_lowercase();
    let mut words = line.split_whitespace();
    let verb = words.next().unwrap_or_default();
    let operation = Operation::ALL
        .into_iter()
        .find(|operation| operation.name() == verb)
        .ok_or_else(|| format!("'{verb}' is not known here; 'help' in talk lists what is"))?;
    let level = number(words.next(), "a level", u8::MAX.into())? as u8;
    let (mut ticket, mut item, mut value) = (None, None, None);
    while let Some(word) = words.next() {
        match word {
            "item" => item = Some(number(words.next(), "an item", u16::MAX.into())? as u16),
            "=" => value = Some(number(words.next(), "a value", u32::MAX)?),
            _ => match word.strip_prefix('#') {
                Some(digits) => ticket = Some(number(Some(digits), "a ticket", u32::MAX)?),
                None => return Err(format!("'{word}' does not fit; say {}", example(operation))),
            },
        }
    }
    let missing = (operation.uses_ticket() && ticket.is_none())
        || (operation.uses_item() && item.is_none())
        || (operation.uses_value() && value.is_none());
    if missing {
        return Err(format!("{verb} needs more; say {}", example(operation)));
    }
    Ok(Request {
        operation: operation.number(),
        level,
        item: item.unwrap_or(0),
        ticket: ticket.unwrap_or(0),
        value: value.unwrap_or(0),
    })
}

fn example(operation: Operation) -> String {
    let name = operation.name();
    match operation {
        Operation::Begin => format!("'{name} 0'"),
        Operation::Read => format!("'{name} 0 #1 item 0'"),
        Operation::Write => format!("'{name} 0 #1 item 0 = 7'"),
        _ => format!("'{name} 0 #1'"),
    }
}

pub fn number(word: Option<&str>, what: &str, most: u32) -> Result<u32, String> {
    let word = word.ok_or_else(|| format!("{what} is missing: a number from 0 to {most}"))?;
    word.parse()
        .ok()
        .filter(|&number| number <= most)
        .ok_or_else(|| format!("'{word}' is not {what}: a number from 0 to {most} is wanted"))
}

#[cfg(test)]
mod tests {
    use super::*;

    #[test]
    fn words_become_requests() {
        let write = Request { operation: 2, level: 0, item: 3, ticket: 1, value: 7 };
        assert_eq!(parse_request("write 0 #1 item 3 = 7"), Ok(write));
        assert_eq!(parse_request("  WRITE 0 item 3 =7 #1"), Ok(write));
        assert_eq!(parse_request("begin 9"), Ok(Request { level: 9, ..Request::default() }));
        let ask = Request { operation: 6, level: 2, ticket: 1, value: 5, ..Request::default() };
        assert_eq!(parse_request("ask 2 #1 = 5"), Ok(ask));
    }

    #[test]
    fn bad_words_are_told_apart() {
        let cases = [
            ("dance 0", "not known"),
            ("begin", "a level is missing"),
            ("begin 256", "0 to 255"),
            ("read 0 #1", "needs more"),
            ("read 0 #1 item", "an item is missing"),
            ("write 0 #1 item 0", "needs more"),
            ("commit 0 #x", "not a ticket"),
            ("commit 0 1", "does not fit"),
            ("write 0 #1 item 0 = 4294967296", "not a value"),
        ];
        for (line, wanted) in cases {
            let message = parse_request(line).expect_err(line);
            assert!(message.contains(wanted), "{line}: {message}");
        }
    }

    #[test]
    fn unused_fields_are_named() {
        let odd = Request { operation: 1, level: 0, item: 0, ticket: 1, value: 9 };
        assert_eq!(request(&odd), "level 0 #1 reads item 0, with 9 in the unused value field");
    }

    #[test]
    fn a_delay_says_who_holds_it() {
        let delay = Reply { number: 1, ticket: 9, value: 3, version: 2, ..Reply::default() };
        let words_for = |operation| reply(&Reply { operation, ..delay });
        let lock = "a certify lock on the item";
        let words = format!("1, delayed: ticket 3 of level 2 holds it ({lock}); ask again later");
        assert_eq!(words_for(1), words);
        assert!(words_for(2).contains(" holds it (a write or certify lock on the item)"));
        assert!(words_for(3).contains(" holds it (a read lock on an item this one has written)"));
    }

    #[test]
    fn every_number_has_words() {
        for number in 0..=255 {
            for operation in 0..=255 {
                let words = reply(&Reply { number, operation, ..Reply::default() });
                let known = !words.contains("does not have");
                assert_eq!(known, number <= 16 || number == 28, "{words}");
            }
        }
    }
}
