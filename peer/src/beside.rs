//! Two answers side by side, for people to see: to an input, and to the same with all requests struck
//! that a level does not dominate (CR 3).

use crate::bytes::input_of;
use crate::compare::{answer_of, refused_opening};
use crate::opening::split_header;
use crate::rule::Rule;
use crate::run::opened;
use crate::stop::Stop;
use crate::strike::{Struck, STRUCK, WHOLE};
use crate::wire::{hex, replies_in, requests_in, Reply};
use crate::words;
use std::io::Write;

/// Pupils draw while a teacher marks, twice. The same day is worked out by proof, byte by byte, in
/// crates/quiet_day/specs/Day.antt.
const DAY: &str = "\
open 0 0 2 order 0<1 0<2 1<3 2<3
begin 0
begin 0
begin 2
read 2 #1 item 0
write 0 #1 item 0 = 7
read 0 #2 item 0
write 2 #1 item 2 = 5
certify 0 #1
abort 0 #2
certify 0 #1
certify 2 #1
begin 0
commit 0 #1
abort 2 #1
begin 2
read 2 #2 item 0
read 0 #3 item 0
write 2 #2 item 2 = 5
write 0 #3 item 1 = 8
certify 2 #2
commit 2 #2
certify 0 #3
commit 0 #3
begin 0
read 0 #4 item 1
";

/// Where the pupils are; the teacher is above.
const DAY_LEVEL: u8 = 0;

pub fn day(command: Option<&str>, out: &mut impl Write) -> Result<(), Stop> {
    let input = input_of(DAY).map_err(Stop::Cannot)?;
    writeln!(out, "a day with a teacher marking and the same day without")?;
    beside(DAY_LEVEL, &input, command, out)
}

/// What is shown of one request: the reply in the whole list, and the one in the struck list unless
/// the request was struck.
struct Row {
    what: String,
    left: Reply,
    right: Option<Reply>,
}

impl Row {
    fn differs(&self) -> bool {
        self.right.is_some_and(|right| right != self.left)
    }

    fn print(&self, number: usize, out: &mut impl Write) -> Result<(), Stop> {
        let bytes = |reply: Reply| hex(&reply.to_bytes());
        let words = words::reply(&self.left);
        let (verdict, words) = match self.right {
            None => ("struck", words),
            Some(right) if right == self.left => ("the same", words),
            Some(right) => {
                let fields = words::differing_fields((WHOLE, &self.left), (STRUCK, &right));
                let both = format!("{WHOLE}: {words}\n    {STRUCK}: {}", words::reply(&right));
                ("NOT THE SAME", format!("{both}\n    they differ in {fields}"))
            }
        };
        columns(&number.to_string(), &self.what, verdict, out)?;
        columns("", &bytes(self.left), &self.right.map(bytes).unwrap_or_default(), out)?;
        Ok(writeln!(out, "    {words}")?)
    }
}

/// Each column is as wide as the bytes of a reply.
fn columns(margin: &str, left: &str, right: &str, out: &mut impl Write) -> Result<(), Stop> {
    let line = format!("{margin:>3} {left:<47}  {right}");
    Ok(writeln!(out, "{}", line.trim_end())?)
}

pub fn beside(
    k: u8,
    input: &[u8],
    command: Option<&str>,
    out: &mut impl Write,
) -> Result<(), Stop> {
    let struck = Struck::of(input, k);
    let left = answer_of(command, WHOLE, input, Rule::A)?;
    let right = answer_of(command, STRUCK, &struck.input, Rule::A)?;
    if let Some(house) = opened(split_header(input).0, Rule::A) {
        writeln!(out, "in {}", words::house(&house))?;
    }
    let without = format!("the {STRUCK}: without what level {k} does not dominate");
    columns("", &format!("the {WHOLE}"), &without, out)?;
    let rows = rows(input, &struck, &left, &right);
    for (row, number) in rows.iter().zip(1..) {
        row.print(number, out)?;
    }
    sum_up(&struck, &rows, out)
}

/// The answers have the lengths due, so that each request finds its reply. A refused opening is
/// shown as a request that stays.
fn rows(input: &[u8], struck: &Struck, left: &[u8], right: &[u8]) -> Vec<Row> {
    let (header, requests) = split_header(input);
    let asked: Vec<(String, bool)> = if struck.is_opened {
        let requests = requests_in(requests).map(|request| words::request(&request));
        requests.zip(struck.stays.iter().copied()).collect()
    } else {
        vec![(refused_opening(header), true)]
    };
    let mut right = replies_in(right);
    let mut next_right = |stays| if stays { right.next() } else { None };
    let asked = asked.into_iter().zip(replies_in(left));
    asked.map(|((what, stays), left)| Row { what, left, right: next_right(stays) }).collect()
}

fn sum_up(struck: &Struck, rows: &[Row], out: &mut impl Write) -> Result<(), Stop> {
    let stay = struck.stays.iter().filter(|stays| **stays).count();
    let gone = struck.stays.len() - stay;
    let (counts, replies) = if struck.is_opened {
        (format!("{stay} requests stay, {gone} were struck"), "every reply to those that stay")
    } else {
        ("no request is answered".to_string(), "the reply to the opening")
    };
    match rows.iter().filter(|row| row.differs()).count() {
        0 => Ok(writeln!(out, "{counts}; {replies} is the same, byte for byte")?),
        differing => {
            Err(Stop::Found(format!("{counts}; replies that are not the same: {differing}")))
        }
    }
}

#[cfg(test)]
mod tests {
    use super::*;
    use crate::run::{output_for, BY_THE_RULES};

    const PROVED: &str = include_str!("../../crates/quiet_day/specs/Day.antt");

    /// The bytes of a numeral such as `0x00_02_0000`, from left to right.
    fn bytes_of(numeral: &str) -> Vec<u8> {
        let digits: Vec<char> = numeral.chars().skip(2).filter(char::is_ascii_hexdigit).collect();
        let byte = |pair: &[char]| u8::from_str_radix(&pair.iter().collect::<String>(), 16);
        digits.chunks(2).map(|pair| byte(pair).expect("two hex digits")).collect()
    }

    #[test]
    fn the_day_is_the_proved_one() {
        let input = input_of(DAY).expect("a day in words");
        let (mut requests, mut replies, mut stays) = (Vec::new(), Vec::new(), Vec::new());
        for line in PROVED.lines() {
            if let ["drawing" | "marking", request, reply, ..] =
                line.split_whitespace().collect::<Vec<_>>()[..]
            {
                if request.starts_with("0x") {
                    requests.extend(bytes_of(request));
                    replies.extend(bytes_of(reply));
                    stays.push(line.trim_start().starts_with("drawing"));
                }
            }
        }
        assert_eq!(split_header(&input).1, requests);
        assert_eq!(output_for(&input, Rule::A, BY_THE_RULES), replies);
        assert_eq!(Struck::of(&input, DAY_LEVEL).stays, stays);
    }
}
