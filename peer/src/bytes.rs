//! Words to bytes: the lines of a talk as the input of a desk.

use crate::rule::Rule;
use crate::talk::{parse_line, Line, OPEN_FIRST};
use crate::wire::Request;

/// The input that one line which opens a house makes, and the requests in the lines behind it.
pub fn input_of(lines: &str) -> Result<Vec<u8>, String> {
    let mut input = Vec::new();
    for (number, line) in (1..).zip(lines.lines()).filter(|(_, line)| !line.trim().is_empty()) {
        let bytes = bytes_of(line.trim(), input.is_empty());
        input.extend(bytes.map_err(|what| format!("line {number}: {what}"))?);
    }
    if input.is_empty() {
        return Err(format!("there is no line: {OPEN_FIRST}"));
    }
    Ok(input)
}

fn bytes_of(line: &str, is_first: bool) -> Result<Vec<u8>, String> {
    match (parse_line(line)?, is_first) {
        (Line::Open(opening), true) if opening.rule != Rule::A.number() => {
            Err("an input tells no rule, and takes A".to_string())
        }
        (Line::Open(opening), true) => Ok(opening.header()),
        (Line::Ask(requests), false) => {
            Ok(requests.into_iter().flat_map(Request::to_bytes).collect())
        }
        (Line::Open(_), false) => Err("an input opens one house, in its first line".to_string()),
        (Line::Ask(_), true) => Err(OPEN_FIRST.to_string()),
    }
}

#[cfg(test)]
mod tests {
    use super::*;
    use crate::talk::{DAY_INPUT, DAY_WORDS};

    #[test]
    fn words_become_an_input() {
        assert_eq!(input_of(DAY_WORDS), Ok(DAY_INPUT.to_vec()));
        let by_map = input_of("\n open 0 9 \n\nmap 0 #1 items 0 1\nraw 7 0 0 0 0 0 0 0 0 0 0 ff");
        let reads = "open 0 9\nread 0 #1 item 0\nread 0 #1 item 1\n";
        let raw = [7, 0, 0, 0, 0, 0, 0, 0, 0, 0, 0, 255];
        assert_eq!(by_map, input_of(reads).map(|reads| [reads, raw.to_vec()].concat()));
    }

    #[test]
    fn a_line_that_is_no_request_is_told_with_its_number() {
        let cases = [
            ("", "there is no line: open a house first"),
            ("begin 0\nopen 0\n", "line 1: open a house first"),
            ("open 0\n\nbegin 0\nopen 0\n", "line 4: an input opens one house"),
            ("open 0\nbegin\n", "line 2: a level is missing"),
            ("open 0\nshow\n", "line 2: 'show' is not known here"),
            ("open x", "line 1: 'x' is not a level"),
            ("open 0 rule B", "line 1: an input tells no rule, and takes A"),
        ];
        for (lines, wanted) in cases {
            let message = input_of(lines).expect_err(lines);
            assert!(message.contains(wanted), "{lines}: {message}");
        }
    }
}
