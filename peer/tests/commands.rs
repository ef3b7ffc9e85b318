//! The commands as a person or a build calls them, and that the checks are able to fail.

use std::fs;
use std::io::Write;
use std::path::Path;
use std::process::{Command, Output, Stdio};

const PEER: &str = env!("CARGO_BIN_EXE_peer");

fn peer(arguments: &[&str]) -> Output {
    peer_with_input(arguments, b"")
}

fn peer_with_input(arguments: &[&str], input: &[u8]) -> Output {
    let mut child = Command::new(PEER)
        .args(arguments)
        .stdin(Stdio::piped())
        .stdout(Stdio::piped())
        .stderr(Stdio::piped())
        .spawn()
        .expect("the peer starts");
    // It may end before it reads; what it says is what counts.
    let _ = child.stdin.take().expect("a pipe").write_all(input);
    child.wait_with_output().expect("it ends")
}

/// A file for one test, and its path.
fn file(name: &str, content: &str) -> String {
    let path = Path::new(env!("CARGO_TARGET_TMPDIR")).join(name);
    fs::write(&path, content).expect("a file that can be written");
    path.to_string_lossy().into_owned()
}

/// A program of these lines, run by the shell.
fn script(name: &str, lines: &str) -> String {
    format!("sh {}", file(name, lines))
}

/// Checks the exit status and that all of `wanted` is said on either stream.
fn assert_says(arguments: &[&str], status: i32, wanted: &[&str]) {
    assert_says_of(b"", arguments, status, wanted);
}

fn assert_says_of(input: &[u8], arguments: &[&str], status: i32, wanted: &[&str]) {
    let output = peer_with_input(arguments, input);
    let text = String::from_utf8_lossy(&[output.stdout, output.stderr].concat()).into_owned();
    assert_eq!(output.status.code(), Some(status), "{arguments:?}: {text}");
    for words in wanted {
        assert!(text.contains(words), "{arguments:?} does not say '{words}':\n{text}");
    }
}

#[test]
fn the_peer_agrees_with_itself() {
    let own = format!("{PEER} run");
    assert_says(&["compare", &own, "30", "200"], 0, &["compared 30 inputs", ": no difference"]);
    assert_says(&["compare", "--random", &own, "30", "--from", "900"], 0, &["compared 30 inputs"]);
    // More than the pipes hold, both ways.
    assert_says(&["compare", &own, "2", "50000"], 0, &[": no difference"]);
    assert_says(
        &["compare", "--rules", &own, "30", "200"],
        0,
        &["compared 30 inputs, 14 of them under rule B, "],
    );
    assert_says(
        &["quiet", "--rules", &own, "8", "200"],
        0,
        &["struck 8 inputs", ": no difference"],
    );
    // Another rule gives other bytes.
    let under_a = script("forgets_the_rule", &format!("'{PEER}' run A"));
    assert_says(
        &["compare", "--rules", &under_a, "30", "400"],
        1,
        &["input of 'peer gen 3 400 B'"],
    );
    assert_says(&["converse", &own], 0, &["conversed in 7 scenes"]);
    assert_says(&["talk", "--day", &own], 0, &["the peer's desk agrees with each"]);
}

/// How many slips there are; `wrong_usage_is_told` sees that none is left out here.
const SLIPS: usize = 43;

/// Those by which a level notices somebody whom it does not dominate, with what `quiet` says of each:
/// the level, the request and the fields.
const NOTICED: [(usize, u8, &str, &str); 12] = [
    (1, 0, " certifies", "they differ in value (whole list: 1, struck list: 0)"),
    (2, 0, " certifies", "they differ in number (whole list: 1, struck list: 0)"),
    (10, 0, "begin at level 0", "they differ in ticket (whole list: 15, struck list: 1)"),
    (11, 0, "begin at level 0", "they differ in number (whole list: 11, struck list: 0)"),
    (15, 0, " certifies", "they differ in version (whole list: 2, struck list: 3)"),
    (19, 0, " certifies", "they differ in version (whole list: 2, struck list: 3)"),
    (20, 3, " reads item 1", "they differ in value (whole list: 670162773, struck list: 0)"),
    (27, 0, " reads item 5", "they differ in value (whole list: 46, struck list: 0), version"),
    (28, 1, " reads item 2", "they differ in number (whole list: 1, struck list: 0), value"),
    (30, 3, " certifies", "they differ in number (whole list: 1, struck list: 0)"),
    (40, 0, " commits", "they differ in value (whole list: 1, struck list: 0)"),
    (41, 0, " commits", "they differ in number (whole list: 1, struck list: 0)"),
];

/// Those that show under rule B alone; of these 31 takes one rule for the other.
const UNDER_B: std::ops::RangeInclusive<usize> = 31..=43;

/// The words that come before the program: whether it is told the rule.
fn rules_for(slip: usize) -> &'static [&'static str] {
    if UNDER_B.contains(&slip) {
        &["--rules"]
    } else {
        &[]
    }
}

/// Those that open a house where it has to be refused.
const OPENED: std::ops::RangeInclusive<usize> = 21..=24;

#[test]
fn compare_finds_every_slip() {
    for slip in 1..=SLIPS {
        let program = format!("{PEER} slip {slip}");
        let wanted = ["the outputs differ", "they differ in", "the house before it"];
        // Nobody stands in a house where the opening is refused.
        let wanted = if (20..=26).contains(&slip) { &wanted[..1] } else { &wanted };
        let words = [&["compare"], rules_for(slip), &[&program, "100", "400"]].concat();
        assert_says(&words, 1, wanted);
    }
}

#[test]
fn quiet_finds_what_a_level_can_notice() {
    for (slip, level, request, fields) in NOTICED {
        let struck = format!(
            "with the requests struck that level {level} does not dominate: a reply is not the \
             same\nrequest"
        );
        let wanted = ["input of 'peer gen", &struck, request, fields, "the house before it"];
        let program = format!("{PEER} slip {slip}");
        let words = [&["quiet"], rules_for(slip), &[&program, "100", "400"]].concat();
        assert_says(&words, 1, &wanted);
    }
}

/// `compare` finds these slips; but no level notices by them whom it does not dominate.
#[test]
fn quiet_is_about_what_is_not_dominated_and_not_about_agreement() {
    let is_noticed = |slip: &usize| NOTICED.iter().any(|(noticed, ..)| noticed == slip);
    let is_found = |slip: &usize| is_noticed(slip) || OPENED.contains(slip);
    for slip in (1..=SLIPS).filter(|slip| !is_found(slip)) {
        let program = format!("{PEER} slip {slip}");
        let words = [&["quiet"], rules_for(slip), &[&program, "12", "400"]].concat();
        assert_says(&words, 0, &["struck 12 inputs", ": no difference"]);
    }
    let program = format!("{PEER} slip 6");
    let wanted =
        ["a done begin while eight or more unseen are open: ", "at level 3\n", "struck 100 inputs"];
    assert_says(&["quiet", &program, "100", "400", "--from", "900"], 0, &wanted);
}

#[test]
fn quiet_finds_programs_that_are_no_desk_and_lists_that_try_too_little() {
    assert_says(&["quiet", "true", "3", "10"], 1, &["the whole list: its output ends after 0 of"]);
    let program = script("writes_one_byte_more", &format!("'{PEER}' run; printf x"));
    assert_says(&["quiet", &program, "3", "10"], 1, &["the whole list: its output goes on after"]);
    for slip in OPENED {
        let wanted = ["the whole list: its output goes on after the 16 bytes due"];
        assert_says(&["quiet", &format!("{PEER} slip {slip}"), "100", "10"], 1, &wanted);
    }
    assert_says(&["quiet", "no-such-program", "3", "10"], 2, &["cannot start"]);
    // It answers as a desk does, but ends in another way on an input that is too short for it.
    let (kept, whole) = (file("kept", ""), peer(&["gen", "0", "20"]).stdout.len());
    let lines =
        format!("cat >'{kept}'; '{PEER}' run <'{kept}'; exit $(($(wc -c <'{kept}') < {whole}))");
    let struck = "with the requests struck that level 0 does not dominate";
    let wanted = [&*format!("{struck}: it ended with exit status 1")];
    assert_says(&["quiet", &script("wants_more", &lines), "1", "20"], 1, &wanted);
    let own = format!("{PEER} run");
    assert_says(&["quiet", &own, "3", "10", "--from", "7"], 0, &["struck 3 inputs"]);
    let wanted = [
        "at level 0 the lists never met a done certify, under rule A, of what somebody unseen",
        "at level 0 the lists never met a done commit, under rule B, of what somebody unseen",
    ];
    assert_says(&["quiet", &own, "100", "5"], 1, &wanted);
}

#[test]
fn beside_shows_a_day_with_and_without_a_teacher() {
    let wanted = [
        "a day with a teacher marking and the same day without\nin a house with 3 items, at levels 0 ",
        "; the order 0<1 0<2 1<3 2<3\n",
        "the whole list                                   the struck list: without what level 0 does",
        "  1 begin at level 0                                 the same\n    00 00 00 00 01 00 00",
        "  3 begin at level 2                                 struck\n    00 00 00 00 01 00 00",
        "00 00 00 00\n    1, delayed: ticket 2 of level 0 holds it",
        "00 00 00 00\n    2, refused: the transaction is signalled",
        "01 00 00 00  00 01 01 00 04 00 00 00 08 00 00 00 01 00 00 00\n    done: value 8, ",
        "15 requests stay, 10 were struck; every reply to those that stay is the same, byte for",
    ];
    assert_says(&["beside", "--day"], 0, &wanted);
    assert_says(&["beside", "--day", &format!("{PEER} run")], 0, &wanted);
    let wanted = [
        " 10 level 0 #1 certifies                             NOT THE SAME",
        "they differ in value (whole list: 1, struck list: 0)",
        "15 requests stay, 10 were struck; replies that are not the same: 1",
    ];
    assert_says(&["beside", "--day", &format!("{PEER} slip 1")], 1, &wanted);
}

#[test]
fn beside_takes_any_input() {
    let day = b"open 1 0 order 0<1\n\nbegin 1\nmap 1 #1 items 0 1\nraw 0 9 0 0 0 0 0 0 0 0 0 0\nbegin 0\n";
    let input = peer_with_input(&["bytes"], day).stdout;
    let stay =
        ["1 requests stay, 4", "4 requests stay, 1", "0 requests stay, 5", "0 requests stay, 5"];
    for (level, counts) in stay.into_iter().enumerate() {
        let wanted = ["4, refused: level above 3", counts];
        assert_says_of(&input, &["beside", &level.to_string()], 0, &wanted);
    }
    let refused = [&[1, 7][..], &input[3..]].concat();
    let own = format!("{PEER} run");
    let wanted = [
        "  1 the opening is refused: 01 07 01",
        "14, refused",
        "no request is answered; the reply",
    ];
    assert_says_of(&refused, &["beside", "0", &own], 0, &wanted);
    assert_says(&["beside", "0", &own], 0, &["the opening is refused: no bytes", "13, refused"]);
    let silent = ["the whole list: its output ends after 0 of 80 bytes"];
    assert_says_of(&input, &["beside", "0", "true"], 1, &silent);
    let program = script("beside_ends_with_3", &format!("'{PEER}' run; exit 3"));
    let wanted = ["the whole list: it ended with exit status 3"];
    assert_says_of(&input, &["beside", "0", &program], 1, &wanted);
}

#[test]
fn bytes_tells_the_line_that_is_no_request() {
    let day = b"open 0\nbegin 0\nwrite 0 #1 item 0 = 7\nread 0 #1 item 0\n";
    let input = peer_with_input(&["bytes"], day).stdout;
    assert_eq!(peer_with_input(&["run"], &input).stdout.len(), 3 * 16);
    let wanted = ["line 3: 'dance' is not known here"];
    assert_says_of(b"open 0\nbegin 0\ndance 0\n", &["bytes"], 2, &wanted);
    assert_says(&["bytes"], 2, &["there is no line: open a house first"]);
}

#[test]
fn maps_agree_with_single_reads() {
    let own = format!("{PEER} map");
    let wanted =
        ["compared 120 maps", ": no difference", "maps with rule B, and a lock of the map seen"];
    assert_says(&["maps", &own, "120"], 0, &wanted);
    assert_says(&["maps", &own, "3", "--from", "900"], 0, &["compared 3 maps"]);
    let case = peer(&["gen", "--map", "5"]).stdout;
    assert!(peer_with_input(&["map"], &case).status.success());
}

#[test]
fn maps_finds_every_slip() {
    let wanted = [
        ("1", "the counts differ"),
        ("2", "the counts differ"),
        ("3", "the counts differ"),
        ("4", "the counts differ"),
        ("5", "whole reply places"),
        ("6", "past the last reply, has to stay a5 and is 00"),
        ("7", "the map is the same, but not what it left in the house"),
        ("8", "the counts differ"),
        ("9", "the map is the same, but not what it left in the house"),
        ("10", "the openings differ\n  the peer:    13\n  the program: 0"),
        ("11", "the openings differ\n  the peer:    13\n  the program: 16"),
        ("12", "the replies before the map differ"),
        ("13", "the openings differ\n  the peer:    28\n  the program: 0"),
        ("14", "the openings differ\n  the peer:    28\n  the program: 0"),
        ("15", "the openings differ\n  the peer:    28\n  the program: 13"),
    ];
    for (slip, words) in wanted {
        let program = format!("{PEER} map --slip {slip}");
        assert_says(&["maps", &program, "100"], 1, &["input of 'peer gen --map", words]);
    }
    assert_says(&["map", "--slip", "16"], 2, &["there is no slip 16: K is 1 to 15"]);
}

#[test]
fn maps_finds_programs_that_are_no_map_call() {
    assert_says(&["maps", "true", "3"], 1, &["the openings differ", "the program: nothing"]);
    assert_says(&["maps", "cat", "3"], 1, &["the openings differ"]);
    assert_says(&["maps", "no-such-program", "3"], 2, &["cannot start"]);
    let program = script("map_ends_with_3", &format!("'{PEER}' map; exit 3"));
    assert_says(&["maps", &program, "3"], 1, &["it ended with exit status 3"]);
    assert_says(&["map"], 2, &["no case of a map: the input ends too early"]);
    // A case whose house has no items: the opening is refused, and nothing more is asked.
    let left = [&[13, 0, 0, 0, 0, 0, 0, 0, 0][..], &[0xa5; 16]].concat();
    assert_eq!(peer_with_input(&["map"], &[0; 14]).stdout, left);
    assert_eq!(peer_with_input(&["map"], &[0; 13]).status.code(), Some(2));
}

#[test]
fn compare_finds_programs_that_are_no_desk() {
    assert_says(&["compare", "true", "3", "10"], 1, &["the program: nothing"]);
    assert_says(&["compare", "cat", "3", "10"], 1, &["they differ in"]);
    assert_says(&["compare", "yes", "3", "10"], 1, &["the outputs differ at byte 0"]);
    assert_says(&["compare", "no-such-program", "3", "10"], 2, &["cannot start"]);
}

#[test]
fn right_bytes_with_a_wrong_end_are_found() {
    let program = script("ends_with_3", &format!("'{PEER}' run; exit 3"));
    let wanted = ["it ended with exit status 3"];
    assert_says(&["compare", &program, "3", "10"], 1, &wanted);
    assert_says(&["converse", &program], 1, &wanted);
    assert_says(&["talk", "--day", &program], 1, &wanted);
    let told = script("says_nothing", "exit 2");
    assert_says(&["compare", &told, "3", "10"], 1, &["the program: nothing", "exit status 2"]);
}

#[test]
fn converse_and_talk_find_a_slip() {
    let program = format!("{PEER} slip 1");
    assert_says(&["converse", &program], 1, &["value (peer: 0, program: 1)"]);
    let lines =
        b"open 0 1\nbegin 0\nbegin 1\nread 1 #1 item 0\nwrite 0 #1 item 0 = 7\ncertify 0 #1\n";
    let output = peer_with_input(&["talk", &program], lines);
    assert_eq!(output.status.code(), Some(1));
    assert!(String::from_utf8_lossy(&output.stdout).contains("DIFFERS"));
}

/// A program takes rule A; under B the peer's own desk answers, also where the program has a slip.
#[test]
fn talk_says_who_answers_under_rule_b() {
    let lines = b"open 0 1 rule B\nbegin 0\nwrite 0 #1 item 0 = 7\ncertify 0 #1\nopen 0\nbegin 0\n";
    let wanted = [
        "; rule B\n  the wire tells no rule: here the peer's own desk answers\n",
        "\n1 requests answered; the peer's desk agrees with each\n",
        "\n3 requests under rule B answered by the peer's desk alone\n",
    ];
    assert_says_of(lines, &["talk", &format!("{PEER} run")], 0, &wanted);
    assert_says_of(lines, &["talk", &format!("{PEER} slip 1")], 0, &wanted);
}

#[test]
fn talk_tells_a_program_that_does_not_start_before_anything_else() {
    let no_house = script("takes_no_house", "exit 2");
    for (program, wanted) in [
        ("./no-such", "cannot start './no-such': No such file or directory"),
        (&no_house, "takes no house: it ended with exit status 2"),
    ] {
        assert_says(&["talk", program], 2, &[wanted]);
        assert_says(&["talk", "--day", program], 2, &[wanted]);
        for lines in ["open 0\n", "help\n"] {
            let output = peer_with_input(&["talk", program], lines.as_bytes());
            assert_eq!(output.status.code(), Some(2), "{program}, {lines}");
            assert!(output.stdout.is_empty(), "{program}, {lines}");
        }
    }
}

#[test]
fn guide_plays_recipes() {
    let own = format!("{PEER} run");
    let words = file("words.md", "```talk\n> open 0\n> begin 0\n> commit 0 #1\n```\n");
    let output = peer(&["guide", "--write", &words, &own]);
    assert_eq!(output.status.code(), Some(0));
    let text = String::from_utf8_lossy(&output.stdout);
    let good = file("good.md", &text);
    let wanted = ["played 1 recipes, 2 requests: every byte as the guide says"];
    assert_says(&["guide", &good], 0, &wanted);
    assert_says(&["guide", &good, &own], 0, &wanted);
    assert_says(&["guide", &good, "./no-such"], 2, &["cannot start './no-such'"]);
    assert_says(&["guide", &words], 1, &["words.md: line 3", "now is said:       opening  01 00"]);
    let wrong = file("wrong.md", &text.replace("reply    09", "reply    08"));
    assert_says(&["guide", &wrong, &own], 1, &["wrong.md: line 9", "reply    08", "reply    09"]);
    let empty = file("empty.md", "A guide without recipes.\n");
    assert_says(&["guide", &empty], 2, &["empty.md: there is no recipe"]);
    assert_says(&["guide", "no-such.md"], 2, &["cannot read 'no-such.md'"]);
    assert_says(&["guide", "--write"], 2, &["wrong usage of guide", "guide --write FILE"]);
}

#[test]
fn the_guide_of_the_desk_is_right_and_finds_slips() {
    let guide = concat!(env!("CARGO_MANIFEST_DIR"), "/../docs/GUIDE.md");
    assert_says(&["guide", guide], 0, &["every byte as the guide says"]);
    for slip in [1, 2, 3, 5, 6, 15, 16, 17, 18, 20, 27, 28] {
        let program = format!("{PEER} slip {slip}");
        assert_says(&["guide", guide, &program], 1, &["GUIDE.md: line", "now is said:"]);
    }
}

#[test]
fn wrong_usage_is_told() {
    assert_says(&[], 2, &["a command is missing"]);
    assert_says(&["dance"], 2, &["no command 'dance'"]);
    assert_says(&["compare", "x"], 2, &["wrong usage of compare", "compare PROGRAM SEEDS N"]);
    assert_says(&["gen", "x", "1"], 2, &["SEED has to be a number"]);
    assert_says(&["gen", "1", "1", "C"], 2, &["RULE has to be A or B, not 'C'"]);
    assert_says(&["run", "b"], 2, &["RULE has to be A or B, not 'b'"]);
    assert_says(&["slip", "1", "B", "2"], 2, &["RULE is the last word, and '2' follows it"]);
    assert_says(&["compare", "--rules", "--random", "x", "1"], 2, &["wrong usage of compare"]);
    assert_says(&["gen", "1", "99999999999"], 2, &["N is at most"]);
    assert_says(&["cover", "0", "400"], 2, &["SEEDS has to be at least 1"]);
    assert_says(&["maps", "x"], 2, &["wrong usage of maps", "maps PROGRAM COUNT"]);
    assert_says(&["maps", "x", "0"], 2, &["COUNT has to be at least 1"]);
    assert_says(&["map", "x"], 2, &["wrong usage of map;", "map --slip K"]);
    assert_says(&["quiet", "x", "1"], 2, &["wrong usage of quiet", "quiet PROGRAM SEEDS N"]);
    assert_says(&["quiet", "x", "0", "400"], 2, &["SEEDS has to be at least 1"]);
    assert_says(&["beside"], 2, &["wrong usage of beside", "beside K", "beside --day"]);
    assert_says(&["beside", "4"], 2, &["'4' is not a level: a number from 0 to 3 is wanted"]);
    assert_says(&["bytes", "x"], 2, &["wrong usage of bytes"]);
    assert_says(&["slip", "0"], 2, &[&format!("there is no slip 0: K is 1 to {SLIPS}\n")]);
    assert_says(&["--help"], 0, &["usage: peer COMMAND"]);
}

#[test]
fn gen_goes_into_run() {
    let input = peer(&["gen", "2", "100"]).stdout;
    assert_eq!(input, peer(&["gen", "2", "100"]).stdout);
    let output = peer_with_input(&["run"], &input);
    assert_eq!(output.status.code(), Some(0));
    assert_eq!(output.stdout.len() % 16, 0);
}
