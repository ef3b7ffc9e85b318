//! The peer: a second desk, written from document 01 and the change requests alone, and the checks
//! that hold another program against it.

mod beside;
mod bytes;
mod compare;
mod converse;
mod cover;
mod desk;
mod generator;
mod guide;
mod maps;
mod opening;
mod order;
mod program;
mod progress;
mod quiet;
mod rng;
mod rule;
mod run;
mod serial;
mod slips;
mod stop;
mod strike;
mod talk;
mod wire;
mod words;

use compare::{Inputs, Rules};
use rule::Rule;
use run::{Conduct, BY_THE_RULES};
use std::io::{self, Read, Write};
use std::process::ExitCode;
use stop::Stop;

/// More requests than any input needs, and few enough to keep in memory.
const MOST_REQUESTS: u64 = 10_000_000;

const HELP: &str = "\
The peer: a second desk, written from document 01 and the change requests alone.

usage: peer COMMAND

  run [RULE]                     the desk: standard input to standard output
  gen SEED N [RULE]              write the input of a seed: a header, which does not tell the
                                 rule, and N requests made for a house under it
  gen --random SEED              write the random byte string of a seed
  gen --map SEED                 write the case of a map of a seed (see bench/maps.c)
  compare PROGRAM SEEDS N [--from S]
                                 run PROGRAM on that many inputs of gen; its bytes must be
                                 the peer's
  compare --rules PROGRAM SEEDS N [--from S]
                                 the same under either rule, half of the inputs under B;
                                 PROGRAM is given the rule as one word more
  compare --random PROGRAM COUNT [--from S]
                                 the same with random byte strings
  maps PROGRAM COUNT [--from S]  run PROGRAM on that many cases of maps; its bytes must be
                                 those of single reads, and the cases must meet what a map can
  map                            answer one case of a map: standard input to standard output
  map --slip K                   the same with slip K of maps (1, 2 ..) made on purpose
  quiet PROGRAM SEEDS N [--from S]
                                 run PROGRAM on that many inputs of gen, and on each with all
                                 requests struck that a level does not dominate, for every
                                 level; the replies to those that stay must be the same bytes
  quiet --rules PROGRAM SEEDS N [--from S]
                                 the same under either rule, as with compare
  beside K [PROGRAM]             show the replies to the input from standard input, and beside
                                 them those to it with all requests struck that level K does
                                 not dominate
  beside --day [PROGRAM]         the same of a day with a teacher marking, at level 0
  converse PROGRAM               hold a dialogue with PROGRAM, one request at a time
  serial SEEDS N                 check demand 3 on random runs of the peer's own desk
  cover SEEDS N                  count the openings and replies that gen's inputs meet, under
                                 either rule; all orders of the levels take 600 seeds
  talk [PROGRAM]                 type requests in words, see replies in words
  talk --day [PROGRAM]           play document 01's day at the desk
  bytes                          turn lines in the words of talk, an open and requests, into
                                 the bytes of an input: 'peer bytes < LINES | peer beside 0'
  guide FILE [PROGRAM]           play the recipes of a guide, its blocks fenced as 'talk';
                                 every byte and word must be as the guide says
  guide --write FILE [PROGRAM]   write the guide with each recipe's transcript made anew, to
                                 standard output, which must not be FILE itself
  slip K [RULE]                  run, with slip K (1, 2 ..) made on purpose, to see that the
                                 checks can fail
  help                           this text

RULE is A or B, and A where nothing is said: in a house under A signals are given at certify, in one
under B at commit.
PROGRAM is a path, or a path and arguments in one word: 'target/release/peer run'. It has to
end with exit status 0. Where it is left out, the peer's own desk answers.
Exit status: 0 all is well, 1 a check found something, 2 wrong usage or a failed start.
";

fn main() -> ExitCode {
    let arguments: Vec<String> =
        std::env::args_os().skip(1).map(|word| word.to_string_lossy().into_owned()).collect();
    let words: Vec<&str> = arguments.iter().map(String::as_str).collect();
    let (message, status) = match dispatch(&words) {
        Ok(()) => return ExitCode::SUCCESS,
        Err(Stop::Stream(error)) if error.kind() == io::ErrorKind::BrokenPipe => {
            return ExitCode::SUCCESS;
        }
        Err(Stop::Found(what)) => (what, 1),
        Err(Stop::Cannot(what)) => (what, 2),
        Err(Stop::Stream(error)) => (error.to_string(), 2),
    };
    // Where standard error is closed too, the status has to say it.
    let _ = writeln!(io::stderr(), "peer: {}", message.trim_end());
    ExitCode::from(status)
}

fn dispatch(words: &[&str]) -> Result<(), Stop> {
    let mut out = io::stdout();
    if words.iter().any(|word| matches!(*word, "--help" | "-h")) {
        return Ok(out.write_all(HELP.as_bytes())?);
    }
    match *words {
        ["help"] => Ok(out.write_all(HELP.as_bytes())?),
        ["run", ref rule @ ..] => run_here(BY_THE_RULES, rule),
        ["slip", number, ref rule @ ..] => run_here(numbered(&slips::SLIPS, number)?, rule),
        ["gen", "--random", seed] => {
            Ok(out.write_all(&generator::random_bytes(parse(seed, "SEED")?))?)
        }
        ["gen", "--map", seed] => {
            Ok(out.write_all(&maps::Case::of_seed(parse(seed, "SEED")?).to_bytes())?)
        }
        ["gen", seed, requests, ref rule @ ..] => {
            let (seed, rule) = (parse(seed, "SEED")?, parse_rule(rule)?);
            Ok(out.write_all(&generator::input(seed, rule, parse_requests(requests)?))?)
        }
        ["compare", ref rest @ ..] => compare_here(rest, &mut out),
        ["maps", ref rest @ ..] => maps_here(rest, &mut out),
        ["map"] => map_here(maps::BY_THE_RULES, &mut out),
        ["map", "--slip", number] => map_here(numbered(&maps::SLIPS, number)?, &mut out),
        ["converse", program] => converse::converse(program, &mut out),
        ["serial", seeds, requests] => {
            serial::serial(parse_count(seeds, "SEEDS")?, parse_requests(requests)?, &mut out)
        }
        ["cover", seeds, requests] => {
            cover::cover(parse_count(seeds, "SEEDS")?, parse_requests(requests)?, &mut out)
        }
        ["quiet", ref rest @ ..] => quiet_here(rest, &mut out),
        ["bytes"] => bytes_here(&mut out),
        _ => with_or_without_program(words, out),
    }
}

/// The commands whose last word may be a program, or else the peer's own desk answers.
fn with_or_without_program(words: &[&str], mut out: io::Stdout) -> Result<(), Stop> {
    match *words {
        ["talk", "--day"] => talk::day(None, out),
        ["talk", "--day", program] => talk::day(Some(program), out),
        ["talk"] => talk::talk_here(None),
        ["talk", program] => talk::talk_here(Some(program)),
        ["guide", "--write", file] => guide::rewrite(file, None, &mut out),
        ["guide", "--write", file, program] => guide::rewrite(file, Some(program), &mut out),
        ["guide", file] if file != "--write" => guide::play(file, None, &mut out),
        ["guide", file, program] => guide::play(file, Some(program), &mut out),
        ["beside", "--day"] => beside::day(None, &mut out),
        ["beside", "--day", program] => beside::day(Some(program), &mut out),
        ["beside", level] => beside_here(level, None, &mut out),
        ["beside", level, program] => beside_here(level, Some(program), &mut out),
        _ => Err(usage(words)),
    }
}

/// The words before `--from S`, and S.
fn split_from<'a, 'b>(words: &'a [&'b str]) -> Result<(&'a [&'b str], u64), Stop> {
    match *words {
        [ref before @ .., "--from", from] => Ok((before, parse(from, "S")?)),
        _ => Ok((words, 0)),
    }
}

/// Whether the words begin with `--rules`, and the words behind it.
fn split_rules<'a, 'b>(words: &'a [&'b str]) -> (Rules, &'a [&'b str]) {
    match words {
        ["--rules", rest @ ..] => (Rules::Either, rest),
        _ => (Rules::OnlyA, words),
    }
}

fn compare_here(words: &[&str], out: &mut impl Write) -> Result<(), Stop> {
    let (words, from) = split_from(words)?;
    let (rules, words) = split_rules(words);
    match *words {
        ["--random", program, count] if rules == Rules::OnlyA => {
            compare::compare(program, &Inputs::Random, from, parse_count(count, "COUNT")?, out)
        }
        [program, seeds, requests] if program != "--random" => {
            let inputs = Inputs::Generated { requests: parse_requests(requests)?, rules };
            compare::compare(program, &inputs, from, parse_count(seeds, "SEEDS")?, out)
        }
        _ => Err(usage(&["compare"])),
    }
}

fn run_here(conduct: Conduct, rule: &[&str]) -> Result<(), Stop> {
    let rule = parse_rule(rule)?;
    Ok(run::serve(io::stdin().lock(), io::stdout().lock(), rule, conduct)?)
}

fn maps_here(words: &[&str], out: &mut impl Write) -> Result<(), Stop> {
    match split_from(words)? {
        (&[program, count], from) => {
            maps::compare(program, from, parse_count(count, "COUNT")?, out)
        }
        _ => Err(usage(&["maps"])),
    }
}

fn map_here(conduct: maps::Conduct, out: &mut impl Write) -> Result<(), Stop> {
    Ok(out.write_all(&maps::answer(&standard_input()?, conduct)?)?)
}

fn quiet_here(words: &[&str], out: &mut impl Write) -> Result<(), Stop> {
    let (words, from) = split_from(words)?;
    match split_rules(words) {
        (rules, &[program, seeds, requests]) => {
            let requests = parse_requests(requests)?;
            quiet::quiet(program, rules, requests, from, parse_count(seeds, "SEEDS")?, out)
        }
        _ => Err(usage(&["quiet"])),
    }
}

fn beside_here(level: &str, program: Option<&str>, out: &mut impl Write) -> Result<(), Stop> {
    let level = words::number(Some(level), "a level", 3).map_err(Stop::Cannot)?;
    beside::beside(level as u8, &standard_input()?, program, out)
}

fn bytes_here(out: &mut impl Write) -> Result<(), Stop> {
    let lines = standard_input()?;
    let input = bytes::input_of(&String::from_utf8_lossy(&lines)).map_err(Stop::Cannot)?;
    Ok(out.write_all(&input)?)
}

fn standard_input() -> Result<Vec<u8>, Stop> {
    let mut input = Vec::new();
    io::stdin().lock().read_to_end(&mut input)?;
    Ok(input)
}

/// The slip of this number among those listed; the first is 1.
fn numbered<T: Copy>(slips: &[(&str, T)], number: &str) -> Result<T, Stop> {
    let index = parse(number, "K")?.checked_sub(1).and_then(|index| usize::try_from(index).ok());
    let slip = index.and_then(|index| slips.get(index));
    let (_, slip) = slip.ok_or_else(|| {
        Stop::Cannot(format!("there is no slip {number}: K is 1 to {}", slips.len()))
    })?;
    Ok(*slip)
}

/// The rule that the last word of a command tells, A where there is none.
fn parse_rule(words: &[&str]) -> Result<Rule, Stop> {
    match words {
        [] => Ok(Rule::A),
        [word] => Rule::named(word)
            .ok_or_else(|| Stop::Cannot(format!("RULE has to be A or B, not '{word}'"))),
        [_, more, ..] => {
            Err(Stop::Cannot(format!("RULE is the last word, and '{more}' follows it")))
        }
    }
}

fn parse(word: &str, name: &str) -> Result<u64, Stop> {
    word.parse().map_err(|_| Stop::Cannot(format!("{name} has to be a number, not '{word}'")))
}

/// Zero inputs would pass any check, so a check of none is refused.
fn parse_count(word: &str, name: &str) -> Result<u64, Stop> {
    match parse(word, name)? {
        0 => Err(Stop::Cannot(format!("{name} has to be at least 1"))),
        count => Ok(count),
    }
}

fn parse_requests(word: &str) -> Result<usize, Stop> {
    let requests = parse(word, "N")?;
    if requests > MOST_REQUESTS {
        return Err(Stop::Cannot(format!("N is at most {MOST_REQUESTS}, not {requests}")));
    }
    Ok(requests as usize)
}

/// The lines of the help text that are about the command, or a word about where to find it.
fn usage(words: &[&str]) -> Stop {
    let command = words.first().copied().unwrap_or_default();
    let is_about = |line: &&str| line.split_whitespace().next() == Some(command);
    let lines: Vec<&str> = HELP.lines().filter(is_about).collect();
    Stop::Cannot(match (command, lines.is_empty()) {
        ("", _) => "a command is missing; 'peer help' lists them".to_string(),
        (_, true) => format!("there is no command '{command}'; 'peer help' lists them"),
        (_, false) => format!("wrong usage of {command}; it is\n{}", lines.join("\n")),
    })
}
