//! Plays the recipes of a guide and compares every byte. A recipe is a fenced block that holds a
//! transcript of `talk`; each has a house of its own.

use crate::stop::Stop;
use crate::talk::{self, Played};
use std::fs;
use std::io::Write;
use std::ops::Range;

const FENCE: &str = "```";
/// The word behind the fence of a recipe.
const RECIPE: &str = "talk";
/// Before the words that are played, as `talk` echoes them.
const ECHO: &str = "> ";

/// Plays the recipes of the guide; each has to be said again as it stands there.
pub fn play(file: &str, command: Option<&str>, out: &mut impl Write) -> Result<(), Stop> {
    let text = read(file)?;
    let guide = parse(file, &text)?;
    let (requests, under_b) = guide.play(command).map_err(|stop| stop.at(file))?;
    let recipes = guide.recipes.len();
    let own = match under_b {
        0 => String::new(),
        _ => format!(", {under_b} of them under rule B, where the peer's own desk answers"),
    };
    writeln!(
        out,
        "played {recipes} recipes, {requests} requests{own}: every byte as the guide says"
    )?;
    Ok(())
}

/// Writes the guide with the transcript of each recipe made anew.
pub fn rewrite(file: &str, command: Option<&str>, out: &mut impl Write) -> Result<(), Stop> {
    let text = read(file)?;
    let anew = parse(file, &text)?.rewritten(command).map_err(|stop| stop.at(file))?;
    Ok(out.write_all(anew.as_bytes())?)
}

fn read(file: &str) -> Result<String, Stop> {
    fs::read_to_string(file).map_err(|error| Stop::Cannot(format!("cannot read '{file}': {error}")))
}

fn parse<'a>(file: &str, text: &'a str) -> Result<Guide<'a>, Stop> {
    Guide::parse(text).map_err(|what| Stop::Cannot(format!("{file}: {what}")))
}

#[derive(Debug)]
struct Guide<'a> {
    lines: Vec<&'a str>,
    recipes: Vec<Recipe>,
}

#[derive(Debug)]
struct Recipe {
    /// The lines between the fences, the guide's first being 0. So `inside.start` is also the
    /// number of the fence's own line, counted from 1.
    inside: Range<usize>,
    /// What is typed, a line each.
    words: String,
}

impl<'a> Guide<'a> {
    /// A guide without a recipe would pass every check, so it is refused.
    fn parse(text: &'a str) -> Result<Guide<'a>, String> {
        let lines: Vec<&str> = text.lines().collect();
        let recipe = |inside: Range<usize>| Recipe::parse(&lines[inside.clone()], inside);
        let recipes: Vec<Recipe> =
            fenced(&lines)?.into_iter().map(recipe).collect::<Result<_, _>>()?;
        if recipes.is_empty() {
            return Err(format!("there is no recipe in it, no block after {FENCE}{RECIPE}"));
        }
        Ok(Guide { lines, recipes })
    }

    /// The number of requests that were played, and of those under rule B.
    fn play(&self, command: Option<&str>) -> Result<(u64, u64), Stop> {
        let (mut requests, mut under_b) = (0, 0);
        for recipe in &self.recipes {
            let played = talk::play(command, &recipe.words)?;
            recipe.compare(&self.lines[recipe.inside.clone()], &played)?;
            recipe.check_agreed(&played)?;
            requests += played.requests;
            under_b += played.under_b;
        }
        Ok((requests, under_b))
    }

    fn rewritten(&self, command: Option<&str>) -> Result<String, Stop> {
        let mut anew = String::new();
        let mut done = 0;
        for recipe in &self.recipes {
            let played = talk::play(command, &recipe.words)?;
            recipe.check_agreed(&played)?;
            push_lines(&mut anew, &self.lines[done..recipe.inside.start]);
            anew += &played.transcript;
            done = recipe.inside.end;
        }
        push_lines(&mut anew, &self.lines[done..]);
        Ok(anew)
    }
}

impl Recipe {
    fn parse(lines: &[&str], inside: Range<usize>) -> Result<Recipe, String> {
        let typed: Vec<&str> = lines.iter().filter_map(|line| line.strip_prefix(ECHO)).collect();
        let opens = |words: &&str| words.split_whitespace().next() == Some("open");
        if !typed.first().is_some_and(opens) || typed.iter().skip(1).any(opens) {
            let wanted = format!("a recipe begins with a line '{ECHO}open ..' and has no other");
            return Err(format!("line {}: {wanted}", inside.start));
        }
        Ok(Recipe { inside, words: typed.join("\n") })
    }

    /// Tells the first line at which the guide and what is said now differ.
    fn compare(&self, guide: &[&str], played: &Played) -> Result<(), Stop> {
        let said: Vec<&str> = played.transcript.lines().collect();
        let differs = |index: &usize| guide.get(*index) != said.get(*index);
        let Some(index) = (0..guide.len().max(said.len())).find(differs) else {
            return Ok(());
        };
        let shown =
            |lines: &[&str]| lines.get(index).copied().unwrap_or("nothing more").to_string();
        Err(Stop::Found(format!(
            "line {}\n  the guide says:  {}\n  now is said:     {}",
            self.inside.start + index + 1,
            shown(guide),
            shown(&said),
        )))
    }

    /// A guide that has the words of a difference does not make it right.
    fn check_agreed(&self, played: &Played) -> Result<(), Stop> {
        if played.differences == 0 {
            return Ok(());
        }
        Err(Stop::Found(format!(
            "the recipe at line {}: the program does not do what the peer's desk does\n{}",
            self.inside.start, played.transcript
        )))
    }
}

fn push_lines(text: &mut String, lines: &[&str]) {
    for line in lines {
        *text += line;
        text.push('\n');
    }
}

/// The lines inside each block that is fenced as a recipe.
fn fenced(lines: &[&str]) -> Result<Vec<Range<usize>>, String> {
    let unclosed = |start: usize| format!("line {start}: the fence is not closed");
    let mut blocks = Vec::new();
    let mut open: Option<(usize, bool)> = None;
    for (index, line) in lines.iter().enumerate() {
        match (open, fence(line)) {
            (_, None) => {}
            (None, Some(word)) => open = Some((index + 1, word == RECIPE)),
            (Some((start, is_recipe)), Some("")) => {
                blocks.extend(is_recipe.then_some(start..index));
                open = None;
            }
            (Some((start, true)), Some(_)) => return Err(unclosed(start)),
            // A block of another kind may show how a recipe is fenced.
            (Some((_, false)), Some(_)) => {}
        }
    }
    open.map_or(Ok(blocks), |(start, _)| Err(unclosed(start)))
}

/// The first word behind a fence, or nothing behind one that closes.
fn fence(line: &str) -> Option<&str> {
    let behind = line.trim_start().strip_prefix(FENCE)?.trim_start_matches('`');
    Some(behind.split_whitespace().next().unwrap_or_default())
}

#[cfg(test)]
mod tests {
    use super::*;

    const GUIDE: &str = "\
# A guide

```talk
> open 0
  opening  01 00 01 01 01 01 00 01 01 01 00 00 01 01 00 00 00 01  a house with 1 item, at level 0; the old chain 0<1<2<3
> begin 0
  request  00 00 00 00 00 00 00 00 00 00 00 00              begin at level 0
  reply    00 00 00 00 01 00 00 00 00 00 00 00 00 00 00 00  done: ticket #1
> write 0 #1 item 0 = 7
  request  02 00 00 00 01 00 00 00 07 00 00 00              level 0 #1 writes 7 to item 0
  reply    00 02 00 00 01 00 00 00 00 00 00 00 00 00 00 00  done
```

    and a block that is none:

````text
```talk
````
";

    fn guide(text: &str) -> Guide<'_> {
        Guide::parse(text).expect("a guide that can be played")
    }

    fn found(text: &str) -> String {
        match guide(text).play(None) {
            Err(Stop::Found(what)) => what,
            other => panic!("{other:?}"),
        }
    }

    fn refused(text: &str) -> String {
        Guide::parse(text).expect_err("a guide that cannot be played")
    }

    #[test]
    fn a_good_guide_passes_and_is_written_as_it_is() {
        assert_eq!(guide(GUIDE).play(None).expect("a good guide"), (2, 0));
        let under_b = "```talk\n> open 0 rule B\n> begin 0\n```\n";
        let written = guide(under_b).rewritten(None).expect("a recipe under rule B");
        assert_eq!(guide(&written).play(None).expect("a good guide"), (1, 1));
        assert_eq!(guide(GUIDE).rewritten(None).expect("a good guide"), GUIDE);
    }

    #[test]
    fn the_words_alone_are_written_out() {
        let is_said = |line: &&str| !line.starts_with("  ") || line.starts_with("   ");
        let words: Vec<&str> = GUIDE.lines().filter(is_said).collect();
        assert_eq!(guide(&words.join("\n")).rewritten(None).expect("words"), GUIDE);
    }

    #[test]
    fn a_changed_byte_is_found() {
        let what = found(&GUIDE.replace("01 00 00 00 07", "01 00 00 00 08"));
        assert!(what.starts_with("line 10\n"), "{what}");
        assert!(what.contains("the guide says:    request  02 00 00 00 01 00 00 00 08"), "{what}");
        assert!(what.contains("now is said:       request  02 00 00 00 01 00 00 00 07"), "{what}");
    }

    #[test]
    fn a_changed_word_is_found() {
        let what = found(&GUIDE.replace("done: ticket", "done: token"));
        assert!(what.starts_with("line 8\n"), "{what}");
        let what = found(&GUIDE.replace("item 0 = 7", "item 0 = 9"));
        assert!(what.starts_with("line 10\n"), "{what}");
    }

    #[test]
    fn a_missing_or_spare_line_is_found() {
        let lines: Vec<&str> = GUIDE.lines().collect();
        for index in 4..11 {
            let missing = [&lines[..index], &lines[index + 1..]].concat().join("\n");
            found(&missing);
        }
        let what = found(&GUIDE.replace("  done\n", "  done\n\n"));
        assert!(what.contains("now is said:     nothing more"), "{what}");
        let what = found(&GUIDE.replace("  done\n```", "  done\n> quit\n> begin 0\n```"));
        assert!(what.contains("the guide says:  > begin 0"), "{what}");
    }

    #[test]
    fn a_guide_that_cannot_fail_is_refused() {
        assert!(refused("").contains("no recipe"));
        assert!(refused(&GUIDE.replace("```talk", "```text")).contains("no recipe"));
        assert!(refused(&GUIDE.replace("> open 0\n", "")).contains("line 3: a recipe begins"));
        assert!(refused("```talk\n```\n").contains("line 1: a recipe begins"));
        assert!(refused(&GUIDE.replace("> begin 0\n", "> open 0\n")).contains("no other"));
        assert!(refused(&GUIDE.replace("````\n", "")).contains("line 16: the fence is not closed"));
        let unclosed = GUIDE.replace("  done\n```", "  done\n");
        assert!(refused(&unclosed).contains("line 3: the fence is not closed"));
    }
}
