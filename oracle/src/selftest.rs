//! `oracle selftest DIR`: the oracle held against recorded days, and wrong answers put into each kind of line.
//!
//! For every NAME.day of the folder with its NAME.answers: the plain machine gives the answers byte for byte,
//! compare and judge agree, and the states of both sides agree. Then one line at a time is made wrong; compare or
//! judge must name exactly that record. A mere change of the order of actions isn't made: it says the same. Nor is
//! a pop line made wrong after the record where the day leaves 01's domain: nobody compares it.

use std::collections::BTreeMap;
use std::path::{Path, PathBuf};

use crate::answers::{joined, without_held};
use crate::compare::{compare, Outcome};
use crate::image::{ACTION, KINDS, MAX_LEVEL, REACTION};
use crate::judge::judge;
use crate::{deep, plain};

/// Lines made wrong of one kind in one day, and in a long one.
const SAMPLES: usize = 6;
const SAMPLES_LONG: usize = 2;
const LONG: usize = 5000;

/// Where a wrong line is to be found.
#[derive(Clone, Copy)]
enum Place {
    Table,
    Record(usize),
    /// Lines are shifted: it is enough that the day is found wrong.
    Anywhere,
}

/// Tried and caught, by kind.
type Tally = BTreeMap<&'static str, (usize, usize)>;

pub fn selftest(folder: &Path) -> Result<String, String> {
    let days = days(folder)?;
    let mut tally = Tally::new();
    let (mut records, mut left) = (0, 0);
    for day_path in &days {
        let name = day_path.display();
        let day = read(day_path)?;
        let answers = read(&day_path.with_extension("answers"))?;
        let end = agrees(&day, &answers).map_err(|words| format!("{name}: {words}"))?;
        let text = String::from_utf8(answers).map_err(|_| format!("{name}: no text"))?;
        let lines: Vec<&str> = text.lines().collect();
        records += lines.len() - 1;
        left += usize::from(end.is_some());
        mutate(&day, &lines, end, &mut tally).map_err(|words| format!("{name}: {words}"))?;
    }
    let mut report = String::new();
    let (mut tried, mut caught) = (0, 0);
    for (kind, (of_kind, caught_of_kind)) in &tally {
        report.push_str(&format!(
            "{kind}: {of_kind} tried, {caught_of_kind} caught\n"
        ));
        tried += of_kind;
        caught += caught_of_kind;
    }
    report.push_str(&format!(
        "{} days, {records} records, {left} days leave the domain: all answers agree; \
         {tried} wrong answers tried, {caught} caught",
        days.len()
    ));
    let untried: Vec<&str> = ALL_KINDS
        .iter()
        .copied()
        .filter(|kind| !tally.contains_key(kind))
        .collect();
    if !untried.is_empty() {
        report.push_str(&format!(
            "\nnot tried for want of a line: {}",
            untried.join("; ")
        ));
    }
    Ok(report)
}

fn read(path: &Path) -> Result<Vec<u8>, String> {
    std::fs::read(path).map_err(|error| format!("{}: {error}", path.display()))
}

fn days(folder: &Path) -> Result<Vec<PathBuf>, String> {
    let entries =
        std::fs::read_dir(folder).map_err(|error| format!("{}: {error}", folder.display()))?;
    let mut days: Vec<PathBuf> = entries
        .filter_map(|entry| Some(entry.ok()?.path()))
        .filter(|path| path.extension().is_some_and(|extension| extension == "day"))
        .collect();
    days.sort();
    if days.is_empty() {
        return Err(format!("{}: no days", folder.display()));
    }
    Ok(days)
}

/// Whether everything agrees on right answers; gives the record where the domain is left, if it is.
fn agrees(day: &[u8], answers: &[u8]) -> Result<Option<usize>, String> {
    if plain::answer(day).as_bytes() != answers {
        return Err("the plain machine's answers differ from the recorded ones".to_string());
    }
    let end = match compare(day, answers)? {
        Outcome::Agree { .. } => None,
        Outcome::LeftDomain { record, .. } => Some(record),
        Outcome::Differ(words) => return Err(format!("compare: {words}")),
    };
    if let Outcome::Differ(words) = judge(day, answers)? {
        return Err(format!("judge: {words}"));
    }
    deep::agree(day)?;
    Ok(end)
}

const REFUSALS: [(&str, &str); 7] = [
    ("ok to refused 1", "refused 1"),
    ("ok to refused 5", "refused 5"),
    ("ok to refused 6", "refused 6"),
    ("ok to refused 7", "refused 7"),
    ("ok to refused 8", "refused 8"),
    ("ok to refused 9", "refused 9"),
    ("ok to refused 10", "refused 10"),
];

const ALL_KINDS: &[&str] = &[
    "table ok to refused",
    "table refused to ok",
    "table refusal number",
    "table refusal place",
    "ok to refused 1",
    "ok to refused 5",
    "ok to refused 6",
    "ok to refused 7",
    "ok to refused 8",
    "ok to refused 9",
    "ok to refused 10",
    "ok to nothing",
    "refused to ok",
    "refused to another number",
    "nothing to ready",
    "nothing to ok",
    "ready to nothing",
    "ready offset",
    "ready microstep",
    "ready terminal",
    "ready work",
    "ready network",
    "ready held to 1",
    "ready held to 0",
    "ready held left out",
    "ready reaction key",
    "ready reaction level",
    "ready reaction dropped",
    "ready reaction added",
    "ready action changed",
    "ready action dropped",
    "ready action added",
    "ready action repeated",
    "line dropped",
    "line added",
    "last newline dropped",
];

/// The wrong lines that a right line can be turned into, with their kinds.
fn wrong_lines(line: &str) -> Vec<Wrong> {
    if line == "ok" {
        let mut wrong: Vec<_> = REFUSALS
            .iter()
            .map(|&(kind, wrong)| (kind, wrong.to_string()))
            .collect();
        wrong.push(("ok to nothing", "nothing".to_string()));
        return wrong;
    }
    if line == "nothing" {
        let ready = "ready 0 0 terminal 0 work 0 network 0 held 0 reactions - actions -";
        return vec![
            ("nothing to ready", ready.to_string()),
            ("nothing to ok", "ok".to_string()),
        ];
    }
    if let Some(number) = line.strip_prefix("refused ") {
        let mut wrong = vec![("refused to ok", "ok".to_string())];
        for other in ["1", "5", "7", "8", "9", "10"] {
            if other != number {
                wrong.push(("refused to another number", format!("refused {other}")));
            }
        }
        return wrong;
    }
    wrong_ready(line)
}

/// A wrong line, and its kind.
type Wrong = (&'static str, String);

fn plus_one(word: &str) -> String {
    (word.parse::<u128>().unwrap_or(0) + 1).to_string()
}

/// The words of a ready line with another in one place.
fn with_word(words: &[&str], at: usize, word: &str) -> String {
    let mut words = words.to_vec();
    words[at] = word;
    words.join(" ")
}

/// The same with another list.
fn with_list(words: &[&str], at: usize, items: &[String]) -> String {
    with_word(words, at, &joined(items))
}

/// The items of a list.
fn list(word: &str) -> Vec<String> {
    match word {
        "-" => Vec::new(),
        _ => word.split(',').map(str::to_string).collect(),
    }
}

fn wrong_ready(line: &str) -> Vec<Wrong> {
    let words: Vec<&str> = line.split(' ').collect();
    if words.len() != 15 {
        return Vec::new();
    }
    let more = |at: usize| with_word(&words, at, &plus_one(words[at]));
    let flipped = |at: usize| with_word(&words, at, if words[at] == "0" { "1" } else { "0" });
    // A kind each, as few lines have a 1.
    let held = |word: &str| match word {
        "0" => "ready held to 1",
        _ => "ready held to 0",
    };
    let mut wrong = vec![
        ("ready to nothing", "nothing".to_string()),
        ("ready offset", more(1)),
        ("ready microstep", more(2)),
        ("ready terminal", flipped(4)),
        ("ready work", flipped(6)),
        ("ready network", flipped(8)),
        (held(words[10]), flipped(10)),
        ("ready held left out", without_held(line)),
    ];
    wrong.extend(wrong_reactions(&words, 12));
    wrong.extend(wrong_actions(&words, 14));
    wrong
}

fn wrong_reactions(words: &[&str], at: usize) -> Vec<Wrong> {
    let reactions = list(words[at]);
    let with = |front: &[String], last: String| {
        let items = [front, &[last]].concat();
        with_list(words, at, &items)
    };
    let greatest = format!("{MAX_LEVEL}:{}", KINDS[REACTION].0 - 1);
    let mut wrong = vec![("ready reaction added", with(&reactions, greatest))];
    if let Some((last, front)) = reactions.split_last() {
        let (level, key) = last.split_once(':').unwrap_or((last, ""));
        let (other_key, other_level) = (plus_one(key), plus_one(level));
        let (key, level) = (
            format!("{level}:{other_key}"),
            format!("{other_level}:{key}"),
        );
        wrong.push(("ready reaction key", with(front, key)));
        wrong.push(("ready reaction level", with(front, level)));
        wrong.push(("ready reaction dropped", with_list(words, at, front)));
    }
    wrong
}

fn wrong_actions(words: &[&str], at: usize) -> Vec<Wrong> {
    let actions = list(words[at]);
    let with = |last: &str| {
        let items = [&actions[..], &[last.to_string()]].concat();
        with_list(words, at, &items)
    };
    let past = KINDS[ACTION].0.to_string();
    let mut wrong = vec![("ready action added", with(&past))];
    if let Some((first, others)) = actions.split_first() {
        let changed = [&[plus_one(first)], others].concat();
        let changed = with_list(words, at, &changed);
        wrong.push(("ready action changed", changed));
        wrong.push(("ready action dropped", with_list(words, at, others)));
        wrong.push(("ready action repeated", with(first)));
    }
    wrong
}

/// A day whose lines are made wrong, one at a time.
struct Trial<'t> {
    day: &'t [u8],
    lines: &'t [&'t str],
    tally: &'t mut Tally,
}

impl Trial<'_> {
    /// A wrong answer must be caught.
    fn of(&mut self, kind: &'static str, place: Place, text: &str) -> Result<(), String> {
        let caught = caught(self.day, text.as_bytes(), place);
        let (tried, all_caught) = self.tally.entry(kind).or_insert((0, 0));
        *tried += 1;
        *all_caught += usize::from(caught);
        if caught {
            return Ok(());
        }
        let at = match place {
            Place::Table => "the table's line".to_string(),
            Place::Record(at) => format!("record {at}"),
            Place::Anywhere => "some line".to_string(),
        };
        Err(format!("a wrong answer was not caught: {kind}, at {at}"))
    }

    /// The lines with another in one place.
    fn with(&self, at: usize, line: &str) -> String {
        let mut lines = self.lines.to_vec();
        lines[at] = line;
        lines.join("\n") + "\n"
    }

    /// Wrong lines of each kind, up to so many; none for pops from the record on where the domain is left.
    fn wrong_records(&mut self, end: Option<usize>, most: usize) -> Result<(), String> {
        let mut candidates: BTreeMap<&'static str, Vec<(usize, String)>> = BTreeMap::new();
        for (at, line) in self.lines.iter().enumerate().skip(1) {
            let is_pop = *line == "nothing" || line.starts_with("ready ");
            if is_pop && end.is_some_and(|end| at >= end) {
                continue;
            }
            for (kind, wrong) in wrong_lines(line) {
                candidates.entry(kind).or_default().push((at, wrong));
            }
        }
        for (kind, candidates) in &candidates {
            for (at, wrong) in spread(candidates, most) {
                self.of(kind, Place::Record(*at), &self.with(*at, wrong))?;
            }
        }
        Ok(())
    }

    /// Lines dropped and lines twice.
    fn wrong_numbers(&mut self, most: usize) -> Result<(), String> {
        let places: Vec<usize> = (0..self.lines.len()).collect();
        for &at in spread(&places, most) {
            let mut dropped = self.lines.to_vec();
            dropped.remove(at);
            let text: String = dropped.iter().map(|line| format!("{line}\n")).collect();
            self.of("line dropped", Place::Anywhere, &text)?;
            let twice = [self.lines[at]; 2].join("\n");
            self.of("line added", Place::Anywhere, &self.with(at, &twice))?;
        }
        Ok(())
    }
}

/// Makes lines of a day wrong, one at a time.
fn mutate(day: &[u8], lines: &[&str], end: Option<usize>, tally: &mut Tally) -> Result<(), String> {
    let most = if lines.len() > LONG {
        SAMPLES_LONG
    } else {
        SAMPLES
    };
    let mut trial = Trial { day, lines, tally };
    for (kind, line) in wrong_table_lines(lines[0]) {
        trial.of(kind, Place::Table, &trial.with(0, &line))?;
    }
    trial.wrong_records(end, most)?;
    trial.wrong_numbers(most)?;
    let text = lines.join("\n");
    trial.of("last newline dropped", Place::Anywhere, &text)
}

fn wrong_table_lines(line: &str) -> Vec<Wrong> {
    let words: Vec<&str> = line.split(' ').collect();
    match words[..] {
        ["table", "refused", number, place] => {
            let number: u64 = number.parse().unwrap_or(0);
            let place: u64 = place.parse().unwrap_or(0);
            vec![
                ("table refused to ok", "table ok".to_string()),
                (
                    "table refusal number",
                    format!("table refused {} {place}", number % 4 + 1),
                ),
                (
                    "table refusal place",
                    format!("table refused {number} {}", place + 1),
                ),
            ]
        }
        _ => vec![("table ok to refused", "table refused 4 23".to_string())],
    }
}

/// Up to `most` items, evenly over the whole.
fn spread<T>(items: &[T], most: usize) -> impl Iterator<Item = &T> {
    let step = ((items.len() + most - 1) / most).max(1);
    // Not the first of each stretch, so that late lines come up too.
    items
        .iter()
        .skip(items.len().saturating_sub(1) % step)
        .step_by(step)
}

/// Whether compare or judge finds the wrong line, and just there.
fn caught(day: &[u8], answers: &[u8], place: Place) -> bool {
    let named = |outcome: Result<Outcome, String>| match (outcome, place) {
        (Ok(Outcome::Differ(words)), Place::Record(at)) => {
            words.starts_with(&format!("record {at} ("))
        }
        (Ok(Outcome::Differ(words)), Place::Table) => words.starts_with("the table:"),
        (Ok(Outcome::Differ(_)) | Err(_), Place::Anywhere) => true,
        _ => false,
    };
    named(compare(day, answers)) || named(judge(day, answers))
}
