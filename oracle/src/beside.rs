//! `oracle beside FROM TO DAMAGED FOLDER PROGRAM WORD..`: another program's answers on many days.
//!
//! The program gets a day on standard input and writes its lines to standard output, as the bench program does. Days: the
//! recorded ones of the folder and the texts in its folder `small`; made ones of every kind, seeds FROM to TO - 1; one
//! long day of each kind; and so many damaged copies, a byte dropped, changed, doubled, or the day cut there, at places
//! spread over all bytes of some fifty short days.
//!
//! The harness has the library's function run all days in one process and the bench program some of them: several sides (`Side`) may answer.
//!
//! Each must be answered in time and with exit status 0. `compare` and `judge` must find nothing, recorded answers must
//! come byte for byte, and so must the plain machine's (that settles the order of actions and what lies outside the
//! Rust's domain, damaged days above all). A difference is shown on the smallest day that has one.

use std::io::{Read, Write};
use std::path::Path;
use std::process::{Command, Stdio};
use std::sync::mpsc;
use std::thread;
use std::time::{Duration, Instant};

use crate::answers::lines;
use crate::compare::{compare_counting, difference, table_line, Outcome, NO_LINE};
use crate::days::{damaged, made, recorded, Case, SHORT};
use crate::domain::Why;
use crate::judge::judge;
use crate::make::{KINDS, LONG_KINDS};
use crate::plain::answer;
use crate::several::several;
use crate::shrink::shown;

/// Time for one day, long enough for a busy machine; and for one that is tried while a day is made smaller.
pub const LIMIT: Duration = Duration::from_secs(120);
pub const SHORT_LIMIT: Duration = Duration::from_secs(3);
/// Between two looks whether a program has ended, and between two writes to it.
const PAUSE: Duration = Duration::from_micros(500);
/// Most bytes of answers that are read: far more than any day here has.
const MOST_BYTES: u64 = 64 << 20;
/// Seeds of made days that damaged copies are made of.
const DAMAGED_SEEDS: u64 = 4;

/// Runs a program on a day in a time; its lines, or in words why there are none.
pub type Runner<'r> = dyn Fn(&[u8], Duration) -> Result<Vec<u8>, String> + Sync + 'r;

/// A child process for each day.
pub fn child(words: &[&str], day: &[u8], limit: Duration) -> Result<Vec<u8>, String> {
    child_in_pieces(words, day, usize::MAX, limit)
}

/// The same, the day written so many bytes at a time, with a pause in which they can be read.
pub fn child_in_pieces(
    words: &[&str],
    day: &[u8],
    piece: usize,
    limit: Duration,
) -> Result<Vec<u8>, String> {
    let end = Instant::now() + limit;
    let (program, rest) = words.split_first().ok_or("no program is named")?;
    let mut child = Command::new(program)
        .args(rest)
        .stdin(Stdio::piped())
        .stdout(Stdio::piped())
        .spawn()
        .map_err(|error| format!("cannot run {program}: {error}"))?;
    let (input, output) = (child.stdin.take(), child.stdout.take());
    let day = day.to_vec();
    thread::spawn(move || {
        let mut input = input?;
        for (at, bytes) in day.chunks(piece).enumerate() {
            if at > 0 {
                thread::sleep(PAUSE);
            }
            // A program need not read a day to its end.
            input.write_all(bytes).ok()?;
        }
        Some(())
    });
    let (sender, receiver) = mpsc::channel();
    thread::spawn(move || {
        let mut lines = Vec::new();
        let read = output.map(|output| output.take(MOST_BYTES).read_to_end(&mut lines));
        let _ = sender.send((lines, read));
    });
    let mut ended = Ok(None);
    let read = receiver.recv_timeout(limit);
    while read.is_ok() && matches!(ended, Ok(None)) && Instant::now() < end {
        ended = child.try_wait();
        if matches!(ended, Ok(None)) {
            thread::sleep(PAUSE);
        }
    }
    // It has ended, or is to be ended: in either case nothing is left to be done if that fails.
    let _ = child.kill();
    let _ = child.wait();
    match (read, ended) {
        (Ok((lines, Some(Ok(_)))), Ok(Some(status))) if status.success() => Ok(lines),
        (_, Ok(Some(status))) => Err(format!("the program ended badly: {status}")),
        _ => Err(format!("the program did not end within {limit:?}")),
    }
}

/// How the comparison of a day with the Rust ended, and how many of its transitions are no longer refused with 7.
pub type Compared = (Outcome, usize);

/// Holds what a program gave for a day to everything that is known; how the comparison with the Rust ended, or the
/// first difference in words.
pub fn check(day: &[u8], given: Result<Vec<u8>, String>) -> Result<Compared, String> {
    let given = given?;
    let compared = compare_counting(day, &given).map_err(|words| format!("compare: {words}"))?;
    if let (Outcome::Differ(words), _) = compared {
        return Err(format!("compare: {words}"));
    }
    if let Outcome::Differ(words) = judge(day, &given).map_err(|words| format!("judge: {words}"))? {
        return Err(format!("judge: {words}"));
    }
    match first_difference(day, answer(day).as_bytes(), &given)? {
        Some(words) => Err(format!("01: {words}")),
        None => Ok(compared),
    }
}

/// The first line in which answers to a day differ, in words.
pub fn first_difference(day: &[u8], expected: &[u8], got: &[u8]) -> Result<Option<String>, String> {
    if expected == got {
        return Ok(None);
    }
    let (expected, got) = (lines(expected)?, lines(got)?);
    let line = |lines: &[&str], at: usize| lines.get(at).copied().unwrap_or(NO_LINE).to_string();
    let at = (0..)
        .find(|&at| line(&expected, at) != line(&got, at))
        .unwrap_or(0);
    let records = table_line(day, &got).map_or(Vec::new(), |(_, records)| records);
    let (expected, got) = (line(&expected, at), line(&got, at));
    Ok(Some(
        match at.checked_sub(1).and_then(|index| records.get(index)) {
            Some(record) => match difference(at, record, &expected, &got) {
                Outcome::Differ(words) => words,
                _ => String::new(),
            },
            None => format!("line {}: expected \"{expected}\", got \"{got}\"", at + 1),
        },
    ))
}

/// One that answers days: all that are recorded, damaged or long, and the made ones of the first so many seeds.
pub struct Side<'s> {
    pub name: &'s str,
    pub seeds: u64,
    pub runner: &'s Runner<'s>,
}

impl Side<'_> {
    fn takes(&self, case: &Case) -> bool {
        case.before < self.seeds
    }
}

#[derive(Default)]
struct Counts {
    records: usize,
    compared: usize,
    left: usize,
    /// Days left out from where the S of a scope that a reset turned inactive is read, and their records from there on.
    apart: (usize, usize),
    sevens: usize,
    refused_tables: usize,
}

impl Counts {
    fn add(&mut self, day: &[u8], (outcome, sevens): &Compared) {
        let records =
            crate::image::open(day).map(|(_, records)| crate::records::split(records).len());
        self.refused_tables += usize::from(records.is_err());
        self.records += records.unwrap_or(0);
        self.sevens += sevens;
        match outcome {
            Outcome::LeftDomain { record, why, left } => {
                self.left += 1;
                self.compared += record - 1;
                if let Why::ResetScope(_) = why {
                    self.apart.0 += 1;
                    self.apart.1 += left;
                }
            }
            Outcome::Agree { records } => self.compared += records,
            Outcome::Differ(_) => {}
        }
    }
}

/// All days of a run; `Err` if a file cannot be read.
pub fn beside(
    (from, to): (u64, u64),
    count: usize,
    folder: &Path,
    sides: &[Side<'_>],
) -> Result<Result<String, String>, String> {
    let mut cases = recorded(folder)?;
    let stored = cases.len();
    let mut bases = recorded(folder)?;
    bases.retain(|base| base.day.len() <= SHORT);
    let seeds = to..to.saturating_add(DAMAGED_SEEDS);
    bases.extend(seeds.flat_map(|seed| KINDS.iter().map(move |kind| made(seed, kind))));
    let long = LONG_KINDS.iter().filter(|kind| kind.contains('-'));
    cases.extend(long.map(|kind| made(from, kind)));
    let made_days = (from..to).flat_map(|seed| {
        KINDS.iter().map(move |kind| Case {
            before: seed - from,
            ..made(seed, kind)
        })
    });
    cases.extend(made_days);
    let whole = cases.len();
    cases.extend(damaged(from, count, &bases));
    let by_side = |side: &Side<'_>| {
        let taken = cases.iter().filter(|case| side.takes(case)).count();
        format!("{taken} through {}", side.name)
    };
    let by_side: Vec<String> = sides.iter().map(by_side).collect();
    Ok(run(&cases, sides).map(|counts| {
        format!(
            "{} days: {stored} recorded, {} made, {} damaged ({} refused tables in all); {} records, {} of them compared \
             with the Rust; {} days left its domain, {} of them (with {} records) where the S of a scope that a reset turned \
             inactive is read; {} transitions were refused with 7 before C-14; {}\nno difference",
            cases.len(),
            whole - stored,
            cases.len() - whole,
            counts.refused_tables,
            counts.records,
            counts.compared,
            counts.left,
            counts.apart.0,
            counts.apart.1,
            counts.sevens,
            by_side.join(", ")
        )
    }))
}

/// Runs all cases, several at a time; the first that differs is shown on the smallest day.
fn run(cases: &[Case], sides: &[Side<'_>]) -> Result<Counts, String> {
    let work = |_: usize, case: &Case| {
        let mut agreed = None;
        for side in sides.iter().filter(|side| side.takes(case)) {
            agreed = Some(check_case(case, side.runner).map_err(|words| (side, words))?);
        }
        Ok(agreed)
    };
    let outcomes = several(cases, work).map_err(|(index, (side, words))| {
        let differs = |day: &[u8]| check(day, (side.runner)(day, SHORT_LIMIT)).err();
        let name = format!("{}: {}", side.name, cases[index].name);
        shown(&name, &words, &cases[index].day, differs)
    })?;
    let mut counts = Counts::default();
    for (case, outcome) in cases.iter().zip(outcomes) {
        if let Some(outcome) = outcome {
            counts.add(&case.day, &outcome);
        }
    }
    Ok(counts)
}

fn check_case(case: &Case, runner: &Runner<'_>) -> Result<Compared, String> {
    let given = runner(&case.day, LIMIT)?;
    if let Some(recorded) = &case.recorded {
        if let Some(words) = first_difference(&case.day, recorded, &given)? {
            return Err(format!("the recorded answers: {words}"));
        }
    }
    check(&case.day, Ok(given))
}

#[cfg(test)]
mod tests {
    use super::*;
    use crate::text::{assemble, lines_of};

    /// The plain machine, with each line put through a change.
    fn wrong<'r>(change: impl Fn(&str) -> String + Sync + 'r) -> Box<Runner<'r>> {
        Box::new(move |day: &[u8], _: Duration| {
            let lines: Vec<String> = answer(day).lines().map(&change).collect();
            Ok((lines.join("\n") + "\n").into_bytes())
        })
    }

    fn cases() -> Vec<Case> {
        let kinds = KINDS
            .iter()
            .flat_map(|kind| (0..6).map(move |seed| made(seed, kind)));
        let mut cases: Vec<Case> = kinds.collect();
        let more = damaged(1, 60, &cases);
        cases.extend(more);
        let no_scope = assemble("reactor 0 -").unwrap();
        cases.push(Case::new("a table without a scope".to_string(), no_scope));
        cases
    }

    fn side<'s>(name: &'s str, seeds: u64, runner: &'s Runner<'s>) -> Side<'s> {
        Side {
            name,
            seeds,
            runner,
        }
    }

    fn report(change: impl Fn(&str) -> String + Sync) -> String {
        let wrong = wrong(change);
        let sides = [side("wrong", 1, &*wrong)];
        run(&cases(), &sides).map(|_| ()).unwrap_err()
    }

    #[test]
    fn right_answers_agree() {
        let right = wrong(str::to_string);
        let counts = run(&cases(), &[side("right", 1, &*right)]).map_err(|words| panic!("{words}"));
        assert!(counts.unwrap().records > 1000);
    }

    #[test]
    fn a_lost_flag_is_shown_on_a_day_of_four_lines() {
        let report = report(|line| line.replace("terminal 1", "terminal 0"));
        let smallest = "scope - 0 -\nreactor 0 -\nplain 0 0 1 -\npop\nthere: compare: record 2 (pop): expected";
        assert!(report.contains(smallest), "{report}");
    }

    #[test]
    fn a_wrong_refusal_and_a_wrong_place_are_shown() {
        let numbers = report(|line| line.replace("refused 10", "refused 5"));
        assert!(
            numbers.contains("expected \"refused 10\", got \"refused 5\""),
            "{numbers}"
        );
        let places = report(|line| line.replace("table refused 3 5", "table refused 3 6"));
        assert!(
            places.contains("expected \"table refused 3 5\""),
            "{places}"
        );
    }

    #[test]
    fn a_lost_line_and_a_wrong_order_of_actions_are_shown() {
        let lost = report(|line| line.replace("nothing", "nothing\nnothing"));
        assert!(lost.contains("\npop\nthere: "), "{lost}");
        let order = report(|line| match line.split_once(" actions ") {
            Some((front, list)) => {
                let turned: Vec<&str> = list.split(',').rev().collect();
                format!("{front} actions {}", turned.join(","))
            }
            None => line.to_string(),
        });
        assert!(order.contains("there: 01: record"), "{order}");
    }

    #[test]
    fn a_wrong_second_side_is_named_and_has_its_own_days() {
        let (right, wrong) = (
            wrong(str::to_string),
            wrong(|line| line.replace("terminal 1", "terminal 0")),
        );
        let mut cases = cases();
        let sides = [side("first", 2, &*right), side("second", 1, &*wrong)];
        let words = run(&cases, &sides).map(|_| ()).unwrap_err();
        assert!(words.starts_with("second: seed "), "{words}");
        assert!(words.contains("\nplain 0 0 1 -\npop\nthere: "), "{words}");
        cases.iter_mut().for_each(|case| case.before = 1);
        assert!(run(&cases, &sides).is_ok());
    }

    #[test]
    fn a_program_that_is_stuck_or_fails_is_found() {
        let short = Duration::from_millis(200);
        let stuck = child(&["sleep", "30"], b"", short);
        assert!(stuck.unwrap_err().contains("did not end"));
        assert!(child(&["false"], b"day", LIMIT)
            .unwrap_err()
            .contains("ended badly"));
        assert_eq!(child(&["cat"], &[7; 300_000], LIMIT), Ok(vec![7; 300_000]));
    }

    #[test]
    fn every_day_has_a_text_that_gives_it_again() {
        for case in cases() {
            let text = lines_of(&case.day).join("\n");
            assert_eq!(assemble(&text), Ok(case.day), "{}\n{text}", case.name);
        }
    }
}
