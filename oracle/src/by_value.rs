//! `oracle race-manager REPEAT FOLDER PROGRAM [WORD..]`: whole public calls of the manager by value, as a table.
//!
//! The program `manager_laps` takes the days of `race-calls`: a set-up that fills a manager, and then rounds, each record by the public call that it asks for: the
//! manager goes in by value, the state rules are tested, and it comes back. It is timed as a process, less the same on the set-up alone. Beside it stands what the
//! Rust's bench takes for the same calls; its manager stays where it is. What is written must be the plain machine's answers, mixed into one number.

use std::path::Path;
use std::time::Duration;

use crate::beside::child;
use crate::calls::{peeks, pushes_and_pops, transitions, Course};
use crate::image::open;
use crate::laps::mixed;
use crate::plain::{Outcome, Plain};
use crate::records::split;
use crate::timing::{process, times, Sides};

/// How many events wait, the second nearly as many as may, and how many of them are timers' of each mode where transitions are timed.
const WAITING: [(usize, usize); 2] = [(4, 1), (250, 29)];
/// No script is longer.
const MOST_BYTES: usize = 65_536;
/// Laps of a question.
const QUESTIONS: usize = 2_000;
/// Bytes before a script's day.
const DAY: usize = 8;
const LIMIT: Duration = Duration::from_secs(60);

/// Calls to time: a script with its laps and the same without, how many calls its laps make, and the days that take as many in the Rust's bench.
struct Timed {
    call: &'static str,
    waiting: usize,
    laps: Vec<u8>,
    idle: Vec<u8>,
    calls: usize,
    rust: Course,
}

impl Timed {
    fn new(call: &'static str, waiting: usize, rust: Course) -> Self {
        let (rounds, end) = rust.rounds_within(MOST_BYTES - DAY);
        let script = |laps: usize, day: &[u8]| {
            let numbers =
                [laps, rust.front - rust.image].map(|number| (number as u32).to_be_bytes());
            [&numbers.concat(), day].concat()
        };
        let asks = call == "peek";
        let (laps, end, calls) = match asks {
            true => (QUESTIONS, rust.front, QUESTIONS),
            false => (1, end, rounds * rust.records),
        };
        Self {
            call,
            waiting,
            laps: script(laps, &rust.day[..end]),
            idle: script(0, &rust.day[..end]),
            calls,
            rust,
        }
    }
}

/// Every call with every number of events waiting.
fn all() -> Vec<Timed> {
    let timed = |(waiting, timers)| {
        [
            Timed::new("peek", waiting, peeks(waiting)),
            Timed::new("push, pop", waiting, pushes_and_pops(waiting, 1)),
            Timed::new("transition", waiting, transitions(waiting, timers)),
        ]
    };
    WAITING.map(timed).into_iter().flatten().collect()
}

/// All of them, in turns, the best of so many runs of each.
pub fn race(repeat: usize, sides: &Sides<'_>, folder: &Path) -> Result<String, String> {
    let mut table =
        "| call | events waiting | ours by value, ns a call | the Rust's bench, ns a call |\n\
                     |---|---|---|---|\n"
            .to_string();
    for timed in all() {
        let Timed { call, waiting, .. } = timed;
        if child(sides.ours, &timed.laps, LIMIT)? != answer(&timed.laps)? {
            return Err(format!(
                "{call}, {waiting} waiting: the answers are not the plain machine's"
            ));
        }
        let (laps, idle) = (folder.join("laps"), folder.join("idle"));
        for (path, bytes) in [(&laps, &timed.laps), (&idle, &timed.idle)] {
            std::fs::write(path, bytes).map_err(|error| format!("{}: {error}", path.display()))?;
        }
        let mut best = [Duration::MAX; 2];
        for _ in 0..repeat.max(1) {
            let times = [process(sides.ours, &laps)?, process(sides.ours, &idle)?];
            best = std::array::from_fn(|at| best[at].min(times[at]));
        }
        let days = [(&timed.rust.day[..], timed.rust.front)];
        let rust = times([sides.rust], &days, repeat, folder, |_| {})?[0][0];
        let each = |time: Duration, count: usize| time.as_nanos() as f64 / count as f64;
        let ours = each(best[0].saturating_sub(best[1]), timed.calls);
        let rust = each(rust, timed.rust.rounds * timed.rust.records);
        table.push_str(&format!("| {call} | {waiting} | {ours:.0} | {rust:.0} |\n"));
    }
    Ok(table)
}

/// What `manager_laps` writes to a script.
pub fn answer(script: &[u8]) -> Result<[u8; 8], String> {
    let number = |at: usize| u32::from_be_bytes(script[at..at + 4].try_into().unwrap());
    let (laps, setup) = (number(0), number(4) as usize);
    let (table, records) = open(&script[DAY..]).map_err(|refused| refused.to_string())?;
    let mut plain = Plain::new(&table);
    let (setup, lap) = (split(&records[..setup]), split(&records[setup..]));
    let mut sum = 0;
    for record in &setup {
        sum = with(sum, &plain.step(&record.op));
    }
    for _ in 0..laps {
        for record in &lap {
            sum = with(sum, &plain.step(&record.op));
        }
        if lap.is_empty() {
            sum = match plain.peek() {
                Some(tag) => mixed(mixed(mixed(sum, 2), tag.offset), u64::from(tag.microstep)),
                None => mixed(sum, 1),
            };
        }
    }
    Ok(sum.to_be_bytes())
}

/// One more answer: its case, then what it says.
fn with(sum: u64, outcome: &Outcome) -> u64 {
    match outcome {
        Outcome::Ok => mixed(sum, 0),
        Outcome::Refused(number) => mixed(mixed(sum, 5), u64::from(*number)),
        Outcome::Popped(None) => mixed(sum, 1),
        Outcome::Popped(Some(ready)) => {
            let sum = mixed(mixed(sum, 6), ready.offset as u64);
            mixed(mixed(sum, ready.microstep), ready.actions.len() as u64)
        }
    }
}
