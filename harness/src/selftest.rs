//! Wrong answers and wrong states in the library's place, on a few days, and wrong maps, writers and rescuers: each must be found.

use std::path::Path;
use std::time::Duration;

use barnshiver::State;
use oracle::beside::{beside, Runner, Side};
use oracle::make::make;

use crate::beside::answered;
use crate::{states, wrong, wrong_maps, wrong_rescues};

/// The days of a run here.
const SEEDS: (u64, u64) = (0, 5);
const DAMAGED: usize = 20;

/// Flags of the lines that are turned, and the day that this comes down to.
const TURNED: [(&str, &str, &str); 3] = [
    (
        "terminal 1",
        "terminal 0",
        "scope - 0 -\nreactor 0 -\nplain 0 0 1 -\npop",
    ),
    (
        "held 0",
        "held 1",
        "scope - 0 -\nreactor 0 -\nplain 0 0 0 -\npop",
    ),
    (
        "held 1",
        "held 0",
        "scope - 0 -\nscope 0 0 0\nscope 0 0 1\nreactor 0 0\nmode 1 0\nmode 2 0\naction 1 1\n\
         transition 0 1 history 0 0\nact 0 0 0 0 -\ntransition 0 0 history 0 0\npop",
    ),
];

/// What is made wrong in each state of a day.
type Change = fn(&mut State);
const WRONG_STATES: [(&str, Change); 6] = [
    ("one more piece of work", |state| state.work += 1),
    ("the flag of control turned", |state| {
        state.control_only = !state.control_only
    }),
    ("a scope never active", |state| state.scopes[0].ever = false),
    ("another clock", |state| {
        state.scopes[0].clock.local.microstep += 1
    }),
    ("the last event lost", |state| drop(state.events.pop())),
    ("the flags of events turned", |state| {
        for event in &mut state.events {
            event.terminal = !event.terminal;
        }
    }),
];

/// Two sides on a few made and damaged days; the folder has no recorded ones.
fn run(folder: &Path, first: &Runner<'_>, second: &Runner<'_>) -> Result<String, String> {
    let side = |name, runner| Side {
        name,
        seeds: u64::MAX,
        runner,
    };
    let sides = [side("first", first), side("second", second)];
    beside(SEEDS, DAMAGED, folder, &sides)?
}

/// Lines with a flag turned, on the one side and the other in turn, are found and shown on the smallest day.
fn turned(folder: &Path) -> Result<(), String> {
    run(folder, &answered, &answered)?;
    for (at, (from, to, smallest)) in TURNED.into_iter().enumerate() {
        let wrong = |day: &[u8], limit: Duration| {
            let lines = answered(day, limit)?;
            let lines = String::from_utf8_lossy(&lines).replace(from, to);
            Ok(lines.into_bytes())
        };
        let (name, report) = match at % 2 {
            0 => ("first: ", run(folder, &wrong, &answered)),
            _ => ("second: ", run(folder, &answered, &wrong)),
        };
        let shown = format!("\n{smallest}\nthere: compare: record ");
        match report {
            Err(words) if words.starts_with(name) && words.contains(&shown) => {}
            Err(words) | Ok(words) => {
                return Err(format!(
                    "\"{to}\" in the place of \"{from}\" is not shown as it should be:\n{words}"
                ))
            }
        }
    }
    Ok(())
}

pub fn selftest() -> Result<String, String> {
    let empty = std::env::temp_dir().join(format!("harness-selftest-{}", std::process::id()));
    std::fs::create_dir_all(&empty).map_err(|error| format!("{}: {error}", empty.display()))?;
    let (flags, rescuers) = (turned(&empty), wrong_rescues::found(&empty));
    // Nothing is left to be done if it stays.
    let _ = std::fs::remove_dir(&empty);
    flags?;
    let day = make(0, "valid").unwrap_or_default();
    states(&day, &barnshiver::state_after)?;
    for (what, change) in WRONG_STATES {
        let wrong_after = |day: &[u8]| {
            let mut state = barnshiver::state_after(day)?;
            change(&mut state);
            Ok(state)
        };
        if states(&day, &wrong_after).is_ok() {
            return Err(format!("states with {what} are not found wrong"));
        }
    }
    Ok(format!(
        "{} sides with a flag turned found, each on the smallest day; {} kinds of wrong states found\n{}\n{}\n{}",
        TURNED.len(),
        WRONG_STATES.len(),
        wrong_maps::found()?,
        wrong::found()?,
        rescuers?
    ))
}
