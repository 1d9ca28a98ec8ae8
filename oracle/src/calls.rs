//! `oracle race-calls REPEAT FOLDER PROGRAM [WORD..]`: each call by itself beside the Rust's, as a table.
//!
//! They are singled out by days of many equal rounds, timed as `race` times its days, each less its own set-up alone. One table serves all: a reactor
//! with two modes. So many events wait throughout, and none of them comes due.
//!
//! - push: what a round of two pushes at one tag and the pop of both takes more than one of a push and its pop: the second push, with what its event
//!   adds to the pop. Each event has an action, so that the Rust, too, keeps them apart; half of the rounds push into the root, half into a mode.
//! - pop: what then is left of the round of a push and its pop.
//! - peek: a pop that finds nothing. All events wait in the mode asleep.
//! - transition: to and fro between the modes, each entered in turn by reset, which restarts its timers, and by history, which moves their values.

use std::path::Path;
use std::time::Duration;

use crate::image::{RawTag, Table};
use crate::records::{split, Op};
use crate::rng::Rng;
use crate::timing::{times, Sides};

/// How many events wait, and how many of them are timers' of each mode where transitions are timed: with 29, the table has all 64 actions.
const WAITING: [(usize, usize); 2] = [(4, 1), (200, 29)];
/// Rounds of a day, and of one with transitions, which take longer.
const ROUNDS: usize = 20_000;
const TRANSITIONS: usize = 5_000;
/// How far apart tags lie.
const UNIT: u64 = 1000;
/// Where what never comes due waits.
const FAR: u64 = 1 << 40;

/// The two modes, of which the first is current.
const MODES: usize = 2;
const AWAKE: usize = 0;
const ASLEEP: usize = 1;
/// Actions that are pushed, two in each queue: the root's, and each mode's.
const IN_ROOT: usize = 0;
const IN_MODES: [usize; MODES] = [2, 4];
const REACTIONS: usize = 8;

/// The table, with so many timers in each mode.
fn table(timers: usize) -> Table {
    let mut table = Table::smallest();
    for _ in 0..MODES {
        table.add_mode(0, 0);
    }
    table.reactors[0].initial = Some(AWAKE);
    table.levels = (0..REACTIONS as u8).collect();
    for (scope, logical) in [(0, false), (1, true), (2, true)] {
        table.add_action(scope, logical);
        table.add_action(scope, logical);
    }
    for timer in 0..timers * MODES {
        let action = table.actions.len();
        table.add_action(1 + timer % MODES, true);
        table.triggers.push((action, timer % REACTIONS));
        table.add_timer(action, RawTag::new(FAR + UNIT * timer as u64, 0));
    }
    table
}

/// A day of rounds behind a set-up.
#[derive(Clone)]
pub struct Course {
    pub day: Vec<u8>,
    /// Bytes of the image.
    pub image: usize,
    /// Bytes of the image and the set-up.
    pub front: usize,
    pub rounds: usize,
    /// Records of a round.
    pub records: usize,
}

impl Course {
    /// So many rounds, which these records are.
    fn new(table: &Table, setup: &[Op], records: &[Op], rounds: usize) -> Self {
        let bytes = |ops: &[Op]| ops.iter().flat_map(Op::bytes).collect::<Vec<u8>>();
        let image = table.image();
        let front = [&image[..], &bytes(setup)].concat();
        Self {
            image: image.len(),
            front: front.len(),
            day: [front, bytes(records)].concat(),
            rounds,
            records: records.len() / rounds,
        }
    }

    /// How many whole rounds lie within the day's first so many bytes, and where the last of them ends.
    pub fn rounds_within(&self, most: usize) -> (usize, usize) {
        let records = split(&self.day[self.front..]);
        let ends = records
            .chunks_exact(self.records)
            .scan(self.front, |end, round| {
                *end += round.iter().map(|record| record.bytes.len()).sum::<usize>();
                Some(*end)
            });
        let within = ends.take_while(|&end| end <= most).collect::<Vec<_>>();
        (within.len(), *within.last().unwrap_or(&self.front))
    }
}

/// A push of an action with one reaction.
fn push(action: usize, offset: u64) -> Op {
    Op::Action {
        action: action as u16,
        tag: RawTag::new(offset, 0),
        terminal: false,
        reactions: vec![(offset / UNIT % REACTIONS as u64) as u16],
    }
}

/// Rounds of so many pushes at a tag, one or two, and the pop of them, while so many events wait at later tags by chance.
pub fn pushes_and_pops(waiting: usize, at_once: usize) -> Course {
    let mut rng = Rng::named(waiting as u64, "pushes and pops");
    let queues = [IN_ROOT, IN_MODES[AWAKE]];
    let far = |_| push(rng.pick(&queues), FAR + rng.below(FAR));
    let setup: Vec<Op> = (0..waiting).map(far).collect();
    let mut rounds = Vec::new();
    for round in 1..=ROUNDS as u64 {
        let first = rng.pick(&queues);
        rounds.extend((first..first + at_once).map(|action| push(action, UNIT * round)));
        rounds.push(Op::Pop);
    }
    Course::new(&table(0), &setup, &rounds, ROUNDS)
}

/// Pops that find nothing, while so many events wait in the mode asleep.
pub fn peeks(waiting: usize) -> Course {
    let asleep = |at: usize| push(IN_MODES[ASLEEP], UNIT * at as u64);
    let setup: Vec<Op> = (0..waiting).map(asleep).collect();
    Course::new(&table(0), &setup, &vec![Op::Pop; ROUNDS], ROUNDS)
}

/// Transitions to and fro, while so many events wait: so many timers' of each mode, the others in the root.
pub fn transitions(waiting: usize, timers: usize) -> Course {
    // Each mode is entered by reset and by history in turn.
    let transition = |at: usize| Op::Transition {
        reactor: 0,
        mode: (at % MODES) as u16,
        reset: at / MODES % 2 == 0,
        tag: RawTag::new(UNIT * at as u64, 0),
    };
    let in_root = |at: usize| push(IN_ROOT, FAR + UNIT * at as u64);
    let in_root = (0..waiting - MODES * timers).map(in_root);
    // The first cycle enters each mode in both ways.
    let cycle = 2 * MODES;
    let setup: Vec<Op> = in_root.chain((0..cycle).map(transition)).collect();
    let rounds: Vec<Op> = (cycle..cycle + TRANSITIONS).map(transition).collect();
    Course::new(&table(timers), &setup, &rounds, TRANSITIONS)
}

/// The days by which the calls with so many events waiting are singled out.
fn courses((waiting, timers): (usize, usize)) -> [Course; 4] {
    [
        pushes_and_pops(waiting, 1),
        pushes_and_pops(waiting, 2),
        peeks(waiting),
        transitions(waiting, timers),
    ]
}

/// Every call with every number of events waiting, both sides in turns, the best of so many runs of each.
pub fn race(repeat: usize, sides: &Sides<'_>, folder: &Path) -> Result<String, String> {
    let mut table =
        "| call | events waiting | ours, ns a call | the Rust, ns a call | ours / the Rust |\n\
         |---|---|---|---|---|\n"
            .to_string();
    let courses = WAITING.map(courses).concat();
    for course in &courses {
        sides.lines(&course.day)?;
    }
    let days: Vec<(&[u8], usize)> = courses
        .iter()
        .map(|course| (&course.day[..], course.front))
        .collect();
    let times = times([sides.ours, sides.rust], &days, repeat, folder, |_| {})?;
    let round = |(course, times): (&Course, [Duration; 2])| {
        times.map(|time| time.as_nanos() as f64 / course.rounds as f64)
    };
    let rounds: Vec<[f64; 2]> = courses.iter().zip(times).map(round).collect();
    for ((waiting, _), rounds) in WAITING.iter().zip(rounds.chunks_exact(4)) {
        let (one, two) = (rounds[0], rounds[1]);
        let push = [two[0] - one[0], two[1] - one[1]];
        let pop = [one[0] - push[0], one[1] - push[1]];
        let calls = ["push", "pop", "peek", "transition"];
        for (call, [ours, rust]) in calls.iter().zip([push, pop, rounds[2], rounds[3]]) {
            table.push_str(&format!(
                "| {call} | {waiting} | {ours:.0} | {rust:.0} | {:.2} |\n",
                ours / rust
            ));
        }
    }
    Ok(table)
}

#[cfg(test)]
mod tests {
    use super::*;
    use crate::image::open;
    use crate::plain::{Outcome, Plain};
    use crate::records::split;

    /// How many events wait before each record of the rounds, least and most, and how many records there are; none is refused.
    fn waiting(course: &Course) -> (usize, usize, usize) {
        let (table, records) = open(&course.day).unwrap();
        let setup = records.len() - (course.day.len() - course.front);
        let mut plain = Plain::new(&table);
        let mut waits = Vec::new();
        let mut at = 0;
        for record in split(records).iter().take(3000) {
            if at >= setup {
                waits.push(plain.state.events.len());
            }
            let outcome = plain.step(&record.op);
            assert!(!matches!(outcome, Outcome::Refused(_)), "{record}");
            at += record.bytes.len();
        }
        let (least, most) = (waits.iter().min().unwrap(), waits.iter().max().unwrap());
        (*least, *most, split(records).len())
    }

    #[test]
    fn so_many_events_wait_throughout() {
        for (count, timers) in WAITING {
            let (one, two) = (pushes_and_pops(count, 1), pushes_and_pops(count, 2));
            assert_eq!(waiting(&one), (count, count + 1, count + 2 * ROUNDS));
            assert_eq!(waiting(&two), (count, count + 2, count + 3 * ROUNDS));
            assert_eq!(waiting(&peeks(count)), (count, count, count + ROUNDS));
            let (least, most, _) = waiting(&transitions(count, timers));
            assert_eq!((least, most), (count, count));
        }
    }
}
