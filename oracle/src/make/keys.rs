//! Wrong keys and tags in well-formed records: missing keys, modes of another reactor, tags beyond the limits and a full queue, alone
//! and together.

use crate::image::{RawTag, Table, MAX_MICROSTEP, MAX_OFFSET, MOST, NONE};
use crate::records::Op;
use crate::rng::Rng;

use super::day::{Day, Recipe};
use super::tables::either;

/// A key that is missing: just past the rows, none, or any.
pub fn missing(rng: &mut Rng, rows: usize) -> u16 {
    match rng.below(4) {
        0 | 1 => rows as u16,
        2 => NONE,
        _ => rng.range(rows as u64, u64::from(NONE)) as u16,
    }
}

/// A tag beyond the limits.
pub fn beyond(rng: &mut Rng) -> RawTag {
    let offset = rng.pick(&[MAX_OFFSET + 1, MAX_OFFSET + 2, 1 << 63, u64::MAX]);
    RawTag::new(offset, rng.pick(&[0, 1, MAX_MICROSTEP]))
}

/// Puts one or more wrong keys or tags into a well-formed record.
pub fn spoil(op: &mut Op, table: &Table, rng: &mut Rng) {
    if rng.chance(35) {
        match op {
            Op::Plain { tag, .. }
            | Op::Network { tag, .. }
            | Op::Control { tag }
            | Op::Action { tag, .. }
            | Op::Transition { tag, .. } => {
                *tag = beyond(rng);
                if rng.chance(50) {
                    return;
                }
            }
            _ => {}
        }
    }
    match op {
        Op::Action { action, .. } if rng.chance(50) => *action = missing(rng, table.actions.len()),
        Op::Plain { reactions, .. }
        | Op::Network { reactions, .. }
        | Op::Action { reactions, .. } => {
            let at = rng.index(reactions.len() + 1);
            reactions.insert(at, missing(rng, table.levels.len()));
        }
        Op::Transition { reactor, mode, .. } => spoil_target(reactor, mode, table, rng),
        _ => {}
    }
}

fn spoil_target(reactor: &mut u16, mode: &mut u16, table: &Table, rng: &mut Rng) {
    let (no_reactor, no_mode) = (
        missing(rng, table.reactors.len()),
        missing(rng, table.modes.len()),
    );
    match rng.below(10) {
        0 => *reactor = no_reactor,
        1 => *mode = no_mode,
        2 => *mode = NONE,
        3 => (*reactor, *mode) = (no_reactor, no_mode),
        // A mode of another reactor, where there is one.
        _ => {
            let others = (0..table.reactors.len() as u16).filter(|other| other != reactor);
            let others: Vec<u16> = others.collect();
            *reactor = rng.one_of(&others).unwrap_or(*reactor);
        }
    }
}

pub fn keys(rng: &mut Rng) -> Recipe {
    let unit = rng.pick(&[1, 1000]);
    Recipe::new(either(rng, unit, 60), unit, wrong_keys)
}

fn wrong_keys(day: &mut Day<'_>) {
    let full = day.rng.chance(40);
    for at in 0..day.rng.range(40, 90) {
        if full && (at == 0 || day.rng.chance(20)) {
            day.fill_to(MOST);
        }
        let mut op = match day.rng.below(100) {
            0..=14 => Op::Pop,
            15..=49 => {
                let at = day.current(10);
                day.transition(at, 50)
            }
            _ => day.push_soon(),
        };
        if day.rng.chance(60) {
            spoil(&mut op, day.table, &mut day.rng);
        }
        if full && op == Op::Pop && day.rng.chance(70) {
            continue;
        }
        day.put(op);
    }
    day.pops(5);
}
