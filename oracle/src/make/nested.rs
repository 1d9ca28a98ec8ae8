//! Ordinary days over small tables and over nested ones: modes left and entered again, by history and by reset.

use crate::image::RawTag;
use crate::records::Op;
use crate::rng::Rng;

use super::day::{Day, Recipe, HOUR};
use super::keys::spoil;
use super::tables;

/// Mostly around 60 records, seldom few, seldom many.
fn records(rng: &mut Rng) -> u64 {
    match rng.below(100) {
        0..=14 => rng.range(20, 40),
        15..=89 => rng.range(45, 80),
        90..=96 => rng.range(100, 200),
        _ => rng.range(200, 400),
    }
}

/// How far apart a day's tags lie.
pub fn unit(rng: &mut Rng) -> u64 {
    rng.pick(&[1, 1, 1, 5, 1000, 1000, 1_000_000_000, HOUR])
}

pub fn valid(rng: &mut Rng) -> Recipe {
    let unit = unit(rng);
    Recipe::new(tables::small(rng, unit), unit, |day| {
        let pop = day.rng.pick(&[25, 33, 38, 42]);
        let transition = day.rng.pick(&[5, 10, 15, 20]);
        for _ in 0..records(&mut day.rng) {
            day.ordinary(pop, transition);
        }
        let rest = day.rng.below(8);
        day.drain(rest);
    })
}

pub fn nested(rng: &mut Rng) -> Recipe {
    let unit = rng.pick(&[1, 1, 1, 3, 1000, HOUR]);
    Recipe::new(tables::nested(rng, unit), unit, |day| {
        let (count, mut done) = (records(&mut day.rng), 0);
        while done < count {
            done += match day.rng.below(100) {
                90..=92 => 1 + there_and_back(day),
                93 | 94 => 1 + left_by_reset(day),
                95.. => 1 + held_back(day),
                roll => one_record(day, roll),
            };
        }
        let rest = day.rng.range(2, 10);
        day.drain(rest);
    })
}

/// One record, by a roll below 90. Answers the records used, as those do that follow.
fn one_record(day: &mut Day<'_>, roll: u64) -> u64 {
    let scope = day.rng.index(day.table.scopes.len());
    let pops = roll <= 33 && (day.is_ready() || day.rng.chance(8));
    let (mut op, wrong) = match roll {
        _ if pops => (Op::Pop, 0),
        34..=54 => {
            // Microsteps up to 12 in current tags, so that L has some.
            let mut at = day.current(3);
            if day.rng.chance(40) {
                at = at.later(day.rng.below(10));
            }
            (day.switch_or_any(75, at, 40), 2)
        }
        // Around the scope's clock, whether active or not.
        55..=67 => (day.push_aimed(scope), 0),
        68..=77 => (day.push_soon_in(scope), 0),
        78.. => (day.push_soon(), 5),
        _ => (day.push_soon(), 0),
    };
    if day.rng.chance(wrong) {
        spoil(&mut op, day.table, &mut day.rng);
    }
    day.put(op);
    1
}

/// A mode is reset, left and entered again by history: its timers' values move, its events wait.
fn there_and_back(day: &mut Day<'_>) -> u64 {
    let mut reactors = day.table.modal_reactors();
    reactors.retain(|&reactor| day.table.modes_of(reactor).len() > 1);
    let Some(reactor) = day.rng.one_of(&reactors) else {
        return 0;
    };
    let modes = day.table.modes_of(reactor);
    let at = day.rng.index(modes.len());
    let (here, there) = (modes[at], modes[(at + 1) % modes.len()]);
    let mut used = 3;
    for (mode, reset) in [(here, true), (there, false), (here, false)] {
        let now = day.current(0);
        day.put(day.to_mode(mode, reset, now));
        if day.rng.chance(50) {
            let op = day.push_aimed(day.table.modes[here].scope);
            day.put(op);
            used += 1;
        }
        if day.rng.chance(30) && day.is_ready() {
            day.pop();
            used += 1;
        }
    }
    used
}

/// Modes of an inner reactor, not its initial one and with timers, each with an outer mode whose reset would leave it.
fn inner_modes(day: &Day<'_>) -> Vec<(usize, usize)> {
    let table = day.table;
    let timed = |mode: usize| {
        let scopes = table
            .timers
            .iter()
            .map(|row| table.actions[row.action].scope);
        let mut scopes = scopes.filter(|&scope| table.in_subtree(scope, table.modes[mode].scope));
        scopes.next().is_some()
    };
    let mut pairs = Vec::new();
    for (inner, row) in table.modes.iter().enumerate() {
        let reactor = table.reactors[row.reactor];
        if reactor.initial == Some(inner) || !timed(inner) {
            continue;
        }
        for (outer, row) in table.modes.iter().enumerate() {
            if reactor.root != row.scope && table.in_subtree(reactor.root, row.scope) {
                pairs.push((outer, inner));
            }
        }
    }
    pairs
}

/// An inner mode is left because an outer one is reset, and entered again by history: its timers wait there, and S comes from
/// the clock as the reset left it.
fn left_by_reset(day: &mut Day<'_>) -> u64 {
    let Some((outer, inner)) = day.rng.one_of(&inner_modes(day)) else {
        return 0;
    };
    for (mode, reset) in [
        (outer, false),
        (inner, false),
        (outer, true),
        (inner, false),
    ] {
        let now = day.now();
        let later = now.ahead(day.unit * day.rng.below(5), day.rng.below(3));
        day.put(day.to_mode(mode, reset, later.max(now)));
    }
    day.drain(2);
    6
}

/// A scope is left at a high microstep, gets events around it and is entered again at a low one (m8, m9): ready tags that go
/// back.
fn held_back(day: &mut Day<'_>) -> u64 {
    let table = day.table;
    let others = |mode: usize| {
        let mut others = table.modes_of(table.modes[mode].reactor);
        others.retain(|&other| other != mode);
        others
    };
    let mut live: Vec<usize> = (0..table.modes.len()).collect();
    live.retain(|&mode| day.is_active(table.modes[mode].scope) && !others(mode).is_empty());
    let Some(mode) = day.rng.one_of(&live) else {
        return 0;
    };
    let scope = table.modes[mode].scope;
    let other = day.rng.pick(&others(mode));
    let leave = day.now().later(day.rng.range(4, 9));
    day.put(day.to_mode(other, false, leave));
    let pushes = day.rng.range(2, 4);
    for _ in 0..pushes {
        let op = day.push_aimed(scope);
        day.put(op);
    }
    let enter = leave.ahead(day.unit * day.rng.range(1, 5), day.rng.below(4));
    day.put(day.to_mode(mode, false, enter));
    if let (Some(head), true) = (day.plain.peek(), day.rng.chance(70)) {
        beside(day, scope, head);
    }
    let pops = day.rng.range(2, 4);
    day.drain(pops);
    pushes + pops + 4
}

/// The same tag in other active scopes: the pop's loop stops where the first scope's next head falls below it.
fn beside(day: &mut Day<'_>, scope: usize, head: RawTag) {
    let mut others: Vec<usize> = (0..day.table.scopes.len()).collect();
    others.retain(|&other| {
        other != scope && day.is_active(other) && !day.table.actions_in(other).is_empty()
    });
    for _ in 0..2 {
        if let Some(other) = day.rng.one_of(&others) {
            let op = day.push_in(other, head);
            day.put(op);
        }
    }
}
