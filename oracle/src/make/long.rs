//! Long days, for speed.

use crate::image::{RawTag, Startup, Table, ACTION, KINDS, MOST, STARTUP};
use crate::records::Op;
use crate::rng::Rng;

use super::day::{Day, Recipe};
use super::tables::{nested_scopes, Fill};

const RECORDS: usize = 30_000;
const UNIT: u64 = 1000;
/// Slots that a transition may need.
const ROOM: usize = 40;

/// 30,000 records with about that many events waiting. Every push is later than the last ready tag, every transition comes at it;
/// timers are of logical actions, whose values a reset clears, so the store never fills.
pub fn long(rng: &mut Rng, target: u64) -> Recipe {
    let table = table(rng, target);
    Recipe::new(table, UNIT, move |day| busy(day, target))
}

fn busy(day: &mut Day<'_>, target: u64) {
    // Events asleep in scopes wait too, so at 3 one already is enough.
    let aim = if is_low(target) { 1 } else { target };
    for _ in 0..RECORDS {
        let waiting = day.waiting();
        let pop = if (waiting as u64) < aim { 20 } else { 80 };
        let op = if waiting + ROOM < MOST && day.rng.chance(4) {
            day.switch(day.last, 60)
        } else if day.is_ready() && day.rng.chance(pop) {
            Op::Pop
        } else {
            push(day, target)
        };
        day.put(op);
    }
}

/// The same with many values: a third of the records are transitions, half of them resets; timers lie far ahead, so that they still wait, and their
/// values move, when a mode is entered again; and every startup row leaves a value for good. No record is refused.
pub fn values(rng: &mut Rng, target: u64) -> Recipe {
    let table = table_of_values(rng, target);
    Recipe::new(table, UNIT, move |day| changing(day, target))
}

fn changing(day: &mut Day<'_>, target: u64) {
    for _ in 0..RECORDS {
        let waiting = day.waiting();
        let pop = if (waiting as u64) < target { 20 } else { 80 };
        let transition = day.rng.chance(33).then(|| day.switch(day.last, 50));
        let op = match transition.filter(|op| day.accepts(op)) {
            Some(op) => op,
            None if waiting == MOST || day.is_ready() && day.rng.chance(pop) => Op::Pop,
            None => push(day, target),
        };
        day.put(op);
    }
}

fn is_low(target: u64) -> bool {
    target < 10
}

fn table(rng: &mut Rng, target: u64) -> Table {
    let levels = rng.range(2, 3);
    let mut table = nested_scopes(rng, levels);
    table.set_initials(rng, 0);
    let scopes = table.scopes.len();
    for scope in 0..scopes {
        table.add_action(scope, true);
    }
    for _ in 0..4 {
        table.add_action(rng.index(scopes), false);
    }
    let fill = Fill {
        reactions: (10, 28),
        actions: (0, 0),
        triggers: (20, 60),
        startups: (2, 12),
        resets: (2, 8),
        timers: (0, 0),
        logical: 100,
        unit: UNIT,
    };
    fill.fill(&mut table, rng);
    // Few timers at 3 waiting, lest they alone are more than that.
    let most = if is_low(target) { 2 } else { 6 };
    for _ in 0..rng.range(1, most) {
        let tag = RawTag::new(UNIT * rng.below(6), rng.below(2) as u32);
        table.add_timer(rng.index(scopes), tag);
    }
    table
}

/// Every scope with a logical action, and a third of all that wait are timers' events, each of a logical action in some mode. What is left of the
/// actions is physical and starts up, as no reset clears those values.
fn table_of_values(rng: &mut Rng, target: u64) -> Table {
    let mut table = nested_scopes(rng, 2);
    table.set_initials(rng, 0);
    for scope in 0..table.scopes.len() {
        table.add_action(scope, true);
    }
    let fill = Fill {
        reactions: (10, 28),
        actions: (0, 0),
        triggers: (20, 60),
        startups: (0, 0),
        resets: (2, 8),
        timers: (0, 0),
        logical: 100,
        unit: UNIT,
    };
    fill.fill(&mut table, rng);
    let in_modes = |rng: &mut Rng, table: &Table| rng.pick(&table.modes).scope;
    for _ in 0..target / 3 {
        let scope = in_modes(rng, &table);
        let action = rng.pick(&table.actions_in(scope));
        table.add_timer(action, RawTag::new(UNIT * rng.range(1, target), 0));
    }
    let physical = table.actions.len();
    while table.actions.len() < KINDS[ACTION].0 {
        table.add_action(rng.index(table.scopes.len()), false);
    }
    for _ in 0..KINDS[STARTUP].0 {
        let startup = Startup {
            scope: in_modes(rng, &table),
            action: physical + rng.index(table.actions.len() - physical),
            reaction: rng.index(table.levels.len()),
        };
        table.startups.push(startup);
    }
    table
}

fn push(day: &mut Day<'_>, target: u64) -> Op {
    let at = match day.rng.below(10) {
        0 | 1 => day.last.later(day.rng.range(1, 2)),
        _ => {
            let by = UNIT * day.rng.range(1, 4 + target);
            day.last.ahead(by, day.rng.pick(&[0, 0, 0, 1]))
        }
    };
    let op = day.push_of(at);
    let Op::Action { action, .. } = op else {
        return op;
    };
    let home = day.table.queue_of(usize::from(action));
    let Some(scope) = home.filter(|&scope| !day.is_active(scope)) else {
        return op;
    };
    // A push to a scope long asleep would come that much later after it wakes: tags would run away.
    let clock = day.plain.state.clocks[scope];
    let latest = clock.suspended.offset + 200 * UNIT;
    let near = clock.to_local(at).is_ok_and(|tag| tag.offset <= latest);
    if near && !day.rng.chance(if is_low(target) { 80 } else { 60 }) {
        return op;
    }
    day.push_in_root(at)
}
