//! Days that fill the store: 256 values or buckets. A physical action's values outlive resets: at one offset and rising microsteps
//! values run full, at rising offsets buckets do, and so they do when history moves values. Startup rows come to a store nearly full.

use crate::image::{RawTag, Table, ACTION, KINDS, MAX_LEVEL, MAX_OFFSET, MOST, STARTUP, TIMER};
use crate::records::Op;
use crate::rng::Rng;

use super::day::{Day, Recipe};

/// The scope of the timers' mode, and its modes: idle, timers, and from here on startups.
const TIMED: usize = 2;
const IDLE_MODE: usize = 0;
const TIMED_MODE: usize = 1;
const LATE_MODE: usize = 2;

/// What a day is made by.
struct Plan {
    /// Every reset makes 32 or 64 new values, which divide 256, so that the store gets full to the last slot.
    exact: bool,
    /// Modes with startups.
    late: usize,
    /// A scope in the timers' mode.
    deep: usize,
    /// Actions with timers.
    timed: usize,
    /// Mostly at one offset, with rising microsteps.
    same_offset: bool,
    /// Mostly by history, away and back.
    by_history: bool,
}

impl Plan {
    fn new(rng: &mut Rng) -> Self {
        let exact = rng.chance(45);
        let most = KINDS[ACTION].0;
        let any = rng.range(20, most as u64) as usize;
        let late = rng.range(1, 4) as usize;
        Self {
            exact,
            late,
            // Behind the root scope and those of all modes.
            deep: 1 + LATE_MODE + late,
            timed: if exact {
                rng.pick(&[most / 2, most])
            } else {
                any
            },
            same_offset: rng.chance(50),
            by_history: rng.chance(if exact { 60 } else { 40 }),
        }
    }

    /// Many resets fill the store with values; one alone and then history at new offsets fills it with buckets.
    fn fills_by_resets(&self) -> bool {
        self.exact && (self.same_offset || !self.by_history)
    }

    /// A logical action without a timer: its events wait in the scope.
    fn waits(&self) -> Option<usize> {
        (self.timed < KINDS[ACTION].0).then_some(self.timed)
    }
}

// ---------------------------------------------------------------- the table

fn table(plan: &Plan, rng: &mut Rng) -> Table {
    let mut table = scopes(plan, rng);
    for _ in 0..rng.range(1, 8) {
        let level = rng.below(u64::from(MAX_LEVEL) + 1);
        table.levels.push(level as u8);
    }
    add_actions(&mut table, plan, rng);
    add_timers(&mut table, plan, rng);
    // With a store full to the last slot a single row is one too many.
    let many = rng.below(KINDS[STARTUP].0 as u64 + 1);
    let few = rng.range(1, 3);
    for _ in 0..if plan.exact && rng.chance(70) {
        few
    } else {
        many
    } {
        let mode = LATE_MODE + rng.index(plan.late);
        table.add_startup(table.modes[mode].scope, rng);
    }
    let (reactions, actions) = (table.levels.len(), table.actions.len());
    if rng.chance(50) {
        let scope = rng.pick(&[TIMED, plan.deep]);
        table.resets.push((scope, rng.index(reactions)));
    }
    for _ in 0..rng.below(12) {
        let row = (rng.index(actions), rng.index(reactions));
        table.triggers.push(row);
    }
    table
}

/// Deeper scopes in the timers' mode, at times with modes in them.
fn scopes(plan: &Plan, rng: &mut Rng) -> Table {
    let mut table = Table::smallest();
    for _ in 0..LATE_MODE + plan.late {
        table.add_mode(0, 0);
    }
    table.add_scope(Some(TIMED), 0);
    table.reactors[0].initial = rng.chance(80).then_some(IDLE_MODE);
    if rng.chance(40) {
        table.add_reactor(plan.deep);
        let first = table.modes.len();
        table.add_mode(plan.deep, 1);
        table.add_mode(plan.deep, 1);
        table.reactors[1].initial = rng.chance(80).then_some(first);
        table.scopes[plan.deep].reactor = 1;
    }
    table
}

fn add_actions(table: &mut Table, plan: &Plan, rng: &mut Rng) {
    let some = rng.pick(&[100, 90, 60, 20]);
    let physical = if plan.exact { 100 } else { some };
    let inner = table.scopes.len() - plan.deep;
    for _ in 0..plan.timed {
        let scope = match rng.below(10) {
            7 | 8 if !plan.exact => plan.deep,
            9 if !plan.exact => plan.deep + rng.index(inner),
            _ => TIMED,
        };
        table.add_action(scope, !rng.chance(physical));
    }
    if plan.waits().is_some() {
        table.add_action(TIMED, true);
    }
}

/// Timers at zero get the next microstep of the current tag; those further on get a new tag only with a new offset.
fn add_timers(table: &mut Table, plan: &Plan, rng: &mut Rng) {
    let far = rng.pick(&[0, 30, 100]);
    let least = plan.timed.min(40) as u64;
    let any = rng.range(least, KINDS[TIMER].0 as u64) as usize;
    for at in 0..if plan.exact { plan.timed } else { any } {
        let action = if at < plan.timed {
            at
        } else {
            rng.index(plan.timed)
        };
        let tag = match plan.exact {
            true => RawTag::ZERO,
            false if rng.chance(far) => RawTag::new(1000 + 10 * at as u64, 0),
            false => RawTag::new(0, rng.below(3) as u32),
        };
        table.add_timer(action, tag);
    }
    if !plan.exact && rng.chance(15) {
        // One that overruns for later current tags: 7 or 9, whichever row comes first.
        let at = rng.index(table.timers.len());
        table.timers[at].tag = RawTag::new(MAX_OFFSET - rng.range(20, 70), 0);
    }
}

// ---------------------------------------------------------------- the day

pub fn values(rng: &mut Rng) -> Recipe {
    let plan = Plan::new(rng);
    Recipe::new(table(&plan, rng), 1, move |day| full_store(day, &plan))
}

fn full_store(day: &mut Day<'_>, plan: &Plan) {
    if day.rng.chance(15) {
        // Few slots left, so that 8 and 9 compete.
        let waiting = day.rng.range(130, 240);
        day.fill_to(waiting as usize);
    }
    let mut now = RawTag::new(day.rng.range(1, 50), 0);
    let mut was_full = false;
    for at in 0..day.rng.range(24, 50) as usize {
        now = if plan.same_offset && !day.rng.chance(5) {
            now.later(day.rng.range(1, 4))
        } else {
            now.ahead(day.rng.range(1, 3), day.rng.below(3))
        };
        let full = day.store_is_full();
        if plan.fills_by_resets() && full && !was_full && day.rng.chance(70) {
            now = now.later(5);
            fill_queue(day, now);
        }
        was_full |= full;
        let filling = at == 0 || (plan.fills_by_resets() && !was_full && at < 10);
        let (mode, reset) = match filling {
            true => (TIMED_MODE, true),
            false => next(day, plan, at),
        };
        day.put(day.to_mode(mode, reset, now));
        between(day, plan, at, now);
        let crowded = day.waiting() > 180 && day.rng.chance(50);
        if !filling && (crowded || day.rng.chance(12)) {
            day.pop();
        }
    }
    let rest = day.rng.range(2, 12);
    day.pops(rest);
}

/// The store is full; now the queue too, with no timer event left to be dropped: 9 before 8.
fn fill_queue(day: &mut Day<'_>, now: RawTag) {
    for _ in 0..12 {
        if day.waiting_in_scopes() > 0 {
            day.pop();
        }
    }
    let waiting = MOST - day.rng.pick(&[0, 0, 0, 1, 5]);
    day.fill_to(waiting);
    let mode = day.rng.pick(&[TIMED_MODE, LATE_MODE]);
    let reset = mode == TIMED_MODE || day.rng.chance(50);
    day.put(day.to_mode(mode, reset, now));
}

/// The next mode, and whether by reset: away and back by history, resets that make values, startups.
fn next(day: &mut Day<'_>, plan: &Plan, at: usize) -> (usize, bool) {
    let turns = [IDLE_MODE, TIMED_MODE];
    let late = LATE_MODE + day.rng.index(plan.late);
    match day.rng.below(100) {
        _ if plan.exact && at < 18 => (turns[at % 2], false),
        0..=74 if plan.by_history => (turns[at % 2], false),
        0..=69 => (TIMED_MODE, true),
        70..=79 => (IDLE_MODE, false),
        80..=85 => (TIMED_MODE, false),
        _ => (late, day.rng.chance(50)),
    }
}

/// What comes between two of these transitions: one of the inner reactor, a push, or one that waits.
fn between(day: &mut Day<'_>, plan: &Plan, at: usize, now: RawTag) {
    let inner = day.table.modes_of(1);
    if day.rng.chance(8) && !inner.is_empty() {
        let (mode, reset) = (day.rng.pick(&inner), day.rng.chance(67));
        day.put(day.to_mode(mode, reset, now));
    }
    if day.rng.chance(15) {
        let op = day.push_soon();
        day.put(op);
    }
    let asleep = plan.waits().filter(|_| !day.is_active(TIMED));
    if let (Some(action), true) = (asleep, at > 10 && day.rng.chance(3)) {
        // To wait where the next activation maps it beyond the limit: 7 before the moves' 9.
        let tag = RawTag::new(MAX_OFFSET - day.rng.below(3), 0);
        day.put(Op::Action {
            action: action as u16,
            tag,
            terminal: false,
            reactions: Vec::new(),
        });
    }
}
