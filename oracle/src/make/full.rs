//! Days at full counts: 256 events wait and more come, transitions that just fit or just don't, and the largest tables.

use crate::image::{MOST, MOST_REACTIONS};
use crate::records::Op;
use crate::rng::Rng;

use super::day::{Day, Recipe};
use super::tables::{self, either, nested_scopes, Fill};

/// How often a push is tried until the queues are full; some are refused.
const TRIES: usize = 330;

/// 256 events wait and more come; pops and resets free slots, which serve again.
pub fn queue(rng: &mut Rng) -> Recipe {
    let unit = rng.pick(&[1, 1000]);
    Recipe::new(either(rng, unit, 50), unit, full_queue)
}

fn full_queue(day: &mut Day<'_>) {
    for _ in 0..TRIES {
        if day.waiting() < MOST {
            let op = day.push_soon();
            day.put(op);
        }
    }
    for _ in 0..day.rng.range(15, 40) {
        let op = match day.rng.below(100) {
            0..=19 => Op::Pop,
            20..=34 => {
                let at = day.current(5);
                day.switch(at, 60)
            }
            _ => day.push_soon(),
        };
        day.put(op);
    }
    let rest = day.rng.below(6);
    day.pops(rest);
}

/// Transitions that make events with just enough room, or one or two slots too few; dropped events free theirs.
pub fn transitions(rng: &mut Rng) -> Recipe {
    let unit = rng.pick(&[1, 5, 1000]);
    let levels = rng.range(1, 4);
    let mut table = nested_scopes(rng, levels);
    table.set_initials(rng, 15);
    for scope in 0..table.scopes.len() {
        table.add_action(scope, true);
    }
    let fill = Fill {
        reactions: (3, 12),
        actions: (2, 20),
        triggers: (0, 20),
        startups: (0, 24),
        resets: (0, 6),
        timers: (0, 40),
        logical: 70,
        unit,
    };
    fill.fill(&mut table, rng);
    Recipe::new(table, unit, full_transitions)
}

fn full_transitions(day: &mut Day<'_>) {
    for round in 0..day.rng.range(3, 6) {
        // Some events that wait in scopes; those in the target's subtree are dropped.
        for _ in 0..day.rng.below(12) {
            let scope = day.rng.index(day.table.scopes.len());
            let op = day.push_soon_in(scope);
            day.put(op);
        }
        if round > 0 {
            let pops = day.rng.range(1, 4);
            day.pops(pops);
        }
        just_fitting(day);
    }
    let rest = day.rng.range(2, 8);
    day.pops(rest);
}

/// A transition with just enough room, one slot to spare, or one or two too few.
fn just_fitting(day: &mut Day<'_>) {
    let at = day.current(0);
    let op = day.switch_or_any(70, at, 80);
    let more = day.more_by(&op).unwrap_or(0);
    let over = day.rng.pick(&[-1, 0, 0, 1, 1, 2]);
    let waiting = MOST as i64 - more + over;
    day.fill_to(waiting.max(0) as usize);
    if !day.put(op.clone()) && day.rng.chance(60) {
        // Room is made, and the same transition comes again.
        day.pop();
        day.put(op);
    }
}

/// Tables at full counts; records with up to 128 reactions.
pub fn largest(rng: &mut Rng) -> Recipe {
    Recipe::new(tables::full(rng), 1, many_reactions)
}

fn many_reactions(day: &mut Day<'_>) {
    let have = day.table.levels.len();
    for _ in 0..day.rng.range(20, 60) {
        let mut op = match day.rng.below(100) {
            0..=34 => Op::Pop,
            35..=54 => {
                let at = day.current(4);
                day.switch(at, 50)
            }
            _ => day.push_soon(),
        };
        if let (
            true,
            Op::Plain { reactions, .. }
            | Op::Network { reactions, .. }
            | Op::Action { reactions, .. },
        ) = (day.rng.chance(40), &mut op)
        {
            let count = MOST_REACTIONS - day.rng.pick(&[0, 0, 1, MOST_REACTIONS / 2]);
            let start = day.rng.index(have);
            *reactions = (start..start + count)
                .map(|key| (key % have) as u16)
                .collect();
        }
        day.put(op);
    }
    day.pops(6);
}
