//! Days of an inner mode left by resets of the outer one: S that stays zero, resets before its G, pushes before a G that stayed, and
//! timers whose image overruns in a scope asleep.

use crate::image::{RawTag, Table, MAX_LEVEL, MAX_MICROSTEP, MAX_OFFSET};
use crate::records::Op;
use crate::rng::Rng;

use super::day::{Day, Recipe};

/// Two modes of one reactor, and in the scope of the first, which is scope 1, two or three of another.
fn table(rng: &mut Rng) -> Table {
    let mut table = Table::smallest();
    table.add_mode(0, 0);
    table.add_mode(0, 0);
    let own = rng.chance(70).then(|| table.add_scope(Some(1), 0));
    let inner = own.flatten().unwrap_or(1);
    table.add_reactor(inner);
    let modes = rng.range(2, 3) as usize;
    for _ in 0..modes {
        table.add_mode(inner, 1);
    }
    table.shuffle(rng);
    table.set_initials(rng, 10);
    for scope in 1..table.scopes.len() {
        table.add_action(scope, rng.chance(85));
    }
    table.levels.extend([0, MAX_LEVEL, 7]);
    for _ in 0..rng.range(1, 4) {
        let near = RawTag::new(rng.below(9), rng.below(3) as u32);
        let far = RawTag::new(MAX_OFFSET - rng.below(60), rng.pick(&[0, 1, MAX_MICROSTEP]));
        // Mostly in the inner modes, whose scopes are the last.
        let actions = table.actions.len();
        let last = actions - 1 - rng.index(modes);
        let action = if rng.chance(75) {
            last
        } else {
            rng.index(actions)
        };
        table.add_timer(action, if rng.chance(50) { near } else { far });
    }
    if rng.chance(30) {
        table.resets.push((rng.index(table.scopes.len()), 1));
    }
    if rng.chance(30) {
        table.add_startup(rng.index(table.scopes.len()), rng);
    }
    table
}

pub fn asleep(rng: &mut Rng) -> Recipe {
    Recipe::new(table(rng), 1, falling_asleep)
}

fn falling_asleep(day: &mut Day<'_>) {
    for _ in 0..day.rng.range(40, 80) {
        let scope = 1 + day.rng.index(day.table.scopes.len() - 1);
        let op = match day.rng.below(100) {
            0..=24 if day.is_ready() => Op::Pop,
            25..=59 => {
                let at = day.now().ahead(day.rng.below(9), day.rng.below(3));
                if day.rng.chance(60) {
                    day.transition(at, 40)
                } else {
                    day.switch(at, 60)
                }
            }
            60..=74 => day.push_aimed(scope),
            75..=89 => day.push_soon_in(scope),
            _ => day.push_soon(),
        };
        day.put(op);
        if day.rng.chance(12) {
            left_by_reset(day);
        }
        // After a far timer event nothing lies ahead.
        if day.now().offset > MAX_OFFSET / 2 && day.rng.chance(20) {
            break;
        }
    }
    day.drain(4);
}

/// Into an inner mode by history, then a reset of the outer one, now and then at an earlier tag; mostly into the inner one again, by
/// history, which reads its S, or by reset.
fn left_by_reset(day: &mut Day<'_>) {
    let Some(outer) = day.table.scopes[1].mode else {
        return;
    };
    let mut inner: Vec<usize> = (0..day.table.modes.len()).collect();
    inner.retain(|&mode| day.table.modes[mode].reactor != day.table.scopes[1].reactor);
    let inner = day.rng.pick(&inner);
    let first = day.now().ahead(day.rng.range(1, 20), 0);
    day.put(day.to_mode(outer, false, first));
    day.put(day.to_mode(inner, false, first));
    let second = match day.rng.chance(15) {
        true => first.before(day.rng.range(1, 5), 1),
        false => first.ahead(day.rng.below(5), 1),
    };
    day.put(day.to_mode(outer, true, second));
    if day.rng.chance(60) {
        let third = second.ahead(day.rng.range(1, 20), 0);
        let again = day.rng.chance(50);
        day.put(day.to_mode(inner, again, third));
        day.drain(2);
    }
}
