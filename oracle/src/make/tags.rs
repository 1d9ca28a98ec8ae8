//! Days of tags at and beyond the limits: maps that overrun or fall below zero, the microstep limit.

use crate::image::{RawTag, Table, MAX_MICROSTEP, MAX_OFFSET};
use crate::records::Op;
use crate::rng::Rng;

use super::day::{Day, Recipe};
use super::tables::either;

/// The offsets and microsteps of a day.
struct Flavour {
    offsets: &'static [u64],
    microsteps: &'static [u32],
    /// Current tags rise by microsteps.
    by_steps: bool,
}

/// One flavour a day, so that enough is accepted for clocks to get far apart.
const FLAVOURS: [Flavour; 4] = [
    // Offsets at the limit.
    Flavour {
        offsets: &[
            0,
            1,
            7,
            MAX_OFFSET - 8,
            MAX_OFFSET - 1,
            MAX_OFFSET,
            MAX_OFFSET,
            MAX_OFFSET + 1,
            1 << 63,
            u64::MAX,
        ],
        microsteps: &[0, 0, 1, MAX_MICROSTEP],
        by_steps: false,
    },
    // Microsteps at the limit.
    Flavour {
        offsets: &[0, 1, 2, 3, 4],
        microsteps: &[
            0,
            1,
            MAX_MICROSTEP - 2,
            MAX_MICROSTEP - 1,
            MAX_MICROSTEP,
            MAX_MICROSTEP,
        ],
        by_steps: true,
    },
    // Maps below zero.
    Flavour {
        offsets: &[0, 1, 5, 40, 59, 60, 99, 100, 101, 140, 10_000],
        microsteps: &[0, 1, 2, 7, 9],
        by_steps: false,
    },
    // Halves: two of them overrun when added.
    Flavour {
        offsets: &[
            0,
            1,
            MAX_OFFSET / 2 - 1,
            MAX_OFFSET / 2,
            MAX_OFFSET / 2 + 1,
            MAX_OFFSET / 2 + 2,
            MAX_OFFSET / 3,
            MAX_OFFSET,
        ],
        microsteps: &[0, 1, 9, 1 << 31, MAX_MICROSTEP - 1, MAX_MICROSTEP],
        by_steps: false,
    },
];

impl Flavour {
    fn tag(&self, rng: &mut Rng) -> RawTag {
        RawTag::new(rng.pick(self.offsets), rng.pick(self.microsteps))
    }

    fn table(&self, rng: &mut Rng) -> Table {
        let mut table = either(rng, 1, 70);
        if rng.chance(50) {
            // Timers with such tags, within the limits. Without timers at other times.
            for row in &mut table.timers {
                row.tag = self.tag(rng);
                row.tag.offset = row.tag.offset.min(MAX_OFFSET);
            }
        } else if rng.chance(50) {
            table.timers.clear();
        }
        if rng.chance(40) {
            table.startups.clear();
        } else if self.by_steps && !table.actions.is_empty() {
            // Most scopes with a startup row, to be delayed at the microstep limit.
            for scope in 0..table.scopes.len() {
                if rng.chance(60) {
                    table.add_startup(scope, rng);
                }
            }
        }
        if rng.chance(40) {
            table.resets.clear();
        }
        table
    }

    /// A current tag: they mostly rise, else everything is refused for S.
    fn current(&self, day: &mut Day<'_>) -> RawTag {
        let now = day.now();
        let microstep = day.rng.pick(self.microsteps);
        match day.rng.below(100) {
            0..=29 => self.tag(&mut day.rng),
            30..=49 => now,
            50..=69 => RawTag::new(now.offset, microstep),
            _ if self.by_steps => now.ahead(day.rng.below(2), u64::from(microstep)),
            _ => now.ahead(day.rng.below(30), 0),
        }
    }
}

pub fn tags(rng: &mut Rng) -> Recipe {
    let flavour = &FLAVOURS[rng.index(FLAVOURS.len())];
    Recipe::new(flavour.table(rng), 1, |day| of_flavour(day, flavour))
}

fn of_flavour(day: &mut Day<'_>, flavour: &Flavour) {
    for _ in 0..day.rng.range(40, 100) {
        let at = flavour.tag(&mut day.rng);
        let now = flavour.current(day);
        let scope = day.rng.index(day.table.scopes.len());
        let op = match day.rng.below(100) {
            0..=27 => Op::Pop,
            28..=52 => day.switch(now, 45),
            53..=59 => day.transition(now, 45),
            60..=72 => day.push_of(at),
            73..=84 => day.push_in(scope, at),
            85..=92 => day.push_aimed(scope),
            _ => day.push_soon(),
        };
        day.put(op);
    }
    day.pops(6);
}
