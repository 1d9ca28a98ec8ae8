//! Gate days by number: `make(seed, kind)` gives the bytes of a gate day, an image and its records, the same bytes for the same seed
//! and kind on every machine.
//!
//! A day is steered by the plain machine over the records made so far (`day`), so that pops find something, transitions come near
//! the last ready tag and queues and store get just full.

mod asleep;
mod badimg;
mod badrec;
mod day;
mod full;
mod keys;
mod long;
mod nested;
mod tables;
mod tags;
#[cfg(test)]
mod tests;
mod values;

use crate::image::{RawTag, Table, MAX_MICROSTEP, MAX_OFFSET};
use crate::rng::Rng;

use day::Recipe;

pub use badimg::broken;
pub use tables::{largest, too_many_modes};

/// The kinds for sweeps over many seeds: short days.
pub const KINDS: &[&str] = &["valid", "nested", "edge", "badrec", "badimg"];

/// Days of 30,000 records for speed: about 3, 20 or 170 events wait on average; `long` takes one of the three. The last two have many values,
/// transitions and resets.
pub const LONG_KINDS: &[&str] = &[
    "long",
    "long-3",
    "long-20",
    "long-170",
    "long-values-20",
    "long-values-170",
];

/// The bytes of the gate day with this number; none for a kind that is not known.
pub fn make(seed: u64, kind: &str) -> Option<Vec<u8>> {
    let mut rng = Rng::named(seed, kind);
    match kind {
        "badimg" => Some(badimg::badimg(&mut rng)),
        _ => Some(recipe(&mut rng, kind)?.day(rng)),
    }
}

/// The image alone, of a kind whose tables are accepted.
pub fn image(seed: u64, kind: &str) -> Option<Vec<u8>> {
    let mut rng = Rng::named(seed, kind);
    Some(recipe(&mut rng, kind)?.table.image())
}

fn recipe(rng: &mut Rng, kind: &str) -> Option<Recipe> {
    Some(match kind {
        "valid" => nested::valid(rng),
        "nested" => nested::nested(rng),
        "edge" => edge(rng),
        "badrec" => badrec::badrec(rng),
        "long" => {
            let target = rng.pick(&[3, 20, 170]);
            long::long(rng, target)
        }
        "long-3" => long::long(rng, 3),
        "long-20" => long::long(rng, 20),
        "long-170" => long::long(rng, 170),
        "long-values-20" => long::values(rng, 20),
        "long-values-170" => long::values(rng, 170),
        _ => return None,
    })
}

/// A day at one of the limits.
fn edge(rng: &mut Rng) -> Recipe {
    match rng.below(100) {
        0..=10 => full::queue(rng),
        11..=27 => full::transitions(rng),
        28..=51 => values::values(rng),
        52..=71 => tags::tags(rng),
        72..=81 => asleep::asleep(rng),
        82..=91 => keys::keys(rng),
        _ => full::largest(rng),
    }
}

/// A good table with rows of every kind.
pub fn table(seed: u64) -> Table {
    tables::rich(&mut Rng::named(seed, "table"))
}

/// The image of an accepted table by number: small, nested, with rows of every kind, or at full counts. Its timers' tags lie anywhere
/// within the limits, at times at whole hours, minutes and so on.
pub fn accepted_image(seed: u64) -> Vec<u8> {
    let mut rng = Rng::named(seed, "image");
    let mut table = match rng.below(16) {
        0..=9 => tables::either(&mut rng, 1, 50),
        10..=13 => tables::rich(&mut rng),
        14 => tables::full(&mut rng),
        _ => largest(),
    };
    let minute = day::HOUR / 60;
    let units = [
        1,
        1000,
        1_000_000,
        1_000_000_000,
        minute,
        day::HOUR,
        MAX_OFFSET,
    ];
    for row in &mut table.timers {
        let unit = rng.pick(&units);
        let whole = unit * rng.below((MAX_OFFSET / unit).min(100) + 1);
        let any = rng.below(MAX_OFFSET + 1) >> rng.below(62);
        let offset = if rng.chance(50) { whole } else { any };
        row.tag = RawTag::new(offset, rng.pick(&[0, 0, 1, 7, MAX_MICROSTEP]));
    }
    table.image()
}
