//! `oracle race-walks REPEAT FOLDER PROGRAM [WORD..]`: level walks beside the published key set's, as a table.
//!
//! The walks are over 128 reactions at 16 levels, eight at each, and a set has one, few or all of them. A walk begins with the keys as numbers, fills a
//! set with them, and goes over the keys of each level. Both sides take the same bytes, the script of the program `walk_laps`, lap after lap, and what
//! they mix of all levels and keys must be the same. The other program is timed as a process, less the same without a lap. The Rust is timed twice: with
//! one set that is cleared and filled again, as its scheduler does, and with a new set for each walk, since ours keeps nothing from one to the next.

use std::hint::black_box;
use std::path::Path;
use std::time::Duration;

use crate::beside::child;
use crate::image::{KINDS, MAX_LEVEL, REACTION};
use crate::key_set::KeySet;
use crate::processor;
use crate::rng::Rng;
use crate::schedule::ReactionKey;
use crate::scripts::Bytes;
use crate::timing::process;
use crate::{Level, ReactionSetLimits};

const REACTIONS: usize = KINDS[REACTION].0;
const LEVELS: usize = MAX_LEVEL as usize + 1;
/// Different sets of a script.
const SETS: usize = 32;
/// How many keys the sets of a script have.
const SIZES: [usize; 4] = [1, 4, 16, REACTIONS];
/// Keys given by a script in all its laps, about: long enough to be timed.
const KEYS: usize = 2_000_000;
/// Time for one script.
const LIMIT: Duration = Duration::from_secs(60);

/// Where a script's number of laps ends, and where its levels begin.
const LAPS_END: usize = 4;
const LEVELS_AT: usize = 6;

/// A script without its laps: levels by chance, eight reactions at each, and sets of so many keys by chance.
fn made(rng: &mut Rng, size: usize) -> Vec<u8> {
    let mut script = Bytes::default();
    script.short(REACTIONS);
    for key in rng.shuffled(REACTIONS) {
        script.byte((key % LEVELS) as u8);
    }
    for _ in 0..SETS {
        script.short(size);
        for &key in &rng.shuffled(REACTIONS)[..size] {
            script.short(key);
        }
    }
    script.0
}

/// Whether the Rust's set is one for all walks or a new one for each.
#[derive(Clone, Copy)]
enum Set {
    Cleared,
    New,
}

/// One more number, as `walk_laps` and `manager_laps` mix them.
pub fn mixed(sum: u64, number: u64) -> u64 {
    sum.rotate_left(5).wrapping_add(number) ^ 0x9e37_79b9_7f4a_7c15
}

/// What the laps of a script come to over the published set.
fn laps(script: &[u8], kind: Set) -> u64 {
    let short = |bytes: &[u8]| usize::from(bytes[0]) << 8 | usize::from(bytes[1]);
    let count = short(script) << 16 | short(&script[2..]);
    let (levels, sets) = script[LEVELS_AT..].split_at(short(&script[LAPS_END..]));
    let limits = ReactionSetLimits {
        max_level: Level(LEVELS - 1),
        num_keys: levels.len(),
    };
    let mut set = KeySet::new(&limits);
    let mut sum = 0;
    for _ in 0..count {
        let mut left = black_box(sets);
        while let [high, low, rest @ ..] = left {
            let (keys, behind) = rest.split_at(2 * short(&[*high, *low]));
            match kind {
                Set::Cleared => set.clear(),
                Set::New => set = KeySet::new(&limits),
            }
            set.extend_above(keys.chunks_exact(2).map(short).map(|key| {
                let level = Level(usize::from(levels[key]));
                (level, ReactionKey::from(key))
            }));
            set.view().for_each_level(|level, keys, _| {
                sum = keys.fold(mixed(sum, level.0 as u64), |sum, key| {
                    mixed(sum, usize::from(key.0) as u64)
                });
            });
            left = behind;
        }
    }
    sum
}

/// What the program `walk_laps` writes to a script.
pub fn answer(script: &[u8]) -> [u8; 8] {
    laps(script, Set::Cleared).to_be_bytes()
}

/// Both over scripts of every size, in turns, the best of so many runs of each.
pub fn race(repeat: usize, words: &[&str], folder: &Path) -> Result<String, String> {
    let mut table = "| keys in the set, of 128 at 16 levels | ours, ns a walk | the Rust, ns a walk | with a new set each time | ours / the Rust | ours / with a new set |\n\
                     |---|---|---|---|---|---|\n"
        .to_string();
    let mut rng = Rng::new(1);
    for size in SIZES {
        let script = made(&mut rng, size);
        let count = KEYS / (size * SETS);
        let with = |laps: usize| [&(laps as u32).to_be_bytes()[..], &script].concat();
        let (whole, idle) = (with(count), with(0));
        if child(words, &whole, LIMIT)? != answer(&whole) {
            return Err(format!("sets of {size}: the walks are not the Rust's"));
        }
        let (whole_path, idle_path) = (folder.join("laps"), folder.join("idle"));
        for (path, bytes) in [(&whole_path, &whole), (&idle_path, &idle)] {
            std::fs::write(path, bytes).map_err(|error| format!("{}: {error}", path.display()))?;
        }
        let mut best = [Duration::MAX; 4];
        for _ in 0..repeat.max(1) {
            let times = [
                process(words, &whole_path)?,
                process(words, &idle_path)?,
                time(&whole, Set::Cleared),
                time(&whole, Set::New),
            ];
            best = std::array::from_fn(|at| best[at].min(times[at]));
        }
        let [ours, nothing, cleared, new] = best;
        let each = |time: Duration| time.as_nanos() as f64 / (count * SETS) as f64;
        let (ours, cleared, new) = (each(ours.saturating_sub(nothing)), each(cleared), each(new));
        table.push_str(&format!(
            "| {size} | {ours:.0} | {cleared:.0} | {new:.0} | {:.2} | {:.2} |\n",
            ours / cleared,
            ours / new
        ));
    }
    Ok(table)
}

fn time(script: &[u8], kind: Set) -> Duration {
    processor::of_call(|| {
        black_box(laps(black_box(script), kind));
    })
}
