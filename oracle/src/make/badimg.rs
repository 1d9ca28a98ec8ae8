//! Days whose image is damaged, with a few good records behind it.

use crate::image::{number, with_length, RawTag, Table};
use crate::image::{ACTION, MODE, REACTION, REACTOR, RESET, SCOPE, STARTUP, TIMER, TRIGGER};
use crate::image::{KINDS, LARGEST, MAX_LEVEL, NONE, SMALLEST};
use crate::parts::Parts;
use crate::records::Op;
use crate::rng::Rng;
use crate::text::ROWS;

use super::day::HOUR;
use super::keys::{beyond, missing};
use super::tables::{largest, rich, too_many_modes};

pub fn badimg(rng: &mut Rng) -> Vec<u8> {
    let mut bytes = match rng.below(100) {
        0..=49 => {
            let mut parts = Parts::from(&rich(rng));
            let several = rng.range(2, 3);
            for _ in 0..if rng.chance(25) { several } else { 1 } {
                break_row(&mut parts, rng);
            }
            parts.image()
        }
        50..=69 => wrong_counts(rng),
        _ => wrong_bytes(rng),
    };
    // Short inputs stay as they are: no records, lest they fill the image up.
    if bytes.len() >= SMALLEST || rng.chance(50) {
        for _ in 0..rng.range(2, 5) {
            let push = Op::Plain {
                tag: RawTag::new(rng.below(9), 0),
                terminal: false,
                reactions: Vec::new(),
            };
            bytes.extend(push.bytes());
        }
        bytes.extend(Op::Pop.bytes().repeat(2));
    }
    bytes
}

// ---------------------------------------------------------------- rows that break a rule

/// A table with rows of every kind in which so many rules are broken.
pub fn broken(table: &Table, seed: u64, breaks: usize) -> Parts {
    let (mut parts, mut rng) = (Parts::from(table), Rng::named(seed, "broken"));
    for _ in 0..breaks {
        break_row(&mut parts, &mut rng);
    }
    parts
}

/// Breaks one rule of one row. (On a table broken before, at times no further one.)
fn break_row(parts: &mut Parts, rng: &mut Rng) {
    // So that rows of every kind get their share.
    match rng.below(100) {
        0..=29 => break_scope(parts, rng),
        30..=41 => break_reactor(parts, rng),
        42..=55 => break_mode(parts, rng),
        _ => break_later(parts, rng),
    }
}

/// A missing key that is not "none".
fn not_none(rng: &mut Rng, rows: usize) -> usize {
    rng.pick(&[rows, 65534, 0x0100])
}

/// A scope that names a mode, or one that names none; any if there is none such.
fn scope_of(parts: &Parts, rng: &mut Rng, has_mode: bool) -> usize {
    let mut scopes: Vec<usize> = (0..parts.len(SCOPE)).collect();
    scopes.retain(|&scope| (parts.field(SCOPE, scope, 2) != u64::from(NONE)) == has_mode);
    let any = rng.index(parts.len(SCOPE));
    rng.one_of(&scopes).unwrap_or(any)
}

/// The fields are parent, reactor and mode.
fn break_scope(parts: &mut Parts, rng: &mut Rng) {
    let (scopes, reactors, modes) = (parts.len(SCOPE), parts.len(REACTOR), parts.len(MODE));
    let (scope, none) = (rng.index(scopes), usize::from(NONE));
    let (with_mode, without) = (scope_of(parts, rng, true), scope_of(parts, rng, false));
    let (reactor, mode) = (rng.index(reactors), rng.index(modes));
    let no_reactor = usize::from(missing(rng, reactors));
    let its_reactor = parts.field(SCOPE, with_mode, 1) as usize;
    let (kind, row, field, value) = match rng.below(14) {
        // The parent is the scope itself, higher, or missing.
        0 => (SCOPE, scope, 0, scope),
        1 => (SCOPE, scope, 0, scope + rng.index(scopes - scope)),
        2 => (SCOPE, scope, 0, not_none(rng, scopes)),
        // A mode and no parent.
        3 => (SCOPE, with_mode, 0, none),
        4 => (SCOPE, scope, 1, no_reactor),
        5 => (SCOPE, without, 1, no_reactor),
        6 => (SCOPE, scope, 2, not_none(rng, modes)),
        // A mode that names another scope.
        7 => (SCOPE, without, 2, mode),
        8 => (SCOPE, with_mode, 2, mode),
        // The mode's reactor is another than the scope's.
        9 => (SCOPE, with_mode, 1, reactor),
        // A mode scope that no longer lies under its reactor's root scope, or is the root scope itself.
        10 => (SCOPE, with_mode, 0, rng.index(with_mode)),
        11 if its_reactor < reactors => (REACTOR, its_reactor, 0, with_mode),
        12 => (REACTOR, reactor, 0, scope),
        // A mode scope that has lost its mode: the mode row answers.
        _ => (SCOPE, with_mode, 2, none),
    };
    parts.set(kind, row, field, value as u64);
}

/// The fields are root scope and initial mode.
fn break_reactor(parts: &mut Parts, rng: &mut Rng) {
    let (scopes, reactors, modes) = (parts.len(SCOPE), parts.len(REACTOR), parts.len(MODE));
    let (row, mode) = (rng.index(reactors), rng.index(modes));
    let (field, value) = match rng.below(5) {
        0 => (0, usize::from(missing(rng, scopes))),
        1 => (0, usize::from(NONE)),
        2 => (1, not_none(rng, modes)),
        _ => (1, mode),
    };
    parts.set(REACTOR, row, field, value as u64);
}

/// The fields are scope and reactor.
fn break_mode(parts: &mut Parts, rng: &mut Rng) {
    let (scopes, reactors, modes) = (parts.len(SCOPE), parts.len(REACTOR), parts.len(MODE));
    let (row, other) = (rng.index(modes), rng.index(modes));
    let (field, value) = match rng.below(6) {
        0 => (0, usize::from(missing(rng, scopes))),
        1 => (1, usize::from(missing(rng, reactors))),
        2 => (0, rng.index(scopes)),
        3 => (1, rng.index(reactors)),
        // One mode more, whose scope names another or none.
        4 => {
            let without = scope_of(parts, rng, false);
            let unnamed = [without as u64, parts.field(SCOPE, without, 1)];
            let named = [0, 1].map(|field| parts.field(MODE, row, field));
            if modes < KINDS[MODE].0 {
                parts.push_fields(MODE, &if rng.chance(50) { named } else { unnamed });
            }
            return;
        }
        // Two in each other's place.
        _ => {
            for field in [0, 1] {
                let (one, two) = (
                    parts.field(MODE, row, field),
                    parts.field(MODE, other, field),
                );
                parts.set(MODE, row, field, two);
                parts.set(MODE, other, field, one);
            }
            return;
        }
    };
    parts.set(MODE, row, field, value as u64);
}

/// What is put into a field to break its rule.
#[derive(Clone, Copy)]
enum Wrong {
    /// A key of that kind that is missing.
    Missing(usize),
    Over(u64),
    Beyond,
    /// Low byte first: an hour becomes far too much, or just something else.
    Turned,
}

/// Rows of the later kinds: kind, field, and what is wrong.
const LATER: [(usize, usize, Wrong); 14] = [
    (REACTION, 0, Wrong::Over(MAX_LEVEL as u64)),
    (REACTION, 0, Wrong::Over(MAX_LEVEL as u64)),
    (ACTION, 0, Wrong::Missing(SCOPE)),
    (ACTION, 1, Wrong::Over(1)),
    (TRIGGER, 0, Wrong::Missing(ACTION)),
    (TRIGGER, 1, Wrong::Missing(REACTION)),
    (STARTUP, 0, Wrong::Missing(SCOPE)),
    (STARTUP, 1, Wrong::Missing(ACTION)),
    (STARTUP, 2, Wrong::Missing(REACTION)),
    (RESET, 0, Wrong::Missing(SCOPE)),
    (RESET, 1, Wrong::Missing(REACTION)),
    (TIMER, 0, Wrong::Missing(ACTION)),
    (TIMER, 1, Wrong::Beyond),
    (TIMER, 1, Wrong::Turned),
];

fn break_later(parts: &mut Parts, rng: &mut Rng) {
    let (kind, field, wrong) = rng.pick(&LATER);
    let row = rng.index(parts.len(kind));
    let value = match wrong {
        Wrong::Missing(kind) => u64::from(missing(rng, parts.len(kind))),
        Wrong::Over(most) => rng.pick(&[most + 1, most + 2, 128, 255]),
        Wrong::Beyond => beyond(rng).offset,
        Wrong::Turned => rng.pick(&[HOUR, 255, 1, 64]).swap_bytes(),
    };
    parts.set(kind, row, field, value);
}

// ---------------------------------------------------------------- counts

/// A good row of each kind, but for modes, of which one more is wrong.
const GOOD: [&[u64]; 9] = [
    &[0, 0, NONE as u64],
    &[0, NONE as u64],
    &[0, 0],
    &[7],
    &[0, 1],
    &[0, 0],
    &[0, 0, 0],
    &[0, 0],
    &[0, 5, 0],
];

/// Counts at and past each limit, no scope or no reactor, counts that don't fit the rows.
fn wrong_counts(rng: &mut Rng) -> Vec<u8> {
    let mut parts = Parts::from(&rich(rng));
    let (kind, other) = (rng.index(KINDS.len()), rng.index(KINDS.len()));
    let most = |kind: usize| KINDS[kind].0 as u16;
    let over = most(kind) + 1;
    match rng.below(8) {
        // The count alone.
        0 | 1 => parts.counts[kind] = rng.pick(&[over, over, over, 65535, most(kind)]),
        2 if rng.chance(50) => parts.counts[kind] += 1,
        2 => parts.counts[kind] -= 1,
        // Two counts past their limits: the first answers.
        3 => {
            parts.counts[kind] = over;
            parts.counts[other] = most(other) + rng.range(1, 9) as u16;
        }
        // No scope, or no reactor; or nothing at all.
        4 => {
            parts.resize(rng.pick(&[SCOPE, REACTOR]), 0);
            if rng.chance(30) {
                parts = Parts::default();
            }
        }
        // As many rows as allowed, or one more, all there.
        _ => {
            let wanted = rng.pick(&[most(kind), over]);
            while parts.counts[kind] < wanted {
                parts.push_fields(kind, GOOD[kind]);
            }
        }
    }
    parts.image()
}

// ---------------------------------------------------------------- bytes

/// Damage that no table row tells: version, length, cuts, extra and changed bytes, noise.
fn wrong_bytes(rng: &mut Rng) -> Vec<u8> {
    let parts = Parts::from(&rich(rng));
    let mut image = parts.image();
    match rng.below(17) {
        0 | 1 => return wrong_version(&parts, rng),
        2 => wrong_length(&mut image, rng),
        // Cut, the length as before; or cut and the length made to fit.
        3 => image.truncate(rng.index(image.len())),
        4 => {
            image.truncate(4 + rng.index(image.len() - 4));
            fit(&mut image);
        }
        5 => insert(&mut image, rng),
        6..=8 => change(&mut image, rng),
        9 => return noise(rng),
        10 => return over_largest(image, rng),
        11 if rng.chance(30) => return largest().image(),
        11 => return too_many_modes().image(),
        // Nothing, or 1 to 4 bytes, or little more.
        12 | 13 => {
            image.truncate(rng.pick(&[0, 1, 2, 3, 4, 5, 22, 23]));
            if rng.chance(30) {
                fit(&mut image);
            }
        }
        // Low byte first: the length, the counts, or everything.
        14 => image[..4].reverse(),
        15 => return turned(&parts, false),
        _ => return turned(&parts, true),
    }
    image
}

/// The length made to fit, if there is one.
fn fit(image: &mut Vec<u8>) {
    if image.len() >= 4 {
        *image = with_length(&image[4..]);
    }
}

fn wrong_version(parts: &Parts, rng: &mut Rng) -> Vec<u8> {
    let version = rng.pick(&[0, 2, 3, 128, 255]);
    if rng.chance(70) {
        return parts.image_of_version(version);
    }
    // A short body with a wrong version: version comes first.
    let mut body = vec![version];
    body.resize(1 + rng.index(18), 0);
    with_length(&body)
}

fn wrong_length(image: &mut [u8], rng: &mut Rng) {
    let due = number(&image[..4]) as u32;
    let near = rng.pick(&[due + 1, due - 1, due + 4, due - 4, due + 7]);
    let far = rng.pick(&[0, 1, 18, 19, due + 3000, u32::MAX, due.swap_bytes()]);
    let wrong = rng.pick(&[near, far]);
    image[..4].copy_from_slice(&wrong.to_be_bytes());
}

/// Extra bytes that the length counts, at the end or inside.
fn insert(image: &mut Vec<u8>, rng: &mut Rng) {
    let inside = 5 + rng.index(image.len() - 4);
    let at = if rng.chance(60) { image.len() } else { inside };
    for _ in 0..rng.range(1, 12) {
        image.insert(at, rng.pick(&[0, 0, 1, 255]));
    }
    fit(image);
}

/// Other bytes, or other bits.
fn change(image: &mut [u8], rng: &mut Rng) {
    for _ in 0..rng.range(1, 4) {
        let at = rng.index(image.len());
        let (byte, bit) = (rng.below(256) as u8, 1 << rng.below(8));
        image[at] = if rng.chance(50) {
            byte
        } else {
            image[at] ^ bit
        };
    }
}

/// Bytes by chance; at times with a fitting length and version, and with counts below 256.
fn noise(rng: &mut Rng) -> Vec<u8> {
    let mut bytes: Vec<u8> = (0..rng.range(5, 300))
        .map(|_| rng.below(256) as u8)
        .collect();
    if rng.chance(70) {
        fit(&mut bytes);
        bytes[4] = 1;
    }
    if rng.chance(50) {
        bytes
            .iter_mut()
            .take(23)
            .skip(5)
            .step_by(2)
            .for_each(|byte| *byte = 0);
    }
    bytes
}

/// Longer than the largest, all bytes there.
fn over_largest(good: Vec<u8>, rng: &mut Rng) -> Vec<u8> {
    let mut image = if rng.chance(50) {
        good
    } else {
        too_many_modes().image()
    };
    image.resize(LARGEST + rng.range(1, 20) as usize, 0);
    fit(&mut image);
    if rng.chance(30) {
        image[4] = 2;
    }
    image
}

/// The counts low byte first, or the fields of all rows.
fn turned(parts: &Parts, rows: bool) -> Vec<u8> {
    let mut parts = parts.clone();
    if !rows {
        parts.counts = parts.counts.map(u16::swap_bytes);
        return parts.image();
    }
    for (kind, (_, widths)) in ROWS.iter().enumerate() {
        for row in 0..parts.len(kind) {
            for field in 0..widths.len() {
                parts.field_mut(kind, row, field).reverse();
            }
        }
    }
    parts.image()
}
