//! Days with malformed records among others, and records that stop the run.

use crate::image::{with_length, LONGEST, MOST_REACTIONS};
use crate::records::Op;
use crate::rng::Rng;

use super::day::{Day, Recipe};
use super::keys::spoil;
use super::nested::unit;
use super::tables::either;

pub fn badrec(rng: &mut Rng) -> Recipe {
    let unit = unit(rng);
    Recipe::new(either(rng, unit, 20), unit, bad_records)
}

fn bad_records(day: &mut Day<'_>) {
    let count = day.rng.range(20, 90);
    let bad = day.rng.pick(&[15, 35, 60]);
    // Where the run stops; most days at the end, a quarter not at all.
    let stop = match day.rng.below(4) {
        0 => day.rng.below(count),
        1 => count + 1,
        _ => count,
    };
    for at in 0..count {
        if at == stop {
            stopper(day, false);
        }
        if day.rng.chance(bad) {
            malformed(day);
        } else {
            day.ordinary(40, 12);
        }
    }
    if stop == count {
        stopper(day, true);
    }
}

/// Any record, with wrong keys or tags at times: refused 1 comes before those.
fn any_record(day: &mut Day<'_>) -> Op {
    let at = day.current(5);
    let mut op = match day.rng.below(10) {
        0..=2 => day.transition(at, 50),
        3 => Op::Pop,
        _ => day.push_soon(),
    };
    if day.rng.chance(30) {
        spoil(&mut op, day.table, &mut day.rng);
    }
    op
}

/// The body of a plain, network or action push with so many reactions, and the place of their count in it.
fn with_reactions(day: &mut Day<'_>, count: usize) -> (Vec<u8>, usize) {
    let have = day.table.levels.len();
    let reactions: Vec<u16> = (0..count).map(|_| day.rng.index(have) as u16).collect();
    let tag = day.soon();
    let op = match day.rng.below(3) {
        0 => Op::Plain {
            tag,
            terminal: false,
            reactions,
        },
        1 => Op::Network { tag, reactions },
        _ => Op::Action {
            action: day.rng.index(day.table.actions.len()) as u16,
            tag,
            terminal: false,
            reactions,
        },
    };
    let body = op.body();
    let place = body.len() - 2 * count - 2;
    (body, place)
}

/// One malformed record, after which the run goes on.
fn malformed(day: &mut Day<'_>) {
    let mut body = match day.rng.below(13) {
        0..=2 => wrong_head(day),
        3 | 4 => wrong_flag(day),
        5..=7 => wrong_count(day),
        _ => wrong_length(day),
    };
    // Two faults at once at times.
    if day.rng.chance(10) && !body.is_empty() {
        body[0] = 0;
    }
    day.bytes.extend(with_length(&body));
}

/// A wrong version or op, or the body of one op under the number of another: its operands don't fill it, or read otherwise.
fn wrong_head(day: &mut Day<'_>) -> Vec<u8> {
    let mut body = any_record(day).body();
    match day.rng.below(3) {
        0 => body[0] = day.rng.pick(&[0, 2, 255]),
        1 => body[1] = day.rng.pick(&[0, 7, 8, 255]),
        _ => {
            body = Op::Control { tag: day.soon() }.body();
            body[1] = day.rng.pick(&[1, 2, 4, 5, 6]);
        }
    }
    body
}

/// A flag that is neither 0 nor 1: a transition's, a plain push's or an action's.
fn wrong_flag(day: &mut Day<'_>) -> Vec<u8> {
    let (at, soon) = (day.current(5), day.soon());
    let reactions = day.reactions();
    let (mut op, place) = match day.rng.below(4) {
        0 | 1 => {
            let reactor = day.rng.index(day.table.reactors.len()) as u16;
            let mode = day.rng.index(day.table.modes.len()) as u16;
            let op = Op::Transition {
                reactor,
                mode,
                reset: false,
                tag: at,
            };
            (op, 6)
        }
        2 => {
            let op = Op::Plain {
                tag: soon,
                terminal: false,
                reactions,
            };
            (op, 14)
        }
        _ => {
            let op = Op::Action {
                action: day.rng.index(day.table.actions.len()) as u16,
                tag: soon,
                terminal: false,
                reactions,
            };
            (op, 16)
        }
    };
    if day.rng.chance(40) {
        spoil(&mut op, day.table, &mut day.rng);
    }
    let mut body = op.body();
    body[place] = day.rng.pick(&[2, 3, 128, 255]);
    body
}

/// More reactions than may be, or a count that is not theirs.
fn wrong_count(day: &mut Day<'_>) -> Vec<u8> {
    let most = MOST_REACTIONS;
    let (have, count) = match day.rng.below(3) {
        0 => {
            let count = day.rng.pick(&[most + 1, most + 1, most + 2, 240]);
            return with_reactions(day, count).0;
        }
        // Over the most, or any wrong count, without the bytes.
        1 => {
            let have = day.rng.index(4);
            let wrong = [most + 1, most, most - 1, 65535, have + 1];
            (have, day.rng.pick(&wrong))
        }
        // Fewer counted than there are.
        _ => {
            let have = 1 + day.rng.index(5);
            (have, day.rng.index(have))
        }
    };
    let (mut body, place) = with_reactions(day, have);
    body[place..place + 2].copy_from_slice(&(count as u16).to_be_bytes());
    body
}

/// Nothing, or one byte; operands that are cut or go on; or the longest that does not stop the run.
fn wrong_length(day: &mut Day<'_>) -> Vec<u8> {
    let mut body = any_record(day).body();
    match day.rng.below(5) {
        0 => body.clear(),
        1 => body = vec![day.rng.pick(&[0, 1, 1, 2, 6, 255])],
        // One byte short, or cut anywhere.
        2 => {
            let any = day.rng.index(body.len());
            let short = body.len() - 1;
            body.truncate(if day.rng.chance(60) { short } else { any });
        }
        // One byte or more too long.
        3 => {
            let more = day.rng.range(2, 6);
            for _ in 0..if day.rng.chance(70) { 1 } else { more } {
                body.push(day.rng.pick(&[0, 1, 255]));
            }
        }
        _ => {
            body = with_reactions(day, MOST_REACTIONS).0;
            let length = day.rng.pick(&[LONGEST, LONGEST, LONGEST - 1, 300]);
            body.resize(length, 0);
        }
    }
    body
}

/// What stops the run: a length over 512, past the end, or 1 to 3 bytes for one. Some only at the end of the day.
fn stopper(day: &mut Day<'_>, end: bool) {
    let mut op = any_record(day);
    if op == Op::Pop && day.rng.chance(50) {
        op = Op::Control { tag: day.soon() };
    }
    let mut body = op.body();
    let due = body.len() as u32;
    let length = match day.rng.below(if end { 7 } else { 3 }) {
        // Over the longest, all bytes there.
        0 => {
            let over = day.rng.pick(&[1, 1, 2, 88, LONGEST]);
            body.resize(LONGEST + over, 0);
            body.len() as u32
        }
        // A huge one before a good record.
        1 => day
            .rng
            .pick(&[u32::MAX, 1 << 31, (1 << 31) - 1, 1 << 16, 65535, 14 << 24]),
        // Low byte first.
        2 => due.swap_bytes(),
        // Past the end by one byte or many.
        3 | 4 => due + day.rng.pick(&[1, 1, 2, 200]),
        // Likewise, from the longest to one byte of which there is none.
        5 => {
            let length = day.rng.pick(&[LONGEST, LONGEST + 1, 2, 1]);
            body.truncate(length - 1);
            length as u32
        }
        _ => {
            let few = [0, day.rng.pick(&[0, 1, 255]), 2];
            let count = 1 + day.rng.index(few.len());
            return day.bytes.extend(&few[..count]);
        }
    };
    day.bytes.extend(length.to_be_bytes());
    day.bytes.extend(body);
}
