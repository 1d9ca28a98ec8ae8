//! `oracle store SEED COUNT SCRIPT ANSWERS` and `oracle store exhaustive DEPTH SCRIPT ANSWERS`: scripts of store
//! calls. Each script starts with an empty store.
//!
//! A script: number of actions 2, number of calls 2, then the calls. A call: op 1, action 2, operands:
//!
//! | op | call | operands |
//! |-|-|-|
//! | 1 | push | tag 12, value 8 |
//! | 2 | next microstep | offset 8, least 4 |
//! | 3 | take | tag 12 |
//! | 4 | clear before | tag 12 |
//! | 5 | clear | none |
//! | 6 | move | from 12, to 12 |
//!
//! The answers of a script: for each call a flag 1, then 01's answer 9, and the Rust's answer 9 if the flag is 1,
//! which says that the Rust differs by design. An answer: kind 1 (0 done, 1 a number, 2 nothing or none, 3 refused),
//! then 8 bytes: the value taken, the next microstep, or the number of refusal; 0 for kinds 0 and 2.
//! After the calls, what is held: number of values 2, each action 2, tag 12, value 8; number of buckets 2 (01's),
//! each action 2, offset 8, next microstep 4; both ascending.
//!
//! Refused calls (5, 6, 9) are not put to the Rust, which has no limits. The Rust's answer to "next microstep" may
//! differ: it drops a bucket that a take or a move empties, and knows no limit of microsteps. Nothing else may
//! differ; if it does, the program says so and fails. Microsteps that are pushed stay small: the Rust pads.

use std::ops::RangeInclusive;

use super::{Bytes, Written};
use crate::action::store::ActionStore;
use crate::image::{RawTag, MAX_MICROSTEP, MAX_OFFSET, MOST};
use crate::plain::{Store, ARGUMENT, KEY};
use crate::rng::Rng;
use crate::schedule::rust_tag;
use crate::Duration;

#[derive(Clone, Copy, Debug)]
enum Call {
    Push(RawTag, u64),
    Next(u64, u32),
    Take(RawTag),
    ClearBefore(RawTag),
    Clear,
    Move(RawTag, RawTag),
}

#[derive(Clone, Copy, Debug, PartialEq, Eq)]
enum Answer {
    Done,
    Number(u64),
    Nothing,
    Refused(u8),
}

impl Answer {
    fn of(number: Option<u64>) -> Self {
        number.map_or(Answer::Nothing, Answer::Number)
    }

    fn write(self, out: &mut Bytes) {
        let (kind, number) = match self {
            Answer::Done => (0, 0),
            Answer::Number(number) => (1, number),
            Answer::Nothing => (2, 0),
            Answer::Refused(number) => (3, u64::from(number)),
        };
        out.byte(kind);
        out.eight(number);
    }
}

impl Call {
    fn write(&self, action: usize, out: &mut Bytes) {
        let op = match self {
            Call::Push(..) => 1,
            Call::Next(..) => 2,
            Call::Take(..) => 3,
            Call::ClearBefore(..) => 4,
            Call::Clear => 5,
            Call::Move(..) => 6,
        };
        out.byte(op);
        out.short(action);
        match *self {
            Call::Push(tag, value) => {
                out.tag(tag);
                out.eight(value);
            }
            Call::Next(offset, least) => out.tag(RawTag::new(offset, least)),
            Call::Take(tag) | Call::ClearBefore(tag) => out.tag(tag),
            Call::Clear => {}
            Call::Move(from, to) => {
                out.tag(from);
                out.tag(to);
            }
        }
    }

    fn arguments_within_limits(&self) -> bool {
        match *self {
            Call::Push(tag, _) | Call::Take(tag) | Call::ClearBefore(tag) => tag.within_limits(),
            Call::Next(offset, _) => offset <= MAX_OFFSET,
            Call::Clear => true,
            Call::Move(from, to) => from.within_limits() && to.within_limits(),
        }
    }

    /// 01's answer.
    fn plain(&self, store: &mut Store, actions: usize, action: usize) -> Answer {
        if action >= actions {
            return Answer::Refused(KEY);
        }
        if !self.arguments_within_limits() {
            return Answer::Refused(ARGUMENT);
        }
        let done = |answer: Result<(), u8>| answer.map_or_else(Answer::Refused, |()| Answer::Done);
        match *self {
            Call::Push(tag, value) => done(store.push(action, tag, value)),
            Call::Next(offset, least) => {
                Answer::of(store.next(action, offset, least).map(u64::from))
            }
            Call::Take(tag) => Answer::of(store.take(action, tag)),
            Call::ClearBefore(tag) => {
                store.clear_before(action, tag);
                Answer::Done
            }
            Call::Clear => {
                store.clear(action);
                Answer::Done
            }
            Call::Move(from, to) => done(store.move_value(action, from, to)),
        }
    }

    /// The published store's answer to an accepted call.
    fn rust(&self, store: &mut ActionStore<u64>) -> Answer {
        match *self {
            Call::Push(tag, value) => store.push(rust_tag(tag), value),
            Call::Next(offset, least) => {
                let offset = Duration::nanoseconds(offset as i64);
                let next = store.checked_next_microstep_for_offset(offset, least as usize);
                return Answer::of(next.map(|next| next as u64));
            }
            Call::Take(tag) => return Answer::of(store.take(rust_tag(tag))),
            Call::ClearBefore(tag) => store.clear_older_than(rust_tag(tag)),
            Call::Clear => store.clear(),
            Call::Move(from, to) => store.move_value(rust_tag(from), rust_tag(to)),
        }
        Answer::Done
    }
}

/// Writes scripts and counts.
#[derive(Default)]
struct Writer {
    script: Bytes,
    answers: Bytes,
    scripts: usize,
    calls: usize,
    refused: usize,
    differing: usize,
}

impl Writer {
    fn add(&mut self, actions: usize, calls: &[(usize, Call)]) -> Result<(), String> {
        let mut plain = Store::default();
        let mut rust: Vec<ActionStore<u64>> = (0..actions).map(|_| ActionStore::new()).collect();
        self.scripts += 1;
        self.script.short(actions);
        self.script.short(calls.len());
        for &(action, call) in calls {
            self.calls += 1;
            call.write(action, &mut self.script);
            let ours = call.plain(&mut plain, actions, action);
            let theirs = if let Answer::Refused(_) = ours {
                self.refused += 1;
                ours
            } else {
                call.rust(&mut rust[action])
            };
            let differs = ours != theirs;
            if differs && !matches!(call, Call::Next(..)) {
                return Err(format!(
                    "script {}: {call:?} of action {action}: 01 says {ours:?}, the Rust {theirs:?}",
                    self.scripts
                ));
            }
            self.differing += usize::from(differs);
            self.answers.byte(u8::from(differs));
            ours.write(&mut self.answers);
            if differs {
                theirs.write(&mut self.answers);
            }
        }
        self.held(&mut plain, &rust)
    }

    /// What is held after a script; both sides must hold the same values.
    fn held(&mut self, plain: &mut Store, rust: &[ActionStore<u64>]) -> Result<(), String> {
        plain.values.sort_by_key(|held| (held.action, held.tag));
        plain
            .buckets
            .sort_by_key(|bucket| (bucket.action, bucket.offset));
        let ours: Vec<_> = plain
            .values
            .iter()
            .map(|held| (held.action, rust_tag(held.tag), held.value))
            .collect();
        let theirs: Vec<_> = rust
            .iter()
            .enumerate()
            .flat_map(|(action, store)| {
                let held = store.held().into_iter();
                held.map(move |(tag, value)| (action, tag, value))
            })
            .collect();
        if ours != theirs {
            return Err(format!(
                "script {}: 01 holds {ours:?}, the Rust {theirs:?}",
                self.scripts
            ));
        }
        self.answers.short(plain.values.len());
        for held in &plain.values {
            self.answers.short(held.action);
            self.answers.tag(held.tag);
            self.answers.eight(held.value);
        }
        self.answers.short(plain.buckets.len());
        for bucket in &plain.buckets {
            self.answers.short(bucket.action);
            self.answers.eight(bucket.offset);
            self.answers.four(bucket.next);
        }
        Ok(())
    }

    fn written(self) -> Written {
        Written {
            summary: format!(
                "{} scripts, {} calls, {} refused, {} answers where the Rust differs by design",
                self.scripts, self.calls, self.refused, self.differing
            ),
            script: self.script.0,
            answers: self.answers.0,
        }
    }
}

/// A tag from small ranges, seldom at the greatest offset or beyond it.
fn tag(rng: &mut Rng) -> RawTag {
    let offset = match rng.below(40) {
        0 => MAX_OFFSET,
        1 => rng.pick(&[MAX_OFFSET + 1, 1 << 63, u64::MAX]),
        _ => rng.below(4),
    };
    RawTag::new(offset, rng.below(6) as u32)
}

/// A tag that is only looked for, so that its microstep may be anything.
fn any_tag(rng: &mut Rng) -> RawTag {
    let mut tag = tag(rng);
    if rng.chance(5) {
        tag.microstep = MAX_MICROSTEP - rng.below(2) as u32;
    }
    tag
}

fn call(rng: &mut Rng) -> Call {
    match rng.below(20) {
        0..=6 => Call::Push(tag(rng), rng.next() >> rng.below(64)),
        7..=10 => {
            let tag = tag(rng);
            let least = match rng.below(10) {
                0 => MAX_MICROSTEP - rng.below(3) as u32,
                _ => tag.microstep,
            };
            Call::Next(tag.offset, least)
        }
        11..=13 => Call::Take(any_tag(rng)),
        14 | 15 => Call::ClearBefore(any_tag(rng)),
        16 => Call::Clear,
        _ => Call::Move(any_tag(rng), tag(rng)),
    }
}

/// A script that fills the store: many values in few buckets, or a bucket a value.
fn filling(rng: &mut Rng) -> Vec<(usize, Call)> {
    let few_buckets = rng.chance(50);
    let actions = 2;
    let mut calls = Vec::new();
    for index in 0..MOST as u64 + 24 {
        let tag = if few_buckets {
            RawTag::new(index % 7, (index / 7) as u32)
        } else {
            RawTag::new(index, rng.below(3) as u32)
        };
        calls.push((rng.below(actions) as usize, Call::Push(tag, index)));
    }
    for _ in 0..30 {
        let near = |rng: &mut Rng| RawTag::new(rng.below(300), rng.below(40) as u32);
        let call = match rng.below(5) {
            0 => Call::Take(near(rng)),
            1 | 2 => Call::Move(near(rng), near(rng)),
            3 => Call::Push(near(rng), 1),
            _ => Call::ClearBefore(RawTag::new(rng.below(3), rng.below(40) as u32)),
        };
        calls.push((rng.below(actions) as usize, call));
    }
    calls
}

pub fn write(seed: u64, count: usize) -> Result<Written, String> {
    let mut rng = Rng::new(seed);
    let mut writer = Writer::default();
    for _ in 0..count {
        if rng.chance(2) {
            let calls = filling(&mut rng);
            writer.add(2, &calls)?;
            continue;
        }
        let actions = 1 + rng.below(3);
        let calls: Vec<_> = (0..1 + rng.below(40))
            .map(|_| {
                let beyond = u64::from(rng.chance(2));
                (rng.below(actions + beyond) as usize, call(&mut rng))
            })
            .collect();
        writer.add(actions as usize, &calls)?;
    }
    Ok(writer.written())
}

/// The calls that exhaustive scripts are made of.
fn alphabet() -> Vec<(usize, Call)> {
    let (a, b, c) = (RawTag::new(5, 0), RawTag::new(5, 2), RawTag::new(6, 1));
    let calls = [
        Call::Push(a, 1),
        Call::Push(b, 2),
        Call::Push(c, 3),
        Call::Next(5, 0),
        Call::Next(6, 0),
        Call::Next(5, MAX_MICROSTEP),
        Call::Take(a),
        Call::Take(b),
        Call::ClearBefore(RawTag::new(5, 1)),
        Call::ClearBefore(RawTag::new(6, 0)),
        Call::Clear,
        Call::Move(a, b),
        Call::Move(b, c),
        Call::Move(c, a),
        Call::Move(b, b),
    ];
    let mut alphabet: Vec<_> = calls.iter().map(|&call| (0, call)).collect();
    alphabet.push((1, Call::Push(a, 4)));
    alphabet.push((1, Call::Clear));
    alphabet
}

/// How many calls an exhaustive script may have.
pub const DEPTHS: RangeInclusive<u32> = 1..=5;

/// All scripts of `depth` calls of the alphabet.
pub fn write_exhaustive(depth: u32) -> Result<Written, String> {
    let alphabet = alphabet();
    let mut writer = Writer::default();
    for number in 0..alphabet.len().pow(depth) {
        let mut rest = number;
        let calls: Vec<_> = (0..depth)
            .map(|_| {
                let call = alphabet[rest % alphabet.len()];
                rest /= alphabet.len();
                call
            })
            .collect();
        writer.add(2, &calls)?;
    }
    Ok(writer.written())
}
