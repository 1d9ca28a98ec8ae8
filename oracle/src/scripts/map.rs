//! `oracle map SEED COUNT SCRIPT ANSWERS`: clock maps.
//!
//! A case has 50 bytes: way 1 (0 local to global, 1 global to local), G offset 8 and microstep 4, L likewise,
//! allowed 1 (0 or 1), S likewise, the argument tag likewise. An answer has 14: number 1 (0 a tag, else the refusal
//! 11, 6 or 7, looked for in this order), offset 8, microstep 4, held back 1 (02, C-20: 0 or 1; 0 from global to local),
//! all 0 if refused.
//! The first eleven cases are m1 to m11 of 01. Answers within the limits come from the published clock, held
//! against the limits of the result; whether a tag was held back is worked out from that clock's numbers. The plain
//! machine's clock is asked too, and the program fails if they differ.

use super::{Bytes, Written};
use crate::image::{RawTag, MAX_MICROSTEP, MAX_OFFSET};
use crate::plain::Clock;
use crate::rng::Rng;
use crate::sched::rust_side;

#[derive(Debug, Clone, Copy)]
struct Case {
    to_local: bool,
    global: RawTag,
    local: RawTag,
    allowed: bool,
    suspended: RawTag,
    tag: RawTag,
}

/// The cases m1 to m11: way, G, L, argument. None is allowed.
fn paper() -> Vec<Case> {
    type Pair = (u64, u32);
    let cases: [(bool, Pair, Pair, Pair); 11] = [
        (false, (100, 2), (40, 1), (40, 1)),
        (false, (100, 2), (40, 1), (40, 3)),
        (false, (100, 2), (40, 1), (40, 0)),
        (false, (100, 2), (40, 1), (39, 9)),
        (true, (100, 2), (40, 1), (100, 1)),
        (true, (100, 2), (40, 1), (115, 0)),
        (true, (100, 2), (40, 1), (59, 0)),
        (false, (100, 2), (40, 9), (40, 7)),
        (false, (100, 2), (40, 9), (40, 9)),
        (false, (7, 0), (7, 0), (7, 0)),
        (false, (100, MAX_MICROSTEP), (0, 0), (0, 0)),
    ];
    let tag = |(offset, microstep)| RawTag::new(offset, microstep);
    cases
        .iter()
        .map(|&(to_local, global, local, argument)| Case {
            to_local,
            global: tag(global),
            local: tag(local),
            allowed: false,
            suspended: RawTag::ZERO,
            tag: tag(argument),
        })
        .collect()
}

/// An offset within the limits: small, beside one that was drawn before, at the limit, or of any length.
fn offset(rng: &mut Rng, near: &[RawTag]) -> u64 {
    let drawn = match rng.below(10) {
        0..=2 => rng.below(4),
        3..=5 if !near.is_empty() => {
            let base = rng.pick(near).offset;
            (base + rng.below(4)).saturating_sub(rng.below(4))
        }
        6 => MAX_OFFSET - rng.below(3),
        7 => MAX_OFFSET / 2 + rng.below(5),
        _ => rng.next() >> (2 + rng.below(61)),
    };
    drawn.min(MAX_OFFSET)
}

fn microstep(rng: &mut Rng, near: &[RawTag]) -> u32 {
    match rng.below(10) {
        0..=3 => rng.below(4) as u32,
        4..=6 if !near.is_empty() => {
            let base = rng.pick(near).microstep;
            base.saturating_add(rng.below(3) as u32)
                .saturating_sub(rng.below(3) as u32)
        }
        7 => MAX_MICROSTEP - rng.below(3) as u32,
        8 => MAX_MICROSTEP / 2 + rng.below(3) as u32,
        _ => (rng.next() as u32) >> rng.below(31),
    }
}

fn tag(rng: &mut Rng, near: &[RawTag]) -> RawTag {
    RawTag::new(offset(rng, near), microstep(rng, near))
}

fn case(rng: &mut Rng) -> Case {
    let global = tag(rng, &[]);
    let local = if rng.chance(15) {
        global
    } else {
        tag(rng, &[global])
    };
    let near = [global, local];
    let mut case = Case {
        to_local: rng.chance(50),
        global,
        local,
        allowed: rng.chance(40),
        suspended: tag(rng, &near),
        tag: tag(rng, &near),
    };
    if rng.chance(25) {
        // The argument on its own base, where the microsteps are carried over.
        let base = if case.to_local { global } else { local };
        case.tag = RawTag::new(base.offset, microstep(rng, &near));
    }
    if rng.chance(8) {
        let beyond = rng.pick(&[MAX_OFFSET + 1, MAX_OFFSET + 2, 1 << 63, u64::MAX]);
        match rng.below(5) {
            0 => case.global.offset = beyond,
            1 => case.local.offset = beyond,
            2 => case.suspended.offset = beyond,
            _ => case.tag.offset = beyond,
        }
    }
    case
}

/// Number, offset, microstep, held back.
type Answer = (u8, u64, u32, bool);

fn refused(number: u8) -> Answer {
    (number, 0, 0, false)
}

fn answer(case: &Case) -> Answer {
    let clock_within = [case.global, case.local, case.suspended]
        .iter()
        .all(|tag| tag.within_limits());
    if !clock_within {
        return refused(11);
    }
    if !case.tag.within_limits() {
        return refused(6);
    }
    let (offset, microstep, held) = rust_side::map(
        case.to_local,
        case.global,
        case.local,
        case.allowed,
        case.suspended,
        case.tag,
    );
    match (u64::try_from(offset), u32::try_from(microstep)) {
        (Ok(offset), Ok(microstep)) if offset <= MAX_OFFSET => (0, offset, microstep, held),
        _ => refused(7),
    }
}

/// The plain machine's answer to a case whose tags are within the limits.
fn plain_answer(case: &Case) -> Answer {
    let clock = Clock {
        global: case.global,
        local: case.local,
        allowed: case.allowed,
        suspended: case.suspended,
    };
    let mapped = match case.to_local {
        true => clock.to_local(case.tag).map(|tag| (tag, false)),
        false => clock.to_global(case.tag).map(|to| (to.tag, to.held)),
    };
    match mapped {
        Ok((tag, held)) => (0, tag.offset, tag.microstep, held),
        Err(number) => refused(number),
    }
}

pub fn write(seed: u64, count: usize) -> Result<Written, String> {
    let mut rng = Rng::new(seed);
    let paper = paper();
    let (mut script, mut answers) = (Bytes::default(), Bytes::default());
    let (mut inside, mut overrun, mut held_back) = (0, 0, 0);
    for index in 0..count {
        let case = match paper.get(index) {
            Some(case) => *case,
            None => case(&mut rng),
        };
        script.byte(u8::from(case.to_local));
        script.tag(case.global);
        script.tag(case.local);
        script.byte(u8::from(case.allowed));
        script.tag(case.suspended);
        script.tag(case.tag);
        let answer = answer(&case);
        let (number, offset, microstep, held) = answer;
        let is_inside = number == 0 || number == 7;
        if is_inside && plain_answer(&case) != answer {
            return Err(format!(
                "case {}: {case:?}: the Rust says {answer:?}, 01 {:?}",
                index + 1,
                plain_answer(&case)
            ));
        }
        inside += usize::from(is_inside);
        overrun += usize::from(number == 7);
        held_back += usize::from(held);
        answers.byte(number);
        answers.tag(RawTag::new(offset, microstep));
        answers.byte(u8::from(held));
    }
    Ok(Written {
        script: script.0,
        answers: answers.0,
        summary: format!(
            "{count} cases, {inside} inside the domain, {overrun} of them refused 7, {held_back} held back"
        ),
    })
}

#[cfg(test)]
mod tests {
    use super::*;

    #[test]
    fn the_paper_s_cases_have_the_paper_s_answers() {
        let expected = [
            (0, 100, 3, true),
            (0, 100, 4, false),
            (0, 100, 3, true),
            (0, 100, 3, true),
            (0, 40, 1, false),
            (0, 55, 0, false),
            (7, 0, 0, false),
            (0, 100, 7, false),
            (0, 100, 3, true),
            (0, 7, 1, true),
            (7, 0, 0, false),
        ];
        let answers: Vec<_> = paper().iter().map(answer).collect();
        assert_eq!(answers, expected);
    }

    /// At G's next microstep by itself, and at G where that is allowed.
    #[test]
    fn a_tag_that_was_not_moved_is_not_held_back() {
        let with = |case: usize, allowed, tag| {
            let case = Case {
                allowed,
                tag,
                ..paper()[case - 1]
            };
            assert_eq!(answer(&case), plain_answer(&case));
            answer(&case)
        };
        assert_eq!(with(1, false, RawTag::new(40, 2)), (0, 100, 3, false));
        assert_eq!(with(1, true, RawTag::new(40, 1)), (0, 100, 2, false));
        assert_eq!(with(1, true, RawTag::new(40, 0)), (0, 100, 3, true));
        // G = L: allowed, also what lies before G stays where it is; else it is moved.
        assert_eq!(with(10, true, RawTag::new(6, 0)), (0, 6, 0, false));
        assert_eq!(with(10, false, RawTag::new(6, 0)), (0, 7, 1, true));
    }
}
