//! Clock maps beside the published clock's answers and 01's.

use barnshiver::slices::{CLOCK_BYTES, MAPPED_BYTES, NO_ROOM, TAG_BYTES};
use oracle::image::number;
use oracle::scripts;

use crate::FILL;

/// A map as `slices::map` is one: to local or to global, clock, offset, microstep, room for the answer.
pub type Map<'m> = dyn Fn(bool, &[u8], u64, u32, &mut [u8]) -> u8 + 'm;

/// A clock's bytes, a tag, and what must come out: the number, and the answer's bytes if it is 0. In a room too short for it and in one
/// too long.
fn one_map(
    map: &Map<'_>,
    case: usize,
    to_local: bool,
    clock: &[u8],
    tag: (u64, u32),
    expected: (u8, &[u8]),
) -> Result<(), String> {
    let (way, told) = match to_local {
        true => ("global to local", TAG_BYTES),
        false => ("local to global", MAPPED_BYTES),
    };
    let mut short = vec![FILL; case % told];
    let number = map(to_local, clock, tag.0, tag.1, &mut short);
    if number != NO_ROOM || short.iter().any(|&byte| byte != FILL) {
        let room = short.len();
        return Err(format!(
            "map {case}: {way} into {room} bytes: {number}, {short:?}"
        ));
    }
    let mut mapped = [FILL; MAPPED_BYTES + 3];
    let number = map(to_local, clock, tag.0, tag.1, &mut mapped);
    let (answer, rest) = mapped.split_at(if number == 0 { told } else { 0 });
    if (number, answer) == expected && rest.iter().all(|&byte| byte == FILL) {
        return Ok(());
    }
    Err(format!(
        "map {case}: clock {clock:?} (G, L, allowed, S), {way} of {tag:?}: expected {expected:?}, got {:?}",
        (number, mapped)
    ))
}

/// Case bytes as scripts/map.rs lays them out: way 1, G 12, L 12, allowed 1, S 12, tag 12; and those of an answer: number 1, tag 12, held 1.
const CASE: usize = 50;
const ANSWER: usize = 1 + MAPPED_BYTES;

pub fn maps(map: &Map<'_>, seed: u64, count: u64) -> Result<String, String> {
    let written = scripts::map::write(seed, count as usize)?;
    let cases = written
        .script
        .chunks(CASE)
        .zip(written.answers.chunks(ANSWER));
    let (mut calls, mut held, mut refused) = (0, 0, [0usize; 12]);
    for (index, (case, answer)) in cases.enumerate() {
        let (to_local, clock) = (case[0] == 1, &case[1..1 + CLOCK_BYTES]);
        let given = (number(&case[38..46]), number(&case[46..]) as u32);
        let expected = match (answer[0], to_local) {
            (0, true) => (0, &answer[1..1 + TAG_BYTES]),
            (0, false) => (0, &answer[1..]),
            (number, _) => (number, &[][..]),
        };
        one_map(map, index + 1, to_local, clock, given, expected)?;
        held += usize::from(answer[MAPPED_BYTES]);
        refused[usize::from(expected.0)] += 1;
        // The same clock in a form that is none: other lengths, an allowed that is no flag.
        let mut wrong = clock.to_vec();
        match index % 3 {
            0 => wrong.truncate(index / 3 % CLOCK_BYTES),
            1 => wrong.push(0),
            _ => wrong[24] = 2 + (index / 3 % 254) as u8,
        }
        one_map(map, index + 1, to_local, &wrong, given, (11, &[]))?;
        calls += 2;
    }
    Ok(format!(
        "{calls} maps, {} of them mapped ({held} held back), {} refused 6, {} refused 7, {} with clocks that are none: no difference",
        refused[0], refused[6], refused[7], refused[11] + calls / 2
    ))
}
