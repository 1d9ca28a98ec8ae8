//! The library's functions from the oracle's plain machine, which nothing proves: to test the harness and the wrapper
//! without the archive.

use std::slice;

use oracle::image::{self, RawTag};
use oracle::plain::{self, Clock, Plain};
use oracle::records::split;
use oracle::rescue::rescue_into;

use crate::slices::{CLOCK_BYTES, MAPPED_BYTES, NO_ROOM, PLACE_BYTES, TAG_BYTES};
use crate::state::STATE_BYTES;
use crate::{Tag, LINE_ROOM};

/// A map on a clock's bytes, and what it answers over the front of `tag`.
fn map(to_local: bool, clock: &[u8], given: RawTag, tag: &mut [u8]) -> u8 {
    if tag.len() < if to_local { TAG_BYTES } else { MAPPED_BYTES } {
        return NO_ROOM;
    }
    if clock.len() != CLOCK_BYTES || clock[24] > 1 {
        return 11;
    }
    let part = |at: usize| {
        let mut bytes = [0; TAG_BYTES];
        bytes.copy_from_slice(&clock[at..at + TAG_BYTES]);
        let tag = Tag::from(bytes);
        RawTag::new(tag.offset, tag.microstep)
    };
    let clock = Clock {
        global: part(0),
        local: part(12),
        allowed: clock[24] == 1,
        suspended: part(25),
    };
    if ![clock.global, clock.local, clock.suspended]
        .iter()
        .all(|tag| tag.within_limits())
    {
        return 11;
    }
    if !given.within_limits() {
        return 6;
    }
    let mapped = match to_local {
        true => clock.to_local(given).map(|mapped| (mapped, None)),
        false => clock.to_global(given).map(|to| (to.tag, Some(to.held))),
    };
    match mapped {
        Ok((mapped, held)) => {
            let bytes: [u8; TAG_BYTES] = Tag::new(mapped.offset, mapped.microstep).into();
            tag[..TAG_BYTES].copy_from_slice(&bytes);
            if let Some(held) = held {
                tag[TAG_BYTES] = u8::from(held);
            }
            0
        }
        Err(number) => number,
    }
}

// SAFETY of all below: a caller hands over pointers and lengths of slices that live through the call.

#[no_mangle]
unsafe extern "C" fn barnshiver_global_to_local(
    clock: *const u8,
    clock_length: usize,
    offset: u64,
    microstep: u32,
    tag: *mut u8,
    tag_length: usize,
) -> u8 {
    let clock = slice::from_raw_parts(clock, clock_length);
    let tag = slice::from_raw_parts_mut(tag, tag_length);
    map(true, clock, RawTag::new(offset, microstep), tag)
}

#[no_mangle]
unsafe extern "C" fn barnshiver_local_to_global(
    clock: *const u8,
    clock_length: usize,
    offset: u64,
    microstep: u32,
    tag: *mut u8,
    tag_length: usize,
) -> u8 {
    let clock = slice::from_raw_parts(clock, clock_length);
    let tag = slice::from_raw_parts_mut(tag, tag_length);
    map(false, clock, RawTag::new(offset, microstep), tag)
}

#[no_mangle]
unsafe extern "C" fn barnshiver_check_table(
    image: *const u8,
    image_length: usize,
    place: *mut u8,
    place_length: usize,
) -> u8 {
    let place = slice::from_raw_parts_mut(place, place_length);
    if place.len() < PLACE_BYTES {
        return NO_ROOM;
    }
    let (number, at) = match image::check(slice::from_raw_parts(image, image_length)) {
        Ok(_) => (0, 0),
        Err(refused) => (refused.number, refused.place),
    };
    place[..PLACE_BYTES].copy_from_slice(&(at as u64).to_be_bytes());
    number
}

#[no_mangle]
unsafe extern "C" fn barnshiver_write_table(
    counts: *const u8,
    counts_length: usize,
    rows: *const u8,
    rows_length: usize,
    buffer: *mut u8,
    buffer_length: usize,
) -> u64 {
    let counts = slice::from_raw_parts(counts, counts_length);
    let rows = slice::from_raw_parts(rows, rows_length);
    let buffer = slice::from_raw_parts_mut(buffer, buffer_length);
    match image::write(counts, rows, buffer) {
        Ok(length) => length as u64,
        Err(refused) => u64::from(refused.number) << 32 | refused.place as u64,
    }
}

#[no_mangle]
unsafe extern "C" fn barnshiver_run_day(
    day: *const u8,
    day_length: usize,
    lines: *mut u8,
    lines_length: usize,
) -> usize {
    let answers = plain::answer(slice::from_raw_parts(day, day_length));
    let lines = slice::from_raw_parts_mut(lines, lines_length);
    let mut written = 0;
    for line in answers.split_inclusive('\n') {
        if lines.len() - written < LINE_ROOM {
            break;
        }
        lines[written..written + line.len()].copy_from_slice(line.as_bytes());
        written += line.len();
    }
    written
}

#[no_mangle]
unsafe extern "C" fn barnshiver_rescue(
    day: *const u8,
    day_length: usize,
    output: *mut u8,
    output_length: usize,
    report: *mut u8,
    report_length: usize,
) -> u64 {
    let day = slice::from_raw_parts(day, day_length);
    let output = slice::from_raw_parts_mut(output, output_length);
    let report = slice::from_raw_parts_mut(report, report_length);
    rescue_into(day, output, report)
}

#[no_mangle]
unsafe extern "C" fn barnshiver_state_after(
    day: *const u8,
    day_length: usize,
    state: *mut u8,
    state_length: usize,
) -> u8 {
    let state = slice::from_raw_parts_mut(state, state_length);
    if state.len() < STATE_BYTES {
        return NO_ROOM;
    }
    match words(slice::from_raw_parts(day, day_length)) {
        Ok(words) => {
            let bytes = words.iter().flat_map(|word| word.to_be_bytes());
            state
                .iter_mut()
                .zip(bytes)
                .for_each(|(at, byte)| *at = byte);
            0
        }
        Err(refused) => refused.number,
    }
}

/// The words of the state after a day's records, as barnshiver.h lays them out.
fn words(day: &[u8]) -> Result<Vec<u64>, image::Refused> {
    let (table, records) = image::open(day)?;
    let mut plain = Plain::new(&table);
    for record in split(records) {
        plain.step(&record.op);
    }
    let state = &plain.state;
    let key = |key: Option<usize>| key.map_or(65535, |key| key as u64);
    let peek = plain.peek().unwrap_or(RawTag::ZERO);
    let mut words = vec![
        u64::from(plain.peek().is_some()),
        peek.offset,
        u64::from(peek.microstep),
        u64::from(plain.control_only()),
        state.work as u64,
        state.events.len() as u64,
        state.store.values.len() as u64,
        state.store.buckets.len() as u64,
    ];
    words.extend(state.modes.iter().map(|&mode| key(mode)));
    words.resize(24, 65535);
    for (scope, clock) in state.clocks.iter().enumerate() {
        let (active, ever) = (state.active[scope], state.ever[scope]);
        words.push(u64::from(clock.allowed) + 2 * u64::from(active) + 4 * u64::from(ever));
        for tag in [clock.global, clock.local, clock.suspended] {
            words.extend([tag.offset, u64::from(tag.microstep)]);
        }
    }
    words.resize(248, 0);
    for event in &state.events {
        let stored = event.action.map_or(RawTag::ZERO, |(_, stored)| stored);
        let action = key(event.action.map(|(action, _)| action));
        let mut reactions = [0; 2];
        for &reaction in &event.reactions {
            reactions[reaction / 64] |= 1 << (reaction % 64);
        }
        words.extend([
            key(event.scope)
                | action << 16
                | u64::from(event.terminal) << 32
                | u64::from(event.control) << 33
                | u64::from(event.network) << 34,
            event.tag.offset,
            u64::from(event.tag.microstep) | u64::from(stored.microstep) << 32,
            stored.offset,
        ]);
        words.extend(reactions);
    }
    words.resize(1784, 0);
    for held in &state.store.values {
        let tag = held.tag;
        words.extend([
            held.action as u64,
            tag.offset,
            u64::from(tag.microstep),
            held.value,
        ]);
    }
    words.resize(2808, 0);
    for bucket in &state.store.buckets {
        words.extend([bucket.action as u64, bucket.offset, u64::from(bucket.next)]);
    }
    words.resize(STATE_BYTES / 8, 0);
    Ok(words)
}
