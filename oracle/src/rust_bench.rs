//! `oracle rust-bench`: a gate day through the published Rust alone, from standard input to standard output, as somebody would run it who had
//! nothing else. `race` times it beside our bench program, so it is made to be quick: records are read where they lie in one buffer, keys go from
//! their bytes into the manager, lines are put together in another buffer, and no record takes memory of its own.
//!
//! It refuses by itself what the Rust would panic at or take for something else: 1, 5, 10 and 6. Of 7, 8 and 9 the Rust knows nothing, and to tell
//! them would take a second machine beside it: on a day that has one of them its lines are wrong, and such a day is not raced. A line's actions stand
//! in the order of the Rust's heap, each once, and it has no "held" (02, C-20), of which the Rust knows nothing either.

use std::io::{self, Read, Write};

use super::rust_side::RustSide;
use super::ModeTransition;
use crate::image::{self, RawTag, Table, LARGEST, LONGEST, MOST_REACTIONS};
use crate::schedule::{rust_tag, ActionKey, ModeKey, ReactionKey, ReactorKey, TableSchedule};
use crate::{Level, Tag, TransitionKind};

/// Bytes read, and bytes written, at a time.
const BUFFER: usize = 1 << 16;
/// More than any line has.
const LONGEST_LINE: usize = 1 << 12;

/// Answers a day.
pub fn run(input: impl Read, mut output: impl Write) -> io::Result<()> {
    let mut input = Input::new(input);
    let mut lines = Vec::with_capacity(BUFFER + LONGEST_LINE);
    let table = match image::open(input.front(LARGEST)?) {
        Ok((table, _)) => table,
        Err(refused) => return writeln!(output, "{refused}"),
    };
    input.skip_record();
    lines.extend_from_slice(b"table ok\n");
    let mut bench = Bench::new(table);
    loop {
        let front = input.front(LENGTH + LONGEST)?;
        if front.is_empty() {
            break;
        }
        let Some(body) = body(front) else {
            put_answer(&mut lines, Err(MALFORMED));
            break;
        };
        match body {
            [1, 6] => bench.pop(&mut lines),
            _ => put_answer(&mut lines, bench.call(body)),
        }
        input.skip_record();
        if lines.len() >= BUFFER {
            output.write_all(&lines)?;
            lines.clear();
        }
    }
    output.write_all(&lines)?;
    output.flush()
}

// ---------------------------------------------------------------- what is read

/// Bytes of a length.
const LENGTH: usize = 4;

/// Standard input with a buffer, of which a part lies ready.
struct Input<R> {
    from: R,
    buffer: Vec<u8>,
    /// What lies ready.
    at: usize,
    end: usize,
}

impl<R: Read> Input<R> {
    fn new(from: R) -> Self {
        Self {
            from,
            buffer: vec![0; BUFFER],
            at: 0,
            end: 0,
        }
    }

    /// The next bytes, so many, or all there are up to the end.
    #[inline]
    fn front(&mut self, most: usize) -> io::Result<&[u8]> {
        if self.end - self.at < most {
            self.fill(most)?;
        }
        let end = self.end.min(self.at + most);
        Ok(&self.buffer[self.at..end])
    }

    #[cold]
    fn fill(&mut self, least: usize) -> io::Result<()> {
        self.buffer.copy_within(self.at..self.end, 0);
        (self.at, self.end) = (0, self.end - self.at);
        while self.end < least {
            match self.from.read(&mut self.buffer[self.end..]) {
                Ok(0) => break,
                Ok(count) => self.end += count,
                Err(error) if error.kind() == io::ErrorKind::Interrupted => {}
                Err(error) => return Err(error),
            }
        }
        Ok(())
    }

    /// Goes on behind a length that lies ready and what it counts, which does too.
    #[inline]
    fn skip_record(&mut self) {
        self.at += LENGTH + four(&self.buffer[self.at..]) as usize;
    }
}

/// What the length in front counts; none where the record is too long or cut off.
#[inline]
fn body(front: &[u8]) -> Option<&[u8]> {
    if front.len() < LENGTH {
        return None;
    }
    let length = four(front) as usize;
    if length > LONGEST {
        return None;
    }
    front.get(LENGTH..LENGTH + length)
}

#[inline]
fn two(bytes: &[u8]) -> u16 {
    u16::from_be_bytes([bytes[0], bytes[1]])
}

#[inline]
fn four(bytes: &[u8]) -> u32 {
    u32::from_be_bytes([bytes[0], bytes[1], bytes[2], bytes[3]])
}

/// Bytes of a tag.
const TAG: usize = 12;

#[inline]
fn tag(bytes: &[u8]) -> RawTag {
    let offset = u64::from(four(bytes)) << 32 | u64::from(four(&bytes[4..]));
    RawTag::new(offset, four(&bytes[8..]))
}

// ---------------------------------------------------------------- what is done

/// Numbers of refusal.
pub const MALFORMED: u8 = 1;
const KEY: u8 = 5;
const ARGUMENT: u8 = 6;
const TARGET: u8 = 10;

/// What a call comes to, or its refusal.
pub type Answer<T> = Result<T, u8>;

/// A byte that must be 0 or 1.
#[inline]
fn flag(byte: u8) -> Answer<bool> {
    match byte {
        0 => Ok(false),
        1 => Ok(true),
        _ => Err(MALFORMED),
    }
}

/// A tag in the published type.
#[inline]
fn within_limits(tag: RawTag) -> Answer<Tag> {
    match tag.within_limits() {
        true => Ok(rust_tag(tag)),
        false => Err(ARGUMENT),
    }
}

/// The bytes of the keys behind their count, which they fill.
#[inline]
fn keys(counted: &[u8]) -> Answer<&[u8]> {
    let count = usize::from(two(counted));
    match counted.len() == 2 + 2 * count && count <= MOST_REACTIONS {
        true => Ok(&counted[2..]),
        false => Err(MALFORMED),
    }
}

/// Reactions that the table has, with their levels.
#[inline]
fn leveled<'k>(
    schedule: &'k TableSchedule,
    keys: &'k [u8],
) -> impl Iterator<Item = (Level, ReactionKey)> + 'k {
    keys.chunks_exact(2).map(|key| schedule.leveled(two(key)))
}

pub struct Bench {
    table: Table,
    pub rust: RustSide,
}

impl Bench {
    pub fn new(table: Table) -> Self {
        let rust = RustSide::new(&table, false);
        Self { table, rust }
    }

    /// Carries out a record that is no pop.
    #[inline]
    pub fn call(&mut self, body: &[u8]) -> Answer<()> {
        match body {
            [1, 1, operands @ ..] => self.plain(operands),
            [1, 2, operands @ ..] => self.network(operands),
            [1, 3, operands @ ..] => self.control(operands),
            [1, 4, operands @ ..] => self.action(operands),
            [1, 5, operands @ ..] => self.transition(operands),
            _ => Err(MALFORMED),
        }
    }

    /// 5 where the table lacks one of these reactions.
    #[inline]
    fn known(&self, keys: &[u8]) -> Answer<()> {
        let count = self.table.levels.len();
        let known = |key: &[u8]| usize::from(two(key)) < count;
        match keys.chunks_exact(2).all(known) {
            true => Ok(()),
            false => Err(KEY),
        }
    }

    fn plain(&mut self, operands: &[u8]) -> Answer<()> {
        if operands.len() < TAG + 3 {
            return Err(MALFORMED);
        }
        let terminal = flag(operands[TAG])?;
        let keys = keys(&operands[TAG + 1..])?;
        self.known(keys)?;
        let tag = within_limits(tag(operands))?;
        let reactions = leveled(&self.rust.schedule, keys);
        self.rust.manager.push_event(tag, reactions, terminal);
        Ok(())
    }

    fn network(&mut self, operands: &[u8]) -> Answer<()> {
        if operands.len() < TAG + 2 {
            return Err(MALFORMED);
        }
        let keys = keys(&operands[TAG..])?;
        self.known(keys)?;
        let tag = within_limits(tag(operands))?;
        let reactions = leveled(&self.rust.schedule, keys);
        self.rust.manager.push_network_event(tag, reactions);
        Ok(())
    }

    fn control(&mut self, operands: &[u8]) -> Answer<()> {
        if operands.len() != TAG {
            return Err(MALFORMED);
        }
        let tag = within_limits(tag(operands))?;
        self.rust.manager.push_control_event(tag);
        Ok(())
    }

    fn action(&mut self, operands: &[u8]) -> Answer<()> {
        if operands.len() < 2 + TAG + 3 {
            return Err(MALFORMED);
        }
        let terminal = flag(operands[2 + TAG])?;
        let keys = keys(&operands[2 + TAG + 1..])?;
        let action = two(operands);
        if usize::from(action) >= self.table.actions.len() {
            return Err(KEY);
        }
        self.known(keys)?;
        let tag = within_limits(tag(&operands[2..]))?;
        let RustSide {
            schedule, manager, ..
        } = &mut self.rust;
        let reactions = leveled(schedule, keys);
        manager.push_action_event(ActionKey(action), tag, reactions, terminal, schedule);
        Ok(())
    }

    fn transition(&mut self, operands: &[u8]) -> Answer<()> {
        if operands.len() != 5 + TAG {
            return Err(MALFORMED);
        }
        let transition = match flag(operands[4])? {
            false => TransitionKind::Reset,
            true => TransitionKind::History,
        };
        let (reactor, mode) = (two(operands), two(&operands[2..]));
        let Some(row) = self.table.modes.get(usize::from(mode)) else {
            return Err(KEY);
        };
        if usize::from(reactor) >= self.table.reactors.len() {
            return Err(KEY);
        }
        if row.reactor != usize::from(reactor) {
            return Err(TARGET);
        }
        let tag = within_limits(tag(&operands[5..]))?;
        let request = ModeTransition {
            target: ModeKey(mode),
            transition,
        };
        let RustSide {
            schedule,
            manager,
            stores,
            ..
        } = &mut self.rust;
        manager.apply_transition(ReactorKey(reactor), &request, schedule, stores, tag);
        Ok(())
    }

    /// Pops and puts the line; the sets go back to the manager, as its scheduler gives them back.
    fn pop(&mut self, lines: &mut Vec<u8>) {
        let manager = &mut self.rust.manager;
        let Some(mut event) = manager.pop_next_event() else {
            return lines.extend_from_slice(b"nothing\n");
        };
        lines.extend_from_slice(b"ready ");
        put_number(lines, event.tag.offset().whole_nanoseconds() as u64);
        lines.push(b' ');
        put_number(lines, event.tag.microstep() as u64);
        let mut flags = *b" terminal 0 work 0 network 0 reactions ";
        flags[10] += u8::from(event.terminal);
        flags[17] += u8::from(event.has_nonterminal_work);
        flags[27] += u8::from(event.network_input);
        lines.extend_from_slice(&flags);
        let before = lines.len();
        event.reactions.view().for_each_level(|level, keys, _| {
            for key in keys {
                put_number(lines, level.0 as u64);
                lines.push(b':');
                put_number(lines, u64::from(key.0));
                lines.push(b',');
            }
        });
        end_list(lines, before, b" actions ");
        let before = lines.len();
        // There are at most 64 actions. The Rust may give one twice.
        let mut seen: u64 = 0;
        for action in &event.action_values {
            if seen >> action.0 & 1 == 0 {
                seen |= 1 << action.0;
                put_number(lines, u64::from(action.0));
                lines.push(b',');
            }
        }
        end_list(lines, before, b"\n");
        manager.return_reaction_set(event.reactions);
        manager.return_action_values(event.action_values);
    }
}

// ---------------------------------------------------------------- what is written

fn put_answer(lines: &mut Vec<u8>, answer: Answer<()>) {
    let Err(number) = answer else {
        return lines.extend_from_slice(b"ok\n");
    };
    lines.extend_from_slice(b"refused ");
    put_number(lines, u64::from(number));
    lines.push(b'\n');
}

/// Ends a list that began there, of items with a comma behind each, and goes on with that text; "-" where it has none.
#[inline]
fn end_list(lines: &mut Vec<u8>, began: usize, then: &[u8]) {
    if lines.len() == began {
        lines.push(b'-');
    } else {
        lines.pop();
    }
    lines.extend_from_slice(then);
}

/// "00" to "99".
const PAIRS: [[u8; 2]; 100] = {
    let mut pairs = [[0; 2]; 100];
    let mut at = 0;
    while at < 100 {
        pairs[at] = [b'0' + at as u8 / 10, b'0' + at as u8 % 10];
        at += 1;
    }
    pairs
};

/// A number in decimals, two a turn from the back.
#[inline]
fn put_number(lines: &mut Vec<u8>, mut number: u64) {
    if number < 10 {
        return lines.push(b'0' + number as u8);
    }
    let mut digits = [0; 20];
    let mut at = digits.len();
    while number >= 10 {
        at -= 2;
        digits[at..at + 2].copy_from_slice(&PAIRS[(number % 100) as usize]);
        number /= 100;
    }
    if number > 0 {
        at -= 1;
        digits[at] = b'0' + number as u8;
    }
    lines.extend_from_slice(&digits[at..]);
}
