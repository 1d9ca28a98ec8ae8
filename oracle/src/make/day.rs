//! A day in the making: its bytes so far, and the plain machine that has carried them out. What waits, which modes and clocks are
//! current and what a record would answer is asked of the machine.

use crate::image::{RawTag, Table, MAX_MICROSTEP, MAX_OFFSET, MOST};
use crate::plain::{Clock, Outcome, Plain};
use crate::records::Op;
use crate::rng::Rng;

use super::keys::spoil;

/// Nanoseconds.
pub const HOUR: u64 = 3_600_000_000_000;

impl RawTag {
    /// Later by so many microsteps, held at the limit.
    pub fn later(self, steps: u64) -> Self {
        Self::new(self.offset, self.microstep.saturating_add(steps as u32))
    }

    /// Later by that offset, held at the limit, at a microstep.
    pub fn ahead(self, by: u64, microstep: u64) -> Self {
        let offset = self.offset.saturating_add(by).min(MAX_OFFSET);
        Self::new(offset, microstep as u32)
    }

    /// Earlier by that offset, or at the first, at a microstep.
    pub fn before(self, by: u64, microstep: u64) -> Self {
        Self::new(self.offset.saturating_sub(by), microstep as u32)
    }
}

/// A day to be made: its table, how far apart its tags lie, and what puts its records.
pub struct Recipe {
    pub table: Table,
    unit: u64,
    records: Box<dyn FnOnce(&mut Day<'_>)>,
}

impl Recipe {
    pub fn new(table: Table, unit: u64, records: impl FnOnce(&mut Day<'_>) + 'static) -> Self {
        Self {
            table,
            unit,
            records: Box::new(records),
        }
    }

    /// The bytes of the day.
    pub fn day(self, rng: Rng) -> Vec<u8> {
        self.made(rng, |day| day.bytes)
    }

    /// What the day, when it is made, comes to.
    pub fn made<T>(self, rng: Rng, comes_to: impl FnOnce(Day<'_>) -> T) -> T {
        let mut day = Day::new(&self.table, rng, self.unit);
        (self.records)(&mut day);
        comes_to(day)
    }
}

pub struct Day<'t> {
    pub table: &'t Table,
    pub plain: Plain<'t>,
    pub rng: Rng,
    pub bytes: Vec<u8>,
    /// How far apart tags lie.
    pub unit: u64,
    /// The last ready tag.
    pub last: RawTag,
    /// The last accepted transition's current tag.
    current: RawTag,
}

impl<'t> Day<'t> {
    fn new(table: &'t Table, rng: Rng, unit: u64) -> Self {
        Self {
            table,
            plain: Plain::new(table),
            rng,
            bytes: table.image(),
            unit,
            last: RawTag::ZERO,
            current: RawTag::ZERO,
        }
    }

    // ------------------------------------------------------------ what the machine says

    pub fn now(&self) -> RawTag {
        self.last.max(self.current)
    }

    pub fn waiting(&self) -> usize {
        self.plain.state.events.len()
    }

    /// Events that wait in scopes.
    pub fn waiting_in_scopes(&self) -> usize {
        let events = self.plain.state.events.iter();
        events.filter(|event| event.scope.is_some()).count()
    }

    pub fn is_ready(&self) -> bool {
        self.plain.peek().is_some()
    }

    pub fn is_active(&self, scope: usize) -> bool {
        self.plain.state.active[scope]
    }

    /// Whether no further value is held, or no further bucket.
    pub fn store_is_full(&self) -> bool {
        let store = &self.plain.state.store;
        store.values.len() >= MOST || store.buckets.len() >= MOST
    }

    /// Whether a record would be accepted.
    pub fn accepts(&self, op: &Op) -> bool {
        !matches!(self.plain.clone().step(op), Outcome::Refused(_))
    }

    /// How many events more wait after a transition, or fewer; none where it is refused whatever room there is.
    pub fn more_by(&self, transition: &Op) -> Option<i64> {
        let mut trial = self.plain.clone();
        // It leaves the root's queue alone, and may need the slots of what waits there.
        trial.state.events.retain(|event| event.scope.is_some());
        let before = trial.state.events.len();
        let outcome = trial.step(transition);
        let after = trial.state.events.len();
        (outcome == Outcome::Ok).then_some(after as i64 - before as i64)
    }

    // ------------------------------------------------------------ records

    /// Writes a record; whether it is accepted.
    pub fn put(&mut self, op: Op) -> bool {
        self.bytes.extend(op.bytes());
        match (self.plain.step(&op), &op) {
            (Outcome::Refused(_), _) => return false,
            (Outcome::Popped(Some(ready)), _) => self.last = ready.tag(),
            (Outcome::Ok, Op::Transition { tag, .. }) => self.current = *tag,
            _ => {}
        }
        true
    }

    pub fn pop(&mut self) {
        self.put(Op::Pop);
    }

    pub fn pops(&mut self, count: u64) {
        for _ in 0..count {
            self.pop();
        }
    }

    /// Pops while something is ready, so many at most; at times one more.
    pub fn drain(&mut self, most: u64) {
        for _ in 0..most {
            if self.is_ready() {
                self.pop();
            }
        }
        if self.rng.chance(40) {
            self.pop();
        }
    }

    /// Pushes into the root until that many wait.
    pub fn fill_to(&mut self, waiting: usize) {
        while self.waiting() < waiting.min(MOST) {
            let tag = self.soon();
            let op = if self.rng.chance(70) {
                Op::Plain {
                    tag,
                    terminal: false,
                    reactions: self.reactions(),
                }
            } else {
                Op::Control { tag }
            };
            self.put(op);
        }
    }

    /// One record of an ordinary day, with these chances of a pop and of a transition; seldom one with a wrong key or tag.
    pub fn ordinary(&mut self, pop: u64, transition: u64) {
        let roll = self.rng.below(100);
        let mut op = if roll < pop && (self.is_ready() || self.rng.chance(8)) {
            Op::Pop
        } else if roll >= 100 - transition {
            let at = self.current(6);
            self.switch_or_any(70, at, 50)
        } else {
            self.push_soon()
        };
        if self.rng.chance(2) {
            spoil(&mut op, self.table, &mut self.rng);
        }
        self.put(op);
    }

    // ------------------------------------------------------------ tags

    /// A tag at or after now: small steps, many equal ones; a few earlier.
    pub fn soon(&mut self) -> RawTag {
        let (now, unit) = (self.now(), self.unit);
        match self.rng.below(100) {
            0..=7 => now,
            8..=24 => now.later(self.rng.range(1, 3)),
            25..=42 => {
                let root = self.plain.state.events.iter().filter(|e| e.scope.is_none());
                let tags: Vec<RawTag> = root.map(|event| event.tag).collect();
                self.rng.one_of(&tags).unwrap_or(now.ahead(unit, 0))
            }
            43..=46 => now.before(unit * self.rng.below(5), self.rng.below(4)),
            47 => now.ahead(HOUR * self.rng.range(1, 3), 0),
            _ => {
                let step = self.rng.below(4);
                let step = if self.rng.chance(30) { step } else { 0 };
                now.ahead(unit * self.rng.range(1, 9), step)
            }
        }
    }

    /// A current tag: mostly now, or shortly after; `early` is the chance of one before.
    pub fn current(&mut self, early: u64) -> RawTag {
        let (now, unit) = (self.now(), self.unit);
        if self.rng.chance(early) {
            return now.before(unit * self.rng.below(6), self.rng.below(3));
        }
        match self.rng.below(100) {
            0..=59 => now,
            60..=79 => now.later(self.rng.range(1, 3)),
            _ => now.ahead(unit * self.rng.range(1, 4), self.rng.below(3)),
        }
    }

    /// A global tag whose local image lies around the scope's suspended tag, with microsteps around its own.
    pub fn aimed(&mut self, scope: usize) -> RawTag {
        let clock = self.plain.state.clocks[scope];
        let about = if self.is_active(scope) {
            clock.local
        } else {
            clock.suspended
        };
        let (offset, microstep) = Clock::carried(about, clock.local, clock.global);
        let offset = offset.clamp(0, i128::from(MAX_OFFSET)) as u64;
        let offset = match self.rng.below(10) {
            0 => offset.saturating_sub(self.unit),
            1 | 2 => offset.saturating_add(self.unit).min(MAX_OFFSET),
            _ => offset,
        };
        let microstep = microstep + i128::from(self.rng.range(0, 6)) - 3;
        RawTag::new(offset, microstep.clamp(0, i128::from(MAX_MICROSTEP)) as u32)
    }

    // ------------------------------------------------------------ pushes

    /// Mostly none to three reactions, now and then many, with repeats.
    pub fn reactions(&mut self) -> Vec<u16> {
        let have = self.table.levels.len();
        let count = match self.rng.below(100) {
            _ if have == 0 => 0,
            0..=14 => 0,
            15..=59 => 1,
            60..=94 => self.rng.range(2, 4),
            95..=98 => self.rng.range(5, 20),
            _ => self.rng.range(20, 60),
        };
        (0..count).map(|_| self.rng.index(have) as u16).collect()
    }

    /// One of the four pushes.
    pub fn push_of(&mut self, tag: RawTag) -> Op {
        let actions: Vec<usize> = (0..self.table.actions.len()).collect();
        match self.rng.below(100) {
            25..=39 => Op::Network {
                tag,
                reactions: self.reactions(),
            },
            40..=47 => Op::Control { tag },
            48.. => self.push_of_one(&actions, tag),
            _ => self.push_in_root(tag),
        }
    }

    /// A plain push.
    pub fn push_in_root(&mut self, tag: RawTag) -> Op {
        self.push_of_one(&[], tag)
    }

    /// One of the four pushes, soon.
    pub fn push_soon(&mut self) -> Op {
        let at = self.soon();
        self.push_of(at)
    }

    /// A push of an action of that scope, or a plain one if it has none.
    pub fn push_in(&mut self, scope: usize, tag: RawTag) -> Op {
        self.push_of_one(&self.table.actions_in(scope), tag)
    }

    /// A push of one of these actions, or a plain one if there are none.
    fn push_of_one(&mut self, actions: &[usize], tag: RawTag) -> Op {
        let (reactions, terminal) = (self.reactions(), self.rng.chance(6));
        match self.rng.one_of(actions) {
            Some(action) => Op::Action {
                action: action as u16,
                tag,
                terminal,
                reactions,
            },
            None => Op::Plain {
                tag,
                terminal,
                reactions,
            },
        }
    }

    /// A push of an action of that scope, around its clock.
    pub fn push_aimed(&mut self, scope: usize) -> Op {
        let at = self.aimed(scope);
        self.push_in(scope, at)
    }

    /// A push of an action of that scope, soon.
    pub fn push_soon_in(&mut self, scope: usize) -> Op {
        let at = self.soon();
        self.push_in(scope, at)
    }

    // ------------------------------------------------------------ transitions

    /// A transition of a mode's own reactor to it.
    pub fn to_mode(&self, mode: usize, reset: bool, tag: RawTag) -> Op {
        Op::Transition {
            reactor: self.table.modes[mode].reactor as u16,
            mode: mode as u16,
            reset,
            tag,
        }
    }

    /// A transition to any mode, with that chance of a reset; a push where there is no mode.
    pub fn transition(&mut self, tag: RawTag, reset: u64) -> Op {
        let Some(reactor) = self.rng.one_of(&self.table.modal_reactors()) else {
            return self.push_of(tag);
        };
        let mode = self.rng.pick(&self.table.modes_of(reactor));
        let reset = self.rng.chance(reset);
        self.to_mode(mode, reset, tag)
    }

    /// A transition of a reactor whose root scope is active, to a mode that is not its own where there is one.
    pub fn switch(&mut self, tag: RawTag, reset: u64) -> Op {
        let mut live = self.table.modal_reactors();
        live.retain(|&reactor| self.is_active(self.table.reactors[reactor].root));
        let Some(reactor) = self.rng.one_of(&live) else {
            return self.transition(tag, reset);
        };
        let mut modes = self.table.modes_of(reactor);
        let own = self.plain.state.modes[reactor];
        if modes.len() > 1 {
            modes.retain(|&mode| Some(mode) != own);
        }
        let (mode, reset) = (self.rng.pick(&modes), self.rng.chance(reset));
        self.to_mode(mode, reset, tag)
    }

    /// The one with that chance, else the other.
    pub fn switch_or_any(&mut self, switch: u64, tag: RawTag, reset: u64) -> Op {
        if self.rng.chance(switch) {
            self.switch(tag, reset)
        } else {
            self.transition(tag, reset)
        }
    }
}
