//! The plain machine, read off 01 and the changes of 02 as they stand: events in one list in order of acceptance, values and buckets in
//! lists, limits of 256, refusals in order, a transition on a copy of the state. Simple before fast. It shares
//! nothing with the published Rust; the two are compared.

use std::cmp::Reverse;

use crate::answers::{call_line, pop_line, Ready};
use crate::image::{self, RawTag, Table, MAX_MICROSTEP, MAX_OFFSET, MOST};
use crate::records::{split, Op};

/// Numbers of refusal.
pub const KEY: u8 = 5;
pub const ARGUMENT: u8 = 6;
pub const OVERRUN: u8 = 7;
pub const EVENTS_FULL: u8 = 8;
pub const STORE_FULL: u8 = 9;

type Answer<T> = Result<T, u8>;

/// A tag from a computed offset and microstep; 7 if it lies beyond the limits.
fn tag_within(offset: i128, microstep: i128) -> Answer<RawTag> {
    let offset_fits = (0..=i128::from(MAX_OFFSET)).contains(&offset);
    let microstep_fits = (0..=i128::from(MAX_MICROSTEP)).contains(&microstep);
    if offset_fits && microstep_fits {
        Ok(RawTag::new(offset as u64, microstep as u32))
    } else {
        Err(OVERRUN)
    }
}

/// The delay by zero: one microstep more.
fn delayed(tag: RawTag) -> Answer<RawTag> {
    tag_within(i128::from(tag.offset), i128::from(tag.microstep) + 1)
}

/// A scope clock: activation global G, activation local L, allowed, suspended local S.
#[derive(Debug, Clone, Copy, PartialEq, Eq)]
pub struct Clock {
    pub global: RawTag,
    pub local: RawTag,
    pub allowed: bool,
    pub suspended: RawTag,
}

impl Clock {
    fn fresh(active: bool) -> Self {
        Self {
            global: RawTag::ZERO,
            local: RawTag::ZERO,
            allowed: active,
            suspended: RawTag::ZERO,
        }
    }

    /// Offset and microstep of a tag carried from one base to the other; not yet held against the limits.
    pub fn carried(tag: RawTag, from: RawTag, to: RawTag) -> (i128, i128) {
        let offset = i128::from(to.offset) + (i128::from(tag.offset) - i128::from(from.offset));
        let microstep = if tag.offset == from.offset && tag.microstep >= from.microstep {
            i128::from(to.microstep) + (i128::from(tag.microstep) - i128::from(from.microstep))
        } else {
            i128::from(tag.microstep)
        };
        (offset, microstep)
    }

    pub fn to_local(self, tag: RawTag) -> Answer<RawTag> {
        if self.global == self.local {
            return Ok(tag);
        }
        let (offset, microstep) = Self::carried(tag, self.global, self.local);
        tag_within(offset, microstep)
    }

    /// 02, C-20: held where the result was earlier than G, or equal to G and not allowed.
    pub fn to_global(self, tag: RawTag) -> Answer<Mapped> {
        if self.global == self.local && self.allowed {
            return Ok(Mapped { tag, held: false });
        }
        let carried = Self::carried(tag, self.local, self.global);
        let start = (
            i128::from(self.global.offset),
            i128::from(self.global.microstep),
        );
        let held = carried < start || (carried == start && !self.allowed);
        let tag = match held {
            true => delayed(self.global)?,
            false => tag_within(carried.0, carried.1)?,
        };
        Ok(Mapped { tag, held })
    }
}

/// A local tag on the global scale, and whether it was held back.
#[derive(Debug, Clone, Copy, PartialEq, Eq)]
pub struct Mapped {
    pub tag: RawTag,
    pub held: bool,
}

/// A value under action and tag.
#[derive(Debug, Clone, Copy, PartialEq, Eq)]
pub struct Value {
    pub action: usize,
    pub tag: RawTag,
    pub value: u64,
}

/// A bucket under action and offset, with its next microstep.
#[derive(Debug, Clone, Copy, PartialEq, Eq)]
pub struct Bucket {
    pub action: usize,
    pub offset: u64,
    pub next: u32,
}

/// Values and buckets (01, "Values and level walks").
#[derive(Debug, Clone, Default, PartialEq, Eq)]
pub struct Store {
    pub values: Vec<Value>,
    pub buckets: Vec<Bucket>,
}

impl Store {
    fn find(&self, action: usize, tag: RawTag) -> Option<usize> {
        self.values
            .iter()
            .position(|held| held.action == action && held.tag == tag)
    }

    /// Pushes a value, overwriting one at the same tag; 9 if a slot it needs is not there.
    pub fn push(&mut self, action: usize, tag: RawTag, value: u64) -> Answer<()> {
        let held = self.find(action, tag);
        let bucket = self
            .buckets
            .iter()
            .position(|bucket| bucket.action == action && bucket.offset == tag.offset);
        if (held.is_none() && self.values.len() >= MOST)
            || (bucket.is_none() && self.buckets.len() >= MOST)
        {
            return Err(STORE_FULL);
        }
        match held {
            Some(at) => self.values[at].value = value,
            None => self.values.push(Value { action, tag, value }),
        }
        let next = tag.microstep.saturating_add(1);
        match bucket {
            Some(at) => self.buckets[at].next = self.buckets[at].next.max(next),
            None => self.buckets.push(Bucket {
                action,
                offset: tag.offset,
                next,
            }),
        }
        Ok(())
    }

    /// A free microstep at an offset, at least `least`; none at the limit.
    pub fn next(&self, action: usize, offset: u64, least: u32) -> Option<u32> {
        let next = self
            .buckets
            .iter()
            .find(|bucket| bucket.action == action && bucket.offset == offset)
            .map_or(least, |bucket| bucket.next.max(least));
        (next != MAX_MICROSTEP).then_some(next)
    }

    /// Takes a value out and leaves its bucket.
    pub fn take(&mut self, action: usize, tag: RawTag) -> Option<u64> {
        let at = self.find(action, tag)?;
        Some(self.values.remove(at).value)
    }

    pub fn clear(&mut self, action: usize) {
        self.values.retain(|held| held.action != action);
        self.buckets.retain(|bucket| bucket.action != action);
    }

    /// Removes an action's earlier offsets, its earlier values at the tag's offset, and the bucket there if no
    /// value is left.
    pub fn clear_before(&mut self, action: usize, tag: RawTag) {
        self.values
            .retain(|held| held.action != action || held.tag >= tag);
        let left = self
            .values
            .iter()
            .any(|held| held.action == action && held.tag.offset == tag.offset);
        self.buckets.retain(|bucket| {
            bucket.action != action
                || bucket.offset > tag.offset
                || (bucket.offset == tag.offset && left)
        });
    }

    /// Moves a value: a take and then a push. Nothing if the tags are equal or no value is held.
    pub fn move_value(&mut self, action: usize, from: RawTag, to: RawTag) -> Answer<()> {
        if from == to {
            return Ok(());
        }
        let given = self.clone();
        let Some(value) = self.take(action, from) else {
            return Ok(());
        };
        self.push(action, to, value).map_err(|number| {
            *self = given;
            number
        })
    }
}

/// An event that waits.
#[derive(Debug, Clone, PartialEq, Eq)]
pub struct Event {
    /// Its queue: a scope, or the root if none.
    pub scope: Option<usize>,
    /// Global in the root, local in a scope.
    pub tag: RawTag,
    pub reactions: Vec<usize>,
    pub terminal: bool,
    pub control: bool,
    pub network: bool,
    /// Action and stored tag.
    pub action: Option<(usize, RawTag)>,
}

impl Event {
    fn plain(tag: RawTag, reactions: Vec<usize>) -> Self {
        Self {
            scope: None,
            tag,
            reactions,
            terminal: false,
            control: false,
            network: false,
            action: None,
        }
    }

    fn is_ordinary(&self) -> bool {
        !self.terminal && !self.control
    }
}

/// What changes while the machine runs.
#[derive(Debug, Clone, PartialEq, Eq)]
pub struct State {
    pub modes: Vec<Option<usize>>,
    pub active: Vec<bool>,
    pub ever: Vec<bool>,
    pub clocks: Vec<Clock>,
    /// In order of acceptance.
    pub events: Vec<Event>,
    pub work: usize,
    pub store: Store,
}

#[derive(Clone)]
pub struct Plain<'t> {
    table: &'t Table,
    pub state: State,
}

/// What a record gives.
#[derive(Debug, Clone, PartialEq, Eq)]
pub enum Outcome {
    Ok,
    Refused(u8),
    Popped(Option<Ready>),
}

impl Outcome {
    pub fn line(&self) -> String {
        match self {
            Outcome::Ok => call_line(None),
            Outcome::Refused(number) => call_line(Some(*number)),
            Outcome::Popped(ready) => pop_line(ready.as_ref()),
        }
    }
}

/// Keys of a record that exist.
fn keys(reactions: &[u16]) -> Vec<usize> {
    reactions.iter().map(|&key| usize::from(key)).collect()
}

impl<'t> Plain<'t> {
    /// The initial modes; nothing waits, nothing is held.
    pub fn new(table: &'t Table) -> Self {
        let modes: Vec<_> = table.reactors.iter().map(|row| row.initial).collect();
        let active: Vec<bool> = (0..table.scopes.len())
            .map(|scope| is_active(table, &modes, scope))
            .collect();
        Self {
            table,
            state: State {
                modes,
                ever: active.clone(),
                clocks: active.iter().map(|&active| Clock::fresh(active)).collect(),
                active,
                events: Vec::new(),
                work: 0,
                store: Store::default(),
            },
        }
    }

    /// Carries out one record; a refused one leaves the state as it was.
    pub fn step(&mut self, op: &Op) -> Outcome {
        if let Some(number) = op.refused_by_bytes(self.table) {
            return Outcome::Refused(number);
        }
        let answer = match op {
            Op::Plain {
                tag,
                terminal,
                reactions,
            } => self.accept(Event {
                terminal: *terminal,
                ..Event::plain(*tag, keys(reactions))
            }),
            Op::Network { tag, reactions } => self.accept(Event {
                network: true,
                ..Event::plain(*tag, keys(reactions))
            }),
            Op::Control { tag } => self.accept(Event {
                control: true,
                ..Event::plain(*tag, Vec::new())
            }),
            Op::Action {
                action,
                tag,
                terminal,
                reactions,
            } => self.push_action(usize::from(*action), *tag, *terminal, keys(reactions)),
            Op::Transition {
                reactor,
                mode,
                reset,
                tag,
            } => {
                let given = self.state.clone();
                let answer =
                    self.transition(usize::from(*reactor), usize::from(*mode), *reset, *tag);
                if answer.is_err() {
                    self.state = given;
                }
                answer
            }
            Op::Pop => return Outcome::Popped(self.pop()),
            Op::Malformed | Op::Broken => Err(1),
        };
        match answer {
            Ok(()) => Outcome::Ok,
            Err(number) => Outcome::Refused(number),
        }
    }

    /// Puts an event into a slot; 8 if 256 wait.
    fn accept(&mut self, event: Event) -> Answer<()> {
        if self.state.events.len() >= MOST {
            return Err(EVENTS_FULL);
        }
        self.state.work += usize::from(event.is_ordinary());
        self.state.events.push(event);
        Ok(())
    }

    fn push_action(
        &mut self,
        action: usize,
        tag: RawTag,
        terminal: bool,
        reactions: Vec<usize>,
    ) -> Answer<()> {
        let mut event = Event {
            scope: self.table.queue_of(action),
            terminal,
            action: Some((action, tag)),
            ..Event::plain(tag, reactions)
        };
        if let Some(scope) = event.scope {
            let clock = self.state.clocks[scope];
            event.tag = clock.to_local(tag)?;
            if self.state.active[scope] {
                clock.to_global(event.tag)?;
            }
        }
        self.accept(event)
    }

    /// Least tag of a queue, on its own scale.
    pub fn queue_head(&self, scope: Option<usize>) -> Option<RawTag> {
        self.state
            .events
            .iter()
            .filter(|event| event.scope == scope)
            .map(|event| event.tag)
            .min()
    }

    /// Least head over the active scopes with its scope, the lowest-numbered if several.
    fn scope_head(&self) -> Option<(RawTag, usize)> {
        (0..self.table.scopes.len())
            .filter(|&scope| self.state.active[scope])
            .filter_map(|scope| {
                let local = self.queue_head(Some(scope))?;
                // Events in active scopes map within the limits: every accepted call keeps that.
                let mapped = self.state.clocks[scope].to_global(local).ok()?;
                Some((mapped.tag, scope))
            })
            .min()
    }

    pub fn peek(&self) -> Option<RawTag> {
        let root = self.queue_head(None);
        let scope = self.scope_head().map(|(tag, _)| tag);
        root.into_iter().chain(scope).min()
    }

    pub fn control_only(&self) -> bool {
        let Some(tag) = self.peek() else {
            return false;
        };
        let mut at_root = self
            .state
            .events
            .iter()
            .filter(|event| event.scope.is_none() && event.tag == tag);
        self.queue_head(None) == Some(tag)
            && at_root.all(|event| event.control)
            && self.scope_head().map(|(head, _)| head) != Some(tag)
    }

    fn pop(&mut self) -> Option<Ready> {
        let tag = self.peek()?;
        let mut ready = Ready::at(tag);
        if self.queue_head(None) == Some(tag) {
            self.take_out(None, tag, &mut ready);
        }
        while let Some((head, scope)) = self.scope_head() {
            if head != tag {
                break;
            }
            if let Some(local) = self.queue_head(Some(scope)) {
                self.take_out(Some(scope), local, &mut ready);
            }
        }
        ready.reactions.sort_unstable();
        ready.reactions.dedup();
        Some(ready)
    }

    /// Takes all events of a queue at a tag out, in order of acceptance.
    fn take_out(&mut self, scope: Option<usize>, tag: RawTag, ready: &mut Ready) {
        let (taken, left): (Vec<Event>, Vec<Event>) = std::mem::take(&mut self.state.events)
            .into_iter()
            .partition(|event| event.scope == scope && event.tag == tag);
        self.state.events = left;
        for event in taken {
            // 02, C-20: by the clock at the pop; root events never are.
            let mapped = scope.map(|scope| self.state.clocks[scope].to_global(event.tag));
            ready.held |= matches!(mapped, Some(Ok(Mapped { held: true, .. })));
            self.state.work -= usize::from(event.is_ordinary());
            ready.terminal |= event.terminal;
            ready.work |= event.is_ordinary();
            ready.network |= event.network;
            for &key in &event.reactions {
                ready
                    .reactions
                    .push((usize::from(self.table.levels[key]), key));
            }
            if let Some((action, _)) = event.action {
                if !ready.actions.contains(&action) {
                    ready.actions.push(action);
                }
            }
        }
    }

    fn transition(
        &mut self,
        reactor: usize,
        target: usize,
        reset: bool,
        now: RawTag,
    ) -> Answer<()> {
        let table = self.table;
        let target_scope = table.modes[target].scope;
        let in_reset = |scope: usize| reset && table.in_subtree(scope, target_scope);
        if reset {
            self.reset_subtree(target_scope);
        }
        self.state.modes[reactor] = Some(target);
        let first_time = self.sync_scopes(now, in_reset)?;
        self.start_up(&first_time, now)?;
        if reset {
            self.restart(target_scope, now)?;
        }
        Ok(())
    }

    /// Step 1.
    fn reset_subtree(&mut self, target_scope: usize) {
        let table = self.table;
        let inside = |scope: usize| table.in_subtree(scope, target_scope);
        let (dropped, left): (Vec<Event>, Vec<Event>) = std::mem::take(&mut self.state.events)
            .into_iter()
            .partition(|event| event.scope.is_some_and(inside));
        self.state.events = left;
        self.state.work -= dropped.iter().filter(|event| event.is_ordinary()).count();
        for scope in (0..table.scopes.len()).filter(|&scope| inside(scope)) {
            self.state.clocks[scope].local = RawTag::ZERO;
            self.state.clocks[scope].suspended = RawTag::ZERO;
        }
        for (action, row) in table.actions.iter().enumerate() {
            if row.logical && inside(row.scope) {
                self.state.store.clear(action);
            }
        }
        for (reactor, row) in table.reactors.iter().enumerate() {
            if row.root != target_scope && inside(row.root) {
                self.state.modes[reactor] = row.initial;
            }
        }
    }

    /// Step 3; answers the scopes that are active for the first time.
    fn sync_scopes(&mut self, now: RawTag, in_reset: impl Fn(usize) -> bool) -> Answer<Vec<usize>> {
        let mut first_time = Vec::new();
        for scope in 0..self.table.scopes.len() {
            let active = is_active(self.table, &self.state.modes, scope);
            match (self.state.active[scope], active) {
                (true, false) => {
                    // 02, C-14: in a reset subtree S keeps at zero.
                    if !in_reset(scope) {
                        let clock = &mut self.state.clocks[scope];
                        clock.suspended = clock.to_local(now)?;
                    }
                    self.state.active[scope] = false;
                }
                (false, true) => {
                    self.state.active[scope] = true;
                    if !self.state.ever[scope] {
                        self.state.ever[scope] = true;
                        first_time.push(scope);
                    }
                    let clock = &mut self.state.clocks[scope];
                    clock.global = now;
                    clock.allowed = false;
                    clock.local = clock.suspended;
                    self.rebase(scope)?;
                }
                (true, true) if in_reset(scope) => {
                    self.state.clocks[scope] = Clock {
                        global: now,
                        local: RawTag::ZERO,
                        allowed: false,
                        suspended: RawTag::ZERO,
                    };
                }
                _ => {}
            }
        }
        Ok(first_time)
    }

    /// Maps a scope's events, sets their stored tags, then moves their values: later old tag first, ties by
    /// acceptance.
    fn rebase(&mut self, scope: usize) -> Answer<()> {
        let clock = self.state.clocks[scope];
        let mut moves = Vec::new();
        for event in &mut self.state.events {
            if event.scope != Some(scope) {
                continue;
            }
            let image = clock.to_global(event.tag)?.tag;
            if let Some((action, stored)) = &mut event.action {
                moves.push((*action, *stored, image));
                *stored = image;
            }
        }
        moves.sort_by_key(|&(_, from, _)| Reverse(from));
        for (action, from, to) in moves {
            self.state.store.move_value(action, from, to)?;
        }
        Ok(())
    }

    /// Step 4.
    fn start_up(&mut self, first_time: &[usize], now: RawTag) -> Answer<()> {
        let table = self.table;
        let rows = |scope: usize| table.startups.iter().filter(move |row| row.scope == scope);
        if !first_time.iter().any(|&scope| rows(scope).next().is_some()) {
            return Ok(());
        }
        let tag = delayed(now)?;
        for row in first_time.iter().flat_map(|&scope| rows(scope)) {
            self.state.store.push(row.action, tag, 0)?;
        }
        for &scope in first_time {
            let reactions = rows(scope).map(|row| row.reaction).collect();
            self.accept(Event::plain(tag, reactions))?;
        }
        Ok(())
    }

    /// Step 5.
    fn restart(&mut self, target_scope: usize, now: RawTag) -> Answer<()> {
        let table = self.table;
        for row in &table.timers {
            let scope = table.actions[row.action].scope;
            if !table.in_subtree(scope, target_scope) {
                continue;
            }
            let image = self.state.clocks[scope].to_global(row.tag)?.tag;
            self.state.store.push(row.action, image, 0)?;
            let reactions = table
                .triggers
                .iter()
                .filter(|trigger| trigger.0 == row.action)
                .map(|trigger| trigger.1)
                .collect();
            self.accept(Event {
                scope: Some(scope),
                action: Some((row.action, image)),
                ..Event::plain(row.tag, reactions)
            })?;
        }
        let reactions: Vec<usize> = table
            .resets
            .iter()
            .filter(|row| table.in_subtree(row.0, target_scope))
            .map(|row| row.1)
            .collect();
        if !reactions.is_empty() {
            self.accept(Event::plain(delayed(now)?, reactions))?;
        }
        Ok(())
    }
}

/// A scope is active exactly if it and all ancestors that name a mode find it current.
fn is_active(table: &Table, modes: &[Option<usize>], scope: usize) -> bool {
    let mut at = Some(scope);
    while let Some(scope) = at {
        let row = &table.scopes[scope];
        if row.mode.is_some() && modes[row.reactor] != row.mode {
            return false;
        }
        at = row.parent;
    }
    true
}

/// The lines that 01 demands for a day.
pub fn answer(day: &[u8]) -> String {
    let (table, records) = match image::open(day) {
        Ok(opened) => opened,
        Err(refused) => return format!("{refused}\n"),
    };
    let mut lines = "table ok\n".to_string();
    let mut plain = Plain::new(&table);
    for record in split(records) {
        lines.push_str(&plain.step(&record.op).line());
        lines.push('\n');
    }
    lines
}
