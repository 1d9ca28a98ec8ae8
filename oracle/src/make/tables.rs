//! Tables: how they grow, and the good ones that days are made over.

use crate::image::{Action, Mode, RawTag, Reactor, Scope, Startup, Table, Timer, KINDS};
use crate::image::{ACTION, MODE, REACTION, REACTOR, RESET, SCOPE, STARTUP, TIMER, TRIGGER};
use crate::image::{MAX_LEVEL, MAX_MICROSTEP, MAX_OFFSET};
use crate::rng::Rng;

// ---------------------------------------------------------------- growing

impl Table {
    /// One scope, one reactor, and nothing else.
    pub fn smallest() -> Self {
        Self {
            scopes: vec![Scope {
                parent: None,
                reactor: 0,
                mode: None,
            }],
            reactors: vec![Reactor {
                root: 0,
                initial: None,
            }],
            ..Self::default()
        }
    }

    pub fn modes_of(&self, reactor: usize) -> Vec<usize> {
        (0..self.modes.len())
            .filter(|&mode| self.modes[mode].reactor == reactor)
            .collect()
    }

    /// Reactors that have a mode.
    pub fn modal_reactors(&self) -> Vec<usize> {
        (0..self.reactors.len())
            .filter(|&reactor| self.modes.iter().any(|mode| mode.reactor == reactor))
            .collect()
    }

    pub fn actions_in(&self, scope: usize) -> Vec<usize> {
        (0..self.actions.len())
            .filter(|&action| self.actions[action].scope == scope)
            .collect()
    }

    // The next three answer the new key, or none where the kind is full.

    pub fn add_scope(&mut self, parent: Option<usize>, reactor: usize) -> Option<usize> {
        let key = self.scopes.len();
        (key < KINDS[SCOPE].0).then(|| {
            self.scopes.push(Scope {
                parent,
                reactor,
                mode: None,
            });
            key
        })
    }

    pub fn add_reactor(&mut self, root: usize) -> Option<usize> {
        let key = self.reactors.len();
        (key < KINDS[REACTOR].0).then(|| {
            self.reactors.push(Reactor {
                root,
                initial: None,
            });
            key
        })
    }

    /// A mode of the reactor and its scope, whose parent is the reactor's root scope or lies under it. Answers the scope.
    pub fn add_mode(&mut self, parent: usize, reactor: usize) -> Option<usize> {
        let mode = self.modes.len();
        if mode >= KINDS[MODE].0 {
            return None;
        }
        let scope = self.add_scope(Some(parent), reactor)?;
        self.scopes[scope].mode = Some(mode);
        self.modes.push(Mode { scope, reactor });
        Some(scope)
    }

    pub fn add_action(&mut self, scope: usize, logical: bool) {
        self.actions.push(Action { scope, logical });
    }

    pub fn add_timer(&mut self, action: usize, tag: RawTag) {
        self.timers.push(Timer { action, tag });
    }

    /// Of any action and any reaction; there are some.
    pub fn add_startup(&mut self, scope: usize, rng: &mut Rng) {
        self.startups.push(Startup {
            scope,
            action: rng.index(self.actions.len()),
            reaction: rng.index(self.levels.len()),
        });
    }

    /// Mode and reactor keys in another order, so that no program gets by with "mode k is scope k + 1".
    pub fn shuffle(&mut self, rng: &mut Rng) {
        let to = rng.shuffled(self.modes.len());
        for (from, row) in self.modes.clone().into_iter().enumerate() {
            self.modes[to[from]] = row;
            self.scopes[row.scope].mode = Some(to[from]);
        }
        let to = rng.shuffled(self.reactors.len());
        for (from, row) in self.reactors.clone().into_iter().enumerate() {
            self.reactors[to[from]] = row;
        }
        for scope in &mut self.scopes {
            scope.reactor = to[scope.reactor];
        }
        for mode in &mut self.modes {
            mode.reactor = to[mode.reactor];
        }
    }

    /// An initial mode for the reactors that have modes, or none with that chance.
    pub fn set_initials(&mut self, rng: &mut Rng, none: u64) {
        for reactor in 0..self.reactors.len() {
            let initial = rng.one_of(&self.modes_of(reactor));
            self.reactors[reactor].initial = initial.filter(|_| !rng.chance(none));
        }
    }
}

// ---------------------------------------------------------------- rows of the later kinds

/// How many rows of the later kinds, least and most, and how far ahead timers lie.
pub struct Fill {
    pub reactions: (u64, u64),
    pub actions: (u64, u64),
    pub triggers: (u64, u64),
    pub startups: (u64, u64),
    pub resets: (u64, u64),
    pub timers: (u64, u64),
    /// Chance of a logical action.
    pub logical: u64,
    pub unit: u64,
}

impl Fill {
    fn some(unit: u64) -> Self {
        Self {
            reactions: (1, 16),
            actions: (0, 8),
            triggers: (0, 16),
            startups: (0, 5),
            resets: (0, 4),
            timers: (0, 5),
            logical: 75,
            unit,
        }
    }

    /// Adds the rows, one reaction at least, to a table that has its scopes, reactors and modes.
    pub fn fill(&self, table: &mut Table, rng: &mut Rng) {
        let many = |rng: &mut Rng, (least, most)| 0..rng.range(least, most);
        let scopes = table.scopes.len();
        for _ in many(rng, self.reactions) {
            let level = rng.below(u64::from(MAX_LEVEL) + 1) as u8;
            let end = rng.pick(&[0, MAX_LEVEL]);
            table.levels.push(if rng.chance(15) { end } else { level });
        }
        for _ in many(rng, self.actions) {
            let logical = rng.chance(self.logical);
            table.add_action(rng.index(scopes), logical);
        }
        let (reactions, actions) = (table.levels.len(), table.actions.len());
        if actions > 0 {
            for _ in many(rng, self.triggers) {
                let row = (rng.index(actions), rng.index(reactions));
                table.triggers.push(row);
            }
            if rng.chance(20) && table.triggers.len() < KINDS[TRIGGER].0 {
                let twice = rng.one_of(&table.triggers);
                table.triggers.extend(twice);
            }
            for _ in many(rng, self.startups) {
                table.add_startup(rng.index(scopes), rng);
            }
            for _ in many(rng, self.timers) {
                let microstep = if rng.chance(40) { rng.below(4) } else { 0 };
                let tag = RawTag::new(self.unit * rng.below(6), microstep as u32);
                table.add_timer(rng.index(actions), tag);
            }
        }
        for _ in many(rng, self.resets) {
            let row = (rng.index(scopes), rng.index(reactions));
            table.resets.push(row);
        }
    }
}

// ---------------------------------------------------------------- small tables

/// Most reactors of a small table.
const FEW: usize = 6;

/// 1 to 8 scopes, several reactors and modes, the odd but accepted forms now and then.
pub fn small(rng: &mut Rng, unit: u64) -> Table {
    let mut table = Table::smallest();
    let size = if rng.chance(10) {
        rng.range(1, 2)
    } else {
        rng.range(3, 8)
    };
    while (table.scopes.len() as u64) < size {
        grow_small(&mut table, rng);
    }
    table.shuffle(rng);
    table.set_initials(rng, 12);
    Fill::some(unit).fill(&mut table, rng);
    table
}

/// One scope more, or a reactor in a scope that is there.
fn grow_small(table: &mut Table, rng: &mut Rng) {
    let reactor = rng.index(table.reactors.len());
    let any = rng.index(table.scopes.len());
    let parent = (!rng.chance(10)).then_some(any);
    let few = table.reactors.len() < FEW;
    match rng.below(100) {
        0..=59 => {
            // The parent is mostly the root scope, else anything under it.
            let root = table.reactors[reactor].root;
            let deeper = rng.chance(25) && table.in_subtree(any, root);
            table.add_mode(if deeper { any } else { root }, reactor);
        }
        // A reactor in a scope of its own.
        75..=94 if few => {
            let next = table.reactors.len();
            if let Some(root) = table.add_scope(parent, next) {
                table.add_reactor(root);
            }
        }
        // A reactor rooted in a scope that is there: shared, or one that names a mode.
        95.. if few => {
            table.add_reactor(any);
        }
        _ => {
            table.add_scope(parent, reactor);
        }
    }
}

// ---------------------------------------------------------------- nested tables

/// Modes in modes, so many levels, with plain scopes between; no rows of the later kinds yet.
pub fn nested_scopes(rng: &mut Rng, levels: u64) -> Table {
    let mut table = Table::smallest();
    let mut work = vec![(0, 1)];
    if rng.chance(20) {
        // A second scope without a parent, with a reactor and modes of its own.
        table.add_scope(None, 1);
        table.add_reactor(1);
        work.push((1, levels));
    }
    while let Some((reactor, level)) = work.pop() {
        let inner = add_modes(&mut table, rng, reactor, level < levels);
        work.extend(inner.into_iter().map(|inner| (inner, level + 1)));
    }
    if rng.chance(25) {
        // A reactor that shares a root scope, with modes of its own.
        let shared = rng.pick(&table.reactors).root;
        if let Some(reactor) = table.add_reactor(shared) {
            table.add_mode(shared, reactor);
            table.add_mode(shared, reactor);
        }
    }
    if rng.chance(20) {
        // One more mode of a reactor, deep in somebody's mode.
        let reactor = rng.index(table.reactors.len());
        let any = rng.index(table.scopes.len());
        if table.in_subtree(any, table.reactors[reactor].root) {
            table.add_mode(any, reactor);
        }
    }
    if rng.chance(15) {
        table.add_reactor(rng.index(table.scopes.len()));
    }
    table.shuffle(rng);
    table
}

/// Two or three modes of a reactor, if there is room; the reactors that root in them, if any may.
fn add_modes(table: &mut Table, rng: &mut Rng, reactor: usize, deeper: bool) -> Vec<usize> {
    let root = table.reactors[reactor].root;
    let mut under = root;
    if rng.chance(15) {
        under = table.add_scope(Some(root), reactor).unwrap_or(root);
    }
    let (mut before, mut inner) = (None, Vec::new());
    for at in 0..rng.range(2, 3) {
        // Now and then a mode scope under a mode scope of the same reactor.
        let parent = before.filter(|_| rng.chance(10)).unwrap_or(under);
        let Some(scope) = table.add_mode(parent, reactor) else {
            break;
        };
        before = Some(scope);
        if deeper && (at == 0 || rng.chance(35)) {
            inner.extend(add_inner(table, rng, scope));
        }
        if rng.chance(15) {
            table.add_scope(Some(scope), reactor);
        }
    }
    inner
}

/// A reactor in a mode: in the mode's scope itself, or in a plain scope one or two below.
fn add_inner(table: &mut Table, rng: &mut Rng, scope: usize) -> Option<usize> {
    let mut home = scope;
    for _ in 0..rng.pick(&[0, 1, 1, 1, 2]) {
        home = table.add_scope(Some(home), table.scopes[scope].reactor)?;
    }
    let inner = table.add_reactor(home)?;
    if home != scope {
        table.scopes[home].reactor = inner;
    }
    Some(inner)
}

/// A nested table with actions in most scopes, and timers, startups and resets all over.
pub fn nested(rng: &mut Rng, unit: u64) -> Table {
    let levels = rng.range(2, 4);
    let mut table = nested_scopes(rng, levels);
    let none = rng.pick(&[0, 10, 30]);
    table.set_initials(rng, none);
    for scope in 0..table.scopes.len() {
        for _ in 0..rng.pick(&[0, 1, 1, 1, 2]) {
            // Room is left for those of any scope.
            if table.actions.len() + 8 < KINDS[ACTION].0 {
                table.add_action(scope, rng.chance(85));
            }
        }
    }
    let fill = Fill {
        reactions: (4, 16),
        actions: (1, 3),
        triggers: (4, 24),
        startups: (0, 10),
        resets: (0, 8),
        timers: (2, 12),
        logical: 80,
        unit,
    };
    fill.fill(&mut table, rng);
    table
}

/// Small or, with that chance, nested.
pub fn either(rng: &mut Rng, unit: u64, deep: u64) -> Table {
    if rng.chance(deep) {
        nested(rng, unit)
    } else {
        small(rng, unit)
    }
}

// ---------------------------------------------------------------- tables with rows of every kind

/// A good table with rows of every kind, two reactors with modes, and plain scopes.
pub fn rich(rng: &mut Rng) -> Table {
    let mut table = either(rng, 1, 40);
    for _ in 0..2 {
        let root = table.add_scope(Some(0), 0).unwrap_or(0);
        if let Some(reactor) = table.add_reactor(root) {
            table.scopes[root].reactor = reactor;
            table.add_mode(root, reactor);
            table.add_mode(root, reactor);
        }
    }
    table.add_scope(Some(0), 0);
    table.shuffle(rng);
    table.set_initials(rng, 15);
    let fill = Fill {
        reactions: (1, 4),
        actions: (1, 3),
        triggers: (1, 4),
        startups: (1, 3),
        resets: (1, 3),
        timers: (1, 3),
        logical: 70,
        unit: 1,
    };
    fill.fill(&mut table, rng);
    table
}

/// A table at full counts: wide, as a chain, or nested.
pub fn full(rng: &mut Rng) -> Table {
    let mut table = full_scopes(rng);
    table.shuffle(rng);
    table.set_initials(rng, 5);
    // Each later kind full, or nearly, or anything.
    let all = rng.chance(40);
    let mut upto = |kind: usize| {
        let most = KINDS[kind].0 as u64;
        let fewer = rng.pick(&[most - 1, most / 2, 1]);
        let count = if all || rng.chance(50) { most } else { fewer };
        (count, count)
    };
    let fill = Fill {
        reactions: upto(REACTION),
        actions: upto(ACTION),
        triggers: upto(TRIGGER),
        startups: upto(STARTUP),
        resets: upto(RESET),
        timers: upto(TIMER),
        logical: 80,
        unit: 1,
    };
    fill.fill(&mut table, rng);
    table
}

/// As many scopes as there may be, or nearly, in one of four shapes.
fn full_scopes(rng: &mut Rng) -> Table {
    let (scopes, reactors) = (KINDS[SCOPE].0, KINDS[REACTOR].0);
    let mut table = Table::smallest();
    match rng.below(4) {
        0 => {
            // Modes of all reactors, which share a root scope.
            while table.add_reactor(0).is_some() {}
            for mode in 0..scopes - 1 {
                table.add_mode(0, mode % reactors);
            }
        }
        1 => {
            // A chain of scopes: each reactor roots in the one before's mode scope.
            for scope in 0..scopes - 1 {
                let reactor = scope / 2;
                if scope % 2 == 0 && reactor > 0 {
                    table.add_reactor(scope);
                }
                if scope % 2 == 0 || rng.chance(80) {
                    table.add_mode(scope, reactor);
                } else {
                    table.add_scope(Some(scope), reactor);
                }
            }
        }
        2 => {
            // Modes of one reactor, under the root scope or under each other.
            for _ in 0..scopes - 1 {
                let any = rng.index(table.scopes.len());
                table.add_mode(if rng.chance(50) { 0 } else { any }, 0);
            }
        }
        _ => {
            // Nested, filled up with plain scopes and reactors.
            table = nested_scopes(rng, 4);
            let in_any = |table: &Table, rng: &mut Rng| rng.index(table.scopes.len());
            while table.scopes.len() < scopes {
                let reactor = rng.index(table.reactors.len());
                table.add_scope(Some(in_any(&table, rng)), reactor);
            }
            while table.add_reactor(in_any(&table, rng)).is_some() {}
        }
    }
    table
}

/// Every kind at its most, 3,287 bytes: more modes than scopes can name, which nobody can accept.
pub fn too_many_modes() -> Table {
    let mut table = largest();
    let mode = Mode {
        scope: 0,
        reactor: 0,
    };
    table.modes.resize(KINDS[MODE].0, mode);
    table
}

/// Every kind at its most, but for a mode, since a scope has no parent: 3,283 bytes, the largest that is accepted.
pub fn largest() -> Table {
    let most = |kind: usize| KINDS[kind].0;
    let last = |kind: usize| KINDS[kind].0 - 1;
    let mut table = Table::smallest();
    while table.add_mode(0, 0).is_some() {}
    while table.add_reactor(0).is_some() {}
    table.levels.resize(most(REACTION), MAX_LEVEL);
    for _ in 0..most(ACTION) {
        table.add_action(0, true);
    }
    table
        .triggers
        .resize(most(TRIGGER), (last(ACTION), last(REACTION)));
    let startup = Startup {
        scope: last(SCOPE),
        action: last(ACTION),
        reaction: last(REACTION),
    };
    table.startups.resize(most(STARTUP), startup);
    table
        .resets
        .resize(most(RESET), (last(SCOPE), last(REACTION)));
    let latest = RawTag::new(MAX_OFFSET, MAX_MICROSTEP);
    for _ in 0..most(TIMER) {
        table.add_timer(last(ACTION), latest);
    }
    table
}
