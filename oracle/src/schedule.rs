//! `Schedule` over a table: rows laid out once in vectors, so that every question is answered by a slice.

use crate::image::{RawTag, Table};
use crate::sched::{Leveled, Rows, Schedule};
use crate::{Duration, Level, ReactionSetLimits, Tag};

/// A key type of its own for each kind of row.
macro_rules! keys {
    ($($name:ident),*) => {$(
        #[derive(Debug, Clone, Copy, PartialEq, Eq, PartialOrd, Ord, Hash)]
        pub struct $name(pub u16);

        impl From<usize> for $name {
            #[inline]
            fn from(index: usize) -> Self {
                Self(index as u16)
            }
        }

        impl tinymap::Key for $name {
            const MAX_LEN: usize = u16::MAX as usize;

            #[inline]
            fn index(&self) -> usize {
                usize::from(self.0)
            }
        }
    )*};
}

keys!(ScopeKey, ReactorKey, ModeKey, ReactionKey, ActionKey);

/// A tag within 01's limits as the published type.
#[inline]
pub fn rust_tag(tag: RawTag) -> Tag {
    Tag::new(
        Duration::nanoseconds(tag.offset as i64),
        tag.microstep as usize,
    )
}

struct ScopeRows {
    parent: Option<ScopeKey>,
    mode: Option<ModeKey>,
    reactor: ReactorKey,
    descendants: Vec<ScopeKey>,
    logical_actions: Vec<ActionKey>,
    startups: Vec<(ActionKey, (Level, ReactionKey))>,
    timers: Vec<(ActionKey, Tag)>,
    resets: Vec<(Level, ReactionKey)>,
}

struct ActionRows {
    scope: ScopeKey,
    logical: bool,
    triggers: Vec<(Level, ReactionKey)>,
}

pub struct TableSchedule {
    scope_keys: Vec<ScopeKey>,
    scopes: Vec<ScopeRows>,
    root_scopes: Vec<(ReactorKey, ScopeKey)>,
    initial_modes: Vec<Option<ModeKey>>,
    mode_scopes: Vec<ScopeKey>,
    actions: Vec<ActionRows>,
    levels: Vec<Level>,
    modal: bool,
}

/// Reactions of some rows with their levels.
fn leveled(table: &Table, keys: impl Iterator<Item = usize>) -> Vec<(Level, ReactionKey)> {
    let level = |key: usize| Level(usize::from(table.levels[key]));
    keys.map(|key| (level(key), ReactionKey::from(key)))
        .collect()
}

impl ScopeRows {
    fn new(table: &Table, scope: usize) -> Self {
        let row = &table.scopes[scope];
        let inside = |other: usize| table.in_subtree(other, scope);
        let own = table.startups.iter().filter(|row| row.scope == scope);
        let startups = own.clone().map(|row| ActionKey::from(row.action));
        let timers = table.timers.iter();
        let timers = timers.filter(|row| inside(table.actions[row.action].scope));
        let resets = table.resets.iter().filter(|row| inside(row.0));
        let logical = |&action: &usize| {
            let row = &table.actions[action];
            row.logical && inside(row.scope)
        };
        Self {
            parent: row.parent.map(ScopeKey::from),
            mode: row.mode.map(ModeKey::from),
            reactor: ReactorKey::from(row.reactor),
            descendants: (0..table.scopes.len())
                .filter(|&other| inside(other))
                .map(ScopeKey::from)
                .collect(),
            logical_actions: (0..table.actions.len())
                .filter(logical)
                .map(ActionKey::from)
                .collect(),
            startups: startups
                .zip(leveled(table, own.map(|row| row.reaction)))
                .collect(),
            timers: timers
                .map(|row| (ActionKey::from(row.action), rust_tag(row.tag)))
                .collect(),
            resets: leveled(table, resets.map(|row| row.1)),
        }
    }
}

impl ActionRows {
    fn new(table: &Table, action: usize) -> Self {
        let row = &table.actions[action];
        let triggers = table.triggers.iter().filter(|row| row.0 == action);
        Self {
            scope: ScopeKey::from(row.scope),
            logical: row.logical,
            triggers: leveled(table, triggers.map(|row| row.1)),
        }
    }
}

impl TableSchedule {
    pub fn new(table: &Table) -> Self {
        let scopes = 0..table.scopes.len();
        let reactors = table.reactors.iter().enumerate();
        let levels = table.levels.iter();
        Self {
            scope_keys: scopes.clone().map(ScopeKey::from).collect(),
            scopes: scopes.map(|scope| ScopeRows::new(table, scope)).collect(),
            root_scopes: reactors
                .map(|(reactor, row)| (ReactorKey::from(reactor), ScopeKey::from(row.root)))
                .collect(),
            initial_modes: table
                .reactors
                .iter()
                .map(|row| row.initial.map(ModeKey::from))
                .collect(),
            mode_scopes: table
                .modes
                .iter()
                .map(|row| ScopeKey::from(row.scope))
                .collect(),
            actions: (0..table.actions.len())
                .map(|action| ActionRows::new(table, action))
                .collect(),
            levels: levels.map(|&level| Level(usize::from(level))).collect(),
            modal: table.is_modal(),
        }
    }

    /// A reaction with its level.
    #[inline]
    pub fn leveled(&self, reaction: u16) -> (Level, ReactionKey) {
        (self.levels[usize::from(reaction)], ReactionKey(reaction))
    }

    pub fn limits(&self) -> ReactionSetLimits {
        ReactionSetLimits {
            max_level: self.levels.iter().copied().max().unwrap_or(Level(0)),
            num_keys: self.levels.len(),
        }
    }

    fn scope(&self, scope: ScopeKey) -> &ScopeRows {
        &self.scopes[usize::from(scope.0)]
    }

    fn action(&self, action: ActionKey) -> &ActionRows {
        &self.actions[usize::from(action.0)]
    }
}

impl Schedule for TableSchedule {
    type Scope = ScopeKey;
    type Reactor = ReactorKey;
    type Mode = ModeKey;
    type Reaction = ReactionKey;
    type Action = ActionKey;

    #[inline]
    fn scopes(&self) -> Rows<'_, ScopeKey> {
        self.scope_keys.iter().copied()
    }

    #[inline]
    fn parent_scope(&self, scope: ScopeKey) -> Option<ScopeKey> {
        self.scope(scope).parent
    }

    #[inline]
    fn mode_for_scope(&self, scope: ScopeKey) -> Option<ModeKey> {
        self.scope(scope).mode
    }

    #[inline]
    fn reactor_for_scope(&self, scope: ScopeKey) -> ReactorKey {
        self.scope(scope).reactor
    }

    #[inline]
    fn descendant_scopes(&self, scope: ScopeKey) -> Rows<'_, ScopeKey> {
        self.scope(scope).descendants.iter().copied()
    }

    #[inline]
    fn has_modal_scopes(&self) -> bool {
        self.modal
    }

    #[inline]
    fn reactor_root_scopes(&self) -> Rows<'_, (ReactorKey, ScopeKey)> {
        self.root_scopes.iter().copied()
    }

    #[inline]
    fn initial_mode_for_reactor(&self, reactor: ReactorKey) -> Option<ModeKey> {
        self.initial_modes[usize::from(reactor.0)]
    }

    #[inline]
    fn scope_for_mode(&self, mode: ModeKey) -> ScopeKey {
        self.mode_scopes[usize::from(mode.0)]
    }

    #[inline]
    fn action_capacity(&self) -> usize {
        self.actions.len()
    }

    #[inline]
    fn scope_for_action(&self, action: ActionKey) -> ScopeKey {
        self.action(action).scope
    }

    #[inline]
    fn action_is_logical(&self, action: ActionKey) -> bool {
        self.action(action).logical
    }

    #[inline]
    fn action_triggers(&self, action: ActionKey) -> Rows<'_, Leveled<Self>> {
        self.action(action).triggers.iter().copied()
    }

    #[inline]
    fn logical_actions_in_scope(&self, scope: ScopeKey) -> Rows<'_, ActionKey> {
        self.scope(scope).logical_actions.iter().copied()
    }

    #[inline]
    fn startups_in_scope(&self, scope: ScopeKey) -> Rows<'_, (ActionKey, Leveled<Self>)> {
        self.scope(scope).startups.iter().copied()
    }

    #[inline]
    fn timer_startups_in_scope(&self, scope: ScopeKey) -> Rows<'_, (ActionKey, Tag)> {
        self.scope(scope).timers.iter().copied()
    }

    #[inline]
    fn reset_reactions_in_scope(&self, scope: ScopeKey) -> Rows<'_, Leveled<Self>> {
        self.scope(scope).resets.iter().copied()
    }
}
