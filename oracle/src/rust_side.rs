//! Drives the published manager: one call a record, and reads its state.

use super::modal::{clock_map, ClockView, EventManager};
use super::{ModeTransition, Schedule};
use crate::answers::Ready;
use crate::domain::{Apart, Turn, Why};
use crate::image::{RawTag, Table, MAX_MICROSTEP, MAX_OFFSET};
use crate::records::Op;
use crate::schedule::{
    rust_tag, ActionKey, ModeKey, ReactionKey, ReactorKey, ScopeKey, TableSchedule,
};
use crate::storage::Stores;
use crate::{Level, Tag, TransitionKind};

/// A call with its reactions' levels looked up and its tag in the published type.
#[derive(Debug, Clone)]
pub enum Call {
    Plain(Tag, Vec<(Level, ReactionKey)>, bool),
    Network(Tag, Vec<(Level, ReactionKey)>),
    Control(Tag),
    Action(ActionKey, Tag, Vec<(Level, ReactionKey)>, bool),
    Transition(ReactorKey, ModeKey, TransitionKind, Tag),
    Pop,
}

pub struct RustSide {
    pub(super) schedule: TableSchedule,
    pub(super) manager: EventManager<TableSchedule>,
    pub(super) stores: Stores,
    /// Kept where the domain is watched.
    apart: Option<Apart>,
}

/// A tag beyond 01's limits. The Rust knows none.
fn beyond(tag: Tag) -> bool {
    !(0..=i128::from(MAX_OFFSET)).contains(&tag.offset().whole_nanoseconds())
        || tag.microstep() > MAX_MICROSTEP as usize
}

impl RustSide {
    /// A fresh manager. `watching` looks for what leaves 01's domain.
    pub fn new(table: &Table, watching: bool) -> Self {
        let schedule = TableSchedule::new(table);
        let manager = EventManager::new(schedule.limits(), &schedule, false);
        Self {
            manager,
            stores: Stores::new(schedule.action_capacity(), watching),
            apart: watching.then(|| Apart::new(table.scopes.len())),
            schedule,
        }
    }

    /// Makes a call out of a record that the bytes don't refuse; `None` for a malformed one.
    pub fn call(&self, op: &Op) -> Option<Call> {
        let leveled = |reactions: &[u16]| {
            reactions
                .iter()
                .map(|&reaction| self.schedule.leveled(reaction))
                .collect()
        };
        Some(match op {
            Op::Plain {
                tag,
                terminal,
                reactions,
            } => Call::Plain(rust_tag(*tag), leveled(reactions), *terminal),
            Op::Network { tag, reactions } => Call::Network(rust_tag(*tag), leveled(reactions)),
            Op::Control { tag } => Call::Control(rust_tag(*tag)),
            Op::Action {
                action,
                tag,
                terminal,
                reactions,
            } => Call::Action(
                ActionKey(*action),
                rust_tag(*tag),
                leveled(reactions),
                *terminal,
            ),
            Op::Transition {
                reactor,
                mode,
                reset,
                tag,
            } => Call::Transition(
                ReactorKey(*reactor),
                ModeKey(*mode),
                if *reset {
                    TransitionKind::Reset
                } else {
                    TransitionKind::History
                },
                rust_tag(*tag),
            ),
            Op::Pop => Call::Pop,
            Op::Malformed | Op::Broken => return None,
        })
    }

    /// Carries out a call that is no pop.
    #[inline]
    pub fn apply(&mut self, call: &Call) {
        match call {
            Call::Plain(tag, reactions, terminal) => {
                self.manager
                    .push_event(*tag, reactions.iter().copied(), *terminal)
            }
            Call::Network(tag, reactions) => self
                .manager
                .push_network_event(*tag, reactions.iter().copied()),
            Call::Control(tag) => self.manager.push_control_event(*tag),
            Call::Action(action, tag, reactions, terminal) => self.manager.push_action_event(
                *action,
                *tag,
                reactions.iter().copied(),
                *terminal,
                &self.schedule,
            ),
            Call::Transition(reactor, target, transition, tag) => {
                let before: Option<Vec<bool>> = self.apart.is_some().then(|| self.active());
                self.stores.begin_transition();
                let request = ModeTransition {
                    target: *target,
                    transition: *transition,
                };
                self.manager.apply_transition(
                    *reactor,
                    &request,
                    &self.schedule,
                    &mut self.stores,
                    *tag,
                );
                if let Some(before) = before {
                    self.note(*target, *transition, &before);
                }
            }
            Call::Pop => {}
        }
    }

    fn active(&self) -> Vec<bool> {
        let active = |scope| self.manager.scope_active(scope);
        self.schedule.scopes().map(active).collect()
    }

    /// What the transition just applied made of the scopes, for C-14.
    fn note(&mut self, target: ModeKey, transition: TransitionKind, before: &[bool]) {
        let mut inside = vec![false; before.len()];
        if matches!(transition, TransitionKind::Reset) {
            let target = self.schedule.scope_for_mode(target);
            for scope in self.schedule.descendant_scopes(target) {
                inside[usize::from(scope.0)] = true;
            }
        }
        let scopes = self.schedule.scopes().zip(inside).zip(before);
        let turns = scopes.map(|((scope, inside), &before)| {
            let suspended = self.manager.clock_view(scope).suspended;
            Turn {
                inside,
                before,
                after: self.manager.scope_active(scope),
                zero: suspended == Tag::ZERO,
                beyond: beyond(suspended),
            }
        });
        if let Some(apart) = &mut self.apart {
            apart.note(turns);
        }
    }

    /// Pops into `ready`, which keeps its vectors, and gives the sets back as the scheduler would. Of "held" it says nothing: this is timed.
    #[inline]
    pub fn pop_into(&mut self, ready: &mut Ready) -> bool {
        let Some(mut event) = self.manager.pop_next_event() else {
            return false;
        };
        ready.offset = event.tag.offset().whole_nanoseconds();
        ready.microstep = event.tag.microstep() as u64;
        ready.terminal = event.terminal;
        ready.work = event.has_nonterminal_work;
        ready.network = event.network_input;
        let reactions = &mut ready.reactions;
        reactions.clear();
        event.reactions.view().for_each_level(|level, keys, _| {
            reactions.extend(keys.map(|key| (level.0, usize::from(key.0))));
        });
        ready.actions.clear();
        ready
            .actions
            .extend(event.action_values.iter().map(|key| usize::from(key.0)));
        self.manager.return_reaction_set(event.reactions);
        self.manager.return_action_values(event.action_values);
        true
    }

    /// Pops; each action once, ascending (the Rust gives them in the order of its heap and may repeat one). "Held" (02, C-20), a word that
    /// the Rust lacks, is worked out from its own queues and its clocks, which a pop leaves as they are.
    pub fn pop(&mut self) -> Option<Ready> {
        let waited = self.manager.scope_tags();
        let mut ready = Ready::at(RawTag::ZERO);
        if !self.pop_into(&mut ready) {
            return None;
        }
        ready.held = waited
            .into_iter()
            .any(|(scope, tag)| self.is_taken(scope, tag) && self.is_held(scope, tag));
        ready.actions.sort_unstable();
        ready.actions.dedup();
        Some(ready)
    }

    /// Whether the pop took what waited in a scope at a local tag: a queue gives its least tags first.
    fn is_taken(&self, scope: ScopeKey, tag: Tag) -> bool {
        let head = self.manager.scope_head(scope);
        head.map_or(true, |head| tag < head)
    }

    fn is_held(&self, scope: ScopeKey, tag: Tag) -> bool {
        holds_back(self.manager.clock_view(scope), tag)
    }

    /// Why the transition just applied left 01's domain, if it did.
    pub fn left_domain(&self) -> Option<Why> {
        let read = self.apart.as_ref().and_then(Apart::read);
        read.map(Why::ResetScope).or_else(|| self.stores.clash())
    }

    /// Accepted transitions that 01 refuses with 7 for the S of a scope in the reset subtree, and 02's C-14 does not.
    pub fn sevens(&self) -> usize {
        self.apart.as_ref().map_or(0, Apart::sevens)
    }

    /// Whether a scope's S is zero by C-14 and another tag here.
    pub fn is_apart(&self, scope: usize) -> bool {
        self.apart.as_ref().is_some_and(|apart| apart.has(scope))
    }

    pub fn stores(&self) -> &Stores {
        &self.stores
    }

    pub fn peek(&mut self) -> Option<Tag> {
        self.manager.peek_tag()
    }

    pub fn control_only(&mut self) -> bool {
        self.manager.peek_is_control_only()
    }

    pub fn work(&self) -> usize {
        self.manager.work_count()
    }

    /// A tag of the state that lies beyond 01's limits, if there is one, the S of scopes that are apart aside. The Rust
    /// knows no limits, so a call that 01 refuses with 7 leaves one behind, and an accepted one never does.
    pub fn beyond_limits(&self) -> Option<Tag> {
        let tags = self.manager.all_tags(|scope| self.is_apart(scope));
        tags.into_iter().find(|&tag| beyond(tag))
    }

    pub fn root_head(&self) -> Option<Tag> {
        self.manager.root_head()
    }

    /// Clock, active, ever active and head of each scope.
    pub(crate) fn scopes(&self) -> impl Iterator<Item = ScopeView> + '_ {
        self.schedule.scopes().map(move |scope| ScopeView {
            clock: self.manager.clock_view(scope),
            active: self.manager.scope_active(scope),
            ever: self.manager.scope_ever_active(scope),
            head: self.manager.scope_head(scope),
        })
    }
}

/// What can be seen of one scope.
pub(crate) struct ScopeView {
    pub clock: ClockView,
    pub active: bool,
    pub ever: bool,
    pub head: Option<Tag>,
}

/// Whether a record is outside 01's domain of comparison before it is applied.
pub fn outside_domain(op: &Op) -> Option<Why> {
    match op {
        Op::Transition { tag, .. } if tag.microstep == MAX_MICROSTEP => Some(Why::MicrostepLimit),
        _ => None,
    }
}

/// Whether a clock moves a local tag to its activation's next microstep, worked out from its numbers: what they come to is earlier than G, or
/// equal to G and not allowed.
fn holds_back(clock: ClockView, tag: Tag) -> bool {
    if clock.global == clock.local && clock.allowed {
        return false;
    }
    let wide = |tag: Tag| (tag.offset().whole_nanoseconds(), tag.microstep() as i128);
    let (global, local, tag) = (wide(clock.global), wide(clock.local), wide(tag));
    let microstep = match tag.0 == local.0 && tag.1 >= local.1 {
        true => global.1 + (tag.1 - local.1),
        false => tag.1,
    };
    let shifted = (global.0 + (tag.0 - local.0), microstep);
    shifted < global || (shifted == global && !clock.allowed)
}

/// A scope clock's map in the published Rust, tags given within 01's limits: G, L, allowed, S, the argument. Offset, microstep, and whether
/// the tag was held back, which from global to local it never is.
pub fn map(
    to_local: bool,
    global: RawTag,
    local: RawTag,
    allowed: bool,
    suspended: RawTag,
    tag: RawTag,
) -> (i128, u64, bool) {
    let clock = ClockView {
        global: rust_tag(global),
        local: rust_tag(local),
        allowed,
        suspended: rust_tag(suspended),
    };
    let mapped = clock_map(to_local, clock, rust_tag(tag));
    (
        mapped.offset().whole_nanoseconds(),
        mapped.microstep() as u64,
        !to_local && holds_back(clock, rust_tag(tag)),
    )
}
