//! The scheduler's module: the published modal.rs and queue.rs, unchanged, and stand-ins for what they take from
//! their parent. What they offer is visible only in here, so the modules that drive them, rust_side, rust_bench and
//! rust_usual, are children.

use std::{iter::Copied, slice::Iter};

use crate::{Level, ReactorData, Tag, TransitionKind};

include!(concat!(env!("OUT_DIR"), "/queue.rs"));
include!(concat!(env!("OUT_DIR"), "/modal.rs"));

#[path = "rust_bench.rs"]
pub mod rust_bench;
#[path = "rust_side.rs"]
pub mod rust_side;
#[path = "rust_usual.rs"]
pub mod rust_usual;

/// Rows handed out one by one.
pub type Rows<'a, T> = Copied<Iter<'a, T>>;

/// A reaction with its level.
pub type Leveled<S> = (Level, <S as Schedule>::Reaction);

/// What the manager asks of the table. Everything "in scope" is in row order; actions, timers and resets count for
/// the scope's whole subtree, startups for the scope alone.
pub trait Schedule {
    type Scope: tinymap::Key;
    type Reactor: tinymap::Key;
    type Mode: tinymap::Key;
    type Reaction: tinymap::Key;
    type Action: tinymap::Key;

    fn scopes(&self) -> Rows<'_, Self::Scope>;
    fn parent_scope(&self, scope: Self::Scope) -> Option<Self::Scope>;
    fn mode_for_scope(&self, scope: Self::Scope) -> Option<Self::Mode>;
    fn reactor_for_scope(&self, scope: Self::Scope) -> Self::Reactor;
    /// The scope itself and all under it, ascending.
    fn descendant_scopes(&self, scope: Self::Scope) -> Rows<'_, Self::Scope>;
    fn has_modal_scopes(&self) -> bool;

    fn reactor_root_scopes(&self) -> Rows<'_, (Self::Reactor, Self::Scope)>;
    fn initial_mode_for_reactor(&self, reactor: Self::Reactor) -> Option<Self::Mode>;
    fn scope_for_mode(&self, mode: Self::Mode) -> Self::Scope;

    fn action_capacity(&self) -> usize;
    fn scope_for_action(&self, action: Self::Action) -> Self::Scope;
    fn action_is_logical(&self, action: Self::Action) -> bool;
    fn action_triggers(&self, action: Self::Action) -> Rows<'_, Leveled<Self>>
    where
        Self: Sized;

    fn logical_actions_in_scope(&self, scope: Self::Scope) -> Rows<'_, Self::Action>;
    fn startups_in_scope(&self, scope: Self::Scope) -> Rows<'_, (Self::Action, Leveled<Self>)>
    where
        Self: Sized;
    fn timer_startups_in_scope(&self, scope: Self::Scope) -> Rows<'_, (Self::Action, Tag)>;
    fn reset_reactions_in_scope(&self, scope: Self::Scope) -> Rows<'_, Leveled<Self>>
    where
        Self: Sized;
}

/// What the manager asks of the action values.
pub trait ExecutionStorage<S: Schedule> {
    fn push_action_value(&mut self, action: S::Action, tag: Tag, value: Box<dyn ReactorData>);
    fn reschedule_action_value(&mut self, action: S::Action, from: Tag, to: Tag);
    fn clear_action_values(&mut self, action: S::Action);
}

/// A transition asked for.
pub struct ModeTransition<M> {
    pub target: M,
    pub transition: TransitionKind,
}
