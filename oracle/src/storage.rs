//! `ExecutionStorage`: one published store of u64 an action. A value pushed by the manager is 0.

use crate::action::store::ActionStore;
use crate::domain::Why;
use crate::sched::ExecutionStorage;
use crate::schedule::{ActionKey, TableSchedule};
use crate::{ReactorData, Tag};

/// Most entries that one push may add to a padded deque. The published store would take 264 MB for one value at
/// microstep 2^24; pop lines never depend on values, so a push beyond this is left out and the action marked.
const MOST_PADDING: usize = 1 << 14;

/// A value that was moved: action, old tag, new tag.
type Move = (ActionKey, Tag, Tag);

pub struct Stores {
    stores: Vec<ActionStore<u64>>,
    /// Actions whose values are no longer kept here, up to their next clearing.
    given_up: Vec<bool>,
    /// Whether to look for moves that leave 01's domain.
    watching: bool,
    /// Moves of this transition whose value was held, or might have been.
    moves: Vec<Move>,
    /// Two moves of one action with the same old tag and unlike new tags.
    clash: Option<(Move, Move)>,
}

impl Stores {
    pub fn new(actions: usize, watching: bool) -> Self {
        Self {
            stores: (0..actions).map(|_| ActionStore::new()).collect(),
            given_up: vec![false; actions],
            watching,
            moves: Vec::new(),
            clash: None,
        }
    }

    /// Forgets the moves of the transition before.
    pub fn begin_transition(&mut self) {
        self.moves.clear();
        self.clash = None;
    }

    /// Why the last transition left 01's domain, if it did.
    pub fn clash(&self) -> Option<Why> {
        self.clash.map(|((action, from, to), (_, _, other))| {
            Why::Moves(action.0, format!("from {from}, to {to} and to {other}"))
        })
    }

    pub fn store(&self, action: usize) -> &ActionStore<u64> {
        &self.stores[action]
    }

    /// Whether this action's values can't be compared.
    pub fn given_up(&self, action: usize) -> bool {
        self.given_up[action]
    }

    fn give_up(&mut self, action: usize) {
        self.given_up[action] = true;
        self.stores[action].clear();
    }

    /// Notes a move and whether it contradicts an earlier one of this transition. Only a value that is held moves,
    /// so a pair without a value leaves both sides alike and is no matter; the first of a pair finds the value.
    fn watch(&mut self, action: ActionKey, from: Tag, to: Tag) {
        let index = usize::from(action.0);
        let earlier = self
            .moves
            .iter()
            .find(|&&(key, old, new)| key == action && old == from && new != to);
        if let (Some(&earlier), None) = (earlier, self.clash) {
            self.clash = Some((earlier, (action, from, to)));
        }
        if self.given_up[index] || self.stores[index].holds(from) {
            self.moves.push((action, from, to));
        }
    }
}

impl ExecutionStorage<TableSchedule> for Stores {
    fn push_action_value(&mut self, action: ActionKey, tag: Tag, _value: Box<dyn ReactorData>) {
        let index = usize::from(action.0);
        if self.given_up[index] {
            return;
        }
        // A deque begins at microstep 0 here, so that a tag below pads it by less.
        if tag.microstep() > MOST_PADDING && self.stores[index].padding_for(tag) > MOST_PADDING {
            self.give_up(index);
            return;
        }
        self.stores[index].push(tag, 0);
    }

    fn reschedule_action_value(&mut self, action: ActionKey, from: Tag, to: Tag) {
        let index = usize::from(action.0);
        if self.watching {
            self.watch(action, from, to);
        }
        if self.given_up[index] {
            return;
        }
        if to.microstep() > MOST_PADDING
            && self.stores[index].holds(from)
            && self.stores[index].padding_for(to) > MOST_PADDING
        {
            self.give_up(index);
            return;
        }
        self.stores[index].move_value(from, to);
    }

    fn clear_action_values(&mut self, action: ActionKey) {
        let index = usize::from(action.0);
        self.stores[index].clear();
        self.given_up[index] = false;
    }
}
