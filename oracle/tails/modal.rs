// Tail of the oracle: reads the manager's private state. Nothing above this line is ours.

/// One scope's clock.
#[derive(Debug, Clone, Copy, PartialEq, Eq)]
pub(crate) struct ClockView {
    pub(crate) global: Tag,
    pub(crate) local: Tag,
    pub(crate) allowed: bool,
    pub(crate) suspended: Tag,
}

impl<S: Schedule> EventManager<S> {
    pub(crate) fn clock_view(&self, scope: S::Scope) -> ClockView {
        let clock = &self.scope_clocks[scope];
        ClockView {
            global: clock.activation_global,
            local: clock.activation_local,
            allowed: clock.allow_activation_tag,
            suspended: clock.suspended_local,
        }
    }

    /// Least tag of the root queue.
    pub(crate) fn root_head(&self) -> Option<Tag> {
        self.root.peek_tag()
    }

    /// Least local tag of a scope's queue, whether the scope is active or not.
    pub(crate) fn scope_head(&self, scope: S::Scope) -> Option<Tag> {
        self.scope_queues[scope].peek_tag()
    }

    /// Scope and local tag of every event in a scope's queue.
    pub(crate) fn scope_tags(&self) -> Vec<(S::Scope, Tag)> {
        let of = |&scope: &S::Scope| {
            let tags = self.scope_queues[scope].tags();
            tags.map(move |(tag, _)| (scope, tag))
        };
        self.scopes.iter().flat_map(of).collect()
    }

    pub(crate) fn work_count(&self) -> usize {
        self.nonterminal_work_count
    }

    /// Every tag of the state: events' tags and stored tags, global images in active scopes, clocks; the S of a scope that is apart aside.
    pub(crate) fn all_tags(&self, apart: impl Fn(usize) -> bool) -> Vec<Tag> {
        let mut tags = Vec::new();
        for (tag, stored) in self.root.tags() {
            tags.push(tag);
            tags.extend(stored);
        }
        for (number, &scope) in self.scopes.iter().enumerate() {
            let clock = &self.scope_clocks[scope];
            tags.extend([clock.activation_global, clock.activation_local]);
            tags.extend((!apart(number)).then_some(clock.suspended_local));
            for (tag, stored) in self.scope_queues[scope].tags() {
                tags.push(tag);
                tags.extend(stored);
                if self.scope_active[scope] {
                    tags.push(clock.local_to_global(tag));
                }
            }
        }
        tags
    }
}

/// Maps one tag by a clock: global to local if `to_local`, else local to global.
pub(crate) fn clock_map(to_local: bool, clock: ClockView, tag: Tag) -> Tag {
    let clock = ScopeClockState {
        activation_global: clock.global,
        activation_local: clock.local,
        allow_activation_tag: clock.allowed,
        suspended_local: clock.suspended,
        frontier_epoch: 0,
    };
    if to_local {
        clock.global_to_local(tag)
    } else {
        clock.local_to_global(tag)
    }
}
