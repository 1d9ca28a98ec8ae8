//! 01's domain of comparison with the published Rust, as 02's C-14 leaves it: why a day is compared no further.
//!
//! C-14: a scope in the reset subtree that goes inactive keeps S at zero, where the Rust takes S from c. As long as nobody reads that S
//! the two give the same answers. A transition that turns the scope active and does not reset it reads it: from that record on a day is
//! left out. A reset makes S zero on both sides again.

use std::fmt;

/// Why a day is not compared any further.
#[derive(Debug, Clone, PartialEq, Eq)]
pub enum Why {
    /// An accepted transition at the microstep limit.
    MicrostepLimit,
    /// Two moves of one held value to unlike tags: the action, and from where to where.
    Moves(u16, String),
    /// 02, C-14: a transition reads the S of this scope, which a reset had turned inactive.
    ResetScope(usize),
}

impl Why {
    /// The reason without its numbers.
    pub fn kind(&self) -> &'static str {
        match self {
            Why::MicrostepLimit => "a transition at the microstep limit",
            Why::Moves(..) => "two value moves",
            Why::ResetScope(_) => {
                "the S of a scope that a reset turned inactive is read (02, C-14)"
            }
        }
    }

    /// The point of docs/DIFFERENCES.md that tells of it.
    pub fn point(&self) -> u8 {
        match self {
            Why::MicrostepLimit => 9,
            Why::Moves(..) => 13,
            Why::ResetScope(_) => 22,
        }
    }
}

impl fmt::Display for Why {
    fn fmt(&self, f: &mut fmt::Formatter<'_>) -> fmt::Result {
        match self {
            Why::MicrostepLimit => f.write_str(self.kind()),
            Why::Moves(action, moves) => write!(f, "{} of action {action} {moves}", self.kind()),
            Why::ResetScope(scope) => write!(
                f,
                "the S of scope {scope}, which a reset turned inactive, is read (02, C-14)"
            ),
        }
    }
}

/// What a transition made of one scope in the Rust.
pub struct Turn {
    /// The reset subtree has it.
    pub inside: bool,
    pub before: bool,
    pub after: bool,
    /// S is zero now.
    pub zero: bool,
    /// S lies beyond 01's limits now.
    pub beyond: bool,
}

/// The scopes whose S is zero by C-14 and another tag in the Rust.
pub struct Apart {
    scopes: Vec<bool>,
    read: Option<usize>,
    sevens: usize,
}

impl Apart {
    pub fn new(scopes: usize) -> Self {
        Self {
            scopes: vec![false; scopes],
            read: None,
            sevens: 0,
        }
    }

    /// Notes a transition: each scope's turn, scope 0 first.
    pub fn note(&mut self, turns: impl Iterator<Item = Turn>) {
        self.read = None;
        let mut seven = false;
        for (scope, turn) in turns.enumerate() {
            if turn.inside {
                self.scopes[scope] = turn.before && !turn.after && !turn.zero;
                seven |= self.scopes[scope] && turn.beyond;
            } else if self.scopes[scope] && turn.after {
                self.read = self.read.or(Some(scope));
            }
        }
        self.sevens += usize::from(seven);
    }

    /// The first scope of these whose S the last transition read.
    pub fn read(&self) -> Option<usize> {
        self.read
    }

    /// Transitions so far that 01 refuses with 7 for such an S, and C-14 no longer does.
    pub fn sevens(&self) -> usize {
        self.sevens
    }

    pub fn has(&self, scope: usize) -> bool {
        self.scopes[scope]
    }
}
