//! What stands at the root of the published crate: its files key_set.rs, time.rs and action/store.rs, unchanged,
//! and stand-ins for what they name there. The scheduler's two files are in sched.rs. The published files say
//! `crate::..`, so lib.rs takes all of this into the crate's root.

use std::ops::{Add, AddAssign, Sub};

use downcast_rs::Downcast;

include!(concat!(env!("OUT_DIR"), "/key_set.rs"));
include!(concat!(env!("OUT_DIR"), "/time.rs"));

pub mod action {
    include!(concat!(env!("OUT_DIR"), "/store.rs"));
}

pub mod clock {
    /// The one error that time.rs names.
    #[allow(dead_code)]
    #[derive(Debug)]
    pub enum PhysicalClockError {
        Overflow,
    }
}

pub use key_set::KeySetLimits as ReactionSetLimits;
pub use time::Tag;

/// As in the published lib.rs.
pub trait ReactorData: Downcast + Send + Sync + 'static {}

impl<T> ReactorData for T where T: Send + Sync + 'static {}

downcast_rs::impl_downcast!(ReactorData);

/// A signed span of time in nanoseconds; stands in for `time::Duration`.
/// Sums wrap instead of panicking: inside 01's limits they never do.
#[derive(Debug, Clone, Copy, PartialEq, Eq, PartialOrd, Ord, Hash)]
pub struct Duration(i64);

impl Duration {
    pub const ZERO: Self = Self(0);
    pub const MIN: Self = Self(i64::MIN);
    pub const MAX: Self = Self(i64::MAX);

    #[inline]
    pub const fn nanoseconds(nanoseconds: i64) -> Self {
        Self(nanoseconds)
    }

    #[inline]
    pub const fn whole_nanoseconds(self) -> i128 {
        self.0 as i128
    }

    #[inline]
    pub const fn is_zero(self) -> bool {
        self.0 == 0
    }

    #[inline]
    pub fn checked_add(self, other: Self) -> Option<Self> {
        self.0.checked_add(other.0).map(Self)
    }
}

impl Add for Duration {
    type Output = Self;

    #[inline]
    fn add(self, other: Self) -> Self {
        Self(self.0.wrapping_add(other.0))
    }
}

impl Sub for Duration {
    type Output = Self;

    #[inline]
    fn sub(self, other: Self) -> Self {
        Self(self.0.wrapping_sub(other.0))
    }
}

impl std::fmt::Display for Duration {
    fn fmt(&self, f: &mut std::fmt::Formatter<'_>) -> std::fmt::Result {
        write!(f, "{}ns", self.0)
    }
}

/// Level of a reaction.
#[derive(Debug, Clone, Copy, PartialEq, Eq, PartialOrd, Ord, Hash)]
pub struct Level(pub usize);

impl From<usize> for Level {
    #[inline]
    fn from(level: usize) -> Self {
        Self(level)
    }
}

impl Add<usize> for Level {
    type Output = Self;

    #[inline]
    fn add(self, more: usize) -> Self {
        Self(self.0 + more)
    }
}

impl AddAssign<usize> for Level {
    #[inline]
    fn add_assign(&mut self, more: usize) {
        self.0 += more;
    }
}

/// Kind of a transition.
#[derive(Debug, Clone, Copy, PartialEq, Eq)]
pub enum TransitionKind {
    Reset,
    History,
}
