//! Stand-in for the `tinymap` crate: keys, a map kept in a vector, and a set of keys kept in words.
//! Both are laid out for speed, so that a comparison of times is fair to the Rust.

pub mod key_set;
mod secondary;

pub use key_set::KeySet;
pub use secondary::TinySecondaryMap;

/// A small number of a kind of its own.
pub trait Key: Copy + Eq + Ord + std::fmt::Debug + std::hash::Hash + From<usize> {
    /// The most keys of this kind.
    const MAX_LEN: usize;

    /// The number of this key.
    fn index(&self) -> usize;
}
