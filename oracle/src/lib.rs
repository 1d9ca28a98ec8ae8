//! The oracle: the published Rust, unchanged over stand-ins, and a plain reading of 01, to hold gate days against.
//! `main.rs` has its programs; the harness uses it as a library.

pub mod answers;
pub mod antt;
pub mod beside;
pub mod by_value;
pub mod calls;
pub mod compare;
pub mod days;
pub mod deep;
pub mod domain;
pub mod image;
pub mod judge;
pub mod laps;
pub mod make;
pub mod parts;
pub mod picture;
pub mod plain;
mod processor;
mod published;
pub mod records;
pub mod rescue;
pub mod rescues;
pub mod rng;
mod sched;
mod schedule;
pub mod scripts;
pub mod selftest;
pub mod several;
pub mod shrink;
mod storage;
pub mod sweep;
#[cfg(test)]
mod tests;
pub mod text;
pub mod timing;

pub use sched::{rust_bench, rust_usual};

// The published files name these at the crate's root.
use published::*;
