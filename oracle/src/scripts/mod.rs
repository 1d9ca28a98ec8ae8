//! Scripts of single functions with the Rust's answers, for the harness: clock maps, stores, level walks and images; and
//! what the writer of images is handed. Each module says its format at its top. All numbers are big-endian.

pub mod map;
pub mod store;
pub mod store_compare;
pub mod table;
pub mod walk;
pub mod writes;

use crate::image::RawTag;

/// Bytes being written.
#[derive(Default)]
pub struct Bytes(pub Vec<u8>);

impl Bytes {
    pub fn byte(&mut self, value: u8) {
        self.0.push(value);
    }

    pub fn short(&mut self, value: usize) {
        self.0.extend((value as u16).to_be_bytes());
    }

    pub fn four(&mut self, value: u32) {
        self.0.extend(value.to_be_bytes());
    }

    pub fn eight(&mut self, value: u64) {
        self.0.extend(value.to_be_bytes());
    }

    pub fn tag(&mut self, tag: RawTag) {
        self.eight(tag.offset);
        self.four(tag.microstep);
    }
}

/// A script and its answers, and a sentence about them.
pub struct Written {
    pub script: Vec<u8>,
    pub answers: Vec<u8>,
    pub summary: String,
}
