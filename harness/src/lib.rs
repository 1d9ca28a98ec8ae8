//! Barnshiver's proved functions for a Rust program: clock maps, the table check, the writer of tables, runs of gate days,
//! the rescue of damaged ones, and a [`Gate`] over them. `barnshiver.h` has the same for C.
//!
//! The archive `target/staticlib/libexports.a` (`tools/harness archive`) is linked; it has code for x86-64 alone. Nothing in
//! this wrapper is proved; it hands slices over and takes answers apart. "01" is the scope's document.
//!
//! ```
//! use barnshiver::{Gate, Table, Tag, NONE};
//!
//! let table = Table {
//!     scopes: vec![[NONE, 0, NONE]],
//!     reactors: vec![[0, NONE]],
//!     levels: vec![0],
//!     ..Table::default()
//! };
//! let mut gate = Gate::new(&table.written().unwrap()).unwrap();
//! gate.push_event(Tag::new(5, 0), &[0], false).unwrap();
//! assert_eq!(gate.pop_next_event().unwrap().tag, Tag::new(5, 0));
//! assert_eq!(gate.pop_next_event(), None);
//! ```

mod gate;
mod raw;
mod rescue;
pub mod slices;
#[cfg(feature = "standin")]
mod standin;
pub mod state;
mod table;

pub use gate::{Gate, Kind, Ready};
pub use rescue::{rescue, Rescued, Run};
pub use state::State;
pub use table::{Table, NONE};

use std::fmt;

/// Room in which every line of answers fits.
pub const LINE_ROOM: usize = 4096;

/// Nanoseconds and a microstep; offset first in order. Whether it is global or local, its place says.
#[derive(Debug, Clone, Copy, PartialEq, Eq, PartialOrd, Ord, Hash)]
pub struct Tag {
    pub offset: u64,
    pub microstep: u32,
}

impl Tag {
    pub const ZERO: Self = Self::new(0, 0);

    pub const fn new(offset: u64, microstep: u32) -> Self {
        Self { offset, microstep }
    }
}

impl From<[u8; slices::TAG_BYTES]> for Tag {
    fn from(bytes: [u8; slices::TAG_BYTES]) -> Self {
        let (offset, microstep) = bytes.split_at(8);
        Self::new(state::number(offset), state::number(microstep) as u32)
    }
}

impl From<Tag> for [u8; slices::TAG_BYTES] {
    fn from(tag: Tag) -> Self {
        let mut bytes = [0; slices::TAG_BYTES];
        bytes[..8].copy_from_slice(&tag.offset.to_be_bytes());
        bytes[8..].copy_from_slice(&tag.microstep.to_be_bytes());
        bytes
    }
}

impl fmt::Display for Tag {
    fn fmt(&self, f: &mut fmt::Formatter<'_>) -> fmt::Result {
        write!(f, "({},{})", self.offset, self.microstep)
    }
}

/// A number of refusal (01, "Numbers of refusal"). What was refused changed nothing.
#[derive(Debug, Clone, Copy, PartialEq, Eq)]
pub struct Refused(pub u8);

impl fmt::Display for Refused {
    fn fmt(&self, f: &mut fmt::Formatter<'_>) -> fmt::Result {
        let why = match self.0 {
            1 => "the record is malformed",
            5 => "the table lacks a key",
            6 => "a tag given is beyond the limits",
            7 => "a mapped or delayed tag is beyond the limits",
            8 => "256 events wait and one more is needed",
            9 => "256 values or buckets are held and one more is needed",
            10 => "the target mode is not of the named reactor",
            11 => "what was handed in breaks a rule",
            _ => "no number that 01 knows",
        };
        write!(f, "refused {}: {why}", self.0)
    }
}

impl std::error::Error for Refused {}

/// Why an image is no table: number 1 to 4, and the byte at which 01 finds it.
#[derive(Debug, Clone, Copy, PartialEq, Eq)]
pub struct TableRefused {
    pub number: u8,
    pub place: u64,
}

impl fmt::Display for TableRefused {
    fn fmt(&self, f: &mut fmt::Formatter<'_>) -> fmt::Result {
        let (number, place) = (self.number, self.place);
        write!(f, "table refused {number} at byte {place}: {}", why(number))
    }
}

impl std::error::Error for TableRefused {}

/// Why counts and rows were not written: number 1, 3 or 4, and the byte of the image at which 02 finds it.
#[derive(Debug, Clone, Copy, PartialEq, Eq)]
pub struct NotWritten {
    pub number: u8,
    pub place: u64,
}

impl fmt::Display for NotWritten {
    fn fmt(&self, f: &mut fmt::Formatter<'_>) -> fmt::Result {
        let (number, place) = (self.number, self.place);
        let why = match number {
            1 => "the rows do not fit the counts, or the buffer is too short",
            number => why(number),
        };
        write!(
            f,
            "table not written, refused {number} at byte {place}: {why}"
        )
    }
}

impl std::error::Error for NotWritten {}

/// Why a day's image is no table: number 1 to 4, 1 also if it is cut short or longer than any table. `check_table` has the
/// place.
#[derive(Debug, Clone, Copy, PartialEq, Eq)]
pub struct ImageRefused(pub u8);

impl fmt::Display for ImageRefused {
    fn fmt(&self, f: &mut fmt::Formatter<'_>) -> fmt::Result {
        write!(f, "table refused {}: {}", self.0, why(self.0))
    }
}

impl std::error::Error for ImageRefused {}

fn why(number: u8) -> &'static str {
    match number {
        1 => "its length does not fit",
        2 => "its version is not 1",
        3 => "a count is too large, or there is no scope or no reactor",
        _ => "a row breaks a rule",
    }
}

/// Whether an image is a table.
pub fn check_table(image: &[u8]) -> Result<(), TableRefused> {
    let mut place = [0; slices::PLACE_BYTES];
    match slices::check_table(image, &mut place) {
        0 => Ok(()),
        number => Err(TableRefused {
            number,
            place: u64::from_be_bytes(place),
        }),
    }
}

/// Writes the image of counts and rows (the bytes of all rows, in the image's order) over the front of a buffer; how many
/// bytes it has. Bytes behind it stay, and all of them if it is refused. `Table::written` is the same without bytes.
pub fn write_table(counts: &[u16; 9], rows: &[u8], buffer: &mut [u8]) -> Result<usize, NotWritten> {
    let counts = counts.map(u16::to_be_bytes).concat();
    let answer = slices::write_table(&counts, rows, buffer);
    match ((answer >> 32) as u8, answer & u64::from(u32::MAX)) {
        (0, length) => Ok(length as usize),
        (number, place) => Err(NotWritten { number, place }),
    }
}

/// A scope's clock: activation global, activation local, allowed, suspended local.
#[derive(Debug, Clone, Copy, PartialEq, Eq)]
pub struct ScopeClock {
    pub global: Tag,
    pub local: Tag,
    pub allowed: bool,
    pub suspended: Tag,
}

impl ScopeClock {
    /// A global tag on the local scale.
    pub fn global_to_local(&self, tag: Tag) -> Result<Tag, Refused> {
        let mut local = [0; slices::TAG_BYTES];
        self.map(true, tag, &mut local)?;
        Ok(Tag::from(local))
    }

    /// A local tag on the global scale, and whether it was held back.
    pub fn local_to_global(&self, tag: Tag) -> Result<Mapped, Refused> {
        let mut mapped = [0; slices::MAPPED_BYTES];
        self.map(false, tag, &mut mapped)?;
        let [front @ .., held] = mapped;
        Ok(Mapped {
            tag: Tag::from(front),
            held: held == 1,
        })
    }

    fn map(&self, to_local: bool, tag: Tag, answer: &mut [u8]) -> Result<(), Refused> {
        let [global, local, suspended] =
            [self.global, self.local, self.suspended].map(<[u8; slices::TAG_BYTES]>::from);
        let clock = [&global[..], &local, &[u8::from(self.allowed)], &suspended].concat();
        match slices::map(to_local, &clock, tag.offset, tag.microstep, answer) {
            0 => Ok(()),
            number => Err(Refused(number)),
        }
    }
}

/// A local tag on the global scale.
#[derive(Debug, Clone, Copy, PartialEq, Eq)]
pub struct Mapped {
    pub tag: Tag,
    /// Whether it was moved to the activation's next microstep: it would have come earlier than the activation, or just at it where that is
    /// not allowed (02, C-20).
    pub held: bool,
}

/// All lines of a day's answers, as the bench program writes them.
pub fn run_day(day: &[u8]) -> Vec<u8> {
    let mut lines = vec![0; 4 * LINE_ROOM];
    loop {
        let length = slices::run_day(day, &mut lines);
        // With room for a line left over no line is missing.
        if lines.len().saturating_sub(length) >= LINE_ROOM {
            lines.truncate(length);
            return lines;
        }
        lines.resize(2 * lines.len(), 0);
    }
}

/// The state after a day's records.
pub fn state_after(day: &[u8]) -> Result<State, ImageRefused> {
    let mut bytes = Box::new([0; state::STATE_BYTES]);
    match slices::state_after(day, &mut bytes[..]) {
        0 => Ok(State::of(&bytes)),
        number => Err(ImageRefused(number)),
    }
}
