//! The state after a day's records, taken apart from its bytes (barnshiver.h says what each is).

use crate::{ScopeClock, Tag};

/// Bytes of a state: numbers of eight, here called words.
pub const STATE_BYTES: usize = 8 * (BUCKETS_AT + MOST * BUCKET_WORDS);
/// The number that means "none".
const NONE: u64 = 65535;
/// Most reactors, scopes, and events, values or buckets.
const REACTORS: usize = 16;
const SCOPES: usize = 32;
const MOST: usize = 256;
/// Words of a row.
const SCOPE_WORDS: usize = 7;
const EVENT_WORDS: usize = 6;
const VALUE_WORDS: usize = 4;
const BUCKET_WORDS: usize = 3;
/// Where the rows begin.
const MODES_AT: usize = 8;
const SCOPES_AT: usize = MODES_AT + REACTORS;
const EVENTS_AT: usize = SCOPES_AT + SCOPES * SCOPE_WORDS;
const VALUES_AT: usize = EVENTS_AT + MOST * EVENT_WORDS;
const BUCKETS_AT: usize = VALUES_AT + MOST * VALUE_WORDS;

/// What a manager holds. Modes and scopes have a row for every key there can be; those that the table lacks mean nothing.
#[derive(Debug, Clone, PartialEq, Eq)]
pub struct State {
    /// The tag of what comes next.
    pub peek: Option<Tag>,
    /// Whether what comes next is control only.
    pub control_only: bool,
    /// Ordinary events that wait, those of suspended scopes included.
    pub work: u64,
    /// The current mode of each reactor.
    pub modes: Vec<Option<u16>>,
    pub scopes: Vec<Scope>,
    /// In order of acceptance.
    pub events: Vec<Event>,
    pub values: Vec<Value>,
    pub buckets: Vec<Bucket>,
}

/// A scope: its clock, active now, ever active.
#[derive(Debug, Clone, Copy, PartialEq, Eq)]
pub struct Scope {
    pub clock: ScopeClock,
    pub active: bool,
    pub ever: bool,
}

/// An event that waits.
#[derive(Debug, Clone, PartialEq, Eq)]
pub struct Event {
    /// The scope in whose queue it lies; none for the root's.
    pub queue: Option<u16>,
    /// Global in the root's queue, local in a scope's.
    pub tag: Tag,
    /// One bit for each reaction.
    pub reactions: u128,
    pub terminal: bool,
    pub control: bool,
    pub network: bool,
    /// The action and its stored tag.
    pub action: Option<(u16, Tag)>,
}

#[derive(Debug, Clone, Copy, PartialEq, Eq, PartialOrd, Ord)]
pub struct Value {
    pub action: u64,
    pub tag: Tag,
    pub value: u64,
}

#[derive(Debug, Clone, Copy, PartialEq, Eq, PartialOrd, Ord)]
pub struct Bucket {
    pub action: u64,
    pub offset: u64,
    pub next: u64,
}

/// A number of at most eight bytes, the highest first.
pub(crate) fn number(bytes: &[u8]) -> u64 {
    bytes
        .iter()
        .fold(0, |high, &byte| high << 8 | u64::from(byte))
}

fn key(word: u64) -> Option<u16> {
    (word != NONE).then_some(word as u16)
}

fn bit(word: u64, place: u32) -> bool {
    word >> place & 1 == 1
}

fn tag(words: &[u64]) -> Tag {
    Tag {
        offset: words[0],
        microstep: words[1] as u32,
    }
}

fn scope(row: &[u64]) -> Scope {
    Scope {
        clock: ScopeClock {
            global: tag(&row[1..]),
            local: tag(&row[3..]),
            allowed: bit(row[0], 0),
            suspended: tag(&row[5..]),
        },
        active: bit(row[0], 1),
        ever: bit(row[0], 2),
    }
}

fn event(row: &[u64]) -> Event {
    let stored = Tag {
        offset: row[3],
        microstep: (row[2] >> 32) as u32,
    };
    Event {
        queue: key(row[0] % 65536),
        tag: Tag {
            offset: row[1],
            microstep: row[2] as u32,
        },
        reactions: u128::from(row[4]) | u128::from(row[5]) << 64,
        terminal: bit(row[0], 32),
        control: bit(row[0], 33),
        network: bit(row[0], 34),
        action: key(row[0] / 65536 % 65536).map(|action| (action, stored)),
    }
}

impl State {
    /// Takes the bytes apart.
    pub fn of(bytes: &[u8; STATE_BYTES]) -> Self {
        let words: Vec<u64> = bytes.chunks(8).map(number).collect();
        // A count over the most there can be is no count; the rows end there.
        let rows = |at: usize, width: usize, count: u64| {
            words[at..]
                .chunks(width)
                .take(MOST.min(usize::try_from(count).unwrap_or(MOST)))
        };
        Self {
            peek: (words[0] == 1).then(|| tag(&words[1..])),
            control_only: words[3] == 1,
            work: words[4],
            modes: words[MODES_AT..SCOPES_AT]
                .iter()
                .map(|&mode| key(mode))
                .collect(),
            scopes: rows(SCOPES_AT, SCOPE_WORDS, SCOPES as u64)
                .map(scope)
                .collect(),
            events: rows(EVENTS_AT, EVENT_WORDS, words[5]).map(event).collect(),
            values: rows(VALUES_AT, VALUE_WORDS, words[6])
                .map(|row| Value {
                    action: row[0],
                    tag: tag(&row[1..]),
                    value: row[3],
                })
                .collect(),
            buckets: rows(BUCKETS_AT, BUCKET_WORDS, words[7])
                .map(|row| Bucket {
                    action: row[0],
                    offset: row[1],
                    next: row[2],
                })
                .collect(),
        }
    }
}
