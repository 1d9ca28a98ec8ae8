//! Maps that tell wrongly whether a tag was held back (02, C-20), in the library's place: each must be found among the first made cases.

use barnshiver::slices::{map, MAPPED_BYTES, TAG_BYTES};
use barnshiver::Tag;

use crate::maps::maps;
use crate::FILL;

/// So many cases.
const CASES: u64 = 3000;

/// What is made wrong.
enum Wrong {
    /// Whether a tag is told to be held back.
    Held(fn(&Given<'_>) -> bool),
    /// The bytes of an answer: to local or not, and the room.
    Bytes(fn(bool, &mut [u8])),
    /// Bytes that are enough for an answer to global, of which the front is told.
    Room(usize),
}

use Wrong::{Bytes, Held, Room};

impl Wrong {
    fn map(&self, to_local: bool, clock: &[u8], offset: u64, microstep: u32, to: &mut [u8]) -> u8 {
        if let (Room(least), false) = (self, to_local) {
            let mut answer = [FILL; MAPPED_BYTES];
            if to.len() >= *least {
                let number = map(to_local, clock, offset, microstep, &mut answer);
                to.iter_mut().zip(answer).for_each(|(at, byte)| *at = byte);
                return number;
            }
        }
        let number = map(to_local, clock, offset, microstep, to);
        match self {
            Held(held) if number == 0 && !to_local => {
                let given = Given {
                    clock,
                    tag: Tag::new(offset, microstep),
                    mapped: tag(to),
                    held: to[TAG_BYTES] == 1,
                };
                to[TAG_BYTES] = u8::from(held(&given));
            }
            Bytes(change) if number == 0 => change(to_local, to),
            _ => {}
        }
        number
    }
}

/// A map from local to global, and its right answer.
struct Given<'g> {
    clock: &'g [u8],
    tag: Tag,
    mapped: Tag,
    held: bool,
}

/// The tag that these bytes begin with.
fn tag(bytes: &[u8]) -> Tag {
    let mut front = [0; TAG_BYTES];
    front.copy_from_slice(&bytes[..TAG_BYTES]);
    Tag::from(front)
}

impl Given<'_> {
    fn global(&self) -> Tag {
        tag(self.clock)
    }

    fn local(&self) -> Tag {
        tag(&self.clock[TAG_BYTES..])
    }

    fn is_allowed(&self) -> bool {
        self.clock[2 * TAG_BYTES] == 1
    }

    /// Whether the answer is G's next microstep, held back or by itself.
    fn is_next(&self) -> bool {
        let (global, next) = (self.global(), self.mapped);
        next.offset == global.offset && Some(next.microstep) == global.microstep.checked_add(1)
    }
}

const WRONG: [(&str, Wrong); 11] = [
    ("never held", Held(|_| false)),
    ("always held", Held(|_| true)),
    ("held turned", Held(|given| !given.held)),
    (
        "held at G's next microstep, also by itself",
        Held(|given| given.is_next()),
    ),
    (
        "held only from before G",
        Held(|given| given.held && given.tag != given.local()),
    ),
    (
        "held only from G",
        Held(|given| given.held && given.tag == given.local()),
    ),
    (
        "held where G = L and it is allowed",
        Held(|given| {
            let free = given.global() == given.local() && given.is_allowed();
            given.held || (free && given.tag <= given.local())
        }),
    ),
    (
        "held not told",
        Bytes(|to_local, to| {
            if !to_local {
                to[TAG_BYTES] = FILL;
            }
        }),
    ),
    (
        "held as 255",
        Bytes(|to_local, to| {
            if !to_local && to[TAG_BYTES] == 1 {
                to[TAG_BYTES] = 255;
            }
        }),
    ),
    (
        "a byte more behind a local tag too",
        Bytes(|to_local, to| {
            if to_local {
                to.iter_mut()
                    .skip(TAG_BYTES)
                    .take(1)
                    .for_each(|byte| *byte = 0);
            }
        }),
    ),
    ("12 bytes enough without held", Room(TAG_BYTES)),
];

/// Where each was found.
pub fn found() -> Result<String, String> {
    maps(&map, 1, CASES)?;
    let mut lines = String::new();
    for (what, wrong) in &WRONG {
        let map = |to_local: bool, clock: &[u8], offset, microstep, to: &mut [u8]| {
            wrong.map(to_local, clock, offset, microstep, to)
        };
        match maps(&map, 1, CASES) {
            Err(words) => {
                let case = words.split(": ").next().unwrap_or("");
                lines += &format!("\n  {what}: {case}");
            }
            Ok(_) => return Err(format!("a wrong map is not found: {what}")),
        }
    }
    Ok(format!("{} wrong maps found:{lines}", WRONG.len()))
}
