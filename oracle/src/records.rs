//! The records of a day: parse, and the text form of tools/daytext.

use std::fmt::{self, Display, Formatter, Write};

use crate::answers::joined;
use crate::image::{number, with_length, RawTag, Table, LONGEST, MOST_REACTIONS};

/// What a record asks for. Keys and tags are as the bytes give them.
#[derive(Debug, Clone, PartialEq, Eq)]
pub enum Op {
    Plain {
        tag: RawTag,
        terminal: bool,
        reactions: Vec<u16>,
    },
    Network {
        tag: RawTag,
        reactions: Vec<u16>,
    },
    Control {
        tag: RawTag,
    },
    Action {
        action: u16,
        tag: RawTag,
        terminal: bool,
        reactions: Vec<u16>,
    },
    Transition {
        reactor: u16,
        mode: u16,
        reset: bool,
        tag: RawTag,
    },
    Pop,
    /// "refused 1", and the run goes on.
    Malformed,
    /// "refused 1", and the run stops: a length over 512, past the end, or cut short.
    Broken,
}

/// A record with its bytes, the length included.
#[derive(Debug, Clone)]
pub struct Record<'a> {
    pub op: Op,
    pub bytes: &'a [u8],
}

/// The record that these bytes, of which there are some, begin with. One that stops the run has all of them.
pub fn first(bytes: &[u8]) -> Record<'_> {
    let length = match bytes.get(..4) {
        Some(field) => number(field) as usize,
        None => LONGEST + 1,
    };
    if length > LONGEST || bytes.len() < 4 + length {
        return Record {
            op: Op::Broken,
            bytes,
        };
    }
    let bytes = &bytes[..4 + length];
    Record {
        op: parse(&bytes[4..]).unwrap_or(Op::Malformed),
        bytes,
    }
}

/// All records up to the end or to the one that stops the run, that one included.
pub fn split(mut bytes: &[u8]) -> Vec<Record<'_>> {
    let mut records = Vec::new();
    while !bytes.is_empty() {
        let record = first(bytes);
        bytes = &bytes[record.bytes.len()..];
        records.push(record);
    }
    records
}

/// Reads operands one after another; `None` where they run out.
struct Operands<'a>(&'a [u8]);

impl<'a> Operands<'a> {
    fn take(&mut self, count: usize) -> Option<&'a [u8]> {
        if count > self.0.len() {
            return None;
        }
        let (taken, rest) = self.0.split_at(count);
        self.0 = rest;
        Some(taken)
    }

    fn byte(&mut self) -> Option<u8> {
        Some(self.take(1)?[0])
    }

    fn key(&mut self) -> Option<u16> {
        Some(number(self.take(2)?) as u16)
    }

    fn tag(&mut self) -> Option<RawTag> {
        Some(RawTag {
            offset: number(self.take(8)?),
            microstep: number(self.take(4)?) as u32,
        })
    }

    /// A byte that must be 0 or 1.
    fn flag(&mut self) -> Option<bool> {
        match self.byte()? {
            0 => Some(false),
            1 => Some(true),
            _ => None,
        }
    }

    fn reactions(&mut self) -> Option<Vec<u16>> {
        let count = usize::from(self.key()?);
        if count > MOST_REACTIONS {
            return None;
        }
        (0..count).map(|_| self.key()).collect()
    }
}

/// Parses what follows a record's length; `None` if it is malformed.
fn parse(body: &[u8]) -> Option<Op> {
    let mut operands = Operands(body);
    if operands.byte()? != 1 {
        return None;
    }
    let op = match operands.byte()? {
        1 => Op::Plain {
            tag: operands.tag()?,
            terminal: operands.flag()?,
            reactions: operands.reactions()?,
        },
        2 => Op::Network {
            tag: operands.tag()?,
            reactions: operands.reactions()?,
        },
        3 => Op::Control {
            tag: operands.tag()?,
        },
        4 => Op::Action {
            action: operands.key()?,
            tag: operands.tag()?,
            terminal: operands.flag()?,
            reactions: operands.reactions()?,
        },
        5 => Op::Transition {
            reactor: operands.key()?,
            mode: operands.key()?,
            reset: !operands.flag()?,
            tag: operands.tag()?,
        },
        6 => Op::Pop,
        _ => return None,
    };
    operands.0.is_empty().then_some(op)
}

impl Op {
    /// Version, op and operands, as they stand after a record's length; nothing for one that is malformed.
    pub fn body(&self) -> Vec<u8> {
        let keys = |reactions: &[u16]| {
            let count = reactions.len() as u16;
            let keys = [count].into_iter().chain(reactions.iter().copied());
            keys.flat_map(u16::to_be_bytes).collect::<Vec<u8>>()
        };
        let (op, operands) = match self {
            Op::Plain {
                tag,
                terminal,
                reactions,
            } => {
                let flag = vec![u8::from(*terminal)];
                (1, [tag.bytes(), flag, keys(reactions)].concat())
            }
            Op::Network { tag, reactions } => (2, [tag.bytes(), keys(reactions)].concat()),
            Op::Control { tag } => (3, tag.bytes()),
            Op::Action {
                action,
                tag,
                terminal,
                reactions,
            } => {
                let (key, flag) = (action.to_be_bytes().to_vec(), vec![u8::from(*terminal)]);
                (4, [key, tag.bytes(), flag, keys(reactions)].concat())
            }
            Op::Transition {
                reactor,
                mode,
                reset,
                tag,
            } => {
                let target = [reactor.to_be_bytes(), mode.to_be_bytes()].concat();
                let flag = vec![u8::from(!reset)];
                (5, [target, flag, tag.bytes()].concat())
            }
            Op::Pop => (6, Vec::new()),
            Op::Malformed | Op::Broken => return Vec::new(),
        };
        [&[1, op], &operands[..]].concat()
    }

    /// The record as it stands in a day.
    pub fn bytes(&self) -> Vec<u8> {
        with_length(&self.body())
    }

    /// Whether a record is one at all.
    pub fn is_formed(&self) -> bool {
        !matches!(self, Op::Malformed | Op::Broken)
    }

    /// The refusal that the bytes and the table alone decide: 1, 5, 10 or 6, in this order.
    pub fn refused_by_bytes(&self, table: &Table) -> Option<u8> {
        let no_reaction = |reactions: &[u16]| {
            reactions
                .iter()
                .any(|&key| usize::from(key) >= table.levels.len())
        };
        let (keys_missing, tag) = match self {
            Op::Malformed | Op::Broken => return Some(1),
            Op::Pop => return None,
            Op::Plain { tag, reactions, .. } | Op::Network { tag, reactions } => {
                (no_reaction(reactions), tag)
            }
            Op::Control { tag } => (false, tag),
            Op::Action {
                action,
                tag,
                reactions,
                ..
            } => (
                usize::from(*action) >= table.actions.len() || no_reaction(reactions),
                tag,
            ),
            Op::Transition {
                reactor, mode, tag, ..
            } => {
                let missing = usize::from(*reactor) >= table.reactors.len()
                    || usize::from(*mode) >= table.modes.len();
                if !missing && table.modes[usize::from(*mode)].reactor != usize::from(*reactor) {
                    return Some(10);
                }
                (missing, tag)
            }
        };
        if keys_missing {
            Some(5)
        } else if !tag.within_limits() {
            Some(6)
        } else {
            None
        }
    }
}

/// Bytes of a raw record that are worth showing.
const SHOWN: usize = 64;

impl Display for Record<'_> {
    fn fmt(&self, f: &mut Formatter<'_>) -> fmt::Result {
        if self.op.is_formed() {
            return self.op.fmt(f);
        }
        let mut hex = String::new();
        for byte in self.bytes.iter().take(SHOWN) {
            write!(hex, "{byte:02x}")?;
        }
        if self.bytes.len() > SHOWN {
            hex.push_str("..");
        }
        write!(f, "raw {hex}")
    }
}

impl Display for RawTag {
    fn fmt(&self, f: &mut Formatter<'_>) -> fmt::Result {
        write!(f, "{} {}", self.offset, self.microstep)
    }
}

/// The text of a record; "raw" for a malformed one, whose bytes follow.
impl Display for Op {
    fn fmt(&self, f: &mut Formatter<'_>) -> fmt::Result {
        match self {
            Op::Plain {
                tag,
                terminal,
                reactions,
            } => {
                let flag = u8::from(*terminal);
                write!(f, "plain {tag} {flag} {}", joined(reactions))
            }
            Op::Network { tag, reactions } => write!(f, "network {tag} {}", joined(reactions)),
            Op::Control { tag } => write!(f, "control {tag}"),
            Op::Action {
                action,
                tag,
                terminal,
                reactions,
            } => {
                let flag = u8::from(*terminal);
                write!(f, "act {action} {tag} {flag} {}", joined(reactions))
            }
            Op::Transition {
                reactor,
                mode,
                reset,
                tag,
            } => {
                let kind = if *reset { "reset" } else { "history" };
                write!(f, "transition {reactor} {mode} {kind} {tag}")
            }
            Op::Pop => f.write_str("pop"),
            Op::Malformed | Op::Broken => f.write_str("raw"),
        }
    }
}
