//! `oracle deep` and `oracle deep-plain`: the whole state after every record, from the published Rust and from the
//! plain machine.
//!
//! One line for the fresh state, numbered 0, then one a record, refused ones included. Fields stand in this order,
//! each after its name, all parted by single spaces:
//!
//! ```text
//! N peek TAG control C work W active BITS ever BITS clocks CLOCKS heads HEADS values VALUES buckets BUCKETS
//! ```
//!
//! - N: number of the record, from 1. TAG: `OFFSET.MICROSTEP`, or `-` for none.
//! - C: 1 if what comes next is control only, else 0. W: ordinary events waiting.
//! - BITS: one 0 or 1 a scope, scope 0 first.
//! - CLOCKS: one a scope, joined by commas, each `G:L:ALLOWED:S` with tags as above and allowed 0 or 1. `?` in the place of S: a reset
//!   turned the scope inactive, and the Rust has S from c where zero is due by 02's C-14 (domain.rs). deep-plain never prints it.
//! - HEADS: least tag of each queue, joined by commas: the root's, then each scope's own local tag, active or not.
//! - VALUES: `ACTION:OFFSET.MICROSTEP:VALUE`, ascending by action then tag, joined by commas, `-` if there are none.
//!   `ACTION:?` in the place of an action's values: the Rust's padded store would have grown too large, so that
//!   from there to the action's next clearing its values are not kept. deep-plain never prints it.
//! - BUCKETS: `ACTION:OFFSET.NEXT`, likewise. These differ by design: the Rust drops a bucket that a take or a move
//!   empties, 01 keeps it. Compare them only against the same side.
//!
//! A refused table gives its `table refused` line alone. The Rust's lines end with `N left the domain: WHY` at a
//! record where 01's domain of comparison is left.

use std::io::{self, Write};

use crate::answers::{joined, lines};
use crate::domain::Why;
use crate::image::{self, RawTag, Table};
use crate::plain::{self, Plain};
use crate::records::{split, Op, Record};
use crate::sched::rust_side::{outside_domain, Call, RustSide};
use crate::Tag;

/// A tag of either side, wide enough for both.
#[derive(Debug, Clone, Copy, PartialEq, Eq, PartialOrd, Ord)]
struct WideTag {
    offset: i128,
    microstep: u64,
}

impl From<Tag> for WideTag {
    fn from(tag: Tag) -> Self {
        Self {
            offset: tag.offset().whole_nanoseconds(),
            microstep: tag.microstep() as u64,
        }
    }
}

impl From<RawTag> for WideTag {
    fn from(tag: RawTag) -> Self {
        Self {
            offset: i128::from(tag.offset),
            microstep: u64::from(tag.microstep),
        }
    }
}

impl std::fmt::Display for WideTag {
    fn fmt(&self, f: &mut std::fmt::Formatter<'_>) -> std::fmt::Result {
        write!(f, "{}.{}", self.offset, self.microstep)
    }
}

#[derive(Debug, Clone, PartialEq, Eq)]
struct Clock {
    global: WideTag,
    local: WideTag,
    allowed: bool,
    /// None where the Rust's is apart: ours must be zero there.
    suspended: Option<WideTag>,
}

impl Clock {
    fn same(&self, other: &Self) -> bool {
        let due = |clock: &Self| clock.suspended.unwrap_or(RawTag::ZERO.into());
        (self.global, self.local, self.allowed) == (other.global, other.local, other.allowed)
            && due(self) == due(other)
    }
}

impl std::fmt::Display for Clock {
    fn fmt(&self, f: &mut std::fmt::Formatter<'_>) -> std::fmt::Result {
        let allowed = u8::from(self.allowed);
        write!(f, "{}:{}:{allowed}:", self.global, self.local)?;
        match self.suspended {
            Some(tag) => write!(f, "{tag}"),
            None => f.write_str("?"),
        }
    }
}

/// The values of one action: kept, or given up.
#[derive(Debug, Clone, PartialEq, Eq)]
enum Held {
    Values(Vec<(WideTag, u64)>),
    GivenUp,
}

/// A state, as far as it can be compared.
#[derive(Debug, Clone)]
pub struct Snapshot {
    peek: Option<WideTag>,
    control_only: bool,
    work: usize,
    active: Vec<bool>,
    ever: Vec<bool>,
    clocks: Vec<Clock>,
    heads: Vec<Option<WideTag>>,
    held: Vec<Held>,
    /// (action, offset, next microstep)
    buckets: Vec<(usize, i128, u64)>,
}

impl Snapshot {
    pub fn of_rust(rust: &mut RustSide, table: &Table) -> Self {
        let peek = rust.peek().map(WideTag::from);
        let control_only = rust.control_only();
        let mut snapshot = Self {
            peek,
            control_only,
            work: rust.work(),
            active: Vec::new(),
            ever: Vec::new(),
            clocks: Vec::new(),
            heads: vec![rust.root_head().map(WideTag::from)],
            held: Vec::new(),
            buckets: Vec::new(),
        };
        for (number, scope) in rust.scopes().enumerate() {
            snapshot.active.push(scope.active);
            snapshot.ever.push(scope.ever);
            snapshot.clocks.push(Clock {
                global: scope.clock.global.into(),
                local: scope.clock.local.into(),
                allowed: scope.clock.allowed,
                suspended: (!rust.is_apart(number)).then(|| scope.clock.suspended.into()),
            });
            snapshot.heads.push(scope.head.map(WideTag::from));
        }
        for action in 0..table.actions.len() {
            if rust.stores().given_up(action) {
                snapshot.held.push(Held::GivenUp);
                continue;
            }
            let store = rust.stores().store(action);
            let values = store
                .held()
                .into_iter()
                .map(|(tag, value)| (tag.into(), value))
                .collect();
            snapshot.held.push(Held::Values(values));
            for (offset, next) in store.buckets() {
                snapshot
                    .buckets
                    .push((action, offset.whole_nanoseconds(), next as u64));
            }
        }
        snapshot
    }

    pub fn of_plain(plain: &Plain<'_>, table: &Table) -> Self {
        let state = &plain.state;
        let mut held = vec![Vec::new(); table.actions.len()];
        for value in &state.store.values {
            held[value.action].push((WideTag::from(value.tag), value.value));
        }
        let mut buckets: Vec<_> = state
            .store
            .buckets
            .iter()
            .map(|bucket| {
                (
                    bucket.action,
                    i128::from(bucket.offset),
                    u64::from(bucket.next),
                )
            })
            .collect();
        buckets.sort_unstable();
        let scopes = 0..table.scopes.len();
        Self {
            peek: plain.peek().map(WideTag::from),
            control_only: plain.control_only(),
            work: state.work,
            active: state.active.clone(),
            ever: state.ever.clone(),
            clocks: state
                .clocks
                .iter()
                .map(|clock| Clock {
                    global: clock.global.into(),
                    local: clock.local.into(),
                    allowed: clock.allowed,
                    suspended: Some(clock.suspended.into()),
                })
                .collect(),
            heads: std::iter::once(None)
                .chain(scopes.map(Some))
                .map(|queue| plain.queue_head(queue).map(WideTag::from))
                .collect(),
            held: held
                .into_iter()
                .map(|mut values| {
                    values.sort_unstable();
                    Held::Values(values)
                })
                .collect(),
            buckets,
        }
    }

    /// Name of the first field in which two states differ; buckets and values given up aside. Where the Rust's S is apart, zero is due.
    fn first_difference(&self, other: &Self) -> Option<&'static str> {
        let same_held = |(one, two): (&Held, &Held)| {
            *one == Held::GivenUp || *two == Held::GivenUp || one == two
        };
        let same_clocks = self.clocks.len() == other.clocks.len()
            && (self.clocks.iter().zip(&other.clocks)).all(|(one, two)| one.same(two));
        let fields = [
            ("peek", self.peek == other.peek),
            ("control", self.control_only == other.control_only),
            ("work", self.work == other.work),
            ("active", self.active == other.active),
            ("ever", self.ever == other.ever),
            ("clocks", same_clocks),
            ("heads", self.heads == other.heads),
            (
                "values",
                self.held.len() == other.held.len()
                    && self.held.iter().zip(&other.held).all(same_held),
            ),
        ];
        fields.iter().find(|(_, same)| !same).map(|&(name, _)| name)
    }

    fn line(&self, at: usize) -> String {
        let tag = |tag: &Option<WideTag>| tag.map_or("-".to_string(), |tag| tag.to_string());
        let bits = |flags: &[bool]| -> String {
            flags
                .iter()
                .map(|&flag| if flag { '1' } else { '0' })
                .collect()
        };
        let heads: Vec<String> = self.heads.iter().map(tag).collect();
        let mut values = Vec::new();
        for (action, held) in self.held.iter().enumerate() {
            match held {
                Held::GivenUp => values.push(format!("{action}:?")),
                Held::Values(held) => values.extend(
                    held.iter()
                        .map(|(tag, value)| format!("{action}:{tag}:{value}")),
                ),
            }
        }
        let buckets: Vec<String> = self
            .buckets
            .iter()
            .map(|(action, offset, next)| format!("{action}:{offset}.{next}"))
            .collect();
        format!(
            "{at} peek {} control {} work {} active {} ever {} clocks {} heads {} values {} buckets {}",
            tag(&self.peek),
            u8::from(self.control_only),
            self.work,
            bits(&self.active),
            bits(&self.ever),
            joined(&self.clocks),
            joined(&heads),
            joined(&values),
            joined(&buckets)
        )
    }
}

/// Which records are to be applied: those answered "ok" and all pops, by the answers given or by the plain machine.
pub fn applied(
    table: &Table,
    records: &[Record<'_>],
    answers: Option<&[u8]>,
) -> Result<Vec<bool>, String> {
    match answers {
        Some(answers) => {
            let answers = lines(answers)?;
            Ok(records
                .iter()
                .enumerate()
                .map(|(index, record)| {
                    record.op.refused_by_bytes(table).is_none()
                        && (record.op == Op::Pop || answers.get(index + 1) == Some(&"ok"))
                })
                .collect())
        }
        None => {
            let mut plain = Plain::new(table);
            Ok(records
                .iter()
                .map(|record| !matches!(plain.step(&record.op), plain::Outcome::Refused(_)))
                .collect())
        }
    }
}

/// Applies one record to the Rust; the reason if that leaves 01's domain.
fn apply(rust: &mut RustSide, op: &Op) -> Option<Why> {
    if let Some(why) = outside_domain(op) {
        return Some(why);
    }
    apply_anyhow(rust, op);
    rust.left_domain()
}

/// Applies one record to the Rust, inside 01's domain or not.
fn apply_anyhow(rust: &mut RustSide, op: &Op) {
    match rust.call(op) {
        Some(Call::Pop) => {
            rust.pop();
        }
        Some(call) => rust.apply(&call),
        None => {}
    }
}

/// Prints the Rust's states of a day.
pub fn print_rust(day: &[u8], answers: Option<&[u8]>, out: &mut impl Write) -> io::Result<()> {
    let (table, records) = match image::open(day) {
        Ok(opened) => opened,
        Err(refused) => return writeln!(out, "{refused}"),
    };
    let records = split(records);
    let applied = applied(&table, &records, answers)
        .map_err(|words| io::Error::new(io::ErrorKind::InvalidData, words))?;
    let mut rust = RustSide::new(&table, true);
    writeln!(out, "{}", Snapshot::of_rust(&mut rust, &table).line(0))?;
    for (index, record) in records.iter().enumerate() {
        if applied[index] {
            if let Some(why) = apply(&mut rust, &record.op) {
                return writeln!(out, "{} left the domain: {why}", index + 1);
            }
        }
        let snapshot = Snapshot::of_rust(&mut rust, &table);
        writeln!(out, "{}", snapshot.line(index + 1))?;
    }
    Ok(())
}

/// Prints the plain machine's states of a day.
pub fn print_plain(day: &[u8], out: &mut impl Write) -> io::Result<()> {
    let (table, records) = match image::open(day) {
        Ok(opened) => opened,
        Err(refused) => return writeln!(out, "{refused}"),
    };
    let mut plain = Plain::new(&table);
    writeln!(out, "{}", Snapshot::of_plain(&plain, &table).line(0))?;
    for (index, record) in split(records).iter().enumerate() {
        plain.step(&record.op);
        let snapshot = Snapshot::of_plain(&plain, &table);
        writeln!(out, "{}", snapshot.line(index + 1))?;
    }
    Ok(())
}

/// Runs a day on both sides and compares the states after every record, to the end or to where the domain is left.
/// Also holds refusal 7 against the Rust: an accepted call leaves no tag beyond the limits there, and a call refused
/// with 7 would, unless it reads an S that is apart. The error says record and field.
pub fn agree(day: &[u8]) -> Result<(), String> {
    let Ok((table, records)) = image::open(day) else {
        return Ok(());
    };
    let mut plain = Plain::new(&table);
    let mut rust = RustSide::new(&table, true);
    same_state(0, &mut rust, &plain, &table)?;
    let mut accepted = Vec::new();
    for (index, record) in split(records).iter().enumerate() {
        let at = index + 1;
        match plain.step(&record.op) {
            plain::Outcome::Refused(plain::OVERRUN) => {
                let mut trial = RustSide::new(&table, true);
                for op in accepted.iter().chain([&record.op]) {
                    apply_anyhow(&mut trial, op);
                }
                let apart = matches!(trial.left_domain(), Some(Why::ResetScope(_)));
                if !apart && trial.beyond_limits().is_none() {
                    return Err(format!(
                        "record {at} was refused 7, but the Rust's tags stay within the limits"
                    ));
                }
            }
            plain::Outcome::Refused(_) => {}
            plain::Outcome::Ok | plain::Outcome::Popped(_) => {
                if apply(&mut rust, &record.op).is_some() {
                    return Ok(());
                }
                accepted.push(record.op.clone());
            }
        }
        same_state(at, &mut rust, &plain, &table)?;
    }
    Ok(())
}

/// Holds the states after so many records to each other.
fn same_state(
    at: usize,
    rust: &mut RustSide,
    plain: &Plain<'_>,
    table: &Table,
) -> Result<(), String> {
    if let Some(tag) = rust.beyond_limits() {
        return Err(format!(
            "record {at} was accepted, but the Rust now has the tag {tag}"
        ));
    }
    let rust = Snapshot::of_rust(rust, table);
    let plain = Snapshot::of_plain(plain, table);
    match plain.first_difference(&rust) {
        None => Ok(()),
        Some(field) => Err(format!(
            "after record {at} the states differ in {field}:\n  01   {}\n  Rust {}",
            plain.line(at),
            rust.line(at)
        )),
    }
}

#[cfg(test)]
mod tests {
    use super::*;

    #[test]
    fn where_the_rust_s_s_is_apart_zero_is_due() {
        let clock = |suspended: Option<u64>| Clock {
            global: RawTag::new(10, 0).into(),
            local: RawTag::ZERO.into(),
            allowed: false,
            suspended: suspended.map(|offset| RawTag::new(offset, 0).into()),
        };
        assert!(clock(Some(0)).same(&clock(None)));
        assert!(!clock(Some(20)).same(&clock(None)));
        assert!(!clock(Some(20)).same(&clock(Some(0))));
    }
}
