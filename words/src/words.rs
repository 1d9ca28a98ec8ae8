//! The facts of a day in words: the table, then one line a record. A part is document 01's reactor, a step its microstep; all other words are 01's.

use crate::facts::{Place, Record, Scope, State, Table, Tag, Time, Times, NONE};
use std::fmt::Write;

/// The largest offset, 2^62 - 1 nanoseconds.
const LAST: u64 = 4_611_686_018_427_387_903;
/// How many queues are named where there are many.
const NAMED: usize = 3;
const KINDS: [&str; 9] = [
    "scope", "part", "mode", "reaction", "action", "trigger", "startup", "reset", "timer",
];

impl Table {
    /// "only action 0", "actions 0 to 3".
    fn keys(&self, k: u64) -> String {
        match self.total(k as usize) {
            0 => format!("no {}", kind(k)),
            1 => format!("only {} 0", kind(k)),
            total => format!("{}s 0 to {}", kind(k), total - 1),
        }
    }
}

/// A kind of row by its number.
fn kind(k: u64) -> &'static str {
    KINDS.get(k as usize).copied().unwrap_or("row")
}

fn plural(n: u64, word: &str) -> String {
    if n == 1 {
        format!("1 {word}")
    } else {
        format!("{n} {word}s")
    }
}

fn key(k: u64) -> String {
    if k == NONE {
        "none".to_string()
    } else {
        k.to_string()
    }
}

/// The head of every telling.
const HEAD: &str = "  a part is document 01's reactor, a step (behind a plus) its microstep";

/// What a line's words are made with: the table, what stands before the record, and the times that it or what stands has.
struct Telling<'a> {
    table: &'a Table,
    modes: &'a [u64],
    scopes: &'a [Scope],
    held: [u64; 4],
    told: &'a Times,
    kept: &'a Times,
}

/// A day's words: its table, and what stands now.
pub struct Teller<'a> {
    table: &'a Table,
    pub state: State,
}

/// "1h 00m", "0h 30m 05s", "7ns": as short as it can be without loss; long ones in days too.
fn duration(t: Time) -> String {
    let mut words = String::new();
    let small = t.hours == 0 && t.minutes == 0 && (t.seconds != 0 || t.nanoseconds != 0);
    if !small {
        let _ = write!(words, "{}h {:02}m", t.hours, t.minutes);
    }
    if t.seconds != 0 {
        let _ = if small {
            write!(words, "{}s", t.seconds)
        } else {
            write!(words, " {:02}s", t.seconds)
        };
    }
    if t.nanoseconds != 0 {
        let gap = if words.is_empty() { "" } else { " " };
        let _ = write!(words, "{gap}{}ns", t.nanoseconds);
    }
    if t.days > 1 {
        let _ = write!(words, " ({} days)", t.days);
    }
    words
}

impl<'a> Teller<'a> {
    pub fn new(table: &'a Table) -> Self {
        Teller {
            table,
            state: State::of(table),
        }
    }

    fn telling<'b>(&'b self, told: &'b Times) -> Telling<'b> {
        Telling {
            table: self.table,
            modes: &self.state.modes,
            scopes: &self.state.scopes,
            held: self.state.held,
            told,
            kept: &self.state.times,
        }
    }

    /// The table's line, the head of the telling, and what a reader of the records wants to know of the table.
    pub fn table_words(&self) -> Vec<String> {
        self.telling(&self.table.times).table_words()
    }

    /// Where the check of an accepted table has something to look at: the timer's number and the words.
    pub fn warnings(&self) -> Vec<(u64, String)> {
        let telling = self.telling(&self.table.times);
        let timers = self.table.rows.iter().filter(|row| row.0 == 8);
        timers
            .filter_map(|(_, i, fields)| Some((*i, telling.warning(*i, fields[1])?)))
            .collect()
    }

    /// One line for the n-th record.
    pub fn record_words(&self, n: usize, record: &Record) -> String {
        let telling = self.telling(&record.times);
        let words = match record.cut {
            Some((said, there)) => cut_words(record, said, there),
            None => format!(
                "{}: {}",
                telling.call_words(record),
                telling.answer_words(record)
            ),
        };
        format!("{n}. {words}")
    }

    pub fn time(&self, told: &Times, tag: Tag) -> String {
        self.telling(told).time(tag)
    }
}

/// Whether the four bytes of a length are letters, signs, blanks or a byte order mark, as a text begins.
fn is_text(length: u64) -> bool {
    let bytes = (length as u32).to_be_bytes();
    let bytes = bytes.strip_prefix(b"\xef\xbb\xbf").unwrap_or(&bytes);
    bytes
        .iter()
        .all(|byte| matches!(byte, b' '..=b'~' | b'\t' | b'\r' | b'\n'))
}

impl Telling<'_> {
    fn split(&self, offset: u64) -> Option<Time> {
        self.told.get(offset).or_else(|| self.kept.get(offset))
    }

    /// A moment, and behind a plus its step if it has one.
    fn time(&self, tag: Tag) -> String {
        let mut words = match self.split(tag.offset) {
            Some(time) => duration(time),
            None => format!("{}ns", tag.offset),
        };
        if tag.microstep != 0 {
            let _ = write!(words, " +{}", tag.microstep);
        }
        words
    }

    /// The same, and whether the limits are kept.
    fn given(&self, tag: Tag) -> String {
        let words = self.time(tag);
        if tag.offset > LAST {
            format!("{words}, beyond the limits")
        } else {
            words
        }
    }

    fn queue(&self, queue: u64) -> String {
        if queue == NONE {
            "the root".to_string()
        } else {
            format!("scope {queue}")
        }
    }

    // ---- the table

    fn table_words(&self) -> Vec<String> {
        let table = self.table;
        if !table.accepted() {
            return vec![self.refused_table(), HEAD.to_string()];
        }
        let counts: Vec<String> = table
            .counts
            .iter()
            .enumerate()
            .map(|(k, count)| plural(count.total, kind(k as u64)))
            .collect();
        let mut lines = vec![format!("table ok: {}", counts.join(", ")), HEAD.to_string()];
        lines.extend((0..table.total(1)).map(|part| self.part_words(part)));
        for (k, i, fields) in &table.rows {
            if *k == 8 {
                lines.push(self.timer_words(*i, *fields));
                lines.extend(
                    self.warning(*i, fields[1])
                        .map(|words| format!("  {words}")),
                );
            }
        }
        lines
    }

    fn part_words(&self, part: u64) -> String {
        let modes: Vec<String> = self
            .table
            .rows
            .iter()
            .filter(|(k, _, fields)| *k == 2 && fields[1] == part)
            .map(|(_, i, fields)| format!("mode {i} (scope {})", fields[0]))
            .collect();
        let begins = match self.table.row(1, part)[1] {
            NONE => "begins in no mode".to_string(),
            mode => format!("begins in mode {mode}"),
        };
        let has = if modes.is_empty() {
            "has no modes".to_string()
        } else {
            format!("has {}", modes.join(", "))
        };
        format!("  part {part} {has}; {begins}")
    }

    fn timer_words(&self, i: u64, [action, offset, microstep]: [u64; 3]) -> String {
        let scope = self.table.row(4, action)[0];
        let time = self.time(Tag { offset, microstep });
        format!("  timer {i} pushes action {action} of scope {scope} {time} after a reset")
    }

    /// The one rule for a timer that looks wrong: it is longer than a day. Where its eight bytes read the other way round are a rounder time, that is said too.
    fn warning(&self, i: u64, offset: u64) -> Option<String> {
        let time = self.split(offset)?;
        if time.hours < 24 {
            return None;
        }
        let turned = self.table.turned.get(i as usize).copied().unwrap_or(0);
        let rounder = match self.split(turned) {
            Some(other)
                if turned != 0 && turned <= LAST && other.roundness() > time.roundness() =>
            {
                format!("; read lowest byte first it would be {}", duration(other))
            }
            _ => String::new(),
        };
        Some(format!("look: timer {i} is longer than a day{rounder}"))
    }

    fn refused_table(&self) -> String {
        let table = self.table;
        let (said, there) = table.image;
        let why = match table.refusal {
            (1, _) if there == 0 && said == 0 => "the file is empty".to_string(),
            (1, _) if there < 4 && said == 0 => format!("the file has {}, and a table begins with a length of 4", plural(there, "byte")),
            (1, _) if is_text(said) => "this is a text, and no table image or gate day: of a sheet ./table make makes an image".to_string(),
            (1, _) if said > 3283 => format!("this does not look like a gate day: by its first four bytes {said} bytes of table follow, and the largest table has 3283 behind its length"),
            (1, _) if said == 0 => "the table's length says that nothing follows it".to_string(),
            (1, _) => format!("the table is cut short: its length says that {said} bytes follow, and {there} are there"),
            (2, version) => format!("the table is of version {version}; this program knows version 1"),
            (3, _) => format!("the table has {there} bytes; its length, version and nine counts take 23"),
            (4, place) => self.refused_count(place),
            (5, end) => format!("by the counts the rows end behind byte {end} of the file, and the table has {there} bytes"),
            (6, _) => self.refused_row(),
            _ => "the table is refused".to_string(),
        };
        format!("{}: {why}", self.numbered(&table.answer))
    }

    /// "table refused 4 at byte 35".
    fn numbered(&self, answer: &str) -> String {
        let mut words: Vec<&str> = answer.split(' ').collect();
        let place = words.pop().unwrap_or("0");
        format!("{} at byte {place}", words.join(" "))
    }

    fn refused_count(&self, place: u64) -> String {
        let counts = &self.table.counts;
        let Some((k, count)) = counts
            .iter()
            .enumerate()
            .find(|(_, count)| count.place == place)
        else {
            return "a count is past its limits".to_string();
        };
        let name = kind(k as u64);
        if count.total < count.least {
            format!("the table has no {name}; it needs at least {}", count.least)
        } else {
            format!(
                "the table says that it has {} {name} rows; {} are the most",
                count.total, count.most
            )
        }
    }

    fn refused_row(&self) -> String {
        let table = self.table;
        let [k, i, rule, offset, names] = table.fault;
        let fields = table.row(k, i);
        let (first, second, third) = (fields[0], fields[1], fields[2]);
        let why = match rule {
            1 => {
                let value = match offset {
                    0 => first,
                    2 => second,
                    _ => third,
                };
                format!("every key must exist: it names {} {value}, and the table has {}", kind(names), table.keys(names))
            }
            2 => format!("a parent is lower than its scope: scope {i} names the parent {first}"),
            3 => format!("every key must exist: it names mode {third}, and the table has {}", table.keys(2)),
            4 => format!("a scope with a mode has a parent: scope {i} names mode {third} and no parent"),
            5 => format!("a mode and its scope agree on each other: scope {i} names mode {third}, and that mode's row names another scope"),
            6 => format!("a mode and its scope agree on the part: scope {i} is of part {second}, and mode {third}, which it names, is of another"),
            7 => format!("a scope with a mode lies strictly under the part's root scope: scope {i} does not lie under that of part {second}"),
            8 => format!("every key must exist: the initial mode is {second}, and the table has {}", table.keys(2)),
            9 => format!("an initial mode is of that part: mode {second} is of another than part {i}"),
            10 => format!("a mode and its scope agree on each other: mode {i} names scope {first}, and that scope's row does not name it back"),
            11 => format!("a level is at most 15: this is {first}"),
            12 => format!("logical is 0 or 1: this is {second}"),
            13 => format!("a timer's tag is within the limits: this is {}; the last moment is 4611686018427387903 ns", self.time(Tag { offset: second, microstep: third })),
            _ => "a rule of its kind is broken".to_string(),
        };
        let bytes: Vec<String> = table
            .bytes
            .iter()
            .map(|byte| format!("{byte:02x}"))
            .collect();
        format!(
            "{} row {i}: {why}; its bytes are {}",
            kind(k),
            bytes.join(" ")
        )
    }

    // ---- the records

    fn call_words(&self, record: &Record) -> String {
        let [op, first, second, flag, ..] = record.call;
        let at = self.given(record.tag());
        let terminal = if flag == 1 { ", terminal" } else { "" };
        match op {
            1 => format!("plain push at {at}{terminal}, {}", reactions(&record.keys)),
            2 => format!("network push at {at}, {}", reactions(&record.keys)),
            3 => format!("control push at {at}"),
            4 => format!(
                "push of action {first} at {at}{terminal}, {}",
                reactions(&record.keys)
            ),
            5 => format!(
                "part {first} to mode {second} by {} at {at}",
                if flag == 1 { "reset" } else { "history" }
            ),
            6 => "pop".to_string(),
            _ => format!("a record that is not well formed, at byte {}", record.place),
        }
    }

    fn answer_words(&self, record: &Record) -> String {
        let answer: Vec<&str> = record.answer.split(' ').collect();
        match (answer.first().copied().unwrap_or(""), record.call[0]) {
            ("refused", _) => {
                let number = answer.get(1).copied().unwrap_or("");
                format!(
                    "refused {number}: {}; nothing has changed",
                    self.why(number, record)
                )
            }
            ("ready", _) => self.ready_words(record, &answer),
            ("nothing", _) => self.nothing_words(record),
            ("ok", 5) => format!("ok; {}", self.turn_words(record)),
            ("ok", 4) => format!("ok; {}", self.action_words(record)),
            ("ok", _) => format!("ok; waits in the root queue; {}", self.waiting(record)),
            _ => record.answer.clone(),
        }
    }

    fn waiting(&self, record: &Record) -> String {
        let [events, work, ..] = record.held;
        format!("events waiting: {events}, ordinary work: {work}")
    }

    /// Where a pushed action waits, and why there.
    fn action_words(&self, record: &Record) -> String {
        let Some(place) = record.into else {
            return self.waiting(record);
        };
        let table = self.table;
        let [scope, logical, _] = table.row(4, record.call[1]);
        let waiting = self.waiting(record);
        if place.queue == NONE {
            let why = if logical != 1 {
                "the action is physical".to_string()
            } else if table.row(0, scope)[0] == NONE {
                format!("its scope {scope} has no parent")
            } else {
                "the table has no modes".to_string()
            };
            return format!("waits in the root queue, for {why}; {waiting}");
        }
        let due = if place.active {
            format!("due {}", self.image_words(place))
        } else {
            format!("asleep, for scope {} is not active", place.queue)
        };
        format!(
            "waits in scope {} at local {}, {due}; {}; {waiting}",
            place.queue,
            self.time(place.tag),
            self.modes_words()
        )
    }

    /// "at ..", or "held back to .., for ..".
    fn image_words(&self, place: Place) -> String {
        let Some(image) = place.image else {
            return "at no tag within the limits".to_string();
        };
        if !place.held {
            return format!("at {}", self.time(image));
        }
        let entry = self
            .scopes
            .get(place.queue as usize)
            .map_or(Tag::default(), |scope| scope.activation);
        format!(
            "at {}, held back: its own moment is not later than the scope's activation, {}",
            self.time(image),
            self.time(entry)
        )
    }

    fn modes_words(&self) -> String {
        let modes: Vec<String> = self
            .modes
            .iter()
            .enumerate()
            .filter(|(part, mode)| **mode != NONE || self.table.row(1, *part as u64)[1] != NONE)
            .map(|(part, mode)| match *mode {
                NONE => format!("part {part} is in no mode"),
                mode => format!("part {part} is in mode {mode}"),
            })
            .collect();
        if modes.is_empty() {
            "no modes".to_string()
        } else {
            modes.join(", ")
        }
    }

    fn ready_words(&self, record: &Record, answer: &[&str]) -> String {
        let after = |name: &str| record.said(name).unwrap_or("-");
        let tag = Tag {
            offset: answer.get(1).and_then(|n| n.parse().ok()).unwrap_or(0),
            microstep: answer.get(2).and_then(|n| n.parse().ok()).unwrap_or(0),
        };
        let sources: Vec<String> = record
            .takes
            .iter()
            .map(|place| self.source_words(*place))
            .collect();
        let mut words = format!(
            "ready at {}: from {}",
            self.time(tag),
            sources.join("; then from ")
        );
        let _ = write!(
            words,
            "; reactions {}; actions {}",
            after("reactions"),
            after("actions")
        );
        for (name, yes) in [
            ("terminal", "terminal"),
            ("work", "ordinary work"),
            ("network", "network"),
            ("held", "held back"),
        ] {
            if after(name) == "1" {
                let _ = write!(words, "; {yes}");
            }
        }
        let taken = |place: &&Place| {
            !record
                .takes
                .iter()
                .any(|take| (take.queue, take.tag) == (place.queue, place.tag))
        };
        let later: Vec<String> = record
            .queues
            .iter()
            .filter(taken)
            .map(|place| self.waits_words(*place))
            .collect();
        if !later.is_empty() {
            let _ = write!(words, "; not yet: {}", few(&later));
        }
        let _ = write!(words, "; {}", self.modes_words());
        words
    }

    fn source_words(&self, place: Place) -> String {
        if place.queue == NONE {
            return "the root queue, at its own tag".to_string();
        }
        let held = if place.held {
            self.image_words(place)
                .split_once(", ")
                .map_or(String::new(), |(_, held)| format!(", {held}"))
        } else {
            ", not held back".to_string()
        };
        format!(
            "scope {} at local {}{held}",
            place.queue,
            self.time(place.tag)
        )
    }

    /// A queue's head that stays.
    fn waits_words(&self, place: Place) -> String {
        if place.queue == NONE {
            return format!("the root's next is at {}", self.time(place.tag));
        }
        if place.active {
            return format!(
                "{}'s next is {}",
                self.queue(place.queue),
                self.image_words(place)
            );
        }
        format!(
            "{}'s next, local {}, is asleep",
            self.queue(place.queue),
            self.time(place.tag)
        )
    }

    fn nothing_words(&self, record: &Record) -> String {
        if record.queues.is_empty() {
            return format!("nothing, for no event waits; {}", self.modes_words());
        }
        let asleep: Vec<String> = record
            .queues
            .iter()
            .map(|place| self.waits_words(*place))
            .collect();
        format!(
            "nothing, for all events are asleep in scopes that are not active: {}; {}",
            few(&asleep),
            self.modes_words()
        )
    }

    /// What a transition changed.
    fn turn_words(&self, record: &Record) -> String {
        let mut words = Vec::new();
        for (part, (old, new)) in self.modes.iter().zip(&record.modes).enumerate() {
            if old != new {
                words.push(format!(
                    "part {part} leaves mode {} for mode {}",
                    key(*old),
                    key(*new)
                ));
            }
        }
        if record.call[3] == 1 {
            words.push(self.reset_words(record.call[2]));
        }
        for (i, (old, new)) in self.scopes.iter().zip(&record.scopes).enumerate() {
            if let Some(change) = self.scope_words(old, new) {
                words.push(format!("scope {i} {change}"));
            }
        }
        if words.is_empty() {
            words.push("no mode and no clock changes".to_string());
        }
        let active: Vec<String> = record
            .scopes
            .iter()
            .enumerate()
            .filter(|(_, scope)| scope.active)
            .map(|(i, _)| i.to_string())
            .collect();
        words.push(format!(
            "active scopes: {}",
            if active.is_empty() {
                "none".to_string()
            } else {
                active.join(", ")
            }
        ));
        let later = Telling {
            modes: &record.modes,
            scopes: &record.scopes,
            ..*self
        };
        let next: Vec<String> = record
            .queues_after
            .iter()
            .map(|place| later.waits_words(*place))
            .collect();
        if !next.is_empty() {
            words.push(few(&next));
        }
        words.push(format!("{}, {} before", self.waiting(record), self.held[0]));
        words.join("; ")
    }

    /// What a reset drops and starts.
    fn reset_words(&self, mode: u64) -> String {
        let scope = self.table.row(2, mode)[0];
        let mut words = format!("what waited in scope {scope} or inside it is dropped");
        for (i, _) in self.table.started(mode) {
            let _ = write!(words, ", timer {i} starts");
        }
        words
    }

    fn scope_words(&self, old: &Scope, new: &Scope) -> Option<String> {
        match (old.active, new.active) {
            (true, false) if new.suspended == Tag::default() => {
                Some("stops at local zero".to_string())
            }
            (true, false) => Some(format!("stops at local {}", self.time(new.suspended))),
            (false, true) if new.activation_local == Tag::default() => {
                Some("starts at local zero".to_string())
            }
            (false, true) => Some(format!(
                "goes on from local {}",
                self.time(new.activation_local)
            )),
            (true, true) if old != new => Some("starts again at local zero".to_string()),
            _ => None,
        }
    }

    // ---- refusals

    fn why(&self, number: &str, record: &Record) -> String {
        let table = self.table;
        let [op, first, second, ..] = record.call;
        // a scope that sleeps is not stopped, and one that the reset has put to zero is not asked where it stands: neither need map
        let stops = |i: u64| {
            let active = self.scopes.get(i as usize).is_some_and(|s| s.active);
            op == 4 || (active && !table.resets(record, i))
        };
        let unmapped: Vec<String> = record
            .locals
            .iter()
            .filter(|local| local.tag.is_none() && stops(local.scope))
            .map(|local| format!("scope {}", local.scope))
            .collect();
        match number {
            "1" => malformed(record),
            "5" => {
                let [k, i] = record.lacks;
                format!("the table lacks {} {i}; it has {}", kind(k), table.keys(k))
            }
            "6" => format!("the tag given lies beyond the limits: {} ns, and the last is {LAST} ns", record.call[4]),
            "7" if op == 4 && !unmapped.is_empty() => format!("on the clock of {} that moment lies before zero or beyond the limits", unmapped.join(", ")),
            "7" if op == 4 => "the event's moment on the global scale lies beyond the limits".to_string(),
            "7" if !unmapped.is_empty() => format!("on the clock of {} that moment lies before zero or beyond the limits", few(&unmapped)),
            "7" => "a moment in the transition lies beyond the limits: that of a waiting event or a timer, or one step behind the last".to_string(),
            "8" => format!("{} events wait, as many as may, and one more is needed", record.held[0]),
            "9" => format!("{} values and {} buckets are held, 256 of each may be, and one more is needed", record.held[2], record.held[3]),
            "10" => format!("mode {second} is of part {}, not of part {first}", key(table.row(2, second)[1])),
            "11" => "the state breaks a state rule".to_string(),
            _ => "for no reason that is known here".to_string(),
        }
    }
}

fn reactions(keys: &[u64]) -> String {
    if keys.is_empty() {
        return "no reactions".to_string();
    }
    let keys: Vec<String> = keys.iter().map(u64::to_string).collect();
    format!("reactions {}", keys.join(","))
}

/// The first few, and how many more there are.
fn few(words: &[String]) -> String {
    let named = words
        .iter()
        .take(NAMED)
        .cloned()
        .collect::<Vec<_>>()
        .join(", ");
    match words.len().saturating_sub(NAMED) {
        0 => named,
        more => format!("{named}, and {more} more"),
    }
}

fn malformed(record: &Record) -> String {
    match record {
        Record { bytes: 0..=5, .. } => "too short for a version and an op".to_string(),
        Record { version, .. } if *version != 1 => {
            format!("version {version}, and only version 1 is known")
        }
        Record { op, .. } if !(1..=6).contains(op) => format!("op {op}, and there are ops 1 to 6"),
        Record { op, bytes, .. } => {
            let what = match op {
                1 | 4 => "terminal is not 0 or 1, there are more than 128 reactions, or the reactions do not fill it",
                2 => "there are more than 128 reactions, or they do not fill it",
                5 => "kind is not 0 or 1, or the operands do not fill it",
                _ => "the operands do not fill it",
            };
            format!(
                "op {op} with {} bytes behind the length: {what}",
                bytes.saturating_sub(4)
            )
        }
    }
}

fn cut_words(record: &Record, said: u64, there: u64) -> String {
    let why = match (said, there) {
        (0, there) => format!("{} where a length of 4 is due", plural(there, "byte")),
        (said, 0) if said > 512 => format!("a length of {said}, and no record is longer than 512"),
        (said, there) => {
            format!("the length says {said} bytes, and the file ends after {there} of them")
        }
    };
    format!(
        "a record that cannot be read, at byte {}: refused 1: {why}; the run stops here, {} unread",
        record.place,
        plural(record.unread, "byte")
    )
}

#[cfg(test)]
mod tests {
    use super::*;
    use crate::facts::tests::{popped, DUE, MOVED, ROOT};

    const ROOT_WORDS: &str = "the root queue, at its own tag";
    const MOVED_WORDS: &str = "scope 1 at local 0h 00m, held back: its own moment is not later than the scope's activation, 0h 30m";
    const DUE_WORDS: &str = "scope 1 at local 0h 00m +1, not held back";

    /// The words of a pop, from its sources on.
    fn words(table: &Table, record: &Record) -> String {
        let words = Teller::new(table).record_words(1, record);
        let from = words.strip_prefix("1. pop: ready at 0h 30m +1: from ");
        from.expect("a ready event").to_string()
    }

    #[test]
    fn a_ready_event_says_whether_it_was_held_back() {
        let held = "; reactions 0:3; actions 3; ordinary work; held back; no modes";
        let due = "; reactions 0:3; actions 3; ordinary work; no modes";
        for (takes, flag, sources, rest) in [
            (&[MOVED][..], "1", MOVED_WORDS.to_string(), held),
            (&[DUE], "0", DUE_WORDS.to_string(), due),
            (&[ROOT], "0", ROOT_WORDS.to_string(), due),
            (
                &[ROOT, MOVED],
                "1",
                format!("{ROOT_WORDS}; then from {MOVED_WORDS}"),
                held,
            ),
            (
                &[ROOT, DUE],
                "0",
                format!("{ROOT_WORDS}; then from {DUE_WORDS}"),
                due,
            ),
        ] {
            let (table, record) = popped(takes, flag).unwrap();
            assert_eq!(words(&table, &record), sources + rest);
        }
    }

    #[test]
    fn the_ready_event_s_word_is_the_answer_s() {
        let (table, mut record) = popped(&[MOVED], "1").unwrap();
        record.answer = record.answer.replace("held 1", "held 0");
        assert!(!words(&table, &record).contains("; held back"));
    }
}
