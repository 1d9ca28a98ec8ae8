//! The lines of answers: made from results, and taken apart again.

use std::fmt::Display;

use crate::image::RawTag;

/// What a pop gives.
#[derive(Debug, Clone, PartialEq, Eq)]
pub struct Ready {
    /// Offset and microstep; signed and wide, since the Rust may go beyond 01's limits where 01 refuses.
    pub offset: i128,
    pub microstep: u64,
    pub terminal: bool,
    pub work: bool,
    pub network: bool,
    /// Whether some event was held back (02, C-20).
    pub held: bool,
    /// (level, key), ascending
    pub reactions: Vec<(usize, usize)>,
    pub actions: Vec<usize>,
}

impl Ready {
    pub fn at(tag: RawTag) -> Self {
        Self {
            offset: i128::from(tag.offset),
            microstep: u64::from(tag.microstep),
            terminal: false,
            work: false,
            network: false,
            held: false,
            reactions: Vec::new(),
            actions: Vec::new(),
        }
    }

    /// The tag of one that is within 01's limits.
    pub fn tag(&self) -> RawTag {
        RawTag::new(self.offset as u64, self.microstep as u32)
    }
}

/// Joined by commas, "-" if empty.
pub fn joined<T: Display>(items: &[T]) -> String {
    if items.is_empty() {
        return "-".to_string();
    }
    let items: Vec<String> = items.iter().map(T::to_string).collect();
    items.join(",")
}

/// The line of a pop.
pub fn pop_line(ready: Option<&Ready>) -> String {
    let Some(ready) = ready else {
        return "nothing".to_string();
    };
    let reactions: Vec<String> = ready
        .reactions
        .iter()
        .map(|(level, key)| format!("{level}:{key}"))
        .collect();
    format!(
        "ready {} {} terminal {} work {} network {} held {} reactions {} actions {}",
        ready.offset,
        ready.microstep,
        u8::from(ready.terminal),
        u8::from(ready.work),
        u8::from(ready.network),
        u8::from(ready.held),
        joined(&reactions),
        joined(&ready.actions)
    )
}

/// A ready line of ours as the Rust's bench writes it, which has no "held"; any other line as it is.
pub fn without_held(line: &str) -> String {
    match line.split_once(" held ") {
        Some((front, rest)) => {
            let (_, behind) = rest.split_once(' ').unwrap_or((rest, ""));
            format!("{front} {behind}")
        }
        None => line.to_string(),
    }
}

/// The line of a call that answers "ok" or a number.
pub fn call_line(refusal: Option<u8>) -> String {
    match refusal {
        None => "ok".to_string(),
        Some(number) => format!("refused {number}"),
    }
}

/// Whether two pop lines say the same, actions compared as a set; a line that names an action twice says nothing
/// a right line says.
pub fn same_pop(expected: &str, got: &str) -> bool {
    match (split_actions(expected), split_actions(got)) {
        (Some((front, actions)), Some((got_front, got_actions))) => {
            front == got_front && actions == got_actions
        }
        _ => expected == got,
    }
}

/// A ready line up to its actions, and its action keys sorted; `None` if it has not that form.
fn split_actions(line: &str) -> Option<(&str, Vec<u64>)> {
    let at = line.rfind(" actions ")?;
    let (front, list) = (&line[..at], &line[at + " actions ".len()..]);
    let mut keys = Vec::new();
    if list != "-" {
        for word in list.split(',') {
            let key: u64 = word.parse().ok()?;
            // No sign, no leading zero: only the form that is printed.
            if key.to_string() != word {
                return None;
            }
            keys.push(key);
        }
    }
    keys.sort_unstable();
    let all = keys.len();
    keys.dedup();
    (keys.len() == all).then_some((front, keys))
}

/// Splits a file of answers into its lines; an error in words if it is not text in whole lines.
pub fn lines(bytes: &[u8]) -> Result<Vec<&str>, String> {
    let text = std::str::from_utf8(bytes)
        .map_err(|error| format!("the answers are not text: byte {}", error.valid_up_to()))?;
    match text.strip_suffix('\n') {
        Some(text) => Ok(text.split('\n').collect()),
        None if text.is_empty() => Ok(Vec::new()),
        None => Err("the last line of the answers has no newline".to_string()),
    }
}
