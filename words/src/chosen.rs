//! Which records are told: from one to another, and those that concern an action or a scope.

use crate::facts::{Record, State, Table};

#[derive(Default)]
pub struct Chosen {
    from: Option<u64>,
    to: Option<u64>,
    actions: Vec<u64>,
    scopes: Vec<u64>,
}

impl Chosen {
    pub fn read(words: &[&str]) -> Result<Self, String> {
        let mut chosen = Chosen::default();
        let mut words = words.iter();
        while let Some(name) = words.next() {
            let number = words
                .next()
                .and_then(|word| word.parse().ok())
                .ok_or_else(|| format!("{name} is followed by a number"))?;
            match *name {
                "--from" => chosen.from = Some(number),
                "--to" => chosen.to = Some(number),
                "--action" => chosen.actions.push(number),
                "--scope" => chosen.scopes.push(number),
                _ => return Err(format!("what is {name}?")),
            }
        }
        Ok(chosen)
    }

    fn all(&self) -> bool {
        self.from.is_none()
            && self.to.is_none()
            && self.actions.is_empty()
            && self.scopes.is_empty()
    }

    /// A picture shows records in a row.
    pub fn in_a_row(&self) -> Result<(), String> {
        if self.actions.is_empty() && self.scopes.is_empty() {
            return Ok(());
        }
        Err("a picture takes --from and --to, no --action and no --scope".to_string())
    }

    /// Whether the n-th record is told; the state is the one before it.
    pub fn has(&self, n: usize, record: &Record, table: &Table, state: &State) -> bool {
        let n = n as u64;
        if self.from.is_some_and(|from| n < from) || self.to.is_some_and(|to| n > to) {
            return false;
        }
        if self.actions.is_empty() && self.scopes.is_empty() {
            return true;
        }
        let action = |action: &u64| concerns_action(*action, record, table, state);
        let scope = |scope: &u64| concerns_scope(*scope, record, table, state);
        record.cut.is_some() || self.actions.iter().any(action) || self.scopes.iter().any(scope)
    }

    /// What is not shown of a day, if anything.
    pub fn left_out(&self, shown: usize, records: usize) -> Option<String> {
        if self.all() && shown == records {
            return None;
        }
        Some(format!(
            "shown: {shown} of {records} records; --from, --to, --action and --scope choose which"
        ))
    }
}

/// It is pushed or handed out, or its scope's clock changes.
fn concerns_action(action: u64, record: &Record, table: &Table, state: &State) -> bool {
    match record.call[0] {
        4 => record.call[1] == action,
        5 => turns_scope(table.row(4, action)[0], record, table, state),
        6 => ready_actions(record).any(|key| key == action),
        _ => false,
    }
}

/// Something is pushed into it or taken out of it, or its clock changes.
fn concerns_scope(scope: u64, record: &Record, table: &Table, state: &State) -> bool {
    match record.call[0] {
        5 => turns_scope(scope, record, table, state),
        6 => record.takes.iter().any(|place| place.queue == scope),
        4 if !record.accepted() => table.row(4, record.call[1])[0] == scope,
        1..=4 => record.accepted() && record.into.is_some_and(|place| place.queue == scope),
        _ => false,
    }
}

/// A transition that changes a scope's clock, or resets what it lies in.
fn turns_scope(scope: u64, record: &Record, table: &Table, state: &State) -> bool {
    let i = scope as usize;
    let reset = table.resets(record, scope);
    let changed = record.turns() && state.scopes.get(i) != record.scopes.get(i);
    reset || changed
}

fn ready_actions(record: &Record) -> impl Iterator<Item = u64> + '_ {
    let list = record.answer.rsplit(' ').next().unwrap_or("");
    list.split(',').filter_map(|key| key.parse().ok())
}
