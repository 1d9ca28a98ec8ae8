//! Our state in the form of `oracle deep`, and beside the plain machine's.

use barnshiver::{State, Tag};
use oracle::answers::joined;
use oracle::image::{RawTag, Table};
use oracle::plain;

fn seen(tag: Tag) -> String {
    format!("{}.{}", tag.offset, tag.microstep)
}

fn maybe(tag: Option<Tag>) -> String {
    tag.map_or("-".to_string(), seen)
}

/// The line of oracle/src/deep.rs for a state.
pub fn line(at: usize, state: &State, table: &Table) -> String {
    let scopes = &state.scopes[..table.scopes.len()];
    let bits = |flag: fn(&barnshiver::state::Scope) -> bool| -> String {
        scopes
            .iter()
            .map(|scope| if flag(scope) { '1' } else { '0' })
            .collect()
    };
    let clocks: Vec<String> = scopes
        .iter()
        .map(|scope| {
            let clock = scope.clock;
            format!(
                "{}:{}:{}:{}",
                seen(clock.global),
                seen(clock.local),
                u8::from(clock.allowed),
                seen(clock.suspended)
            )
        })
        .collect();
    let head = |queue: Option<u16>| {
        let events = state.events.iter().filter(|event| event.queue == queue);
        maybe(events.map(|event| event.tag).min())
    };
    let heads: Vec<String> = std::iter::once(None)
        .chain((0..scopes.len() as u16).map(Some))
        .map(head)
        .collect();
    let (mut values, mut buckets) = (state.values.clone(), state.buckets.clone());
    values.sort();
    buckets.sort();
    let values: Vec<String> = values
        .iter()
        .map(|held| format!("{}:{}:{}", held.action, seen(held.tag), held.value))
        .collect();
    let buckets: Vec<String> = buckets
        .iter()
        .map(|bucket| format!("{}:{}.{}", bucket.action, bucket.offset, bucket.next))
        .collect();
    format!(
        "{at} peek {} control {} work {} active {} ever {} clocks {} heads {} values {} buckets {}",
        maybe(state.peek),
        u8::from(state.control_only),
        state.work,
        bits(|scope| scope.active),
        bits(|scope| scope.ever),
        joined(&clocks),
        joined(&heads),
        joined(&values),
        joined(&buckets)
    )
}

/// Whether two words are the same, or clocks that are the same but for an S that is apart in the Rust (`?`): ours is zero there.
fn same_word(ours: &str, rust: &str) -> bool {
    let same_clock = |(ours, rust): (&str, &str)| match rust.strip_suffix('?') {
        Some(rust) => ours.strip_suffix("0.0") == Some(rust),
        None => ours == rust,
    };
    let count = |word: &str| word.split(',').count();
    count(ours) == count(rust) && ours.split(',').zip(rust.split(',')).all(same_clock)
}

/// Whether our line says what the Rust's does, buckets and the values that the Rust gave up (`ACTION:?`) aside.
pub fn same_as_rust(ours: &str, rust: &str) -> bool {
    let parts = |line: &str| {
        let (front, values) = line.split_once(" values ").unwrap_or((line, ""));
        let values = values
            .split_once(" buckets ")
            .map_or(values, |found| found.0);
        (front.to_string(), values.to_string())
    };
    let ((our_front, our_values), (rust_front, rust_values)) = (parts(ours), parts(rust));
    let action = |value: &str| value.split(':').next().unwrap_or("").to_string();
    let given_up: Vec<String> = rust_values
        .split(',')
        .filter_map(|value| value.strip_suffix(":?").map(str::to_string))
        .collect();
    let kept = |values: &str| -> Vec<String> {
        values
            .split(',')
            .filter(|&value| value != "-" && !given_up.contains(&action(value)))
            .map(str::to_string)
            .collect()
    };
    let words = |front: &str| -> Vec<String> { front.split(' ').map(str::to_string).collect() };
    let (ours, rust) = (words(&our_front), words(&rust_front));
    let same_front = ours
        .iter()
        .zip(&rust)
        .all(|(ours, rust)| same_word(ours, rust));
    ours.len() == rust.len() && same_front && kept(&our_values) == kept(&rust_values)
}

/// What `deep` does not show: modes, and every event in order of acceptance. The error names the first that differs.
pub fn same(ours: &State, plain: &plain::State) -> Result<(), String> {
    let tag = |tag: RawTag| Tag::new(tag.offset, tag.microstep);
    let key = |key: usize| key as u16;
    let modes: Vec<Option<u16>> = plain.modes.iter().map(|mode| mode.map(key)).collect();
    let our_modes = &ours.modes[..modes.len()];
    if our_modes != modes {
        return Err(format!("modes: expected {modes:?}, got {our_modes:?}"));
    }
    let events: Vec<barnshiver::state::Event> = plain
        .events
        .iter()
        .map(|event| barnshiver::state::Event {
            queue: event.scope.map(key),
            tag: tag(event.tag),
            reactions: event
                .reactions
                .iter()
                .fold(0, |set, reaction| set | 1 << reaction),
            terminal: event.terminal,
            control: event.control,
            network: event.network,
            action: event
                .action
                .map(|(action, stored)| (key(action), tag(stored))),
        })
        .collect();
    let pairs = events.iter().zip(&ours.events).enumerate();
    for (at, (expected, got)) in pairs {
        if expected != got {
            return Err(format!("event {at}: expected {expected:?}, got {got:?}"));
        }
    }
    match events.len() == ours.events.len() {
        true => Ok(()),
        false => Err(format!(
            "expected {} events, got {}",
            events.len(),
            ours.events.len()
        )),
    }
}

#[cfg(test)]
mod tests {
    use super::same_as_rust;

    #[test]
    fn an_s_that_is_apart_in_the_rust_is_zero_in_ours() {
        let line = |clocks: &str| format!("1 peek - clocks {clocks} heads - values - buckets -");
        let rust = line("0.0:0.0:1:0.0,10.0:0.0:0:?");
        assert!(same_as_rust(&line("0.0:0.0:1:0.0,10.0:0.0:0:0.0"), &rust));
        for wrong in [
            "0.0:0.0:1:0.0,10.0:0.0:0:20.0",
            "0.0:0.0:1:0.0,10.0:5.0:0:0.0",
            "0.0:0.0:1:5.0,10.0:0.0:0:0.0",
            "0.0:0.0:1:0.0",
        ] {
            assert!(!same_as_rust(&line(wrong), &rust), "{wrong}");
        }
    }
}
