//! The smallest day that still shows a difference: lines of its text are left out, then rows of the table with what names
//! them, then lists, numbers and bytes are made plainer.

use std::time::{Duration, Instant};

use crate::text::{assemble, lines_of};

/// How long a day is made smaller.
const LONGEST: Duration = Duration::from_secs(60);
/// Most of its text that is shown.
const SHOWN: usize = 10_000;

/// The smallest day found that shows something, as the lines of its text; `shows` is asked of each day that is tried.
/// No line of it can be left out alone, unless the time ran out.
pub fn smallest(day: &[u8], mut shows: impl FnMut(&[u8]) -> bool) -> Vec<String> {
    let end = Instant::now() + LONGEST;
    let mut holds = |lines: &[String]| {
        Instant::now() < end && assemble(&lines.join("\n")).is_ok_and(|day| shows(&day))
    };
    let mut lines = lines_of(day);
    loop {
        let before = lines.clone();
        leave_out(&mut lines, &mut holds);
        leave_out_rows(&mut lines, &mut holds);
        make_plainer(&mut lines, &mut holds);
        if lines == before {
            return lines;
        }
    }
}

/// A difference in words, and the smallest day found that shows one, as text; `differs` says what it finds in a day.
pub fn shown(
    name: &str,
    words: &str,
    day: &[u8],
    mut differs: impl FnMut(&[u8]) -> Option<String>,
) -> String {
    let mut text = smallest(day, |day| differs(day).is_some()).join("\n");
    let there = assemble(&text).ok().and_then(|day| differs(&day));
    if text.is_empty() {
        text = "# an image without rows, and no record".to_string();
    }
    if text.len() > SHOWN {
        let all = text.len();
        text.truncate(SHOWN);
        text += &format!("..\n# and so on, {all} characters in all");
    }
    format!(
        "{name}: {words}\nthe smallest day found that differs (oracle asm makes it):\n{text}\nthere: {}",
        there.unwrap_or_else(|| "no difference any more".to_string())
    )
}

/// Leaves out runs of lines: all, halves, then ever shorter ones, from the end.
fn leave_out(lines: &mut Vec<String>, holds: &mut impl FnMut(&[String]) -> bool) {
    let mut length = lines.len();
    while length > 0 {
        let mut end = lines.len();
        while end > 0 {
            let start = end.saturating_sub(length);
            let fewer = [&lines[..start], &lines[end..]].concat();
            if holds(&fewer) {
                *lines = fewer;
            }
            end = start;
        }
        length /= 2;
    }
}

/// What each word after a line's name names: a kind of row, `KIND?` if it may be none, `KIND*` for a list; "" for no key.
const NAMES: [(&str, &[&str]); 13] = [
    ("scope", &["scope?", "reactor", "mode?"]),
    ("reactor", &["scope", "mode?"]),
    ("mode", &["scope", "reactor"]),
    ("reaction", &[]),
    ("action", &["scope"]),
    ("trigger", &["action", "reaction"]),
    ("startup", &["scope", "action", "reaction"]),
    ("reset", &["scope", "reaction"]),
    ("timer", &["action"]),
    ("plain", &["", "", "", "reaction*"]),
    ("network", &["", "", "reaction*"]),
    ("act", &["action", "", "", "", "reaction*"]),
    ("transition", &["reactor", "mode"]),
];

/// Leaves out rows one at a time, from the end, together with the lines that name them; later rows get new numbers.
fn leave_out_rows(lines: &mut Vec<String>, holds: &mut impl FnMut(&[String]) -> bool) {
    for at in (0..lines.len()).rev() {
        // Several lines may go at once.
        if at < lines.len() {
            let fewer = without_row(lines, at);
            if holds(&fewer) {
                *lines = fewer;
            }
        }
    }
}

/// What stands in the place of a key that is gone, until its line is gone too.
const GONE: &str = "gone";

fn without_row(lines: &[String], at: usize) -> Vec<String> {
    let kind = lines[at].split(' ').next().unwrap_or("");
    let same_kind = |line: &&String| line.split(' ').next() == Some(kind);
    let key = lines[..at].iter().filter(same_kind).count();
    // Scopes under a scope that goes are under its parent then.
    let heir = match kind {
        "scope" => lines[at].split(' ').nth(1).unwrap_or("-"),
        _ => "-",
    };
    let mut left = Vec::new();
    for (_, line) in lines.iter().enumerate().filter(|&(other, _)| other != at) {
        left.push(renumbered(line, kind, key, heir));
    }
    match left.iter().position(|line| line.ends_with(GONE)) {
        Some(next) => without_row(&left, next),
        None => left,
    }
}

/// A line after the row of that kind and key is gone; it ends in `GONE` if it cannot be without it.
fn renumbered(line: &str, kind: &str, key: usize, heir: &str) -> String {
    let mut words: Vec<String> = line.split(' ').map(str::to_string).collect();
    let named = NAMES.iter().find(|(name, _)| *name == words[0]);
    let mut gone = false;
    for (word, names) in words[1..]
        .iter_mut()
        .zip(named.map_or(&[][..], |found| found.1))
    {
        if names.trim_end_matches(['?', '*']) != kind {
            continue;
        }
        let mut keys = Vec::new();
        for old in word.split(',') {
            match old.parse::<usize>() {
                Ok(old) if old > key => keys.push((old - 1).to_string()),
                Ok(old) if old == key => {
                    gone |= *names == kind;
                    if names.ends_with('?') {
                        keys.push(heir.to_string());
                    }
                }
                _ => keys.push(old.to_string()),
            }
        }
        *word = match keys.is_empty() {
            true => "-".to_string(),
            false => keys.join(","),
        };
    }
    if gone {
        words.push(GONE.to_string());
    }
    words.join(" ")
}

/// Puts plainer words in the place of each word of each line.
fn make_plainer(lines: &mut [String], holds: &mut impl FnMut(&[String]) -> bool) {
    for at in 0..lines.len() {
        let words = lines[at].split(' ').count();
        let mut place = 1;
        while place < words {
            let given = lines[at].clone();
            let better = plainer(&given, place).into_iter().any(|line| {
                lines[at] = line;
                holds(lines)
            });
            if !better {
                lines[at] = given;
                place += 1;
            }
        }
    }
}

/// A line with something plainer in a word's place, plainest first.
fn plainer(line: &str, place: usize) -> Vec<String> {
    let words: Vec<&str> = line.split(' ').collect();
    let word = words[place];
    let instead: Vec<String> = if matches!(words[0], "image" | "raw") {
        // The front half of the bytes, the back half, all but the last, or all but the first.
        let bytes = word.len() / 2;
        let (half, last) = (bytes / 2, bytes.saturating_sub(1));
        [0..half, half..bytes, 0..last, 1..bytes]
            .iter()
            .filter(|less| !less.is_empty() && less.len() < bytes)
            .map(|less| word[2 * less.start..2 * less.end].to_string())
            .collect()
    } else if let Some((first, others)) = word.split_once(',') {
        vec!["-".to_string(), first.to_string(), others.to_string()]
    } else {
        let value: u64 = word.parse().unwrap_or(0);
        [0, 1, value / 2]
            .iter()
            .filter(|&&less| less < value)
            .map(u64::to_string)
            .collect()
    };
    let with = |new: &String| {
        let mut words = words.clone();
        words[place] = new;
        words.join(" ")
    };
    instead.iter().map(with).collect()
}
