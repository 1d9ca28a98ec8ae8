//! `oracle asm TEXT DAY`: a day from its text, one row or record a line, parted by newlines or semicolons; '#' starts
//! a comment.
//!
//! ```text
//! scope PARENT REACTOR MODE      reactor ROOT INITIAL            mode SCOPE REACTOR          reaction LEVEL
//! action SCOPE LOGICAL           trigger ACTION REACTION         startup SCOPE ACTION REACTION
//! reset SCOPE REACTION           timer ACTION OFFSET MICROSTEP
//! plain OFFSET MICROSTEP TERMINAL KEYS       network OFFSET MICROSTEP KEYS      control OFFSET MICROSTEP
//! act ACTION OFFSET MICROSTEP TERMINAL KEYS  transition REACTOR MODE reset|history OFFSET MICROSTEP
//! pop                            raw HEX (bytes of records)      repeat COUNT RECORD
//! image HEX (bytes in the place of an image: of one that its rows don't fill)
//! ```
//!
//! "-" is none, and an empty list of keys; others are joined by commas. Rows may stand in any order.
//! `lines_of` goes the other way: every day has a text that gives its bytes again.

use std::fmt::Write;

use crate::image::{number, with_length, COUNTS_AT, NONE, ROWS_AT};
use crate::parts::Parts;
use crate::records::{split, Op};

/// Bytes a field of each kind of row, in the image's order.
pub const ROWS: [(&str, &[usize]); 9] = [
    ("scope", &[2, 2, 2]),
    ("reactor", &[2, 2]),
    ("mode", &[2, 2]),
    ("reaction", &[1]),
    ("action", &[2, 1]),
    ("trigger", &[2, 2]),
    ("startup", &[2, 2, 2]),
    ("reset", &[2, 2]),
    ("timer", &[2, 8, 4]),
];

/// Ops with the bytes of their fields; a list of keys, if any, comes after them.
const OPS: [(&str, u8, &[usize], bool); 6] = [
    ("plain", 1, &[8, 4, 1], true),
    ("network", 2, &[8, 4], true),
    ("control", 3, &[8, 4], false),
    ("act", 4, &[2, 8, 4, 1], true),
    ("transition", 5, &[2, 2, 1, 8, 4], false),
    ("pop", 6, &[], false),
];

/// The bytes of a day; an error names the line that is not understood.
pub fn assemble(text: &str) -> Result<Vec<u8>, String> {
    let mut parts = Parts::default();
    let (mut whole, mut records) = (None, Vec::new());
    for line in text.lines().flat_map(|line| bare(line).split(';')) {
        let words: Vec<&str> = line.split_whitespace().collect();
        let Some((&name, rest)) = words.split_first() else {
            continue;
        };
        let understood = match ROWS.iter().position(|row| row.0 == name) {
            Some(kind) => fields(rest, ROWS[kind].1).map(|row| parts.push(kind, &row)),
            None if name == "image" => match rest {
                [] => Some(whole = Some(Vec::new())),
                [hex] => raw(hex).map(|bytes| whole = Some(bytes)),
                _ => None,
            },
            None => record(&words).map(|bytes| records.extend(bytes)),
        };
        understood.ok_or_else(|| format!("what is \"{}\"?", line.trim()))?;
    }
    Ok([whole.unwrap_or_else(|| parts.image()), records].concat())
}

/// The text of a day, one row or record a line; `assemble` gives the day again.
pub fn lines_of(day: &[u8]) -> Vec<String> {
    let end = match day.get(..4) {
        Some(length) => (number(length) as usize).saturating_add(4).min(day.len()),
        None => day.len(),
    };
    let (image, records) = day.split_at(end);
    let mut lines = rows_of(image).unwrap_or_else(|| vec![format!("image {}", hex(image))]);
    for record in split(records) {
        lines.push(match record.op {
            Op::Malformed | Op::Broken => format!("raw {}", hex(record.bytes)),
            _ => record.to_string(),
        });
    }
    lines
}

/// The same, with each row's and record's number in a comment: rows by their kind from 0, records from 1.
pub fn numbered_lines_of(day: &[u8]) -> Vec<String> {
    let mut counts = [0; ROWS.len()];
    let mut records = 0;
    let number = |line: String| {
        let name = line.split(' ').next().unwrap_or("");
        match ROWS.iter().position(|row| row.0 == name) {
            Some(kind) => {
                counts[kind] += 1;
                format!("{line}  # {name} {}", counts[kind] - 1)
            }
            None if name == "image" => line,
            None => {
                records += 1;
                format!("{line}  # {records}")
            }
        }
    };
    lines_of(day).into_iter().map(number).collect()
}

/// The rows of an image of version 1 that they fill exactly, right or wrong.
fn rows_of(image: &[u8]) -> Option<Vec<String>> {
    let fits =
        image.len() >= ROWS_AT && number(&image[..4]) as usize == image.len() - 4 && image[4] == 1;
    let (counts, mut rest) = image.split_at(if fits { ROWS_AT } else { return None });
    let mut lines = Vec::new();
    for (kind, &(name, widths)) in ROWS.iter().enumerate() {
        for _ in 0..number(&counts[COUNTS_AT + 2 * kind..][..2]) {
            let mut line = name.to_string();
            for &width in widths {
                let (field, after) = rest.split_at(if width <= rest.len() {
                    width
                } else {
                    return None;
                });
                rest = after;
                match number(field) {
                    value if value == u64::from(NONE) => line.push_str(" -"),
                    value => line.push_str(&format!(" {value}")),
                }
            }
            lines.push(line);
        }
    }
    rest.is_empty().then_some(lines)
}

fn hex(bytes: &[u8]) -> String {
    bytes.iter().fold(String::new(), |mut hex, byte| {
        // Writing into a string does not fail.
        let _ = write!(hex, "{byte:02x}");
        hex
    })
}

/// The comments at the top of a text: what the day shows.
pub fn about(text: &str) -> Vec<&str> {
    text.lines()
        .map_while(|line| line.strip_prefix('#'))
        .map(str::trim)
        .collect()
}

/// A line without its comment.
fn bare(line: &str) -> &str {
    line.split('#').next().unwrap_or("")
}

/// The bytes of a record, or of several.
pub fn record(words: &[&str]) -> Option<Vec<u8>> {
    match *words {
        ["raw", hex] => raw(hex),
        ["repeat", count, ref words @ ..] => Some(record(words)?.repeat(count.parse().ok()?)),
        [name, ref words @ ..] => {
            let &(_, op, widths, has_keys) = OPS.iter().find(|op| op.0 == name)?;
            let (words, list) = match words.split_last() {
                Some((&list, words)) if has_keys => (words, keys(list)?),
                _ => (words, Vec::new()),
            };
            let body = [vec![1, op], fields(words, widths)?, list].concat();
            Some(with_length(&body))
        }
        [] => None,
    }
}

/// A list of keys, after their count.
fn keys(list: &str) -> Option<Vec<u8>> {
    let words: Vec<&str> = match list {
        "-" => Vec::new(),
        list => list.split(',').collect(),
    };
    let widths = vec![2; words.len()];
    let count = (words.len() as u16).to_be_bytes().to_vec();
    Some([count, fields(&words, &widths)?].concat())
}

fn raw(hex: &str) -> Option<Vec<u8>> {
    hex.as_bytes()
        .chunks(2)
        .map(|pair| u8::from_str_radix(std::str::from_utf8(pair).ok()?, 16).ok())
        .collect()
}

/// Numbers in so many bytes each; none if a word is missing, left over or does not fit.
fn fields(words: &[&str], widths: &[usize]) -> Option<Vec<u8>> {
    if words.len() != widths.len() {
        return None;
    }
    let fields = words.iter().zip(widths);
    let bytes: Option<Vec<_>> = fields.map(|(word, &width)| field(word, width)).collect();
    Some(bytes?.concat())
}

fn field(word: &str, width: usize) -> Option<Vec<u8>> {
    let value: u64 = match word {
        "-" => u64::from(NONE),
        "reset" => 0,
        "history" => 1,
        _ => word.parse().ok()?,
    };
    let bytes = value.to_be_bytes();
    let (front, bytes) = bytes.split_at(8 - width);
    front.iter().all(|&byte| byte == 0).then(|| bytes.to_vec())
}
