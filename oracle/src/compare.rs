//! `oracle compare`: the answers of a day against the published Rust and against what the bytes alone decide.
//!
//! Records answered "ok" are applied, refused ones skipped; every pop line comes from the Rust. Whether a refusal
//! 7, 8 or 9 was due is not judged here but in judge.rs.

use crate::answers::{lines, pop_line, same_pop};
use crate::domain::Why;
use crate::image;
use crate::records::{split, Op, Record};
use crate::sched::rust_side::{outside_domain, RustSide};

/// How a comparison ended.
#[derive(Debug, Clone, PartialEq, Eq)]
pub enum Outcome {
    /// Agreed over this many records.
    Agree { records: usize },
    /// Agreed up to a record that leaves 01's domain of comparison, counted from 1; and how many are left out, that one included.
    LeftDomain {
        record: usize,
        why: Why,
        left: usize,
    },
    /// The first difference, in words.
    Differ(String),
}

/// The sentence for a difference at a record, counted from 1.
pub fn difference(at: usize, record: &Record<'_>, expected: &str, got: &str) -> Outcome {
    Outcome::Differ(format!(
        "record {at} ({record}): expected \"{expected}\", got \"{got}\""
    ))
}

/// What stands in for a line that isn't there.
pub const NO_LINE: &str = "(no line)";

/// Checks the table line. `Ok` gives the table and the records to go on with, `Err` the end of the matter.
pub fn table_line<'d>(
    day: &'d [u8],
    answers: &[&str],
) -> Result<(image::Table, Vec<Record<'d>>), Outcome> {
    let opened = image::open(day);
    let expected = match &opened {
        Ok(_) => "table ok".to_string(),
        Err(refused) => refused.to_string(),
    };
    let got = answers.first().copied().unwrap_or(NO_LINE);
    if got != expected {
        return Err(Outcome::Differ(format!(
            "the table: expected \"{expected}\", got \"{got}\""
        )));
    }
    match opened {
        Ok((table, records)) => Ok((table, split(records))),
        Err(_) => Err(match answers.get(1) {
            None => Outcome::Agree { records: 0 },
            Some(extra) => Outcome::Differ(format!(
                "after a refused table: expected \"{NO_LINE}\", got \"{extra}\""
            )),
        }),
    }
}

/// A line beyond the last record's.
pub fn extra_line(records: usize, answers: &[&str]) -> Option<Outcome> {
    answers.get(records + 1).map(|extra| {
        Outcome::Differ(format!(
            "after the last record, {records}: expected \"{NO_LINE}\", got \"{extra}\""
        ))
    })
}

/// Refusals that bytes alone don't decide, by kind of record.
fn open_refusals(op: &Op) -> &'static [&'static str] {
    match op {
        Op::Plain { .. } | Op::Network { .. } | Op::Control { .. } => &["refused 8"],
        Op::Action { .. } => &["refused 7", "refused 8"],
        Op::Transition { .. } => &["refused 7", "refused 8", "refused 9"],
        Op::Pop | Op::Malformed | Op::Broken => &[],
    }
}

pub fn compare(day: &[u8], answers: &[u8]) -> Result<Outcome, String> {
    Ok(compare_counting(day, answers)?.0)
}

/// The same, and how many accepted transitions 01 would refuse with 7 for an S that 02's C-14 leaves at zero.
pub fn compare_counting(day: &[u8], answers: &[u8]) -> Result<(Outcome, usize), String> {
    follow(day, answers, &mut |_, _, _, _| {})
}

/// Both sides' answers to the records, as far as they are compared: each record's number, itself, ours and the Rust's.
type Seen<'s> = &'s mut dyn FnMut(usize, &Record<'_>, &str, &str);

fn follow(day: &[u8], answers: &[u8], seen: Seen<'_>) -> Result<(Outcome, usize), String> {
    let answers = lines(answers)?;
    let (table, records) = match table_line(day, &answers) {
        Ok(opened) => opened,
        Err(outcome) => return Ok((outcome, 0)),
    };
    let mut rust = RustSide::new(&table, true);
    let outcome = each_record(&table, &records, &answers, &mut rust, seen);
    Ok((outcome, rust.sevens()))
}

fn each_record(
    table: &image::Table,
    records: &[Record<'_>],
    answers: &[&str],
    rust: &mut RustSide,
    seen: Seen<'_>,
) -> Outcome {
    for (index, record) in records.iter().enumerate() {
        let at = index + 1;
        let got = answers.get(at).copied().unwrap_or(NO_LINE);
        let (expected, same) = match record.op.refused_by_bytes(table) {
            Some(number) => {
                let expected = format!("refused {number}");
                let same = got == expected;
                (expected, same)
            }
            None => match one_call(rust, &record.op, got) {
                Ok(answered) => answered,
                Err(why) => {
                    return Outcome::LeftDomain {
                        record: at,
                        why,
                        left: records.len() - index,
                    }
                }
            },
        };
        seen(at, record, got, &expected);
        if !same {
            return difference(at, record, &expected, got);
        }
    }
    extra_line(records.len(), answers).unwrap_or(Outcome::Agree {
        records: records.len(),
    })
}

/// A call that the bytes don't refuse, put to the Rust where it was accepted: what is expected, and whether the answer is that.
/// `Err` says why 01's domain of comparison is left.
fn one_call(rust: &mut RustSide, op: &Op, got: &str) -> Result<(String, bool), Why> {
    if *op == Op::Pop {
        let expected = pop_line(rust.pop().as_ref());
        let same = same_pop(&expected, got);
        return Ok((expected, same));
    }
    if got != "ok" {
        let open = open_refusals(op);
        return Ok(match open.contains(&got) {
            true => ("not asked: it has no such limit".to_string(), true),
            false => (format!("ok or {}", open.join(" or ")), false),
        });
    }
    if let Some(why) = outside_domain(op) {
        return Err(why);
    }
    if let Some(call) = rust.call(op) {
        rust.apply(&call);
    }
    match rust.left_domain() {
        Some(why) => Err(why),
        None => Ok(("ok".to_string(), true)),
    }
}

/// A record's number, its text, our answer and the Rust's.
pub type Row = [String; 4];

/// `oracle aside`: the rows of a comparison, and how it ended.
pub fn aside(day: &[u8], answers: &[u8]) -> Result<(Vec<Row>, Outcome), String> {
    let mut rows = Vec::new();
    let (outcome, _) = follow(day, answers, &mut |at, record, ours, rust| {
        rows.push([
            at.to_string(),
            record.to_string(),
            ours.to_string(),
            rust.to_string(),
        ]);
    })?;
    Ok((rows, outcome))
}

/// How the comparison ended, then the rows side by side.
pub fn table(rows: &[Row], outcome: &Outcome) -> String {
    let first = match outcome {
        Outcome::Differ(words) => format!("they differ first at {words}"),
        Outcome::Agree { records: 0 } => "the same: the table's line is the only one".to_string(),
        Outcome::Agree { records } => format!("the same, over {records} records"),
        Outcome::LeftDomain { record, why, left } => format!(
            "the same up to record {record}, where the Rust can no longer be compared: {why}; \
             {left} of the records left out (docs/DIFFERENCES.md, point {})",
            why.point()
        ),
    };
    let head = ["", "record", "ours", "the Rust"].map(str::to_string);
    let width = |column: usize| {
        let lengths = rows.iter().chain([&head]).map(|row| row[column].len());
        lengths.max().unwrap_or(0).min(72)
    };
    let widths = [width(0), width(1), width(2)];
    let mut text = first + "\n";
    for row in std::iter::once(&head).chain(rows) {
        let mark = if row[0].is_empty() || alike(row) {
            ' '
        } else {
            '!'
        };
        let [number, record, ours, rust] = row;
        let [n, r, o] = widths;
        text.push_str(&format!(
            "{mark} {number:>n$}  {record:r$}  {ours:o$}  {rust}\n"
        ));
    }
    text
}

/// Whether a row's answers are the same, or the Rust has none.
fn alike([_, _, ours, rust]: &Row) -> bool {
    same_pop(rust, ours) || rust.starts_with("not asked")
}
