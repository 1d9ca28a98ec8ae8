//! `oracle sweep FROM TO [KIND]`: made days on both sides. The plain machine answers each day; compare, judge and
//! the states after every record must find nothing.

use std::collections::BTreeMap;

use crate::compare::{compare_counting, Outcome};
use crate::deep;
use crate::image;
use crate::judge::judge;
use crate::make::{make, KINDS};
use crate::plain::answer;
use crate::records::{split, Op};

#[derive(Default)]
struct Counts {
    days: usize,
    refused_tables: usize,
    records: usize,
    ready: usize,
    /// Ready events that say "held".
    held: usize,
    nothing: usize,
    transitions: usize,
    /// By line, as "refused 7".
    refusals: BTreeMap<String, usize>,
    /// Days and their records that were left out, by reason.
    left: BTreeMap<String, (usize, usize)>,
    /// Records before the domain was left.
    compared: usize,
    /// Transitions that are no longer refused with 7.
    sevens: usize,
}

pub fn sweep(from: u64, to: u64, kind: Option<&str>) -> Result<String, String> {
    let kinds: Vec<&str> = match kind {
        Some(kind) => vec![kind],
        None => KINDS.to_vec(),
    };
    let mut counts = Counts::default();
    for seed in from..to {
        for kind in &kinds {
            let day = make(seed, kind).ok_or_else(|| format!("no kind \"{kind}\""))?;
            one(&day, &mut counts).map_err(|words| format!("seed {seed} kind {kind}: {words}"))?;
        }
    }
    let by = |items: Vec<String>| match items[..] {
        [] => "none".to_string(),
        _ => items.join(", "),
    };
    let refusal = |(what, count): (&String, &usize)| format!("{what}: {count}");
    let reason = |(why, (days, records)): (&String, &(usize, usize))| {
        format!("{why}: {days} with {records} records left out")
    };
    Ok(format!(
        "{} days ({} refused tables), {} records, {} of them compared with the Rust; \
         {} ready ({} of them held), {} nothing, {} transitions accepted, {} of them refused with 7 before C-14; refusals: {}; \
         days that left the domain: {}\nno difference",
        counts.days,
        counts.refused_tables,
        counts.records,
        counts.compared,
        counts.ready,
        counts.held,
        counts.nothing,
        counts.transitions,
        counts.sevens,
        by(counts.refusals.iter().map(refusal).collect()),
        by(counts.left.iter().map(reason).collect())
    ))
}

fn one(day: &[u8], counts: &mut Counts) -> Result<(), String> {
    let answers = answer(day);
    counts.days += 1;
    let (outcome, sevens) = compare_counting(day, answers.as_bytes())?;
    counts.sevens += sevens;
    match outcome {
        Outcome::Agree { records } => counts.compared += records,
        Outcome::LeftDomain { record, why, left } => {
            counts.compared += record - 1;
            let (days, records) = counts.left.entry(why.kind().to_string()).or_default();
            *days += 1;
            *records += left;
        }
        Outcome::Differ(words) => return Err(format!("compare: {words}")),
    }
    if let Outcome::Differ(words) = judge(day, answers.as_bytes())? {
        return Err(format!("judge: {words}"));
    }
    deep::agree(day)?;
    let Ok((_, records)) = image::open(day) else {
        counts.refused_tables += 1;
        return Ok(());
    };
    for (record, line) in split(records).iter().zip(answers.lines().skip(1)) {
        counts.records += 1;
        match line {
            "ok" => {
                counts.transitions += usize::from(matches!(record.op, Op::Transition { .. }));
            }
            "nothing" => counts.nothing += 1,
            _ if line.starts_with("ready") => {
                counts.ready += 1;
                counts.held += usize::from(line.contains(" held 1 "));
            }
            _ => *counts.refusals.entry(line.to_string()).or_default() += 1,
        }
    }
    Ok(())
}
