//! `oracle judge`: whether each refusal was due and each accepted call within the limits, by the plain machine.
//!
//! Every line but a pop's is judged. Judging stops at the first wrong one, so the machine has always followed the
//! answers given. A pop must be answered by a pop's line; what it says is compare.rs's matter.

use crate::answers::lines;
use crate::compare::{difference, extra_line, table_line, Outcome, NO_LINE};
use crate::plain::{self, Plain};

pub fn judge(day: &[u8], answers: &[u8]) -> Result<Outcome, String> {
    let answers = lines(answers)?;
    let (table, records) = match table_line(day, &answers) {
        Ok(opened) => opened,
        Err(outcome) => return Ok(outcome),
    };
    let mut plain = Plain::new(&table);
    for (index, record) in records.iter().enumerate() {
        let at = index + 1;
        let got = answers.get(at).copied().unwrap_or(NO_LINE);
        let outcome = plain.step(&record.op);
        let right = match outcome {
            plain::Outcome::Popped(_) => got == "nothing" || got.starts_with("ready "),
            _ => got == outcome.line(),
        };
        if !right {
            return Ok(difference(at, record, &outcome.line(), got));
        }
    }
    Ok(
        extra_line(records.len(), &answers).unwrap_or(Outcome::Agree {
            records: records.len(),
        }),
    )
}
