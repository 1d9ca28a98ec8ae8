//! `oracle store-compare SCRIPT ANSWERS OURS`: another program's answers to a script of store calls.
//!
//! SCRIPT and ANSWERS are as `store` writes them. OURS has for each call 01's answer 9, and after a script's calls what is
//! held, as in ANSWERS but in any order. Where the Rust's answer is flagged as different, the call must be "next
//! microstep", and the two answers must differ.

/// A file that is read from its start on.
struct Left<'a> {
    name: &'static str,
    bytes: &'a [u8],
}

impl<'a> Left<'a> {
    fn take(&mut self, count: usize) -> Result<&'a [u8], String> {
        if self.bytes.len() < count {
            return Err(format!("{} ends early", self.name));
        }
        let (taken, rest) = self.bytes.split_at(count);
        self.bytes = rest;
        Ok(taken)
    }

    fn number(&mut self, count: usize) -> Result<usize, String> {
        Ok(crate::image::number(self.take(count)?) as usize)
    }

    /// A number 2, and so many pieces of this size.
    fn pieces(&mut self, size: usize) -> Result<Vec<&'a [u8]>, String> {
        (0..self.number(2)?).map(|_| self.take(size)).collect()
    }
}

/// The bytes of a call's operands.
fn operands(op: usize) -> Result<usize, String> {
    match op {
        1 => Ok(20),
        2..=4 => Ok(12),
        5 => Ok(0),
        6 => Ok(24),
        _ => Err(format!("the script has a call {op}")),
    }
}

/// A value is action 2, tag 12, value 8; a bucket action 2, offset 8, next microstep 4.
const HELD: [usize; 2] = [22, 14];

pub fn compare(script: &[u8], answers: &[u8], ours: &[u8]) -> Result<String, String> {
    let left = |name, bytes| Left { name, bytes };
    let mut script = left("the script", script);
    let mut answers = left("the answers", answers);
    let mut ours = left("our answers", ours);
    let (mut scripts, mut calls, mut differing) = (0, 0, 0);
    while !script.bytes.is_empty() {
        scripts += 1;
        script.take(2)?;
        for call in 1..=script.number(2)? {
            let op = script.number(1)?;
            script.take(2 + operands(op)?)?;
            let flagged = answers.number(1)? == 1;
            let wanted = answers.take(9)?;
            if flagged {
                differing += 1;
                if answers.take(9)? == wanted || op != 2 {
                    return Err(format!(
                        "script {scripts}, call {call}: flagged as different by design, and is not"
                    ));
                }
            }
            let got = ours.take(9)?;
            if got != wanted {
                return Err(format!(
                    "script {scripts}, call {call}, op {op}: 01 demands {wanted:?}, got {got:?}"
                ));
            }
            calls += 1;
        }
        for size in HELD {
            let wanted = answers.pieces(size)?;
            let mut got = ours.pieces(size)?;
            got.sort_unstable();
            if got != wanted {
                return Err(format!("script {scripts}: what is held differs"));
            }
        }
    }
    if !answers.bytes.is_empty() || !ours.bytes.is_empty() {
        return Err("bytes are left after the last script".to_string());
    }
    Ok(format!(
        "{scripts} scripts, {calls} calls equal, {differing} where the Rust differs by design"
    ))
}
