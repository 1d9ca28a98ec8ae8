//! The rescue of damaged days beside the oracle's own: the answer, every byte of output and report and some behind them, in
//! rooms that fit, that are longer, and that are too short; and what was rescued, run and rescued again.

use std::path::Path;

use barnshiver::run_day;
use barnshiver::slices::{self, report_room, REPORT_HEAD};
use oracle::days::{to_rescue, Case};
use oracle::image::number;
use oracle::rescue::rescue_into;
use oracle::rescues::shows;
use oracle::several::several;
use oracle::shrink;

use crate::writes::{filled, BEHIND};

/// The library's function, or one in its place.
pub type Rescuer<'r> = dyn Fn(&[u8], &mut [u8], &mut [u8]) -> u64 + Sync + 'r;

fn in_words(answer: u64) -> String {
    match (answer >> 32, answer as u32) {
        (0, 0) => "rescued".to_string(),
        (255, 0) => "no room".to_string(),
        (number, place) => format!("refused {number} at {place}"),
    }
}

/// One call into rooms of so many bytes; what is kept and how many records these are, if it is rescued.
fn one_call(
    rescuer: &Rescuer<'_>,
    day: &[u8],
    (output, report): (usize, usize),
) -> Result<Option<(Vec<u8>, u64)>, String> {
    let rooms = || (filled(output + BEHIND), filled(report + BEHIND));
    let (mut due, mut got) = (rooms(), rooms());
    let answer = rescue_into(day, &mut due.0[..output], &mut due.1[..report]);
    let ours = rescuer(day, &mut got.0[..output], &mut got.1[..report]);
    let differs = |due: &[u8], got: &[u8]| (0..due.len()).find(|&at| due[at] != got[at]);
    let words = if ours != answer {
        let (answer, ours) = (in_words(answer), in_words(ours));
        format!("expected {answer}, got {ours}")
    } else if let Some(at) = differs(&due.1, &got.1) {
        // The number of eight bytes there.
        let of = |report: &[u8]| number(report.chunks(8).nth(at / 8).unwrap_or(&[]));
        let (at, due, got) = (at / 8, of(&due.1), of(&got.1));
        let answer = in_words(answer);
        format!("{answer}: number {at} of the report: expected {due}, got {got}")
    } else if let Some(at) = differs(&due.0, &got.0) {
        let (due, got) = (due.0[at], got.0[at]);
        let answer = in_words(answer);
        format!("{answer}: byte {at} of the output: expected {due}, got {got}")
    } else if answer != 0 {
        return Ok(None);
    } else {
        let (mut kept, report) = got;
        kept.truncate(number(&report[..8]) as usize);
        return Ok(Some((kept, number(&report[8..16]))));
    };
    Err(format!("into {output} and {report} bytes: {words}"))
}

/// One day: in rooms that fit and in longer ones, in rooms that are too short, and what was rescued again.
pub fn one_rescue(rescuer: &Rescuer<'_>, day: &[u8]) -> Result<(), String> {
    let (length, room) = (day.len(), report_room(day.len()));
    let one_short = (length.saturating_sub(1), room - 1);
    let others = [
        (length + 1, room + 7),
        (one_short.0, room),
        (length, one_short.1),
        (length, REPORT_HEAD),
        (length, REPORT_HEAD - 1),
        (0, 0),
    ];
    for rooms in others {
        one_call(rescuer, day, rooms)?;
    }
    let Some((kept, records)) = one_call(rescuer, day, (length, room))? else {
        return Ok(());
    };
    let again = one_call(rescuer, &kept, (kept.len(), report_room(kept.len())))
        .map_err(|words| format!("what was rescued, rescued again: {words}"))?;
    if again != Some((kept.clone(), records)) {
        return Err("what was rescued, rescued again, is something else".to_string());
    }
    let lines = run_day(&kept);
    let mut lines = lines.split_inclusive(|&line| line == b'\n');
    if let Some(at) = lines.position(|line| line == b"refused 1\n") {
        return Err(format!("record {at} of what was rescued is \"refused 1\""));
    }
    Ok(())
}

/// So many damaged days, several at a time; the first that differs is shown on the smallest day.
pub fn rescues(seed: u64, count: usize, folder: &Path) -> Result<String, String> {
    let damaged = to_rescue(seed, count, folder)?;
    let one = |_: usize, case: &Case| one_rescue(&slices::rescue, &case.day);
    several(&damaged.cases, one).map_err(|(at, words)| {
        let Case { name, day, .. } = &damaged.cases[at];
        shrink::shown(name, &words, day, |day| {
            one_rescue(&slices::rescue, day).err()
        })
    })?;
    shows(&damaged)
}
