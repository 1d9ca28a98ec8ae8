//! Rescuers that are wrong in one way, in the library's place: each must be found among the first damaged days.

use std::path::Path;

use barnshiver::slices::{self, report_room, REPORT_HEAD};
use oracle::days::{to_rescue, Case};
use oracle::image::{self, number};
use oracle::records::{first, Op};
use oracle::rescue::{rescue, Rescue, Run};

use crate::rescues::one_rescue;

/// So many days.
const DAYS: usize = 2000;

/// What is made wrong.
enum Wrong {
    /// Whether bytes are kept at a place, and how many bytes are kept or dropped there.
    Walk(fn(&[u8]) -> (bool, usize)),
    /// What a day with an image of so many bytes comes to.
    Came(fn(&mut Rescue, usize)),
    /// Output and report after a rescue, and how many bytes of them were written.
    Bytes(fn((&mut [u8], usize), (&mut [u8], usize))),
    /// The whole call.
    Call(fn(&[u8], &mut [u8], &mut [u8]) -> u64),
}

use Wrong::{Bytes, Call, Came, Walk};

impl Wrong {
    fn rescue(&self, day: &[u8], output: &mut [u8], report: &mut [u8]) -> u64 {
        if let Call(call) = self {
            return call(day, output, report);
        }
        // Into the very rooms, and out of them again where other bytes are due.
        let before = (output.to_vec(), report.to_vec());
        let answer = slices::rescue(day, output, report);
        let Ok((_, records)) = image::open(day) else {
            return answer;
        };
        if answer != 0 {
            return answer;
        }
        let image = day.len() - records.len();
        if let Bytes(change) = self {
            let (written, runs) = (
                number(&report[..8]) as usize,
                number(&report[16..24]) as usize,
            );
            change((output, written), (report, REPORT_HEAD + 16 * runs));
            return 0;
        }
        let mut came = rescue(day).unwrap_or_default();
        match self {
            Walk(at) => came = walked(day, image, *at),
            Came(change) => change(&mut came, image),
            _ => {}
        }
        output.copy_from_slice(&before.0);
        report.copy_from_slice(&before.1);
        came.put(output, report);
        0
    }
}

/// From the end of the image on, whatever stands there.
fn walked(day: &[u8], image: usize, at_place: fn(&[u8]) -> (bool, usize)) -> Rescue {
    let mut came = Rescue {
        output: day[..image].to_vec(),
        ..Rescue::default()
    };
    let mut at = image;
    while at < day.len() {
        let (kept, length) = at_place(&day[at..]);
        let end = day.len().min(at + length);
        match kept {
            true => came.keep(&day[at..end]),
            false => (at..end).for_each(|place| came.drop_byte(place)),
        }
        at = end;
    }
    came
}

/// As it should be, but for so many bytes at a place without a record.
fn dropping(bytes: &[u8], so_many: fn(&[u8]) -> usize) -> (bool, usize) {
    let record = first(bytes);
    match record.op.is_formed() {
        true => (true, record.bytes.len()),
        false => (false, so_many(bytes)),
    }
}

/// As it should be, but for a record of some form that is taken for well formed.
fn keeping(bytes: &[u8], such: bool, length: usize) -> (bool, usize) {
    match such && length <= bytes.len() {
        true => (true, length),
        false => dropping(bytes, |_| 1),
    }
}

const WRONG: [(&str, Wrong); 19] = [
    (
        "two bytes dropped at once",
        Walk(|bytes| dropping(bytes, |_| 2)),
    ),
    (
        "a malformed record dropped as a whole",
        Walk(|bytes| {
            dropping(bytes, |bytes| match first(bytes).op {
                Op::Malformed => first(bytes).bytes.len(),
                _ => 1,
            })
        }),
    ),
    (
        "all dropped from the first damage on",
        Walk(|bytes| dropping(bytes, |bytes| bytes.len())),
    ),
    (
        "a record of 513 bytes kept",
        Walk(|bytes| keeping(bytes, bytes.starts_with(&[0, 0, 2, 1, 1]), 517)),
    ),
    (
        "a record of version 2 kept",
        Walk(|bytes| keeping(bytes, bytes.starts_with(&[0, 0, 0, 2, 2, 6]), 6)),
    ),
    (
        "a cut record kept",
        Walk(|bytes| {
            let cut = bytes.starts_with(&[0, 0, 0]) && bytes.get(4) == Some(&1);
            keeping(bytes, cut && first(bytes).op == Op::Broken, bytes.len())
        }),
    ),
    (
        "places from the image's end",
        Came(|came, image| came.runs.iter_mut().for_each(|run| run.place -= image)),
    ),
    (
        "a kept byte lost",
        Came(|came, _| {
            came.output.pop();
        }),
    ),
    (
        "the last run not listed",
        Came(|came, _| {
            came.runs.pop();
        }),
    ),
    (
        "the image left out",
        Came(|came, image| drop(came.output.drain(..image))),
    ),
    (
        "a record too many counted",
        Came(|came, _| came.records += 1),
    ),
    (
        "a run cut in two",
        Came(|came, _| {
            let last = came.runs.last().copied().filter(|run| run.length > 1);
            if let (Some(run), Some(listed)) = (last, came.runs.last_mut()) {
                listed.length = 1;
                came.runs.push(Run {
                    place: run.place + 1,
                    length: run.length - 1,
                });
            }
        }),
    ),
    (
        "a byte behind the output touched",
        Bytes(|(output, written), _| {
            output[written..]
                .iter_mut()
                .take(1)
                .for_each(|byte| *byte ^= 1)
        }),
    ),
    (
        "a byte behind the report touched",
        Bytes(|_, (report, written)| {
            report[written..]
                .iter_mut()
                .take(1)
                .for_each(|byte| *byte ^= 1)
        }),
    ),
    (
        "a number's low byte first",
        Bytes(|_, (report, _)| report[..8].reverse()),
    ),
    (
        "room asked before the image",
        Call(|day, output, report| match output.len() < day.len() {
            true => 255 << 32,
            false => slices::rescue(day, output, report),
        }),
    ),
    (
        "an output that is just long enough taken",
        Call(|day, output, report| {
            let came = rescue(day).unwrap_or_default();
            let fits = came.output.len() <= output.len() && report_room(day.len()) <= report.len();
            if fits && !came.output.is_empty() {
                came.put(output, report);
                return 0;
            }
            slices::rescue(day, output, report)
        }),
    ),
    (
        "a refused image copied",
        Call(|day, output, report| {
            let answer = slices::rescue(day, output, report);
            if matches!(answer >> 32, 1..=4) {
                output
                    .iter_mut()
                    .zip(day)
                    .for_each(|(to, from)| *to = *from);
            }
            answer
        }),
    ),
    (
        "a refusal without its place",
        Call(|day, output, report| slices::rescue(day, output, report) >> 32 << 32),
    ),
];

/// By what each was found.
pub fn found(folder: &Path) -> Result<String, String> {
    let days = to_rescue(1, DAYS, folder)?.cases;
    let mut lines = String::new();
    for (what, wrong) in &WRONG {
        let rescuer =
            |day: &[u8], output: &mut [u8], report: &mut [u8]| wrong.rescue(day, output, report);
        let found = |case: &Case| one_rescue(&rescuer, &case.day).err();
        match days.iter().find_map(found) {
            Some(words) => lines += &format!("\n  {what}: {words}"),
            None => return Err(format!("a wrong rescuer is not found: {what}")),
        }
    }
    Ok(format!("{} wrong rescuers found:{lines}", WRONG.len()))
}
