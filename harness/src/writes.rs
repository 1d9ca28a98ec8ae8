//! The writer of tables beside the oracle's own: its answers, every byte of the buffer and some behind it; and what was
//! written is a table, and gives the same bytes again.

use barnshiver::slices;
use oracle::image::{self, Refused, ROWS_AT};
use oracle::scripts::writes::{make, Input};
use oracle::scripts::{self, Written};
use oracle::shrink;

use crate::{images, one_table, FILL};

/// The library's function, or one in its place.
pub type Writer<'w> = dyn Fn(&[u8], &[u8], &mut [u8]) -> u64 + 'w;

/// Bytes behind the lent ones, which are looked at too.
pub const BEHIND: usize = 16;

/// What stands in so many bytes before a call; neighbours differ, so that a moved byte shows.
pub fn filled(room: usize) -> Vec<u8> {
    (0..room).map(|at| at as u8 ^ FILL).collect()
}

/// What a refused call answers.
pub fn refused(number: u8, place: u64) -> u64 {
    u64::from(number) << 32 | place
}

fn told(answer: Result<usize, Refused>) -> u64 {
    match answer {
        Ok(length) => length as u64,
        Err(why) => refused(why.number, why.place as u64),
    }
}

fn in_words(answer: u64) -> String {
    match (answer >> 32, answer as u32) {
        (0, length) => format!("{length} bytes"),
        (number, place) => format!("refused {number} at {place}"),
    }
}

/// One call; a difference in words.
pub fn one_write(writer: &Writer<'_>, input: &Input) -> Option<String> {
    let (mut expected, mut got) = (filled(input.room + BEHIND), filled(input.room + BEHIND));
    let answer = image::write(&input.counts, &input.rows, &mut expected[..input.room]);
    let ours = writer(&input.counts, &input.rows, &mut got[..input.room]);
    if ours != told(answer) {
        let (expected, got) = (in_words(told(answer)), in_words(ours));
        return Some(format!("expected {expected}, got {got}"));
    }
    let differs = |&at: &usize| expected[at] != got[at];
    if let Some(at) = (0..expected.len()).find(differs) {
        return Some(format!(
            "{}: byte {at} of a buffer of {}: expected {}, got {}",
            in_words(ours),
            input.room,
            expected[at],
            got[at]
        ));
    }
    again(writer, input, &got[..answer.ok()?])
}

/// What was written is a table on both sides; taken apart, it is what was given; and it is written again with the same bytes.
fn again(writer: &Writer<'_>, input: &Input, written: &[u8]) -> Option<String> {
    if let Some(words) = one_table(written, (0, 0)) {
        return Some(format!("what was written is checked: {words}"));
    }
    if let Err(refused) = image::check(written) {
        return Some(format!("what was written is a {refused} for the oracle"));
    }
    let apart = Input::of(written, input.room);
    if apart != *input {
        return Some(format!("what was written reads as {apart:?}"));
    }
    let mut second = filled(written.len());
    let answer = writer(&apart.counts, &apart.rows, &mut second);
    let same = answer == written.len() as u64 && second == written;
    (!same).then(|| format!("written again: {}, {second:?}", in_words(answer)))
}

/// A difference, on the smallest table that shows it where the counts are of 18 bytes.
fn shown(writer: &Writer<'_>, name: &str, words: &str, input: &Input) -> String {
    if input.counts.len() != slices::COUNTS_BYTES {
        return format!("{name}: {words}\nwith the counts {:?}", input.counts);
    }
    let image = input.image();
    let more = input.room as i64 - image.len() as i64;
    let differs = |image: &[u8]| {
        let room = (image.len() as i64 + more).max(0) as usize;
        let input = (image.len() >= ROWS_AT).then(|| Input::of(image, room))?;
        one_write(writer, &input)
    };
    let way = if more < 0 { "fewer" } else { "more" };
    let (room, by) = (input.room, more.unsigned_abs());
    let name = format!("{name}, into {room} bytes, {by} {way} than the image has");
    shrink::shown(&name, words, &image, differs)
}

/// Made inputs, and made images taken apart.
pub fn writes(seed: u64, count: usize) -> Result<String, String> {
    let made = make(seed, count)?;
    for (index, input) in made.inputs.iter().enumerate() {
        if let Some(words) = one_write(&slices::write_table, input) {
            let name = format!("input {}", index + 1);
            return Err(shown(&slices::write_table, &name, &words, input));
        }
    }
    let apart = taken_apart(&slices::write_table, &scripts::table::write(seed, count)?)?;
    Ok(format!("{}\n{apart}", made.summary))
}

/// Images are taken apart and written: an accepted one with the same bytes, another is refused as the reader does it. Those
/// whose length or version is wrong, which the writer would not make, are left out.
pub fn taken_apart(writer: &Writer<'_>, written: &Written) -> Result<String, String> {
    let (mut same, mut others) = (0, 0);
    for (index, (image, (number, place))) in images(written)?.into_iter().enumerate() {
        if image.len() < ROWS_AT || Input::of(image, 0).image() != image {
            continue;
        }
        let (mut expected, mut got) = (filled(image.len() + BEHIND), filled(image.len() + BEHIND));
        let due = match number {
            0 => {
                same += 1;
                expected[..image.len()].copy_from_slice(image);
                image.len() as u64
            }
            _ => {
                others += 1;
                refused(number, place)
            }
        };
        let input = Input::of(image, got.len());
        let answer = writer(&input.counts, &input.rows, &mut got);
        if (answer, got) != (due, expected) {
            return Err(format!(
                "image {} taken apart and written: expected {}, got {}, or other bytes",
                index + 1,
                in_words(due),
                in_words(answer)
            ));
        }
    }
    match same {
        0 => Err("there is no image that is accepted".to_string()),
        _ => Ok(format!(
            "images taken apart and written: {same} accepted ones with the same bytes, {others} refused as they are read: no difference"
        )),
    }
}
