//! Writers of tables that are wrong in one way, in the library's place: each must be found among the first made inputs, and
//! those that need no spoiled input on images taken apart too.

use barnshiver::slices::{write_table, COUNTS_BYTES};
use oracle::image::{past_limits, starts, RawRows, ROWS_AT};
use oracle::scripts::table;
use oracle::scripts::writes::{make, Input};

use crate::writes::{one_write, refused, taken_apart};

/// So many inputs.
const INPUTS: usize = 3000;

/// What is made wrong.
enum Wrong {
    /// The buffer after an image of so many bytes was written, and how many are answered.
    Image(fn(&mut [u8], usize) -> usize),
    /// A refusal's number and place.
    Refusal(fn(u8, u64) -> (u8, u64)),
    /// The whole call.
    Call(fn(&[u8], &[u8], &mut [u8]) -> u64),
}

use Wrong::{Call, Image, Refusal};

impl Wrong {
    fn write(&self, counts: &[u8], rows: &[u8], buffer: &mut [u8]) -> u64 {
        if let Call(call) = self {
            return call(counts, rows, buffer);
        }
        let answer = write_table(counts, rows, buffer);
        match (self, (answer >> 32) as u8) {
            (Image(change), 0) => change(buffer, answer as usize) as u64,
            (Refusal(change), number @ 1..) => {
                let (number, place) = change(number, answer & u64::from(u32::MAX));
                refused(number, place)
            }
            _ => answer,
        }
    }
}

const WRONG: [(&str, Wrong); 20] = [
    (
        "the length's low byte first",
        Image(|buffer, length| {
            buffer[..4].reverse();
            length
        }),
    ),
    (
        "a length that counts itself",
        Image(|buffer, length| {
            buffer[..4].copy_from_slice(&(length as u32).to_be_bytes());
            length
        }),
    ),
    (
        "a count short",
        Image(|buffer, length| {
            buffer.copy_within(ROWS_AT..length, ROWS_AT - 2);
            length - 2
        }),
    ),
    (
        "the last byte wrong",
        Image(|buffer, length| {
            buffer[length - 1] ^= 1;
            length
        }),
    ),
    (
        "a byte past the image touched",
        Image(|buffer, length| {
            buffer[length..]
                .iter_mut()
                .take(1)
                .for_each(|byte| *byte ^= 1);
            length
        }),
    ),
    ("the length field answered", Image(|_, length| length - 4)),
    (
        "a row's place among the rows",
        Refusal(|number, place| match number {
            4 => (4, place - ROWS_AT as u64),
            _ => (number, place),
        }),
    ),
    (
        "a count's place by its kind",
        Refusal(|number, place| match number {
            3 => (3, (place - 5) / 2),
            _ => (number, place),
        }),
    ),
    (
        "255 in the place of 1",
        Refusal(|number, place| (if number == 1 { 255 } else { number }, place)),
    ),
    (
        "3 in the place of 4",
        Refusal(|number, place| (number.min(3), place)),
    ),
    (
        "a refused call that wrote",
        Call(|counts, rows, buffer| {
            let answer = write_table(counts, rows, buffer);
            if answer >> 32 > 0 {
                buffer
                    .iter_mut()
                    .zip(counts)
                    .for_each(|(at, byte)| *at = *byte);
            }
            answer
        }),
    ),
    (
        "a short buffer that is filled",
        Call(|counts, rows, buffer| {
            let mut image = vec![0; ROWS_AT + rows.len()];
            let answer = write_table(counts, rows, &mut image);
            if answer >> 32 == 0 && buffer.len() < image.len() {
                buffer.copy_from_slice(&image[..buffer.len()]);
                return refused(1, 0);
            }
            write_table(counts, rows, buffer)
        }),
    ),
    (
        "the buffer asked first",
        Call(
            |counts, rows, buffer| match buffer.len() < ROWS_AT + rows.len() {
                true => refused(1, 0),
                false => write_table(counts, rows, buffer),
            },
        ),
    ),
    (
        "whether rows fit asked before the counts",
        Call(
            |counts, rows, buffer| match starts(counts)[9] == ROWS_AT + rows.len() {
                true => write_table(counts, rows, buffer),
                false => refused(1, 0),
            },
        ),
    ),
    (
        "rows asked before whether they fit",
        Call(|counts, rows, buffer| {
            let due = starts(counts)[9] - ROWS_AT;
            let answer = write_table(counts, &rows[..due.min(rows.len())], &mut []);
            match answer >> 32 {
                4 => answer,
                _ => write_table(counts, rows, buffer),
            }
        }),
    ),
    (
        "the last of two counts",
        Call(|counts, rows, buffer| match past_limits(counts).last() {
            Some(place) if counts.len() == COUNTS_BYTES => refused(3, place as u64),
            _ => write_table(counts, rows, buffer),
        }),
    ),
    (
        "the last of two rows",
        Call(|counts, rows, buffer| {
            let answer = write_table(counts, rows, buffer);
            let (counts, rows) = (counts.to_vec(), rows.to_vec());
            let image = Input {
                counts,
                rows,
                room: 0,
            }
            .image();
            let last = || RawRows::new(&image).broken().last();
            match (answer >> 32 == 4).then(last).flatten() {
                Some(broken) => refused(4, broken.place as u64),
                None => answer,
            }
        }),
    ),
    (
        "counts past the ninth passed over",
        Call(|counts, rows, buffer| {
            write_table(&counts[..counts.len().min(COUNTS_BYTES)], rows, buffer)
        }),
    ),
    (
        "the length of rows in two bytes",
        Call(|counts, rows, buffer| write_table(counts, &rows[..rows.len() & 0xffff], buffer)),
    ),
    (
        "31 scopes at most",
        Call(|counts, rows, buffer| match counts {
            [0, 32, ..] if counts.len() == COUNTS_BYTES => refused(3, 5),
            _ => write_table(counts, rows, buffer),
        }),
    ),
];

/// Where each was found, and by what.
pub fn found() -> Result<String, String> {
    let inputs = make(1, INPUTS)?.inputs;
    let right = |(index, input)| Some((index, one_write(&write_table, input)?));
    if let Some((index, words)) = inputs.iter().enumerate().find_map(right) {
        return Err(format!("the library's writer, input {index}: {words}"));
    }
    let images = table::write(1, INPUTS)?;
    taken_apart(&write_table, &images)?;
    let (mut lines, mut on_images) = (String::new(), 0);
    for (what, wrong) in &WRONG {
        let writer =
            |counts: &[u8], rows: &[u8], buffer: &mut [u8]| wrong.write(counts, rows, buffer);
        let found = |(index, input)| Some((index + 1, one_write(&writer, input)?));
        match inputs.iter().enumerate().find_map(found) {
            Some((index, words)) => lines += &format!("\n  {what}: input {index}: {words}"),
            None => return Err(format!("a wrong writer of tables is not found: {what}")),
        }
        if !matches!(wrong, Call(_)) {
            on_images += 1;
            if taken_apart(&writer, &images).is_ok() {
                return Err(format!("a wrong writer is not found on images: {what}"));
            }
        }
    }
    let all = WRONG.len();
    Ok(format!(
        "{all} wrong writers of tables found, {on_images} of them on images taken apart too:{lines}"
    ))
}
