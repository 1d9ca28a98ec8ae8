//! What is still whole of a damaged day.

use std::fmt;

use crate::slices::{self, report_room, REPORT_HEAD, RUN_BYTES};
use crate::state::number;
use crate::TableRefused;

/// Bytes that were dropped: where they begin, counted from the day's first byte, and how many they are.
#[derive(Debug, Clone, Copy, PartialEq, Eq)]
pub struct Run {
    pub place: u64,
    pub length: u64,
}

/// The line of `./rescue`.
impl fmt::Display for Run {
    fn fmt(&self, f: &mut fmt::Formatter<'_>) -> fmt::Result {
        write!(f, "dropped {} {}", self.place, self.length)
    }
}

/// What a damaged day comes to.
#[derive(Debug, Clone, PartialEq, Eq)]
pub struct Rescued {
    /// The image and the kept records: a day again, of which no record is malformed.
    pub day: Vec<u8>,
    /// How many records were kept.
    pub records: u64,
    /// As long as they get, in order.
    pub dropped: Vec<Run>,
}

/// Keeps the image of a damaged day and, from its end on, each record that is well formed; where the bytes at a place are
/// none, one byte is dropped and the next place is tried (02, C-23). Dropped bytes may hide a lost push; a push that lost its
/// last byte may take the first one of the record behind it, which is then dropped in its stead.
pub fn rescue(day: &[u8]) -> Result<Rescued, TableRefused> {
    let (mut kept, mut report) = (vec![0; day.len()], vec![0; report_room(day.len())]);
    let answer = slices::rescue(day, &mut kept, &mut report);
    if answer != 0 {
        return Err(TableRefused {
            number: (answer >> 32) as u8,
            place: answer & u64::from(u32::MAX),
        });
    }
    let (head, list) = report.split_at(REPORT_HEAD);
    let [bytes, records, runs] = [0, 8, 16].map(|at| number(&head[at..at + 8]));
    kept.truncate(bytes as usize);
    let run = |bytes: &[u8]| Run {
        place: number(&bytes[..8]),
        length: number(&bytes[8..]),
    };
    let list = list.chunks_exact(RUN_BYTES).take(runs as usize);
    Ok(Rescued {
        day: kept,
        records,
        dropped: list.map(run).collect(),
    })
}

#[cfg(test)]
mod tests {
    use super::*;
    use crate::{run_day, Table, NONE};

    const PLAIN: [u8; 21] = [
        0, 0, 0, 17, 1, 1, 0, 0, 0, 0, 0, 0, 0, 5, 0, 0, 0, 0, 0, 0, 0,
    ];
    const POP: [u8; 6] = [0, 0, 0, 2, 1, 6];

    fn image() -> Vec<u8> {
        let table = Table {
            scopes: vec![[NONE, 0, NONE]],
            reactors: vec![[0, NONE]],
            ..Table::default()
        };
        table.written().unwrap()
    }

    #[test]
    fn a_push_without_its_last_byte_takes_the_next_one() {
        let damaged = [&image()[..], &PLAIN[..20], &POP, &POP].concat();
        let rescued = rescue(&damaged).unwrap();
        assert_eq!(rescued.day, [&image()[..], &PLAIN, &POP].concat());
        let place = image().len() as u64 + 21;
        assert_eq!(rescued.dropped, [Run { place, length: 5 }]);
        assert_eq!(
            (rescued.records, rescued.dropped[0].to_string()),
            (2, format!("dropped {place} 5"))
        );
        assert!(run_day(&rescued.day).ends_with(b"actions -\n"));
        let again = rescue(&rescued.day).unwrap();
        assert_eq!((again.day, again.records), (rescued.day, 2));
        assert_eq!(again.dropped, []);
    }

    #[test]
    fn several_runs_and_an_image_that_is_refused() {
        let mut damaged = [&image()[..], &[9], &POP, &[0, 0], &POP, &[7, 7, 7]].concat();
        let rescued = rescue(&damaged).unwrap();
        let runs: Vec<_> = rescued
            .dropped
            .iter()
            .map(|run| (run.place, run.length))
            .collect();
        assert_eq!(
            (rescued.records, runs),
            (2, vec![(33, 1), (40, 2), (48, 3)])
        );
        damaged[4] = 2;
        let refused = rescue(&damaged).unwrap_err();
        assert_eq!(
            refused.to_string(),
            "table refused 2 at byte 4: its version is not 1"
        );
        assert!(rescue(&[]).is_err());
    }
}
