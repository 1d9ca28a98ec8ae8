//! The oracle's own rescue of a damaged gate day, from the words of 02, C-23.

use crate::image::{self, Refused};
use crate::records;

/// Bytes that were dropped: where they begin, counted from the file's first byte, and how many they are.
#[derive(Debug, Clone, Copy, PartialEq, Eq)]
pub struct Run {
    pub place: usize,
    pub length: usize,
}

/// What a damaged day comes to.
#[derive(Debug, Clone, Default, PartialEq, Eq)]
pub struct Rescue {
    /// "The output has the image and the kept records only".
    pub output: Vec<u8>,
    /// How many records were kept.
    pub records: usize,
    /// "a list names each run of dropped bytes by place and length".
    pub runs: Vec<Run>,
}

impl Rescue {
    pub fn keep(&mut self, record: &[u8]) {
        self.output.extend(record);
        self.records += 1;
    }

    /// A byte behind the last dropped one makes that run longer.
    pub fn drop_byte(&mut self, place: usize) {
        match self.runs.last_mut() {
            Some(run) if run.place + run.length == place => run.length += 1,
            _ => self.runs.push(Run { place, length: 1 }),
        }
    }

    pub fn dropped_bytes(&self) -> usize {
        self.runs.iter().map(|run| run.length).sum()
    }

    /// The output over the front of bytes that have room for it, and a report likewise: the output's bytes, the records and
    /// the runs, then place and length of each run, as numbers of eight bytes.
    pub fn put(&self, output: &mut [u8], report: &mut [u8]) {
        output[..self.output.len()].copy_from_slice(&self.output);
        let head = [self.output.len(), self.records, self.runs.len()];
        let runs = self.runs.iter().flat_map(|run| [run.place, run.length]);
        for (bytes, number) in report.chunks_exact_mut(8).zip(head.into_iter().chain(runs)) {
            bytes.copy_from_slice(&(number as u64).to_be_bytes());
        }
    }
}

/// "from the end of the image it takes each record that is well formed by 01's rules; where the bytes at a place aren't
/// one, it drops a byte and tries the next place"; "An image that is refused rescues nothing."
pub fn rescue(day: &[u8]) -> Result<Rescue, Refused> {
    let (_, records) = image::open(day)?;
    let mut at = day.len() - records.len();
    let mut rescue = Rescue {
        output: day[..at].to_vec(),
        ..Rescue::default()
    };
    while at < day.len() {
        let record = records::first(&day[at..]);
        if record.op.is_formed() {
            rescue.keep(record.bytes);
            at += record.bytes.len();
        } else {
            rescue.drop_byte(at);
            at += 1;
        }
    }
    Ok(rescue)
}

/// Bytes of a report before its runs, and most bytes that the runs of a day of so many bytes take.
const REPORT_HEAD: usize = 24;
pub fn report_room(bytes: usize) -> usize {
    REPORT_HEAD + 16 + 3 * bytes
}

/// The same as the exported function has it: the output and the report over the front of lent bytes and 0; or the refusal,
/// its number times 2^32 and its place, or 255 times 2^32 for too little room, and all bytes stay.
pub fn rescue_into(day: &[u8], output: &mut [u8], report: &mut [u8]) -> u64 {
    match rescue(day) {
        Err(refused) => u64::from(refused.number) << 32 | refused.place as u64,
        Ok(_) if output.len() < day.len() || report.len() < report_room(day.len()) => 255 << 32,
        Ok(rescue) => {
            rescue.put(output, report);
            0
        }
    }
}

#[cfg(test)]
mod tests {
    use super::*;
    use crate::make::{make, KINDS};
    use crate::text::assemble;

    const TABLE: &str = "scope - 0 -; reactor 0 -; reaction 0;";
    /// Its bytes.
    const IMAGE: usize = 34;

    fn day(records: &str) -> Vec<u8> {
        assemble(&format!("{TABLE} {records}")).unwrap()
    }

    /// What is kept, as records' text, how many they are, and the runs by place and length.
    fn comes_to(damaged: &[u8], kept: &str, records: usize, runs: &[(usize, usize)]) {
        let rescue = rescue(damaged).unwrap();
        assert_eq!(rescue.output, day(kept));
        let pairs = rescue.runs.iter().map(|run| (run.place, run.length));
        assert_eq!(pairs.collect::<Vec<_>>(), runs);
        assert_eq!(rescue.records, records);
        assert_eq!(
            rescue.output.len() + rescue.dropped_bytes(),
            damaged.len(),
            "each byte is kept or dropped"
        );
    }

    #[test]
    fn a_push_that_lost_its_last_byte_takes_the_next_record_s_first_zero() {
        let mut damaged = day("plain 5 0 0 -; pop; pop");
        // The push has 21 bytes.
        damaged.remove(IMAGE + 20);
        comes_to(&damaged, "plain 5 0 0 -; pop", 2, &[(IMAGE + 21, 5)]);
    }

    #[test]
    fn a_day_whose_records_are_all_well_formed_comes_out_unchanged() {
        comes_to(&day("plain 5 0 0 0; pop"), "plain 5 0 0 0; pop", 2, &[]);
        comes_to(&day(""), "", 0, &[]);
        let mut days = 0;
        for seed in 0..40 {
            for kind in KINDS {
                let day = make(seed, kind).unwrap();
                let Ok((_, bytes)) = image::open(&day) else {
                    continue;
                };
                let all = records::split(bytes);
                if all.iter().all(|record| record.op.is_formed()) {
                    let records = all.len();
                    let (output, runs) = (day.clone(), Vec::new());
                    let whole = Rescue {
                        output,
                        records,
                        runs,
                    };
                    assert_eq!(rescue(&day), Ok(whole), "seed {seed} kind {kind}");
                    days += 1;
                }
            }
        }
        assert!(days > 100);
    }

    #[test]
    fn damage_behind_the_image_at_the_end_and_between() {
        comes_to(&day("raw ff; pop"), "pop", 1, &[(IMAGE, 1)]);
        comes_to(&day("pop; raw 0000"), "pop", 1, &[(IMAGE + 6, 2)]);
        // A cut pop: five of its bytes.
        comes_to(&day("pop; raw 0000000201"), "pop", 1, &[(IMAGE + 6, 5)]);
        let two = day("control 1 0; raw 07; pop; raw 0909; pop");
        let (first, second) = ((IMAGE + 18, 1), (IMAGE + 25, 2));
        comes_to(&two, "control 1 0; pop; pop", 3, &[first, second]);
        comes_to(&day("raw 00000000000000"), "", 0, &[(IMAGE, 7)]);
    }

    #[test]
    fn a_record_of_another_version_op_or_flag_is_dropped() {
        // The pop of version 2; op 7; a control with a byte too many; a transition that is neither reset nor history.
        for wrong in [
            "000000020206",
            "000000020107",
            "0000000f0103000000000000000000000000ff",
            "0000001301050000000002000000000000000500000000",
        ] {
            let damaged = day(&format!("pop; raw {wrong}; pop"));
            let run = (IMAGE + 6, wrong.len() / 2);
            comes_to(&damaged, "pop; pop", 2, &[run]);
        }
    }

    #[test]
    fn the_longest_records() {
        let keys = |count: usize| crate::answers::joined(&vec![0; count]);
        // 128 keys at most: 513 bytes, 512, and those of one key too many.
        for (line, body) in [
            (format!("plain 5 0 0 {}", keys(248)), 513),
            (format!("network 5 0 {}", keys(248)), 512),
            (format!("act 0 5 0 0 {}", keys(129)), 277),
        ] {
            let damaged = day(&format!("pop; {line}; pop"));
            comes_to(&damaged, "pop; pop", 2, &[(IMAGE + 6, 4 + body)]);
        }
        let longest = format!("act 0 5 0 0 {}; pop", keys(128));
        comes_to(&day(&longest), &longest, 2, &[]);
    }

    #[test]
    fn a_refused_image_rescues_nothing_and_comes_before_too_little_room() {
        let refused = |number, place| Err(Refused { number, place });
        let mut other = day("pop");
        assert_eq!(rescue(&other[..IMAGE - 1]), refused(1, 0));
        other[4] = 2;
        assert_eq!(rescue(&other), refused(2, 4));
        assert_eq!(rescue_into(&other, &mut [], &mut []), 2 << 32 | 4);
        other[4] = 1;
        other[IMAGE - 1] = 16;
        assert_eq!(rescue(&other), refused(4, IMAGE - 1));
        assert_eq!(rescue(&[]), refused(1, 0));
    }

    #[test]
    fn output_and_report_stand_in_front_of_what_was_there() {
        let damaged = day("pop; raw 0909; pop; raw 09");
        let room = report_room(damaged.len());
        let (mut output, mut report) = (vec![0xa5; damaged.len() + 1], vec![0xa5; room + 1]);
        let short = [(damaged.len() - 1, room), (damaged.len(), room - 1)];
        for (one, other) in short {
            let answer = rescue_into(&damaged, &mut output[..one], &mut report[..other]);
            assert_eq!(answer, 255 << 32);
        }
        let untouched = |bytes: &[u8]| bytes.iter().all(|&byte| byte == 0xa5);
        assert!(untouched(&output) && untouched(&report));
        assert_eq!(rescue_into(&damaged, &mut output, &mut report), 0);
        let kept = day("pop; pop");
        assert_eq!(output[..kept.len()], kept);
        assert!(untouched(&output[kept.len()..]));
        let numbers: Vec<u64> = report[..56].chunks(8).map(image::number).collect();
        let image = IMAGE as u64;
        assert_eq!(numbers, [image + 12, 2, 2, image + 6, 2, image + 14, 1]);
        assert!(untouched(&report[56..]));
    }
}
