//! `oracle rescues SEED COUNT FOLDER RESCUER [WORD..] -- BENCH [WORD..]`: a program that rescues damaged days (02, C-23),
//! beside the oracle's own rescue.
//!
//! The rescuer gets a damaged day on standard input. It writes what is kept to standard output, a line "dropped PLACE
//! LENGTH" for each run to standard error, and to descriptor 4 "rescued RECORDS BYTES RUNS" (records kept, bytes and runs
//! dropped) or the table's refusal. All three must be the oracle's, byte for byte. What it rescued must then come out of it
//! unchanged, and the bench program must answer each record of it, none with "refused 1". Days: `days::to_rescue`; some of
//! them are written to the rescuer a few odd bytes at a time. A difference is shown on the smallest day that has one. Where
//! standard output or standard error is full, descriptor 4 must say "unwritten" or "untold"; where the input cannot be read, "unread".

use std::path::{Path, PathBuf};
use std::sync::atomic::{AtomicUsize, Ordering};
use std::time::{Duration, SystemTime, UNIX_EPOCH};

use crate::answers::lines;
use crate::beside::{child, child_in_pieces, Runner, LIMIT, SHORT_LIMIT};
use crate::compare::NO_LINE;
use crate::days::{to_rescue, Case, Damaged, KEYS_PAST_LONGEST};
use crate::image::{Refused, LONGEST, MOST_REACTIONS};
use crate::rescue::{rescue, Rescue, Run};
use crate::several::several;
use crate::shrink::shown;
use crate::text::assemble;

/// What a rescuer gives for a day.
#[derive(Debug, Clone, Default, PartialEq, Eq)]
pub struct Given {
    pub output: Vec<u8>,
    /// On standard error.
    pub list: Vec<u8>,
    /// On descriptor 4.
    pub told: Vec<u8>,
}

impl Given {
    /// What is due for a day that comes to this.
    pub fn of(rescue: &Result<Rescue, Refused>) -> Self {
        match rescue {
            Ok(rescue) => {
                let line = |run: &Run| format!("dropped {} {}\n", run.place, run.length);
                let list: Vec<String> = rescue.runs.iter().map(line).collect();
                let (records, bytes) = (rescue.records, rescue.dropped_bytes());
                Self {
                    output: rescue.output.clone(),
                    list: list.concat().into_bytes(),
                    told: format!("rescued {records} {bytes} {}\n", list.len()).into_bytes(),
                }
            }
            Err(refused) => Self {
                told: format!("{refused}\n").into_bytes(),
                ..Self::default()
            },
        }
    }

    /// Holds what was given to what is due; the first difference in words.
    fn differs(&self, due: &Self) -> Option<String> {
        for (what, due, got) in [
            ("descriptor 4", &due.told, &self.told),
            ("the list", &due.list, &self.list),
        ] {
            let (due, got) = (String::from_utf8_lossy(due), String::from_utf8_lossy(got));
            let (mut dues, mut gots) = (due.split_inclusive('\n'), got.split_inclusive('\n'));
            for at in 1.. {
                let (due, got) = (dues.next(), gots.next());
                if due != got {
                    let (due, got) = (due.unwrap_or(NO_LINE), got.unwrap_or(NO_LINE));
                    return Some(format!("{what}, line {at}: expected {due:?}, got {got:?}"));
                }
                if due.is_none() {
                    break;
                }
            }
        }
        let (due, got) = (&due.output, &self.output);
        if due == got {
            return None;
        }
        let alike = due.iter().zip(got).take_while(|(due, got)| due == got);
        Some(format!(
            "the output: expected {} bytes, got {}; they differ from byte {} on",
            due.len(),
            got.len(),
            alike.count()
        ))
    }
}

/// Runs a rescuer on a day that is written to it so many bytes at a time, in a time.
pub type Rescuer<'r> = dyn Fn(&[u8], usize, Duration) -> Result<Given, String> + Sync + 'r;

/// Holds rescuer and bench to the oracle's rescue of a day.
fn check(
    day: &[u8],
    piece: usize,
    rescuer: &Rescuer<'_>,
    bench: &Runner<'_>,
    limit: Duration,
) -> Result<(), String> {
    let due = rescue(day);
    if let Some(words) = rescuer(day, piece, limit)?.differs(&Given::of(&due)) {
        return Err(words);
    }
    let Ok(kept) = due else {
        return Ok(());
    };
    // Where nothing was dropped it would be the same day again.
    if !kept.runs.is_empty() {
        let whole = Rescue {
            runs: Vec::new(),
            ..kept.clone()
        };
        let again = rescuer(&kept.output, usize::MAX, limit)?;
        if let Some(words) = again.differs(&Given::of(&Ok(whole))) {
            return Err(format!("what it rescued, rescued again: {words}"));
        }
    }
    let answers = bench(&kept.output, limit)?;
    let answers = lines(&answers)?;
    let refused = answers.iter().position(|&line| line == "refused 1");
    match refused {
        Some(at) => Err(format!("the rescued day's record {at} is \"refused 1\"")),
        None if answers.first() != Some(&"table ok") || answers.len() != 1 + kept.records => {
            Err(format!(
                "the rescued day has {} records: the bench answers {:?} and {} lines in all",
                kept.records,
                answers.first(),
                answers.len()
            ))
        }
        None => Ok(()),
    }
}

/// Three of so many days, counted from the last, are written to the rescuer in about so many pieces of an odd number of
/// bytes.
const IN_PIECES: usize = 150;
const PIECES: usize = 41;

fn piece(from_last: usize, day: &[u8]) -> usize {
    match from_last % IN_PIECES {
        0..=2 => (day.len() / PIECES) | 1,
        _ => usize::MAX,
    }
}

/// Runs all days, several at a time; the first that differs is shown on the smallest day.
fn run(cases: &[Case], rescuer: &Rescuer<'_>, bench: &Runner<'_>) -> Result<(), String> {
    let checked = |at: usize, day: &[u8], limit: Duration| {
        let piece = piece(cases.len() - 1 - at, day);
        check(day, piece, rescuer, bench, limit)
    };
    several(cases, |at, case| checked(at, &case.day, LIMIT))
        .map(|_| ())
        .map_err(|(at, words)| {
            let Case { name, day, .. } = &cases[at];
            shown(name, &words, day, |day| checked(at, day, SHORT_LIMIT).err())
        })
}

/// A folder for what a program writes, gone when it is no longer needed.
struct Folder {
    path: PathBuf,
    files: AtomicUsize,
}

impl Folder {
    fn new() -> Result<Self, String> {
        let now = SystemTime::now().duration_since(UNIX_EPOCH);
        let name = format!("oracle-rescues-{}", now.unwrap_or_default().as_nanos());
        let path = std::env::temp_dir().join(name);
        std::fs::create_dir(&path).map_err(|error| format!("{}: {error}", path.display()))?;
        Ok(Self {
            path,
            files: AtomicUsize::new(0),
        })
    }

    /// A child process for each day: a shell, which opens descriptors and becomes the rescuer; others than the usual ones
    /// where it is told to.
    fn child(
        &self,
        words: &[&str],
        (day, piece): (&[u8], usize),
        others: &str,
        limit: Duration,
    ) -> Result<Given, String> {
        let number = self.files.fetch_add(1, Ordering::Relaxed);
        let name = self.path.join(number.to_string()).display().to_string();
        let opens = format!("exec \"$@\" 2>\"$0.list\" 4>\"$0.told\" {others}");
        let shell = ["sh", "-c", &opens, &name];
        let output = child_in_pieces(&[&shell, words].concat(), day, piece, limit)?;
        let taken = |ending: &str| {
            let path = format!("{name}.{ending}");
            let bytes = std::fs::read(&path).map_err(|error| format!("{path}: {error}"));
            // It goes with the folder at last.
            let _ = std::fs::remove_file(&path);
            bytes
        };
        Ok(Given {
            output,
            list: taken("list")?,
            told: taken("told")?,
        })
    }

    /// A rescuer that cannot write says so.
    fn unwritten(&self, words: &[&str]) -> Result<(), String> {
        let day = assemble("scope - 0 -; reactor 0 -; pop; raw 00")?;
        for (others, due) in [
            (">/dev/full", "unwritten\n"),
            ("2>/dev/full", "untold\n"),
            ("</", "unread\n"),
        ] {
            let told = self.child(words, (&day, usize::MAX), others, LIMIT)?.told;
            if told != due.as_bytes() {
                let told = String::from_utf8_lossy(&told);
                return Err(format!("with {others}: expected {due:?}, got {told:?}"));
            }
        }
        Ok(())
    }
}

impl Drop for Folder {
    fn drop(&mut self) {
        // Nothing is left to be done if it stays.
        let _ = std::fs::remove_dir_all(&self.path);
    }
}

/// So many damaged days through both programs; `Err` if a file cannot be read or written.
pub fn rescues(
    seed: u64,
    count: usize,
    folder: &Path,
    rescuer: &[&str],
    bench: &[&str],
) -> Result<Result<String, String>, String> {
    let damaged = to_rescue(seed, count, folder)?;
    let room = Folder::new()?;
    let rescued =
        |day: &[u8], piece: usize, limit: Duration| room.child(rescuer, (day, piece), "", limit);
    let answered = |day: &[u8], limit: Duration| child(bench, day, limit);
    Ok(room
        .unwritten(rescuer)
        .and_then(|()| run(&damaged.cases, &rescued, &answered))
        .and_then(|()| shows(&damaged)))
}

// ---------------------------------------------------------------- what the days show

/// Whether a day and what it comes to show something.
type Shows = fn(&[u8], &Result<Rescue, Refused>) -> bool;

/// Bytes of a record's length.
const LENGTH: usize = 4;
/// What must be shown where there are so many days or more.
const MANY: usize = 3000;
const CLASSES: [(&str, Shows); 17] = [
    ("image refused 1", |_, came| refused(came) == 1),
    ("2", |_, came| refused(came) == 2),
    ("3", |_, came| refused(came) == 3),
    ("4", |_, came| refused(came) == 4),
    ("nothing dropped", |_, came| runs(came, |runs| runs == 0)),
    ("one run", |_, came| runs(came, |runs| runs == 1)),
    ("two", |_, came| runs(came, |runs| runs == 2)),
    ("more", |_, came| runs(came, |runs| runs > 2)),
    ("over 9,000", |_, came| runs(came, |runs| runs > 9000)),
    ("no record kept", |_, came| {
        came.as_ref().is_ok_and(|kept| kept.records == 0)
    }),
    ("a run right behind the image", |day, came| {
        run_is(came, |place, _| {
            place == crate::image::number(&day[..4]) as usize + 4
        })
    }),
    ("at the end", |day, came| {
        run_is(came, |place, length| place + length == day.len())
    }),
    ("of one byte", |_, came| {
        run_is(came, |_, length| length == 1)
    }),
    ("longer than any record", |_, came| {
        run_is(came, |_, length| length > LENGTH + LONGEST)
    }),
    ("than a buffer", |_, came| {
        run_is(came, |_, length| length > 65_536)
    }),
    ("with a plain record of 513 bytes", |day, came| {
        run_is(came, |place, length| {
            let mut there = day[place..place + length].windows(LENGTH + LONGEST + 1);
            let keys = (KEYS_PAST_LONGEST as u16).to_be_bytes();
            there.any(|record| record.starts_with(&[0, 0, 2, 1, 1, 1]) && record[19..21] == keys)
        })
    }),
    ("a record of 128 keys kept", |_, came| {
        let count = MOST_REACTIONS as u8;
        let keys = |kept: &Rescue| {
            kept.output
                .windows(6)
                .any(|some| some == [0, count, 0, 1, 0, 1])
        };
        came.as_ref().is_ok_and(keys)
    }),
];

fn refused(came: &Result<Rescue, Refused>) -> u8 {
    came.as_ref().map_or_else(|refused| refused.number, |_| 0)
}

fn runs(came: &Result<Rescue, Refused>, so_many: fn(usize) -> bool) -> bool {
    came.as_ref().is_ok_and(|kept| so_many(kept.runs.len()))
}

fn run_is(came: &Result<Rescue, Refused>, such: impl Fn(usize, usize) -> bool) -> bool {
    let kept = came.as_ref();
    kept.is_ok_and(|kept| kept.runs.iter().any(|run| such(run.place, run.length)))
}

/// How many days show what, in words; an error where there are many and something is shown by none.
pub fn shows(damaged: &Damaged) -> Result<String, String> {
    let Damaged {
        cases,
        at_one_byte,
        long,
    } = damaged;
    if cases.is_empty() {
        return Err("there is no damaged day".to_string());
    }
    let mut shown = [0; CLASSES.len()];
    let (mut records, mut bytes) = (0, 0);
    for case in cases {
        let came = rescue(&case.day);
        for (shown, (_, shows)) in shown.iter_mut().zip(CLASSES) {
            *shown += usize::from(shows(&case.day, &came));
        }
        if let Ok(kept) = came {
            records += kept.records;
            bytes += kept.dropped_bytes();
        }
    }
    let named = || CLASSES.iter().map(|(name, _)| name).zip(shown);
    if let (true, Some((name, _))) = (cases.len() >= MANY, named().find(|(_, shown)| *shown == 0)) {
        return Err(format!(
            "none of {} damaged days shows \"{name}\"",
            cases.len()
        ));
    }
    let named: Vec<String> = named()
        .map(|(name, shown)| format!("{name}: {shown}"))
        .collect();
    Ok(format!(
        "{} damaged days, {at_one_byte} of them small ones damaged at one byte and {long} long ones; {records} records kept, {bytes} bytes \
         dropped\n  {}\nno difference",
        cases.len(),
        named.join("; ")
    ))
}

#[cfg(test)]
mod tests {
    use super::*;
    use crate::days::{made, SHORT};
    use crate::plain::answer;

    /// The oracle's own rescue, put through a change.
    fn rescuer<'r>(change: impl Fn(&[u8], &mut Given) + Sync + 'r) -> Box<Rescuer<'r>> {
        Box::new(move |day: &[u8], _: usize, _: Duration| {
            let mut given = Given::of(&rescue(day));
            change(day, &mut given);
            Ok(given)
        })
    }

    /// The plain machine, its answers put through a change.
    fn bench<'r>(change: impl Fn(String) -> String + Sync + 'r) -> Box<Runner<'r>> {
        Box::new(move |day: &[u8], _: Duration| Ok(change(answer(day)).into_bytes()))
    }

    fn same(answers: String) -> String {
        answers
    }

    /// Some damaged days, without the long ones.
    fn cases() -> Vec<Case> {
        let mut damaged = to_rescue(1, 150, Path::new("../days")).unwrap();
        assert_eq!(damaged.cases.len(), 150);
        damaged.cases.truncate(150 - damaged.long);
        damaged.cases.retain(|case| case.day.len() < SHORT);
        damaged.cases
    }

    #[test]
    fn what_is_wrong_is_shown_on_a_small_day() {
        let cases = cases();
        let report = |change: fn(&[u8], &mut Given)| run(&cases, &*rescuer(change), &*bench(same));
        assert_eq!(report(|_, _| ()), Ok(()));
        let found = |change: fn(&[u8], &mut Given), words: &str| {
            let report = report(change).unwrap_err();
            let (_, there) = report.split_once("\nthere: ").unwrap();
            assert!(there.starts_with(words), "{report}");
        };
        found(
            |_, given| given.output.truncate(32),
            "the output: expected 33 bytes, got 32; they differ from byte 32 on",
        );
        found(
            |_, given| given.list.clear(),
            "the list, line 1: expected \"dropped 33 1\\n\", got \"(no line)\"",
        );
        found(
            |_, given| given.list.extend(b"dropped 0 0\n"),
            "the list, line 1: expected \"(no line)\", got \"dropped 0 0\\n\"",
        );
        found(
            |_, given| given.told.clear(),
            "descriptor 4, line 1: expected \"table refused 3 5\\n\", got \"(no line)\"",
        );
        // What cannot be rescued is copied.
        let copied = |day: &[u8], given: &mut Given| {
            if given.output.is_empty() {
                given.output = day.to_vec();
            }
        };
        found(copied, "the output: expected 0 bytes, got ");
    }

    #[test]
    fn what_was_rescued_is_looked_at_too() {
        let day = assemble("scope - 0 -; reactor 0 -; raw 00; pop; pop").unwrap();
        let checked = |rescuer: &Rescuer<'_>, bench: &Runner<'_>| {
            check(&day, usize::MAX, rescuer, bench, LIMIT)
        };
        let right = rescuer(|_, _| ());
        assert_eq!(checked(&*right, &*bench(same)), Ok(()));
        // Wrong where nothing is to be dropped.
        let again = rescuer(|day: &[u8], given: &mut Given| {
            if given.output == day {
                given.told.insert(0, b' ');
            }
        });
        let words = checked(&*again, &*bench(same)).unwrap_err();
        assert!(words.starts_with("what it rescued, rescued again: descriptor 4, line 1"));
        let refused = |answers: String| answers.replacen("nothing", "refused 1", 1);
        assert_eq!(
            checked(&*right, &*bench(refused)).unwrap_err(),
            "the rescued day's record 1 is \"refused 1\""
        );
        let fewer = |answers: String| answers.replacen("nothing\n", "", 1);
        assert_eq!(
            checked(&*right, &*bench(fewer)).unwrap_err(),
            "the rescued day has 2 records: the bench answers Some(\"table ok\") and 2 lines in all"
        );
    }

    #[test]
    fn what_no_day_shows_is_said() {
        let few = |count| Damaged {
            cases: vec![made(0, "valid"); count],
            at_one_byte: count,
            long: 0,
        };
        assert!(shows(&few(MANY - 1)).is_ok());
        assert!(shows(&few(MANY)).unwrap_err().starts_with("none of 3000 "));
    }
}
