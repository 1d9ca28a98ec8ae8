//! `oracle time`: a day in the published Rust alone, nanoseconds a record. `oracle race`: another program beside it, in turns.
//!
//! A race is like for like: the other program and `oracle rust-bench` are both timed as whole processes that read the same file
//! and write the same lines nowhere, each less the same process on the image alone. Times are the processor's. A race over days has `oracle rust-usual`
//! beside them too, the Rust's bench as it is usually written. The Rust's lines lack "held" (02, C-20): it has no such word, and to work it out would
//! take it longer. What ours says there is compared before anything is timed.
//!
//! `oracle time`, and the last column of a race, has the calls alone: parsing and refusals are settled beforehand; a pop's time is that with the
//! fields of its line read out of the sets, which go back to the manager as the real scheduler gives them back.

use std::fs::File;
use std::hint::black_box;
use std::path::{Path, PathBuf};
use std::process::{Command, Stdio};
use std::time::Duration;

use crate::answers::{lines, same_pop, without_held, Ready};
use crate::beside::{child, first_difference};
use crate::compare::{compare, Outcome, NO_LINE};
use crate::deep::applied;
use crate::image::{self, RawTag, Table};
use crate::make::{make, LONG_KINDS};
use crate::plain::{answer, Plain};
use crate::processor;
use crate::records::split;
use crate::sched::rust_side::{Call, RustSide};

/// A day as calls of the Rust.
struct Calls {
    table: Table,
    calls: Vec<Call>,
    /// All records, those that are refused included.
    records: usize,
}

impl Calls {
    fn of(day: &[u8], answers: Option<&[u8]>) -> Result<Self, String> {
        let (table, records) = image::open(day).map_err(|refused| refused.to_string())?;
        let records = split(records);
        let applied = applied(&table, &records, answers)?;
        let maker = RustSide::new(&table, false);
        let calls: Vec<Call> = records
            .iter()
            .zip(&applied)
            .filter(|(_, &applied)| applied)
            .filter_map(|(record, _)| maker.call(&record.op))
            .collect();
        if calls.is_empty() {
            return Err("nothing to time".to_string());
        }
        let records = records.len();
        Ok(Self {
            table,
            calls,
            records,
        })
    }

    /// One run in the Rust.
    fn time(&self) -> Duration {
        let mut rust = RustSide::new(&self.table, false);
        processor::of_call(|| run(&mut rust, black_box(&self.calls)))
    }
}

/// Runs a day so many times and says the best and the median time.
pub fn time(day: &[u8], repeat: usize, answers: Option<&[u8]>) -> Result<String, String> {
    let calls = Calls::of(day, answers)?;
    if repeat == 0 {
        return Err("nothing to time".to_string());
    }
    let count = calls.calls.len();
    let mut times: Vec<f64> = (0..repeat)
        .map(|_| calls.time().as_nanos() as f64 / count as f64)
        .collect();
    times.sort_by(f64::total_cmp);
    Ok(format!(
        "{count} records of {} applied, {repeat} runs: best {:.1} ns a record, median {:.1} ns a record",
        calls.records,
        times[0],
        times[times.len() / 2]
    ))
}

/// Seed of the long days that are raced over: their tables have 11, 19, 11, 10 and 11 scopes.
const RACED: u64 = 170_879;
/// Time for one of them.
const LIMIT: Duration = Duration::from_secs(60);

/// Both on one long day of each kind, in turns, the best of so many runs of each, as a table.
pub fn race(repeat: usize, sides: &Sides<'_>, folder: &Path) -> Result<String, String> {
    let kinds = LONG_KINDS.iter().filter(|kind| kind.contains('-'));
    let day = |kind: &&str| Some((kind.to_string(), make(RACED, kind)?));
    let days: Vec<(String, Vec<u8>)> = kinds.filter_map(day).collect();
    race_over(&days, repeat, sides, folder)
}

/// The same on these days, each with its name.
pub fn race_over(
    days: &[(String, Vec<u8>)],
    repeat: usize,
    sides: &Sides<'_>,
    folder: &Path,
) -> Result<String, String> {
    let mut table = "| long day | events waiting on average | records | ours, ns a record | the Rust, ns a record | ours / the Rust | \
                     the Rust as usually written, ns a record | ours / that | the Rust's calls alone, ns a record |\n\
                     |---|---|---|---|---|---|---|---|---|\n"
        .to_string();
    let calls = |(name, day): &(String, Vec<u8>)| {
        let lines = sides
            .lines(day)
            .map_err(|words| format!("{name}: {words}"))?;
        Calls::of(day, Some(&lines))
    };
    let calls: Vec<Calls> = days.iter().map(calls).collect::<Result<_, String>>()?;
    let image = |day: &[u8]| image::number(&day[..4]) as usize + 4;
    let courses = days.iter().map(|(_, day)| (&day[..], image(day)));
    let mut alone = vec![Duration::MAX; days.len()];
    let turn = |at: usize| alone[at] = alone[at].min(calls[at].time());
    let programs = [sides.ours, sides.rust, sides.usual];
    let courses: Vec<_> = courses.collect();
    let times = times(programs, &courses, repeat, folder, turn)?;
    for (((name, day), calls), (times, alone)) in
        days.iter().zip(&calls).zip(times.iter().zip(alone))
    {
        let each = |time: Duration| time.as_nanos() as f64 / calls.records as f64;
        let ([ours, rust, usual], alone) = (times.map(each), each(alone));
        table.push_str(&format!(
            "| {name} | {:.0} | {} | {ours:.0} | {rust:.0} | {:.2} | {usual:.0} | {:.2} | {alone:.0} |\n",
            waiting(day),
            calls.records,
            ours / rust,
            ours / usual
        ));
    }
    Ok(table)
}

/// Programs that take a day and write its lines: the words that run ours, and those that run the bench over the published Rust, made to be quick and as
/// it is usually written.
pub struct Sides<'w> {
    pub ours: &'w [&'w str],
    pub rust: &'w [&'w str],
    pub usual: &'w [&'w str],
}

impl Sides<'_> {
    /// The lines of a day, on which all agree.
    pub fn lines(&self, day: &[u8]) -> Result<Vec<u8>, String> {
        let ours = child(self.ours, day, LIMIT)?;
        for rust in [self.rust, self.usual] {
            agree(day, &ours, &child(rust, day, LIMIT)?)?;
        }
        Ok(ours)
    }
}

/// How long each of these programs takes for each of these days, less what it takes for so many bytes of its front: as processes, in turns over all
/// days, the best of so many runs each. Behind a day's runs something else has its turn.
pub fn times<const N: usize>(
    programs: [&[&str]; N],
    days: &[(&[u8], usize)],
    repeat: usize,
    folder: &Path,
    mut turn: impl FnMut(usize),
) -> Result<Vec<[Duration; N]>, String> {
    let path = |name: &str, at: usize| folder.join(format!("{name}-{at}"));
    let put = |path: PathBuf, bytes: &[u8]| {
        std::fs::write(&path, bytes).map_err(|error| format!("{}: {error}", path.display()))
    };
    for (at, &(day, front)) in days.iter().enumerate() {
        put(path("day", at), day)?;
        put(path("front", at), &day[..front])?;
    }
    // Of the whole day, and of its front.
    let mut best = vec![[[Duration::MAX; 2]; N]; days.len()];
    for _ in 0..repeat.max(1) {
        for (at, best) in best.iter_mut().enumerate() {
            for (which, name) in ["day", "front"].iter().enumerate() {
                for (best, words) in best.iter_mut().zip(programs) {
                    best[which] = best[which].min(process(words, &path(name, at))?);
                }
            }
            turn(at);
        }
    }
    let less = |best: [[Duration; 2]; N]| best.map(|[day, front]| day.saturating_sub(front));
    Ok(best.into_iter().map(less).collect())
}

/// Whether ours are 01's lines of a day, without a refusal and inside the Rust's domain to its end, and the Rust's are the same.
fn agree(day: &[u8], ours: &[u8], rust: &[u8]) -> Result<(), String> {
    if let Some(words) = first_difference(day, answer(day).as_bytes(), ours)? {
        return Err(words);
    }
    match compare(day, ours)? {
        Outcome::Agree { .. } => {}
        Outcome::LeftDomain { record, why, .. } => {
            return Err(format!("record {record} leaves the domain: {why}"))
        }
        Outcome::Differ(words) => return Err(words),
    }
    let (ours, rust) = (lines(ours)?, lines(rust)?);
    if let Some(line) = ours.iter().find(|line| line.contains("refused")) {
        return Err(format!(
            "a raced day has no refusal, but this has \"{line}\""
        ));
    }
    same_lines(&ours, &rust)
}

/// Whether these lines are the same, byte for byte but for "held", which the Rust's lack, and the order of a line's actions, which its heap
/// leaves open.
pub fn same_lines(ours: &[&str], rust: &[&str]) -> Result<(), String> {
    for at in 0..ours.len().max(rust.len()) {
        let line = |lines: &[&str]| lines.get(at).copied().unwrap_or(NO_LINE).to_string();
        let (ours, rust) = (line(ours), line(rust));
        if !same_pop(&without_held(&ours), &rust) {
            let at = at + 1;
            return Err(format!(
                "line {at}: ours is \"{ours}\", the Rust's \"{rust}\""
            ));
        }
    }
    Ok(())
}

/// The processor's time of one run of a process on a file.
pub fn process(words: &[&str], path: &Path) -> Result<Duration, String> {
    let (program, rest) = words.split_first().ok_or("no program is named")?;
    let fault = |error: std::io::Error| format!("cannot run {program}: {error}");
    let mut command = Command::new(program);
    command.args(rest).stdout(Stdio::null());
    command.stdin(File::open(path).map_err(fault)?);
    let child = command.spawn().map_err(fault)?;
    let (status, time) = processor::of_process(child).map_err(fault)?;
    match status.success() {
        true => Ok(time),
        false => Err(format!("{program} ended badly: {status}")),
    }
}

/// Events waiting after a record, on average.
fn waiting(day: &[u8]) -> f64 {
    let Ok((table, records)) = image::open(day) else {
        return 0.0;
    };
    let mut plain = Plain::new(&table);
    let (mut sum, mut count) = (0, 0);
    for record in split(records) {
        plain.step(&record.op);
        sum += plain.state.events.len();
        count += 1;
    }
    sum as f64 / count as f64
}

fn run(rust: &mut RustSide, calls: &[Call]) {
    let mut ready = Ready::at(RawTag::ZERO);
    for call in calls {
        match call {
            Call::Pop => {
                if rust.pop_into(&mut ready) {
                    black_box(&ready);
                }
            }
            _ => rust.apply(call),
        }
    }
    black_box(rust.work());
}

#[cfg(test)]
mod tests {
    use super::*;
    use crate::days::recorded;
    use crate::domain::Why;
    use crate::text::assemble;
    use crate::{rust_bench, rust_usual};

    /// The lines of the bench over the published Rust, which are those of the usual one, byte for byte.
    fn rust_lines(day: impl std::io::Read + Copy) -> String {
        let (mut given, mut usual) = (Vec::new(), Vec::new());
        rust_bench::run(day, &mut given).unwrap();
        rust_usual::run(day, &mut usual).unwrap();
        assert!(given == usual);
        String::from_utf8(given).unwrap()
    }

    /// Lines of ours as the Rust's bench writes them.
    fn as_rust(lines: &str) -> String {
        let lines = lines.lines().map(|line| without_held(line) + "\n");
        lines.collect()
    }

    fn as_lines(text: &str) -> Vec<&str> {
        text.lines().collect()
    }

    /// Recorded days without 01's refusals that the Rust knows nothing of, each to its end or to where 02's C-14 parts it from the Rust.
    #[test]
    fn the_rust_s_bench_gives_the_recorded_answers() {
        let folder = concat!(env!("CARGO_MANIFEST_DIR"), "/../days");
        let (mut compared, mut refused) = (0, 0);
        for case in recorded(Path::new(folder)).unwrap() {
            let stored = case.recorded.unwrap_or_else(|| answer(&case.day).into());
            let stored = String::from_utf8(stored).unwrap();
            let unknown = ["refused 7", "refused 8", "refused 9"];
            if stored.lines().any(|line| unknown.contains(&line)) {
                continue;
            }
            let given = rust_lines(&case.day[..]);
            let end = match compare(&case.day, stored.as_bytes()) {
                Ok(Outcome::LeftDomain {
                    record,
                    why: Why::ResetScope(_),
                    ..
                }) => record,
                _ => usize::MAX,
            };
            let front = |text| -> Vec<&str> { as_lines(text).into_iter().take(end).collect() };
            let same = same_lines(&front(&stored), &front(&given));
            assert_eq!(same, Ok(()), "{}", case.name);
            compared += 1;
            refused += given.matches("\nrefused ").count();
        }
        assert!(compared > 40 && refused > 100, "{compared}, {refused}");
    }

    #[test]
    fn the_rust_s_bench_takes_a_day_in_pieces_and_cut_anywhere() {
        #[derive(Clone, Copy)]
        struct Pieces<'d>(&'d [u8]);
        impl std::io::Read for Pieces<'_> {
            fn read(&mut self, into: &mut [u8]) -> std::io::Result<usize> {
                let count = into.len().min(self.0.len()).min(7);
                into[..count].copy_from_slice(&self.0[..count]);
                self.0 = &self.0[count..];
                Ok(count)
            }
        }
        let day = make(1, "valid").unwrap();
        for end in (0..day.len().min(3000)).chain([day.len()]) {
            let day = &day[..end];
            let given = rust_lines(Pieces(day));
            let same = same_lines(&as_lines(&answer(day)), &as_lines(&given));
            assert_eq!(same, Ok(()), "cut at {end}");
        }
    }

    const DAY: &str =
        "scope - 0 -; scope 0 0 0; scope 0 0 1; reactor 0 0; mode 1 0; mode 2 0; reaction 3;
        action 0 0; action 0 0; plain 5 0 1 0; act 0 7 0 0 -; act 1 7 0 0 -; pop; pop; pop";

    #[test]
    fn an_order_of_actions_is_left_open_and_nothing_else() {
        let day = assemble(DAY).unwrap();
        let right = answer(&day);
        let with = |ours: &str, rust: &str| agree(&day, ours.as_bytes(), rust.as_bytes());
        assert_eq!(with(&right, &rust_lines(&day[..])), Ok(()));
        assert!(right.contains("actions 0,1\n"));
        let turned = right.replace("actions 0,1\n", "actions 1,0\n");
        assert_eq!(with(&right, &as_rust(&turned)), Ok(()));
        assert!(with(&turned, &as_rust(&right)).is_err());
        assert!(with(&right, &right).is_err(), "the Rust has no \"held\"");
        let held = right.replace("held 0", "held 1");
        assert!(held != right && with(&held, &as_rust(&right)).is_err());
        assert!(with(&as_rust(&right), &as_rust(&right)).is_err());
        for (from, to) in [
            ("ready 5 0", "ready 5 1"),
            ("terminal 1", "terminal 0"),
            ("3:0", "3:1"),
            ("actions 0,1", "actions 0"),
            ("actions 0,1", "actions 0,1,1"),
            ("nothing\n", ""),
            ("nothing\n", "nothing\nok\n"),
        ] {
            let wrong = right.replace(from, to);
            let rust = as_rust(&wrong);
            assert!(wrong != right && with(&right, &rust).is_err(), "{to}");
            assert!(with(&wrong, &rust).is_err(), "{to}");
        }
        let refused = assemble(&format!("{DAY}; plain 5 0 0 9")).unwrap();
        let lines = answer(&refused);
        let words = agree(&refused, lines.as_bytes(), lines.as_bytes()).unwrap_err();
        assert!(words.contains("has \"refused 5\""), "{words}");
    }

    /// Words for a program that reads its day and writes what stands in a file.
    fn writes(path: &Path) -> [String; 4] {
        let script = "cat >/dev/null; cat \"$0\"".to_string();
        let path = path.display().to_string();
        ["sh".to_string(), "-c".to_string(), script, path]
    }

    #[test]
    fn a_race_has_its_row_and_a_wrong_line_ends_it() {
        let folder = std::env::temp_dir().join(format!("race-{}", std::process::id()));
        std::fs::create_dir_all(&folder).unwrap();
        let day = assemble(DAY).unwrap();
        let right = answer(&day);
        let raced = |ours: &str, rust: &str| {
            let (one, two) = (folder.join("ours"), folder.join("rust"));
            std::fs::write(&one, ours).unwrap();
            std::fs::write(&two, rust).unwrap();
            let (one, two) = (writes(&one), writes(&two));
            let sides = Sides {
                ours: &one.iter().map(String::as_str).collect::<Vec<&str>>(),
                rust: &two.iter().map(String::as_str).collect::<Vec<&str>>(),
                usual: &two.iter().map(String::as_str).collect::<Vec<&str>>(),
            };
            race_over(&[("short".to_string(), day.clone())], 1, &sides, &folder)
        };
        let rust = as_rust(&right);
        let table = raced(&right, &rust).unwrap();
        assert!(table.contains("\n| short | 1 | 6 | "), "{table}");
        let wrong = right.replace("ready 5 0", "ready 6 0");
        let words = raced(&right, &as_rust(&wrong)).unwrap_err();
        assert!(words.starts_with("short: line 5: ours is"), "{words}");
        let words = raced(&wrong, &rust).unwrap_err();
        assert!(words.starts_with("short: record 4 (pop)"), "{words}");
        std::fs::remove_dir_all(&folder).unwrap();
    }
}
