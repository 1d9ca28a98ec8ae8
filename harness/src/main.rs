//! The library beside the oracle: clock maps, images read and written, runs of days, the state after every record, and
//! damaged days rescued.

use std::io::Write;
use std::path::{Path, PathBuf};
use std::process::ExitCode;

use barnshiver::slices::{NO_ROOM, PLACE_BYTES};
use barnshiver::state::STATE_BYTES;
use barnshiver::{slices, ImageRefused, State, LINE_ROOM};
use oracle::image::{self, number};
use oracle::make::{make, KINDS};
use oracle::plain::{self, Plain};
use oracle::records::split;
use oracle::several::several;
use oracle::{deep, scripts, shrink};

mod beside;
mod maps;
mod rescues;
mod seen;
mod selftest;
mod writes;
mod wrong;
mod wrong_maps;
mod wrong_rescues;

const USAGE: &str = "\
harness maps SEED COUNT      clock maps against the published clock's and 01's answers
harness tables SEED COUNT    the table check on images, valid and damaged
harness tables days FOLDER   the same on the images of recorded days
harness writes SEED COUNT    the writer of tables on made counts and rows, a third of them refused, and on images taken apart;
                             it says how many inputs show what, and fails where something is shown by none (COUNT 3000 or more)
harness writes days FOLDER   the images of recorded days taken apart and written
harness days FROM TO         made days of every kind, seeds FROM to TO - 1: the lines, and the state after every record
                             against the Rust's and the plain machine's
harness days recorded FOLDER the same on recorded days
harness beside FROM TO DAMAGED FOLDER [SEEDS PROGRAM [WORD..]]
                             the lines of the days that `oracle beside` has, all in this process; and PROGRAM's on the recorded, long and
                             damaged ones and on the made ones of the first so many SEEDS
harness rescues SEED COUNT FOLDER
                             the rescue of so many damaged days, recorded and made ones: the answer, output and report, in rooms that fit
                             and that don't; what was rescued is run, and rescued again. It says how many days show what (as with writes)
harness selftest             wrong answers, states, maps, writers and rescuers in the library's place, each of which must be found
harness help                 these lines

Exit status: 0 all agrees, 1 a difference, 2 the arguments are at fault.";

fn main() -> ExitCode {
    let arguments: Vec<String> = std::env::args().skip(1).collect();
    let words: Vec<&str> = arguments.iter().map(String::as_str).collect();
    let outcome = match words[..] {
        ["tables", "days", folder] => {
            scripts::table::write_days(Path::new(folder)).and_then(tables)
        }
        ["writes", "days", folder] => scripts::table::write_days(Path::new(folder))
            .and_then(|written| writes::taken_apart(&slices::write_table, &written)),
        ["days", "recorded", folder] => recorded(Path::new(folder)),
        ["beside", from, to, damaged, folder, ref program @ ..] => {
            let (seeds, words) = match program.split_first() {
                Some((seeds, words)) if !words.is_empty() => (seeds.parse(), words),
                Some(_) => return usage(),
                None => (Ok(0), program),
            };
            match (from.parse(), to.parse(), damaged.parse(), seeds) {
                (Ok(from), Ok(to), Ok(damaged), Ok(seeds)) => {
                    beside::beside((from, to), damaged, Path::new(folder), seeds, words)
                }
                _ => return usage(),
            }
        }
        ["rescues", seed, count, folder] => match (seed.parse(), count.parse()) {
            (Ok(seed), Ok(count)) => rescues::rescues(seed, count, Path::new(folder)),
            _ => return usage(),
        },
        ["selftest"] => selftest::selftest(),
        ["help"] => Ok(USAGE.to_string()),
        [what, first, second] => match (what, first.parse(), second.parse()) {
            ("maps", Ok(seed), Ok(count)) => maps::maps(&slices::map, seed, count),
            ("tables", Ok(seed), Ok(count)) => {
                scripts::table::write(seed, count as usize).and_then(tables)
            }
            ("writes", Ok(seed), Ok(count)) => writes::writes(seed, count as usize),
            ("days", Ok(from), Ok(to)) => days(from, to),
            _ => return usage(),
        },
        _ => return usage(),
    };
    let (words, status) = match outcome {
        Ok(words) => (words, ExitCode::SUCCESS),
        Err(words) => (words, ExitCode::from(1)),
    };
    if cfg!(feature = "standin") {
        eprintln!("harness: over the oracle's stand-in, not the proved library");
    }
    // Nothing is left to be done if standard output is closed.
    let _ = writeln!(std::io::stdout(), "{words}");
    status
}

fn usage() -> ExitCode {
    eprintln!("harness: what is asked for?\n{USAGE}");
    ExitCode::from(2)
}

/// What stands in lent bytes before a call, to see which of them it leaves.
const FILL: u8 = 0xa5;

/// The images of a script, each with what 01 answers of it.
fn images(written: &scripts::Written) -> Result<Vec<(&[u8], (u8, u64))>, String> {
    let mut script = &written.script[..];
    let mut answers = written.answers.chunks(5);
    let mut images = Vec::new();
    while !script.is_empty() {
        let (length, rest) = script.split_at(4);
        let (image, rest) = rest.split_at(number(length) as usize);
        script = rest;
        let answer = answers.next().ok_or("an answer is missing")?;
        images.push((image, (answer[0], number(&answer[1..]))));
    }
    Ok(images)
}

fn tables(written: scripts::Written) -> Result<String, String> {
    let (mut images, mut accepted) = (0, 0);
    for (image, expected) in self::images(&written)? {
        images += 1;
        accepted += usize::from(expected.0 == 0);
        if let Some(words) = one_table(image, expected) {
            let differs = |image: &[u8]| {
                let expected = match image::check(image) {
                    Ok(_) => (0, 0),
                    Err(refused) => (refused.number, refused.place as u64),
                };
                one_table(image, expected)
            };
            return Err(shrink::shown(
                &format!("image {images}"),
                &words,
                image,
                differs,
            ));
        }
    }
    if images == 0 {
        return Err("there is no image".to_string());
    }
    Ok(format!(
        "{images} images, {accepted} accepted: no difference"
    ))
}

/// An image, and what must be answered of it; a difference in words.
fn one_table(image: &[u8], expected: (u8, u64)) -> Option<String> {
    let mut place = [FILL; PLACE_BYTES + 1];
    let short = slices::check_table(image, &mut place[..PLACE_BYTES - 1]);
    if (short, place) != (NO_ROOM, [FILL; PLACE_BYTES + 1]) {
        return Some(format!("a place into 7 bytes: {short}, {place:?}"));
    }
    let number = slices::check_table(image, &mut place);
    let (at, rest) = place.split_at(PLACE_BYTES);
    let same = number == expected.0 && at == expected.1.to_be_bytes() && rest == [FILL];
    (!same).then(|| format!("expected {expected:?} (number, place), got {number}, {place:?}"))
}

/// A day with its name.
type Named = (String, Vec<u8>);

fn days(from: u64, to: u64) -> Result<String, String> {
    let made = |seed, kind| {
        let day = make(seed, kind).unwrap_or_default();
        (format!("seed {seed} kind {kind}"), day)
    };
    let days: Vec<Named> = (from..to)
        .flat_map(|seed| KINDS.iter().map(move |kind| made(seed, kind)))
        .collect();
    let said = all_days(&days)?;
    Ok(format!(
        "{} days of every kind, seeds {from} to {to} - 1; {said}",
        days.len()
    ))
}

fn recorded(folder: &Path) -> Result<String, String> {
    let entries =
        std::fs::read_dir(folder).map_err(|error| format!("{}: {error}", folder.display()))?;
    let mut files: Vec<_> = entries.flatten().map(|entry| entry.path()).collect();
    files.retain(|file| file.extension().is_some_and(|end| end == "day"));
    files.sort();
    if files.is_empty() {
        return Err(format!("{} has no day", folder.display()));
    }
    let read = |file: &PathBuf| {
        let name = file.display().to_string();
        match std::fs::read(file) {
            Ok(day) => Ok((name, day)),
            Err(error) => Err(format!("{name}: {error}")),
        }
    };
    let days: Vec<Named> = files.iter().map(read).collect::<Result<_, _>>()?;
    let said = all_days(&days)?;
    Ok(format!("{} recorded days; {said}", days.len()))
}

/// Days, several at a time: what was found the same, or the first difference on the smallest day.
fn all_days(days: &[Named]) -> Result<String, String> {
    let counts = several(days, |_, (_, day)| one_day(day)).map_err(|(index, words)| {
        let (name, day) = &days[index];
        shrink::shown(name, &words, day, |day| one_day(day).err())
    })?;
    let (states, with_rust) = counts
        .iter()
        .fold((0, 0), |sum, count| (sum.0 + count.0, sum.1 + count.1));
    Ok(format!(
        "{states} states like the plain machine's, {with_rust} of them like the Rust's too: no difference"
    ))
}

/// A day's lines and its states after every record; how many states, and how many of them the Rust's side has.
fn one_day(day: &[u8]) -> Result<(usize, usize), String> {
    lines(day)?;
    no_state(day, STATE_BYTES - 1, NO_ROOM)?;
    states(day, &barnshiver::state_after)
}

/// The state after a day's records, if its image is accepted.
type StateAfter<'s> = dyn Fn(&[u8]) -> Result<State, ImageRefused> + 's;

/// The states after every record of a day.
fn states(day: &[u8], state_after: &StateAfter<'_>) -> Result<(usize, usize), String> {
    let (table, records) = match image::open(day) {
        Ok(opened) => opened,
        Err(refused) => return no_state(day, STATE_BYTES, refused.number).map(|()| (0, 0)),
    };
    let (mut plain_lines, mut rust_lines) = (Vec::new(), Vec::new());
    deep::print_plain(day, &mut plain_lines).map_err(|error| error.to_string())?;
    deep::print_rust(day, None, &mut rust_lines).map_err(|error| error.to_string())?;
    let (plain_lines, rust_lines) = (
        String::from_utf8_lossy(&plain_lines),
        String::from_utf8_lossy(&rust_lines),
    );
    let (mut plain_lines, mut rust_lines) = (plain_lines.lines(), rust_lines.lines());
    let mut plain = Plain::new(&table);
    let mut end = day.len() - records.len();
    let (mut states, mut with_rust) = (0, 0);
    let records = split(records);
    for at in 0..=records.len() {
        let mut what = "the fresh state".to_string();
        if let Some(record) = at.checked_sub(1).map(|index| &records[index]) {
            plain.step(&record.op);
            end += record.bytes.len();
            what = format!("after record {at} ({record})");
        }
        let ours = state_after(&day[..end]).map_err(|words| format!("{what}: {words}"))?;
        let line = seen::line(at, &ours, &table);
        let expected = plain_lines.next().unwrap_or("");
        if line != expected {
            return Err(format!("{what}:\n  01   {expected}\n  ours {line}"));
        }
        seen::same(&ours, &plain.state).map_err(|words| format!("{what}: {words}"))?;
        states += 1;
        match rust_lines.next() {
            Some(expected) if !expected.contains("left the domain") => {
                if !seen::same_as_rust(&line, expected) {
                    return Err(format!("{what}:\n  Rust {expected}\n  ours {line}"));
                }
                with_rust += 1;
            }
            // Nothing after it is compared.
            _ => rust_lines = "".lines(),
        }
    }
    Ok((states, with_rust))
}

/// So many bytes for a day's state must be answered this number, and stay as they were.
fn no_state(day: &[u8], room: usize, expected: u8) -> Result<(), String> {
    let mut state = vec![FILL; room];
    let number = slices::state_after(day, &mut state);
    match number == expected && state.iter().all(|&byte| byte == FILL) {
        true => Ok(()),
        false => Err(format!(
            "no state in {room} bytes: expected {expected} and none changed, got {number}"
        )),
    }
}

/// Pops behind a day, so that its lines take more than the room of one.
const POPS: usize = 600;
const POP: [u8; 6] = [0, 0, 0, 2, 1, 6];

/// A day's lines, whole and in rooms too small for them.
fn lines(day: &[u8]) -> Result<(), String> {
    let expected = plain::answer(day);
    let all = barnshiver::run_day(day);
    if all != expected.as_bytes() {
        let all = String::from_utf8_lossy(&all);
        let mut pairs = expected.lines().zip(all.lines()).enumerate();
        return Err(match pairs.find(|(_, (one, other))| one != other) {
            Some((at, (one, other))) => {
                format!("line {}: expected \"{one}\", got \"{other}\"", at + 1)
            }
            None => format!(
                "expected {} lines, got {}",
                expected.lines().count(),
                all.lines().count()
            ),
        });
    }
    let longer = [day, &POP.repeat(POPS)].concat();
    let expected = plain::answer(&longer).into_bytes();
    for room in [0, LINE_ROOM - 1, LINE_ROOM, LINE_ROOM + expected.len() / 2] {
        let mut short = vec![FILL; room + LINE_ROOM];
        let length = slices::run_day(&longer, &mut short[..room]);
        // As many lines as there are while the longest still has room.
        let mut fit = 0;
        for line in expected.split_inclusive(|&byte| byte == b'\n') {
            if room - fit < LINE_ROOM {
                break;
            }
            fit += line.len();
        }
        let (front, rest) = short.split_at(fit);
        if length != fit || front != &expected[..fit] || rest.iter().any(|&byte| byte != FILL) {
            return Err(format!(
                "with {POPS} pops behind it, in a room of {room} bytes, the lines took {length} of {}, where {fit} are due: wrong, cut, \
                 too few, or something is written behind them",
                expected.len()
            ));
        }
    }
    Ok(())
}
