//! The oracle: the published Rust, unchanged over stand-ins, and a plain reading of 01, to hold gate days against.

use std::collections::HashSet;
use std::io::{self, BufWriter, Read, StdoutLock, Write};
use std::path::Path;
use std::process::ExitCode;
use std::time::Duration;

use oracle::compare::{self, Outcome};
use oracle::scripts::{self, Written};
use oracle::{
    antt, beside, by_value, calls, deep, image, judge, laps, make, picture, plain, rescue, rescues,
    rust_bench, rust_usual, selftest, sweep, text, timing,
};

const USAGE: &str = "\
oracle compare DAY ANSWERS          the answers against the published Rust and what the bytes alone decide
oracle judge DAY ANSWERS            whether each refusal was due and each accepted call within the limits
oracle answer DAY                   the lines that 01 demands
oracle deep DAY [ANSWERS]           the Rust's state after every record
oracle deep-plain DAY               the same from the plain machine
oracle make SEED KIND               a made day
oracle images SEED COUNT FOLDER     images of accepted tables, no two alike, as files N.image
oracle asm TEXT DAY                 a day from its text; a file - is standard input or output, here and with text
oracle text DAY TEXT                a day as its text, every byte of it
oracle aside DAY ANSWERS            the answers beside the Rust's, record by record, the first difference first
oracle picture TEXT SVG             a day from its text as a picture, clocks and events
oracle antt FILE..                  days, or texts (.txt), as theorems for the checker to compute
oracle map SEED COUNT SCRIPT ANSWERS            clock maps with the Rust's answers
oracle store SEED COUNT SCRIPT ANSWERS          store calls
oracle store exhaustive DEPTH SCRIPT ANSWERS    all short scripts of store calls
oracle store-compare SCRIPT ANSWERS OURS        another program's answers to store calls
oracle walk SEED COUNT SCRIPT ANSWERS           level walks
oracle table SEED COUNT SCRIPT ANSWERS          images with 01's answers
oracle table days FOLDER SCRIPT ANSWERS         images of recorded days with the recorded answers
oracle time DAY REPEAT [ANSWERS]    the day in the Rust alone, nanoseconds a record
oracle rust-bench                   a day on standard input through the Rust alone; its lines to standard output, without \"held\"
oracle rust-usual                   the same, with buffers and formatting as they are usually written
oracle race REPEAT FOLDER PROGRAM [WORD..]
                                    another program beside rust-bench on long days, as a table; FOLDER for two files
oracle race-calls REPEAT FOLDER PROGRAM [WORD..]
                                    likewise each call by itself
oracle race-manager REPEAT FOLDER PROGRAM [WORD..]
                                    whole public calls of the manager by value, beside rust-bench
oracle race-walks REPEAT FOLDER PROGRAM [WORD..]
                                    likewise level walks, many laps of them
oracle selftest DIR                 recorded days, and wrong answers that must be caught
oracle sweep FROM TO [KIND]         made days on both sides, seeds FROM to TO - 1
oracle beside FROM TO DAMAGED FOLDER PROGRAM [WORD..]
                                    another program's answers: recorded days, made days, so many damaged copies
oracle rescue DAY OUT               what is still whole of a damaged day; its list to standard error, a file - as with asm
oracle rescues SEED COUNT FOLDER RESCUER [WORD..] -- BENCH [WORD..]
                                    another program's rescues of so many damaged days, recorded and made ones; what it rescued
                                    through itself again, and through the bench program

Exit status: 0 all agrees, 1 a difference, 2 the arguments or a file are at fault.";

/// Why a program ended without agreement.
enum Failure {
    /// A difference was found.
    Difference(String),
    /// Arguments or files are at fault.
    Fault(String),
}

use Failure::{Difference, Fault};

impl From<io::Error> for Failure {
    fn from(error: io::Error) -> Self {
        Fault(error.to_string())
    }
}

fn main() -> ExitCode {
    let arguments: Vec<String> = std::env::args_os()
        .skip(1)
        .map(|argument| argument.to_string_lossy().into_owned())
        .collect();
    let words: Vec<&str> = arguments.iter().map(String::as_str).collect();
    match run(&words) {
        Ok(()) => ExitCode::SUCCESS,
        Err(Difference(words)) => {
            // Nothing is left to be done if standard output is closed.
            let _ = writeln!(io::stdout(), "{words}");
            ExitCode::from(1)
        }
        Err(Fault(words)) => {
            let _ = writeln!(io::stderr(), "oracle: {words}");
            ExitCode::from(2)
        }
    }
}

/// Standard output.
type Out = BufWriter<StdoutLock<'static>>;
/// Some of the programs: whether what is asked for is one of them.
type Programs = fn(&[&str], &mut Out) -> Result<bool, Failure>;

fn run(words: &[&str]) -> Result<(), Failure> {
    let mut out = BufWriter::new(io::stdout().lock());
    let all: [Programs; 7] = [answers, days, files, own_tests, scripted, timed, others];
    for programs in all {
        if programs(words, &mut out)? {
            out.flush()?;
            return Ok(());
        }
    }
    Err(Fault(format!("what is asked for?\n{USAGE}")))
}

/// A day's answers, looked at or given.
fn answers(words: &[&str], out: &mut Out) -> Result<bool, Failure> {
    match *words {
        ["help"] => writeln!(out, "{USAGE}")?,
        ["compare", day, answers] => {
            let compared = compare::compare_counting(&read(day)?, &read(answers)?);
            report(out, day, compared)?;
        }
        ["judge", day, answers] => {
            let outcome = judge::judge(&read(day)?, &read(answers)?);
            report(out, day, outcome.map(|outcome| (outcome, 0)))?;
        }
        ["aside", day, answers] => {
            let (rows, outcome) = compare::aside(&read(day)?, &read(answers)?).map_err(Fault)?;
            let table = compare::table(&rows, &outcome);
            if let Outcome::Differ(_) = outcome {
                return Err(Difference(table.trim_end_matches('\n').to_string()));
            }
            write!(out, "{table}")?;
        }
        ["answer", day] => out.write_all(plain::answer(&read(day)?).as_bytes())?,
        ["deep", day] => deep::print_rust(&read(day)?, None, out)?,
        ["deep", day, answers] => deep::print_rust(&read(day)?, Some(&read(answers)?), out)?,
        ["deep-plain", day] => deep::print_plain(&read(day)?, out)?,
        _ => return Ok(false),
    }
    Ok(true)
}

/// Days and images, made or rescued.
fn days(words: &[&str], out: &mut Out) -> Result<bool, Failure> {
    match *words {
        ["make", seed, kind] => out.write_all(&made(number(seed)?, kind)?)?,
        ["images", seed, count, folder] => {
            let words = images(number(seed)?, number(count)?, Path::new(folder))?;
            writeln!(out, "{words}")?;
        }
        ["rescue", day, output] => {
            let kept = rescue::rescue(&read(day)?);
            let given = rescues::Given::of(&kept);
            let kept = kept.map_err(|refused| Fault(format!("{day}: {refused}")))?;
            put(out, output, &kept.output)?;
            io::stderr().write_all(&[given.list, given.told].concat())?;
        }
        _ => return Ok(false),
    }
    Ok(true)
}

/// Days as texts, pictures and theorems.
fn files(words: &[&str], out: &mut Out) -> Result<bool, Failure> {
    match *words {
        ["asm", text, day] => {
            let bytes = from_text(text, text::assemble)?;
            put(out, day, &bytes)?;
        }
        ["text", day, text] => {
            let lines = text::numbered_lines_of(&read(day)?);
            put(out, text, (lines.join("\n") + "\n").as_bytes())?;
        }
        ["picture", text, svg] => {
            let drawn = from_text(text, picture::picture)?;
            std::fs::write(svg, drawn)
                .map_err(|error| Fault(format!("cannot write {svg}: {error}")))?;
        }
        ["antt", ref files @ ..] if !files.is_empty() => {
            let days: Result<Vec<_>, Failure> = files
                .iter()
                .map(|&file| Ok((file.to_string(), read(file)?)))
                .collect();
            out.write_all(antt::file(&days?).map_err(Difference)?.as_bytes())?;
        }
        _ => return Ok(false),
    }
    Ok(true)
}

/// The oracle's two sides held to each other.
fn own_tests(words: &[&str], out: &mut Out) -> Result<bool, Failure> {
    let said = match *words {
        ["selftest", folder] => {
            if !Path::new(folder).is_dir() {
                return Err(Fault(format!("{folder} is no folder")));
            }
            selftest::selftest(Path::new(folder))
        }
        ["sweep", from, to] => sweep::sweep(number(from)?, number(to)?, None),
        ["sweep", from, to, kind] => {
            let from = number(from)?;
            made(from, kind)?;
            sweep::sweep(from, number(to)?, Some(kind))
        }
        _ => return Ok(false),
    };
    writeln!(out, "{}", said.map_err(Difference)?)?;
    Ok(true)
}

/// Scripts of single functions.
fn scripted(words: &[&str], out: &mut Out) -> Result<bool, Failure> {
    let (written, script, answers) = match *words {
        ["store-compare", script, answers, ours] => {
            let (script, answers, ours) = (read(script)?, read(answers)?, read(ours)?);
            let said = scripts::store_compare::compare(&script, &answers, &ours);
            writeln!(out, "{}", said.map_err(Difference)?)?;
            return Ok(true);
        }
        ["store", "exhaustive", depth, script, answers] => {
            let depth = u32::try_from(number(depth)?).unwrap_or(u32::MAX);
            let depths = scripts::store::DEPTHS;
            if !depths.contains(&depth) {
                return Err(Fault(format!("the depth is one of {depths:?}")));
            }
            let written = scripts::store::write_exhaustive(depth);
            (written.map_err(Difference), script, answers)
        }
        ["table", "days", folder, script, answers] => {
            let written = scripts::table::write_days(Path::new(folder));
            (written.map_err(Fault), script, answers)
        }
        [name, seed, count, script, answers] => {
            let write = match name {
                "map" => scripts::map::write,
                "store" => scripts::store::write,
                "table" => scripts::table::write,
                "walk" => scripts::walk::write,
                _ => return Ok(false),
            };
            let written = write(number(seed)?, number(count)? as usize);
            (written.map_err(Difference), script, answers)
        }
        _ => return Ok(false),
    };
    save(written?, script, answers)?;
    Ok(true)
}

/// Times: the Rust's own, and other programs' beside it.
fn timed(words: &[&str], out: &mut Out) -> Result<bool, Failure> {
    match *words {
        ["time", day, repeat, ref answers @ ..] if answers.len() < 2 => {
            let answers = answers.first().map(|answers| read(answers)).transpose()?;
            let repeat = number(repeat)? as usize;
            let words = timing::time(&read(day)?, repeat, answers.as_deref()).map_err(Fault)?;
            writeln!(out, "{day}: {words}")?;
        }
        ["rust-bench"] => rust_bench::run(io::stdin().lock(), out)?,
        ["rust-usual"] => rust_usual::run(io::stdin().lock(), out)?,
        ["race", repeat, folder, ref words @ ..] if !words.is_empty() => {
            let table = raced(timing::race, repeat, folder, words)?;
            write!(out, "{table}")?;
        }
        ["race-calls", repeat, folder, ref words @ ..] if !words.is_empty() => {
            let table = raced(calls::race, repeat, folder, words)?;
            write!(out, "{table}")?;
        }
        ["race-manager", repeat, folder, ref words @ ..] if !words.is_empty() => {
            let table = raced(by_value::race, repeat, folder, words)?;
            write!(out, "{table}")?;
        }
        ["race-walks", repeat, folder, ref words @ ..] if !words.is_empty() => {
            let repeat = number(repeat)? as usize;
            let table = laps::race(repeat, words, Path::new(folder)).map_err(Difference)?;
            write!(out, "{table}")?;
        }
        _ => return Ok(false),
    }
    Ok(true)
}

/// Other programs beside the Rust and the oracle.
fn others(words: &[&str], out: &mut Out) -> Result<bool, Failure> {
    match *words {
        ["beside", from, to, damaged, folder, ref words @ ..] if !words.is_empty() => {
            let seeds = (number(from)?, number(to)?);
            let damaged = number(damaged)? as usize;
            let runner = |day: &[u8], limit: Duration| beside::child(words, day, limit);
            let side = beside::Side {
                name: "the program",
                seeds: u64::MAX,
                runner: &runner,
            };
            let outcome = beside::beside(seeds, damaged, Path::new(folder), &[side]);
            writeln!(out, "{}", outcome.map_err(Fault)?.map_err(Difference)?)?;
        }
        ["rescues", seed, count, folder, ref words @ ..] => {
            let (seed, count) = (number(seed)?, number(count)? as usize);
            let (rescuer, bench) = match words.iter().position(|&word| word == "--") {
                Some(at) => (&words[..at], &words[at + 1..]),
                None => (&words[..0], words),
            };
            if rescuer.is_empty() || bench.is_empty() {
                return Err(Fault(format!("what are the two programs?\n{USAGE}")));
            }
            let outcome = rescues::rescues(seed, count, Path::new(folder), rescuer, bench);
            writeln!(out, "{}", outcome.map_err(Fault)?.map_err(Difference)?)?;
        }
        _ => return Ok(false),
    }
    Ok(true)
}

/// A race of processes: how often, over which folder, and the two sides.
type Race = fn(usize, &timing::Sides<'_>, &Path) -> Result<String, String>;

/// A race of another program with this one as the Rust's bench.
fn raced(race: Race, repeat: &str, folder: &str, ours: &[&str]) -> Result<String, Failure> {
    let own = std::env::current_exe()?;
    let own = own.to_string_lossy();
    let sides = timing::Sides {
        ours,
        rust: &[&own, "rust-bench"],
        usual: &[&own, "rust-usual"],
    };
    race(number(repeat)? as usize, &sides, Path::new(folder)).map_err(Difference)
}

fn read(path: &str) -> Result<Vec<u8>, Failure> {
    let bytes = if path == "-" {
        let mut bytes = Vec::new();
        io::stdin().lock().read_to_end(&mut bytes).map(|_| bytes)
    } else {
        std::fs::read(path)
    };
    bytes.map_err(|error| Fault(format!("cannot read {path}: {error}")))
}

/// What the text in a file comes to; a fault names the file.
fn from_text<T>(path: &str, of: impl Fn(&str) -> Result<T, String>) -> Result<T, Failure> {
    let words = String::from_utf8(read(path)?).map_err(|error| Fault(error.to_string()))?;
    of(&words).map_err(|words| Fault(format!("{path}: {words}")))
}

/// Into a file, or to standard output.
fn put(out: &mut impl Write, path: &str, bytes: &[u8]) -> Result<(), Failure> {
    let done = match path {
        "-" => out.write_all(bytes),
        _ => std::fs::write(path, bytes),
    };
    done.map_err(|error| Fault(format!("cannot write {path}: {error}")))
}

fn number(word: &str) -> Result<u64, Failure> {
    word.parse()
        .map_err(|_| Fault(format!("\"{word}\" is no number")))
}

/// A made day, if there is such a kind.
fn made(seed: u64, kind: &str) -> Result<Vec<u8>, Failure> {
    make::make(seed, kind).ok_or_else(|| {
        let kinds = [make::KINDS, make::LONG_KINDS].concat().join(", ");
        Fault(format!("no kind \"{kind}\"; there are {kinds}"))
    })
}

/// So many accepted images into a folder, and how long they are.
fn images(seed: u64, count: u64, folder: &Path) -> Result<String, Failure> {
    let mut written = HashSet::new();
    let mut seeds = seed..;
    while (written.len() as u64) < count {
        let image = make::accepted_image(seeds.next().unwrap_or(seed));
        image::check(&image).map_err(|refused| Difference(format!("a made image: {refused}")))?;
        let path = folder.join(format!("{}.image", written.len()));
        if written.insert(image.clone()) {
            std::fs::write(&path, image)
                .map_err(|error| Fault(format!("cannot write {}: {error}", path.display())))?;
        }
    }
    let lengths = || written.iter().map(Vec::len);
    let (least, most) = (lengths().min().unwrap_or(0), lengths().max().unwrap_or(0));
    Ok(format!(
        "{count} accepted images of {least} to {most} bytes"
    ))
}

/// Says how a comparison ended, and how many transitions in it 01 would have refused with 7 before C-14, if any.
fn report(
    out: &mut impl Write,
    day: &str,
    compared: Result<(Outcome, usize), String>,
) -> Result<(), Failure> {
    let (outcome, sevens) = compared.map_err(|words| Difference(format!("{day}: {words}")))?;
    match outcome {
        Outcome::Agree { records } => write!(out, "{day}: agrees, {records} records")?,
        Outcome::LeftDomain { record, why, left } => write!(
            out,
            "{day}: agrees up to record {record}, which leaves the domain: {why}; {left} of the records left out"
        )?,
        Outcome::Differ(words) => return Err(Difference(format!("{day}: {words}"))),
    }
    match sevens {
        0 => writeln!(out)?,
        _ => writeln!(out, "; transitions refused with 7 before C-14: {sevens}")?,
    }
    Ok(())
}

/// Writes a script and its answers, and says on standard error what they hold.
fn save(written: Written, script: &str, answers: &str) -> Result<(), Failure> {
    for (path, bytes) in [(script, &written.script), (answers, &written.answers)] {
        std::fs::write(path, bytes)
            .map_err(|error| Fault(format!("cannot write {path}: {error}")))?;
    }
    let _ = writeln!(io::stderr(), "{}", written.summary);
    Ok(())
}
