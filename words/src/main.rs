//! words tell [CHOICE..]: the facts on standard input as words, line by line as they come. words draw OUT [CHOICE..]: the same as a picture.
//! words check: the table alone in words. words list: the table as a sheet.
//! words make MAKER.. -- EXPLAINED..: the sheet on standard input as an image on standard output, by these two proved programs.
//! A choice is --from N, --to N (records), --action N or --scope N. The facts come from the proved program `explained`; nothing but words, pixels
//! and cells is made here. Exit status: 0 told to the end; 1 the table is refused, the sheet wrong, or the day stops early; 2 something cannot be
//! read or written.

mod chosen;
mod facts;
mod picture;
mod sheet;
mod table;
mod units;
mod words;

use chosen::Chosen;
use facts::{Facts, Record, State, Table};
use std::io::{BufReader, BufWriter, ErrorKind, StdinLock, Write};
use std::process::ExitCode;

type Input = Facts<BufReader<StdinLock<'static>>>;

fn unread(error: std::io::Error) -> String {
    format!("the facts cannot be read: {error}")
}

/// What is done with each record that was chosen, and with its words.
trait Reader {
    /// What stands before the next line's record.
    fn before(&mut self, _: &State) {}
    fn line(&mut self, record: Record, words: String) -> std::io::Result<()>;
    /// More facts must be waited for.
    fn pause(&mut self) -> std::io::Result<()>;
}

/// How the day went: how many records it has, how many were told, and whether it stopped early.
struct Ran {
    records: usize,
    told: usize,
    stopped: bool,
}

/// Goes through the records; `None` where the reader has gone away.
fn run(
    facts: &mut Input,
    table: &Table,
    chosen: &Chosen,
    reader: &mut impl Reader,
) -> Result<Option<Ran>, String> {
    let mut teller = words::Teller::new(table);
    let mut ran = Ran {
        records: 0,
        told: 0,
        stopped: false,
    };
    let gone = |error: std::io::Error| match error.kind() {
        ErrorKind::BrokenPipe => Ok(None),
        _ => Err(format!("the words cannot be written: {error}")),
    };
    loop {
        if !facts.at_hand() {
            if let Err(error) = reader.pause() {
                return gone(error);
            }
        }
        let Some(record) = facts.record().map_err(unread)? else {
            return Ok(Some(ran));
        };
        ran.records += 1;
        ran.stopped = record.cut.is_some();
        if chosen.has(ran.records, &record, table, &teller.state) {
            ran.told += 1;
            let words = teller.record_words(ran.records, &record);
            reader.before(&teller.state);
            teller.state.follow(&record);
            if let Err(error) = reader.line(record, words) {
                return gone(error);
            }
        } else {
            teller.state.follow(&record);
        }
    }
}

/// Standard output, by lines.
struct Told<W: Write>(W);

impl<W: Write> Reader for Told<W> {
    fn line(&mut self, _: Record, words: String) -> std::io::Result<()> {
        self.0.write_all(words.as_bytes())?;
        self.0.write_all(b"\n")
    }

    fn pause(&mut self) -> std::io::Result<()> {
        self.0.flush()
    }
}

fn tell(facts: &mut Input, chosen: &Chosen) -> Result<u8, String> {
    let table = facts.table().map_err(unread)?;
    let mut out = Told(BufWriter::with_capacity(1 << 16, std::io::stdout().lock()));
    let written = |result: std::io::Result<()>| match result {
        Err(error) if error.kind() == ErrorKind::BrokenPipe => Ok(()),
        other => other.map_err(|error| format!("the words cannot be written: {error}")),
    };
    for line in words::Teller::new(&table).table_words() {
        written(out.line(Record::default(), line))?;
    }
    if !table.accepted() {
        written(out.pause())?;
        return Ok(1);
    }
    // a reader that has gone away is no fault
    let Some(ran) = run(facts, &table, chosen, &mut out)? else {
        return Ok(0);
    };
    if let Some(words) = chosen.left_out(ran.told, ran.records) {
        written(out.line(Record::default(), format!("  {words}")))?;
    }
    written(out.pause())?;
    Ok(u8::from(ran.stopped))
}

/// The records for a picture, as many as one shows, and what stood before them.
#[derive(Default)]
struct Drawn {
    before: Option<State>,
    records: Vec<(Record, String)>,
}

impl Reader for Drawn {
    fn before(&mut self, state: &State) {
        self.before.get_or_insert_with(|| state.clone());
    }

    fn line(&mut self, record: Record, words: String) -> std::io::Result<()> {
        if self.records.len() < picture::MOST {
            self.records.push((record, words));
        }
        Ok(())
    }

    fn pause(&mut self) -> std::io::Result<()> {
        Ok(())
    }
}

fn draw(facts: &mut Input, chosen: &Chosen, out: &str) -> Result<u8, String> {
    chosen.in_a_row()?;
    let table = facts.table().map_err(unread)?;
    let mut drawn = Drawn::default();
    let head = words::Teller::new(&table).table_words();
    let mut status = 1;
    let mut left_out = None;
    if table.accepted() {
        let ran = run(facts, &table, chosen, &mut drawn)?;
        let (records, stopped) = ran.map_or((0, false), |ran| (ran.records, ran.stopped));
        left_out = chosen.left_out(drawn.records.len(), records);
        status = u8::from(stopped);
    }
    let shown = picture::Shown {
        table: &table,
        before: &drawn.before.unwrap_or_else(|| State::of(&table)),
        records: &drawn.records,
    };
    let picture = picture::drawn(&shown, &head, left_out);
    let failed = |error: std::io::Error| format!("{out} cannot be written: {error}");
    if out == "-" {
        std::io::stdout()
            .write_all(picture.as_bytes())
            .map_err(failed)?;
        return Ok(status);
    }
    // beside it first: no half of a picture stands in its place
    let beside = format!("{out}.{}.part", std::process::id());
    std::fs::write(&beside, picture)
        .and_then(|()| std::fs::rename(&beside, out))
        .map_err(|error| {
            let _ = std::fs::remove_file(&beside);
            failed(error)
        })?;
    Ok(status)
}

fn facts() -> Input {
    Facts::new(BufReader::with_capacity(1 << 16, std::io::stdin().lock()))
}

fn main() -> ExitCode {
    let args: Vec<String> = std::env::args().skip(1).collect();
    let words: Vec<&str> = args.iter().map(String::as_str).collect();
    let mut command = "table";
    let done = match words[..] {
        ["check"] => table::check(&mut facts()),
        ["list"] => table::list(&mut facts()),
        ["make", ref programs @ ..] => {
            let end = programs.iter().position(|word| *word == "--");
            let (maker, explained) = programs.split_at(end.unwrap_or(programs.len()));
            table::make(maker, explained.get(1..).unwrap_or(&[]))
        }
        _ => {
            command = "explain";
            match words[..] {
                ["tell", ref choices @ ..] => {
                    Chosen::read(choices).and_then(|chosen| tell(&mut facts(), &chosen))
                }
                ["draw", out, ref choices @ ..] => {
                    Chosen::read(choices).and_then(|chosen| draw(&mut facts(), &chosen, out))
                }
                _ => Err(
                    "give tell, draw OUT, check, list, or make MAKER.. -- EXPLAINED..".to_string(),
                ),
            }
        }
    };
    match done {
        Ok(status) => ExitCode::from(status),
        Err(why) => {
            eprintln!("{command}: {why}");
            ExitCode::from(2)
        }
    }
}
