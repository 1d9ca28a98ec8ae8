//! Tables as sheets: an image listed as CSV or checked in words, by the facts that the proved program `explained` finds; and a sheet made into an
//! image by the proved program `maker`, which is read back before it is given.

use crate::facts::{Facts, Table};
use crate::sheet::{self, Sheet, TIMER};
use crate::units;
use crate::words::Teller;
use std::io::{BufRead, ErrorKind, Read, Write};
use std::process::{Command, Stdio};

fn unread(error: std::io::Error) -> String {
    format!("the facts cannot be read: {error}")
}

/// To standard output; a reader that has gone away is no fault.
fn put(bytes: &[u8]) -> Result<(), String> {
    let mut out = std::io::stdout().lock();
    match out.write_all(bytes).and_then(|()| out.flush()) {
        Err(error) if error.kind() == ErrorKind::BrokenPipe => Ok(()),
        other => other.map_err(|error| format!("the table cannot be written: {error}")),
    }
}

/// What a telling says of its table.
pub fn check(facts: &mut Facts<impl BufRead>) -> Result<u8, String> {
    let table = facts.table().map_err(unread)?;
    put((Teller::new(&table).table_words().join("\n") + "\n").as_bytes())?;
    Ok(u8::from(!table.accepted()))
}

/// The rows as a sheet; why a table is refused, and what to look at, on standard error.
pub fn list(facts: &mut Facts<impl BufRead>) -> Result<u8, String> {
    let table = facts.table().map_err(unread)?;
    let teller = Teller::new(&table);
    if !table.accepted() {
        eprintln!("{}", teller.table_words().join("\n"));
        return Ok(1);
    }
    for (_, words) in teller.warnings() {
        eprintln!("table: {words}");
    }
    put(sheet::listed(&table).as_bytes())?;
    Ok(0)
}

/// The image of the sheet on standard input, to standard output. Nothing is written where the sheet is wrong, the table refused, or the image
/// does not read back as the sheet. What was made is told with the time of each timer, since a time without a unit is nanoseconds.
pub fn make(maker: &[&str], explained: &[&str]) -> Result<u8, String> {
    let mut bytes = Vec::new();
    std::io::stdin()
        .lock()
        .take(sheet::MOST_BYTES as u64 + 1)
        .read_to_end(&mut bytes)
        .map_err(|error| format!("the sheet cannot be read: {error}"))?;
    let sheet = match Sheet::read(&bytes) {
        Ok(sheet) => sheet,
        Err(wrong) => {
            for words in wrong {
                eprintln!("table: {words}");
            }
            return Ok(1);
        }
    };
    let made = run(maker, &sheet.numbers())?;
    let end = made.iter().position(|byte| *byte == b'\n');
    let (line, image) = made.split_at(end.ok_or("the program that makes images said nothing")?);
    let image = &image[1..];
    let facts = run(explained, image)?;
    let table = Facts::new(&facts[..]).table().map_err(unread)?;
    if table.answer.as_bytes() != line {
        let line = String::from_utf8_lossy(line);
        let words = "the image does not read back as it was made";
        return Err(format!("{words}: {line}, and then {}", table.answer));
    }
    let teller = Teller::new(&table);
    if !table.accepted() {
        eprintln!(
            "table: {}{}",
            refused_at(&sheet, &table),
            teller.table_words().join("\n")
        );
        return Ok(1);
    }
    read_back(&sheet, &table, image.len() as u64)?;
    for (i, words) in teller.warnings() {
        let line = sheet.rows[TIMER][i as usize].line;
        eprintln!("table: line {line}: {words}");
    }
    put(image)?;
    eprintln!("{}; {} bytes", teller.table_words()[0], image.len());
    for (i, row) in sheet.rows[TIMER].iter().enumerate() {
        let time = units::in_units(row.fields[1]);
        eprintln!("line {}: timer {i}: {time}", row.line);
    }
    Ok(0)
}

/// The sheet's line that a refusal is about, if it is about one: the row that breaks a rule, or the first row too many of its kind.
fn refused_at(sheet: &Sheet, table: &Table) -> String {
    let (k, i) = match table.refusal {
        (4, place) => {
            let mut counts = table.counts.iter();
            let k = counts.position(|count| count.place == place);
            let k = k.unwrap_or(0);
            (k as u64, table.counts.get(k).map_or(0, |count| count.most))
        }
        _ => (table.fault[0], table.fault[1]),
    };
    let row = sheet
        .rows
        .get(k as usize)
        .and_then(|rows| rows.get(i as usize));
    row.map_or(String::new(), |row| format!("line {}: ", row.line))
}

/// Whether the image has the sheet's counts and rows.
fn read_back(sheet: &Sheet, table: &Table, bytes: u64) -> Result<(), String> {
    let rows = sheet.facts();
    let counts = sheet.rows.iter().map(|rows| rows.len() as u64);
    let same = counts.eq(table.counts.iter().map(|count| count.total))
        && rows == table.rows
        && table.image.1 == bytes;
    if same {
        return Ok(());
    }
    let differs = rows.iter().zip(&table.rows).find(|(row, read)| row != read);
    let place = match differs {
        Some(((k, i, _), _)) => format!("line {}", sheet.rows[*k as usize][*i as usize].line),
        None => "the number of rows".to_string(),
    };
    Err(format!(
        "the image does not read back as the sheet: {place} is another"
    ))
}

/// What a program says to an input; both are short, so neither side waits for the other.
fn run(words: &[&str], input: &[u8]) -> Result<Vec<u8>, String> {
    let (program, rest) = words.split_first().ok_or("no program is named")?;
    let failed = |error| format!("the program {program} cannot be run: {error}");
    let mut child = Command::new(program)
        .args(rest)
        .stdin(Stdio::piped())
        .stdout(Stdio::piped())
        .spawn()
        .map_err(failed)?;
    if let Some(mut pipe) = child.stdin.take() {
        // one that does not read to the end ends badly, or says what does not read back
        let _ = pipe.write_all(input);
    }
    let output = child.wait_with_output().map_err(failed)?;
    if output.status.success() {
        Ok(output.stdout)
    } else {
        Err(format!(
            "the program {} ended badly: {}",
            words[words.len() - 1],
            output.status
        ))
    }
}
