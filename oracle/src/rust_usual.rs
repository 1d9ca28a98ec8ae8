//! `oracle rust-usual`: the same day through the same Rust and with the same refusals as `rust_bench`, as a program for it is usually written: `BufReader`
//! and `BufWriter`, a record in a `Vec` of its own, lines by `writeln!`. `race` times it beside ours too, in a column of its own.

use std::io::{self, BufRead, BufReader, BufWriter, Read, Write};

use super::rust_bench::{Answer, Bench, MALFORMED};
use crate::image::{self, LARGEST, LONGEST};

/// Answers a day.
pub fn run(input: impl Read, output: impl Write) -> io::Result<()> {
    let mut input = BufReader::new(input);
    let mut output = BufWriter::new(output);
    let mut bytes = Vec::new();
    counted(&mut input, LARGEST, &mut bytes)?;
    let table = match image::open(&bytes) {
        Ok((table, _)) => table,
        Err(refused) => {
            writeln!(output, "{refused}")?;
            return output.flush();
        }
    };
    writeln!(output, "table ok")?;
    let mut bench = Bench::new(table);
    while !input.fill_buf()?.is_empty() {
        let mut record = Vec::new();
        if !counted(&mut input, LENGTH + LONGEST, &mut record)? {
            say(&mut output, Err(MALFORMED))?;
            break;
        }
        match &record[LENGTH..] {
            [1, 6] => pop(&mut bench, &mut output)?,
            body => say(&mut output, bench.call(body))?,
        }
    }
    output.flush()
}

/// Bytes of a length.
const LENGTH: usize = 4;

/// The bytes of a length and what it counts, as far as they are there; whether they all are, and are not too many.
fn counted(input: &mut impl Read, most: usize, bytes: &mut Vec<u8>) -> io::Result<bool> {
    input.take(LENGTH as u64).read_to_end(bytes)?;
    let Ok(length) = <[u8; LENGTH]>::try_from(&bytes[..]) else {
        return Ok(false);
    };
    let length = u32::from_be_bytes(length) as usize;
    if LENGTH + length > most {
        return Ok(false);
    }
    bytes.resize(LENGTH + length, 0);
    let mut at = LENGTH;
    while at < bytes.len() {
        match input.read(&mut bytes[at..])? {
            0 => break,
            count => at += count,
        }
    }
    let whole = at == bytes.len();
    bytes.truncate(at);
    Ok(whole)
}

fn say(output: &mut impl Write, answer: Answer<()>) -> io::Result<()> {
    match answer {
        Ok(()) => writeln!(output, "ok"),
        Err(number) => writeln!(output, "refused {number}"),
    }
}

fn pop(bench: &mut Bench, output: &mut impl Write) -> io::Result<()> {
    let manager = &mut bench.rust.manager;
    let Some(mut event) = manager.pop_next_event() else {
        return writeln!(output, "nothing");
    };
    let mut reactions = Vec::new();
    event.reactions.view().for_each_level(|level, keys, _| {
        reactions.extend(keys.map(|key| format!("{}:{}", level.0, key.0)));
    });
    let mut actions: Vec<String> = Vec::new();
    for action in &event.action_values {
        let action = action.0.to_string();
        if !actions.contains(&action) {
            actions.push(action);
        }
    }
    writeln!(
        output,
        "ready {} {} terminal {} work {} network {} reactions {} actions {}",
        event.tag.offset().whole_nanoseconds(),
        event.tag.microstep(),
        u8::from(event.terminal),
        u8::from(event.has_nonterminal_work),
        u8::from(event.network_input),
        listed(&reactions),
        listed(&actions)
    )?;
    manager.return_reaction_set(event.reactions);
    manager.return_action_values(event.action_values);
    Ok(())
}

/// Joined by commas; "-" if empty.
fn listed(items: &[String]) -> String {
    match items.is_empty() {
        true => "-".to_string(),
        false => items.join(","),
    }
}
