//! A gate day after a flat battery: a push lost its last byte, zeros stand in a record's place, and the file ends in the
//! middle of one. What is still whole is kept.
//!
//! `tools/harness example` builds and runs it.

use barnshiver::{rescue, run_day, Gate, Table, Tag, NONE};

const SECOND: u64 = 1_000_000_000;
const LAMP: u16 = 0;

/// A lamp goes on at each second; the day so far, and where its records begin.
fn day() -> Result<(Vec<u8>, Vec<usize>), Box<dyn std::error::Error>> {
    let table = Table {
        scopes: vec![[NONE, 0, NONE]],
        reactors: vec![[0, NONE]],
        levels: vec![0],
        ..Table::default()
    };
    let mut gate = Gate::new(&table.written()?)?;
    let mut starts = Vec::new();
    for second in 1..=4 {
        starts.push(gate.day().len());
        gate.push_event(Tag::new(second * SECOND, 0), &[LAMP], false)?;
        starts.push(gate.day().len());
        gate.pop_next_event();
    }
    Ok((gate.day().to_vec(), starts))
}

fn shown(what: &str, day: &[u8]) {
    println!("{what}: {} bytes", day.len());
    print!("{}", String::from_utf8_lossy(&run_day(day)));
}

fn main() -> Result<(), Box<dyn std::error::Error>> {
    let (mut day, starts) = day()?;
    // From the end on, so that the places before stay: the last pop is cut, the third push is zeros, the first push has no
    // last byte.
    day.truncate(starts[7] + 3);
    day[starts[4]..starts[5]].fill(0);
    day.remove(starts[1] - 1);
    shown("as it is", &day);

    let rescued = rescue(&day)?;
    for run in &rescued.dropped {
        println!("{run}");
    }
    println!("{} records kept", rescued.records);
    // The first push took the first byte of the pop behind it, which is gone: each pop gives what was due at the one before.
    shown("rescued", &rescued.day);
    println!(
        "rescued again: {} runs",
        rescue(&rescued.day)?.dropped.len()
    );

    // Without its image nothing is rescued.
    if let Err(refused) = rescue(&day[1..]) {
        println!("{refused}");
    }
    Ok(())
}
