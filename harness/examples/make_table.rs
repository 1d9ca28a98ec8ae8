//! A table made from its rows: written, refused for a row that is wrong, mended, and put into a gate.
//!
//! `tools/harness example` builds and runs it.

use barnshiver::{write_table, Gate, Kind, Table, Tag, NONE};

const HOUR: u64 = 3_600_000_000_000;

// Keys of the table below.
const LANE: u16 = 0;
const OPEN: u16 = 0;

fn table() -> Table {
    Table {
        // The gate, and the open lane in it: parent, reactor, mode.
        scopes: vec![[NONE, LANE, NONE], [0, LANE, OPEN]],
        // Root scope, initial mode.
        reactors: vec![[0, NONE]],
        modes: vec![[1, LANE]],
        // The lamp, at a level that there isn't.
        levels: vec![16],
        // A pass ends on the open lane's clock, an hour after the lane was entered afresh; the lamp shows it.
        actions: vec![(1, true)],
        triggers: vec![[0, 0]],
        timers: vec![(0, Tag::new(HOUR, 0))],
        ..Table::default()
    }
}

fn main() -> Result<(), Box<dyn std::error::Error>> {
    let mut table = table();
    // What is wrong has document 01's number, and the place in the image that is not made.
    if let Err(refused) = table.written() {
        println!("{refused}");
    }
    table.levels[0] = 0;
    let image = table.written()?;
    println!("written: {} bytes", image.len());
    // The timer is the last row: its hour begins 12 bytes before the end, high byte first.
    let hour = &image[image.len() - 12..image.len() - 4];
    println!("an hour in its row: {hour:02x?}");

    // The same into a buffer of one's own: bytes behind the image stay.
    let mut buffer = [0xff; 80];
    let length = write_table(&table.counts(), &table.rows(), &mut buffer)?;
    let kept = buffer[length..].iter().all(|&byte| byte == 0xff);
    println!("into 80 bytes: {length} used, the others kept: {kept}");
    if let Err(refused) = write_table(&table.counts(), &table.rows(), &mut buffer[..20]) {
        println!("{refused}");
    }

    let mut gate = Gate::new(&image)?;
    gate.apply_transition(LANE, OPEN, Kind::Reset, Tag::ZERO)?;
    if let Some(ready) = gate.pop_next_event() {
        println!("the pass ends at {} s", ready.tag.offset / 1_000_000_000);
    }
    Ok(())
}
