//! A gate with a one-hour pass: sold, used, left behind, and run out while its mode was asleep.
//!
//! The lane is closed or open. A pass sold in the open lane is an event of the lane's clock, due an hour later; while
//! the lane is closed that clock stands still.
//!
//! `tools/harness example` builds and runs it.

use barnshiver::{Gate, Kind, Ready, Table, Tag, NONE};

const SECOND: u64 = 1_000_000_000;
const HOUR: u64 = 3600 * SECOND;

// Keys of the table below.
const LANE: u16 = 0;
const CLOSED: u16 = 0;
const OPEN: u16 = 1;
const LAMP: u16 = 0;
const ARM: u16 = 1;
const PASS_ENDS: u16 = 0;

fn table() -> Table {
    Table {
        // The gate, the closed lane in it, the open lane in it: parent, reactor, mode.
        scopes: vec![[NONE, LANE, NONE], [0, LANE, CLOSED], [0, LANE, OPEN]],
        // Root scope, initial mode.
        reactors: vec![[0, CLOSED]],
        modes: vec![[1, LANE], [2, LANE]],
        // The lamp goes before the arm.
        levels: vec![0, 1],
        // The pass ends on the open lane's clock.
        actions: vec![(2, true)],
        ..Table::default()
    }
}

fn told(what: &str, ready: Option<Ready>) {
    match ready {
        Some(ready) => {
            let names = ["lamp", "arm"];
            let does: Vec<&str> = ready
                .reactions
                .iter()
                .map(|&(_, reaction)| names[usize::from(reaction)])
                .collect();
            println!(
                "{what}: at {:.0} s: {}{}",
                ready.tag.offset as f64 / SECOND as f64,
                does.join(", "),
                if ready.actions.is_empty() {
                    ""
                } else {
                    ": the pass has ended"
                }
            );
        }
        None => println!("{what}: nothing is due"),
    }
}

fn main() -> Result<(), Box<dyn std::error::Error>> {
    let mut gate = Gate::new(&table().written()?)?;
    println!(
        "the table is accepted; {} events wait",
        gate.state().events.len()
    );

    // The lane opens after ten seconds, and lamp and arm are to go a second later.
    gate.apply_transition(LANE, OPEN, Kind::Reset, Tag::new(10 * SECOND, 0))?;
    gate.push_event(Tag::new(11 * SECOND, 0), &[LAMP, ARM], false)?;
    // A pass sold now ends in an hour of the open lane's time.
    gate.push_action_event(PASS_ENDS, Tag::new(11 * SECOND + HOUR, 0), &[LAMP], false)?;
    told("open", gate.pop_next_event());

    // Half an hour later the lane closes for two hours. Nothing is due meanwhile.
    gate.apply_transition(
        LANE,
        CLOSED,
        Kind::History,
        Tag::new(11 * SECOND + HOUR / 2, 0),
    )?;
    told("closed", gate.pop_next_event());
    gate.apply_transition(
        LANE,
        OPEN,
        Kind::History,
        Tag::new(11 * SECOND + 5 * HOUR / 2, 0),
    )?;
    told("open again", gate.pop_next_event());

    // What is refused has a number and changes nothing.
    if let Err(refused) = gate.push_event(Tag::new(1 << 62, 0), &[], false) {
        println!("a push far too late: {refused}");
    }
    told("at the end", gate.pop_next_event());
    println!("the day so far has {} bytes", gate.day().len());
    Ok(())
}
