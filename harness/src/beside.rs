//! The days of `oracle beside`: all through the library in this process, and some through a program.

use std::path::Path;
use std::sync::mpsc;
use std::time::Duration;

use oracle::beside::{self, child, Side};

/// A day's lines from the library, in a thread of its own, so that one that comes to no end is found.
pub fn answered(day: &[u8], limit: Duration) -> Result<Vec<u8>, String> {
    let (sender, receiver) = mpsc::channel();
    let day = day.to_vec();
    std::thread::spawn(move || {
        // Nobody waits any more for one that is late.
        let _ = sender.send(barnshiver::run_day(&day));
    });
    receiver
        .recv_timeout(limit)
        .map_err(|_| format!("the function ended badly or not within {limit:?}"))
}

/// The program, if there are words for one, runs the made days of so many seeds, and all others.
pub fn beside(
    seeds: (u64, u64),
    damaged: usize,
    folder: &Path,
    program_seeds: u64,
    words: &[&str],
) -> Result<String, String> {
    let program = |day: &[u8], limit: Duration| child(words, day, limit);
    let mut sides = vec![Side {
        name: "the library's function in one process",
        seeds: u64::MAX,
        runner: &answered,
    }];
    if !words.is_empty() {
        sides.push(Side {
            name: "the bench program",
            seeds: program_seeds,
            runner: &program,
        });
    }
    beside::beside(seeds, damaged, folder, &sides)?
}
