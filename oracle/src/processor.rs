//! The processor's time as the system counts it: of a process that has ended, and of this thread. Other work on the machine then counts for less than
//! by the clock. Rust's own library has no way to either, so two functions of the C library are declared here (Linux, 64 bits).

use std::ffi::{c_int, c_long};
use std::io;
use std::os::unix::process::ExitStatusExt;
use std::process::{Child, ExitStatus};
use std::time::Duration;

/// Seconds, and micro- or nanoseconds beside them.
#[repr(C)]
#[derive(Clone, Copy, Default)]
struct Time {
    seconds: c_long,
    part: c_long,
}

/// What a process used; only its times are looked at.
#[repr(C)]
#[derive(Default)]
struct Usage {
    user: Time,
    system: Time,
    rest: [c_long; 14],
}

extern "C" {
    fn wait4(process: c_int, status: *mut c_int, options: c_int, usage: *mut Usage) -> c_int;
    fn clock_gettime(clock: c_int, time: *mut Time) -> c_int;
}

const CLOCK_THREAD_CPUTIME_ID: c_int = 3;

/// Waits for the end of a process: how it ended, and the processor's time that it took.
pub fn of_process(child: Child) -> io::Result<(ExitStatus, Duration)> {
    let (mut status, mut usage) = (0, Usage::default());
    // SAFETY: both places are our own, of the C library's layout, and stay for the call; nobody else waits for the child, which is ours.
    while unsafe { wait4(child.id() as c_int, &mut status, 0, &mut usage) } < 0 {
        let error = io::Error::last_os_error();
        if error.kind() != io::ErrorKind::Interrupted {
            return Err(error);
        }
    }
    let time = |time: Time| {
        Duration::from_secs(time.seconds as u64) + Duration::from_micros(time.part as u64)
    };
    let taken = time(usage.user) + time(usage.system);
    Ok((ExitStatus::from_raw(status), taken))
}

/// The processor's time that something takes in this thread.
pub fn of_call(call: impl FnOnce()) -> Duration {
    let before = of_thread();
    call();
    of_thread() - before
}

fn of_thread() -> Duration {
    let mut time = Time::default();
    // SAFETY: the place is our own, of the C library's layout, and stays for the call.
    let failed = unsafe { clock_gettime(CLOCK_THREAD_CPUTIME_ID, &mut time) };
    assert_eq!(failed, 0, "the system tells a thread's time");
    Duration::new(time.seconds as u64, time.part as u32)
}

#[cfg(test)]
mod tests {
    use super::*;
    use std::process::Command;
    use std::time::Instant;

    /// The processor's time and the clock's of a shell's words, and how it ended.
    fn run(words: &str) -> (Duration, Duration, ExitStatus) {
        let start = Instant::now();
        let child = Command::new("sh").args(["-c", words]).spawn().unwrap();
        let (status, taken) = of_process(child).unwrap();
        (taken, start.elapsed(), status)
    }

    #[test]
    fn work_counts_and_waiting_does_not() {
        let (slept, by_clock, status) = run("exec sleep 0.3");
        assert!(status.success() && by_clock >= Duration::from_millis(300));
        assert!(slept < Duration::from_millis(150), "{slept:?}");
        let (worked, by_clock, status) =
            run("i=0; while [ $i -lt 100000 ]; do i=$((i + 1)); done; exit 3");
        assert_eq!(status.code(), Some(3));
        assert!(Duration::from_millis(5) < worked && worked <= by_clock);
        let slept = of_call(|| std::thread::sleep(Duration::from_millis(100)));
        assert!(slept < Duration::from_millis(50), "{slept:?}");
        let start = Instant::now();
        let mut turns = 0;
        let worked = of_call(|| {
            while start.elapsed() < Duration::from_millis(50) {
                turns += 1;
            }
        });
        assert!(turns > 0 && Duration::from_millis(1) < worked && worked <= start.elapsed());
    }
}
