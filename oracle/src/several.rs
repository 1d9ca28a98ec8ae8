//! Work on many things, several at a time.

use std::sync::atomic::{AtomicUsize, Ordering};
use std::sync::{Mutex, MutexGuard};
use std::thread;

/// What the work on each item comes to, in order; or the first that fails, by its place, and why.
pub fn several<I: Sync, T: Send, E: Send>(
    items: &[I],
    work: impl Fn(usize, &I) -> Result<T, E> + Sync,
) -> Result<Vec<T>, (usize, E)> {
    let workers = thread::available_parallelism().map_or(2, |count| count.get());
    let (next, done) = (AtomicUsize::new(0), Mutex::new(Vec::new()));
    let first: Mutex<Option<(usize, E)>> = Mutex::new(None);
    let run = || loop {
        let at = next.fetch_add(1, Ordering::Relaxed);
        let Some(item) = items.get(at) else {
            return;
        };
        match work(at, item) {
            Ok(came) => locked(&done).push((at, came)),
            Err(why) => {
                // Those before it are being worked on; none after it is begun.
                next.store(items.len(), Ordering::Relaxed);
                let mut first = locked(&first);
                if first.as_ref().map_or(true, |(found, _)| at < *found) {
                    *first = Some((at, why));
                }
            }
        }
    };
    thread::scope(|scope| {
        for _ in 0..workers {
            scope.spawn(run);
        }
    });
    let failed = locked(&first).take();
    if let Some(failed) = failed {
        return Err(failed);
    }
    let mut done = std::mem::take(&mut *locked(&done));
    done.sort_by_key(|(at, _)| *at);
    Ok(done.into_iter().map(|(_, came)| came).collect())
}

/// Nobody panics while holding a lock; if one did, what it left is still to be reported.
fn locked<T>(mutex: &Mutex<T>) -> MutexGuard<'_, T> {
    mutex
        .lock()
        .unwrap_or_else(|poisoned| poisoned.into_inner())
}

#[cfg(test)]
mod tests {
    use super::several;

    #[test]
    fn all_in_order_or_the_first_that_fails() {
        let items: Vec<usize> = (0..1000).collect();
        let twice = several(&items, |at, item| Ok::<usize, ()>(at + item)).unwrap();
        assert!(twice.iter().enumerate().all(|(at, &sum)| sum == 2 * at));
        let late = |_: usize, &item: &usize| if item < 700 { Ok(()) } else { Err(item) };
        assert_eq!(several(&items, late), Err((700, 700)));
    }
}
