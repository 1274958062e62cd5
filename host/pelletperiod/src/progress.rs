//! Word on standard error while something takes long.

use std::sync::atomic::{AtomicUsize, Ordering};
use std::sync::mpsc::{channel, Receiver, RecvTimeoutError};
use std::thread;
use std::time::Duration;

/// The longest time without word, in seconds.
const LONGEST_PAUSE: u64 = 16;

/// How far something has come.
#[derive(Default)]
pub struct Count(AtomicUsize);

impl Count {
    pub fn set(&self, count: usize) {
        self.0.store(count, Ordering::Relaxed);
    }
}

/// Does some work and says after a second, and then more and more rarely, that
/// it is still being done.
pub fn during<T>(what: &str, work: impl FnOnce(&Count) -> T) -> T {
    let count = Count::default();
    thread::scope(|scope| {
        let (at_work, waiting) = channel();
        scope.spawn(|| tell(what, &count, waiting));
        let result = work(&count);
        drop(at_work);
        result
    })
}

fn tell(what: &str, count: &Count, waiting: Receiver<()>) {
    let (mut passed, mut pause) = (0, 1);
    let timeout = Err(RecvTimeoutError::Timeout);
    while waiting.recv_timeout(Duration::from_secs(pause)) == timeout {
        passed += pause;
        pause = (2 * pause).min(LONGEST_PAUSE);
        match count.0.load(Ordering::Relaxed) {
            0 => eprintln!("{what}: {passed} s"),
            count => eprintln!("{what}: {passed} s, {count} so far"),
        }
    }
}
