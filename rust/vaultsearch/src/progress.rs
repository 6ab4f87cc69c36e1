//! What is being done, told on standard error if it takes long.

use crate::text::say;
use std::sync::mpsc::{channel, RecvTimeoutError};
use std::thread;
use std::time::{Duration, Instant};

pub struct Progress {
    pub quiet: bool,
}

impl Progress {
    /// Runs a step, and tells of it from the second second on: every two seconds, and when it is done.
    pub fn step<T: Send>(&self, what: &str, bytes: u64, work: impl FnOnce() -> T + Send) -> T {
        if self.quiet {
            return work();
        }
        let started = Instant::now();
        let (done, wait) = channel::<()>();
        let tell = move || {
            while wait.recv_timeout(Duration::from_secs(2)) == Err(RecvTimeoutError::Timeout) {
                say(format!("{what}: {:.1} s", started.elapsed().as_secs_f64()));
            }
        };
        let result = thread::scope(|scope| {
            // Where no thread can be had, the work is done untold.
            let _ = thread::Builder::new().spawn_scoped(scope, tell);
            let result = work();
            drop(done);
            result
        });
        let seconds = started.elapsed().as_secs_f64();
        if seconds > 1.0 {
            let rate = if bytes > 0 { format!(", {:.0} MB/s", bytes as f64 / 1e6 / seconds) } else { String::new() };
            say(format!("{what}: done in {seconds:.1} s{rate}"));
        }
        result
    }
}

/// A length for people.
pub fn size(bytes: u64) -> String {
    match bytes {
        0..=9_999 => format!("{bytes} bytes"),
        10_000..=9_999_999 => format!("{} KB", bytes / 1000),
        _ => format!("{} MB", bytes / 1_000_000),
    }
}
