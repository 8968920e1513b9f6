//! Progress on standard error, where that is a terminal and the work takes more than a second.

use crate::signals;
use crate::text::human;
use std::io::{self, IsTerminal, Write};
use std::sync::Arc;
use std::sync::atomic::{AtomicU64, Ordering};
use std::sync::mpsc::{self, RecvTimeoutError, Sender};
use std::thread::{self, JoinHandle};
use std::time::{Duration, Instant};

pub struct Progress {
    done: Arc<AtomicU64>,
    total: u64,
    running: Option<(Sender<()>, JoinHandle<()>)>,
}

impl Progress {
    /// Starts to watch over `total` bytes of work; 0 where only the time can be told.
    pub fn start(what: &str, total: u64) -> Progress {
        Progress::within(Instant::now(), what, total)
    }

    /// The same of a part of work that is done since then.
    pub fn within(since: Instant, what: &str, total: u64) -> Progress {
        let done = Arc::new(AtomicU64::new(0));
        let running = io::stderr().is_terminal().then(|| watch(since, what, total, done.clone()));
        Progress { done, total, running: running.flatten() }
    }

    pub fn advance(&self, bytes: u64) {
        let done = self.done.fetch_add(bytes, Ordering::Relaxed) + bytes;
        signals::expect(done, self.total.saturating_sub(done));
    }

    /// So much is done by now.
    pub fn reach(&self, bytes: u64) {
        self.done.store(bytes, Ordering::Relaxed);
        signals::expect(bytes, self.total.saturating_sub(bytes));
    }
}

/// Shows what is done. Where no thread can be had, the work is done without.
fn watch(
    start: Instant,
    what: &str,
    total: u64,
    seen: Arc<AtomicU64>,
) -> Option<(Sender<()>, JoinHandle<()>)> {
    let (stop, stopped) = mpsc::channel();
    let what = what.to_string();
    let watch = thread::Builder::new().spawn(move || {
        let mut wait = Duration::from_secs(1).saturating_sub(start.elapsed());
        while stopped.recv_timeout(wait) == Err(RecvTimeoutError::Timeout) {
            wait = Duration::from_millis(250);
            show(&what, seen.load(Ordering::Relaxed).min(total), total, start.elapsed());
        }
        if start.elapsed() > Duration::from_secs(1) {
            draw("\r\x1b[K");
        }
    });
    watch.ok().map(|watch| (stop, watch))
}

fn show(what: &str, done: u64, total: u64, time: Duration) {
    let seconds = time.as_secs();
    let mut line = format!("\r\x1b[K{what}: {seconds} s");
    if let Some(percent) = (done * 100).checked_div(total) {
        line.push_str(&format!(", {percent}% ({} of {})", human(done), human(total)));
    }
    draw(&line);
}

/// A terminal obeys this.
fn draw(line: &str) {
    let mut err = io::stderr().lock();
    let _ = err.write_all(line.as_bytes()).and_then(|()| err.flush());
}

impl Drop for Progress {
    fn drop(&mut self) {
        if let Some((stop, watch)) = self.running.take() {
            drop(stop);
            let _ = watch.join();
        }
    }
}
