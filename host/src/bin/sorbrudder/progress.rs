//! The line on a terminal that says how far a command is.

use crate::input::READ;
use crate::output;
use std::io::{self, IsTerminal as _, Write as _};
use std::sync::atomic::Ordering;
use std::time::{Duration, Instant};

/// How often the line is written.
pub const PAUSE: Duration = Duration::from_millis(250);

/// A progress line; none where nobody would see it.
pub struct Progress {
    begun: Instant,
    shown: Option<Instant>,
    total: u64,
    is_seen: bool,
}

impl Progress {
    /// Over so many bytes; 0 where that is not known.
    pub fn over(total: u64) -> Self {
        Self {
            begun: Instant::now(),
            shown: None,
            total,
            is_seen: io::stderr().is_terminal() && !output::is_quiet(),
        }
    }

    /// Writes the line, if it is time.
    pub fn show(&mut self) {
        let since = self.shown.unwrap_or(self.begun).elapsed();
        if !self.is_seen || since < PAUSE {
            return;
        }
        self.shown = Some(Instant::now());
        let done = READ.load(Ordering::Relaxed);
        let seconds = self.begun.elapsed().as_secs_f64();
        let _ = write!(io::stderr(), "\r\x1b[K{}", line(done, self.total, seconds));
    }

    /// Takes the line away.
    pub fn clear(&mut self) {
        if self.shown.take().is_some() {
            let _ = write!(io::stderr(), "\r\x1b[K");
        }
    }
}

fn line(done: u64, total: u64, seconds: f64) -> String {
    let rate = done as f64 / seconds;
    let megabytes = |bytes: f64| bytes / 1e6;
    let head = format!("{:.1} MB", megabytes(done as f64));
    let speed = format!("{:.1} MB/s", megabytes(rate));
    if total <= done || rate <= 0.0 {
        return format!("{head}, {speed}");
    }
    let left = (total - done) as f64 / rate;
    format!(
        "{head} of {:.1} MB, {speed}, {left:.0} s left",
        megabytes(total as f64)
    )
}

#[cfg(test)]
mod tests {
    use super::line;

    #[test]
    fn the_line_says_how_far_how_fast_and_how_long() {
        let halfway = line(50_000_000, 100_000_000, 2.0);
        assert_eq!(halfway, "50.0 MB of 100.0 MB, 25.0 MB/s, 2 s left");
        assert_eq!(line(5_000_000, 0, 1.0), "5.0 MB, 5.0 MB/s");
    }
}
