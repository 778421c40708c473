//! A line that says how far the work is: on a terminal alone, and only where it takes more than a second.

use std::io::{self, IsTerminal, Write};
use std::time::{Duration, Instant};

/// So long nothing is shown, and so long a shown line stays.
const PATIENCE: Duration = Duration::from_secs(1);
const STAYS: Duration = Duration::from_millis(250);

pub struct Progress {
    began: Instant,
    shown: Option<Instant>,
    /// The bytes of all, if they are known.
    length: Option<usize>,
    on: bool,
}

impl Progress {
    /// Of some work over an input of that many bytes.
    pub fn new(length: Option<usize>) -> Progress {
        Progress {
            began: Instant::now(),
            shown: None,
            length,
            on: io::stderr().is_terminal(),
        }
    }

    /// Shows nothing from now on: the work prints to the terminal itself.
    pub fn never(&mut self) {
        self.on = false;
    }

    /// So many bytes are done.
    pub fn tick(&mut self, done: usize) {
        if !self.on {
            return;
        }
        let now = Instant::now();
        let since_begin = now - self.began;
        let lately = self.shown.is_some_and(|shown| now - shown < STAYS);
        if since_begin < PATIENCE || lately {
            return;
        }
        let line = line(done, self.length, since_begin);
        let mut terminal = io::stderr();
        let _ = write!(terminal, "\r\x1b[K{line}").and_then(|()| terminal.flush());
        self.shown = Some(now);
    }

    /// Takes the line away, so that something else can be printed.
    pub fn clear(&mut self) {
        if self.shown.take().is_some() {
            let mut terminal = io::stderr();
            let _ = write!(terminal, "\r\x1b[K").and_then(|()| terminal.flush());
        }
    }
}

impl Drop for Progress {
    fn drop(&mut self) {
        self.clear();
    }
}

/// Bytes done, their share of all, the rate, and the time that is left at this rate.
fn line(done: usize, length: Option<usize>, passed: Duration) -> String {
    let rate = done as f64 / passed.as_secs_f64();
    let speed = format!("{:.1} MB, {:.1} MB/s", done as f64 / 1e6, rate / 1e6);
    match length {
        Some(length) if length > 0 && done <= length && rate > 0.0 => {
            let left = ((length - done) as f64 / rate).ceil() as u64;
            let share = done as f64 * 100.0 / length as f64;
            format!("{share:3.0} %, {speed}, {} left", clock(left))
        }
        _ => speed,
    }
}

fn clock(seconds: u64) -> String {
    match seconds / 3600 {
        0 => format!("{}:{:02}", seconds / 60, seconds % 60),
        hours => format!("{hours}:{:02}:{:02}", seconds / 60 % 60, seconds % 60),
    }
}

#[cfg(test)]
mod tests {
    use super::*;

    #[test]
    fn a_line_has_share_rate_and_rest() {
        let two = Duration::from_secs(2);
        let half = line(30_000_000, Some(120_000_000), two);
        assert_eq!(half, " 25 %, 30.0 MB, 15.0 MB/s, 0:06 left");
        assert_eq!(line(30_000_000, None, two), "30.0 MB, 15.0 MB/s");
        assert_eq!(line(0, Some(5), two), "0.0 MB, 0.0 MB/s");
        // A file that grows while it is read.
        assert_eq!(line(9_000_000, Some(5), two), "9.0 MB, 4.5 MB/s");
    }

    #[test]
    fn hours_are_told() {
        assert_eq!(clock(59), "0:59");
        assert_eq!(clock(3600 + 62), "1:01:02");
    }
}
