//! How far a long run is, on standard error where a person watches.
use crate::options::Name;
use crate::parse::Options;
use crate::stop::complain;
use crate::text::Text;
use std::io::{self, IsTerminal};
use std::time::{Duration, Instant};

/// Work that ends before this says nothing.
const LONG: Duration = Duration::from_secs(1);

/// Between two lines.
const PAUSE: Duration = Duration::from_millis(250);

pub struct Progress {
    is_watched: bool,
    all: Option<u64>,
    begin: Instant,
    last: Option<Instant>,
}

impl Progress {
    /// Of so many frames, if their number is known. A text on the terminal is progress enough.
    pub fn new(options: &Options, text: &Text, all: Option<u64>) -> Progress {
        let is_watched = io::stderr().is_terminal() && !text.is_on_terminal() && !options.is_given(Name::Quiet);
        Progress { is_watched, all, begin: Instant::now(), last: None }
    }

    /// Of work whose text comes at its end, or of none.
    pub fn alone(options: &Options) -> Progress {
        let is_watched = io::stderr().is_terminal() && !options.is_given(Name::Quiet);
        Progress { is_watched, all: None, begin: Instant::now(), last: None }
    }

    /// So many frames of so many are done.
    pub fn at_of(&mut self, done: u64, all: u64) {
        self.all = Some(all);
        self.at(done);
    }

    /// So many frames are done.
    pub fn at(&mut self, done: u64) {
        let all = self.all;
        self.tell(|time| line(done, all, time));
    }

    /// The line for what was done in so much time, where it is due.
    pub fn tell(&mut self, line: impl FnOnce(Duration) -> String) {
        if !self.is_watched || self.begin.elapsed() < LONG || self.last.is_some_and(|last| last.elapsed() < PAUSE) {
            return;
        }
        self.last = Some(Instant::now());
        complain(&format!("\r{}\x1b[K", line(self.begin.elapsed())));
    }

    /// Something else is said in the line's place.
    pub fn interrupted(&mut self, text: &str) {
        if self.last.take().is_some() {
            complain("\r\x1b[K");
        }
        complain(text);
    }
}

/// The line is gone before anything else is said there.
impl Drop for Progress {
    fn drop(&mut self) {
        if self.last.is_some() {
            complain("\r\x1b[K");
        }
    }
}

fn line(done: u64, all: Option<u64>, time: Duration) -> String {
    match all {
        Some(all) if 0 < done => {
            let left = time.as_secs_f64() / done as f64 * all.saturating_sub(done) as f64;
            format!("frame {done} of {all}, {left:.0} s left")
        }
        _ => format!("frame {done}"),
    }
}

#[cfg(test)]
mod tests {
    use super::*;

    #[test]
    fn lines() {
        let time = Duration::from_secs(3);
        assert_eq!(line(100, Some(500), time), "frame 100 of 500, 12 s left");
        assert_eq!(line(500, Some(500), time), "frame 500 of 500, 0 s left");
        assert_eq!(line(100, None, time), "frame 100");
        assert_eq!(line(0, Some(9), time), "frame 0");
    }
}
