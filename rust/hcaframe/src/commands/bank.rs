//! A folder of takes to a folder of HCA files and lists.
use crate::bank::leftovers;
use crate::bank::table::{report, Totals};
use crate::bank::takes::{find, have_own_outputs, part, Take};
use crate::bank::turns::Turns;
use crate::bank::words::{is_words_file, Words};
use crate::bank::work::{Outcome, State, Work};
use crate::files::{Ended, Files};
use crate::layout::{mode_words, resolution_words, resolutions_of};
use crate::options::Name;
use crate::parse::Options;
use crate::progress::Progress;
use crate::stop::{shown, Stop};
use crate::take::bitrate_of;
use crate::text::Text;
use hca_convert::Settings;
use std::fs;
use std::os::unix::ffi::OsStrExt;
use std::path::Path;
use std::sync::atomic::{AtomicU64, Ordering};
use std::sync::{Mutex, PoisonError};
use std::thread;
use std::time::Duration;

pub fn run(options: &Options, text: &mut Text) -> Result<Ended, Stop> {
    let (bitrate, resolutions) = (bitrate_of(options)?, resolutions_of(options)?);
    let jobs = jobs_of(options)?;
    is_no_bank_file(options)?;
    let takes = find(options.folder(Name::In))?;
    have_own_outputs(&takes)?;
    let takes = part(takes, options.shard());
    let to = Path::new(options.folder(Name::Out));
    fs::create_dir_all(to).map_err(|error| Stop::failed(shown(to), &error))?;
    let mut files = Files::new(options, text);
    files.output(Name::Report)?;
    let mut outputs = files.outputs();
    // the words that the files' bytes depend on
    let limits = resolution_words(resolutions.0, resolutions.1) + mode_words(options.mode());
    let told = format!("hcaframe {} --bitrate {bitrate}{limits}", env!("CARGO_PKG_VERSION"));
    let words = Words::open(to, told, options.shard())?;
    let own = takes.iter().flat_map(Take::outputs).map(|name| to.join(name));
    let left = leftovers::remove(own.chain([words.path().to_path_buf()]))?;
    if 0 < left {
        text.say(format_args!("left behind by a run before, and removed: {left}\n"));
    }
    let settings = Settings { bitrate, loop_points: None, resolutions, mode: options.mode() };
    let from = Path::new(options.folder(Name::In));
    let is_forced = options.is_given(Name::Force);
    let work =
        Work { from, to, settings, is_forced, words: Mutex::new(words), turns: Turns::new(jobs), frames: AtomicU64::new(0) };
    let mut watch = Watch::new(options, &takes);
    work.all(&takes, jobs, |told| watch.hear(told, work.frames.load(Ordering::Relaxed)))?;
    let Watch { progress, outcomes, mut totals, .. } = watch;
    drop(progress);
    work.words.into_inner().unwrap_or_else(PoisonError::into_inner).end()?;
    totals.say(text, &takes);
    outputs.put(Name::Report, report(&takes, &outcomes).as_bytes())?;
    outputs.end(totals.status)
}

fn jobs_of(options: &Options) -> Result<usize, Stop> {
    match options.number(Name::Jobs) {
        None => Ok(thread::available_parallelism().map_or(1, usize::from)),
        Some(n @ 1..=1024) => Ok(n as usize),
        Some(n) => Err(Stop::wrong(format_args!("--jobs is {n}; it is 1 to 1024"))),
    }
}

/// A report must not take the place of a take, of what is made of it or of the words.
fn is_no_bank_file(options: &Options) -> Result<(), Stop> {
    let Some(path) = options.file(Name::Report) else { return Ok(()) };
    let name = Path::new(path).file_name().unwrap_or_default();
    let end = Path::new(path).extension().unwrap_or_default();
    let is_taken = ["wav", "hca", "list"].iter().any(|one| end.eq_ignore_ascii_case(one)) || is_words_file(name.as_bytes());
    match is_taken {
        true => Err(Stop::wrong(format_args!("--report: {} has the name of one of a bank's files", shown(path)))),
        false => Ok(()),
    }
}

/// What is heard of the work.
struct Watch<'a> {
    takes: &'a [Take],
    progress: Progress,
    outcomes: Vec<Option<Outcome>>,
    totals: Totals,
    heard: usize,
    /// Bytes of the takes that were made, and of all that may be.
    bytes: (u64, u64),
}

impl Watch<'_> {
    fn new<'a>(options: &Options, takes: &'a [Take]) -> Watch<'a> {
        let outcomes = takes.iter().map(|_| None).collect();
        let bytes = (0, takes.iter().map(|take| take.bytes).sum());
        Watch { takes, progress: Progress::alone(options), outcomes, totals: Totals::default(), heard: 0, bytes }
    }

    fn hear(&mut self, told: Option<(usize, Outcome)>, frames: u64) {
        if let Some((index, outcome)) = told {
            self.take(index, outcome);
        }
        let (heard, all, bytes) = (self.heard, self.takes.len(), self.bytes);
        self.progress.tell(|time| bar(heard, all, bytes, frames, time));
    }

    fn take(&mut self, index: usize, outcome: Outcome) {
        self.totals.add(index, &outcome);
        self.heard += 1;
        let name = shown(&self.takes[index].name);
        for note in &outcome.notes {
            self.progress.interrupted(&format!("hcaframe: {name}: {note}\n"));
        }
        match &outcome.state {
            State::Stopped(_, why) => self.progress.interrupted(&format!("hcaframe: {name}: {why}\n")),
            // what is skipped takes no time, so it is not part of what is left
            State::Skipped(_) => self.bytes.1 -= self.takes[index].bytes.min(self.bytes.1),
            State::Done(..) => self.bytes.0 += self.takes[index].bytes,
        }
        self.outcomes[index] = Some(outcome);
    }
}

/// The bar's places.
const PLACES: usize = 30;

fn bar(heard: usize, all: usize, (done, bytes): (u64, u64), frames: u64, time: Duration) -> String {
    let full = heard * PLACES / all.max(1);
    let speed = frames as f64 / time.as_secs_f64();
    let left = match done {
        0 => String::new(),
        _ => format!(", {:.0} s left", time.as_secs_f64() / done as f64 * bytes.saturating_sub(done) as f64),
    };
    format!("[{}{}] {heard} of {all} takes, {speed:.0} frames/s{left}", "#".repeat(full), ".".repeat(PLACES - full))
}

#[cfg(test)]
mod tests {
    use super::*;

    #[test]
    fn bars() {
        let time = Duration::from_secs(4);
        assert_eq!(bar(0, 9, (0, 900), 0, time), format!("[{}] 0 of 9 takes, 0 frames/s", ".".repeat(30)));
        let half = format!("[{}{}] 5 of 10 takes, 250 frames/s, 12 s left", "#".repeat(15), ".".repeat(15));
        assert_eq!(bar(5, 10, (100, 400), 1000, time), half);
    }
}
