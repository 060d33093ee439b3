//! The work: a take at a time on each thread, by an index that they share.
use super::takes::Take;
use super::turns::Turns;
use super::words::{stamp, Before, Words};
use crate::input::{open, Input};
use crate::options::Name;
use crate::output::{self, Output};
use crate::stop::{shown, Stop};
use crate::take::make;
use hca_convert::Settings;
use hca_frame::{list_summary, read_list};
use std::fs::{self, Metadata};
use std::io;
use std::path::{Path, PathBuf};
use std::sync::atomic::{AtomicU64, AtomicUsize, Ordering};
use std::sync::mpsc::{self, RecvTimeoutError, Sender};
use std::sync::{Mutex, MutexGuard, PoisonError};
use std::thread;
use std::time::Duration;

/// What a take's files say.
#[derive(Clone, Copy, Debug, Default, PartialEq, Eq)]
pub struct Numbers {
    pub frames: u64,
    pub bytes: u64,
    pub level: u32,
    /// The most pairs of bands that were removed in a frame.
    pub pairs: u32,
}

impl Numbers {
    /// By a list and the length of the HCA file beside it.
    fn of(list: &[u8], bytes: u64) -> Option<Numbers> {
        let all = list_summary(list).ok()?;
        Some(Numbers { frames: read_list(list).ok()?.len() as u64, bytes, level: all.level, pairs: all.pairs })
    }
}

#[derive(Debug)]
pub enum State {
    /// Made; with the words that it was made with before, where they were others.
    Done(Numbers, Option<String>),
    Skipped(Numbers),
    /// The take was refused, or a file failed: the status, and why.
    Stopped(u8, String),
}

/// What became of a take.
#[derive(Debug)]
pub struct Outcome {
    pub state: State,
    /// What its samples' numbers do not tell.
    pub notes: Vec<String>,
}

/// All that the threads share.
pub struct Work<'a> {
    pub from: &'a Path,
    pub to: &'a Path,
    pub settings: Settings,
    pub is_forced: bool,
    pub words: Mutex<Words>,
    /// One for each take that is reckoned at a time.
    pub turns: Turns,
    /// Frames that are made so far.
    pub frames: AtomicU64,
}

/// So many threads more than turns: each output waits for the disk before it takes its name.
const WAITING: usize = 8;

/// How often the caller hears of the work where no take is done.
const PAUSE: Duration = Duration::from_millis(250);

impl Work<'_> {
    /// Does all takes, so many at a time; `hear` is told of each, and of none from time to time.
    pub fn all(&self, takes: &[Take], jobs: usize, mut hear: impl FnMut(Option<(usize, Outcome)>)) -> Result<(), Stop> {
        let next = AtomicUsize::new(0);
        let (send, receive) = mpsc::channel();
        thread::scope(|scope| {
            for job in 0..(jobs + WAITING).min(takes.len()) {
                let (send, next) = (send.clone(), &next);
                let begun = thread::Builder::new().spawn_scoped(scope, move || self.some(takes, next, &send));
                match begun {
                    // with fewer threads it takes longer, and no more
                    Err(error) if job == 0 => return Err(Stop::failed("a thread", &error)),
                    _ => {}
                }
            }
            drop(send);
            loop {
                match receive.recv_timeout(PAUSE) {
                    Ok(told) => hear(Some(told)),
                    Err(RecvTimeoutError::Timeout) => hear(None),
                    Err(RecvTimeoutError::Disconnected) => return Ok(()),
                }
            }
        })
    }

    /// One thread's share.
    fn some(&self, takes: &[Take], next: &AtomicUsize, send: &Sender<(usize, Outcome)>) {
        loop {
            let index = next.fetch_add(1, Ordering::Relaxed);
            let Some(take) = takes.get(index) else { return };
            if send.send((index, self.one(take))).is_err() {
                return;
            }
        }
    }

    fn words(&self) -> MutexGuard<'_, Words> {
        self.words.lock().unwrap_or_else(PoisonError::into_inner)
    }

    fn one(&self, take: &Take) -> Outcome {
        let mut notes = Vec::new();
        let state = self.done_or_skipped(take, &mut notes).unwrap_or_else(|stop| State::Stopped(stop.status, bare(&stop.text)));
        Outcome { state, notes }
    }

    fn done_or_skipped(&self, take: &Take, notes: &mut Vec<String>) -> Result<State, Stop> {
        let path = self.from.join(&take.name);
        let about = fs::metadata(&path).map_err(|error| Stop::failed("reading", &error))?;
        if !about.is_file() {
            return Err(Stop::wrong("it is no regular file"));
        }
        let outputs = take.outputs().map(|name| self.to.join(name));
        let before = self.before(take, &outputs);
        match &before {
            Some((Before::Same, _)) if self.is_forced => {}
            Some((Before::Same, files)) if files.iter().all(|file| is_newer(file, &about)) => {
                // a list that is damaged is made again
                if let Some(numbers) = fs::read(&outputs[1]).ok().and_then(|list| Numbers::of(&list, files[0].len())) {
                    return Ok(State::Skipped(numbers));
                }
            }
            _ => {}
        }
        let made = self.made(&mut open(path.as_os_str())?, &outputs, notes)?;
        // one that changes later is newer than its files
        if !fs::metadata(&path).is_ok_and(|now| stamp(&now) == stamp(&about)) {
            return Err(Stop::wrong("it changed while it was read; the next call makes it again"));
        }
        let numbers = self.known(take, &outputs, made)?;
        let other = match before {
            Some((Before::Other(words), _)) => Some(words),
            _ => None,
        };
        Ok(State::Done(numbers, other))
    }

    /// The files that are there, and how they were made.
    fn before(&self, take: &Take, outputs: &[PathBuf; 2]) -> Option<(Before, [Metadata; 2])> {
        let [hca, list] = outputs;
        let files = [fs::symlink_metadata(hca).ok()?, fs::symlink_metadata(list).ok()?];
        let stamps = [stamp(&files[0]), stamp(&files[1])];
        Some((self.words().before(&take.name, &stamps), files))
    }

    /// Makes the take's files; answers its numbers.
    fn made(&self, input: &mut Input, outputs: &[PathBuf; 2], notes: &mut Vec<String>) -> Result<Numbers, Stop> {
        let told = |_, _| {
            self.frames.fetch_add(1, Ordering::Relaxed);
        };
        let turn = self.turns.take();
        let (made, list) = make(input, &self.settings, |note| notes.push(note.to_string()), told)?;
        drop(turn);
        if let Some(folder) = outputs[0].parent() {
            fs::create_dir_all(folder).map_err(|error| Stop::failed(shown(folder), &error))?;
        }
        let mut begun = Vec::new();
        for (path, bytes) in outputs.iter().zip([&made.file, &list]) {
            output::target(Name::Out, path.as_os_str())?;
            let mut output = Output::begin(path.as_os_str())?;
            output.put(bytes)?;
            begun.push(output);
        }
        output::end(begun)?;
        Numbers::of(&list, made.file.len() as u64).ok_or_else(|| Stop::wrong("its list is not read back"))
    }

    /// Writes down how the take's files were made.
    fn known(&self, take: &Take, outputs: &[PathBuf; 2], numbers: Numbers) -> Result<Numbers, Stop> {
        let stamped = |path: &PathBuf| fs::symlink_metadata(path).map(|about| stamp(&about));
        let stamps = stamped(&outputs[0]).and_then(|hca| io::Result::Ok([hca, stamped(&outputs[1])?]));
        self.words().add(&take.name, stamps.map_err(|error| Stop::failed("reading", &error))?)?;
        Ok(numbers)
    }
}

fn is_newer(file: &Metadata, than: &Metadata) -> bool {
    matches!((file.modified(), than.modified()), (Ok(a), Ok(b)) if b < a)
}

/// The text without the program's name, on one line.
fn bare(text: &str) -> String {
    let lines = text.lines().map(|line| line.strip_prefix("hcaframe: ").unwrap_or(line));
    lines.collect::<Vec<_>>().join("; ")
}

#[cfg(test)]
mod tests {
    use super::*;

    #[test]
    fn texts_stay_on_one_line() {
        assert_eq!(bare("hcaframe: refusal 22: it is none\n"), "refusal 22: it is none");
        assert_eq!(bare("hcaframe: a\nhcaframe: b is whole\n"), "a; b is whole");
    }
}
