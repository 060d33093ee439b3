//! Speech in one call of the line against as many calls of the stage, ns per frame.
use super::median;
use gen::speech::frames;
use hca_frame::raw::{encode_frame, encode_line};
use published::driver::StageCall;
use published::line::{LineCall, LineLent};
use std::hint::black_box;
use std::time::Instant;

#[inline(never)]
fn counted_line(call: &LineCall, b: &mut LineLent) -> u32 {
    encode_line(
        &call.layout,
        &call.kinds,
        call.count,
        &call.spectra,
        &call.intensities,
        &mut b.scaled,
        &mut b.codes,
        &mut b.factors,
        &mut b.side,
        &mut b.frames,
        &mut b.answers,
        &mut b.tally,
        &mut b.answer,
    )
}

/// The same frames by single calls, on parts of the same buffers.
#[inline(never)]
fn counted_singles(call: &LineCall, b: &mut LineLent) -> u32 {
    let (n, f) = (call.layout[0] as usize, call.layout[4] as usize);
    let mut refused = 0;
    for k in 0..call.count {
        refused |= encode_frame(
            &call.layout,
            &call.kinds,
            &call.spectra[k * n * 1024..][..n * 1024],
            &call.intensities[k * n * 8..][..n * 8],
            &mut b.scaled,
            &mut b.codes,
            &mut b.factors,
            &mut b.side,
            &mut b.frames[k * f..][..f],
            &mut b.answers[4 * k..][..4],
        );
    }
    refused
}

fn timed(call: &LineCall, b: &mut LineLent, counted: fn(&LineCall, &mut LineLent) -> u32) -> f64 {
    b.tally.fill(0);
    let start = Instant::now();
    black_box(counted(black_box(call), b));
    start.elapsed().as_nanos() as f64 / call.count as f64
}

/// One line of so many frames, with the medians of its runs' passes.
pub struct Line {
    name: &'static str,
    call: LineCall,
    b: LineLent,
    /// of one call, and of single calls
    runs: Vec<(f64, f64)>,
}

impl Line {
    /// Both ways have to leave the same frames and answers.
    fn new(name: &'static str, frames: &[StageCall]) -> Self {
        let call = LineCall::of(frames);
        let (mut b, mut singles) = (call.lent(), call.lent());
        let numbers = (counted_line(&call, &mut b), counted_singles(&call, &mut singles));
        if numbers != (0, 0) || b.frames != singles.frames || b.answers != singles.answers {
            println!("{name}: the line differs from single calls (numbers {numbers:?}): nothing timed");
            std::process::exit(1);
        }
        Line { name, call, b, runs: Vec::new() }
    }

    pub fn run(&mut self, passes: usize) {
        let (mut line, mut singles) = (Vec::new(), Vec::new());
        for _ in 0..passes {
            singles.push(timed(&self.call, &mut self.b, counted_singles));
            line.push(timed(&self.call, &mut self.b, counted_line));
        }
        self.runs.push((median(line), median(singles)));
    }

    pub fn say(&mut self) {
        let n = self.runs.len();
        self.runs.sort_by(|a, b| (a.1 / a.0).total_cmp(&(b.1 / b.0)));
        let ratio = |k: usize| self.runs[k].1 / self.runs[k].0;
        let (line, singles) = self.runs[n / 2];
        println!(
            "{}: {} frames: one call {line:.0}  single calls {singles:.0}  single / one {:.3} ({:.3} to {:.3})",
            self.name,
            self.call.count,
            ratio(n / 2),
            ratio(0),
            ratio(n - 1)
        );
    }
}

/// The lines whose name has the words. The last shows what a call itself takes: frames of eight bytes without a coded band.
pub fn lines(only: &str) -> Vec<Line> {
    let all: [(&str, fn() -> Vec<StageCall>); 3] = [
        ("line of mono at 64 kbit/s", || frames(1, 64_000, 400)),
        ("line of stereo at 64 kbit/s", || frames(2, 64_000, 400)),
        ("line of the smallest frames", || vec![StageCall::exact(&[0], 0, 0, 1, 8); 400]),
    ];
    all.into_iter().filter(|a| a.0.contains(only)).map(|(name, make)| Line::new(name, &make())).collect()
}
