//! The published Rust against the library on the same frames, in one program.
//!
//! bench [--runs R] [--passes P] [--frames N] [--only WORDS]
//!
//! WORDS is a part of an input's name, as "stereo, 64". A run takes every input P
//! times; printed is, for each input, the run whose ratio is the median of all R,
//! with the least and the greatest ratio of them beside it.
//! Counted for the Rust: calculate_scale_factors .. pack_frame on a state that is
//! made once, and the clearing past the coded count that document 01 asks for.
//! Counted for the library: the whole call, with its tests of layout, lengths,
//! intensities and spectra and its clearing, on buffers that are made once.
//! Not counted for either: bringing the spectra to where the call reads them,
//! which is done just before each frame.
//! Counted for the reader: the whole call of hca_read_frame on the frames that
//! the stage delivered.
//! Beside it the library's calls in held mode, on the same spectra; the Rust has none.
//! Stereo inputs are also taken from unmixed frames on (bench/stereo.rs).
//! Lines of 400 frames are taken in one call and in 400 (bench/line.rs); P times
//! in a run too.
//! What is counted stands in functions counted_..: instructions.sh counts the
//! instructions of these.
#[path = "bench/line.rs"]
mod line;
#[path = "bench/stereo.rs"]
mod stereo;

use compare::modes::in_mode;
use gen::speech::{crowded, frames, unmixed_frames};
use published::driver::{all_steps, load, setup, Lent, StageCall};
use published::hca::encoder::HcaEncoder;
use published::limits::HELD;
use std::hint::black_box;
use std::time::Instant;
use stereo::Stereo;

/// What document 01 clears and the Rust leaves: scaled values and codes past the coded count.
fn clear_past_coded(e: &mut HcaEncoder) {
    for ch in &mut e.channel {
        let n = ch.coded_count;
        ch.scaled_spectra[n..].fill([0.0; 8]);
        for codes in &mut ch.quantized_spectra {
            codes[n..].fill(0);
        }
    }
}

#[inline(never)]
fn counted_rust(e: &mut HcaEncoder) {
    clear_past_coded(black_box(e));
    black_box(all_steps(e));
}

/// Nanoseconds of each frame.
fn rust_pass(e: &mut HcaEncoder, calls: &[StageCall], counted: fn(&mut HcaEncoder)) -> Vec<f64> {
    let timed = |call| {
        load(e, call);
        let start = Instant::now();
        counted(e);
        start.elapsed().as_nanos() as f64
    };
    calls.iter().map(timed).collect()
}

fn by_library(call: &StageCall, spectra: &[f32], intensities: &[u8], b: &mut Lent) -> u32 {
    hca_frame::raw::encode_frame(
        &call.layout,
        &call.kinds,
        spectra,
        intensities,
        &mut b.scaled,
        &mut b.codes,
        &mut b.factors,
        &mut b.side,
        &mut b.frame,
        &mut b.answer,
    )
}

#[inline(never)]
fn counted_library(call: &StageCall, spectra: &[f32], intensities: &[u8], b: &mut Lent) -> u32 {
    by_library(call, spectra, intensities, b)
}

/// A call of the library.
type Counted = fn(&StageCall, &[f32], &[u8], &mut Lent) -> u32;

fn library_pass(b: &mut Lent, spectra: &mut [f32], intensities: &mut [u8], calls: &[StageCall], counted: Counted) -> Vec<f64> {
    let timed = |call: &StageCall| {
        spectra.copy_from_slice(&call.spectra);
        intensities.copy_from_slice(&call.intensities);
        let start = Instant::now();
        black_box(counted(black_box(call), spectra, intensities, b));
        start.elapsed().as_nanos() as f64
    };
    calls.iter().map(timed).collect()
}

fn by_reader(call: &StageCall, frame: &[u8], b: &mut Lent) -> u32 {
    hca_frame::raw::read_frame(&call.layout, &call.kinds, frame, &mut b.factors, &mut b.side, &mut b.codes, &mut b.answer)
}

#[inline(never)]
fn counted_reader(call: &StageCall, frame: &[u8], b: &mut Lent) -> u32 {
    by_reader(call, frame, b)
}

/// Nanoseconds of each delivered frame.
fn reader_pass(b: &mut Lent, calls: &[StageCall], delivered: &[(usize, Vec<u8>)]) -> Vec<f64> {
    let timed = |(k, frame): &(usize, Vec<u8>)| {
        let start = Instant::now();
        black_box(counted_reader(black_box(&calls[*k]), frame, b));
        start.elapsed().as_nanos() as f64
    };
    delivered.iter().map(timed).collect()
}

fn median(mut v: Vec<f64>) -> f64 {
    v.sort_by(f64::total_cmp);
    v[v.len() / 2]
}

/// Per frame the median over the passes; of these the mean over the frames. So a
/// pass that the machine took time from spoils few frames.
fn mean_of_medians(passes: &[Vec<f64>]) -> f64 {
    let frames = passes[0].len();
    let of = |k: usize| median(passes.iter().map(|p| p[k]).collect());
    (0..frames).map(of).sum::<f64>() / frames as f64
}

/// What the library made of the calls: the delivered frames by the call's index, and the most pairs removed.
struct Made {
    frames: Vec<(usize, Vec<u8>)>,
    pairs: u32,
}

/// Both give the same frames and the reader accepts them, or the time says nothing.
fn same_frames(e: &mut HcaEncoder, b: &mut Lent, calls: &[StageCall]) -> Made {
    let mut made = Made { frames: Vec::new(), pairs: 0 };
    for (k, call) in calls.iter().enumerate() {
        load(e, call);
        let expected = all_steps(e);
        let number = by_library(call, &call.spectra, &call.intensities, b);
        let same = match &expected {
            Some(frame) => number == 0 && *frame == b.frame,
            None => number == 5 || number == 7,
        };
        if !same {
            println!("frame {k} differs between the Rust and the library (number {number}): nothing timed");
            std::process::exit(1);
        }
        match number {
            0 => made.pairs = made.pairs.max(b.answer[2]),
            5 => made.pairs = made.pairs.max(b.answer[0]),
            _ => {}
        }
        if number == 0 {
            let frame = b.frame.clone();
            let read = by_reader(call, &frame, b);
            if read != 0 {
                println!("frame {k} is refused by the reader (number {read}): nothing timed");
                std::process::exit(1);
            }
            made.frames.push((k, frame));
        }
    }
    made
}

/// Nanoseconds per frame of one run.
struct Times {
    rust: f64,
    library: f64,
    held: f64,
    reader: Option<f64>,
}

impl Times {
    fn ratio(&self) -> f64 {
        self.rust / self.library
    }
}

/// One input with all that its runs use, and their times.
struct Input {
    name: &'static str,
    calls: Vec<StageCall>,
    /// the same in held mode
    held: Vec<StageCall>,
    made: Made,
    e: HcaEncoder,
    b: Lent,
    runs: Vec<Times>,
    stereo: Option<Stereo>,
}

impl Input {
    fn new(name: &'static str, calls: Vec<StageCall>) -> Self {
        let (mut e, mut b) = (setup(&calls[0]), calls[0].lent());
        let made = same_frames(&mut e, &mut b, &calls);
        let held = |call: &StageCall| StageCall { layout: in_mode(&call.layout, HELD), ..call.clone() };
        let held = calls.iter().map(held).collect();
        Input { name, calls, held, made, e, b, runs: Vec::new(), stereo: None }
    }

    fn with_unmixed(mut self, calls: Vec<StageCall>) -> Self {
        self.stereo = Some(Stereo::new(calls, &mut self.e, &mut self.b));
        self
    }

    fn run(&mut self, passes: usize) {
        let (mut spectra, mut intensities) = (self.calls[0].spectra.clone(), self.calls[0].intensities.clone());
        let (mut rust, mut library, mut held, mut reader) = (Vec::new(), Vec::new(), Vec::new(), Vec::new());
        for pass in 0..passes {
            // in turns, so that neither has the quieter machine
            if pass % 2 == 0 {
                rust.push(rust_pass(&mut self.e, &self.calls, counted_rust));
            }
            library.push(library_pass(&mut self.b, &mut spectra, &mut intensities, &self.calls, counted_library));
            held.push(library_pass(&mut self.b, &mut spectra, &mut intensities, &self.held, by_library));
            if pass % 2 == 1 {
                rust.push(rust_pass(&mut self.e, &self.calls, counted_rust));
            }
            reader.push(reader_pass(&mut self.b, &self.calls, &self.made.frames));
            if let Some(stereo) = &mut self.stereo {
                stereo.pass(&mut self.e, &mut self.b);
            }
        }
        let reader = (!self.made.frames.is_empty()).then(|| mean_of_medians(&reader));
        let library = mean_of_medians(&library);
        if let Some(stereo) = &mut self.stereo {
            stereo.end_run(library);
        }
        self.runs.push(Times { rust: mean_of_medians(&rust), library, held: mean_of_medians(&held), reader });
    }

    /// The run whose ratio is the median, and the least and the greatest of all runs' ratios.
    fn say(&mut self) {
        let (x, n) = (&self.calls[0].layout, self.runs.len());
        println!(
            "{}: {} frames, {} delivered, up to {} pairs removed; channels {} base {} stereo {} total {} frame {}",
            self.name,
            self.calls.len(),
            self.made.frames.len(),
            self.made.pairs,
            x[0],
            x[1],
            x[2],
            x[3],
            x[4]
        );
        self.runs.sort_by(|a, b| a.ratio().total_cmp(&b.ratio()));
        let (least, run, most) = (&self.runs[0], &self.runs[n / 2], &self.runs[n - 1]);
        print!("    median of {n} runs, ns/frame: Rust {:.0}  library {:.0}", run.rust, run.library);
        print!("  Rust / library {:.2} ({:.2} to {:.2})", run.ratio(), least.ratio(), most.ratio());
        let mut shares: Vec<f64> = self.runs.iter().filter_map(|r| r.reader.map(|t| r.library / t)).collect();
        shares.sort_by(f64::total_cmp);
        match run.reader {
            Some(t) => {
                println!("  reader {t:.0}  library / reader {:.2} ({:.2} to {:.2})", run.library / t, shares[0], shares[n - 1])
            }
            None => println!(),
        }
        let mut shares: Vec<f64> = self.runs.iter().map(|r| r.held / r.library).collect();
        shares.sort_by(f64::total_cmp);
        println!(
            "    held mode {:.0}  held / Rust's mode {:.2} ({:.2} to {:.2})",
            run.held,
            shares[n / 2],
            shares[0],
            shares[n - 1]
        );
        if let Some(stereo) = &self.stereo {
            stereo.say();
        }
    }
}

/// The smallest frame that delivers, by halving: the most removals.
fn worst_delivered() -> StageCall {
    let (mut no, mut yes) = (8, 4000);
    while yes - no > 1 {
        let mid = (no + yes) / 2;
        if all_steps(&mut setup(&crowded(mid))).is_some() {
            yes = mid;
        } else {
            no = mid;
        }
    }
    crowded(yes)
}

/// The inputs whose name has the words.
fn inputs(count: usize, only: &str) -> Vec<Input> {
    let speech = [
        ("mono, 64 kbit/s", 1, 64_000),
        ("mono, 256 kbit/s", 1, 256_000),
        ("stereo, 64 kbit/s", 2, 64_000),
        ("stereo, 256 kbit/s", 2, 256_000),
    ];
    let most: [(&str, fn() -> StageCall); 2] =
        [("most removals, delivered", worst_delivered), ("most removals, refused", || crowded(8))];
    let mut all = Vec::new();
    for (name, channels, bitrate) in speech.into_iter().filter(|s| s.0.contains(only)) {
        let input = Input::new(name, frames(channels, bitrate, count));
        all.push(if channels == 2 { input.with_unmixed(unmixed_frames(channels, bitrate, count)) } else { input });
    }
    for (name, call) in most.into_iter().filter(|m| m.0.contains(only)) {
        all.push(Input::new(name, vec![call()]));
    }
    all
}

fn main() {
    let (mut runs, mut passes, mut count, mut only) = (7, 15, 100, String::new());
    let mut args = std::env::args().skip(1);
    while let Some(a) = args.next() {
        let v = args.next().unwrap_or_default();
        match (a.as_str(), v.parse()) {
            ("--runs", Ok(n)) if n > 0 => runs = n,
            ("--passes", Ok(n)) if n > 0 => passes = n,
            ("--frames", Ok(n)) if n > 0 => count = n,
            ("--only", _) => only = v,
            _ => {
                eprintln!("usage: bench [--runs R] [--passes P] [--frames N] [--only WORDS]");
                std::process::exit(2);
            }
        }
    }
    println!("Rust / library above 1 means that the library is faster. In brackets the least and the greatest of {runs} runs.");
    let mut inputs = inputs(count, &only);
    let mut lines = line::lines(&only);
    for _ in 0..runs {
        inputs.iter_mut().for_each(|input| input.run(passes));
        lines.iter_mut().for_each(|line| line.run(passes));
    }
    inputs.iter_mut().for_each(Input::say);
    lines.iter_mut().for_each(line::Line::say);
}
