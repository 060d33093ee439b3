//! The whole stereo call against the Rust's stereo step and stage together, on the frames as they are before that step.
//! Beside it the mixing alone: for the Rust its stereo step, for the library the stereo call less the stage's call on what
//! is mixed.
use super::{clear_past_coded, mean_of_medians, rust_pass};
use hca_frame::raw::encode_stereo_frame;
use published::driver::{all_steps, load, Lent, StageCall};
use published::hca::encoder::HcaEncoder;
use std::hint::black_box;
use std::time::Instant;

#[inline(never)]
fn counted_stereo_rust(e: &mut HcaEncoder) {
    clear_past_coded(black_box(e));
    e.encode_intensity_stereo();
    black_box(all_steps(e));
}

#[inline(never)]
fn counted_mixing_rust(e: &mut HcaEncoder) {
    black_box(e).encode_intensity_stereo();
}

fn by_library(call: &StageCall, spectra: &mut [f32], intensities: &mut [u8], b: &mut Lent) -> u32 {
    encode_stereo_frame(
        &call.layout,
        &call.kinds,
        spectra,
        intensities,
        &mut b.scaled,
        &mut b.codes,
        &mut b.factors,
        &mut b.side,
        &mut b.frame,
        &mut b.answer,
    )
}

#[inline(never)]
fn counted_stereo_library(call: &StageCall, spectra: &mut [f32], intensities: &mut [u8], b: &mut Lent) -> u32 {
    by_library(call, spectra, intensities, b)
}

/// Nanoseconds per frame of one run.
struct Times {
    rust: f64,
    library: f64,
    step: f64,
    mixing: f64,
}

#[derive(Default)]
struct Passes {
    rust: Vec<Vec<f64>>,
    library: Vec<Vec<f64>>,
    step: Vec<Vec<f64>>,
}

/// The unmixed frames of an input, and the times of their runs.
pub struct Stereo {
    calls: Vec<StageCall>,
    passes: Passes,
    runs: Vec<Times>,
}

impl Stereo {
    /// The library's frames and numbers have to be the Rust's, or the time says nothing.
    pub fn new(calls: Vec<StageCall>, e: &mut HcaEncoder, b: &mut Lent) -> Self {
        for (k, call) in calls.iter().enumerate() {
            load(e, call);
            e.encode_intensity_stereo();
            let expected = all_steps(e);
            let number = by_library(call, &mut call.spectra.clone(), &mut call.intensities.clone(), b);
            if number != 0 || expected.as_ref() != Some(&b.frame) {
                println!("frame {k} differs between the Rust and the stereo call (number {number}): nothing timed");
                std::process::exit(1);
            }
        }
        Stereo { calls, passes: Passes::default(), runs: Vec::new() }
    }

    fn library_pass(&self, b: &mut Lent) -> Vec<f64> {
        let (mut spectra, mut intensities) = (self.calls[0].spectra.clone(), self.calls[0].intensities.clone());
        let timed = |call: &StageCall| {
            spectra.copy_from_slice(&call.spectra);
            intensities.copy_from_slice(&call.intensities);
            let start = Instant::now();
            black_box(counted_stereo_library(black_box(call), &mut spectra, &mut intensities, b));
            start.elapsed().as_nanos() as f64
        };
        self.calls.iter().map(timed).collect()
    }

    pub fn pass(&mut self, e: &mut HcaEncoder, b: &mut Lent) {
        let library = self.library_pass(b);
        self.passes.library.push(library);
        self.passes.rust.push(rust_pass(e, &self.calls, counted_stereo_rust));
        self.passes.step.push(rust_pass(e, &self.calls, counted_mixing_rust));
    }

    /// Ends a run; `stage` is what the stage's call took on the mixed frames.
    pub fn end_run(&mut self, stage: f64) {
        let passes = std::mem::take(&mut self.passes);
        let library = mean_of_medians(&passes.library);
        let (rust, step) = (mean_of_medians(&passes.rust), mean_of_medians(&passes.step));
        self.runs.push(Times { rust, library, step, mixing: library - stage });
    }

    pub fn say(&self) {
        let sorted = |of: fn(&Times) -> f64| {
            let mut v: Vec<f64> = self.runs.iter().map(of).collect();
            v.sort_by(f64::total_cmp);
            (v[0], v[v.len() / 2], v[v.len() - 1])
        };
        let (least, ratio, most) = sorted(|t| t.rust / t.library);
        let (_, rust, _) = sorted(|t| t.rust);
        let (_, library, _) = sorted(|t| t.library);
        print!(
            "    from unmixed frames: Rust {rust:.0}  library {library:.0}  Rust / library {ratio:.2} ({least:.2} to {most:.2})"
        );
        let (low, mixing, high) = sorted(|t| t.mixing);
        if self.calls[0].layout[2] == 0 {
            println!("  no stereo bands: more than the stage's call {mixing:.0} ({low:.0} to {high:.0})");
            return;
        }
        let (_, step, _) = sorted(|t| t.step);
        println!(
            "  mixing alone: Rust {step:.0}  library {mixing:.0} ({low:.0} to {high:.0})  Rust / library {:.2}",
            step / mixing
        );
    }
}
