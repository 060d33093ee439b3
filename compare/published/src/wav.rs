//! WAV reading as document 02 has it, over the Rust's own lines: `wav_samples` is its `encode_wav_to_hca` up to where all
//! samples are read (import.sh makes it). Around it stand refusals 22 to 25, 30 and 2, which the Rust has not, or as one error.
use crate::hca::wav_samples::wav_samples;
use std::cell::Cell;
use std::sync::Once;

/// A call of the WAV reader.
#[derive(Clone, Debug)]
pub struct WavCall {
    pub wav: Vec<u8>,
    /// of samples, note, answer
    pub lengths: [usize; 3],
    /// what the written slices hold before the call
    pub pattern: u32,
}

/// What the Rust makes of a file.
pub enum Heard {
    Samples {
        samples: Vec<f32>,
        channels: u32,
        rate: u32,
        depth: u32,
    },
    /// its one error
    NoSamples,
    /// it reads past the end, or divides by 0
    Panic,
}

thread_local! {
    static QUIET: Cell<bool> = const { Cell::new(false) };
}

/// A panic of the Rust on this thread is not printed while it reads a file; any other is.
fn hush() {
    static HOOK: Once = Once::new();
    HOOK.call_once(|| {
        let usual = std::panic::take_hook();
        std::panic::set_hook(Box::new(move |info| {
            if !QUIET.with(Cell::get) {
                usual(info);
            }
        }));
    });
}

pub fn by_rust(wav: &[u8]) -> Heard {
    hush();
    QUIET.with(|q| q.set(true));
    let done = std::panic::catch_unwind(|| wav_samples(wav));
    QUIET.with(|q| q.set(false));
    match done {
        Err(_) => Heard::Panic,
        Ok(Err(_)) => Heard::NoSamples,
        Ok(Ok((samples, channels, rate, depth))) => Heard::Samples { samples, channels, rate, depth },
    }
}

fn is_wave(wav: &[u8]) -> bool {
    wav.len() >= 44 && wav.starts_with(b"RIFF") && wav[8..].starts_with(b"WAVE")
}

/// The numbers that the call may give after what the Rust made of the file (0: delivered); two where the Rust panics.
pub fn numbers(call: &WavCall, heard: &Heard) -> &'static [u32] {
    let [room, note, answer] = call.lengths;
    if note < 2 || answer < 4 {
        return &[2];
    }
    match heard {
        Heard::Panic => &[23, 24],
        Heard::NoSamples if !is_wave(&call.wav) => &[22],
        Heard::NoSamples => &[23],
        Heard::Samples { depth, .. } if ![16, 24, 32].contains(depth) => &[24],
        Heard::Samples { samples, .. } if samples.len() > 1 << 24 => &[30],
        Heard::Samples { samples, .. } if samples.len() > room => &[2],
        Heard::Samples { samples, .. } if !samples.iter().all(|v| v.is_finite()) => &[25],
        Heard::Samples { .. } => &[0],
    }
}
