//! Speech to HCA files and back.
//!
//! end-to-end encode WAV BITRATE OURS.hca RUST.hca
//!     the Rust's front end before the library's header and frames, and the Rust's own file; says whether they are equal
//! end-to-end measure WAV OURS.f32 RUST.f32
//!     the signal-to-noise ratio of each decoded file (raw f32, little endian) against the WAV file, at the best delay
//!     and polarity: the transforms of encoder and decoder stand outside the frame, and may differ in sign
//! end-to-end modes HERTZ BITRATE
//!     a full-scale square tone in both modes: frames that are read back, and the signal-to-noise ratio of what is
#[path = "end-to-end/modes.rs"]
mod modes;

use compare::front::{encoder_for, layout_of, read_wav, stage_calls, Wav};
use hca_frame::{write_header, Encoder, Stream};
use std::io::Cursor;

/// The most samples that a decoder may put before the signal.
const LONGEST_DELAY: usize = 4096;

fn library_file(wav: &Wav, bitrate: u32) -> Result<Vec<u8>, String> {
    let mut e = encoder_for(wav, bitrate)?;
    let calls = stage_calls(&mut e, wav);
    let layout = layout_of(&calls[0]);
    let padding = e.encoder_padding.into();
    let stream = Stream::new(wav.rate.into(), calls.len() as u64, padding);
    let mut file = write_header(&layout, &stream).map_err(|no| format!("the header: {no}"))?.to_vec();
    let mut encoder = Encoder::new(layout);
    for (k, call) in calls.iter().enumerate() {
        encoder
            .encode_frame(&call.spectra, &call.intensities)
            .map_err(|no| format!("frame {k} of {} bytes: {no}", call.layout[4]))?;
        file.extend_from_slice(encoder.frame());
    }
    let l = &calls[0].layout;
    println!("{} frames of {} bytes; channels {}, base {}, stereo {}, total {}", calls.len(), l[4], l[0], l[1], l[2], l[3]);
    Ok(file)
}

fn rust_file(wav: &Wav, bitrate: u32) -> Result<Vec<u8>, String> {
    let mut file = Cursor::new(Vec::new());
    encoder_for(wav, bitrate)?.encode(&wav.samples, &mut file).map_err(|e| e.to_string())?;
    Ok(file.into_inner())
}

fn encode(wav: &str, bitrate: &str, ours: &str, rust: &str) -> Result<(), String> {
    let wav = read_wav(wav)?;
    let bitrate = bitrate.parse().map_err(|_| format!("{bitrate} is not a bit rate"))?;
    let (a, b) = (library_file(&wav, bitrate)?, rust_file(&wav, bitrate)?);
    std::fs::write(ours, &a).and_then(|()| std::fs::write(rust, &b)).map_err(|e| e.to_string())?;
    if a != b {
        return Err(format!("{ours} and {rust} differ"));
    }
    println!("{ours} and {rust}: {} bytes, equal", a.len());
    Ok(())
}

fn raw_samples(path: &str) -> Result<Vec<f32>, String> {
    let bytes = std::fs::read(path).map_err(|e| format!("{path}: {e}"))?;
    Ok(bytes.chunks_exact(4).map(|b| f32::from_le_bytes([b[0], b[1], b[2], b[3]])).collect())
}

/// Decibels of the signal over what the decoded samples, times `sign`, miss of it.
fn ratio(signal: &[f32], decoded: &[f32], sign: f64) -> f64 {
    let (mut power, mut noise) = (0.0, 0.0);
    for (&x, &y) in signal.iter().zip(decoded) {
        power += f64::from(x) * f64::from(x);
        noise += (f64::from(x) - sign * f64::from(y)).powi(2);
    }
    10.0 * (power / noise).log10()
}

/// The best ratio over all delays and both polarities, with that delay in samples a channel and that sign.
fn best(wav: &Wav, decoded: &[f32]) -> (f64, usize, f64) {
    let last = (decoded.len() - wav.samples.len()) / wav.channels;
    let mut best = (f64::NEG_INFINITY, 0, 1.0);
    for delay in 0..=last.min(LONGEST_DELAY) {
        for sign in [1.0, -1.0] {
            let db = ratio(&wav.samples, &decoded[delay * wav.channels..], sign);
            if db > best.0 {
                best = (db, delay, sign);
            }
        }
    }
    best
}

fn measure(wav: &str, ours: &str, rust: &str) -> Result<(), String> {
    let wav = read_wav(wav)?;
    let (a, b) = (raw_samples(ours)?, raw_samples(rust)?);
    for (name, decoded) in [("library's frames", &a), ("Rust's frames", &b)] {
        if decoded.len() < wav.samples.len() {
            return Err(format!("{name}: {} samples decoded of {}", decoded.len(), wav.samples.len()));
        }
        let (db, delay, sign) = best(&wav, decoded);
        let polarity = if sign < 0.0 { "turned" } else { "kept" };
        println!("{name:<17} {db:.2} dB signal to noise at a delay of {delay} samples, polarity {polarity}");
    }
    if a.iter().map(|v| v.to_bits()).ne(b.iter().map(|v| v.to_bits())) {
        return Err("the decoded samples differ".to_string());
    }
    println!("decoded samples: equal");
    Ok(())
}

fn main() {
    let args: Vec<String> = std::env::args().skip(1).collect();
    let words: Vec<&str> = args.iter().map(String::as_str).collect();
    let done = match words.as_slice() {
        ["encode", wav, bitrate, ours, rust] => encode(wav, bitrate, ours, rust),
        ["measure", wav, ours, rust] => measure(wav, ours, rust),
        ["modes", hertz, bitrate] => modes::compare(hertz, bitrate),
        _ => {
            let measure = "measure WAV OURS.f32 RUST.f32 | modes HERTZ BITRATE";
            Err(format!("usage: end-to-end encode WAV BITRATE OURS.hca RUST.hca | {measure}"))
        }
    };
    if let Err(what) = done {
        eprintln!("{what}");
        std::process::exit(1);
    }
}
