//! A made bank, and what the Rust makes of it (scripts/bank-trial.sh).
//!
//! bank-trial make FOLDER COUNT
//!     takes cut from the two sample lines, each at another place, of another length and gain, in 30 subfolders: two thirds of 16 bits, the
//!     rest of 24 bits and floats; every sixth is the pair
//! bank-trial published FOLDER BITRATE OUT
//!     each take through the Rust's own encode_wav_to_hca on one thread, timed with the reading of the file; its bytes have to be those of OUT
use compare::front::{read_wav, Wav};
use gen::rng::Rng;
use published::hca::encoder::{encode_wav_to_hca, HcaEncoderConfig};
use std::fs;
use std::io::Cursor;
use std::path::{Path, PathBuf};
use std::time::{Duration, Instant};

fn failed(path: &Path) -> impl Fn(std::io::Error) -> String + '_ {
    move |error| format!("{}: {error}", path.display())
}

/// A part of a line, at a gain.
fn take(r: &mut Rng, line: &Wav) -> Vec<u8> {
    let all = line.samples.len() / line.channels;
    let length = (all / 5 + r.below(all - all / 5)).max(1);
    let start = r.below(all - length + 1);
    let gain = (0.1 + 0.9 * r.unit()) as f32;
    let depth: u16 = r.pick(&[16, 16, 16, 16, 24, 32]);
    let part = &line.samples[start * line.channels..(start + length) * line.channels];
    let body: Vec<u8> = match depth {
        16 => part.iter().flat_map(|&v| ((v * gain * 32_767.0) as i16).to_le_bytes()).collect(),
        24 => part.iter().flat_map(|&v| ((v * gain * 8_388_607.0) as i32).to_le_bytes()[..3].to_vec()).collect(),
        _ => part.iter().flat_map(|&v| (v * gain).to_le_bytes()).collect(),
    };
    let mut wav = b"RIFF\0\0\0\0WAVEfmt \x10\0\0\0".to_vec();
    wav.extend(if depth == 32 { [3, 0] } else { [1, 0] });
    wav.extend((line.channels as u16).to_le_bytes());
    wav.extend(line.rate.to_le_bytes());
    wav.extend([0; 6]);
    wav.extend(depth.to_le_bytes());
    wav.extend(b"data");
    wav.extend((body.len() as u32).to_le_bytes());
    wav.extend(body);
    wav
}

fn make(folder: &str, count: &str) -> Result<(), String> {
    let count: u64 = count.parse().map_err(|_| format!("{count} is no number of takes"))?;
    let sample = Path::new(env!("CARGO_MANIFEST_DIR")).join("../../sample");
    let [line, pair] = ["line.wav", "pair.wav"].map(|name| read_wav(&sample.join(name).to_string_lossy()));
    let (line, pair) = (line?, pair?);
    for k in 0..count {
        let mut r = Rng::of_case(0x0BA0_0C00, k);
        let at = Path::new(folder).join(format!("scene-{:02}", k % 30));
        fs::create_dir_all(&at).map_err(failed(&at))?;
        let path = at.join(format!("take-{k:05}.wav"));
        fs::write(&path, take(&mut r, if k % 6 == 5 { &pair } else { &line })).map_err(failed(&path))?;
    }
    println!("{count} takes");
    Ok(())
}

fn takes(folder: &Path, found: &mut Vec<PathBuf>) -> Result<(), String> {
    for entry in fs::read_dir(folder).map_err(failed(folder))? {
        let path = entry.map_err(failed(folder))?.path();
        match path.is_dir() {
            true => takes(&path, found)?,
            false => found.push(path),
        }
    }
    Ok(())
}

fn by_rust(path: &Path, bitrate: u32) -> Result<Vec<u8>, String> {
    let wav = fs::read(path).map_err(failed(path))?;
    let (channels, rate) = (u16::from_le_bytes([wav[22], wav[23]]), u32::from_le_bytes([wav[24], wav[25], wav[26], wav[27]]));
    let config = HcaEncoderConfig::new(rate, channels.into()).with_bitrate(bitrate);
    let mut file = Cursor::new(Vec::new());
    encode_wav_to_hca(&wav, &mut file, Some(config)).map_err(|error| format!("{}: {error}", path.display()))?;
    Ok(file.into_inner())
}

fn published(folder: &str, bitrate: &str, out: &str) -> Result<(), String> {
    let bitrate = bitrate.parse().map_err(|_| format!("{bitrate} is no bit rate"))?;
    let mut paths = Vec::new();
    takes(Path::new(folder), &mut paths)?;
    paths.sort();
    let mut time = Duration::ZERO;
    for path in &paths {
        let begin = Instant::now();
        let file = by_rust(path, bitrate)?;
        time += begin.elapsed();
        let name = path.strip_prefix(folder).map_err(|_| "a take outside its folder".to_string())?;
        let made = Path::new(out).join(name).with_extension("hca");
        if fs::read(&made).map_err(failed(&made))? != file {
            return Err(format!("{}: the Rust's file has other bytes", made.display()));
        }
    }
    let seconds = time.as_secs_f64();
    println!("{} files of the published encoder are equal; {seconds:.1} s without the comparing", paths.len());
    Ok(())
}

fn main() {
    let args: Vec<String> = std::env::args().skip(1).collect();
    let words: Vec<&str> = args.iter().map(String::as_str).collect();
    let done = match words.as_slice() {
        ["make", folder, count] => make(folder, count),
        ["published", folder, bitrate, out] => published(folder, bitrate, out),
        _ => Err("usage: bank-trial make FOLDER COUNT | published FOLDER BITRATE OUT".to_string()),
    };
    if let Err(what) = done {
        eprintln!("{what}");
        std::process::exit(1);
    }
}
