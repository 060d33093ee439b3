//! Takes for the whole way from a WAV file to an HCA file.
use crate::rng::Rng;
use std::f64::consts::TAU;

/// What a case is for; the share is out of 100 indices.
pub const KINDS: [(&str, u64); 7] = [
    ("voices", 44),
    ("noise", 16),
    ("silence and clicks", 10),
    ("full scale and beyond", 12),
    ("frames too small", 6),
    ("files that end oddly", 6),
    ("not a take", 6),
];

pub fn kind_of(index: u64) -> (usize, u64) {
    crate::share_of(&KINDS, index)
}

pub struct Case {
    pub wav: Vec<u8>,
    pub rate: u32,
    pub channels: u16,
    pub depth: u16,
    pub bitrate: u32,
    pub loop_points: Option<(u32, u32)>,
}

/// Samples a channel: around the edges of a subframe and of a frame, the encoder's delay of 128 taken off too; or any.
fn length(r: &mut Rng, nth: u64) -> usize {
    let edges = [1, 127, 128, 895, 896, 897, 1023, 1024, 1025, 1919, 1920, 1921, 2047, 2048, 2049, 2943, 2944, 2945];
    match nth % 4 {
        3 => r.range(2, 6_000) as usize,
        _ => (edges[(nth / 4 * 3 + nth % 4) as usize % edges.len()]).max(1),
    }
}

/// One channel, within -1 to 1 or beyond.
fn sound(r: &mut Rng, kind: &str, n: usize) -> Vec<f64> {
    let pitch = 0.001 + 0.03 * r.unit();
    let gain = 10f64.powf(-2.5 * r.unit());
    let clicks = 1 + r.below(400);
    let beyond = r.pick(&[1.0, 1.0, 1.5, 40.0, 1e20]);
    let fade = 0.2 + 3.0 * r.unit();
    (0..n)
        .map(|i| match kind {
            "noise" => gain * r.normal(),
            "silence and clicks" => f64::from(u8::from(i % clicks == 0 && clicks < 300)) * r.unit(),
            "full scale and beyond" => {
                beyond * (i as f64 * pitch * TAU).sin().signum() * if r.chance(0.9) { 1.0 } else { r.unit() }
            }
            _ => {
                let voiced: f64 = (1..12).map(|h| (i as f64 * pitch * TAU * f64::from(h)).sin() / f64::from(h)).sum();
                gain * (0.5 * voiced * (i as f64 / n as f64 * fade).cos() + 0.02 * r.normal())
            }
        })
        .collect()
}

/// Channels of their own, the same, or related, as a pair's are.
fn interleaved(r: &mut Rng, kind: &str, channels: usize, n: usize) -> Vec<f64> {
    let mut all: Vec<Vec<f64>> = Vec::new();
    for c in 0..channels {
        let share = r.pick(&[0.0, 0.0, 1.0, -1.0, 0.6]);
        let own = sound(r, kind, n);
        let next = match all.last() {
            Some(before) if c % 2 == 1 && share != 0.0 => before.iter().zip(&own).map(|(a, b)| share * a + 0.1 * b).collect(),
            _ => own,
        };
        all.push(next);
    }
    (0..n).flat_map(|i| all.iter().map(move |one| one[i])).collect()
}

/// The samples as a file has them.
fn stored(samples: &[f64], depth: u16) -> Vec<u8> {
    let whole = |scale: f64, v: f64| (v.clamp(-1.0, 1.0) * scale).round().min(scale - 1.0) as i32;
    match depth {
        16 => samples.iter().flat_map(|&v| (whole(32_768.0, v) as i16).to_le_bytes()).collect(),
        24 => samples.iter().flat_map(|&v| whole(8_388_608.0, v).to_le_bytes()[..3].to_vec()).collect(),
        _ => samples.iter().flat_map(|&v| (v as f32).to_le_bytes()).collect(),
    }
}

fn file(rate: u32, channels: u16, depth: u16, body: &[u8]) -> Vec<u8> {
    let mut wav = b"RIFF\0\0\0\0WAVEfmt \x10\0\0\0".to_vec();
    wav.extend(if depth == 32 { [3, 0] } else { [1, 0] });
    wav.extend(channels.to_le_bytes());
    wav.extend(rate.to_le_bytes());
    wav.extend([0; 6]);
    wav.extend(depth.to_le_bytes());
    wav.extend(b"data");
    wav.extend((body.len() as u32).to_le_bytes());
    wav.extend(body);
    wav
}

fn bitrate(r: &mut Rng, kind: &str) -> u32 {
    match kind {
        "frames too small" => r.range(1_000, 20_000) as u32,
        _ if r.chance(0.5) => r.pick(&[32_000, 48_000, 64_000, 96_000, 128_000, 192_000, 256_000, 384_000, 512_000]),
        _ => r.range(32_000, 512_000) as u32,
    }
}

/// A loop within the take: all of it, or a part.
fn loop_points(r: &mut Rng, n: usize) -> Option<(u32, u32)> {
    let n = n as u32;
    match r.below(3) {
        0 if n > 1 && r.chance(0.7) => {
            let start = r.below(n as usize) as u32;
            Some((start, start + 1 + r.below((n - start) as usize) as u32))
        }
        0 => Some((0, n)),
        _ => None,
    }
}

/// Case `index` of a seed.
pub fn case(seed: u64, index: u64) -> Case {
    let mut r = Rng::of_case(seed ^ 0x0C07_E000, index);
    let r = &mut r;
    let (kind, nth) = kind_of(index);
    let kind = KINDS[kind].0;
    let mut channels: u16 = match kind {
        "frames too small" => r.pick(&[6, 8]),
        _ => r.pick(&[1, 1, 1, 2, 2, 2, 6, 8, 3, 4, 5, 7]),
    };
    let mut rate = r.pick(&[8_000, 16_000, 22_050, 32_000, 44_100, 48_000, 96_000]);
    let mut depth: u16 = if kind == "full scale and beyond" { r.pick(&[16, 32, 32]) } else { r.pick(&[16, 24, 32]) };
    let n = length(r, nth);
    let samples = interleaved(r, kind, usize::from(channels), n);
    let mut body = stored(&samples, depth);
    match kind {
        // a last sample of not all channels, or of not all bytes
        "files that end oddly" => body.truncate(body.len().saturating_sub(1 + r.below(usize::from(channels) * 4)).max(8)),
        "not a take" => spoil(r, nth, &mut rate, &mut channels, &mut depth, &mut body),
        _ => {}
    }
    let mut wav = file(rate, channels, depth, &body);
    if kind == "files that end oddly" && r.chance(0.3) {
        wav.truncate(wav.len() - r.below(body.len() / 2 + 1));
    }
    let n = wav.len().saturating_sub(44) / usize::from((depth / 8).max(1)) / usize::from(channels.max(1));
    let loop_points = if kind == "not a take" || n == 0 { None } else { loop_points(r, n) };
    Case { wav, rate, channels, depth, bitrate: bitrate(r, kind), loop_points }
}

/// What both refuse, and what the Rust alone takes: NaN and infinity, and depths that it reads as silence.
fn spoil(r: &mut Rng, nth: u64, rate: &mut u32, channels: &mut u16, depth: &mut u16, body: &mut Vec<u8>) {
    match nth % 6 {
        0 => *channels = r.pick(&[0, 9, 16, 17, 300]),
        1 => *rate = r.pick(&[0, 0x80_0000, u32::MAX]),
        2 => body.clear(),
        3 => *depth = 8,
        _ => {
            *depth = 32;
            body.truncate(body.len() / 4 * 4);
            if body.len() < 4 {
                body.resize(4, 0);
            }
            let at = r.below(body.len() / 4) * 4;
            body[at..at + 4].copy_from_slice(&r.pick(&[f32::NAN, f32::INFINITY, f32::NEG_INFINITY]).to_le_bytes());
        }
    }
}
