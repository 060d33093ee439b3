//! Speech-like frames: voiced harmonics under formants, pauses and hiss, taken
//! through the Rust's own front end (MDCT and intensity stereo).
use crate::rng::Rng;
use published::driver::StageCall;
use published::hca::decoder::ChannelType;
use published::hca::encoder::{HcaEncoder, HcaEncoderConfig};

const RATE: u32 = 48_000;

fn envelope(f: f64, vowel: f64) -> f64 {
    let peak = |at: f64, width: f64| (-((f - at) / width).powi(2)).exp();
    peak(500.0 + 250.0 * vowel, 180.0) + 0.5 * peak(1500.0 + 600.0 * vowel, 300.0) + 0.2 * peak(2700.0, 400.0) + 0.02
}

/// One channel of samples within -1..1.
fn voice(r: &mut Rng, samples: usize) -> Vec<f32> {
    let mut phase = 0.0;
    (0..samples)
        .map(|i| {
            let t = i as f64 / f64::from(RATE);
            let syllable = (t * 4.0 * std::f64::consts::TAU / 2.0).sin().powi(2);
            let vowel = (t * 1.7).sin();
            let pitch = 130.0 + 25.0 * (t * 2.3).sin();
            phase += pitch / f64::from(RATE);
            let voiced: f64 = (1..30)
                .map(|h| {
                    envelope(pitch * f64::from(h), vowel) * (phase * f64::from(h) * std::f64::consts::TAU).sin()
                        / f64::from(h).sqrt()
                })
                .sum();
            let hiss = if (t * 3.1).fract() < 0.2 { 0.08 } else { 0.002 };
            (0.3 * syllable * voiced + hiss * r.normal()).clamp(-1.0, 1.0) as f32
        })
        .collect()
}

/// Calls of the stage at a bit rate, with the Rust's layout for it.
pub fn frames(channels: usize, bitrate: u32, frames: usize) -> Vec<StageCall> {
    calls(channels, bitrate, frames, |e| e.encode_intensity_stereo())
}

/// The same before the Rust's stereo step: calls of the stereo stage.
pub fn unmixed_frames(channels: usize, bitrate: u32, frames: usize) -> Vec<StageCall> {
    calls(channels, bitrate, frames, |_| {})
}

fn calls(channels: usize, bitrate: u32, frames: usize, stereo_step: fn(&mut HcaEncoder)) -> Vec<StageCall> {
    let mut r = Rng::of_case(48, channels as u64);
    let left = voice(&mut r, frames * 1024);
    let other = voice(&mut r, frames * 1024);
    let config = HcaEncoderConfig::new(RATE, channels as u32).with_bitrate(bitrate);
    let mut e = HcaEncoder::new(config).expect("a layout for the bit rate");
    (0..frames)
        .map(|k| {
            let samples: Vec<f32> = (k * 1024..k * 1024 + 1024)
                .flat_map(|i| (0..channels).map(move |c| (i, c)))
                .map(|(i, c)| if c == 0 { left[i] } else { 0.6 * left[i] + 0.2 * other[i] })
                .collect();
            e.pcm_to_float(&samples);
            e.run_mdct();
            stereo_step(&mut e);
            call_of(&e, channels)
        })
        .collect()
}

/// The call of the stage that the Rust's state makes, of the stereo stage before its stereo step.
pub fn call_of(e: &HcaEncoder, channels: usize) -> StageCall {
    let kinds: Vec<u8> = e.channel[..channels]
        .iter()
        .map(|ch| match ch.channel_type {
            ChannelType::Discrete => 0,
            ChannelType::StereoPrimary => 1,
            ChannelType::StereoSecondary => 2,
        })
        .collect();
    let mut call = StageCall::exact(&kinds, e.base_band_count, e.stereo_band_count, e.total_band_count, e.frame_size);
    call.spectra = e.channel[..channels].iter().flat_map(|ch| ch.spectra.concat()).collect();
    call.intensities = e.channel[..channels].iter().flat_map(|ch| ch.intensity).collect();
    call
}

/// Sixteen loud channels of 128 bands in a frame of that size.
pub fn crowded(frame: u32) -> StageCall {
    let mut r = Rng::of_case(16, 128);
    let mut call = StageCall::exact(&[0; 16], 128, 0, 128, frame);
    for v in &mut call.spectra {
        *v = (5.0 * r.normal()) as f32;
    }
    call
}
