//! A full-scale square tone, which clips, in both modes: what the strict reader hands back of its frames, as spectra, against those that were encoded.
use compare::front::{encoder_for, layout_of, stage_calls, Wav};
use hca_frame::{read_frame, Encoder, Layout, Mode, Record};
use published::driver::StageCall;
use published::hca::encoder::QUANTIZER_INVERSE_STEP_SIZE as STEP;
use published::hca::tables::DEQUANTIZER_SCALING_TABLE as ENTRY;
use published::limits::resolution;

/// One second at 48,000 Hz, 1 and -1 in turn.
fn square(hertz: u32) -> Wav {
    let is_up = |i: u32| u64::from(i) * u64::from(hertz) * 2 / 48_000 % 2 == 0;
    let samples = (0..48_000).map(|i| if is_up(i) { 1.0 } else { -1.0 }).collect();
    Wav { rate: 48_000, channels: 1, samples }
}

/// What a player makes of one code of a record of one channel.
fn played(layout: &Layout, record: &Record, subframe: usize, band: usize) -> f64 {
    let noise = if (band as u32) < record.boundary { record.level.saturating_sub(1) } else { record.level };
    let r = resolution(layout.numbers(), record.factors[band], noise as i32) as usize;
    f64::from(record.codes[128 * subframe + band]) / f64::from(STEP[r]) * f64::from(ENTRY[record.factors[band] as usize])
}

/// The power of the coded bands of a call, and of what the record misses of it; all, where there is no record.
fn powers(layout: &Layout, call: &StageCall, record: Option<&Record>) -> (f64, f64) {
    let (mut power, mut noise) = (0.0, 0.0);
    for (s, b) in (0..8).flat_map(|s| (0..layout.start()).map(move |b| (s, b))) {
        let x = f64::from(call.spectra[128 * s + b]);
        power += x * x;
        noise += (x - record.map_or(0.0, |record| played(layout, record, s, b))).powi(2);
    }
    (power, noise)
}

fn in_mode(calls: &[StageCall], mode: Mode) -> Result<String, String> {
    let of = layout_of(&calls[0]);
    let bands = [of.base_bands(), of.stereo_bands(), of.total_bands()].map(|n| n as u32);
    let built = Layout::builder().channels(of.kinds()).bands(bands[0], bands[1], bands[2]).frame_size(of.frame_size() as u32);
    let layout = built.mode(mode).build().map_err(|no| no.to_string())?;
    let mut encoder = Encoder::new(layout.clone());
    let (mut back, mut power, mut noise) = (0, 0.0, 0.0);
    for (k, call) in calls.iter().enumerate() {
        encoder.encode_frame(&call.spectra, &call.intensities).map_err(|no| format!("frame {k}: {no}"))?;
        let record = read_frame(&layout, encoder.frame()).ok().map(|(record, _)| record);
        back += usize::from(record.as_ref().is_some_and(|record| record.codes == encoder.codes()));
        let (of_all, missed) = powers(&layout, call, record.as_ref());
        (power, noise) = (power + of_all, noise + missed);
    }
    let db = 10.0 * (power / noise).log10();
    Ok(format!("{back} of {} frames read back, {db:.2} dB signal to noise of the coded bands' spectra", calls.len()))
}

pub fn compare(hertz: &str, bitrate: &str) -> Result<(), String> {
    let number = |word: &str| word.parse().map_err(|_| format!("{word} is no number"));
    let wav = square(number(hertz)?);
    let calls = stage_calls(&mut encoder_for(&wav, number(bitrate)?)?, &wav);
    for (name, mode) in [("rust", Mode::Rust), ("held", Mode::Held)] {
        println!("{name}: {}", in_mode(&calls, mode)?);
    }
    Ok(())
}
