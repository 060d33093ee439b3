//! The stereo stage as A2 has it, over the unchanged Rust: refusals 1 to 4 as the stage has them, refusal 17, the Rust's
//! own stereo step on a state, then the stage's steps on the same state.
use crate::call::{refuse, refused_before, Lent, Notes, StageCall};
use crate::driver::setup;
use crate::hca::decoder::ChannelType;
use crate::hca::encoder::{quantize_intensity, HcaEncoder, INTENSITY_RATIO_BOUNDS};
use crate::limits::finish;

/// The largest magnitude that is mixed.
pub const LOUDEST: f32 = 65_536.0;

/// The buffers that a stereo call writes: the stage's, and the two that the stage only reads.
#[derive(Clone, Debug)]
pub struct StereoLent {
    pub spectra: Vec<f32>,
    pub intensities: Vec<u8>,
    pub stage: Lent,
}

impl StereoLent {
    /// As they are lent.
    pub fn of(call: &StageCall) -> Self {
        StereoLent { spectra: call.spectra.clone(), intensities: call.intensities.clone(), stage: call.lent() }
    }
}

/// What the mixing met, a bit each.
#[derive(Clone, Copy, Debug, Default)]
pub struct Met {
    /// intensities, 0 to 13
    pub values: u32,
    /// bounds that were stored exactly, that were passed by an ulp, that were missed by one
    pub at: u32,
    pub above: u32,
    pub below: u32,
    /// ratios: 0 the lower end, 1 between, 2 the upper end, 3 the 1.0 of a silent pair or of a total of 0
    pub ratios: u32,
}

impl Met {
    pub fn with(self, other: Met) -> Met {
        Met {
            values: self.values | other.values,
            at: self.at | other.at,
            above: self.above | other.above,
            below: self.below | other.below,
            ratios: self.ratios | other.ratios,
        }
    }

    fn note(&mut self, left: f32, right: f32, value: u8, ratio: f32) {
        self.values |= 1 << value;
        self.ratios |= match ratio {
            0.5 => 1,
            1.0 => 8,
            _ if ratio == std::f32::consts::SQRT_2 / 2.0 => 4,
            _ => 2,
        };
        if left + right > 0.0 {
            let stored = 2.0 * left / (left + right);
            for k in 1..13 {
                match i64::from(stored.to_bits()) - i64::from(INTENSITY_RATIO_BOUNDS[k].to_bits()) {
                    0 => self.at |= 1 << k,
                    1 => self.above |= 1 << k,
                    -1 => self.below |= 1 << k,
                    _ => {}
                }
            }
        }
    }
}

/// The loops of encode_intensity_stereo once more, over the Rust's own functions, with notes; `mix` asserts that they end as
/// the Rust's own did.
fn mix_noting(e: &mut HcaEncoder) -> Met {
    let mut met = Met::default();
    let last = if e.stereo_band_count == 0 { 0 } else { e.channel.len() - 1 };
    for c in (0..last).filter(|&c| e.channel[c].channel_type == ChannelType::StereoPrimary).collect::<Vec<_>>() {
        for s in 0..8 {
            let (left, right, total) = e.stereo_energy(c, s);
            let (value, ratio) = quantize_intensity(left, right, total);
            met.note(left, right, value, ratio);
            e.channel[c + 1].intensity[s] = value;
            e.mix_stereo_bands(c, s, ratio);
        }
    }
    met
}

fn spectra_of(e: &HcaEncoder) -> impl Iterator<Item = f32> + '_ {
    e.channel.iter().flat_map(|ch| ch.spectra.iter().flatten().copied())
}

fn intensities_of(e: &HcaEncoder) -> impl Iterator<Item = u8> + '_ {
    e.channel.iter().flat_map(|ch| ch.intensity)
}

/// The Rust's state for a call, mixed by its own step.
pub fn mix(call: &StageCall) -> (HcaEncoder, Met) {
    let (mut e, mut noting) = (setup(call), setup(call));
    let met = mix_noting(&mut noting);
    e.encode_intensity_stereo();
    assert!(spectra_of(&e).map(f32::to_bits).eq(spectra_of(&noting).map(f32::to_bits)));
    assert!(intensities_of(&e).eq(intensities_of(&noting)));
    (e, met)
}

/// The whole call: the refusal number (0: delivered), with every buffer as the call leaves it in `out`, which holds the
/// buffers as they are lent.
pub fn stereo_stage(call: &StageCall, out: &mut StereoLent) -> (u32, Notes, Met) {
    let loud = || call.spectra[..call.layout[0] as usize * 1024].iter().any(|v| v.abs() > LOUDEST);
    if let Some(refusal) = refused_before(call).or_else(|| loud().then_some((17, 0))) {
        return (refuse(refusal, &mut out.stage), Notes::default(), Met::default());
    }
    let (e, met) = mix(call);
    out.spectra.iter_mut().zip(spectra_of(&e)).for_each(|(to, v)| *to = v);
    out.intensities.iter_mut().zip(intensities_of(&e)).for_each(|(to, v)| *to = v);
    let mixed = StageCall { spectra: out.spectra.clone(), intensities: out.intensities.clone(), ..call.clone() };
    let (number, notes) = finish(&mixed, e, &mut out.stage);
    (number, notes, met)
}
