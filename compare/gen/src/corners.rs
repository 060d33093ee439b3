//! Named cases for the fixed vectors: document 01's worked numbers and the known
//! corners. Those that are found by a search are found the same way each time.
use crate::rng::{ulps, Rng};
use crate::stage::worked;
use published::driver::{run, stage, StageCall};
use published::hca::encoder::{calculate_resolution, QUANTIZER_DEAD_ZONE};
use published::hca::tables::DEQUANTIZER_SCALING_TABLE as TABLE;

fn one_band(frame: u32, values: [f32; 8]) -> StageCall {
    let mut call = StageCall::exact(&[0], 1, 0, 1, frame);
    for (s, v) in values.iter().enumerate() {
        call.spectra[s * 128] = *v;
    }
    call
}

/// Few bands, some at the upper clip, whose delivered frame holds this code at this resolution.
fn clip_code(resolution: u8, code: i32) -> StageCall {
    for k in 0..100_000 {
        let mut r = Rng::of_case(22, k);
        let bands = r.range(1, 4) as usize;
        let mut call = StageCall::exact(&[0], bands as u32, 0, bands as u32, r.range(10, 40) as u32);
        for b in 0..bands {
            for s in 0..8 {
                call.spectra[s * 128 + b] = r.pick(&[1000.0, 12.0, 6.0, 1.0, -3.0, 0.5, 0.0]);
            }
        }
        let mut out = call.lent();
        let (number, notes) = stage(&call, &mut out);
        let here = |b: usize| {
            let noise = notes.level.saturating_sub(u32::from((b as u32) < notes.boundary));
            calculate_resolution(out.factors[b], noise as i32) == resolution && (0..8).any(|s| out.codes[s * 128 + b] == code)
        };
        if number == 0 && (0..bands).any(here) {
            return call;
        }
    }
    panic!("no frame has code {code} at resolution {resolution}")
}

/// One band next to a dead zone, delivered, with more (or fewer) bits than estimated.
fn zone_code(more: bool, resolution: usize) -> StageCall {
    for frame in 10..40 {
        for factor in 1..63 {
            for d in -3..3 {
                let zone = ulps(QUANTIZER_DEAD_ZONE[resolution], d);
                let near = (f64::from(zone) * f64::from(TABLE[factor])) as f32;
                let near = if more { near } else { -near };
                let call = one_band(frame, std::array::from_fn(|s| if s == 0 { TABLE[factor - 1] } else { near }));
                let (_, done, notes) = run(&call);
                if done.is_ok() && (if more { notes.zone_more } else { notes.zone_less }) > 0 {
                    return call;
                }
            }
        }
    }
    panic!("no frame at dead zone {resolution}")
}

fn dense(kinds: &[u8], bands: (u32, u32, u32), frame: u32, peak: f64) -> StageCall {
    let mut r = Rng::of_case(7, u64::from(frame));
    let mut call = StageCall::exact(kinds, bands.0, bands.1, bands.2, frame);
    for (i, v) in call.spectra.iter_mut().enumerate() {
        // short, round numbers
        *v = ((peak * r.normal() * (-((i % 128) as f64) / 30.0).exp() * 4096.0) as i32) as f32 / 4096.0;
    }
    for v in &mut call.intensities {
        *v = r.below(16) as u8;
    }
    call
}

/// Refusals that need no full spectra.
fn refusals(v: &mut Vec<(&'static str, StageCall)>) {
    let pair = || StageCall::exact(&[1, 2], 10, 10, 40, 60);
    let mut call = pair();
    (call.intensities[3], call.intensities[13]) = (200, 16);
    call.spectra[5] = f32::NAN;
    v.push(("refusal 3 at 13, before 4", call));
    for (name, at, bad) in [
        ("refusal 4 at 2047, NaN past total", 2047, f32::NAN),
        ("refusal 4 at 1024, infinity", 1024, f32::INFINITY),
        ("refusal 4 at 0, minus infinity", 0, f32::NEG_INFINITY),
    ] {
        let mut call = pair();
        call.spectra[at] = bad;
        v.push((name, call));
    }
    let mut call = StageCall::exact(&[0; 16], 20, 0, 20, 8);
    call.spectra[0] = 1.0;
    v.push(("refusal 5 with 9 pairs", call));
    for (name, at, value) in [
        ("refusal 1: no channel", 0, 0),
        ("refusal 1: 17 channels", 0, 17),
        ("refusal 1: no band", 3, 0),
        ("refusal 1: 129 bands", 3, 129),
        ("refusal 1: base near the end of u32", 1, u32::MAX - 9),
        ("refusal 1: base one too many", 1, 31),
        ("refusal 1: 7 bytes", 4, 7),
        ("refusal 1: 65,536 bytes", 4, 65_536),
    ] {
        let mut call = pair();
        call.layout[at] = value;
        v.push((name, call));
    }
    let mut call = pair();
    call.kinds[1] = 3;
    v.push(("refusal 1: no such kind", call));
    let mut call = pair();
    call.lengths[4] = 59;
    v.push(("refusal 2: frame a byte short", call));
    let mut call = pair();
    call.lengths[4] = 64;
    v.push(("frame four bytes longer", call));
}

pub fn all() -> Vec<(&'static str, StageCall)> {
    let mut v = worked();
    v.push(("code 3 at resolution 2", clip_code(2, 3)));
    v.push(("code 5 at resolution 4", clip_code(4, 5)));
    v.push(("code 6 at resolution 5", clip_code(5, 6)));
    v.push(("a bit more than estimated, resolution 8", zone_code(true, 8)));
    v.push(("a bit less than estimated, resolution 8", zone_code(false, 8)));
    v.push(("a bit more than estimated, resolution 15", zone_code(true, 15)));
    refusals(&mut v);
    v.push(("signs of zero and subnormals", one_band(30, [1.0, -0.0, 0.0, -1e-40, 1e-40, -1e-45, -2e-38, 1e-38])));
    v.push(("factor 0 of negative values", one_band(30, [-1e-7, -0.0, 1e-7, 1e-40, 0.0, -1e-8, 1e-9, 1e-38])));
    v.push(("the largest floats", one_band(30, [f32::MAX, -f32::MAX, 1.0, -1.0, 11.3, -11.4, 0.5, 0.0])));
    let mut call = StageCall::exact(&[0], 2, 0, 128, 60);
    for b in 2..128 {
        call.spectra[b] = f32::MAX;
        call.spectra[128 + b] = f32::MAX;
    }
    v.push(("HFR sums that pass the largest float", call));
    v.push(("a secondary alone, base 0", dense(&[2], (0, 30, 30), 20, 1.0)));
    v.push(("mono with HFR", dense(&[0], (40, 0, 100), 100, 1.0)));
    v.push(("mono, all pairs removed and refused", dense(&[0], (60, 0, 60), 14, 1.0)));
    v.push(("mono, removals", dense(&[0], (60, 0, 60), 30, 1.0)));
    v.push(("a pair with HFR", dense(&[1, 2], (20, 20, 80), 120, 0.5)));
    v.push(("two secondaries and a discrete", dense(&[2, 2, 0], (16, 8, 60), 90, 2.0)));
    v.push(("three channels, removals", dense(&[0, 1, 0], (32, 16, 48), 40, 1.0)));
    v.push(("last group past total, N = 100", dense(&[0], (100, 0, 117), 90, 3.0)));
    v
}
