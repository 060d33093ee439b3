//! Eight values of one band, of one class.
use crate::rng::{ulps, Rng};
use published::hca::encoder::{QUANTIZER_DEAD_ZONE, QUANTIZER_INVERSE_STEP_SIZE};
use published::hca::tables::DEQUANTIZER_SCALING_TABLE as TABLE;

#[derive(Clone, Copy, Debug, PartialEq, Eq)]
pub enum Class {
    Zeros,
    Noise,
    Spike,
    Entries,
    Huge,
    Subnormal,
    Clip,
    DeadZone,
    AnyBits,
    CodeEdges,
    UnderDeadZone,
}

pub const ALL: [Class; 11] = [
    Class::Zeros,
    Class::Noise,
    Class::Spike,
    Class::Entries,
    Class::Huge,
    Class::Subnormal,
    Class::Clip,
    Class::DeadZone,
    Class::AnyBits,
    Class::CodeEdges,
    Class::UnderDeadZone,
];

fn zero(r: &mut Rng) -> f32 {
    r.signed(0.0)
}

fn finite(r: &mut Rng) -> f32 {
    loop {
        let v = f32::from_bits(r.word() as u32);
        if v.is_finite() {
            return v;
        }
    }
}

/// A band whose values sit at an entry's upper clip, or past the last entry.
fn clip(r: &mut Rng) -> [f32; 8] {
    let entry = TABLE[r.range(1, 63) as usize];
    if r.chance(0.3) {
        return std::array::from_fn(|_| {
            let v = TABLE[63] * (1.0 + r.unit() as f32 * 3.0);
            r.signed(v)
        });
    }
    std::array::from_fn(|_| {
        let v = ulps(entry, -r.range(1, 3));
        r.signed(v)
    })
}

/// Values near a dead zone of some resolution, and a peak that fixes the factor.
fn dead_zone(r: &mut Rng) -> [f32; 8] {
    let f = r.range(1, 63) as usize;
    let zone = QUANTIZER_DEAD_ZONE[r.range(8, 15) as usize];
    let mut v: [f32; 8] = std::array::from_fn(|_| {
        let t = (f64::from(ulps(zone, r.range(-40, 6))) * f64::from(TABLE[f])) as f32;
        if r.chance(0.8) {
            t
        } else {
            -t
        }
    });
    let peak = if r.chance(0.5) { TABLE[f - 1] } else { ulps(TABLE[f], -1 - r.range(0, 5)) };
    v[r.below(8)] = r.signed(peak);
    v
}

/// Values within a few ulps of where a code changes.
fn code_edges(r: &mut Rng) -> [f32; 8] {
    let f = r.range(1, 63) as usize;
    let step = f64::from(QUANTIZER_INVERSE_STEP_SIZE[r.range(1, 15) as usize]);
    let mut v: [f32; 8] = std::array::from_fn(|_| {
        let k = r.range(-(step as i64) - 1, step as i64) as f64 + 0.5;
        let t = ulps((k / step) as f32, r.range(-3, 3));
        (f64::from(t) * f64::from(TABLE[f])) as f32
    });
    v[r.below(8)] = ulps(TABLE[f], -1 - r.range(0, 5));
    v
}

/// Below the dead zone, where rounding still makes the code 1: each such value
/// takes a bit more than the estimate has.
fn under_dead_zone(r: &mut Rng) -> [f32; 8] {
    let f = r.range(1, 63) as usize;
    let step = f64::from(QUANTIZER_INVERSE_STEP_SIZE[r.range(11, 15) as usize]);
    let half_ulp = (step + 1.0).log2().floor().exp2() / 16_777_216.0;
    let mut v: [f32; 8] = std::array::from_fn(|_| {
        let t = (0.5 - half_ulp * r.unit() * 0.98) / step;
        (t * f64::from(TABLE[f])) as f32
    });
    v[r.below(8)] = r.signed(TABLE[f - 1]);
    v
}

pub fn band(r: &mut Rng, class: Class, amplitude: f64) -> [f32; 8] {
    match class {
        Class::Zeros => std::array::from_fn(|_| zero(r)),
        Class::Noise => std::array::from_fn(|_| (amplitude * r.normal()) as f32),
        Class::Spike => {
            let mut v: [f32; 8] = std::array::from_fn(|_| zero(r));
            v[r.below(8)] = (amplitude * r.normal()) as f32;
            v
        }
        Class::Entries => std::array::from_fn(|_| {
            let v = ulps(TABLE[r.below(64)], r.range(-1, 1));
            r.signed(v)
        }),
        Class::Huge => std::array::from_fn(|_| {
            let v = r.pick(&[f32::MAX, 1e30, 65536.0, 3.0e38]);
            r.signed(v)
        }),
        Class::Subnormal => std::array::from_fn(|_| {
            let v = f32::from_bits(r.below(0x90_0000) as u32);
            r.signed(v)
        }),
        Class::Clip => clip(r),
        Class::DeadZone => dead_zone(r),
        Class::AnyBits => std::array::from_fn(|_| finite(r)),
        Class::CodeEdges => code_edges(r),
        Class::UnderDeadZone => under_dead_zone(r),
    }
}
