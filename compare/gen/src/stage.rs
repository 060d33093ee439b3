//! Calls of the frame stage.
use crate::bands::{band, Class, ALL};
use crate::limits::{behind, behind_held};
use crate::rng::{ulps, Rng};
use published::driver::{head_steps, setup, StageCall};
use published::hca::encoder::{hfr_source_average, quantizer_scaling, QUANTIZER_DEAD_ZONE};
use published::hca::tables::DEQUANTIZER_SCALING_TABLE as TABLE;
use published::limits::{resolution, used_bits};

/// What a case is for; the share is out of 100 indices.
pub const KINDS: [(&str, u64); 19] = [
    ("decaying spectra", 17),
    ("mixed bands", 14),
    ("dead zone, just fitting", 8),
    ("exactly at a dead zone", 2),
    ("upper clip", 7),
    ("table entries", 4),
    ("f32::MAX and any bits", 4),
    ("zeros and spikes", 4),
    ("HFR averages at an entry", 6),
    ("tiny frames", 8),
    ("every arrangement of kinds", 4),
    ("corner layouts", 4),
    ("energy in the last bands", 3),
    ("16 channels", 2),
    ("worked cases", 1),
    ("short buffers", 3),
    ("NaN and infinity", 4),
    ("intensities above 15", 2),
    ("layouts outside the limits", 3),
];

pub fn kind_of(index: u64) -> (usize, u64) {
    crate::share_of(&KINDS, index)
}

/// Case `index` of a seed.
pub fn call(seed: u64, index: u64) -> StageCall {
    made(Rng::of_case(seed, index), index)
}

/// The same under a pair of limits.
pub fn limited(seed: u64, index: u64) -> StageCall {
    made(Rng::of_case(seed, index).under(behind(seed, index)), index)
}

/// The same in held mode; each third case is rich in values at and next to the upper clip.
pub fn held(seed: u64, index: u64) -> StageCall {
    let mut r = Rng::of_case(seed ^ 0xA9A9_0002, index).under(behind_held(seed, index));
    if !is_clipped(index) {
        return made(r, index);
    }
    let mut call = clipped_case(&mut r);
    call.pattern = r.word() as u32;
    r.complete(&mut call.layout);
    call
}

/// Whether a case of held mode is one of the clipped third.
pub fn is_clipped(index: u64) -> bool {
    index % 3 == 0
}

/// For what the searches leave unused: both modes in turn, under pairs of limits, half of the cases rich in values at and next to the upper clip.
pub fn finest(seed: u64, index: u64) -> StageCall {
    let other = seed ^ 0xA10A_0003;
    let behind = if index % 2 == 0 { behind(other, index) } else { behind_held(other, index) };
    let mut r = Rng::of_case(other, index).under(behind);
    if !is_clipped_finest(index) {
        return made(r, index);
    }
    let mut call = clipped_case(&mut r);
    call.pattern = r.word() as u32;
    r.complete(&mut call.layout);
    call
}

/// Whether a case of `finest` is one of the clipped half.
pub fn is_clipped_finest(index: u64) -> bool {
    index % 4 < 2
}

pub(crate) fn made(mut r: Rng, index: u64) -> StageCall {
    let (kind, nth) = kind_of(index);
    let mut call = of_kind(&mut r, KINDS[kind].0, nth);
    r.complete(&mut call.layout);
    call
}

fn of_kind(r: &mut Rng, kind: &str, nth: u64) -> StageCall {
    let mut call = match kind {
        "decaying spectra" => spectra_case(r, Some(Class::Noise)),
        "mixed bands" => spectra_case(r, None),
        "dead zone, just fitting" => zone_case(r),
        "exactly at a dead zone" => exact_zone_case(r),
        "upper clip" => spectra_case(r, Some(Class::Clip)),
        "table entries" => spectra_case(r, Some(Class::Entries)),
        "f32::MAX and any bits" => any_case(r),
        "zeros and spikes" => quiet_case(r),
        "HFR averages at an entry" => hfr_case(r),
        "tiny frames" => tiny_case(r),
        "every arrangement of kinds" => arrangement_case(r, nth),
        "corner layouts" => corner_case(r, nth),
        "energy in the last bands" => top_case(r),
        "16 channels" => sixteen_case(r),
        "worked cases" => worked().swap_remove(nth as usize % worked().len()).1,
        "short buffers" => return short_case(r, nth),
        "NaN and infinity" => return nan_case(r, nth),
        "intensities above 15" => loud_case(r),
        _ => return outside_case(r, nth),
    };
    call.pattern = r.word() as u32;
    if r.chance(0.3) {
        lengthen(r, &mut call);
    }
    call
}

// ---------------------------------------------------------------- layouts
fn kinds(r: &mut Rng, channels: usize) -> Vec<u8> {
    match r.below(5) {
        0 => vec![0; channels],
        1 => (0..channels).map(|i| 1 + (i & 1) as u8).collect(),
        2 => vec![2; channels],
        _ => (0..channels).map(|_| r.below(3) as u8).collect(),
    }
}

pub fn layout(r: &mut Rng, channels: usize) -> StageCall {
    let kinds = kinds(r, channels);
    let total = match r.below(6) {
        0 | 1 => 128,
        2 => r.range(1, 9),
        _ => r.range(1, 128),
    };
    let start = match r.below(8) {
        0 => 0,
        1 | 2 => total,
        3 => r.range(0, 3).min(total),
        _ => r.range(0, total),
    };
    let base = match r.below(6) {
        0 => 0,
        1 | 2 => start,
        _ => r.range(0, start),
    };
    let mut call = StageCall::exact(&kinds, base as u32, (start - base) as u32, total as u32, 8);
    r.complete(&mut call.layout);
    call
}

pub(crate) fn channels(r: &mut Rng) -> usize {
    match r.below(20) {
        0..=7 => 1,
        8..=12 => 2,
        13..=15 => r.range(3, 6) as usize,
        16 | 17 => r.range(1, 16) as usize,
        18 => 16,
        _ => 8,
    }
}

// ---------------------------------------------------------------- spectra
fn set_band(call: &mut StageCall, channel: usize, band: usize, values: &[f32; 8]) {
    for (s, v) in values.iter().enumerate() {
        call.spectra[channel * 1024 + s * 128 + band] = *v;
    }
}

/// Fills all channels; `main` is the class of most bands, None for any.
pub(crate) fn fill(r: &mut Rng, call: &mut StageCall, main: Option<Class>, strays: f64) {
    for c in 0..call.kinds.len() {
        let class = main.unwrap_or_else(|| r.pick(&ALL));
        let peak = 10f64.powf(-7.0 + 12.0 * r.unit());
        let decay = if r.chance(0.3) { 0.0 } else { r.unit() * 0.15 };
        for b in 0..128 {
            let k = if strays > 0.0 && r.chance(strays) { r.pick(&ALL) } else { class };
            let v = band(r, k, peak * (-decay * b as f64).exp());
            set_band(call, c, b, &v);
        }
    }
    for c in 0..call.kinds.len() {
        // what is not a secondary's may hold any byte
        let most = if call.kinds[c] != 2 && r.chance(0.2) { 256 } else { 16 };
        for s in 0..8 {
            call.intensities[c * 8 + s] = r.below(most) as u8;
        }
    }
}

pub(crate) fn set_frame(call: &mut StageCall, frame: i64) {
    call.layout[4] = frame.clamp(8, 65_535) as u32;
    call.set_lengths();
}

/// Just what some level needs, more or less a few bytes.
pub(crate) fn fitting(r: &mut Rng, call: &StageCall, level: i64) -> i64 {
    let bytes = used_bits(call, level as i32, 0).div_ceil(8) as i64;
    bytes + if r.chance(0.8) { 0 } else { r.range(-2, 2) }
}

pub(crate) fn any_frame(r: &mut Rng, call: &StageCall) -> i64 {
    let n = call.kinds.len() as i64;
    match r.below(7) {
        0 => r.range(8, 40),
        1 | 2 => r.range(20, 200) * n,
        3 => r.range(100, 700) * n,
        4 if r.chance(0.2) => 65_535,
        4 => r.range(8, 4000),
        _ => {
            let level = r.range(0, 254);
            fitting(r, call, level)
        }
    }
}

fn spectra_case(r: &mut Rng, main: Option<Class>) -> StageCall {
    let n = channels(r);
    let mut call = layout(r, n);
    let strays = if main.is_none() { r.pick(&[0.0, 0.05, 0.5]) } else { r.pick(&[0.0, 0.0, 0.05]) };
    fill(r, &mut call, main, strays);
    let frame = any_frame(r, &call);
    set_frame(&mut call, frame);
    call
}

/// Bands at the clip, loud beyond it or noise, in a frame that some level fits: where it is a coarse one, codes pass their range.
fn clipped_case(r: &mut Rng) -> StageCall {
    let n = channels(r).min(4);
    let mut call = layout(r, n);
    let strays = r.pick(&[0.0, 0.1, 0.5]);
    fill(r, &mut call, Some(Class::Clip), strays);
    let level = r.range(0, 254);
    let frame = if r.chance(0.7) { fitting(r, &call, level) } else { any_frame(r, &call) };
    set_frame(&mut call, frame);
    call
}

fn zone_case(r: &mut Rng) -> StageCall {
    let n = channels(r);
    let mut call = layout(r, n);
    let class = r.pick(&[Class::DeadZone, Class::UnderDeadZone, Class::UnderDeadZone]);
    fill(r, &mut call, Some(class), 0.0);
    let level = if r.chance(0.7) { 0 } else { r.range(0, 254) };
    let frame = fitting(r, &call, level);
    set_frame(&mut call, frame);
    call
}

/// A spectrum that scales to exactly this value at a factor, where there is one near.
fn scaling_to(value: f32, factor: usize) -> Option<f32> {
    let near = value * TABLE[factor];
    (-3..=3).map(|d| ulps(near, d)).find(|x| x * quantizer_scaling(factor) == value)
}

/// All bands of one factor, their values on a dead zone at one level, in a frame
/// that is a few bits too small for it: whether the zone itself counts decides.
fn exact_zone_case(r: &mut Rng) -> StageCall {
    let n = r.range(1, 2) as usize;
    let start = r.range(1, 40) as u32;
    let mut call = StageCall::exact(&vec![0; n], start, 0, start, 8);
    r.complete(&mut call.layout);
    let level = r.range(0, 190) as i32;
    let factor = r.range((level as i64 * 2 / 5 - 17).max(1), (level as i64 * 2 / 5 + 3).min(63)) as usize;
    let res = resolution(&call.layout, factor as u8, level) as usize;
    let at = ulps(QUANTIZER_DEAD_ZONE[res], r.pick(&[0, 0, 0, -1, 1]));
    let value = scaling_to(at, factor).unwrap_or(at * TABLE[factor]);
    for c in 0..n {
        for b in 0..start as usize {
            let mut v: [f32; 8] = std::array::from_fn(|_| r.signed(value));
            v[r.below(8)] = TABLE[factor - 1];
            set_band(&mut call, c, b, &v);
        }
    }
    let frame = used_bits(&call, level, 0) as i64 / 8;
    set_frame(&mut call, frame);
    call
}

fn any_case(r: &mut Rng) -> StageCall {
    let class = r.pick(&[Class::Huge, Class::AnyBits]);
    spectra_case(r, Some(class))
}

fn quiet_case(r: &mut Rng) -> StageCall {
    let class = r.pick(&[Class::Zeros, Class::Spike, Class::Subnormal]);
    spectra_case(r, Some(class))
}

fn tiny_case(r: &mut Rng) -> StageCall {
    let n = if r.chance(0.7) { r.range(1, 3) } else { r.range(1, 16) } as usize;
    let mut call = layout(r, n);
    let main = if r.chance(0.6) { Some(Class::Noise) } else { None };
    fill(r, &mut call, main, 0.0);
    let frame = r.range(8, 40);
    set_frame(&mut call, frame);
    call
}

fn sixteen_case(r: &mut Rng) -> StageCall {
    let mut call = layout(r, 16);
    fill(r, &mut call, Some(Class::Noise), 0.05);
    let frame = r.range(300, 12_000);
    set_frame(&mut call, frame);
    call
}

/// The 3 + 9 + 27 + 81 arrangements of up to four channels, one after another.
fn arrangement_case(r: &mut Rng, nth: u64) -> StageCall {
    let kinds = arrangement(nth);
    let mut call = layout(r, kinds.len());
    let n = kinds.len() as i64;
    call.kinds = kinds;
    fill(r, &mut call, Some(Class::Noise), 0.1);
    let frame = r.range(20, 300) * n;
    set_frame(&mut call, frame);
    call
}

pub(crate) fn arrangement(nth: u64) -> Vec<u8> {
    let mut at = nth % 120;
    let mut n = 1;
    while at >= 3u64.pow(n) {
        at -= 3u64.pow(n);
        n += 1;
    }
    (0..n).map(|i| (at / 3u64.pow(i) % 3) as u8).collect()
}

/// Layouts at the limits: (base, stereo, total, frame).
const CORNERS: [(u32, u32, u32, u32); 14] = [
    (0, 0, 1, 8),
    (0, 0, 128, 8),
    (0, 0, 128, 400),
    (0, 60, 100, 200),
    (0, 1, 1, 30),
    (60, 0, 100, 200),
    (100, 0, 117, 600),
    (50, 50, 117, 300),
    (128, 0, 128, 65_535),
    (64, 64, 128, 500),
    (1, 0, 1, 8),
    (1, 0, 128, 40),
    (127, 1, 128, 30),
    (120, 0, 128, 200),
];

fn corner_case(r: &mut Rng, nth: u64) -> StageCall {
    let (base, stereo, total, frame) = CORNERS[nth as usize % CORNERS.len()];
    let n = r.range(1, 3) as usize;
    let kinds = kinds(r, n);
    let mut call = StageCall::exact(&kinds, base, stereo, total, frame);
    let main = if r.chance(0.6) { Some(Class::Noise) } else { None };
    fill(r, &mut call, main, 0.05);
    call
}

/// Only the last bands sound: the boundary comes to lie near 127.
fn top_case(r: &mut Rng) -> StageCall {
    let n = r.range(1, 3) as usize;
    let mut call = StageCall::exact(&kinds(r, n), 128, 0, 128, 8);
    for c in 0..n {
        let peak = 10f64.powf(-4.0 + 5.0 * r.unit());
        let from = r.pick(&[127, 127, 126, 125, 120]);
        for b in from..128 {
            let v = band(r, Class::Noise, peak);
            set_band(&mut call, c, b, &v);
        }
    }
    let frame = r.range(20, 60) * n as i64;
    set_frame(&mut call, frame);
    call
}

// ---------------------------------------------------------------- HFR
/// Values of one group whose average, times `times`, lies within a few ulps of a
/// table entry: the order of the sum, the division and the product all show.
fn group_at_entry(r: &mut Rng, count: usize, times: f64) -> Vec<f32> {
    let target = f64::from(TABLE[r.below(63)]) / times * count as f64;
    let mut v: Vec<f64>;
    if r.chance(0.5) {
        let big = ulps(target as f32, r.range(-2, 1));
        let one = f64::from(ulps(big, 1) - big);
        v = (0..count).map(|_| one * r.unit() * 0.7).collect();
        let among = if r.chance(0.5) { count.min(10) } else { count };
        v[r.below(among)] = f64::from(big);
    } else {
        v = (0..count).map(|_| r.unit() + 1e-3).collect();
        for _ in 0..2 {
            let sum = v.iter().fold(0f32, |s, x| s + *x as f32);
            for x in &mut v {
                *x *= target / f64::from(sum);
            }
        }
        let at = r.below(count);
        v[at] = f64::from(ulps(v[at] as f32, r.range(-4, 4)));
    }
    v.iter().map(|&x| r.signed(x as f32)).collect()
}

fn hfr_case(r: &mut Rng) -> StageCall {
    let n = r.range(1, 3) as usize;
    let kinds: Vec<u8> = (0..n).map(|_| if r.chance(0.15) { 2 } else { r.below(2) as u8 }).collect();
    let total = if r.chance(0.4) { 128 } else { r.range(2, 128) };
    let start = if r.chance(0.15) { 0 } else { r.range(0, total - 1) };
    let base = r.range(0, start);
    let mut call = StageCall::exact(&kinds, base as u32, (start - base) as u32, total as u32, 1000);
    for c in 0..n {
        let style = r.below(4);
        for b in 0..128 {
            let a = r.unit() * 3.0 + 1e-5;
            let v: [f32; 8] = match style {
                0 => [0.0; 8],
                1 => band(r, Class::Spike, 0.05),
                2 => std::array::from_fn(|_| (a * (1.0 - r.unit() * 0.02)) as f32),
                _ => std::array::from_fn(|_| (a * r.normal()) as f32),
            };
            set_band(&mut call, c, b, &v);
        }
    }
    let mut e = setup(&call);
    head_steps(&mut e);
    let (g, groups) = (e.bands_per_hfr_group as usize, e.hfr_group_count as usize);
    let (start, sources) = (start as usize, (total - start).min(start) as usize);
    for c in 0..n {
        let mut from = 0;
        for q in 0..groups {
            let (average, next) = hfr_source_average(&e.channel[c], start, sources, from, g);
            from = next;
            let times = if average > 0.0 { (1.0 / average).min(std::f32::consts::SQRT_2) } else { 1.0 };
            let (lo, hi) = (start + q * g, (start + q * g + g).min(128));
            let v = group_at_entry(r, (hi - lo) * 8, f64::from(times));
            for (i, v) in v.iter().enumerate() {
                call.spectra[c * 1024 + i % 8 * 128 + lo + i / 8] = *v;
            }
        }
    }
    call
}

// ---------------------------------------------------------------- buffers and refusals 1 to 4
/// Longer buffers; what lies past the end of an input is not looked at.
pub(crate) fn lengthen(r: &mut Rng, call: &mut StageCall) {
    for l in &mut call.lengths {
        if r.chance(0.5) {
            *l += r.range(1, 70) as usize;
        }
    }
    if r.chance(0.5) {
        call.spectra.extend([f32::NAN, f32::INFINITY, 3.0, -0.0]);
    }
    if r.chance(0.5) {
        call.intensities.extend([255, 16, 0, 200, 99, 15, 77, 128]);
    }
    if r.chance(0.5) {
        call.kinds.extend([3, 255, 2]);
    }
}

/// A small call that delivers, to be spoilt in one place.
pub(crate) fn plain(r: &mut Rng) -> StageCall {
    let n = r.range(1, 3) as usize;
    let kinds = kinds(r, n);
    let mut call = StageCall::exact(&kinds, 20, 10, 60, 150 * n as u32);
    fill(r, &mut call, Some(Class::Noise), 0.0);
    call.pattern = r.word() as u32;
    call
}

pub(crate) fn shorter(r: &mut Rng, length: usize) -> usize {
    match r.below(3) {
        0 => length - 1,
        1 => 0,
        _ => r.below(length),
    }
}

pub(crate) fn short_case(r: &mut Rng, nth: u64) -> StageCall {
    let mut call = plain(r);
    if r.chance(0.3) {
        lengthen(r, &mut call);
    }
    let n = call.layout[0] as usize;
    match nth % 8 {
        0 => {
            let l = shorter(r, n * 1024);
            call.spectra.truncate(l);
        }
        1 => {
            let l = shorter(r, n * 8);
            call.intensities.truncate(l);
        }
        k => {
            let least = [n * 1024, n * 1024, n * 128, n * 8, call.layout[4] as usize, 4];
            call.lengths[k as usize - 2] = shorter(r, least[k as usize - 2]);
        }
    }
    // refusal 2 comes before 3 and 4, and after 1
    if r.chance(0.2) {
        call.spectra.iter_mut().take(1).for_each(|v| *v = f32::NAN);
        call.intensities.iter_mut().for_each(|v| *v = 99);
    }
    if r.chance(0.1) {
        call.layout[4] = 7;
    }
    call
}

pub(crate) fn nan_case(r: &mut Rng, nth: u64) -> StageCall {
    // every place of one channel three times, then any place of more channels
    let (mut call, at) = if nth < 3 * 1024 {
        let mut call = StageCall::exact(&[r.below(3) as u8], 20, 10, 60, 150);
        fill(r, &mut call, Some(Class::Noise), 0.0);
        call.intensities = vec![3; 8];
        (call, nth as usize % 1024)
    } else {
        let call = plain(r);
        let at = r.below(call.spectra.len());
        (call, at)
    };
    let bad = [f32::NAN, f32::INFINITY, f32::NEG_INFINITY, f32::from_bits(0xFFC0_0001), f32::from_bits(0x7FBF_FFFF)];
    call.spectra[at] = bad[nth as usize / 1024 % 3];
    if nth >= 3 * 1024 {
        call.spectra[at] = r.pick(&bad);
        if r.chance(0.5) {
            let later = r.range(at as i64, call.spectra.len() as i64 - 1) as usize;
            call.spectra[later] = f32::NAN;
        }
    }
    call.pattern = r.word() as u32;
    call
}

fn loud_case(r: &mut Rng) -> StageCall {
    let mut call = plain(r);
    let n = call.kinds.len();
    for _ in 0..r.range(1, 4) {
        call.intensities[r.below(n * 8)] = if r.chance(0.5) { 16 } else { r.range(16, 255) as u8 };
    }
    if r.chance(0.3) {
        let at = r.below(call.spectra.len());
        call.spectra[at] = f32::NAN;
    }
    call
}

pub(crate) fn outside_case(r: &mut Rng, nth: u64) -> StageCall {
    let mut call = plain(r);
    let big = u32::MAX - r.below(3) as u32;
    let n = call.layout[0] as usize;
    match nth % 20 {
        0 => call.layout[0] = 0,
        1 => {
            // all buffers and kinds are there for 17
            call = StageCall::exact(&[0; 17], 1, 0, 1, 100);
        }
        2 => call.layout[0] = big,
        3 => call.layout[3] = 0,
        4 => call.layout[3] = 129,
        5 => call.layout[3] = big,
        6 => call.layout[1] = 51, // one above total
        7 => call.layout[2] = 41,
        8 => call.layout[1] = big,
        9 => call.layout[2] = big,
        10 => (call.layout[1], call.layout[2]) = (big, big),
        11 => (call.layout[1], call.layout[2]) = (1 << 31, 1 << 31),
        12 => call.layout[4] = r.below(8) as u32,
        13 => call.layout[4] = 7,
        14 => {
            call.layout[4] = 65_536;
            call.set_lengths();
        }
        15 => call.layout[4] = big,
        16 => call.kinds[r.below(n)] = r.range(3, 255) as u8,
        17 => call.kinds.truncate(r.below(n)),
        18 => call.layout.truncate(r.below(5)),
        _ => {
            let at = r.below(5);
            call.layout[at] += r.pick(&[1 << 8, 1 << 16]); // the same in fewer bits
        }
    }
    // refusal 1 comes before all others
    if r.chance(0.3) {
        call.spectra.fill(f32::NAN);
        call.lengths[r.below(6)] = r.below(4);
    }
    call.pattern = r.word() as u32;
    call
}

// ---------------------------------------------------------------- hand-made
/// Cases with a name: document 01's worked numbers and known corners.
pub fn worked() -> Vec<(&'static str, StageCall)> {
    let mut v = Vec::new();
    let silent = |n: usize| StageCall::exact(&vec![0; n], 1, 0, 1, 8);
    v.push(("5 silent channels in 8 bytes", silent(5)));
    v.push(("6 silent channels in 8 bytes", silent(6)));
    for (name, b) in [
        ("N = 100, total 117: band 115 alone", 115),
        ("N = 100, total 117: band 116 alone", 116),
        ("N = 100, total 117: band 117 alone", 117),
        ("N = 100, total 117: band 118 alone", 118),
    ] {
        let mut call = StageCall::exact(&[0], 100, 0, 117, 600);
        call.spectra[b] = 5.0;
        v.push((name, call));
    }
    let mut call = StageCall::exact(&[0], 1, 0, 1, 19);
    call.spectra[0] = f32::from_bits(0x342A_8D26);
    for s in 1..8 {
        call.spectra[s * 128] = f32::from_bits(0x2E63_4C94);
    }
    v.push(("refusal 7 after a found level", call.clone()));
    set_frame(&mut call, 20);
    v.push(("the same with a byte more", call));
    v.push(("N = 0, one channel", StageCall::exact(&[0], 0, 0, 1, 8)));
    v.push(("N = 0, 16 channels", StageCall::exact(&[0; 16], 0, 0, 128, 8)));
    let mut call = StageCall::exact(&[0], 128, 0, 128, 30);
    for s in 0..8 {
        call.spectra[s * 128 + 127] = 0.3 + 0.1 * s as f32;
    }
    v.push(("energy in band 127 alone", call));
    v
}
