//! Calls of the stereo stage.
use crate::bands::Class;
use crate::limits::{behind, behind_held};
use crate::rng::{ulps, Rng};
use crate::speech::call_of;
use crate::stage::{
    any_frame, arrangement, channels, fill, fitting, lengthen, nan_case, outside_case, set_frame, short_case, worked,
};
use published::driver::StageCall;
use published::hca::encoder::INTENSITY_RATIO_BOUNDS;
use published::stereo::{mix, LOUDEST};

/// What a case is for; the share is out of 100 indices.
pub const KINDS: [(&str, u64); 18] = [
    ("pairs of noise", 19),
    ("every arrangement of kinds", 12),
    ("opposite signs", 7),
    ("a silent side", 6),
    ("zeros of both signs", 4),
    ("stored at a bound", 15),
    ("ratio at an end", 8),
    ("up to 65,536", 5),
    ("above 65,536", 5),
    ("dead zone, just fitting", 5),
    ("tiny frames", 4),
    ("16 channels", 1),
    ("no stereo bands", 2),
    ("worked cases", 1),
    ("short buffers", 1),
    ("NaN and infinity", 2),
    ("intensities above 15", 2),
    ("layouts outside the limits", 1),
];

pub fn kind_of(index: u64) -> (usize, u64) {
    crate::share_of(&KINDS, index)
}

/// Case `index` of a seed.
pub fn call(seed: u64, index: u64) -> StageCall {
    made(Rng::of_case(seed ^ 0x57E2_E00A, index), index)
}

/// The same under a pair of limits.
pub fn limited(seed: u64, index: u64) -> StageCall {
    made(Rng::of_case(seed ^ 0x57E2_E00A, index).under(behind(seed, index)), index)
}

/// The same in held mode.
pub fn held(seed: u64, index: u64) -> StageCall {
    made(Rng::of_case(seed ^ 0x57E2_E00A, index).under(behind_held(seed, index)), index)
}

fn made(mut r: Rng, index: u64) -> StageCall {
    let (kind, nth) = kind_of(index);
    let mut call = of_kind(&mut r, KINDS[kind].0, nth);
    r.complete(&mut call.layout);
    call
}

fn of_kind(r: &mut Rng, kind: &str, nth: u64) -> StageCall {
    let mut call = match kind {
        "pairs of noise" => framed(r, pairs),
        "every arrangement of kinds" => framed(r, |r| arranged(r, nth)),
        "opposite signs" => framed(r, opposite),
        "a silent side" => framed(r, silent),
        "zeros of both signs" => framed(r, zeros),
        "stored at a bound" => framed(r, |r| at_bounds(r, nth)),
        "ratio at an end" => framed(r, at_ends),
        "up to 65,536" => framed(r, loud),
        "above 65,536" => too_loud_case(r),
        "dead zone, just fitting" => zone_case(r),
        "tiny frames" => tiny_case(r),
        "16 channels" => sixteen_case(r),
        "no stereo bands" => framed(r, no_bands),
        "worked cases" => named().swap_remove(nth as usize % named().len()).1,
        "short buffers" => return short_case(r, nth),
        "NaN and infinity" => return not_finite_case(r, nth),
        "intensities above 15" => intensity_case(r),
        _ => return outside_case(r, nth),
    };
    call.pattern = r.word() as u32;
    if r.chance(0.3) {
        lengthen(r, &mut call);
    }
    call
}

// ---------------------------------------------------------------- layouts
/// Kinds with pairs among them, any other arrangement too.
fn kinds(r: &mut Rng, channels: usize) -> Vec<u8> {
    match r.below(4) {
        0 | 1 => (0..channels).map(|i| 1 + (i & 1) as u8).collect(),
        2 => (0..channels).map(|_| if r.chance(0.6) { 1 } else { r.below(3) as u8 }).collect(),
        _ => (0..channels).map(|_| r.below(3) as u8).collect(),
    }
}

/// A layout with a stereo band at least.
fn with_bands(r: &mut Rng, kinds: &[u8]) -> StageCall {
    let total = match r.below(5) {
        0 => 128,
        1 => r.range(1, 6),
        _ => r.range(1, 128),
    };
    let base = if r.chance(0.2) { 0 } else { r.range(0, total - 1) };
    let stereo = if r.chance(0.2) { total - base } else { r.range(1, total - base) };
    let mut call = StageCall::exact(kinds, base as u32, stereo as u32, total as u32, 8);
    r.complete(&mut call.layout);
    call
}

fn few_channels(r: &mut Rng) -> usize {
    if r.chance(0.1) {
        channels(r)
    } else {
        r.range(2, 4) as usize
    }
}

fn mixed_bands(call: &StageCall) -> std::ops::Range<usize> {
    call.layout[1] as usize..call.layout[3] as usize
}

/// The channels that are the left of a pair.
fn primaries(call: &StageCall) -> Vec<usize> {
    let c = call.layout[0] as usize;
    (0..c.saturating_sub(1)).filter(|&i| call.kinds[i] == 1).collect()
}

// ---------------------------------------------------------------- spectra
fn hold(call: &mut StageCall) {
    call.spectra.iter_mut().for_each(|v| *v = v.clamp(-LOUDEST, LOUDEST));
}

/// What is no secondary's may hold any byte, as a pair will find it there.
fn any_intensities(r: &mut Rng, call: &mut StageCall) {
    for i in 0..call.intensities.len() {
        if call.kinds[i / 8] != 2 && r.chance(0.5) {
            call.intensities[i] = r.below(256) as u8;
        }
    }
}

/// Each channel by itself, within the limit; then some right sides follow their left.
fn fill_pairs(r: &mut Rng, call: &mut StageCall) {
    let main = if r.chance(0.8) { Some(Class::Noise) } else { None };
    let strays = r.pick(&[0.0, 0.0, 0.1]);
    fill(r, call, main, strays);
    hold(call);
    for c in primaries(call) {
        let style = r.below(4);
        let (near, far) = ((r.unit() * 2.0 - 1.0) as f32, (r.unit() * 0.2) as f32);
        for i in 0..1024 {
            let (x, y) = (call.spectra[c * 1024 + i], call.spectra[(c + 1) * 1024 + i]);
            call.spectra[(c + 1) * 1024 + i] = match style {
                0 => y,
                1 => x * near,
                2 => x * near + y * far,
                _ => x.abs().copysign(y),
            };
        }
    }
    hold(call);
    any_intensities(r, call);
}

/// What the stage is given once the call is mixed.
fn mixed(call: &StageCall) -> StageCall {
    call_of(&mix(call).0, call.layout[0] as usize)
}

/// With a frame of any size, many of them just what some level needs.
fn framed(r: &mut Rng, make: impl FnOnce(&mut Rng) -> StageCall) -> StageCall {
    let mut call = make(r);
    let frame = any_frame(r, &mixed(&call));
    set_frame(&mut call, frame);
    call
}

fn pairs(r: &mut Rng) -> StageCall {
    let n = few_channels(r);
    let kinds = kinds(r, n);
    let mut call = with_bands(r, &kinds);
    fill_pairs(r, &mut call);
    call
}

/// The 120 arrangements of up to four channels, one after another.
fn arranged(r: &mut Rng, nth: u64) -> StageCall {
    let mut call = with_bands(r, &arrangement(nth));
    fill_pairs(r, &mut call);
    call
}

/// Right is left with the other sign, or an ulp beside it: in the whole channel, in some subframes, in some bands.
fn opposite(r: &mut Rng) -> StageCall {
    let mut call = pairs(r);
    for c in primaries(&call) {
        let (style, beside) = (r.below(3), r.chance(0.3));
        for s in 0..8 {
            let whole = style == 0 || (style == 1 && r.chance(0.5));
            for b in 0..128 {
                if whole || (style == 2 && r.chance(0.5)) {
                    let x = call.spectra[c * 1024 + s * 128 + b];
                    let d = if beside && r.chance(0.2) { r.range(-1, 1) } else { 0 };
                    call.spectra[(c + 1) * 1024 + s * 128 + b] = -ulps(x, d);
                }
            }
        }
    }
    hold(&mut call);
    call
}

/// One side or both silent, in all subframes or in some.
fn silent(r: &mut Rng) -> StageCall {
    let mut call = pairs(r);
    for c in primaries(&call) {
        for s in 0..8 {
            let silent = r.below(4);
            for b in 0..128 {
                for side in (0..2).filter(|side| silent >> side & 1 == 1) {
                    call.spectra[(c + side) * 1024 + s * 128 + b] = r.signed(0.0);
                }
            }
        }
    }
    call
}

/// Zeros of both signs, now and then a subnormal or the least magnitude.
fn zeros(r: &mut Rng) -> StageCall {
    let mut call = pairs(r);
    let loud = r.pick(&[0.0, 0.05, 0.3]);
    for v in &mut call.spectra {
        if !r.chance(loud) {
            *v = r.signed(0.0);
        } else if r.chance(0.5) {
            let least = f32::from_bits(r.range(1, 9) as u32);
            *v = r.signed(least);
        }
    }
    call
}

/// A sum as parts: exact in any order, since all are multiples of its last place.
fn parts(r: &mut Rng, sum: f32, count: usize) -> Vec<f32> {
    let mut left = (sum.to_bits() & 0x7F_FFFF | 0x80_0000) as i64;
    let place = f64::from(sum) / left as f64;
    let mut v = vec![0.0; count];
    let used = if r.chance(0.3) { 1 } else { r.range(1, count as i64) };
    for k in 0..used {
        let part = if k + 1 == used { left } else { r.range(0, left) };
        left -= part;
        let at = r.below(count);
        if v[at] == 0.0 {
            v[at] = (part as f64 * place) as f32;
        } else {
            left += part;
        }
    }
    if left > 0 {
        let at = r.below(count);
        v[at] = (f64::from(v[at]) + left as f64 * place) as f32;
    }
    v.iter().map(|&x| r.signed(x)).collect()
}

/// Energies whose stored value lies at bound k, or `d` ulps beside it.
fn energies_at(r: &mut Rng, k: usize, d: i64) -> (f32, f32) {
    let target = ulps(INTENSITY_RATIO_BOUNDS[k], d);
    let stored = |left: f32, right: f32| 2.0 * left / (left + right);
    for _ in 0..20 {
        // a combined energy of 1 has every stored value; of others some are found
        let combined = if r.chance(0.5) { 1.0 } else { 1.0 + r.unit() as f32 };
        let near = target * combined / 2.0;
        for at in -3..=3 {
            let left = ulps(near, at);
            let right = combined - left;
            if stored(left, right).to_bits() == target.to_bits() {
                return (left, right);
            }
        }
    }
    let left = target / 2.0;
    (left, 1.0 - left)
}

fn set_side(call: &mut StageCall, channel: usize, subframe: usize, values: &[f32]) {
    let at = channel * 1024 + subframe * 128 + call.layout[1] as usize;
    call.spectra[at..at + values.len()].copy_from_slice(values);
}

fn at_bounds(r: &mut Rng, nth: u64) -> StageCall {
    let mut call = pairs(r);
    let count = mixed_bands(&call).len();
    for c in primaries(&call) {
        let loudness = (r.range(-20, 14) as f32).exp2();
        for s in 0..8 {
            let d = r.pick(&[-1, 0, 0, 1]);
            let (left, right) = energies_at(r, 1 + (nth as usize + s) % 12, d);
            for (channel, energy) in [(c, left), (c + 1, right)] {
                let v = parts(r, energy * loudness, count);
                set_side(&mut call, channel, s, &v);
            }
        }
    }
    call
}

/// Equal signs give the lower end or an ulp beside it; where a part of the bands cancels, the ratio comes to the upper end.
fn at_ends(r: &mut Rng) -> StageCall {
    let mut call = pairs(r);
    let bands = mixed_bands(&call);
    for c in primaries(&call) {
        for s in 0..8 {
            let upper = r.chance(0.6);
            for b in bands.clone() {
                let (x, y) = (c * 1024 + s * 128 + b, (c + 1) * 1024 + s * 128 + b);
                call.spectra[y] = call.spectra[y].abs().copysign(call.spectra[x]);
            }
            if upper && bands.len() > 1 {
                let sum: f32 = bands
                    .clone()
                    .skip(1)
                    .map(|b| (call.spectra[c * 1024 + s * 128 + b] + call.spectra[(c + 1) * 1024 + s * 128 + b]).abs())
                    .sum();
                let cancelled = ulps(sum * (std::f32::consts::SQRT_2 - 1.0) / 2.0, r.range(-6, 6)).min(LOUDEST);
                call.spectra[c * 1024 + s * 128 + bands.start] = cancelled;
                call.spectra[(c + 1) * 1024 + s * 128 + bands.start] = -cancelled;
            }
        }
    }
    call
}

/// Everything at the limit or near it, so that the sums are as large as they can be.
fn loud(r: &mut Rng) -> StageCall {
    let mut call = pairs(r);
    let share = r.pick(&[0.02, 0.5, 1.0]);
    for v in &mut call.spectra {
        if r.chance(share) {
            let near = ulps(LOUDEST, r.pick(&[0, 0, -1, -2]));
            *v = if share == 1.0 { near } else { r.signed(near) };
        }
    }
    call
}

/// The next float, or a larger one, at any place: other channels and bands past total too. 3 and 4 come before it.
fn too_loud_case(r: &mut Rng) -> StageCall {
    let mut call = framed(r, loud);
    if r.chance(0.3) {
        (call.layout[1], call.layout[2]) = (call.layout[1] + call.layout[2], 0);
    }
    for _ in 0..r.range(1, 3) {
        let at = r.below(call.spectra.len());
        let big = r.pick(&[ulps(LOUDEST, 1), ulps(LOUDEST, 1), 65_537.0, 1e30, f32::MAX]);
        call.spectra[at] = r.signed(big);
    }
    if r.chance(0.2) {
        let at = r.below(call.spectra.len());
        call.spectra[at] = r.pick(&[f32::NAN, f32::INFINITY, f32::NEG_INFINITY]);
    }
    if r.chance(0.2) {
        let at = r.below(call.intensities.len());
        call.intensities[at] = r.range(16, 255) as u8;
    }
    call
}

/// A call of the stage as the mixing has to find it: left doubled and right silent come back halved and exact.
fn unmixed(mut call: StageCall) -> StageCall {
    hold(&mut call);
    if call.layout[2] > 0 {
        for c in primaries(&call) {
            for s in 0..8 {
                for b in mixed_bands(&call) {
                    call.spectra[c * 1024 + s * 128 + b] *= 2.0;
                    call.spectra[(c + 1) * 1024 + s * 128 + b] = 0.0;
                }
            }
        }
    }
    hold(&mut call);
    call
}

/// Values at dead zones once they are mixed, in a frame that just fits what some level needs by the estimate.
fn zone_case(r: &mut Rng) -> StageCall {
    let n = r.range(1, 3) as usize;
    let kinds = kinds(r, n);
    let mut call = with_bands(r, &kinds);
    let class = r.pick(&[Class::DeadZone, Class::UnderDeadZone, Class::UnderDeadZone]);
    fill(r, &mut call, Some(class), 0.0);
    any_intensities(r, &mut call);
    call = unmixed(call);
    let level = if r.chance(0.7) { 0 } else { r.range(0, 254) };
    let frame = fitting(r, &mixed(&call), level);
    set_frame(&mut call, frame);
    call
}

fn tiny_case(r: &mut Rng) -> StageCall {
    let mut call = pairs(r);
    let frame = r.range(8, 40);
    set_frame(&mut call, frame);
    call
}

fn sixteen_case(r: &mut Rng) -> StageCall {
    let kinds = kinds(r, 16);
    let mut call = with_bands(r, &kinds);
    fill_pairs(r, &mut call);
    let frame = r.range(300, 12_000);
    set_frame(&mut call, frame);
    call
}

/// Pairs that stay as they are.
fn no_bands(r: &mut Rng) -> StageCall {
    let mut call = pairs(r);
    if r.chance(0.5) {
        call.layout[1] += call.layout[2];
    }
    call.layout[2] = 0;
    call
}

// ---------------------------------------------------------------- refusals 3 and 4
/// A secondary's 16 is refused though a pair would write over it; another's is not looked at.
fn intensity_case(r: &mut Rng) -> StageCall {
    let mut call = framed(r, pairs);
    for _ in 0..r.range(1, 3) {
        let at = r.below(call.intensities.len());
        call.intensities[at] = if r.chance(0.5) { 16 } else { r.range(14, 255) as u8 };
    }
    if r.chance(0.3) {
        let at = r.below(call.spectra.len());
        call.spectra[at] = r.pick(&[f32::NAN, ulps(LOUDEST, 1)]);
    }
    call
}

/// Refusal 4 is judged over the whole before 17 is.
fn not_finite_case(r: &mut Rng, nth: u64) -> StageCall {
    let mut call = nan_case(r, nth);
    hold_finite(&mut call);
    if r.chance(0.4) {
        let at = r.below(call.spectra.len());
        if call.spectra[at].is_finite() {
            call.spectra[at] = r.pick(&[ulps(LOUDEST, 1), -f32::MAX]);
        }
    }
    call
}

fn hold_finite(call: &mut StageCall) {
    for v in call.spectra.iter_mut().filter(|v| v.is_finite()) {
        *v = v.clamp(-LOUDEST, LOUDEST);
    }
}

// ---------------------------------------------------------------- hand-made
/// A pair of two mixed bands: the values of left and right in each subframe.
fn two_bands(kinds: &[u8], frame: u32, rows: &[[f32; 4]]) -> StageCall {
    let mut call = StageCall::exact(kinds, 0, 2, 2, frame);
    for (s, row) in rows.iter().enumerate() {
        set_side(&mut call, 0, s, &row[..2]);
        set_side(&mut call, 1, s, &row[2..]);
    }
    call
}

/// Cases with a name: A2's worked rows and known corners.
pub fn named() -> Vec<(&'static str, StageCall)> {
    // the energies 1.25 0.5 2.5; 3 1 8; 1 1 1; 1 1 0; 1 0 2; 0 1 2; silence; total of the least magnitude
    let rows = [
        [1.0, 0.25, 0.25, -0.25],
        [3.0, 0.0, 1.0, 0.0],
        [0.25, 0.75, 0.25, -0.75],
        [1.0, 0.0, -1.0, 0.0],
        [1.0, 0.0, 0.0, 0.0],
        [0.0, 0.0, 1.0, 0.0],
        [0.0, -0.0, 0.0, -0.0],
        [f32::from_bits(1), 0.0, 0.0, -0.0],
    ];
    let mut three = StageCall::exact(&[1, 1, 2], 1, 1, 3, 60);
    for (c, values) in [[1.0, 2.0], [3.0, -1.0], [0.5, 0.25]].iter().enumerate() {
        set_side(&mut three, c, 0, values);
    }
    let mut v = vec![
        ("six rows, silence and the least magnitude", two_bands(&[1, 2], 60, &rows)),
        ("the same, right is discrete", two_bands(&[1, 0], 90, &rows)),
        ("the same, a secondary first", two_bands(&[2, 1], 60, &rows)),
        ("the same, left alone", two_bands(&[0, 1], 90, &rows)),
        ("two primaries and a secondary", three),
        ("signs of zero", two_bands(&[1, 2], 30, &[[-0.0, 0.0, -0.0, -0.0], [-1.0, -0.0, 1.0, -0.0], [-0.0, -0.0, -0.0, 0.0]])),
        ("all at 65,536", two_bands(&[1, 2], 60, &[[LOUDEST; 4]; 8])),
    ];
    let mut call = two_bands(&[1, 1], 60, &rows);
    call.intensities.fill(255);
    v.push(("lent intensities of 255", call.clone()));
    call.layout[1] = 2;
    call.layout[2] = 0;
    v.push(("no stereo bands", call));
    // bands outside base..total, which the last group reads: 1 coded, 8 groups of 2, the last of them 16 and 17
    let mut call = StageCall::exact(&[1, 2], 1, 1, 17, 60);
    for b in 0..24 {
        call.spectra[b] = 0.5 - 0.125 * (b % 3) as f32;
        call.spectra[1024 + b] = 0.25;
    }
    v.push(("bands from total on stay unmixed and are read", call));
    let seven = worked().into_iter().find(|(name, _)| *name == "refusal 7 after a found level").expect("is named so").1;
    let mut call = StageCall::exact(&[1], 0, 1, 1, 19);
    call.spectra = seven.spectra;
    v.push(("refusal 7, a primary with no channel after it", call.clone()));
    call.kinds.push(0);
    call.layout[0] = 2;
    call.spectra.iter_mut().for_each(|v| *v *= 2.0);
    call.spectra.extend([0.0; 1024]);
    call.intensities = vec![0; 16];
    call.set_lengths();
    v.push(("refusal 7 after mixing", call));
    let mut call = two_bands(&[1, 2], 8, &[[9.0, 9.0, 9.0, 9.0]; 8]);
    call.lengths[0] += 3;
    v.push(("refusal 5 after mixing", call));
    v
}
