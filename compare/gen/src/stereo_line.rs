//! Calls of a whole line from unmixed spectra: those of a line, some with a frame that is too loud, and frames of the stereo stage.
use crate::limits::{behind, behind_held};
use crate::line::LONGEST;
use crate::rng::Rng;
use crate::{line, stereo};
use published::driver::StageCall;
use published::line::LineCall;
use published::stereo::LOUDEST;

/// What a case is for; the share is out of 100 indices.
pub const KINDS: [(&str, u64); 3] = [("calls of a line", 40), ("a frame too loud", 20), ("frames of the stereo stage", 40)];

pub fn kind_of(index: u64) -> (usize, u64) {
    crate::share_of(&KINDS, index)
}

const OWN: u64 = 0x57E2_11AE;

/// Case `index` of a seed.
pub fn call(seed: u64, index: u64) -> LineCall {
    made(Rng::of_case(seed ^ OWN, index), index, &|k| line::call(seed ^ OWN, k), &|k| stereo::call(seed ^ OWN, k))
}

/// The same under a pair of limits.
pub fn limited(seed: u64, index: u64) -> LineCall {
    let r = Rng::of_case(seed ^ OWN, index).under(behind(seed, index));
    made(r, index, &|k| line::limited(seed ^ OWN, k), &|k| stereo::limited(seed ^ OWN, k))
}

/// The same in held mode.
pub fn held(seed: u64, index: u64) -> LineCall {
    let r = Rng::of_case(seed ^ OWN, index).under(behind_held(seed, index));
    made(r, index, &|k| line::held(seed ^ OWN, k), &|k| stereo::held(seed ^ OWN, k))
}

fn made(mut r: Rng, index: u64, line: &dyn Fn(u64) -> LineCall, single: &dyn Fn(u64) -> StageCall) -> LineCall {
    let (kind, nth) = kind_of(index);
    match KINDS[kind].0 {
        "calls of a line" => line(nth),
        "a frame too loud" => too_loud(&mut r, nth, single(2 * nth)),
        _ => frames(&mut r, &single(2 * nth + 1), None),
    }
}

/// The frames of a single call, each by another factor, so that no two are alike. The lengths are those of the whole line, of a layout outside the
/// limits those that its kinds ask for.
fn frames(r: &mut Rng, single: &StageCall, count: Option<usize>) -> LineCall {
    let mut exact = single.clone();
    exact.layout.resize(single.layout.len().max(5), 0);
    let n = single.kinds.len().min(exact.layout[0] as usize);
    exact.spectra.resize(n * 1024, 0.0);
    exact.intensities.resize(n * 8, 0);
    let most = if n > 6 { 3 } else { LONGEST };
    let count = count.unwrap_or_else(|| r.range(1, most as i64) as usize);
    let frames: Vec<StageCall> = (0..count)
        .map(|_| {
            let mut frame = exact.clone();
            let factor = if r.chance(0.3) { 1.0 } else { r.unit() as f32 };
            frame.spectra.iter_mut().for_each(|v| *v *= factor);
            frame
        })
        .collect();
    let mut call = LineCall::of(&frames);
    call.layout = single.layout.clone();
    let size = exact.layout[4].min(70_000) as usize;
    call.lengths = [n * 1024, n * 1024, n * 128, n * 8, count * size, count * 4, 4];
    for (l, more) in call.lengths.iter_mut().zip([0, 0, 0, 0, 5, 3, 2]) {
        *l += if r.chance(0.3) { more } else { 0 };
    }
    call
}

/// Frame k has a value above the limit, or one an ulp above it; those before it have none.
fn too_loud(r: &mut Rng, nth: u64, single: StageCall) -> LineCall {
    let k = nth as usize % LONGEST;
    let count = r.range(k as i64 + 1, LONGEST as i64) as usize;
    let mut quiet = single;
    quiet.spectra.iter_mut().for_each(|v| *v = if v.is_finite() { v.clamp(-1.0, 1.0) } else { 0.0 });
    quiet.intensities.iter_mut().for_each(|v| *v &= 15);
    let mut call = frames(r, &quiet, Some(count));
    if call.spectra.is_empty() {
        return call;
    }
    let at = k * (call.spectra.len() / count) + r.below(call.spectra.len() / count);
    call.spectra[at] = r.pick(&[f32::from_bits(LOUDEST.to_bits() + 1), -f32::from_bits(LOUDEST.to_bits() + 1), 1e9, f32::MIN]);
    call
}
