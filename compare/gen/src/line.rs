//! Calls of a whole line.
use crate::bands::Class;
use crate::limits::{behind, behind_held};
use crate::rng::Rng;
use crate::stage::{any_frame, channels, fill, fitting, layout, outside_case, plain, set_frame, shorter, worked};
use published::driver::StageCall;
use published::line::{LineCall, FULL, MOST};

/// What a case is for; the share is out of 100 indices.
pub const KINDS: [(&str, u64); 13] = [
    ("frames of noise", 22),
    ("silent and quiet frames", 8),
    ("no frames", 4),
    ("refusal 3", 9),
    ("refusal 4", 9),
    ("refusal 5", 13),
    ("refusal 7", 14),
    ("tallies", 8),
    ("counts above the limit", 2),
    ("short buffers", 6),
    ("layouts outside the limits", 3),
    ("16 channels", 1),
    ("worked cases", 1),
];

/// The most frames of a case.
pub const LONGEST: usize = 12;

pub fn kind_of(index: u64) -> (usize, u64) {
    crate::share_of(&KINDS, index)
}

/// Case `index` of a seed.
pub fn call(seed: u64, index: u64) -> LineCall {
    made(Rng::of_case(seed ^ 0x0A5_11AE, index), index)
}

/// The same under a pair of limits.
pub fn limited(seed: u64, index: u64) -> LineCall {
    made(Rng::of_case(seed ^ 0x0A5_11AE, index).under(behind(seed, index)), index)
}

/// The same in held mode.
pub fn held(seed: u64, index: u64) -> LineCall {
    made(Rng::of_case(seed ^ 0x0A5_11AE, index).under(behind_held(seed, index)), index)
}

fn made(mut r: Rng, index: u64) -> LineCall {
    let (kind, nth) = kind_of(index);
    let r = &mut r;
    let mut call = match KINDS[kind].0 {
        "frames of noise" => noise_case(r),
        "silent and quiet frames" => quiet_case(r),
        "no frames" => none_case(r, nth),
        "refusal 3" => intensity_case(r, nth),
        "refusal 4" => not_finite_case(r, nth),
        "refusal 5" => no_level_case(r, nth),
        "refusal 7" => too_long_case(r, nth),
        "tallies" => tally_case(r, nth),
        "counts above the limit" => count_case(r, nth),
        "short buffers" => short_case(r, nth),
        "layouts outside the limits" => outside(r, nth),
        "16 channels" => sixteen_case(r),
        _ => named().swap_remove(nth as usize % named().len()).1,
    };
    call.pattern = r.word() as u32;
    if r.chance(0.3) {
        lengthen(r, &mut call);
    }
    r.complete(&mut call.layout);
    call
}

// ---------------------------------------------------------------- frames of one layout
fn count(r: &mut Rng) -> usize {
    r.range(1, LONGEST as i64) as usize
}

/// A place of the line and a count past it: every place in turn.
fn place(r: &mut Rng, nth: u64) -> (usize, usize) {
    let k = nth as usize % LONGEST;
    (k, r.range(k as i64 + 1, LONGEST as i64) as usize)
}

fn silent(single: &StageCall) -> StageCall {
    let mut frame = single.clone();
    frame.spectra.fill(0.0);
    frame
}

fn noisy(r: &mut Rng, single: &StageCall) -> StageCall {
    let mut frame = single.clone();
    let strays = r.pick(&[0.0, 0.0, 0.05]);
    fill(r, &mut frame, Some(Class::Noise), strays);
    frame
}

/// Silence but for a few values.
fn sparse(r: &mut Rng, single: &StageCall) -> StageCall {
    let mut frame = silent(single);
    for _ in 0..r.range(1, 4) {
        let at = r.below(frame.spectra.len());
        frame.spectra[at] = (10f64.powf(-7.0 + 6.0 * r.unit()) * r.normal()) as f32;
    }
    frame
}

/// Frames that most layouts have room for, `bad` at place k, and any frames after it.
fn line_with(r: &mut Rng, count: usize, k: usize, bad: StageCall, quiet: f64) -> LineCall {
    let frames: Vec<StageCall> = (0..count)
        .map(|i| match i {
            _ if i == k => bad.clone(),
            _ if i > k && r.chance(0.3) => spoilt(r, &bad),
            _ if r.chance(quiet) => silent(&bad),
            _ => sparse(r, &bad),
        })
        .collect();
    LineCall::of(&frames)
}

/// What comes after a refused frame is not looked at.
fn spoilt(r: &mut Rng, single: &StageCall) -> StageCall {
    let mut frame = single.clone();
    let at = r.below(frame.spectra.len());
    frame.spectra[at] = f32::NAN;
    frame.intensities.fill(99);
    frame
}

fn tally(r: &mut Rng) -> Vec<u64> {
    (0..3).map(|_| r.pick(&[0, 0, 1, 1000, FULL - 1, FULL])).collect()
}

fn noise_case(r: &mut Rng) -> LineCall {
    let n = channels(r).min(4);
    let mut single = layout(r, n);
    fill(r, &mut single, Some(Class::Noise), 0.0);
    let frame = any_frame(r, &single);
    set_frame(&mut single, frame.min(4000));
    let frames: Vec<StageCall> = (0..count(r)).map(|_| noisy(r, &single)).collect();
    let mut call = LineCall::of(&frames);
    call.tally = tally(r);
    call
}

fn quiet_case(r: &mut Rng) -> LineCall {
    let n = channels(r).min(4);
    let mut single = layout(r, n);
    let frame = r.range(8, 80) + 20 * n as i64;
    set_frame(&mut single, frame);
    let frames: Vec<StageCall> =
        (0..count(r)).map(|_| if r.chance(0.3) { silent(&single) } else { sparse(r, &single) }).collect();
    let mut call = LineCall::of(&frames);
    call.tally = tally(r);
    call
}

fn sixteen_case(r: &mut Rng) -> LineCall {
    let mut single = layout(r, 16);
    let frame = r.range(300, 3000);
    set_frame(&mut single, frame);
    let frames: Vec<StageCall> = (0..r.range(1, 4)).map(|_| noisy(r, &single)).collect();
    LineCall::of(&frames)
}

/// No frames: lengths are judged all the same, of the work buffers too.
fn none_case(r: &mut Rng, nth: u64) -> LineCall {
    let mut call = LineCall::empty(&plain(r));
    call.tally = tally(r);
    match nth % 4 {
        0 => {
            let at = r.below(4);
            call.lengths[at] = shorter(r, call.lengths[at]);
        }
        1 if r.chance(0.3) => call.tally[r.below(3)] = FULL + 1,
        1 if r.chance(0.3) => call.layout[4] = 7,
        _ => {}
    }
    call
}

// ---------------------------------------------------------------- refusals of a frame
fn intensity_case(r: &mut Rng, nth: u64) -> LineCall {
    let (k, count) = place(r, nth);
    let mut bad = plain(r);
    if !bad.kinds.contains(&2) {
        let c = r.below(bad.kinds.len());
        bad.kinds[c] = 2;
        bad.intensities[c * 8..c * 8 + 8].fill(3);
    }
    let all: Vec<usize> = (0..bad.intensities.len()).filter(|i| bad.kinds[i / 8] == 2).collect();
    for _ in 0..r.range(1, 3) {
        bad.intensities[r.pick(&all)] = r.pick(&[16, 16, 17, 255]);
    }
    if r.chance(0.3) {
        let at = r.below(bad.spectra.len());
        bad.spectra[at] = f32::NAN; // 3 comes before 4
    }
    let mut call = line_with(r, count, k, bad, 0.3);
    // what line_with made of the bad frame has its intensities
    call.intensities[..k * 8 * call.kinds.len()].iter_mut().for_each(|v| *v &= 15);
    call.tally = tally(r);
    call
}

fn not_finite_case(r: &mut Rng, nth: u64) -> LineCall {
    let (k, count) = place(r, nth);
    let mut bad = plain(r);
    bad.intensities.iter_mut().for_each(|v| *v &= 15);
    for _ in 0..r.range(1, 3) {
        let at = r.below(bad.spectra.len());
        bad.spectra[at] = r.pick(&[f32::NAN, f32::INFINITY, f32::NEG_INFINITY]);
    }
    let mut call = line_with(r, count, k, bad, 0.3);
    call.tally = tally(r);
    call
}

/// Frames of just what silence needs, and a loud one.
fn no_level_case(r: &mut Rng, nth: u64) -> LineCall {
    let (k, count) = place(r, nth);
    let n = r.range(1, 4) as usize;
    let mut bad = layout(r, n);
    fill(r, &mut bad, Some(Class::Noise), 0.0);
    let frame = fitting(r, &silent(&bad), 0);
    set_frame(&mut bad, frame.max(8));
    let mut call = line_with(r, count, k, bad, 0.9);
    call.tally = tally(r);
    call
}

/// Values next to a dead zone in a frame that just fits the estimate.
fn too_long_case(r: &mut Rng, nth: u64) -> LineCall {
    let (k, count) = place(r, nth);
    let n = r.range(1, 2) as usize;
    let mut bad = layout(r, n);
    let class = r.pick(&[Class::DeadZone, Class::UnderDeadZone, Class::UnderDeadZone, Class::UnderDeadZone]);
    fill(r, &mut bad, Some(class), 0.0);
    let frame = fitting(r, &bad, 0);
    set_frame(&mut bad, frame);
    let mut call = line_with(r, count, k, bad, 0.9);
    call.tally = tally(r);
    call
}

// ---------------------------------------------------------------- refusals 1, 18 and 2
/// Each of the three counts at each of these, the others small or at the limit.
fn tally_case(r: &mut Rng, nth: u64) -> LineCall {
    let mut call = if r.chance(0.5) { quiet_case(r) } else { LineCall::of(&[silent(&plain(r))]) };
    let values = [0, FULL - 1, FULL, FULL + 1, u64::MAX, FULL - 100];
    call.tally[nth as usize % 3] = values[nth as usize / 3 % values.len()];
    // 18 comes before 2, and looks at the counts that are there
    if r.chance(0.2) {
        call.tally.truncate(r.below(3));
    }
    if r.chance(0.1) {
        call.lengths[r.below(7)] = 0;
    }
    call
}

/// A count above the limit; the buffers are those of a few frames.
fn count_case(r: &mut Rng, nth: u64) -> LineCall {
    let mut call = quiet_case(r);
    call.count = match nth % 6 {
        0 | 1 => MOST + 1,
        2 => MOST, // not above it: the buffers are too short
        3 => 1 << 32,
        4 => usize::MAX,
        _ => (1 << 32) + call.count,
    };
    if r.chance(0.2) {
        call.layout[4] = 7; // 1 comes before 18
    }
    call
}

fn short_case(r: &mut Rng, nth: u64) -> LineCall {
    let mut call = LineCall::of(&vec![silent(&plain(r)); count(r)]);
    if r.chance(0.3) {
        lengthen(r, &mut call);
    }
    let (n, m) = (call.layout[0] as usize, call.count);
    match nth % 10 {
        0 => {
            let l = shorter(r, m * n * 1024);
            call.spectra.truncate(l);
        }
        1 => {
            let l = shorter(r, m * n * 8);
            call.intensities.truncate(l);
        }
        2 => call.tally.truncate(r.below(3)),
        k => {
            let least = [n * 1024, n * 1024, n * 128, n * 8, m * call.layout[4] as usize, m * 4, 4];
            call.lengths[k as usize - 3] = shorter(r, least[k as usize - 3]);
        }
    }
    // refusal 2 comes before 3 and 4
    if r.chance(0.2) {
        call.spectra.iter_mut().take(1).for_each(|v| *v = f32::NAN);
        call.intensities.iter_mut().for_each(|v| *v = 99);
    }
    call
}

fn outside(r: &mut Rng, nth: u64) -> LineCall {
    let single = outside_case(r, nth);
    let mut call = LineCall::of(&vec![plain(r); r.range(0, 2) as usize + 1]);
    (call.layout, call.kinds) = (single.layout, single.kinds);
    call.lengths[..4].copy_from_slice(&single.lengths[..4]);
    // refusal 1 comes before 18 and 2
    if r.chance(0.3) {
        call.tally[r.below(3)] = FULL + 1;
    }
    if r.chance(0.2) {
        call.count = MOST + 1;
    }
    call
}

/// Longer buffers; what lies past the end of an input is not looked at.
fn lengthen(r: &mut Rng, call: &mut LineCall) {
    for l in &mut call.lengths {
        if r.chance(0.5) {
            *l += r.range(1, 70) as usize;
        }
    }
    if r.chance(0.5) {
        call.spectra.extend([f32::NAN, f32::INFINITY, 3.0, -0.0]);
    }
    if r.chance(0.5) {
        call.intensities.extend([255, 16, 0, 200, 99, 15, 77, 128]);
    }
    if r.chance(0.5) {
        call.kinds.extend([3, 255, 2]);
    }
    if r.chance(0.5) && call.tally.len() == 3 {
        call.tally.extend([u64::MAX, FULL + 1]);
    }
}

// ---------------------------------------------------------------- hand-made
fn three_silent() -> LineCall {
    let mut call = LineCall::of(&vec![StageCall::exact(&[0; 5], 1, 0, 1, 8); 3]);
    call.tally = vec![5, 6, 7];
    call
}

/// Cases with a name: A5's worked table and known corners.
pub fn named() -> Vec<(&'static str, LineCall)> {
    let mut v = vec![("three silent frames", three_silent())];
    let mut call = three_silent();
    call.spectra[5 * 1024 + 1024] = f32::INFINITY;
    v.push(("spectrum 1024 of frame 1 infinite", call));
    let mut call = three_silent();
    (0..40).for_each(|i| call.spectra[5 * 1024 + i * 128] = 10.0);
    v.push(("frame 1: every band 0 is 10", call.clone()));
    call.tally = vec![FULL; 3];
    call.spectra.fill(0.0);
    v.push(("every count at 2^63", call.clone()));
    for (name, at) in [("frames above 2^63", 0), ("bits above 2^63", 1), ("pairs above 2^63", 2)] {
        call.tally = vec![0; 3];
        call.tally[at] = FULL + 1;
        v.push((name, call.clone()));
    }
    call.tally = vec![1, 2];
    v.push(("a tally of two counts", call.clone()));
    call.tally = vec![FULL + 1];
    v.push(("a tally of one count above 2^63", call.clone()));
    call.tally = vec![0, 0, 0, u64::MAX];
    call.lengths[6] += 2;
    v.push(("a longer tally and answer", call));
    let mut call = three_silent();
    call.count = MOST + 1;
    v.push(("65,536 frames, buffers of three", call.clone()));
    call.count = MOST;
    v.push(("65,535 frames, buffers of three", call.clone()));
    call.count = 2;
    v.push(("two frames, buffers of three", call.clone()));
    call.count = 0;
    v.push(("no frames, buffers of three", call.clone()));
    call.spectra.clear();
    call.intensities.clear();
    call.set_lengths();
    v.push(("no frames, no buffers but for work", call.clone()));
    call.lengths[3] -= 1;
    v.push(("no frames, side a byte short", call));
    let seven = worked().into_iter().find(|(name, _)| *name == "refusal 7 after a found level").expect("is named so").1;
    v.push(("refusal 7 at frame 1", LineCall::of(&[silent(&seven), seven.clone(), silent(&seven)])));
    let mut pair = StageCall::exact(&[1, 2], 4, 2, 8, 40);
    pair.spectra[5] = 0.75;
    let mut loud = pair.clone();
    loud.intensities[9] = 16;
    v.push(("refusal 3 at frame 2", LineCall::of(&[pair.clone(), pair.clone(), loud, pair])));
    v
}
