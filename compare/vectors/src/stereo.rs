//! Cases of the stereo stage (kind 11), from the Rust's own stereo step and the stage's steps.
use crate::{sum, sum_words, Body, File, BEFORE};
use gen::rng::ulps;
use gen::{speech, stereo};
use published::driver::{Lent, StageCall};
use published::hca::encoder::INTENSITY_RATIO_BOUNDS;
use published::stereo::{stereo_stage, StereoLent, LOUDEST};

pub fn add(f: &mut File, name: &str, call: &StageCall) {
    let l = &call.lengths;
    let word = u32::from_le_bytes([BEFORE; 4]);
    let stage = Lent {
        scaled: vec![f32::from_bits(word); l[0]],
        codes: vec![word as i32; l[1]],
        factors: vec![BEFORE; l[2]],
        side: vec![BEFORE; l[3]],
        frame: vec![BEFORE; l[4]],
        answer: vec![word; 4],
    };
    let mut out = StereoLent { spectra: call.spectra.clone(), intensities: call.intensities.clone(), stage };
    let (number, _, _) = stereo_stage(call, &mut out);
    let mut b = Body(Vec::new());
    let kind = b.layout(&call.layout, 11);
    b.bytes(&call.kinds);
    b.runs(&call.spectra.iter().map(|v| v.to_bits()).collect::<Vec<_>>());
    b.bytes(&call.intensities);
    b.words(&l[..5].iter().map(|&n| n as u32).collect::<Vec<_>>());
    b.word(number);
    b.words(&out.stage.answer);
    b.word(sum_words(out.spectra.iter().map(|v| v.to_bits())));
    b.word(sum(out.intensities));
    b.word(sum_words(out.stage.scaled.iter().map(|v| v.to_bits())));
    b.word(sum_words(out.stage.codes.iter().map(|&v| v as u32)));
    b.word(sum(out.stage.factors));
    b.word(sum(out.stage.side));
    b.word(sum(out.stage.frame));
    f.add(kind, name, number, &out.stage.answer, b);
}

/// One mixed band; in each subframe the energies have this stored value, since they add up to 1.
fn stored(values: [f32; 8]) -> StageCall {
    let mut call = StageCall::exact(&[1, 2], 0, 1, 1, 40);
    for (s, v) in values.iter().enumerate() {
        call.spectra[s * 128] = v / 2.0;
        call.spectra[1024 + s * 128] = 1.0 - v / 2.0;
    }
    call
}

/// Each bound 1 to 12, and the floats on either side of it.
fn bounds(f: &mut File) {
    for (name, d) in [("a bound", 0), ("an ulp above a bound", 1), ("an ulp below a bound", -1)] {
        for (first, bounds) in [(1, "1 to 8"), (5, "5 to 12")] {
            let call = stored(std::array::from_fn(|s| ulps(INTENSITY_RATIO_BOUNDS[first + s], d)));
            add(f, &format!("stored at {name}, {bounds}"), &call);
        }
    }
}

fn refusals(f: &mut File) {
    let pair = || {
        let mut call = StageCall::exact(&[1, 2, 0], 4, 2, 8, 60);
        call.spectra[5] = 1.0;
        call.spectra[1024 + 5] = -0.5;
        call
    };
    let mut call = pair();
    call.spectra[3071] = ulps(LOUDEST, 1);
    add(f, "refusal 17: the last band of a discrete channel", &call);
    call.spectra[3071] = -LOUDEST;
    add(f, "65,536 in the same place", &call);
    call.spectra[3071] = f32::NEG_INFINITY;
    call.spectra[0] = -f32::MAX;
    add(f, "refusal 4 before 17", &call);
    call.intensities[8] = 16;
    call.intensities[0] = 255;
    add(f, "refusal 3 before 4, where a pair would write", &call);
    call.lengths[4] = 59;
    add(f, "refusal 2 before 3", &call);
    call.layout[3] = 129;
    add(f, "refusal 1 before 2", &call);
    let mut call = pair();
    call.spectra.extend([f32::NAN, f32::MAX]);
    call.intensities.extend([255, 200]);
    call.lengths = call.lengths.map(|n| n + 2);
    call.lengths[5] = 4;
    add(f, "longer buffers", &call);
    call.layout[2] = 0;
    call.spectra[6] = ulps(LOUDEST, 1);
    add(f, "refusal 17 without stereo bands", &call);
}

pub fn file() -> File {
    let mut f = File::new();
    for (name, call) in stereo::named() {
        add(&mut f, name, &call);
    }
    bounds(&mut f);
    refusals(&mut f);
    add(&mut f, "speech, a pair at 64 kbit/s", &speech::unmixed_frames(2, 64_000, 12).swap_remove(10));
    f
}
