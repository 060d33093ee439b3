//! Cases of the line from unmixed spectra (kind 14), from as many single calls of the Rust's stereo step and stage.
use crate::{sum, sum_words, Body, File, BEFORE};
use published::driver::StageCall;
use published::line::{stereo_line, LineCall, LineLent, StereoLineLent};
use published::stereo::{stereo_stage, LOUDEST};

fn outcome(number: u32, count: usize, out: &LineLent) -> String {
    let tally = &out.tally;
    match number {
        0 => format!("delivered {count} frames, tally {tally:?}"),
        3..=7 | 17 => format!("refusal {number}, {} beside it, frame {}, tally {tally:?}", out.answer[0], out.answer[1]),
        _ => format!("refusal {number}"),
    }
}

pub fn add(f: &mut File, name: &str, call: &LineCall) {
    let l = &call.lengths;
    let word = u32::from_le_bytes([BEFORE; 4]);
    let line = LineLent {
        scaled: vec![f32::from_bits(word); l[0]],
        codes: vec![word as i32; l[1]],
        factors: vec![BEFORE; l[2]],
        side: vec![BEFORE; l[3]],
        frames: vec![BEFORE; l[4]],
        answers: vec![word; l[5]],
        tally: call.tally.clone(),
        answer: vec![word; 4],
    };
    let mut out = StereoLineLent { spectra: call.spectra.clone(), intensities: call.intensities.clone(), line };
    let number = stereo_line(call, |single, b| stereo_stage(single, b).0, &mut out);
    let mut b = Body(Vec::new());
    let kind = b.layout(&call.layout, 14);
    b.bytes(&call.kinds);
    b.word(call.count as u32);
    b.runs(&call.spectra.iter().map(|v| v.to_bits()).collect::<Vec<_>>());
    b.bytes(&call.intensities);
    b.words(&l[..6].iter().map(|&n| n as u32).collect::<Vec<_>>());
    b.longs(&call.tally);
    b.word(number);
    b.words(&out.line.answer);
    b.word(sum_words(out.spectra.iter().map(|v| v.to_bits())));
    b.word(sum(out.intensities.iter().copied()));
    b.word(sum_words(out.line.scaled.iter().map(|v| v.to_bits())));
    b.word(sum_words(out.line.codes.iter().map(|&v| v as u32)));
    b.word(sum(out.line.factors.iter().copied()));
    b.word(sum(out.line.side.iter().copied()));
    b.word(sum(out.line.frames.iter().copied()));
    b.word(sum_words(out.line.answers.iter().copied()));
    b.longs(&out.line.tally);
    f.add_case(kind, name, &outcome(number, call.count, &out.line), b);
}

/// A pair with four bands, three of them mixed, in each frame with other values.
fn pair(k: usize, frame_size: u32) -> StageCall {
    let mut call = StageCall::exact(&[1, 2], 1, 3, 4, frame_size);
    for s in 0..8 {
        for b in 0..4 {
            call.spectra[s * 128 + b] = (k + 1) as f32 * 0.25 + b as f32;
            call.spectra[1024 + s * 128 + b] = 1.5 - (s + k) as f32 * 0.5;
        }
    }
    call.intensities.fill(3);
    call
}

fn three() -> LineCall {
    let mut call = LineCall::of(&[pair(0, 90), pair(1, 90), pair(2, 90)]);
    call.tally = vec![5, 6, 7];
    call
}

/// Frame 1 is not delivered.
fn refusals(f: &mut File) {
    let mut call = three();
    call.intensities[16 + 9] = 16;
    add(f, "refusal 3 at frame 1", &call);
    let mut call = three();
    call.spectra[2048 + 1024] = f32::INFINITY;
    call.spectra[2048] = 70_000.0;
    add(f, "refusal 4 at frame 1, before 17", &call);
    for (name, value) in [("65,536 passes", LOUDEST), ("17 at frame 1", f32::from_bits(LOUDEST.to_bits() + 1))] {
        let mut call = three();
        call.spectra[2048 + 2047] = value;
        add(f, name, &call);
    }
    let mut call = LineCall::of(&[StageCall::exact(&[1, 2], 1, 3, 4, 12), pair(1, 12), pair(2, 12)]);
    call.tally = vec![1, 2, 3];
    add(f, "refusal 5 at frame 1, mixed all the same", &call);
}

pub fn file() -> File {
    let mut f = File::new();
    add(&mut f, "three frames of a pair", &three());
    refusals(&mut f);
    let mut call = three();
    call.lengths = call.lengths.map(|n| n + 3);
    call.spectra.push(f32::NAN);
    call.intensities.push(255);
    call.lengths[6] = 4;
    add(&mut f, "longer buffers", &call);
    call.count = 0;
    add(&mut f, "no frames, buffers of three", &call);
    call.count = 3;
    call.intensities.truncate(47);
    add(&mut f, "intensities a byte short", &call);
    call.layout[4] = 7;
    call.tally[0] = u64::MAX;
    add(&mut f, "refusal 1 before 18", &call);
    call.layout[4] = 90;
    add(&mut f, "refusal 18 before 2", &call);
    let mut call = three();
    call.layout[2] = 0;
    add(&mut f, "no stereo bands", &call);
    f
}
