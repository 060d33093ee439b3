//! Cases of the line (kind 12), from as many single calls of the Rust.
use crate::{sum, sum_words, Body, File, BEFORE};
use gen::{line as lines, speech};
use published::limits::stage;
use published::line::{line, LineCall, LineLent};

fn outcome(number: u32, count: usize, out: &LineLent) -> String {
    let tally = &out.tally;
    match number {
        0 => format!("delivered {count} frames, tally {tally:?}"),
        3..=7 => format!("refusal {number}, {} beside it, frame {}, tally {tally:?}", out.answer[0], out.answer[1]),
        _ => format!("refusal {number}"),
    }
}

pub fn add(f: &mut File, name: &str, call: &LineCall) {
    let l = &call.lengths;
    let word = u32::from_le_bytes([BEFORE; 4]);
    let mut out = LineLent {
        scaled: vec![f32::from_bits(word); l[0]],
        codes: vec![word as i32; l[1]],
        factors: vec![BEFORE; l[2]],
        side: vec![BEFORE; l[3]],
        frames: vec![BEFORE; l[4]],
        answers: vec![word; l[5]],
        tally: call.tally.clone(),
        answer: vec![word; 4],
    };
    let number = line(call, |single, b| stage(single, b).0, &mut out);
    let mut b = Body(Vec::new());
    let kind = b.layout(&call.layout, 12);
    b.bytes(&call.kinds);
    b.word(call.count as u32);
    b.runs(&call.spectra.iter().map(|v| v.to_bits()).collect::<Vec<_>>());
    b.bytes(&call.intensities);
    b.words(&l[..6].iter().map(|&n| n as u32).collect::<Vec<_>>());
    b.longs(&call.tally);
    b.word(number);
    b.words(&out.answer);
    b.word(sum_words(out.scaled.iter().map(|v| v.to_bits())));
    b.word(sum_words(out.codes.iter().map(|&v| v as u32)));
    b.word(sum(out.factors.iter().copied()));
    b.word(sum(out.side.iter().copied()));
    b.word(sum(out.frames.iter().copied()));
    b.word(sum_words(out.answers.iter().copied()));
    b.longs(&out.tally);
    f.add_case(kind, name, &outcome(number, call.count, &out), b);
}

pub fn file() -> File {
    let mut f = File::new();
    for (name, mut call) in lines::named() {
        call.lengths[6] = 4;
        add(&mut f, name, &call);
    }
    let mut call = lines::named().swap_remove(0).1;
    call.lengths = call.lengths.map(|n| n + 3);
    call.spectra.push(f32::NAN);
    call.intensities.push(255);
    call.lengths[6] = 4;
    add(&mut f, "longer buffers", &call);
    call.lengths[4] = 23;
    add(&mut f, "frames a byte short", &call);
    call.layout[4] = 7;
    call.tally[0] = u64::MAX;
    add(&mut f, "refusal 1 before 18", &call);
    call.layout[4] = 8;
    add(&mut f, "refusal 18 before 2", &call);
    add(&mut f, "speech, mono, 64 kbit/s", &LineCall::of(&speech::frames(1, 64_000, 12)[8..12]));
    f
}
