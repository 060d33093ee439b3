//! A5's worked table, by single calls of the published Rust.
use published::driver::{stage, Lent, StageCall};
use published::line::{line, LineCall, LineLent};

fn by_rust(call: &StageCall, out: &mut Lent) -> u32 {
    stage(call, out).0
}

/// Three frames of five silent channels in eight bytes, with a tally of 5, 6, 7, changed as told.
fn three(change: impl Fn(&mut LineCall)) -> (u32, LineCall, LineLent, LineLent) {
    let mut call = LineCall::of(&vec![StageCall::exact(&[0; 5], 1, 0, 1, 8); 3]);
    call.tally = vec![5, 6, 7];
    change(&mut call);
    let before = call.lent();
    let mut out = before.clone();
    (line(&call, by_rust, &mut out), call, before, out)
}

const SILENT: [u8; 8] = [0xFF, 0xFF, 0, 0, 0, 0, 0, 0xD8];

#[test]
fn three_silent_frames() {
    let (number, _, before, out) = three(|_| {});
    assert_eq!(number, 0);
    assert_eq!(out.frames, [SILENT; 3].concat());
    assert_eq!(out.answers, [[0, 0, 0, 47]; 3].concat());
    assert_eq!(out.tally, [8, 147, 7]);
    assert_eq!(out.answer, before.answer);
}

#[test]
fn the_second_frame_is_not_finite() {
    let (number, _, before, out) = three(|c| c.spectra[5 * 1024 + 1024] = f32::INFINITY);
    assert_eq!((number, out.answer[0], out.answer[1]), (4, 1024, 1));
    assert_eq!(out.frames[..8], SILENT);
    assert_eq!(out.frames[8..], before.frames[8..]);
    assert_eq!(out.answers[4..], before.answers[4..]);
    assert_eq!(out.tally, [6, 53, 7]);
}

#[test]
fn the_second_frame_has_no_level() {
    let (number, _, before, out) = three(|c| (0..40).for_each(|i| c.spectra[5 * 1024 + i * 128] = 10.0));
    assert_eq!((number, out.answer[0], out.answer[1]), (5, 0, 1));
    assert_eq!(out.frames[..8], SILENT);
    assert_eq!(out.frames[8..16], [0; 8]);
    assert_eq!(out.frames[16..], before.frames[16..]);
    assert!(out.scaled.iter().all(|v| v.to_bits() == 0) && out.codes.iter().all(|&v| v == 0));
    assert_eq!(out.tally, [6, 53, 7]);
}

#[test]
fn counts_at_the_limit() {
    for (tally, number) in [([1 << 63; 3], 0), ([0, (1 << 63) + 1, 0], 18), ([0, 0, u64::MAX], 18)] {
        let (got, _, _, out) = three(|c| c.tally = tally.to_vec());
        assert_eq!(got, number);
        assert_eq!(out.tally[0] - tally[0], if number == 0 { 3 } else { 0 });
    }
    assert_eq!(three(|c| c.count = 65_536).0, 18);
    assert_eq!(three(|c| c.count = 65_535).0, 2);
    assert_eq!(three(|c| c.count = 0).0, 0);
}
