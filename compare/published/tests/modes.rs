//! A9's rows and worked calls, by the second copy of the published Rust.
use published::driver::{Lent, StageCall};
use published::hca::encoder::{QUANTIZER_INVERSE_STEP_SIZE, QUANTIZE_SPECTRUM_BITS};
use published::limits::{held, mode_fits, mode_of, stage, under, HELD, RUST};

/// The code of the upper clip at a resolution in a mode, and the bits that the estimate counts for it.
fn row(mode: u32, resolution: usize) -> (i32, u8) {
    let step = QUANTIZER_INVERSE_STEP_SIZE[resolution];
    let sum = (f32::from_bits(0x3F7F_FFFE) * step + (step + 1.0)) as i32;
    under(&[1, 1, 0, 1, 10, 1, 15, mode], || {
        let code = held(sum - (step + 0.5) as i32, 0, resolution).clamp(-8, 7);
        let at = held(sum - (step + 0.5 - 8.0) as i32, 8, resolution).clamp(0, 15);
        (code, QUANTIZE_SPECTRUM_BITS[resolution][at as usize])
    })
}

#[test]
fn held_rows() {
    assert_eq!([2, 4, 5].map(|r| row(RUST, r)), [(3, 0), (5, 0), (6, 0)]);
    assert_eq!([2, 4, 5].map(|r| row(HELD, r)), [(2, 3), (4, 4), (5, 4)]);
    for r in [1, 3, 6, 7] {
        assert_eq!(row(RUST, r), row(HELD, r));
    }
}

/// Every code that a scaled value can have: in held mode the nearest within the range.
#[test]
fn every_code() {
    for (r, code) in (0..8).flat_map(|r| (-20..=20).map(move |code| (r, code))) {
        let of = |mode, zero: i32| under(&[1, 1, 0, 1, 10, 1, 15, mode], || held(code + zero, zero, r) - zero);
        assert_eq!((of(RUST, 0), of(RUST, 8)), (code, code));
        assert_eq!((of(HELD, 0), of(HELD, 8)), (code.clamp(-(r as i32), r as i32), code.clamp(-(r as i32), r as i32)));
    }
}

#[test]
fn one_input_in_both_modes() {
    let encode = |mode| {
        let mut call = StageCall::exact(&[0], 1, 0, 1, 10);
        (0..8).for_each(|s| call.spectra[128 * s] = if s % 2 == 0 { 1000.0 } else { -6.0 });
        call.layout.extend([1, 15, mode]);
        let mut out = call.lent();
        (stage(&call, &mut out).0, out)
    };
    let codes = |out: &Lent| (0..8).map(|s| out.codes[128 * s]).collect::<Vec<i32>>();
    let (number, out) = encode(RUST);
    assert_eq!((number, &out.answer[..], codes(&out)), (0, &[209, 0, 0, 49][..], [3, -1].repeat(4)));
    assert_eq!(out.frame, [0xFF, 0xFF, 0x68, 0x80, 0xDF, 0xD5, 0, 0, 0xFC, 0x9F]);
    let (number, out) = encode(HELD);
    assert_eq!((number, &out.answer[..], codes(&out)), (0, &[209, 0, 0, 61][..], [2, -1].repeat(4)));
    assert_eq!(out.frame, [0xFF, 0xFF, 0x68, 0x80, 0xDF, 0xEB, 0x5A, 0xD0, 0xA1, 0x62]);
}

#[test]
fn modes_of_a_layout() {
    let numbers = [1, 1, 0, 1, 10, 1, 15, HELD, 9];
    assert_eq!([5, 6, 7, 8, 9].map(|n| mode_of(&numbers[..n])), [RUST, RUST, RUST, HELD, HELD]);
    assert!([2, 256, 1 << 31, u32::MAX].iter().all(|&mode| !mode_fits(&[1, 1, 0, 1, 10, 1, 15, mode])));
}
