//! A8's rows and worked calls, by the second copy of the published Rust.
use published::driver::StageCall;
use published::hca::encoder::calculate_resolution;
use published::limits::{resolution, stage};

/// One Discrete channel of two bands in 17 bytes, with this pair.
fn paired(minimum: u32, maximum: u32) -> Vec<u32> {
    vec![1, 2, 0, 2, 17, minimum, maximum]
}

#[test]
fn limited_rows() {
    let row = |minimum, maximum, factor, noise| resolution(&paired(minimum, maximum), factor, noise);
    let rows =
        [row(4, 10, 63, 0), row(4, 10, 63, 208), row(4, 10, 63, 213), row(4, 10, 1, 0), row(4, 10, 1, 254), row(4, 10, 0, 0)];
    assert_eq!(rows, [10, 4, 4, 10, 4, 0]);
    assert_eq!((row(3, 3, 63, 0), row(3, 3, 63, 213)), (3, 3));
}

/// Every factor and noise: with 1 and 15 the two copies have one resolution, under any pair it lies within it.
#[test]
fn every_resolution() {
    for (factor, noise) in (0..64).flat_map(|factor| (0..512).map(move |noise| (factor, noise))) {
        let published = calculate_resolution(factor, noise);
        assert_eq!(resolution(&paired(1, 15), factor, noise), published);
        for (minimum, maximum) in (1..=15).flat_map(|a| (a..=15).map(move |b| (a, b))) {
            let held = if factor == 0 { 0 } else { published.clamp(minimum as u8, maximum as u8) };
            assert_eq!(resolution(&paired(minimum, maximum), factor, noise), held);
        }
    }
}

#[test]
fn two_loud_bands() {
    let encode = |minimum, maximum| {
        let mut call = StageCall::exact(&[0], 2, 0, 2, 17);
        call.layout = paired(minimum, maximum);
        (call.spectra[0], call.spectra[1], call.spectra[129]) = (1.0, 1.0, f32::from_bits(0xBD16_778F));
        let mut out = call.lent();
        let (number, _) = stage(&call, &mut out);
        (number, out)
    };
    let (number, out) = encode(1, 8);
    assert_eq!((number, &out.answer[..], &out.codes[..2]), (0, &[0, 0, 0, 108][..], &[14, 14][..]));
    assert_eq!(out.frame, [0xFF, 0xFF, 0, 0, 0x3B, 0xB9, 0xC0, 0, 0, 0, 0, 0, 0, 0, 0, 0x2A, 0xDA]);
    let (number, out) = encode(9, 15);
    assert_eq!((number, out.answer[0]), (5, 0));
}
