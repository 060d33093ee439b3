//! A2's worked rows, on the published Rust.
use published::driver::StageCall;
use published::hca::encoder::{quantize_intensity, INTENSITY_RATIO_BOUNDS};
use published::stereo::{stereo_stage, StereoLent};

/// Left, right and total energy to value and ratio.
#[test]
fn six_rows() {
    for (left, right, total, value, ratio) in [
        (1.25, 0.5, 2.5, 4, 0x3F33_3333),
        (3.0, 1.0, 8.0, 4, 0x3F00_0000), // stored is bound 3
        (1.0, 1.0, 1.0, 7, 0x3F35_04F3),
        (1.0, 1.0, 0.0, 7, 0x3F80_0000),
        (1.0, 0.0, 2.0, 1, 0x3F00_0000),
        (0.0, 1.0, 2.0, 13, 0x3F00_0000),
    ] {
        let (got, times) = quantize_intensity(left, right, total);
        assert_eq!((got, times.to_bits()), (value, ratio), "{left} {right} {total}");
    }
    assert_eq!(quantize_intensity(0.0, 0.0, 0.0), (0, 1.0));
    assert_eq!(INTENSITY_RATIO_BOUNDS[3], 1.5);
}

/// Two primaries and a secondary: the second primary is zeroed before its own pair is mixed.
#[test]
fn three_channels() {
    let mut call = StageCall::exact(&[1, 1, 2], 1, 1, 3, 60);
    for (c, values) in [[1.0, 2.0], [3.0, -1.0], [0.5, 0.25]].iter().enumerate() {
        call.spectra[c * 1024 + 1..c * 1024 + 3].copy_from_slice(values);
    }
    let mut out = StereoLent::of(&call);
    assert_eq!(stereo_stage(&call, &mut out).0, 0);
    let bits = |at: usize| out.spectra[at..at + 4].iter().map(|v| v.to_bits()).collect::<Vec<_>>();
    assert_eq!(bits(0), [0, 0x4033_3333, 0x3F33_3333, 0]);
    assert_eq!(bits(1024), [0, 0x3E80_0000, 0x3E00_0000, 0]);
    assert_eq!(bits(2048), [0, 0, 0, 0]);
    assert_eq!([out.intensities[8], out.intensities[16]], [8, 13]);
}

#[test]
fn the_limit_itself_passes() {
    let mut call = StageCall::exact(&[0], 1, 0, 1, 60);
    for (bits, number) in [(0x4780_0000, 0), (0xC780_0000, 0), (0x4780_0001, 17), (0xC780_0001, 17)] {
        call.spectra[1023] = f32::from_bits(bits);
        let mut out = StereoLent::of(&call);
        assert_eq!(stereo_stage(&call, &mut out).0, number);
    }
}
