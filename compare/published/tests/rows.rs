//! Document 01's ten rows and its worked numbers, on the published Rust.
use published::driver::{encoder_for, run, stage, StageCall};
use published::hca::bitreader::BitWriter;
use published::hca::decoder::{crc16_checksum, CRC16_TABLE};
use published::hca::encoder::{calculate_resolution, find_scale_factor, spectral_bit_count};

fn factor(bits: u32) -> u8 {
    find_scale_factor(f32::from_bits(bits))
}

fn width(factors: &[u8]) -> (u8, usize) {
    let mut e = encoder_for(1, factors.len() as u32, 0, 128, 8);
    e.channel[0].coded_count = factors.len();
    e.channel[0].scale_factors[..factors.len()].copy_from_slice(factors);
    e.calculate_optimal_delta_length(0);
    (e.channel[0].scale_factor_delta_bits, e.channel[0].header_length_bits)
}

/// Code, estimated bits and written bits of one scaled value.
fn code(bits: u32, resolution: u8) -> (i32, usize, usize) {
    let mut e = encoder_for(1, 1, 0, 1, 64);
    e.channel[0].coded_count = 1;
    e.channel[0].resolutions[0] = resolution;
    e.channel[0].scaled_spectra[0] = [f32::from_bits(bits); 8];
    e.quantize_spectra();
    let mut w = BitWriter::new(64);
    e.write_spectra(&mut w, 0, 0);
    let estimated = spectral_bit_count(&e.channel[0], 0, resolution.into());
    (e.channel[0].quantized_spectra[0][0], estimated / 8, w.position())
}

#[test]
fn ten_rows() {
    assert_eq!([factor(0x342A_8D25), factor(0x342A_8D26)], [0, 1]);
    assert_eq!(factor(0x4135_04F3), 63);
    assert_eq!([208, 209, 212, 213].map(|n| calculate_resolution(63, n)), [3, 2, 2, 1]);
    assert_eq!([0, 1].map(|n| calculate_resolution(1, n)), [15, 14]);
    assert_eq!([width(&[5]), width(&[0, 0])], [(6, 9), (0, 3)]);
    assert_eq!([width(&[10, 10, 10]), width(&[10, 11, 10])], [(1, 11), (2, 13)]);
    assert_eq!([width(&[10, 20, 30]), width(&[0, 63])], [(5, 19), (6, 15)]);
    assert_eq!([1, 2, 3].map(|r| code(0x3F7F_FFFE, r).0), [1, 3, 3]);
    assert_eq!(code(0x3D04_2107, 8), (1, 4, 5));
    assert_eq!(code(0xBD04_2108, 8), (0, 5, 4));
}

#[test]
fn codes_past_the_range_take_no_bits() {
    assert_eq!([2, 4, 5].map(|r| code(0x3F7F_FFFE, r)), [(3, 0, 0), (5, 0, 0), (6, 0, 0)]);
    // and the code that the Rust holds at resolution 0
    assert_eq!(code(0x3F7F_FFFE, 0), (1, 0, 0));
}

#[test]
fn silent_channels_in_eight_bytes() {
    let five = StageCall::exact(&[0; 5], 1, 0, 1, 8);
    let mut out = five.lent();
    assert_eq!(stage(&five, &mut out).0, 0);
    assert_eq!(out.answer, [0, 0, 0, 47]);
    let six = StageCall::exact(&[0; 6], 1, 0, 1, 8);
    assert_eq!(run(&six).1, Err((5, 0)));
}

#[test]
fn the_last_group_reads_band_117() {
    for (band, heard) in [(116, true), (117, true), (118, false)] {
        let mut call = StageCall::exact(&[0], 100, 0, 117, 600);
        call.spectra[band] = 5.0;
        let (e, done, _) = run(&call);
        assert!(done.is_ok());
        assert_eq!((e.bands_per_hfr_group, e.hfr_group_count), (3, 6));
        assert_eq!(e.channel[0].hfr_scales[5] > 0, heard, "band {band}");
    }
}

#[test]
fn refusal_7_after_a_found_level() {
    let mut call = StageCall::exact(&[0], 1, 0, 1, 19);
    call.spectra[0] = f32::from_bits(0x342A_8D26);
    for s in 1..8 {
        call.spectra[s * 128] = f32::from_bits(0x2E63_4C94);
    }
    let (_, done, notes) = run(&call);
    assert_eq!(done, Err((7, 137)));
    assert_eq!(notes.level, 0);
    call.layout[4] = 20;
    let (_, done, notes) = run(&call);
    assert!(done.is_ok());
    assert_eq!(notes.needed, 137);
}

#[test]
fn the_check_is_the_bitwise_division() {
    let divide = |bytes: &[u8]| {
        let mut rest = 0u16;
        for byte in bytes {
            for k in (0..8).rev() {
                let out = (rest >> 15) ^ u16::from(byte >> k & 1);
                rest = (rest << 1) ^ if out == 1 { 0x8005 } else { 0 };
            }
        }
        rest
    };
    for i in 0..=255u8 {
        assert_eq!(CRC16_TABLE[usize::from(i)], divide(&[i]));
    }
    for n in 0..100 {
        let bytes: Vec<u8> = (0..n).map(|i| (i * 73 + n) as u8).collect();
        assert_eq!(crc16_checksum(&bytes), divide(&bytes));
    }
}
