//! The stereo stage, from unmixed spectra on.
use hca_frame::{Encoder, Kind, Layout, Refusal, RefusalKind};
use Kind::{Discrete, StereoPrimary as P, StereoSecondary as S};

// Bands 1 and 2 of three are mixed, one of them coded.
fn layout(kinds: &[Kind]) -> Layout {
    Layout::builder().channels(kinds).bands(1, 1, 3).frame_size(400).build().unwrap()
}

fn bits(values: &[f32]) -> Vec<u32> {
    values.iter().map(|x| x.to_bits()).collect()
}

#[test]
fn the_worked_rows() {
    let half = 0x3F000000;
    // left's bands 1 and 2, right's, the value, the ratio
    for (x, y, value, ratio) in [
        ([1.0, -0.25], [0.25, 0.25], 4, 0x3F333333), // energies 1.25, 0.5, 2.5
        ([3.0, 0.0], [1.0, 0.0], 4, half),           // 3, 1, 8: what is stored is bound 3
        ([1.0, 0.0], [-0.75, 0.25], 7, 0x3F3504F3),  // 1, 1, 1
        ([1.0, 0.0], [-1.0, 0.0], 7, 0x3F800000),    // 1, 1, 0
        ([1.0, 0.0], [0.0, 0.0], 1, half),           // 1, 0, 2
        ([0.0, 0.0], [1.0, 0.0], 13, half),          // 0, 1, 2
        ([0.0, -0.0], [0.0, -0.0], 0, 0x3F800000),   // a silent pair
    ] {
        let (mut spectra, mut intensities) = ([0.0f32; 2048], [9; 16]);
        spectra[1..3].copy_from_slice(&x);
        spectra[1025..1027].copy_from_slice(&y);
        Encoder::new(layout(&[P, S])).encode_stereo_frame(&mut spectra, &mut intensities).unwrap();
        let ratio = f32::from_bits(ratio);
        assert_eq!(bits(&spectra[1..3]), bits(&[(x[0] + y[0]) * ratio, (x[1] + y[1]) * ratio]), "{x:?} {y:?}");
        assert_eq!(bits(&spectra[1025..1027]), [0, 0]);
        assert_eq!((intensities[0], intensities[8], intensities[9]), (9, value, 0), "{x:?} {y:?}");
    }
}

#[test]
fn a_primary_after_a_primary() {
    let (mut spectra, mut intensities) = ([0.0f32; 3072], [9; 24]);
    for (channel, values) in [[1.0, 2.0], [3.0, -1.0], [0.5, 0.25]].iter().enumerate() {
        spectra[channel * 1024 + 1..channel * 1024 + 3].copy_from_slice(values);
        spectra[channel * 1024 + 3] = 7.0; // from total on nothing is mixed
    }
    Encoder::new(layout(&[P, P, S])).encode_stereo_frame(&mut spectra, &mut intensities).unwrap();
    assert_eq!(bits(&spectra[1..3]), [0x40333333, 0x3F333333]);
    assert_eq!(bits(&spectra[1025..1027]), [0x3E800000, 0x3E000000]);
    assert_eq!(bits(&spectra[2049..2051]), [0, 0]);
    assert_eq!([spectra[3], spectra[1027], spectra[2051]], [7.0; 3]);
    assert_eq!(intensities[..8], [9; 8]);
    assert_eq!((intensities[8], intensities[16]), (8, 13));
}

#[test]
fn a_stereo_frame_is_the_frame_of_what_is_mixed() {
    let l = Layout::builder().channels(&[P, S, Discrete, P]).bands(20, 30, 90).frame_size(400).build().unwrap();
    let mut spectra: Vec<f32> = (0..4096).map(|i| ((i * 37 % 101) as f32 - 50.0) / (8 + 8 * (i % 128)) as f32).collect();
    let mut intensities = [3; 32];
    let (lent, mut e) = (spectra.clone(), Encoder::new(l.clone()));
    let done = e.encode_stereo_frame(&mut spectra, &mut intensities).unwrap();
    let mut again = Encoder::new(l);
    assert_eq!(again.encode_frame(&spectra, &intensities), Ok(done));
    assert_eq!(again.frame(), e.frame());
    assert_ne!(spectra[..2048], lent[..2048]);
    assert_eq!(bits(&spectra[2048..]), bits(&lent[2048..])); // the last primary has no channel after it
    assert_eq!((&intensities[..8], &intensities[16..]), (&[3; 8][..], &[3; 16][..]));
}

#[test]
fn a_magnitude_above_65536_is_refusal_17() {
    let mut e = Encoder::new(layout(&[P, S]));
    for sign in [1.0, -1.0] {
        let (mut spectra, mut intensities) = ([0.0f32; 2048], [9; 16]);
        spectra[2047] = sign * 65_536.0; // outside the bands, and at the limit
        e.encode_stereo_frame(&mut spectra, &mut intensities).unwrap();
        intensities[8] = 9;
        spectra[2047] = sign * f32::from_bits(0x47800001);
        let no = e.encode_stereo_frame(&mut spectra, &mut intensities).unwrap_err();
        assert_eq!(no, Refusal::new(Refusal::TOO_LOUD, 0));
        assert_eq!(no.kind(), RefusalKind::TooLoud);
        assert_eq!(no.to_string(), "refusal 17: a spectrum's magnitude is above 65,536");
        assert_eq!(intensities[8], 9);
        spectra[2000] = f32::NAN; // 4 is judged before
        let no = e.encode_stereo_frame(&mut spectra, &mut intensities).unwrap_err();
        assert_eq!(no, Refusal::new(4, 2000));
        intensities[10] = 16; // and 3 before that, on what is lent
        let no = e.encode_stereo_frame(&mut spectra, &mut intensities).unwrap_err();
        assert_eq!(no, Refusal::new(3, 10));
    }
}

#[test]
fn after_refusal_5_spectra_stay_as_mixed() {
    let l = Layout::builder().channels(&[P, S]).bands(1, 1, 3).frame_size(8).build().unwrap();
    let (mut spectra, mut intensities) = ([1.0f32; 2048], [0; 16]);
    let mut e = Encoder::new(l);
    let no = e.encode_stereo_frame(&mut spectra, &mut intensities).unwrap_err();
    assert_eq!(no.number, Refusal::NO_LEVEL);
    assert_eq!((spectra[0], spectra[1], spectra[1025], spectra[3]), (1.0, 1.0, 0.0, 1.0)); // (1 + 1) x 0.5
    assert_eq!(intensities[8..], [7; 8]);
    assert!(e.frame().iter().all(|&b| b == 0));
}
