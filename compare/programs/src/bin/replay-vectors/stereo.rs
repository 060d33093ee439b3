//! Kinds 11 and 111: the stereo stage.
use super::{same, sum, Input, WORD};
use hca_frame::raw::encode_stereo_frame;

pub fn replay(i: &mut Input, numbers: usize) -> bool {
    let (layout, kinds) = (i.words(numbers), i.bytes());
    let mut spectra: Vec<f32> = i.runs().into_iter().map(f32::from_bits).collect();
    let mut intensities = i.bytes();
    let l = i.words(5);
    let mut scaled = vec![f32::from_bits(WORD); l[0] as usize];
    let mut codes = vec![WORD as i32; l[1] as usize];
    let (mut factors, mut side, mut frame) = (vec![0x5A; l[2] as usize], vec![0x5A; l[3] as usize], vec![0x5A; l[4] as usize]);
    let mut answer = [WORD; 4];
    let number = encode_stereo_frame(
        &layout,
        &kinds,
        &mut spectra,
        &mut intensities,
        &mut scaled,
        &mut codes,
        &mut factors,
        &mut side,
        &mut frame,
        &mut answer,
    );
    let floats = |v: &[f32]| sum(v.iter().flat_map(|v| v.to_bits().to_le_bytes()));
    let codes = sum(codes.iter().flat_map(|v| v.to_le_bytes()));
    let sums = [floats(&spectra), sum(intensities), floats(&scaled), codes, sum(factors), sum(side), sum(frame)];
    same(i, number, &answer, &sums)
}
