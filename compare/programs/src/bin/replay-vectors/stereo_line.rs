//! Kinds 14 and 114: a whole line from unmixed spectra.
use super::{same, sum, Input, WORD};
use hca_frame::raw::encode_stereo_line;

pub fn replay(i: &mut Input, numbers: usize) -> bool {
    let (layout, kinds, count) = (i.words(numbers), i.bytes(), i.word() as usize);
    let mut spectra: Vec<f32> = i.runs().into_iter().map(f32::from_bits).collect();
    let mut intensities = i.bytes();
    let l = i.words(6);
    let mut tally = i.longs();
    let mut scaled = vec![f32::from_bits(WORD); l[0] as usize];
    let mut codes = vec![WORD as i32; l[1] as usize];
    let (mut factors, mut side, mut frames) = (vec![0x5A; l[2] as usize], vec![0x5A; l[3] as usize], vec![0x5A; l[4] as usize]);
    let mut answers = vec![WORD; l[5] as usize];
    let mut answer = [WORD; 4];
    let number = encode_stereo_line(
        &layout,
        &kinds,
        count,
        &mut spectra,
        &mut intensities,
        &mut scaled,
        &mut codes,
        &mut factors,
        &mut side,
        &mut frames,
        &mut answers,
        &mut tally,
        &mut answer,
    );
    let spectra = sum(spectra.iter().flat_map(|v| v.to_bits().to_le_bytes()));
    let scaled = sum(scaled.iter().flat_map(|v| v.to_bits().to_le_bytes()));
    let codes = sum(codes.iter().flat_map(|v| v.to_le_bytes()));
    let answers = sum(answers.iter().flat_map(|v| v.to_le_bytes()));
    let sums = [spectra, sum(intensities), scaled, codes, sum(factors), sum(side), sum(frames), answers];
    same(i, number, &answer, &sums) && i.longs() == tally
}
