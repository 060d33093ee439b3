//! Kind 10: the WAV reader.
use super::{Input, WORD};
use compare::wav::read_wav;

pub fn replay(i: &mut Input) -> bool {
    let wav = i.bytes();
    let (mut samples, mut note, mut answer) =
        (vec![f32::from_bits(WORD); i.word() as usize], [f32::from_bits(WORD); 2], vec![WORD; 4]);
    let number = read_wav(&wav, &mut samples, &mut note, &mut answer);
    let bits = |v: &[f32]| v.iter().map(|x| x.to_bits()).collect::<Vec<_>>();
    let expected = (i.word(), i.words(4), i.words(2));
    let room = i.word() as usize;
    (expected, i.words(room)) == ((number, answer, bits(&note)), bits(&samples))
}
