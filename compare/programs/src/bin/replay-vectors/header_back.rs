//! Kind 13: the header reader.
use super::{Input, WORD};
use hca_frame::raw::read_header;

fn counted(i: &mut Input) -> Vec<u32> {
    let n = i.word() as usize;
    i.words(n)
}

pub fn replay(i: &mut Input) -> bool {
    let header = i.bytes();
    let (mut layout, mut answer) = (vec![WORD; i.word() as usize], vec![WORD; i.word() as usize]);
    let number = read_header(&header, &mut layout, &mut answer);
    (i.word(), counted(i), counted(i)) == (number, layout, answer)
}
