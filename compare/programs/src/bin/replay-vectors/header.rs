//! Kinds 5 and 105: the header writer.
use super::Input;
use compare::header::write_header;

pub fn replay(i: &mut Input, numbers: usize) -> bool {
    let (layout, kinds, stream, points) = (i.words(numbers), i.bytes(), i.longs(), i.longs());
    let mut header = vec![0x5A; i.word() as usize];
    let number = write_header(&layout, &kinds, &stream, &points, &mut header);
    (i.word(), i.bytes()) == (number, header)
}
