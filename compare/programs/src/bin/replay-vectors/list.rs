//! Kinds 6 to 9: the list's writer, reader, lookup and summary.
use super::{Input, WORD};
use compare::list::{list_lookup, list_read, list_summary, list_write};

fn counted(i: &mut Input) -> Vec<u32> {
    let n = i.word() as usize;
    i.words(n)
}

pub fn write(i: &mut Input) -> bool {
    let (frames, entries) = (i.word(), counted(i));
    let mut list = vec![0x5A; i.word() as usize];
    let number = list_write(frames, &entries, &mut list);
    (i.word(), i.bytes()) == (number, list)
}

pub fn read(i: &mut Input) -> bool {
    let list = i.bytes();
    let (mut entries, mut answer) = (vec![WORD; i.word() as usize], vec![WORD; 4]);
    let number = list_read(&list, &mut entries, &mut answer);
    (i.word(), i.words(4), counted(i)) == (number, answer, entries)
}

pub fn lookup(i: &mut Input) -> bool {
    let (list, frame) = (i.bytes(), i.word());
    let mut answer = vec![WORD; 4];
    let number = list_lookup(&list, frame, &mut answer);
    (i.word(), i.words(4)) == (number, answer)
}

pub fn summary(i: &mut Input) -> bool {
    let list = i.bytes();
    let mut answer = vec![0x5A5A_5A5A_5A5A_5A5A; 3];
    let number = list_summary(&list, &mut answer);
    (i.word(), i.longs()) == (number, answer)
}
