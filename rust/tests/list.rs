//! The list beside the bank.
use hca_frame::{list_entry, list_summary, raw, read_list, write_list, Delivered, Refusal, RefusalKind};

fn frame(level: u32, boundary: u32, pairs: u32, bits: u32) -> Delivered {
    Delivered::from([level, boundary, pairs, bits])
}

fn line() -> [Delivered; 3] {
    [frame(12, 40, 0, 1314), frame(254, 127, 63, u32::MAX), frame(511, 0, 7, 0)]
}

fn hex(bytes: &[u8]) -> String {
    bytes.iter().map(|byte| format!("{byte:02x}")).collect()
}

fn summed(list: &[u8]) -> (u32, u32, u64) {
    let all = list_summary(list).unwrap();
    (all.level, all.pairs, all.bits)
}

fn assert_refused<T: std::fmt::Debug>(result: Result<T, Refusal>, number: u32, kind: RefusalKind) {
    let refusal = result.unwrap_err();
    assert_eq!((refusal, refusal.kind()), (Refusal::new(number, 0), kind));
    assert!(refusal.to_string().starts_with(&format!("refusal {number}: ")));
}

#[test]
fn a_list_of_three_frames() {
    let list = write_list(&line()).unwrap();
    assert_eq!(hex(&list), "564649000100000003000c28000000052200fe7f3fffffffff01ff000700000000");
    assert_eq!(read_list(&list).unwrap(), line());
    for (i, entry) in (0..).zip(line()) {
        assert_eq!(list_entry(&list, i), Ok(entry));
    }
    assert_eq!(summed(&list), (511, 63, 4_294_968_609));
    assert_refused(list_entry(&list, 3), 31, RefusalKind::NoFrame);
    assert_refused(list_entry(&list, u32::MAX), 31, RefusalKind::NoFrame);
}

#[test]
fn a_list_of_no_frames() {
    let list = write_list(&[]).unwrap();
    assert_eq!(hex(&list), "564649000100000000");
    assert_eq!(read_list(&list), Ok(vec![]));
    assert_eq!(summed(&list), (0, 0, 0));
    assert_refused(list_entry(&list, 0), 31, RefusalKind::NoFrame);
}

#[test]
fn each_value_one_past_its_limit() {
    for bad in [frame(512, 0, 0, 0), frame(0, 128, 0, 0), frame(0, 0, 64, 0), frame(u32::MAX, 0, 0, 0)] {
        assert_refused(write_list(&[line()[0], bad]), 21, RefusalKind::BadEntry);
    }
    let mut list = write_list(&line()).unwrap();
    list[25] = 2; // level 512 in the last entry
    list[26] = 0;
    assert_refused(list_entry(&list, 0), 21, RefusalKind::BadEntry);
    assert_refused(list_entry(&list, 3), 21, RefusalKind::BadEntry);
    assert_refused(list_summary(&list), 21, RefusalKind::BadEntry);
    assert_refused(read_list(&list), 21, RefusalKind::BadEntry);
}

#[test]
fn mark_and_length() {
    let list = write_list(&line()).unwrap();
    for (i, byte) in [(0, b'v'), (2, 0), (3, 1), (4, 2), (4, 0)] {
        let mut other = list.clone();
        other[i] = byte;
        assert_refused(read_list(&other), 19, RefusalKind::BadListMark);
        other.push(0);
        assert_refused(list_summary(&other), 19, RefusalKind::BadListMark);
    }
    assert_refused(list_summary(&list[..8]), 19, RefusalKind::BadListMark);
    assert_refused(list_summary(&[]), 19, RefusalKind::BadListMark);
    assert_refused(list_summary(&list[..9]), 20, RefusalKind::BadListLength);
    assert_refused(list_entry(&list[..32], 0), 20, RefusalKind::BadListLength);
    let longer: Vec<u8> = list.iter().copied().chain([0]).collect();
    assert_refused(read_list(&longer), 20, RefusalKind::BadListLength);
    // eight times this count is 8 in 32 bits
    let mut wrapped = write_list(&line()[..1]).unwrap();
    wrapped[5..9].copy_from_slice(&0x2000_0001_u32.to_be_bytes());
    assert_refused(read_list(&wrapped), 20, RefusalKind::BadListLength);
}

#[test]
fn short_buffers_and_longer_ones() {
    let entries = [12, 40, 0, 1314, 9999];
    let mut bytes = [7; 20];
    assert_eq!(raw::list_write(1, &entries[..3], &mut bytes), 2);
    assert_eq!(raw::list_write(1, &entries, &mut bytes[..16]), 2);
    assert_eq!(bytes, [7; 20]);
    assert_eq!(raw::list_write(1, &entries, &mut bytes), 0);
    assert_eq!(hex(&bytes), "564649000100000001000c280000000522070707");

    let (mut numbers, mut answer) = ([5; 6], [9; 5]);
    assert_eq!(raw::list_read(&bytes[..17], &mut numbers, &mut answer[..3]), 2);
    assert_eq!(raw::list_read(&bytes[..8], &mut numbers, &mut answer[..3]), 2);
    assert_eq!(answer, [9; 5]);
    assert_eq!(raw::list_read(&bytes[..17], &mut numbers[..3], &mut answer), 2);
    assert_eq!((numbers, answer), ([5; 6], [0, 9, 9, 9, 9]));
    assert_eq!(raw::list_read(&bytes[..17], &mut numbers, &mut answer), 0);
    assert_eq!((numbers, answer), ([12, 40, 0, 1314, 5, 5], [1, 9, 9, 9, 9]));
    assert_eq!(raw::list_lookup(&bytes[..17], 0, &mut answer), 0);
    assert_eq!(answer, [12, 40, 0, 1314, 9]);
    assert_eq!(raw::list_lookup(&bytes[..17], 1, &mut answer), 31);
    assert_eq!(answer, [0, 40, 0, 1314, 9]);

    let mut sums = [9; 4];
    assert_eq!(raw::list_summary(&[], &mut sums[..2]), 2);
    assert_eq!(raw::list_summary(&bytes[..17], &mut sums), 0);
    assert_eq!(sums, [12, 0, 1314, 9]);
    assert_eq!(raw::list_summary(&[], &mut sums), 19);
    assert_eq!(sums, [0, 0, 1314, 9]);
}

#[test]
fn a_bad_entry_waits_for_room() {
    let mut list = write_list(&line()).unwrap();
    list[11] = 128; // a boundary
    let (mut numbers, mut answer) = ([0; 12], [0; 4]);
    assert_eq!(raw::list_read(&list, &mut numbers[..11], &mut answer), 2);
    assert_eq!(raw::list_read(&list, &mut numbers, &mut answer), 21);
    assert_eq!(numbers, [0; 12]);
}
