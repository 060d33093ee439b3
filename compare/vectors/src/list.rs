//! Cases of the list: writer (kind 6), reader (7), lookup (8), summary (9), from the model.
use crate::{Body, File, BEFORE};
use gen::list::{bytes_of, calls, kind_of, Call, KINDS};
use std::collections::HashMap;

const WORD: u32 = u32::from_le_bytes([BEFORE; 4]);
const LONG: u64 = u64::from_le_bytes([BEFORE; 8]);

fn outcome<T: std::fmt::Debug>(number: u32, answer: T) -> String {
    match number {
        0 => format!("delivered {answer:?}"),
        n => format!("refusal {n}"),
    }
}

/// A list of words with its length before it.
fn counted(b: &mut Body, words: &[u32]) {
    b.word(words.len() as u32);
    b.words(words);
}

fn add_write(f: &mut File, name: &str, frames: u32, entries: &[u32], length: usize) -> u32 {
    let mut list = vec![BEFORE; length];
    let number = hca_model::list_write(frames, entries, &mut list);
    let mut b = Body(Vec::new());
    b.word(frames);
    counted(&mut b, entries);
    b.word(length as u32);
    b.word(number);
    b.bytes(&list);
    f.add_case(6, name, &outcome(number, frames), b);
    number
}

fn add_read(f: &mut File, name: &str, list: &[u8], length: usize) -> u32 {
    let (mut entries, mut answer) = (vec![WORD; length], [WORD; 4]);
    let number = hca_model::list_read(list, &mut entries, &mut answer);
    let mut b = Body(Vec::new());
    b.bytes(list);
    b.word(length as u32);
    b.word(number);
    b.words(&answer);
    counted(&mut b, &entries);
    f.add_case(7, name, &outcome(number, answer[0]), b);
    number
}

fn add_lookup(f: &mut File, name: &str, list: &[u8], frame: u32) -> u32 {
    let mut answer = [WORD; 4];
    let number = hca_model::list_lookup(list, frame, &mut answer);
    let mut b = Body(Vec::new());
    b.bytes(list);
    b.word(frame);
    b.word(number);
    b.words(&answer);
    f.add_case(8, name, &outcome(number, answer), b);
    number
}

fn add_summary(f: &mut File, name: &str, list: &[u8]) -> u32 {
    let mut answer = [LONG; 3];
    let number = hca_model::list_summary(list, &mut answer);
    let mut b = Body(Vec::new());
    b.bytes(list);
    b.word(number);
    b.longs(&answer);
    f.add_case(9, name, &outcome(number, answer), b);
    number
}

/// One list by all four calls.
fn add_all(f: &mut File, name: &str, entries: &[u32]) {
    let n = entries.len() / 4;
    let list = bytes_of(n as u32, entries);
    add_write(f, name, n as u32, entries, list.len());
    add_reads(f, name, &list);
}

fn add_reads(f: &mut File, name: &str, list: &[u8]) {
    let n = list.len().saturating_sub(9) / 8;
    add_read(f, name, list, 4 * n);
    for frame in [0, n as u32] {
        add_lookup(f, name, list, frame);
    }
    add_summary(f, name, list);
}

fn add(f: &mut File, name: &str, call: &Call) -> u32 {
    match call {
        Call::Write { frames, entries, list } => add_write(f, name, *frames, entries, *list),
        Call::Read { list, entries, .. } => add_read(f, name, list, *entries),
        Call::Lookup { list, frame, .. } => add_lookup(f, name, list, *frame),
        Call::Summary { list, .. } => add_summary(f, name, list),
    }
}

/// Whether the fixed places of the answer suffice, and the call is small.
fn is_plain(call: &Call) -> bool {
    match call {
        Call::Write { entries, list, .. } => entries.len() <= 40 && *list <= 100,
        Call::Read { list, entries, answer } => list.len() <= 100 && *entries <= 40 && *answer == 4,
        Call::Lookup { list, answer, .. } => list.len() <= 100 && *answer == 4,
        Call::Summary { list, answer } => list.len() <= 100 && *answer == 3,
    }
}

/// The request's example and corners, then two of every sort, call and outcome that compare-list knows.
pub fn file() -> File {
    let mut f = File::new();
    let example = [12, 40, 0, 1314, 254, 127, 63, u32::MAX, 511, 0, 7, 0];
    add_all(&mut f, "the example", &example);
    add_all(&mut f, "no frames", &[]);
    let mut list = bytes_of(3, &example);
    add_lookup(&mut f, "the example, its last frame", &list, 2);
    add_lookup(&mut f, "the example, the last number", &list, u32::MAX);
    add_reads(&mut f, "the example, a byte over", &[&list[..], &[0]].concat());
    add_reads(&mut f, "the example, a byte short", &list[..list.len() - 1]);
    list[4] = 2;
    add_reads(&mut f, "version 2 and a byte short", &list[..list.len() - 1]);
    add_reads(&mut f, "a count whose length wraps in 32 bits", &bytes_of(0x2000_0001, &example[..4]));
    for (name, at, value) in [("level 512", 8, 512), ("boundary 128", 5, 128), ("pairs 64", 2, 64)] {
        let mut entries = example;
        entries[at] = value;
        add_all(&mut f, name, &entries);
    }
    let mut seen = HashMap::new();
    for k in 0..600 {
        let kind = KINDS[kind_of(k).0].0;
        for call in calls(7, k).0.iter().filter(|c| is_plain(c)) {
            // tried on a file of its own first, for the outcome
            let number = add(&mut File::new(), kind, call);
            let n = seen.entry((kind, std::mem::discriminant(call), number)).or_insert(0);
            *n += 1;
            if *n <= 2 {
                add(&mut f, kind, call);
            }
        }
    }
    f
}
