//! Calls of the list's writer, reader, lookup and summary.
use crate::rng::Rng;

/// A call, each slice that it writes by its length.
#[derive(Clone, Debug)]
pub enum Call {
    Write { frames: u32, entries: Vec<u32>, list: usize },
    Read { list: Vec<u8>, entries: usize, answer: usize },
    Lookup { list: Vec<u8>, frame: u32, answer: usize },
    Summary { list: Vec<u8>, answer: usize },
}

/// What a case is for; the share is out of 100 indices.
pub const KINDS: [(&str, u64); 8] = [
    ("whole lists", 24),
    ("a value at its limit or past it", 24),
    ("every byte damaged", 6),
    ("lengths off", 12),
    ("counts off", 12),
    ("marks and versions", 6),
    ("short and long slices", 12),
    ("any bytes", 4),
];

pub fn kind_of(index: u64) -> (usize, u64) {
    crate::share_of(&KINDS, index)
}

/// All calls of case `index` of a seed, and the pattern that written slices hold before them.
pub fn calls(seed: u64, index: u64) -> (Vec<Call>, u32) {
    let mut r = Rng::of_case(seed ^ 0x0715_7000, index);
    let (kind, nth) = kind_of(index);
    let r = &mut r;
    let n = frames(r);
    let entries = legal(r, n);
    let calls = match KINDS[kind].0 {
        "whole lists" => whole(r, n, &entries),
        "a value at its limit or past it" => moved(r, n, entries, nth),
        "every byte damaged" => damaged(r),
        "lengths off" => lengths(r, n, &entries),
        "counts off" => counts(r, n, &entries, nth),
        "marks and versions" => marks(r, n, &entries, nth),
        "short and long slices" => slices(r, n, entries, nth),
        _ => {
            let mut list = bytes_of(n, &entries);
            let from = r.pick(&[0, 3, 5, 9]);
            list.iter_mut().skip(from).for_each(|b| *b = r.word() as u8);
            reads(r, &list)
        }
    };
    (calls, r.word() as u32)
}

fn frames(r: &mut Rng) -> u32 {
    match r.below(4) {
        0 => r.range(0, 2) as u32,
        _ => r.range(0, 60) as u32,
    }
}

/// Legal entries, often at a limit.
pub fn legal(r: &mut Rng, frames: u32) -> Vec<u32> {
    let value = |r: &mut Rng, most: u32| match r.below(6) {
        0 => 0,
        1 => most,
        2 => most - 1,
        _ => (r.word() as u32) % most,
    };
    (0..frames).flat_map(|_| [value(r, 511), value(r, 127), value(r, 63), value(r, u32::MAX)]).collect()
}

/// A list's bytes by the format alone; values are cut to their fields.
pub fn bytes_of(count: u32, entries: &[u32]) -> Vec<u8> {
    let mut list = b"VFI\0\x01".to_vec();
    list.extend(count.to_be_bytes());
    for e in entries.chunks_exact(4) {
        list.extend((e[0] as u16).to_be_bytes());
        list.extend([e[1] as u8, e[2] as u8]);
        list.extend(e[3].to_be_bytes());
    }
    list
}

fn exact_write(frames: u32, entries: &[u32]) -> Call {
    Call::Write { frames, entries: entries.to_vec(), list: 9 + entries.len() * 2 }
}

/// Reader, lookups at both ends and past them, and summary of some bytes, with room for what they hold.
fn reads(r: &mut Rng, list: &[u8]) -> Vec<Call> {
    let whole = list.len().saturating_sub(9) / 8;
    let n = whole as u32;
    let mut calls =
        vec![Call::Read { list: list.to_vec(), entries: 4 * whole, answer: 4 }, Call::Summary { list: list.to_vec(), answer: 3 }];
    let mut at = vec![0, n, u32::MAX, n.saturating_sub(1)];
    at.push(r.below(whole.max(1)) as u32);
    calls.extend(at.into_iter().map(|frame| Call::Lookup { list: list.to_vec(), frame, answer: 4 }));
    calls
}

fn whole(r: &mut Rng, n: u32, entries: &[u32]) -> Vec<Call> {
    let mut calls = vec![exact_write(n, entries)];
    calls.extend(reads(r, &bytes_of(n, entries)));
    calls
}

/// One value of one entry: its limit, one past it, and numbers that a narrower field would cut to legal ones.
fn moved(r: &mut Rng, n: u32, mut entries: Vec<u32>, nth: u64) -> Vec<Call> {
    if n == 0 {
        return whole(r, n, &entries);
    }
    let limits = [511, 127, 63, u32::MAX];
    let field = (nth % 4) as usize;
    let most = limits[field];
    let entry = if r.chance(0.3) { r.pick(&[0, n as usize - 1]) } else { r.below(n as usize) };
    let past = most.saturating_add(1);
    let value = r.pick(&[most, past, past, u32::MAX, 255, 256, 65_535, 65_536, 0x8000_0000, 1 << 9, 1 << 24]);
    entries[4 * entry + field] = value;
    let mut calls = whole(r, n, &entries);
    calls.push(Call::Lookup { list: bytes_of(n, &entries), frame: entry as u32, answer: 4 });
    calls
}

/// Every byte of a small list set to 0, 1 and 255, and with a bit of it turned.
fn damaged(r: &mut Rng) -> Vec<Call> {
    let n = r.below(5) as u32;
    let good = bytes_of(n, &legal(r, n));
    let mut calls = Vec::new();
    for at in 0..good.len() {
        for value in [0, 1, 255, good[at] ^ 1 << r.below(8)] {
            let mut list = good.clone();
            list[at] = value;
            calls.extend(reads(r, &list));
        }
    }
    calls
}

/// Bytes missing or over: one, eight, more, all.
fn lengths(r: &mut Rng, n: u32, entries: &[u32]) -> Vec<Call> {
    let good = bytes_of(n, entries);
    let mut calls = Vec::new();
    let ends = [good.len() - 1, good.len() - 8, good.len() + 1, good.len() + 8, good.len() + 7, r.below(good.len()), 8, 0];
    for end in ends {
        let mut list = good.clone();
        list.resize(end, r.pick(&[0, 1, 255]));
        calls.extend(reads(r, &list));
    }
    calls
}

/// Counts other than the frames that follow, those among them whose length would wrap in 32 bits.
fn counts(r: &mut Rng, n: u32, entries: &[u32], nth: u64) -> Vec<Call> {
    let wrapping = 0x2000_0000 + n;
    let all = [0, n.wrapping_sub(1), n + 1, 0x1FFF_FFFF, 0x2000_0001, 0xFFFF_FFFF, wrapping, 0x8000_0000 + n, 0xE000_0000 + n];
    let count = all[(nth % 9) as usize];
    let mut calls = reads(r, &bytes_of(count, entries));
    // the writer with room for n frames only, and entries for n
    calls.push(Call::Write { frames: count, entries: entries.to_vec(), list: 9 + 8 * n as usize });
    calls
}

/// Another mark or version, also where the length is wrong: that is judged later.
fn marks(r: &mut Rng, n: u32, entries: &[u32], nth: u64) -> Vec<Call> {
    let mut list = bytes_of(n, entries);
    match nth % 6 {
        0 => list[0] = b'v',
        1 => list[2] = b'J',
        2 => list[4] = 2,
        3 => list[3] = 1,
        4 => (list[3], list[4]) = (1, 0),
        _ => list[4] = 0,
    }
    if r.chance(0.5) {
        list.push(0);
    }
    reads(r, &list)
}

/// Each slice a place short, empty or longer, alone and together with an entry past its limit.
fn slices(r: &mut Rng, n: u32, mut entries: Vec<u32>, nth: u64) -> Vec<Call> {
    if n > 0 && r.chance(0.4) {
        let at = r.below(n as usize);
        entries[4 * at] = 512;
    }
    let good = bytes_of(n, &entries);
    let (room, size) = (entries.len(), good.len());
    let off = |r: &mut Rng, need: usize| match r.below(5) {
        0 | 1 => need.saturating_sub(1),
        2 => 0,
        3 => need + 1,
        _ => need + r.below(20),
    };
    let mut longer = entries.clone();
    longer.extend([512, 128, 64, 0]);
    let few = off(r, room).min(room);
    let frame = r.below(n as usize + 2) as u32;
    match nth % 5 {
        0 => vec![Call::Write { frames: n, entries: longer, list: size }, Call::Write { frames: n, entries, list: off(r, size) }],
        1 => vec![Call::Write { frames: n, entries: entries[..few].to_vec(), list: off(r, size) }],
        2 => vec![
            Call::Read { list: good.clone(), entries: off(r, room), answer: 4 },
            Call::Read { list: good, entries: room, answer: r.pick(&[0, 1, 3, 5, 9]) },
        ],
        3 => vec![Call::Lookup { list: good, frame, answer: r.pick(&[0, 1, 2, 3, 3, 5, 8]) }],
        _ => vec![Call::Summary { list: good, answer: r.pick(&[0, 1, 2, 2, 4, 7]) }],
    }
}
