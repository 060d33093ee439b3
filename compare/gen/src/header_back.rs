//! Calls of the header reader: written headers, changed ones, and lists of all corners.
use crate::header;
use crate::limits::pair;
use crate::rng::Rng;
use published::hca::decoder::crc16_checksum;
use published::header::{refused, write, HeaderCall};

/// A call of the header reader.
#[derive(Clone, Debug)]
pub struct BackCall {
    pub header: Vec<u8>,
    /// places of layout and of answer
    pub places: [usize; 2],
    /// what the two hold before the call
    pub pattern: u32,
    /// what the header was written from, where it was not changed since
    pub from: Option<HeaderCall>,
}

/// What a case is for; the share is out of 100 indices.
pub const KINDS: [(&str, u64); 7] = [
    ("written by the Rust", 25),
    ("one byte changed", 25),
    ("two faults", 20),
    ("loop numbers", 12),
    ("bands, pairs, channels", 8),
    ("short and long slices", 7),
    ("damaged, or any bytes", 3),
];

pub fn kind_of(index: u64) -> (usize, u64) {
    crate::share_of(&KINDS, index)
}

/// Of a header as it was written.
pub fn whole(header: Vec<u8>) -> BackCall {
    BackCall { header, places: [7, 8], pattern: 0x5A5A_5A5A, from: None }
}

/// The check over the first 94 bytes, mended.
pub fn mend(header: &mut [u8]) {
    let check = crc16_checksum(&header[..94]);
    header[94..96].copy_from_slice(&check.to_be_bytes());
}

/// Case `index` of a seed.
pub fn call(seed: u64, index: u64) -> BackCall {
    let r = &mut Rng::of_case(seed ^ 0x4EAD_BAC4, index);
    let (kind, nth) = kind_of(index);
    let from = written(seed, index);
    let mut bytes = vec![0; 96];
    write(&from, &mut bytes);
    let mut call = BackCall { pattern: r.word() as u32, ..whole(bytes) };
    match KINDS[kind].0 {
        "written by the Rust" => call.from = Some(from),
        "one byte changed" => {
            let at = r.below(94);
            call.header[at] = byte(r, call.header[at]);
            mend(&mut call.header);
        }
        "two faults" => {
            fault(r, &mut call.header, nth);
            fault(r, &mut call.header, nth / 4);
            mend(&mut call.header);
            if r.chance(0.1) {
                call.header[94 + r.below(2)] ^= 1 << r.below(8);
            }
        }
        "loop numbers" => set_loop(r, &mut call.header),
        "bands, pairs, channels" => set_numbers(r, &mut call.header, nth),
        "short and long slices" => spoil_lengths(r, &mut call, nth),
        _ if nth % 2 == 0 => call.header[r.below(96)] ^= 1 << r.below(8),
        _ => call.header.iter_mut().for_each(|b| *b = r.word() as u8),
    }
    if r.chance(0.2) {
        let more = r.below(600);
        call.header.extend((0..more).map(|_| 0xFF));
    }
    call
}

/// A call of the writer that delivers, under any pair.
fn written(seed: u64, index: u64) -> HeaderCall {
    let mut k = index;
    loop {
        let mut call = header::limited(seed, k);
        call.length = 96;
        if refused(&call).is_none() {
            return call;
        }
        k += 1_000_003;
    }
}

/// Near what was there, or at an end, or any.
fn byte(r: &mut Rng, old: u8) -> u8 {
    match r.below(4) {
        0 => old.wrapping_add(1),
        1 => old.wrapping_sub(1),
        2 => r.pick(&[0, 1, 0x7F, 0x80, 0xFF]),
        _ => r.word() as u8,
    }
}

/// Where the last two chunks begin.
fn tail_at(header: &[u8]) -> usize {
    if &header[40..44] == b"loop" {
        56
    } else {
        40
    }
}

/// One fault of a name, of a field or of what is 0.
fn fault(r: &mut Rng, header: &mut [u8], nth: u64) {
    let p = tail_at(header);
    let at = match nth % 4 {
        0 => r.pick(&[0, 3, 4, 5, 8, 11, 24, 27, p, p + 3, p + 6, p + 9]),
        1 => r.pick(&[6, 7, 12, 13, 20, 21, 28, 30, 31, 32, 33]),
        2 => r.pick(&[34, 35, 36, 37, p + 4, p + 5]),
        _ => r.pick(&[38, 39, p + 10, 92, 93]),
    };
    header[at] = byte(r, header[at]);
}

pub const FRAMES: [u32; 6] = [0, 1, 4_194_302, 4_194_303, 4_194_304, u32::MAX];
pub const DELAYS: [u16; 5] = [0, 127, 128, 1023, 1024];
pub const PADDINGS: [u16; 6] = [0, 1, 896, 897, 1023, 1024];

/// The header with a loop of these four numbers, the check mended.
pub fn looped(header: &[u8], frame: u32, delay: u16, end: u32, padding: u16) -> Vec<u8> {
    let mut out = header[..96].to_vec();
    out[40..].fill(0);
    out[40..44].copy_from_slice(b"loop");
    out[44..48].copy_from_slice(&frame.to_be_bytes());
    out[48..52].copy_from_slice(&end.to_be_bytes());
    out[52..54].copy_from_slice(&delay.to_be_bytes());
    out[54..56].copy_from_slice(&padding.to_be_bytes());
    out[56..60].copy_from_slice(b"ciph");
    out[62..65].copy_from_slice(b"pad");
    mend(&mut out);
    out
}

fn set_loop(r: &mut Rng, header: &mut Vec<u8>) {
    let any = |r: &mut Rng| (r.word() as u32) >> r.below(32);
    let (frame, end) =
        (if r.chance(0.5) { r.pick(&FRAMES) } else { any(r) }, if r.chance(0.5) { r.pick(&FRAMES) } else { any(r) });
    let delay = if r.chance(0.5) { r.pick(&DELAYS) } else { (r.word() % 1100) as u16 };
    let padding = if r.chance(0.5) { r.pick(&PADDINGS) } else { (r.word() % 1100) as u16 };
    *header = looped(header, frame, delay, end, padding);
}

pub const BANDS: [u8; 6] = [0, 1, 127, 128, 129, 255];

fn set_numbers(r: &mut Rng, header: &mut [u8], nth: u64) {
    match nth % 3 {
        0 => {
            let band = |r: &mut Rng| if r.chance(0.5) { r.pick(&BANDS) } else { r.word() as u8 };
            (header[34], header[35], header[36]) = (band(r), band(r), band(r));
            // the bands per group that a sum of eight bits would have, or the right ones
            let rest = header[34].wrapping_sub(header[35]).wrapping_sub(header[36]);
            header[37] = (u32::from(rest) + 7).wrapping_div(8) as u8;
        }
        1 => (header[30], header[31]) = (r.below(18) as u8, r.below(18) as u8),
        _ => (header[12], header[33]) = (r.below(12) as u8, r.below(9) as u8),
    }
    mend(header);
}

fn spoil_lengths(r: &mut Rng, call: &mut BackCall, nth: u64) {
    match nth % 4 {
        0 => call.header.truncate(r.pick(&[0, 1, 54, 93, 94, 95])),
        1 => call.places[0] = r.pick(&[0, 1, 6, 8, 9, 20]),
        2 => call.places[1] = r.pick(&[0, 1, 4, 7, 9, 16]),
        _ => call.places = [r.below(10), r.below(11)],
    }
}

/// A written header under the pair of this number, with a loop or without.
pub fn under_pair(nth: u64, is_looped: bool) -> BackCall {
    let (minimum, maximum) = pair(nth);
    let from = HeaderCall {
        layout: vec![1 + (nth % 8) as u32, 20, 30, 100, 300, minimum, maximum],
        kinds: vec![0; 8],
        stream: vec![48_000, nth, 512],
        points: if is_looped { vec![nth, 5_000] } else { Vec::new() },
        length: 96,
        pattern: 0,
    };
    let mut bytes = vec![0; 96];
    write(&from, &mut bytes);
    BackCall { from: Some(from), ..whole(bytes) }
}

/// Twenty written headers, ten of them with a loop.
pub fn twenty() -> Vec<Vec<u8>> {
    let mut all = [Vec::new(), Vec::new()];
    for k in 0.. {
        let call = written(9, k);
        let sort = &mut all[usize::from(call.points.len() > 1)];
        if sort.len() < 10 {
            let mut bytes = vec![0; 96];
            write(&call, &mut bytes);
            sort.push(bytes);
        }
        if all.iter().all(|sort| sort.len() == 10) {
            break;
        }
    }
    all.concat()
}
