//! Files for the WAV reader.
use crate::rng::Rng;
use published::wav::WavCall;

/// What a case is for; the share is out of 100 indices.
pub const KINDS: [(&str, u64); 10] = [
    ("plain files", 16),
    ("chunks in any order", 20),
    ("cut anywhere", 16),
    ("sizes off", 14),
    ("every depth", 12),
    ("floats of all sorts", 8),
    ("short and long slices", 6),
    ("marks and short files", 2),
    ("bytes changed", 4),
    ("odd chunks at the end", 2),
];

pub fn kind_of(index: u64) -> (usize, u64) {
    crate::share_of(&KINDS, index)
}

/// A file and where its sizes stand.
pub struct File {
    pub bytes: Vec<u8>,
    sizes: Vec<usize>,
}

/// Case `index` of a seed.
pub fn call(seed: u64, index: u64) -> WavCall {
    let mut r = Rng::of_case(seed ^ 0x00AA_7E00, index);
    let (kind, nth) = kind_of(index);
    let r = &mut r;
    let depth = r.pick(&[16, 24, 32]);
    let wav = match KINDS[kind].0 {
        "plain files" => plain(r, depth).bytes,
        "chunks in any order" => any_order(r).bytes,
        "cut anywhere" => cut(r),
        "sizes off" => resized(r, nth),
        "every depth" => of_depth(r, nth),
        "floats of all sorts" => floats(r, nth),
        "short and long slices" => any_file(r).bytes,
        "marks and short files" => marked(r, nth),
        "bytes changed" => changed(r),
        _ => odd_end(r),
    };
    let room = wav.len() / 2;
    let mut call = WavCall { wav, lengths: [room, 2, 4], pattern: r.word() as u32 };
    if KINDS[kind].0 == "short and long slices" {
        slices(r, &mut call, nth);
    } else if r.chance(0.1) {
        call.lengths = [room + r.below(9), 2 + r.below(3), 4 + r.below(3)];
    }
    call
}

// ---------------------------------------------------------------- files
impl File {
    fn new() -> Self {
        File { bytes: b"RIFF\0\0\0\0WAVE".to_vec(), sizes: vec![4] }
    }

    fn chunk(&mut self, id: &[u8; 4], body: &[u8]) {
        self.bytes.extend(id);
        self.sizes.push(self.bytes.len());
        self.bytes.extend((body.len() as u32).to_le_bytes());
        self.bytes.extend(body);
        self.bytes.resize(self.bytes.len() + body.len() % 2, 0xEE);
    }

    /// The size of the RIFF chunk, which nobody looks at: right, or anything.
    fn close(mut self, r: &mut Rng) -> Self {
        let size = if r.chance(0.5) { self.bytes.len() as u32 - 8 } else { r.word() as u32 };
        self.bytes[4..8].copy_from_slice(&size.to_le_bytes());
        self
    }
}

fn any_bytes(r: &mut Rng, n: usize) -> Vec<u8> {
    (0..n).map(|_| r.word() as u8).collect()
}

/// A fmt chunk's body: 16 bytes, and what may follow them.
fn format(r: &mut Rng, depth: u16) -> Vec<u8> {
    let channels: u16 = r.pick(&[1, 1, 2, 2, 6, 0, 65_535]);
    let rate: u32 = r.pick(&[8_000, 22_050, 44_100, 48_000, 0, u32::MAX]);
    let tag: u16 = r.pick(&[1, 1, 3, 0xFFFE, 7]); // not looked at
    let mut body = Vec::new();
    body.extend(tag.to_le_bytes());
    body.extend(channels.to_le_bytes());
    body.extend(rate.to_le_bytes());
    body.extend(any_bytes(r, 6));
    body.extend(depth.to_le_bytes());
    let more = r.pick(&[0, 0, 0, 1, 2, 24]);
    body.extend(any_bytes(r, more));
    body
}

/// Samples of a depth: whole ones, and now and then some bytes over.
fn samples(r: &mut Rng, depth: u16, count: usize) -> Vec<u8> {
    let mut bytes = Vec::new();
    for _ in 0..count {
        match depth {
            32 => bytes.extend(finite(r).to_le_bytes()),
            24 => bytes.extend(&integer(r, 24).to_le_bytes()[..3]),
            _ => bytes.extend(&integer(r, 16).to_le_bytes()[..2]),
        }
    }
    if r.chance(0.3) {
        let more = r.below(4);
        bytes.extend(any_bytes(r, more));
    }
    bytes
}

/// A signed number of so many bits, often at an end.
fn integer(r: &mut Rng, bits: u32) -> i32 {
    let most = (1 << (bits - 1)) - 1;
    match r.below(6) {
        0 => r.pick(&[0, 1, -1, most, -most, -most - 1]),
        1 => r.range(-300, 300) as i32,
        _ => r.range(-i64::from(most) - 1, most.into()) as i32,
    }
}

/// Bits of a finite float: of speech, of any size, both zeros, subnormals, the largest.
fn finite(r: &mut Rng) -> u32 {
    let sign = (r.below(2) as u32) << 31;
    let magnitude = match r.below(12) {
        0 => r.pick(&[0, 1, 0x007F_FFFF, 0x0080_0000, 0x3F80_0000, 0x4B80_0000, 0x7F7F_FFFF]),
        1 => r.word() as u32 % 0x0080_0000,
        2 | 3 => r.word() as u32 % 0x7F80_0000,
        _ => (r.unit() as f32).to_bits(),
    };
    sign | magnitude
}

fn count(r: &mut Rng) -> usize {
    match r.below(8) {
        0 => r.below(3),
        1 => r.below(600),
        _ => r.below(40),
    }
}

fn plain(r: &mut Rng, depth: u16) -> File {
    let mut f = File::new();
    if r.chance(0.9) {
        let body = format(r, depth);
        f.chunk(b"fmt ", &body);
    }
    let n = count(r);
    let body = samples(r, depth, n);
    f.chunk(b"data", &body);
    f.close(r)
}

fn other(r: &mut Rng, f: &mut File) {
    let id = r.pick(&[b"LIST", b"fact", b"JUNK", b"DATA", b"fmt\0", b"Fmt ", b"dat ", b"\0\0\0\0"]);
    let size = if r.chance(0.8) { r.below(16) } else { r.below(60) };
    let body = any_bytes(r, size);
    f.chunk(id, &body);
}

/// One to seven chunks: formats whole and short, samples, others; nothing has to be there.
fn any_order(r: &mut Rng) -> File {
    let mut f = File::new();
    for _ in 0..r.range(1, 7) {
        let depth = r.pick(&[16, 16, 24, 24, 32, 32, 8]);
        match r.below(10) {
            0..=2 => {
                let body = format(r, depth);
                f.chunk(b"fmt ", &body);
            }
            3 => {
                let short = r.below(16);
                let body = format(r, depth);
                f.chunk(b"fmt ", &body[..short]);
            }
            4 | 5 => {
                let n = if r.chance(0.15) { 0 } else { count(r) };
                let body = samples(r, depth, n);
                f.chunk(b"data", &body);
            }
            _ => other(r, &mut f),
        }
    }
    f.close(r)
}

fn any_file(r: &mut Rng) -> File {
    let depth = r.pick(&[16, 24, 32]);
    if r.chance(0.5) {
        plain(r, depth)
    } else {
        any_order(r)
    }
}

/// Anywhere, and as often near a chunk's head or the fields of its format.
fn cut(r: &mut Rng) -> Vec<u8> {
    let f = any_file(r);
    let mut wav = f.bytes;
    let end = if r.chance(0.5) { r.below(wav.len() + 1) } else { r.pick(&f.sizes) + r.below(26) };
    wav.truncate(end.max(if r.chance(0.7) { 44 } else { 0 }));
    wav
}

/// One size field moved: by one or two, to the file's end and around it, to nothing, as far as it goes.
fn resized(r: &mut Rng, nth: u64) -> Vec<u8> {
    let f = any_file(r);
    let mut wav = f.bytes;
    let at = r.pick(&f.sizes);
    let old = u32::from_le_bytes([wav[at], wav[at + 1], wav[at + 2], wav[at + 3]]);
    let rest = (wav.len() - at - 4) as u32;
    let new = match nth % 13 {
        0 => old.wrapping_add(1),
        1 => old.wrapping_sub(1),
        2 => old.wrapping_add(2),
        3 => old.wrapping_sub(2),
        4 => 0,
        5 => u32::MAX,
        6 => u32::MAX - 1,
        7 => rest,
        8 => rest + 1,
        9 => rest.saturating_sub(1),
        10 => 0x8000_0000,
        11 => 0u32.wrapping_sub(at as u32 + 4), // the next chunk's place would wrap in 32 bits
        _ => r.below(wav.len() + 20) as u32,
    };
    wav[at..at + 4].copy_from_slice(&new.to_le_bytes());
    wav
}

/// Depths 0 to 40, 64, and some that only look like legal ones.
fn of_depth(r: &mut Rng, nth: u64) -> Vec<u8> {
    let depth = match nth % 46 {
        d @ 0..=40 => d as u16,
        41 => 64,
        42 => 0x1010,
        43 => 65_535,
        44 => 256 + 16,
        _ => 128,
    };
    let mut f = File::new();
    let body = format(r, depth);
    f.chunk(b"fmt ", &body);
    let n = if r.chance(0.3) { r.below(8) } else { r.range(1, 60) as usize };
    let body = any_bytes(r, n);
    f.chunk(b"data", &body);
    f.close(r).bytes
}

/// 32-bit files: NaN and infinity at one place or none, or bits of any kind.
fn floats(r: &mut Rng, nth: u64) -> Vec<u8> {
    let mut f = File::new();
    let body = format(r, 32);
    f.chunk(b"fmt ", &body);
    let n = 1 + count(r);
    let mut body = samples(r, 32, n);
    let bad: [u32; 7] = [0x7F80_0000, 0xFF80_0000, 0x7F80_0001, 0x7FC0_0000, 0xFFFF_FFFF, 0x7F7F_FFFF, 0xFF7F_FFFF];
    match nth % 4 {
        0 => body = any_bytes(r, 4 * n),
        1 => {
            let at = 4 * if r.chance(0.5) { r.pick(&[0, n - 1]) } else { r.below(n) };
            body[at..at + 4].copy_from_slice(&r.pick(&bad).to_le_bytes());
        }
        2 => {
            body.truncate(4 * n);
            body.extend(&0x7F80_0000_u32.to_le_bytes()[1..]); // most of an infinity at the end is no sample
        }
        _ => body = (0..n).flat_map(|_| r.pick(&[0x7F7F_FFFF_u32, 0xFF7F_FFFF]).to_le_bytes()).collect(),
    }
    f.chunk(b"data", &body);
    f.close(r).bytes
}

fn marked(r: &mut Rng, nth: u64) -> Vec<u8> {
    let mut wav = any_file(r).bytes;
    match nth % 5 {
        0 => wav[r.below(4)] ^= 1 << r.below(8),
        1 => wav[8 + r.below(4)] ^= 1 << r.below(8),
        2 => wav.truncate(r.below(45)),
        3 => wav.resize(43, 0),
        _ => wav.resize(44, 0),
    }
    wav
}

fn changed(r: &mut Rng) -> Vec<u8> {
    let mut wav = any_file(r).bytes;
    for _ in 0..r.range(1, 12) {
        let at = if r.chance(0.5) { r.below(wav.len().min(60)) } else { r.below(wav.len()) };
        wav[at] = if r.chance(0.5) { r.pick(&[0, 1, 255, b'd', b'f']) } else { r.word() as u8 };
    }
    wav[..4].copy_from_slice(b"RIFF");
    wav[8..12].copy_from_slice(b"WAVE");
    wav
}

/// Chunks up to the end and no data; the last is odd, and its byte is there or not.
fn odd_end(r: &mut Rng) -> Vec<u8> {
    let mut f = File::new();
    let body = format(r, 16);
    f.chunk(b"fmt ", &body);
    let size = 2 * r.below(20) + 1;
    let body = any_bytes(r, size);
    f.chunk(b"LIST", &body);
    let mut wav = f.close(r).bytes;
    if r.chance(0.6) {
        wav.pop();
    }
    wav
}

/// Samples one short of what the file can hold or of what it has, note and answer short, longer ones.
fn slices(r: &mut Rng, call: &mut WavCall, nth: u64) {
    let [room, ..] = call.lengths;
    match nth % 6 {
        0 | 1 => call.lengths[0] = r.below(room + 1).min(if r.chance(0.5) { 30 } else { room }),
        2 => call.lengths[0] = 0,
        3 => call.lengths[1] = r.pick(&[0, 1, 1, 3, 9]),
        4 => call.lengths[2] = r.pick(&[0, 1, 2, 3, 3, 5, 9]),
        _ => call.lengths = [room + r.below(50), r.below(5), r.below(8)],
    }
}

/// A take that the Rust's encoder may take, up to two frames: for its whole function.
pub fn take(seed: u64, index: u64) -> Vec<u8> {
    let mut r = Rng::of_case(seed ^ 0x07A6_E000, index);
    let r = &mut r;
    let depth: u16 = r.pick(&[16, 24, 32]);
    let channels: u16 = if r.chance(0.05) { r.pick(&[0, 17]) } else { r.pick(&[1, 1, 1, 2, 2, 3, 8]) };
    let rate: u32 = if r.chance(0.03) { 0 } else { r.pick(&[8_000, 22_050, 44_100, 48_000, 96_000]) };
    let mut format = vec![1, 0];
    format.extend(channels.to_le_bytes());
    format.extend(rate.to_le_bytes());
    format.extend([0; 6]);
    format.extend(depth.to_le_bytes());
    let mut f = File::new();
    if r.chance(0.5) {
        other(r, &mut f);
    }
    let depth = if r.chance(0.9) {
        f.chunk(b"fmt ", &format);
        depth
    } else {
        16
    };
    let n = r.range(24, 1_000 * i64::from(channels.clamp(1, 3))) as usize;
    let body = match depth {
        32 => (0..n).flat_map(|_| ((r.normal() * 0.2) as f32).to_le_bytes()).collect(),
        _ => samples(r, depth, n),
    };
    f.chunk(b"data", &body);
    if r.chance(0.3) {
        other(r, &mut f);
    }
    f.close(r).bytes
}

/// A mono file of so many 16-bit samples.
pub fn long(count: usize) -> Vec<u8> {
    let mut f = File::new();
    f.chunk(b"fmt ", &[1, 0, 1, 0, 0x80, 0xBB, 0, 0, 0, 0, 0, 0, 2, 0, 16, 0]);
    let body: Vec<u8> = (0..count as u32).flat_map(|k| ((k.wrapping_mul(0x9E37_79B9) >> 16) as u16).to_le_bytes()).collect();
    f.chunk(b"data", &body);
    f.bytes
}
