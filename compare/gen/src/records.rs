//! Calls of the strict reader, the record writer and the checksum.
use crate::limits::{behind, behind_held};
use crate::rng::Rng;
use crate::stage;
use published::driver::StageCall;
use published::hca::decoder::crc16_checksum;
use published::hca::encoder::{QUANTIZE_SPECTRUM_BITS, QUANTIZE_SPECTRUM_VALUE};
use published::hca::tables::MAX_BIT_TABLE;
use published::limits::{resolution, stage as rust_stage};

#[derive(Clone, Debug)]
pub struct ReadCall {
    pub layout: Vec<u32>,
    pub kinds: Vec<u8>,
    pub frame: Vec<u8>,
    /// of factors, side, codes, answer
    pub lengths: [usize; 4],
    pub pattern: u32,
}

#[derive(Clone, Debug)]
pub struct WriteCall {
    pub layout: Vec<u32>,
    pub kinds: Vec<u8>,
    /// level, boundary
    pub record: Vec<u32>,
    pub factors: Vec<u8>,
    pub side: Vec<u8>,
    pub codes: Vec<i32>,
    /// of frame, answer
    pub lengths: [usize; 2],
    pub pattern: u32,
}

pub enum Call {
    Read(ReadCall),
    Write(WriteCall),
    Check(Vec<u8>),
}

/// What a case is for; the share is out of 100 indices.
pub const KINDS: [(&str, u64); 10] = [
    ("legal records", 20),
    ("illegal in one place", 20),
    ("every bit damaged", 4),
    ("random payloads", 12),
    ("composed with a fault", 24),
    ("cut and grown frames", 6),
    ("wrong check or sync", 4),
    ("buffers and layouts", 5),
    ("frames of the stage", 3),
    ("checksums", 2),
];

pub fn kind_of(index: u64) -> (usize, u64) {
    crate::share_of(&KINDS, index)
}

/// Case `index` of a seed.
pub fn calls(seed: u64, index: u64) -> Vec<Call> {
    made(Rng::of_case(seed ^ 0x5EC0_0D5A, index), index)
}

/// The same under a pair of limits: records are legal under it, and frames composed by it.
pub fn limited(seed: u64, index: u64) -> Vec<Call> {
    made(Rng::of_case(seed ^ 0x5EC0_0D5A, index).under(behind(seed, index)), index)
}

/// The same in held mode.
pub fn held(seed: u64, index: u64) -> Vec<Call> {
    made(Rng::of_case(seed ^ 0x5EC0_0D5A, index).under(behind_held(seed, index)), index)
}

fn made(mut r: Rng, index: u64) -> Vec<Call> {
    let (kind, nth) = kind_of(index);
    let r = &mut r;
    match KINDS[kind].0 {
        "legal records" => legal(r),
        "illegal in one place" => illegal(r, nth),
        "every bit damaged" => damaged(r),
        "random payloads" => payloads(r),
        "composed with a fault" => faulty(r, nth),
        "cut and grown frames" => resized(r),
        "wrong check or sync" => unsealed(r),
        "buffers and layouts" => buffers(r, nth),
        "frames of the stage" => of_stage(r),
        _ => (0..8).map(|_| Call::Check(bytes(r))).collect(),
    }
}

fn bytes(r: &mut Rng) -> Vec<u8> {
    let n = if r.chance(0.1) { r.below(70_000) } else { r.below(300) };
    (0..n).map(|_| r.word() as u8).collect()
}

// ---------------------------------------------------------------- records
/// A record and its layout; the frame size is set last.
#[derive(Clone)]
pub struct Record {
    pub layout: Vec<u32>,
    pub kinds: Vec<u8>,
    pub level: u32,
    pub boundary: u32,
    pub factors: Vec<u8>,
    pub side: Vec<u8>,
    pub codes: Vec<i32>,
}

impl Record {
    fn channels(&self) -> usize {
        self.kinds.len()
    }
    fn coded(&self, c: usize) -> usize {
        (self.layout[1] + if self.kinds[c] == 2 { 0 } else { self.layout[2] }) as usize
    }
    fn groups(&self) -> usize {
        let hfr = self.layout[3] - self.layout[1] - self.layout[2];
        if hfr == 0 {
            0
        } else {
            hfr.div_ceil(hfr.div_ceil(8)) as usize
        }
    }
    fn sides(&self, c: usize) -> usize {
        if self.kinds[c] == 2 {
            8
        } else {
            self.groups()
        }
    }
    fn side_bits(&self, c: usize) -> usize {
        if self.kinds[c] == 2 {
            4
        } else {
            6
        }
    }
    fn resolution(&self, c: usize, b: usize) -> usize {
        let noise = if (b as u32) < self.boundary { self.level.saturating_sub(1) } else { self.level };
        resolution(&self.layout, self.factors[c * 128 + b], noise as i32).into()
    }
    /// The largest legal magnitude of a band's codes.
    fn most(&self, c: usize, b: usize) -> i32 {
        match self.resolution(c, b) {
            res if res < 8 => res as i32,
            res => (1 << (MAX_BIT_TABLE[res] - 1)) - 1,
        }
    }
    fn frame(&self) -> usize {
        self.layout[4] as usize
    }
    /// Makes the codes legal again after a change of level or factors.
    fn hold_codes(&mut self) {
        for c in 0..self.channels() {
            for b in 0..self.coded(c) {
                let most = self.most(c, b);
                for s in 0..8 {
                    let code = &mut self.codes[c * 1024 + s * 128 + b];
                    *code = (*code).clamp(-most, most);
                }
            }
        }
    }

    fn read_call(&self, r: &mut Rng, frame: Vec<u8>) -> ReadCall {
        let n = self.channels();
        ReadCall {
            layout: self.layout.clone(),
            kinds: self.kinds.clone(),
            frame,
            lengths: [n * 128, n * 8, n * 1024, 4],
            pattern: r.word() as u32,
        }
    }

    fn write_call(&self, r: &mut Rng) -> WriteCall {
        WriteCall {
            layout: self.layout.clone(),
            kinds: self.kinds.clone(),
            record: vec![self.level, self.boundary],
            factors: self.factors.clone(),
            side: self.side.clone(),
            codes: self.codes.clone(),
            lengths: [self.frame(), 4],
            pattern: r.word() as u32,
        }
    }
}

fn factors(r: &mut Rng, out: &mut [u8]) {
    let style = r.below(8);
    let step = r.pick(&[0, 1, 1, 2, 3, 7, 8, 15, 16, 40]);
    let mut at = r.range(0, 63);
    for f in out {
        *f = match style {
            0 => 0,
            1 => r.below(64) as u8,
            2 => r.pick(&[0, 63]),
            3 if r.chance(0.9) => 0,
            _ => {
                at = (at + r.range(-step, step)).clamp(0, 63);
                if r.chance(0.04) {
                    at = r.range(0, 63);
                }
                at as u8
            }
        };
    }
}

fn level(r: &mut Rng) -> (u32, u32) {
    let level = match r.below(10) {
        0 | 1 => 0,
        2 => r.range(1, 3),
        3 => r.range(230, 260),
        4 => r.range(505, 511),
        5 => r.range(0, 511),
        _ => r.range(0, 254), // the finer resolutions
    } as u32;
    let boundary = match r.below(4) {
        0 => r.pick(&[0, 1, 126, 127]),
        _ => r.below(128) as u32,
    };
    (level, boundary)
}

/// A legal record. Its frame has room for all fields, now and then to the bit, or a byte too few.
pub fn record(r: &mut Rng, channels: usize) -> Record {
    let call = stage::layout(r, channels);
    let (level, boundary) = level(r);
    let n = channels;
    let mut rec = Record {
        layout: call.layout,
        kinds: call.kinds,
        level,
        boundary,
        factors: vec![0; n * 128],
        side: vec![0; n * 8],
        codes: vec![0; n * 1024],
    };
    for c in 0..n {
        let coded = rec.coded(c);
        factors(r, &mut rec.factors[c * 128..c * 128 + coded]);
        for i in 0..rec.sides(c) {
            rec.side[c * 8 + i] = r.below(1 << rec.side_bits(c)) as u8;
        }
        let style = r.below(4);
        for b in 0..coded {
            let most = i64::from(rec.most(c, b));
            for s in 0..8 {
                rec.codes[c * 1024 + s * 128 + b] = match style {
                    0 => 0,
                    1 => r.pick(&[-most, most]),
                    2 => r.range(-1, 1).clamp(-most, most),
                    _ => r.range(-most, most),
                } as i32;
            }
        }
    }
    let needed = compose(&rec, &Faults::default()).len().div_ceil(8) as i64 + 2;
    let slack = match r.below(6) {
        0..=2 => 0,
        3 => 1,
        4 if r.chance(0.03) => 65_535,
        4 => r.range(0, 40),
        _ => -1,
    };
    rec.layout[4] = (needed + slack).clamp(8, 65_535) as u32;
    rec
}

fn few(r: &mut Rng) -> usize {
    match r.below(10) {
        0..=4 => 1,
        5..=7 => 2,
        8 => r.range(3, 5) as usize,
        _ => r.range(1, 16) as usize,
    }
}

// ---------------------------------------------------------------- composing frames
/// Faults to put into a frame, each at one channel or band.
#[derive(Clone, Default)]
pub struct Faults {
    /// channel, width
    pub width: Option<(usize, usize)>,
    /// channel, band: an escape though the delta is small
    pub escape: Option<(usize, usize)>,
    /// channel, band, bits: these in the place of the delta
    pub delta: Option<(usize, usize, u32)>,
    /// at a code: random bits from here to the end
    pub noise: Option<(usize, u64)>,
}

fn push(out: &mut Vec<bool>, value: u32, bits: usize) {
    out.extend((0..bits).rev().map(|i| value >> i & 1 == 1));
}

fn cost(factors: &[u8], d: usize) -> usize {
    let m = (1i32 << (d - 1)) - 1;
    factors.windows(2).fold(9, |n, w| n + d + if (i32::from(w[1]) - i32::from(w[0])).abs() > m { 6 } else { 0 })
}

fn chosen_width(factors: &[u8]) -> usize {
    if factors.iter().all(|&f| f == 0) {
        return 0;
    }
    let best = (1..=5).min_by_key(|&d| (cost(factors, d), d)).expect("five widths");
    if cost(factors, best) < 3 + 6 * factors.len() {
        best
    } else {
        6
    }
}

fn compose_factors(rec: &Record, c: usize, faults: &Faults, out: &mut Vec<bool>) {
    let coded = rec.coded(c);
    let f = &rec.factors[c * 128..c * 128 + coded];
    let d = match faults.width {
        Some((at, width)) if at == c => width,
        _ => chosen_width(f),
    };
    push(out, d as u32, 3);
    if d == 0 || d == 7 {
        return;
    }
    let m = (1i32 << (d - 1)) - 1;
    for b in 0..coded {
        if d == 6 || b == 0 {
            push(out, f[b].into(), 6);
            continue;
        }
        let delta = i32::from(f[b]) - i32::from(f[b - 1]);
        if delta.abs() > m || faults.escape == Some((c, b)) {
            push(out, (1 << d) - 1, d);
            push(out, f[b].into(), 6);
        } else {
            push(out, (m + delta) as u32, d);
        }
        if let Some((fc, fb, bits)) = faults.delta {
            if (fc, fb) == (c, b) {
                out.truncate(out.len() - d);
                push(out, bits & ((1 << d) - 1), d);
            }
        }
    }
}

fn compose_code(res: usize, code: i32, out: &mut Vec<bool>) {
    if res == 0 {
        return;
    }
    if res < 8 {
        let i = (8 + code) as usize;
        push(out, QUANTIZE_SPECTRUM_VALUE[res][i], QUANTIZE_SPECTRUM_BITS[res][i].into());
        return;
    }
    push(out, code.unsigned_abs(), MAX_BIT_TABLE[res] as usize - 1);
    if code != 0 {
        out.push(code < 0);
    }
}

/// The fields of a record, with faults.
pub fn compose(rec: &Record, faults: &Faults) -> Vec<bool> {
    let mut out = Vec::new();
    push(&mut out, 0xFFFF, 16);
    push(&mut out, rec.level, 9);
    push(&mut out, rec.boundary, 7);
    for c in 0..rec.channels() {
        compose_factors(rec, c, faults, &mut out);
        for i in 0..rec.sides(c) {
            push(&mut out, rec.side[c * 8 + i].into(), rec.side_bits(c));
        }
    }
    let mut nth = 0;
    for s in 0..8 {
        for c in 0..rec.channels() {
            for b in 0..rec.coded(c) {
                if let Some((at, seed)) = faults.noise {
                    if nth == at {
                        let mut r = Rng::of_case(seed, 0);
                        let n = r.below(8 * rec.frame().max(8));
                        out.extend((0..n).map(|_| r.below(2) == 1));
                        return out;
                    }
                }
                compose_code(rec.resolution(c, b), rec.codes[c * 1024 + s * 128 + b], &mut out);
                nth += 1;
            }
        }
    }
    out
}

/// Stores the check of the first bytes in the last two of `size`.
pub fn seal(frame: &mut [u8], size: usize) {
    let check = crc16_checksum(&frame[..size - 2]);
    frame[size - 2..size].copy_from_slice(&check.to_be_bytes());
}

/// The frame of these bits: cut, or filled with zeros, and sealed.
pub fn frame_of(bits: &[bool], size: usize) -> Vec<u8> {
    let mut frame = vec![0; size];
    for (i, _) in bits.iter().take(8 * (size - 2)).enumerate().filter(|(_, b)| **b) {
        frame[i / 8] |= 0x80 >> (i % 8);
    }
    seal(&mut frame, size);
    frame
}

fn good_frame(rec: &Record) -> Vec<u8> {
    frame_of(&compose(rec, &Faults::default()), rec.frame())
}

// ---------------------------------------------------------------- cases
fn legal(r: &mut Rng) -> Vec<Call> {
    let n = few(r);
    let rec = record(r, n);
    let (mut w, mut d) = (rec.write_call(r), rec.read_call(r, good_frame(&rec)));
    if r.chance(0.3) {
        longer(r, &mut w, &mut d);
    }
    vec![Call::Write(w), Call::Read(d)]
}

fn longer(r: &mut Rng, w: &mut WriteCall, d: &mut ReadCall) {
    w.lengths[0] += r.below(20);
    w.lengths[1] += r.below(3);
    for l in &mut d.lengths {
        *l += r.below(20);
    }
    d.frame.extend((0..r.below(20)).map(|i| i as u8 ^ 0x5A));
    w.factors.extend([255, 64, 1]);
    w.side.extend([255, 64, 1]);
    w.codes.extend([i32::MIN, i32::MAX, 1]);
    w.record.push(999);
    w.kinds.extend([3, 255]);
    d.kinds.extend([3, 255]);
}

/// A byte above the limit, most often the next.
fn just_above(r: &mut Rng, most: i64) -> u8 {
    if r.chance(0.6) {
        most as u8 + 1
    } else {
        r.range(most + 1, 255) as u8
    }
}

fn illegal(r: &mut Rng, nth: u64) -> Vec<Call> {
    let n = few(r);
    let mut rec = record(r, n);
    let c = r.below(n);
    let coded = rec.coded(c);
    let sides = rec.sides(c);
    let code_at = |s: usize, b: usize| c * 1024 + s * 128 + b;
    let s = r.below(8);
    match nth % 11 {
        0 => rec.level = r.pick(&[512, 513, 1023, 1024, 65_536, 1 << 31, u32::MAX]),
        1 => rec.boundary = r.pick(&[128, 129, 255, 256, 65_536, u32::MAX]),
        2 if coded > 0 => rec.factors[c * 128 + r.below(coded)] = just_above(r, 63),
        3 if coded < 128 => rec.factors[c * 128 + r.range(coded as i64, 127) as usize] = just_above(r, 0),
        4 if sides > 0 => {
            let most = if rec.kinds[c] == 2 { 15 } else { 63 };
            rec.side[c * 8 + r.below(sides)] = just_above(r, most);
        }
        5 if sides < 8 => rec.side[c * 8 + r.range(sides as i64, 7) as usize] = just_above(r, 0),
        6 if coded < 128 => {
            let b = r.range(coded as i64, 127) as usize;
            rec.codes[code_at(s, b)] = r.pick(&[1, -1, 5, i32::MIN, i32::MAX, 256, 65_536]);
        }
        7 if coded > 0 => {
            let b = r.below(coded);
            rec.codes[code_at(s, b)] = r.pick(&[i32::MIN, i32::MAX, i32::MIN + 1]);
        }
        8 if coded > 0 => {
            let b = r.below(coded);
            let most = rec.most(c, b);
            rec.codes[code_at(s, b)] = r.pick(&[most + 1, -most - 1]);
        }
        9 if coded > 0 => {
            // a code where the factor is 0
            let b = r.below(coded);
            rec.factors[c * 128 + b] = 0;
            for s in 0..8 {
                rec.codes[code_at(s, b)] = 0;
            }
            rec.codes[code_at(s, b)] = r.pick(&[1, -1]);
        }
        _ if coded > 0 => {
            let b = r.below(coded);
            rec.codes[code_at(s, b)] = r.word() as i32 | 1 << 12;
        }
        _ => rec.level = 512,
    }
    vec![Call::Write(rec.write_call(r))]
}

fn small_record(r: &mut Rng) -> Record {
    loop {
        let n = r.range(1, 2) as usize;
        let rec = record(r, n);
        if rec.frame() <= 120 {
            return rec;
        }
    }
}

fn damaged(r: &mut Rng) -> Vec<Call> {
    let rec = small_record(r);
    let good = good_frame(&rec);
    let size = rec.frame();
    (0..8 * (size - 2))
        .map(|i| {
            let mut bad = good.clone();
            bad[i / 8] ^= 0x80 >> (i % 8);
            seal(&mut bad, size);
            Call::Read(rec.read_call(r, bad))
        })
        .collect()
}

fn payloads(r: &mut Rng) -> Vec<Call> {
    (0..10)
        .map(|_| {
            let n = few(r);
            let mut rec = record(r, n);
            if r.chance(0.5) {
                rec.layout[4] = r.range(8, 60) as u32;
            }
            let size = rec.frame();
            // a good beginning, then any bits, often few ones
            let mut bits = compose(&rec, &Faults::default());
            bits.resize(8 * size, false);
            let from = if r.chance(0.5) { 16 } else { r.below(bits.len()) };
            let ones = r.pick(&[0.5, 0.5, 0.1, 0.9]);
            for b in &mut bits[from..] {
                *b = r.chance(ones);
            }
            let frame = frame_of(&bits, size);
            Call::Read(rec.read_call(r, frame))
        })
        .collect()
}

/// A legal record whose frame has room.
fn roomy(r: &mut Rng) -> Record {
    let n = few(r);
    let mut rec = record(r, n);
    rec.layout[4] = (rec.layout[4] + r.range(1, 6) as u32).min(65_535);
    rec
}

fn faulty(r: &mut Rng, nth: u64) -> Vec<Call> {
    let mut rec = roomy(r);
    let c = r.below(rec.channels());
    let coded = rec.coded(c);
    let band = if coded > 1 { r.range(1, coded as i64 - 1) as usize } else { 0 };
    let mut faults = Faults::default();
    match nth % 6 {
        0 => faults.width = Some((c, r.below(8))),
        1 => faults.escape = Some((c, band)),
        2 => faults.delta = Some((c, band, r.word() as u32)),
        3 => faults.noise = Some((r.below(8 * coded.max(1)), r.word())),
        4 => {
            // near both ends of 0..63, so that a delta can lead outside
            let edge = r.pick(&[0i64, 63]);
            for b in 0..coded {
                rec.factors[c * 128 + b] = (edge + r.range(-2, 2)).clamp(0, 63) as u8;
            }
            faults.delta = Some((c, band, r.word() as u32));
        }
        _ => {}
    }
    rec.hold_codes();
    let bits = compose(&rec, &faults);
    let mut frame = frame_of(&bits, rec.frame());
    if nth % 6 == 5 {
        let end = 8 * (rec.frame() - 2);
        if bits.len() < end {
            for _ in 0..r.range(1, 2) {
                let at = r.range(bits.len() as i64, end as i64 - 1) as usize;
                frame[at / 8] |= 0x80 >> (at % 8);
            }
            let size = rec.frame();
            seal(&mut frame, size);
        }
    }
    vec![Call::Read(rec.read_call(r, frame))]
}

/// Good fields in a frame of another size: refusal 13 at every sort of field.
fn resized(r: &mut Rng) -> Vec<Call> {
    let n = few(r);
    let mut rec = record(r, n);
    let bits = compose(&rec, &Faults::default());
    let needed = bits.len().div_ceil(8) as i64 + 2;
    (0..6)
        .map(|_| {
            let size = if r.chance(0.5) { r.range(8, needed.max(8)) } else { needed - r.range(0, 3) };
            rec.layout[4] = size.clamp(8, 65_535) as u32;
            let frame = frame_of(&bits, rec.frame());
            Call::Read(rec.read_call(r, frame))
        })
        .collect()
}

fn unsealed(r: &mut Rng) -> Vec<Call> {
    let rec = small_record(r);
    let size = rec.frame();
    let good = good_frame(&rec);
    (0..6)
        .map(|i| {
            let mut bad = good.clone();
            if i % 2 == 0 {
                bad[r.below(size)] ^= 1 << r.below(8);
            } else {
                bad[r.below(2)] ^= 1 << r.below(8);
                seal(&mut bad, size);
            }
            Call::Read(rec.read_call(r, bad))
        })
        .collect()
}

fn buffers(r: &mut Rng, nth: u64) -> Vec<Call> {
    let rec = small_record(r);
    let (mut w, mut d) = (rec.write_call(r), rec.read_call(r, good_frame(&rec)));
    if r.chance(0.5) {
        longer(r, &mut w, &mut d);
    }
    let n = rec.channels();
    let size = rec.frame();
    let short = |r: &mut Rng, least: usize| if r.chance(0.5) { least - 1 } else { r.below(least) };
    match nth % 8 {
        0 => {
            w.lengths[0] = short(r, size);
            d.lengths[0] = short(r, n * 128);
        }
        1 => {
            w.lengths[1] = short(r, 4);
            d.lengths[1] = short(r, n * 8);
        }
        2 => {
            let l = short(r, n * 128);
            w.factors.truncate(l);
            d.lengths[2] = short(r, n * 1024);
        }
        3 => {
            let l = short(r, n * 8);
            w.side.truncate(l);
            d.lengths[3] = short(r, 4);
        }
        4 => {
            let l = short(r, n * 1024);
            w.codes.truncate(l);
            let l = short(r, size);
            d.frame.truncate(l);
        }
        5 => w.record.truncate(r.below(2)),
        _ => {
            let bad = outside(r, nth, &rec);
            (w.layout, w.kinds) = bad.clone();
            (d.layout, d.kinds) = bad;
        }
    }
    // an earlier refusal hides a later one
    if r.chance(0.2) {
        w.record.fill(u32::MAX);
    }
    vec![Call::Write(w), Call::Read(d)]
}

/// Layout and kinds outside the limits.
fn outside(r: &mut Rng, nth: u64, rec: &Record) -> (Vec<u32>, Vec<u8>) {
    let (mut l, mut k) = (rec.layout.clone(), rec.kinds.clone());
    let big = u32::MAX - r.below(3) as u32;
    match nth / 8 % 12 {
        0 => l[0] = r.pick(&[0, 17, big]),
        1 => l[3] = r.pick(&[0, 129, big]),
        2 => l[1] = big,
        3 => l[2] = big,
        4 => (l[1], l[2]) = (big, big),
        5 => (l[1], l[2]) = (1 << 31, 1 << 31),
        6 => l[1] = l[3] - l[2] + 1,
        7 => l[4] = r.pick(&[0, 7, 65_536, big, l[4] + 65_536]),
        8 => k[r.below(rec.channels())] = r.range(3, 255) as u8,
        9 => k.truncate(r.below(rec.channels())),
        10 => l[r.below(5)] += r.pick(&[1 << 8, 1 << 16]), // the same in fewer bits
        _ => l.truncate(r.below(5)),
    }
    (l, k)
}

/// Every level and boundary that the two fields hold, on one layout: a band of factor 20, whose codes are as large as its resolution lets them be.
pub fn heads() -> impl Iterator<Item = ([u32; 2], ReadCall)> {
    (0..1 << 16).map(|head: u32| {
        let mut r = Rng::of_case(0, head.into());
        let mut rec = Record {
            layout: vec![1, 1, 0, 1, 20],
            kinds: vec![0],
            level: head >> 7,
            boundary: head & 127,
            factors: vec![0; 128],
            side: vec![0; 8],
            codes: vec![0; 1024],
        };
        rec.factors[0] = 20;
        for s in 0..8 {
            rec.codes[s * 128] = if s % 2 == 0 { i32::MAX } else { -i32::MAX };
        }
        rec.hold_codes();
        ([rec.level, rec.boundary], rec.read_call(&mut r, good_frame(&rec)))
    })
}

fn of_stage(r: &mut Rng) -> Vec<Call> {
    let index = r.below(1 << 20) as u64;
    let call: StageCall = stage::made(Rng::of_case(index, 0).under(r.behind.clone()), 0); // case 0 is of the kind with decaying spectra
    let mut out = call.lent();
    let (number, _) = rust_stage(&call, &mut out);
    if number != 0 {
        return Vec::new();
    }
    let n = call.layout[0] as usize;
    let rec = Record {
        layout: call.layout.clone(),
        kinds: call.kinds[..n].to_vec(),
        level: out.answer[0],
        boundary: out.answer[1],
        factors: out.factors[..n * 128].to_vec(),
        side: out.side[..n * 8].to_vec(),
        codes: out.codes[..n * 1024].to_vec(),
    };
    let frame = out.frame[..rec.frame()].to_vec();
    vec![Call::Write(rec.write_call(r)), Call::Read(rec.read_call(r, frame))]
}
