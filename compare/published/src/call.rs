//! A call of the stage and what it is lent, and refusals 1 to 4 of document 01, which the Rust does not have.
use crate::limits::{mode_fits, pair_fits};

/// A call of the stage: every slice with a length of its own.
#[derive(Clone, Debug)]
pub struct StageCall {
    /// channels, base, stereo, total, frame size, minimum, maximum, mode
    pub layout: Vec<u32>,
    pub kinds: Vec<u8>,
    pub spectra: Vec<f32>,
    pub intensities: Vec<u8>,
    /// of scaled, codes, factors, side, frame, answer
    pub lengths: [usize; 6],
    /// what the written buffers hold before the call
    pub pattern: u32,
}

/// The written buffers.
#[derive(Clone, Debug)]
pub struct Lent {
    pub scaled: Vec<f32>,
    pub codes: Vec<i32>,
    pub factors: Vec<u8>,
    pub side: Vec<u8>,
    pub frame: Vec<u8>,
    pub answer: Vec<u32>,
}

/// A pattern that no call writes by chance: it differs from place to place and from buffer to buffer.
pub fn pattern(seed: u32, buffer: u32, index: usize) -> u32 {
    let mut h = seed ^ buffer.wrapping_mul(0x9E37_79B9) ^ (index as u32).wrapping_mul(0x85EB_CA6B);
    h ^= h >> 15;
    h = h.wrapping_mul(0x2C1B_3C6D);
    h ^ (h >> 12)
}

pub fn pattern_bytes(seed: u32, buffer: u32, n: usize) -> Vec<u8> {
    (0..n).map(|i| pattern(seed, buffer, i) as u8).collect()
}

pub fn pattern_words(seed: u32, buffer: u32, n: usize) -> Vec<u32> {
    (0..n).map(|i| pattern(seed, buffer, i)).collect()
}

impl StageCall {
    /// A call with exact lengths.
    pub fn exact(kinds: &[u8], base: u32, stereo: u32, total: u32, frame: u32) -> Self {
        let n = kinds.len();
        let mut call = StageCall {
            layout: vec![n as u32, base, stereo, total, frame],
            kinds: kinds.to_vec(),
            spectra: vec![0.0; n * 1024],
            intensities: vec![0; n * 8],
            lengths: [0; 6],
            pattern: 0xA5C3_0F19,
        };
        call.set_lengths();
        call
    }

    /// Sets the lengths that the layout asks for.
    pub fn set_lengths(&mut self) {
        let n = self.layout[0] as usize;
        self.lengths = [n * 1024, n * 1024, n * 128, n * 8, self.layout[4] as usize, 4];
    }

    /// The written buffers as they are lent: filled with the pattern.
    pub fn lent(&self) -> Lent {
        let (p, l) = (self.pattern, &self.lengths);
        Lent {
            // never NaN, so that a copy keeps the bits
            scaled: pattern_words(p, 0, l[0]).iter().map(|w| f32::from_bits(w & 0xBFFF_FFFF)).collect(),
            codes: pattern_words(p, 1, l[1]).iter().map(|&w| w as i32).collect(),
            factors: pattern_bytes(p, 2, l[2]),
            side: pattern_bytes(p, 3, l[3]),
            frame: pattern_bytes(p, 4, l[4]),
            answer: pattern_words(p, 5, l[5]),
        }
    }

    pub(crate) fn channels(&self) -> usize {
        self.layout[0] as usize
    }
}

/// Facts about a run that document 01 does not ask for.
#[derive(Clone, Copy, Debug, Default, PartialEq, Eq)]
pub struct Notes {
    pub level: u32,
    pub boundary: u32,
    pub pairs: u32,
    /// bits that all fields take, after refusal 7 too
    pub needed: u32,
    /// codes one past the range, written in no bits
    pub corner_codes: u32,
    /// codes written with one bit more, and with one less, than the estimate
    pub zone_more: u32,
    pub zone_less: u32,
}

// ---------------------------------------------------------------- refusals 1 to 4, which the Rust does not have
/// Whether refusal 1 does not come.
pub fn layout_fits(l: &[u32], kinds: &[u8]) -> bool {
    l.len() >= 5
        && (1..=16).contains(&l[0])
        && (1..=128).contains(&l[3])
        && u64::from(l[1]) + u64::from(l[2]) <= u64::from(l[3])
        && (8..=65_535).contains(&l[4])
        && pair_fits(l)
        && mode_fits(l)
        && kinds.len() >= l[0] as usize
        && kinds[..l[0] as usize].iter().all(|&k| k <= 2)
}

/// Refusals 1 to 4 of document 01.
pub fn refused_before(call: &StageCall) -> Option<(u32, u32)> {
    if !layout_fits(&call.layout, &call.kinds) {
        return Some((1, 0));
    }
    let n = call.channels();
    let least = [n * 1024, n * 1024, n * 128, n * 8, call.layout[4] as usize, 4];
    let short = call.lengths.iter().zip(least).any(|(&have, need)| have < need);
    if short || call.spectra.len() < n * 1024 || call.intensities.len() < n * 8 {
        return Some((2, 0));
    }
    let loud = |i: &usize| call.kinds[i / 8] == 2 && call.intensities[*i] > 15;
    if let Some(i) = (0..n * 8).find(loud) {
        return Some((3, i as u32));
    }
    if let Some(i) = (0..n * 1024).find(|&i| !call.spectra[i].is_finite()) {
        return Some((4, i as u32));
    }
    None
}

/// A refusal that changes nothing but the answer.
pub(crate) fn refuse((number, beside): (u32, u32), out: &mut Lent) -> u32 {
    if let Some(first) = out.answer.first_mut() {
        *first = beside;
    }
    number
}
