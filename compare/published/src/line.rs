//! A line as A5 has it, over as many single calls: refusals 1, 18 and 2, then each frame on its own parts. The same over calls of the
//! stereo stage, which write spectra and intensities too.
use crate::call::{layout_fits, pattern_bytes, pattern_words, Lent, StageCall};
use crate::stereo::StereoLent;

/// The most frames of a line.
pub const MOST: usize = 65_535;
/// The largest count of a tally at entry.
pub const FULL: u64 = 1 << 63;

/// A call of the line: every slice with a length of its own.
#[derive(Clone, Debug)]
pub struct LineCall {
    /// channels, base, stereo, total, frame size, minimum, maximum
    pub layout: Vec<u32>,
    pub kinds: Vec<u8>,
    pub count: usize,
    pub spectra: Vec<f32>,
    pub intensities: Vec<u8>,
    /// of scaled, codes, factors, side, frames, answers, answer
    pub lengths: [usize; 7],
    /// frames, bits, pairs
    pub tally: Vec<u64>,
    /// what the written buffers but the tally hold before the call
    pub pattern: u32,
}

/// The written buffers.
#[derive(Clone, Debug)]
pub struct LineLent {
    pub scaled: Vec<f32>,
    pub codes: Vec<i32>,
    pub factors: Vec<u8>,
    pub side: Vec<u8>,
    pub frames: Vec<u8>,
    pub answers: Vec<u32>,
    pub tally: Vec<u64>,
    pub answer: Vec<u32>,
}

/// Those of a line from unmixed spectra.
#[derive(Clone, Debug)]
pub struct StereoLineLent {
    pub spectra: Vec<f32>,
    pub intensities: Vec<u8>,
    pub line: LineLent,
}

impl StereoLineLent {
    /// As they are lent.
    pub fn of(call: &LineCall) -> Self {
        StereoLineLent { spectra: call.spectra.clone(), intensities: call.intensities.clone(), line: call.lent() }
    }
}

impl LineCall {
    /// A line of single calls of one layout, with exact lengths.
    pub fn of(frames: &[StageCall]) -> Self {
        let mut call = LineCall::empty(&frames[0]);
        call.count = frames.len();
        call.spectra = frames.iter().flat_map(|f| f.spectra.iter().copied()).collect();
        call.intensities = frames.iter().flat_map(|f| f.intensities.iter().copied()).collect();
        call.set_lengths();
        call
    }

    /// A line of no frames in the layout of a single call.
    pub fn empty(single: &StageCall) -> Self {
        let mut call = LineCall {
            layout: single.layout.clone(),
            kinds: single.kinds.clone(),
            count: 0,
            spectra: Vec::new(),
            intensities: Vec::new(),
            lengths: [0; 7],
            tally: vec![0; 3],
            pattern: single.pattern,
        };
        call.set_lengths();
        call
    }

    /// Sets the lengths that layout and count ask for.
    pub fn set_lengths(&mut self) {
        let n = self.layout[0] as usize;
        self.lengths = [n * 1024, n * 1024, n * 128, n * 8, self.count * self.layout[4] as usize, self.count * 4, 4];
    }

    /// The written buffers as they are lent: filled with the pattern, but for the tally.
    pub fn lent(&self) -> LineLent {
        let (p, l) = (self.pattern, &self.lengths);
        LineLent {
            // never NaN, so that a copy keeps the bits
            scaled: pattern_words(p, 0, l[0]).iter().map(|w| f32::from_bits(w & 0xBFFF_FFFF)).collect(),
            codes: pattern_words(p, 1, l[1]).iter().map(|&w| w as i32).collect(),
            factors: pattern_bytes(p, 2, l[2]),
            side: pattern_bytes(p, 3, l[3]),
            frames: pattern_bytes(p, 4, l[4]),
            answers: pattern_words(p, 6, l[5]),
            tally: self.tally.clone(),
            answer: pattern_words(p, 5, l[6]),
        }
    }

    /// The single call of frame k.
    fn single(&self, k: usize) -> StageCall {
        let n = self.layout[0] as usize;
        let mut call = StageCall {
            layout: self.layout.clone(),
            kinds: self.kinds.clone(),
            spectra: self.spectra[k * n * 1024..][..n * 1024].to_vec(),
            intensities: self.intensities[k * n * 8..][..n * 8].to_vec(),
            lengths: [0; 6],
            pattern: self.pattern,
        };
        call.set_lengths();
        call
    }
}

/// Refusals 1, 18 and 2.
fn refused_before(call: &LineCall) -> Option<u32> {
    if !layout_fits(&call.layout, &call.kinds) {
        return Some(1);
    }
    if call.count > MOST || call.tally.iter().take(3).any(|&n| n > FULL) {
        return Some(18);
    }
    let n = call.layout[0] as usize;
    let least = [n * 1024, n * 1024, n * 128, n * 8, call.count * call.layout[4] as usize, call.count * 4, 4];
    let short = call.lengths.iter().zip(least).any(|(&have, need)| have < need);
    let inputs = call.spectra.len() < call.count * n * 1024 || call.intensities.len() < call.count * n * 8;
    (short || inputs || call.tally.len() < 3).then_some(2)
}

/// Frame k by a single call, on its parts and on the work buffers as they are.
fn one_frame(
    call: &LineCall,
    k: usize,
    single: impl FnOnce(&StageCall, &mut Lent) -> u32,
    out: &mut LineLent,
) -> (u32, Vec<u32>) {
    let (n, f) = (call.layout[0] as usize, call.layout[4] as usize);
    let mut b = Lent {
        scaled: out.scaled[..n * 1024].to_vec(),
        codes: out.codes[..n * 1024].to_vec(),
        factors: out.factors[..n * 128].to_vec(),
        side: out.side[..n * 8].to_vec(),
        frame: out.frames[k * f..][..f].to_vec(),
        answer: vec![0; 4],
    };
    let number = single(&call.single(k), &mut b);
    out.scaled[..n * 1024].copy_from_slice(&b.scaled);
    out.codes[..n * 1024].copy_from_slice(&b.codes);
    out.factors[..n * 128].copy_from_slice(&b.factors);
    out.side[..n * 8].copy_from_slice(&b.side);
    out.frames[k * f..][..f].copy_from_slice(&b.frame);
    (number, b.answer)
}

/// The whole line by single calls: the refusal number (0: delivered), with every buffer as the line leaves it in `out`, which
/// holds the buffers as they are lent.
pub fn line(call: &LineCall, single: impl Fn(&StageCall, &mut Lent) -> u32, out: &mut LineLent) -> u32 {
    line_by(call, |_, call, b| single(call, b), out)
}

/// The same over calls of the stereo stage: frame k's spectra and intensities are left as its call leaves them.
pub fn stereo_line(call: &LineCall, single: impl Fn(&StageCall, &mut StereoLent) -> u32, out: &mut StereoLineLent) -> u32 {
    let (spectra, intensities) = (&mut out.spectra, &mut out.intensities);
    line_by(
        call,
        |k, call, b| {
            let n = call.layout[0] as usize;
            let mut lent = StereoLent { spectra: call.spectra.clone(), intensities: call.intensities.clone(), stage: b.clone() };
            let number = single(call, &mut lent);
            spectra[k * n * 1024..][..n * 1024].copy_from_slice(&lent.spectra);
            intensities[k * n * 8..][..n * 8].copy_from_slice(&lent.intensities);
            *b = lent.stage;
            number
        },
        &mut out.line,
    )
}

fn line_by(call: &LineCall, mut single: impl FnMut(usize, &StageCall, &mut Lent) -> u32, out: &mut LineLent) -> u32 {
    if let Some(number) = refused_before(call) {
        if let Some(first) = out.answer.first_mut() {
            *first = 0;
        }
        return number;
    }
    for k in 0..call.count {
        let (number, answers) = one_frame(call, k, |call, b| single(k, call, b), out);
        if number != 0 {
            (out.answer[0], out.answer[1]) = (answers[0], k as u32);
            return number;
        }
        out.answers[4 * k..4 * k + 4].copy_from_slice(&answers);
        let gains = [1, answers[3], answers[2]];
        out.tally.iter_mut().zip(gains).for_each(|(count, gain)| *count += u64::from(gain));
    }
    0
}
