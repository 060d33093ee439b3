//! The frame stage as document 01 has it, over the unchanged Rust. Three layers, kept apart:
//!   refused_before  refusals 1 to 4, which the Rust does not have (call.rs)
//!   run             the Rust's own steps, calculate_scale_factors .. pack_frame, nothing added
//!   deliver         what document 01 records otherwise than the Rust holds it
//! The same lines serve both copies of the Rust: they stand in this crate's root over `hca::encoder`, in `limited` over `hca::limited`.
use super::hca::encoder::*;
pub use crate::call::*;
use crate::hca::bitreader::BitWriter;
use crate::hca::decoder::ChannelType;
use crate::header::HeaderCall;
use std::io::Cursor;

// ---------------------------------------------------------------- the Rust
pub fn channel_type(kind: u8) -> ChannelType {
    match kind {
        0 => ChannelType::Discrete,
        1 => ChannelType::StereoPrimary,
        _ => ChannelType::StereoSecondary,
    }
}

/// The Rust's state for a legal layout, as HcaEncoder::new leaves it.
pub fn encoder_for(channels: usize, base: u32, stereo: u32, total: u32, frame: u32) -> HcaEncoder {
    let hfr = total - base - stereo;
    let g = hfr.div_ceil(8);
    HcaEncoder {
        config: HcaEncoderConfig::new(48000, channels as u32),
        frame_size: frame,
        total_band_count: total,
        base_band_count: base,
        stereo_band_count: stereo,
        hfr_band_count: hfr,
        bands_per_hfr_group: g,
        hfr_group_count: ceil_div(hfr, g),
        track_count: DEFAULT_TRACK_COUNT,
        channel_config: 0,
        encoder_delay: ENCODER_DELAY,
        encoder_padding: 0,
        channel: vec![ChannelEncodeState::default(); channels],
        encrypt_table: [0; 256],
    }
}

/// Puts a call's kinds, spectra and intensities into the Rust's state.
pub fn load(e: &mut HcaEncoder, call: &StageCall) {
    let l = &call.layout;
    for (i, &k) in call.kinds[..call.channels()].iter().enumerate() {
        let ch = &mut e.channel[i];
        ch.channel_type = channel_type(k);
        ch.coded_count = if k == 2 { l[1] } else { l[1] + l[2] } as usize;
        for s in 0..8 {
            ch.spectra[s].copy_from_slice(&call.spectra[i * 1024 + s * 128..][..128]);
        }
        ch.intensity.copy_from_slice(&call.intensities[i * 8..][..8]);
    }
}

pub fn setup(call: &StageCall) -> HcaEncoder {
    let l = &call.layout;
    let mut e = encoder_for(call.channels(), l[1], l[2], l[3], l[4]);
    load(&mut e, call);
    e
}

/// The steps before the search.
pub fn head_steps(e: &mut HcaEncoder) {
    e.calculate_scale_factors();
    e.scale_spectra();
    e.calculate_hfr_group_averages();
    e.calculate_hfr_scale();
    e.calculate_frame_header_length();
}

/// All steps of the Rust's encode_frame from the scale factors on; for timing.
#[inline(never)]
pub fn all_steps(e: &mut HcaEncoder) -> Option<Vec<u8>> {
    head_steps(e);
    let level = e.calculate_noise_level().ok()?;
    let boundary = e.calculate_evaluation_boundary(level).ok()?;
    e.calculate_frame_resolutions(level, boundary);
    e.quantize_spectra();
    e.pack_frame(level, boundary).ok()
}

fn copy_of(e: &HcaEncoder) -> HcaEncoder {
    let n = e.config.channels as usize;
    let mut copy = encoder_for(0, e.base_band_count, e.stereo_band_count, e.total_band_count, e.frame_size);
    copy.config.channels = n as u32;
    copy.channel = e.channel.clone();
    copy
}

/// The outer loop of calculate_noise_level once more, with a counter, on a
/// copy; `run` asserts that it ends as the Rust's own did.
fn count_pairs(mut e: HcaEncoder) -> (Option<u32>, u32, HcaEncoder) {
    let bits = e.frame_size as usize * 8;
    let mut highest = (e.base_band_count + e.stereo_band_count) as i32 - 1;
    let mut pairs = 0;
    let mut level = e.binary_search_level(bits, 0, 255);
    while level < 0 {
        highest -= 2;
        if highest < 0 {
            return (None, pairs, e);
        }
        for ch in &mut e.channel {
            ch.scale_factors[highest as usize + 1] = 0;
            ch.scale_factors[highest as usize + 2] = 0;
        }
        pairs += 1;
        e.calculate_frame_header_length();
        level = e.binary_search_level(bits, 0, 255);
    }
    (Some(level as u32), pairs, e)
}

/// pack_frame's sequence of writes with the Rust's own writers, for the place at its end.
fn count_bits(e: &HcaEncoder, level: u32, boundary: u32) -> u32 {
    let mut w = BitWriter::new(e.frame_size as usize);
    w.write(0xFFFF, 16);
    w.write(level, 9);
    w.write(boundary, 7);
    for c in 0..e.channel.len() {
        e.write_scale_factors(&mut w, c);
        if e.channel[c].channel_type == ChannelType::StereoSecondary {
            for s in 0..8 {
                w.write(e.channel[c].intensity[s] as u32, 4);
            }
        } else {
            for g in 0..e.hfr_group_count as usize {
                w.write(e.channel[c].hfr_scales[g] as u32, 6);
            }
        }
    }
    for s in 0..8 {
        for c in 0..e.channel.len() {
            e.write_spectra(&mut w, s, c);
        }
    }
    w.position() as u32
}

/// The state after the last step, the frame or the refusal, and the notes.
pub fn run(call: &StageCall) -> (HcaEncoder, Result<Vec<u8>, (u32, u32)>, Notes) {
    run_on(setup(call))
}

/// The same from a state whose spectra and intensities are there.
fn run_on(mut e: HcaEncoder) -> (HcaEncoder, Result<Vec<u8>, (u32, u32)>, Notes) {
    let mut notes = Notes::default();
    head_steps(&mut e);
    let (found, pairs, after) = count_pairs(copy_of(&e));
    notes.pairs = pairs;
    let Ok(level) = e.calculate_noise_level() else {
        assert_eq!(found, None);
        return (e, Err((5, pairs)), notes);
    };
    assert_eq!(found, Some(level));
    for (a, b) in e.channel.iter().zip(&after.channel) {
        assert_eq!(a.scale_factors, b.scale_factors);
        assert_eq!(a.header_length_bits, b.header_length_bits);
    }
    notes.level = level;
    let boundary = e.calculate_evaluation_boundary(level).expect("the Rust's own search answers");
    notes.boundary = boundary;
    e.calculate_frame_resolutions(level, boundary);
    e.quantize_spectra();
    notes.needed = count_bits(&e, level, boundary);
    note_codes(&e, &mut notes);
    let room = 8 * (e.frame_size - 2);
    match e.pack_frame(level, boundary) {
        Ok(frame) => {
            assert!(notes.needed <= room);
            (e, Ok(frame), notes)
        }
        Err(_) => {
            assert!(notes.needed > room);
            (e, Err((7, notes.needed)), notes)
        }
    }
}

fn note_codes(e: &HcaEncoder, notes: &mut Notes) {
    for ch in &e.channel {
        for b in 0..ch.coded_count {
            let r = ch.resolutions[b] as usize;
            for s in 0..8 {
                let q = ch.quantized_spectra[s][b];
                if (1..8).contains(&r) && q.unsigned_abs() as usize > r {
                    notes.corner_codes += 1;
                }
                if r >= 8 {
                    let counted = ch.scaled_spectra[b][s].abs() >= QUANTIZER_DEAD_ZONE[r];
                    notes.zone_more += u32::from(q != 0 && !counted);
                    notes.zone_less += u32::from(q == 0 && counted);
                }
            }
        }
    }
}

// ---------------------------------------------------------------- after the Rust
/// Document 01: factors, scaled values and codes are 0 past the coded count, a
/// code is 0 at resolution 0, side holds intensities or the G scales.
fn deliver(call: &StageCall, e: &HcaEncoder, frame: &[u8], out: &mut Lent) {
    for (i, ch) in e.channel.iter().enumerate() {
        for b in 0..ch.coded_count {
            out.factors[i * 128 + b] = ch.scale_factors[b];
            for s in 0..8 {
                out.scaled[i * 1024 + b * 8 + s] = ch.scaled_spectra[b][s];
                if ch.resolutions[b] > 0 {
                    out.codes[i * 1024 + s * 128 + b] = ch.quantized_spectra[s][b];
                }
            }
        }
        if call.kinds[i] == 2 {
            out.side[i * 8..i * 8 + 8].copy_from_slice(&ch.intensity);
        } else {
            let g = e.hfr_group_count as usize;
            out.side[i * 8..i * 8 + g].copy_from_slice(&ch.hfr_scales[..g]);
        }
    }
    out.frame[..frame.len()].copy_from_slice(frame);
}

fn clear(call: &StageCall, out: &mut Lent) {
    let n = call.channels();
    out.scaled[..n * 1024].fill(0.0);
    out.codes[..n * 1024].fill(0);
    out.factors[..n * 128].fill(0);
    out.side[..n * 8].fill(0);
    out.frame[..call.layout[4] as usize].fill(0);
}

/// The whole call: the refusal number (0: delivered), with every buffer as the
/// call leaves it in `out`, which holds the buffers as they are lent.
pub fn stage(call: &StageCall, out: &mut Lent) -> (u32, Notes) {
    match refused_before(call) {
        Some(refusal) => (refuse(refusal, out), Notes::default()),
        None => finish(call, setup(call), out),
    }
}

/// What the call gives from the Rust's state on, once nothing is refused before.
pub(crate) fn finish(call: &StageCall, e: HcaEncoder, out: &mut Lent) -> (u32, Notes) {
    let (e, done, notes) = run_on(e);
    clear(call, out);
    match done {
        Ok(frame) => {
            deliver(call, &e, &frame, out);
            out.answer[..4].copy_from_slice(&[notes.level, notes.boundary, notes.pairs, notes.needed]);
            (0, notes)
        }
        Err((number, beside)) => {
            out.answer[0] = beside;
            (number, notes)
        }
    }
}

/// The Rust's estimate for a call at a level and a boundary, before any removal.
pub fn used_bits(call: &StageCall, level: i32, boundary: i32) -> usize {
    let mut e = setup(call);
    head_steps(&mut e);
    e.calculate_used_bits(level, boundary)
}

/// The Rust's header of a call that is not refused.
pub fn header_of(call: &HeaderCall) -> Vec<u8> {
    let l = &call.layout;
    let mut e = encoder_for(l[0] as usize, l[1], l[2], l[3], l[4]);
    e.channel_config = HcaEncoder::default_channel_config(l[0], e.track_count).expect("eight channels at most");
    e.config.sample_rate = call.stream[0] as u32;
    e.encoder_padding = call.stream[2] as u32;
    if let [start, end, ..] = call.points[..] {
        (e.config.loop_start, e.config.loop_end) = (Some(start as u32), Some(end as u32));
    }
    let mut file = Cursor::new(Vec::new());
    e.write_header(&mut file, call.stream[1] as u32).expect("a vector takes what is written");
    file.into_inner()
}
