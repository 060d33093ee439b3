//! What is told of frames: refusals, tables, what a frame holds, and numbers in decimals.
use crate::layout::side_count;
use crate::text::Text;
use hca_frame::{Delivered, Layout, Record, Refusal};
use std::fmt::Write;

/// A refusal by its number, with the number beside it where there is one.
pub fn refusal(told: Refusal) -> String {
    let Refusal { number, place, .. } = told;
    match number {
        1 => format!("refusal {number}: the layout is outside its limits"),
        2 => format!("refusal {number}: a lent buffer is too short"),
        3 => format!("refusal {number} at {place}: a secondary's intensity is above 15"),
        4 => format!("refusal {number} at {place}: a spectrum value is NaN or infinite"),
        5 => format!("refusal {number} with pairs removed: {place}: no level fits the frame, after every removal of bands"),
        7 => format!("refusal {number} with bits needed: {place}: the fields do not fit the frame"),
        8 => format!("refusal {number}: the check is wrong"),
        9 => format!("refusal {number}: the sync is not FFFF"),
        11 => format!("refusal {number} at bit {place}: the width of the factor deltas is not the one that the writer chooses"),
        12 => format!("refusal {number} at bit {place}: an escape is needless, or a factor is outside 0 to 63"),
        13 => format!("refusal {number} at bit {place}: a field passes the end of the fields"),
        14 => format!("refusal {number} at bit {place}: the fill holds a 1"),
        15 => format!("refusal {number}: the record is not legal"),
        16 => format!("refusal {number}: a number does not fit the header"),
        17 => format!("refusal {number}: the magnitude of an unmixed spectrum value is above 65536"),
        19 => format!("refusal {number}: it is no list: under 9 bytes, no VFI at its start, or not of version 1"),
        20 => format!("refusal {number}: its length is not 9 bytes and 8 for each of its frames"),
        21 => format!("refusal {number}: a frame's level is above 511, its boundary above 127, or its pairs are above 63"),
        22 => format!("refusal {number}: it is no WAV file: under 44 bytes, or RIFF or WAVE is not in its place"),
        23 => format!("refusal {number}: it has no data chunk, or an empty one"),
        24 => format!("refusal {number}: its samples are not of 16, 24 or 32 bits"),
        25 => format!("refusal {number}: a sample is NaN or infinite"),
        26 => format!("refusal {number}: the header's check is wrong: damaged bytes, or no HCA file"),
        27 => format!("refusal {number}: a name or the version in the header is another than the writer's"),
        28 => format!("refusal {number}: a field of the header is one that the writer never writes"),
        29 => format!("refusal {number}: the header is not 0 where the writer stores nothing"),
        30 => format!("refusal {number}: it has more than 16777216 samples"),
        31 => format!("refusal {number}: it has no such frame"),
        _ => format!("refusal {number}: unknown"),
    }
}

/// A line for a refused frame.
pub fn refused_frame(frame: u64, told: Refusal) -> String {
    format!("frame {frame}: {}\n", refusal(told))
}

/// A line for a refused file.
pub fn refused_file(told: Refusal) -> String {
    format!("hcaframe: {}\n", refusal(told))
}

pub fn stage_head(text: &mut Text) {
    text.say(format_args!("   frame  level  boundary  pairs     bits\n"));
}

pub fn stage_row(text: &mut Text, frame: u64, done: &Delivered) {
    text.say(format_args!("{frame:8}{:7}{:10}{:7}{:9}\n", done.level, done.boundary, done.pairs, done.bits));
}

pub fn record_head(text: &mut Text) {
    text.say(format_args!("   frame  level  boundary     bits\n"));
}

pub fn record_row(text: &mut Text, frame: u64, record: &Record, bits: u32) {
    text.say(format_args!("{frame:8}{:7}{:10}{bits:9}\n", record.level, record.boundary));
}

/// The table of a list, whose bits may be any number of 32 bits.
pub fn list_head(text: &mut Text) {
    text.say(format_args!("   frame  level  boundary  pairs       bits\n"));
}

pub fn list_row(text: &mut Text, frame: u64, entry: &Delivered) {
    text.say(format_args!("{frame:8}{:7}{:10}{:7}{:11}\n", entry.level, entry.boundary, entry.pairs, entry.bits));
}

/// How many frames there were, and their bytes.
pub fn total(text: &mut Text, layout: &Layout, frames: u64) {
    text.say(format_args!("{frames} frames, {} bytes\n", u128::from(frames) * layout.frame_size() as u128));
}

/// All that a frame holds.
pub fn frame(text: &mut Text, layout: &Layout, number: u64, record: &Record, bits: u32) {
    text.say(format_args!("frame {number}: level {}, boundary {}, bits {bits}\n", record.level, record.boundary));
    for channel in 0..layout.channels() {
        let coded = layout.coded_count(channel);
        text.say(format_args!("  channel {channel}, coded bands {coded}\n"));
        text.say(format_args!("    factors{}\n", values(&record.factors[channel * 128..][..coded])));
        text.say(format_args!("    side{}\n", values(&record.side[channel * 8..][..side_count(layout, channel)])));
        for (subframe, codes) in record.codes[channel * 1024..][..1024].chunks_exact(128).enumerate() {
            text.say(format_args!("    codes {subframe}:{}\n", values(&codes[..coded])));
        }
    }
}

/// A space before each.
fn values(numbers: &[impl std::fmt::Display]) -> String {
    numbers.iter().fold(String::new(), |mut line, number| {
        let _ = write!(line, " {number}");
        line
    })
}

/// A float that is not below 0: six decimals, the nearest, and its pattern.
pub fn level(x: f32) -> String {
    let bits = x.to_bits();
    let exponent = bits >> 23;
    let digits = u64::from(bits & 0x7F_FFFF) + 0x80_0000;
    let decimals = match exponent {
        // below 2^-21 it is none, not even half a millionth
        0..=105 => "0.000000".to_string(),
        // below 2^23: twice the millionths, cut, and then halved to the nearest
        106..=149 => {
            let millionths = ((digits * 1_000_000) >> (149 - exponent)).div_ceil(2);
            format!("{}.{:06}", millionths / 1_000_000, millionths % 1_000_000)
        }
        // there is no fraction from here on
        150..=189 => format!("{}.000000", digits << (exponent - 150)),
        190..=254 => "at least 2^63".to_string(),
        _ => "infinite".to_string(),
    };
    format!("{decimals} ({bits:08x})")
}

#[cfg(test)]
mod tests {
    use super::*;

    #[test]
    fn decimals() {
        assert_eq!(level(0.0), "0.000000 (00000000)");
        assert_eq!(level(1.0), "1.000000 (3f800000)");
        assert_eq!(level(f32::from_bits(0x3f2aaaab)), "0.666667 (3f2aaaab)");
        assert_eq!(level(f32::from_bits(0x38000000)), "0.000031 (38000000)");
        assert_eq!(level(16_777_216.0), "16777216.000000 (4b800000)");
        assert_eq!(level(f32::MAX), "at least 2^63 (7f7fffff)");
        assert_eq!(level(f32::INFINITY), "infinite (7f800000)");
    }

    #[test]
    fn refusals_have_texts() {
        for number in [1, 2, 3, 4, 5, 7, 8, 9, 11, 12, 13, 14, 15, 16, 17, 19, 20, 21, 22, 23, 24, 25, 26, 27, 28, 29, 30, 31] {
            assert!(!refusal(Refusal::new(number, 0)).contains("unknown"), "{number}");
        }
        assert_eq!(refused_frame(2, Refusal::new(4, 9)), "frame 2: refusal 4 at 9: a spectrum value is NaN or infinite\n");
    }
}
