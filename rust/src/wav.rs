//! A take from its WAV file.
use crate::{raw, Refusal};

/// Peak and mean magnitude of a take's samples, all channels together; both 0 of no sample.
#[derive(Clone, Copy, Debug, PartialEq)]
#[non_exhaustive]
pub struct LevelNote {
    /// The largest magnitude.
    pub peak: f32,
    /// The mean magnitude, summed in order; infinite where the sum is.
    pub mean: f32,
}

impl LevelNote {
    /// A note of these two.
    pub const fn new(peak: f32, mean: f32) -> Self {
        LevelNote { peak, mean }
    }
}

/// What a WAV file holds.
#[derive(Clone, Debug, PartialEq)]
#[non_exhaustive]
pub struct Take {
    /// As the file has them, 0 too.
    pub channels: u32,
    /// Samples a second and channel, as the file has them, 0 too.
    pub rate: u32,
    /// Bits of a sample in the file: 16, 24 or 32.
    pub depth: u32,
    /// Exact values, channels interleaved as in the file.
    pub samples: Vec<f32>,
    /// Of all samples.
    pub note: LevelNote,
}

/// Reads a WAV file's samples: 16 and 24 bits as integers over 32,768 and 8,388,608,
/// 32 bits as floats. Samples that the file's end cuts are dropped.
///
/// The sample buffer is made for the most that the file can hold, so a call takes
/// twice the file's size in memory.
pub fn read_wav(wav: &[u8]) -> Result<Take, Refusal> {
    let mut samples = vec![0.0; (wav.len() / 2).min(1 << 24)];
    let (mut note, mut answer) = ([0.0; 2], [0; 4]);
    let number = raw::read_wav(wav, &mut samples, &mut note, &mut answer);
    let [channels, rate, depth, count] = crate::delivered(number, answer)?;
    samples.truncate(count as usize);
    let [peak, mean] = note;
    Ok(Take { channels, rate, depth, samples, note: LevelNote { peak, mean } })
}
