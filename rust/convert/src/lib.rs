//! From the samples of a take to an HCA file.
//!
//! The layout for a bit rate, the number of frames and the MDCT are the published encoder's own, taken out of its source when this
//! crate is built; they are not proved. The mixing of pairs, the frames, the header and the list are calls of the proved library.
//!
//! ```
//! let wav = std::fs::read("../../sample/line.wav")?;
//! let take = hca_frame::read_wav(&wav)?;
//! let mode = hca_frame::Mode::Rust;
//! let settings = hca_convert::Settings { bitrate: 48_000, loop_points: None, resolutions: (1, 15), mode };
//! let made = hca_convert::convert(&take, &settings, |_, _| ())?;
//! assert_eq!((made.entries.len(), made.file.len()), (47, 96 + 47 * 278));
//! # Ok::<(), Box<dyn std::error::Error>>(())
//! ```
#![forbid(unsafe_code)]

mod published;

use hca_frame::{write_header, Delivered, Encoder, Kind, Layout, LayoutError, Mode, Refusal, Stream, Take};
use published::Front;
use std::fmt;

/// What is asked for beside the take.
#[derive(Clone, Copy, Debug, PartialEq, Eq)]
pub struct Settings {
    /// Bits a second.
    pub bitrate: u32,
    /// The loop's first sample and the one behind its last, of one channel.
    pub loop_points: Option<(u64, u64)>,
    /// The lowest and the highest resolution of a band that is not silent; the published encoder's are 1 and 15.
    pub resolutions: (u32, u32),
    /// What becomes of a code past its range; the published encoder's is [`Mode::Rust`].
    pub mode: Mode,
}

/// An HCA file and its numbers.
#[derive(Clone, Debug)]
pub struct Converted {
    /// Of every frame.
    pub layout: Layout,
    /// What the header says beside it.
    pub stream: Stream,
    /// What each frame delivered.
    pub entries: Vec<Delivered>,
    /// Header and frames.
    pub file: Vec<u8>,
}

/// Why there is no file.
#[derive(Clone, Copy, Debug, PartialEq, Eq)]
pub enum Fault {
    /// No HCA file has this rate or so many channels, nor does the published encoder take them: refusal 16, as a header's.
    Unfit,
    /// The two resolutions are outside their limits: refusal 1.
    Resolutions(LayoutError),
    /// The take has no samples.
    Empty,
    /// The loop does not lie within the take, which has so many samples a channel.
    Loop(u64),
    /// The header was refused.
    Header(Refusal),
    /// This frame was refused.
    Frame(usize, Refusal),
}

impl Fault {
    /// The refusal by its number, where there is one.
    pub fn refusal(&self) -> Option<Refusal> {
        match *self {
            Fault::Unfit => Some(Refusal::new(Refusal::BAD_HEADER, 0)),
            Fault::Resolutions(_) => Some(Refusal::new(Refusal::BAD_LAYOUT, 0)),
            Fault::Empty | Fault::Loop(_) => None,
            Fault::Header(refusal) | Fault::Frame(_, refusal) => Some(refusal),
        }
    }
}

impl fmt::Display for Fault {
    fn fmt(&self, f: &mut fmt::Formatter<'_>) -> fmt::Result {
        match self {
            Fault::Unfit => write!(f, "no HCA file has this rate or so many channels"),
            Fault::Resolutions(error) => error.fmt(f),
            Fault::Empty => write!(f, "it has no samples"),
            Fault::Loop(length) => write!(f, "the loop does not lie within the {length} samples"),
            Fault::Header(refusal) => write!(f, "the header: {refusal}"),
            Fault::Frame(frame, refusal) => write!(f, "frame {frame}: {refusal}"),
        }
    }
}

impl std::error::Error for Fault {}

/// Makes the HCA file of a take. `told` hears how many frames of how many are done.
///
/// Samples outside -1 to 1 are taken as the nearer of the two, as the published encoder takes them.
pub fn convert(take: &Take, settings: &Settings, mut told: impl FnMut(usize, usize)) -> Result<Converted, Fault> {
    let mut front = Front::new(take.rate, take.channels, settings.bitrate).map_err(|_| Fault::Unfit)?;
    let layout = front.layout(settings.resolutions, settings.mode).map_err(|error| match error {
        LayoutError::Resolutions { .. } => Fault::Resolutions(error),
        _ => Fault::Unfit,
    })?;
    let (count, padding) = front.begin(&take.samples).ok_or(Fault::Empty)?;
    let length = take.samples.len().div_ceil(layout.channels()) as u64;
    if settings.loop_points.is_some_and(|(start, end)| end <= start || length < end) {
        return Err(Fault::Loop(length));
    }
    let mut stream = Stream::new(take.rate.into(), count.into(), padding.into());
    stream.loop_points = settings.loop_points;
    let header = write_header(&layout, &stream).map_err(Fault::Header)?;
    let mut file = Vec::with_capacity(header.len() + count as usize * layout.frame_size());
    file.extend_from_slice(&header);
    let mut entries = Vec::with_capacity(count as usize);
    let mut stage = Stage::new(&layout);
    for frame in 0..count as usize {
        front.spectra(&take.samples, frame, &mut stage.spectra);
        entries.push(stage.encode().map_err(|refusal| Fault::Frame(frame, refusal))?);
        file.extend_from_slice(stage.encoder.frame());
        told(frame + 1, count as usize);
    }
    Ok(Converted { layout, stream, entries, file })
}

/// The library's encoder, with what it is lent.
struct Stage {
    encoder: Encoder,
    spectra: Vec<f32>,
    intensities: Vec<u8>,
    has_pairs: bool,
}

impl Stage {
    fn new(layout: &Layout) -> Stage {
        Stage {
            encoder: Encoder::new(layout.clone()),
            spectra: vec![0.0; layout.channels() * 1024],
            intensities: vec![0; layout.channels() * 8],
            has_pairs: layout.kinds().contains(&Kind::StereoPrimary),
        }
    }

    /// One frame; the library mixes the pairs first, where there are some.
    fn encode(&mut self) -> Result<Delivered, Refusal> {
        match self.has_pairs {
            true => self.encoder.encode_stereo_frame(&mut self.spectra, &mut self.intensities),
            false => self.encoder.encode_frame(&self.spectra, &self.intensities),
        }
    }
}

#[cfg(test)]
mod tests;
