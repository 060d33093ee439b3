//! Safe Rust calls over the proved HCA frame library (`libhca.a`).
//!
//! An [`Encoder`] turns the spectra of one frame into the frame's bytes, and
//! [`read_frame`] and [`write_record`] go from a frame to its record and back.
//! [`write_header`] makes the 96 bytes in front of a file's frames, and [`read_header`] reads them back.
//! [`read_wav`] takes a WAV file's samples with their level note.
//! [`write_list`] makes the list beside a line's frames, which says where it was starved.
//! The library refuses what it cannot do by number; see [`Refusal`].
//!
//! ```
//! use hca_frame::{read_frame, write_record, Encoder, Kind, Layout};
//!
//! let layout = Layout::builder()
//!     .channel(Kind::Discrete)
//!     .bands(40, 0, 64)
//!     .frame_size(120)
//!     .build()?;
//!
//! // 8 subframes of 128 bands: a decaying spectrum.
//! let spectra: Vec<f32> = (0..1024)
//!     .map(|i| 0.5 * (-((i % 128) as f32) / 20.0).exp() * if i % 3 == 0 { -1.0 } else { 1.0 })
//!     .collect();
//!
//! let mut encoder = Encoder::new(layout.clone());
//! let done = encoder.encode_frame(&spectra, &[0; 8])?;
//! assert!(done.bits as usize <= 8 * (layout.frame_size() - 2));
//!
//! // The strict reader hands back what the stage wrote ..
//! let (record, bits) = read_frame(&layout, encoder.frame())?;
//! assert_eq!((record.level, record.boundary, bits), (done.level, done.boundary, done.bits));
//! assert_eq!(record.codes, encoder.codes());
//!
//! // .. and the record writer writes the same bytes again.
//! let (frame, _) = write_record(&layout, &record)?;
//! assert_eq!(frame, encoder.frame());
//! # Ok::<(), Box<dyn std::error::Error>>(())
//! ```
//!
//! Build `libhca.a` first (`sh scripts/library.sh`); the build script looks for it in
//! `../target/library`, or in the folder that `HCA_LIB_DIR` names.
//!
//! # Floats
//!
//! [`Encoder::encode_frame`] and [`Encoder::encode_stereo_frame`] count on the
//! thread's default float modes: results round to nearest, and small numbers are
//! not flushed to zero. Audio engines often set FTZ and DAZ (bits 15 and 6 of x86's
//! MXCSR) on their threads; under them the stage still keeps to its buffers, but
//! what it delivers may differ from what is proved (seen for small scaled values).
//! Call from a thread without them, or clear them around the call.
//! The reader, the record writer and the checksum use no floats. [`read_wav`]'s mean
//! counts on the same modes.
//!
//! # Allocation
//!
//! The library has no heap. [`Encoder::new`], [`read_frame`] and [`write_record`]
//! make vectors; [`Encoder::encode_frame`], [`Encoder::encode_stereo_frame`],
//! [`Encoder::encode_line`], [`Encoder::encode_stereo_line`], [`read_frame_into`] and
//! [`write_record_into`] use what they are given.

#![warn(missing_docs)]
#![deny(unsafe_code)]

mod file_header;
mod layout;
mod line;
mod list;
#[allow(unsafe_code)]
pub mod raw;
mod refusal;
mod wav;

pub use file_header::{read_header, write_header, FileHeader, LoopFrames, Stream, HEADER_SIZE};
pub use layout::{Kind, Layout, LayoutBuilder, LayoutError, Mode};
pub use line::{LineRefusal, Tally};
pub use list::{list_entry, list_summary, read_list, write_list, Summary};
pub use refusal::{Refusal, RefusalKind};
pub use wav::{read_wav, LevelNote, Take};

/// What the stage answers beside its buffers; by default four zeros, for [`Encoder::encode_line`] to fill.
#[derive(Clone, Copy, Debug, Default, PartialEq, Eq)]
#[repr(C)] // raw::numbers_of counts on it
#[non_exhaustive]
pub struct Delivered {
    /// Noise level, 0 to 254.
    pub level: u32,
    /// Bands below it are coded one level finer; 0 to 127, 0 at level 0.
    pub boundary: u32,
    /// Pairs of bands removed before a level was found.
    pub pairs: u32,
    /// Bits of all fields, before the fill.
    pub bits: u32,
}

/// Level, boundary, pairs and bits, as a line's answers and a list's entries have them.
impl From<[u32; 4]> for Delivered {
    fn from([level, boundary, pairs, bits]: [u32; 4]) -> Self {
        Delivered { level, boundary, pairs, bits }
    }
}

/// Encodes frames of one layout; owns the work buffers.
#[derive(Clone, Debug)]
pub struct Encoder {
    layout: Layout,
    scaled: Vec<f32>,
    codes: Vec<i32>,
    factors: Vec<u8>,
    side: Vec<u8>,
    frame: Vec<u8>,
}

impl Encoder {
    /// An encoder with its buffers zero.
    pub fn new(layout: Layout) -> Self {
        let n = layout.channels();
        Encoder {
            scaled: vec![0.0; n * 1024],
            codes: vec![0; n * 1024],
            factors: vec![0; n * 128],
            side: vec![0; n * 8],
            frame: vec![0; layout.frame_size()],
            layout,
        }
    }

    /// Encodes one frame. `spectra` has 1,024 values a channel (channel, subframe,
    /// band), `intensities` 8 bytes a channel, looked at for secondaries only.
    /// After refusals 5 and 7 all buffers are zero; after an earlier one they are
    /// those of the frame before.
    pub fn encode_frame(&mut self, spectra: &[f32], intensities: &[u8]) -> Result<Delivered, Refusal> {
        let mut answer = [0; 4];
        let number = raw::encode_frame(
            self.layout.numbers(),
            self.layout.kind_bytes(),
            spectra,
            intensities,
            &mut self.scaled,
            &mut self.codes,
            &mut self.factors,
            &mut self.side,
            &mut self.frame,
            &mut answer,
        );
        let [level, boundary, pairs, bits] = delivered(number, answer)?;
        Ok(Delivered { level, boundary, pairs, bits })
    }

    /// Mixes the pairs of one frame's unmixed spectra, then encodes it. Each primary
    /// that has a channel after it is mixed with that one in the bands base to
    /// total - 1; `spectra` and `intensities` are left as mixed, also after refusals 5
    /// and 7, which clear the encoder's buffers. Refusals 1 to 4 and 17, a magnitude
    /// above 65,536, change nothing.
    ///
    /// ```
    /// use hca_frame::{Encoder, Kind, Layout};
    ///
    /// let pair = [Kind::StereoPrimary, Kind::StereoSecondary];
    /// let layout = Layout::builder().channels(&pair).bands(1, 1, 3).frame_size(300).build()?;
    /// let (mut spectra, mut intensities) = ([0.0; 2048], [0; 16]);
    /// (spectra[1], spectra[1025]) = (1.0, 0.5);
    /// Encoder::new(layout.clone()).encode_stereo_frame(&mut spectra, &mut intensities)?;
    /// assert_eq!((spectra[1], spectra[1025], intensities[8]), (0.75, 0.0, 5));
    ///
    /// // What is mixed already goes to encode_frame.
    /// Encoder::new(layout).encode_frame(&spectra, &intensities)?;
    /// # Ok::<(), Box<dyn std::error::Error>>(())
    /// ```
    pub fn encode_stereo_frame(&mut self, spectra: &mut [f32], intensities: &mut [u8]) -> Result<Delivered, Refusal> {
        let mut answer = [0; 4];
        let number = raw::encode_stereo_frame(
            self.layout.numbers(),
            self.layout.kind_bytes(),
            spectra,
            intensities,
            &mut self.scaled,
            &mut self.codes,
            &mut self.factors,
            &mut self.side,
            &mut self.frame,
            &mut answer,
        );
        let [level, boundary, pairs, bits] = delivered(number, answer)?;
        Ok(Delivered { level, boundary, pairs, bits })
    }

    /// The layout of every frame.
    pub fn layout(&self) -> &Layout {
        &self.layout
    }

    /// The frame's bytes.
    pub fn frame(&self) -> &[u8] {
        &self.frame
    }

    /// Codes by channel, subframe, band.
    pub fn codes(&self) -> &[i32] {
        &self.codes
    }

    /// Scale factors by channel, band.
    pub fn factors(&self) -> &[u8] {
        &self.factors
    }

    /// Per channel eight bytes: a secondary's intensities, else its HFR scales.
    pub fn side(&self) -> &[u8] {
        &self.side
    }

    /// Scaled spectra by channel, band, subframe.
    pub fn scaled(&self) -> &[f32] {
        &self.scaled
    }

    /// The last frame as a record; `done` is what its call delivered.
    pub fn record(&self, done: &Delivered) -> Record {
        Record {
            level: done.level,
            boundary: done.boundary,
            factors: self.factors.clone(),
            side: self.side.clone(),
            codes: self.codes.clone(),
        }
    }
}

/// All that a frame says.
#[derive(Clone, Debug, PartialEq, Eq)]
pub struct Record {
    /// Noise level, 0 to 511; the stage gives at most 254.
    pub level: u32,
    /// Bands below it are coded one level finer, where the level is not 0; 0 to 127.
    pub boundary: u32,
    /// 128 a channel.
    pub factors: Vec<u8>,
    /// 8 a channel.
    pub side: Vec<u8>,
    /// 1,024 a channel: channel, subframe, band.
    pub codes: Vec<i32>,
}

impl Record {
    /// The record of a silent frame.
    pub fn silent(layout: &Layout) -> Self {
        let n = layout.channels();
        Record { level: 0, boundary: 0, factors: vec![0; n * 128], side: vec![0; n * 8], codes: vec![0; n * 1024] }
    }
}

/// Reads a frame strictly: what it accepts, [`write_record`] writes to the same
/// bytes. The second value is the bits of all fields, before the fill.
pub fn read_frame(layout: &Layout, frame: &[u8]) -> Result<(Record, u32), Refusal> {
    let mut record = Record::silent(layout);
    let bits = read_frame_into(layout, frame, &mut record)?;
    Ok((record, bits))
}

/// [`read_frame`] into a record that is there already, as [`Record::silent`] of the
/// layout makes one: nothing is allocated. Says the bits of all fields.
///
/// A vector that is too short is refusal 2, and the record stays as it was; a longer
/// one keeps its rest. After any other refusal the record is silent.
pub fn read_frame_into(layout: &Layout, frame: &[u8], record: &mut Record) -> Result<u32, Refusal> {
    let mut answer = [0; 4];
    let number = raw::read_frame(
        layout.numbers(),
        layout.kind_bytes(),
        frame,
        &mut record.factors,
        &mut record.side,
        &mut record.codes,
        &mut answer,
    );
    if number == Refusal::SHORT_BUFFER {
        return Err(Refusal::new(number, answer[0]));
    }
    (record.level, record.boundary) = (0, 0);
    let [level, boundary, bits, _] = delivered(number, answer)?;
    (record.level, record.boundary) = (level, boundary);
    Ok(bits)
}

/// Writes a record's frame. The second value is the bits of all fields. Where they
/// do not fit, [`Refusal::TOO_LONG`] tells how many they are: a frame of
/// (bits + 7) / 8 + 2 bytes has room for this record.
pub fn write_record(layout: &Layout, record: &Record) -> Result<(Vec<u8>, u32), Refusal> {
    let mut frame = vec![0; layout.frame_size()];
    let bits = write_record_into(layout, record, &mut frame)?;
    Ok((frame, bits))
}

/// [`write_record`] into the first [`frame_size`](Layout::frame_size) bytes of a slice:
/// nothing is allocated. Says the bits of all fields.
///
/// A slice that is too short is refusal 2. After refusals 2 and 15 the slice is as it
/// was, after 7 these bytes are zero; the rest of a longer slice is never touched.
pub fn write_record_into(layout: &Layout, record: &Record, frame: &mut [u8]) -> Result<u32, Refusal> {
    let mut answer = [0; 4];
    let number = raw::write_record(
        layout.numbers(),
        layout.kind_bytes(),
        &[record.level, record.boundary],
        &record.factors,
        &record.side,
        &record.codes,
        frame,
        &mut answer,
    );
    let [_, _, bits, _] = delivered(number, answer)?;
    Ok(bits)
}

/// The check of a run of bytes, as it stands in a frame's last two.
pub fn checksum(bytes: &[u8]) -> u16 {
    raw::checksum(bytes)
}

/// The version of the library that is linked: 10,000 x major + 100 x minor + patch, as `HCA_VERSION_NUMBER` of the C header.
pub fn version() -> u32 {
    raw::version()
}

fn delivered(number: u32, answer: [u32; 4]) -> Result<[u32; 4], Refusal> {
    match number {
        0 => Ok(answer),
        _ => Err(Refusal::new(number, answer[0])),
    }
}
