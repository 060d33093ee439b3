//! The 96 bytes in front of a file's frames.
use crate::{raw, Kind, Layout, LayoutError, Mode, Refusal};

/// The bytes of a file header.
pub const HEADER_SIZE: usize = 96;

/// What a file header says beside the layout.
#[derive(Clone, Copy, Debug, PartialEq, Eq, Hash)]
#[non_exhaustive]
pub struct Stream {
    /// Samples a second, 1 to 0x7FFFFF.
    pub rate: u64,
    /// How many frames follow, up to 2^32 - 1.
    pub frames: u64,
    /// Samples of padding behind the last one, up to 65,535. Of a take of n samples a channel the frames are (n + 128) / 1024,
    /// rounded up, and the padding is frames x 1024 - 128 - n.
    pub padding: u64,
    /// The loop's start and end in samples of the input, before the encoder's delay of 128 is added; each up to 4,294,967,167.
    pub loop_points: Option<(u64, u64)>,
}

impl Stream {
    /// A stream without a loop.
    pub const fn new(rate: u64, frames: u64, padding: u64) -> Self {
        Stream { rate, frames, padding, loop_points: None }
    }

    /// The same with a loop.
    pub const fn looped(self, start: u64, end: u64) -> Self {
        Stream { loop_points: Some((start, end)), ..self }
    }
}

/// The file header of a layout of up to eight channels. It carries no channel types: decoders derive them from the
/// number of channels and the stereo bands, so frames of other types decode to something else.
///
/// ```
/// use hca_frame::{write_header, Kind, Layout, Stream};
///
/// let layout = Layout::builder().channel(Kind::Discrete).bands(64, 0, 100).frame_size(170).build()?;
/// let header = write_header(&layout, &Stream::new(48_000, 47, 512).looped(0, 896))?;
/// assert_eq!(&header[..4], b"HCA\0");
/// # Ok::<(), Box<dyn std::error::Error>>(())
/// ```
pub fn write_header(layout: &Layout, stream: &Stream) -> Result<[u8; HEADER_SIZE], Refusal> {
    let mut header = [0; HEADER_SIZE];
    let numbers = [stream.rate, stream.frames, stream.padding];
    let ends = stream.loop_points.map(|(start, end)| [start, end]);
    let points: &[u64] = ends.as_ref().map_or(&[], |both| both);
    match raw::write_header(layout.numbers(), layout.kind_bytes(), &numbers, points, &mut header) {
        0 => Ok(header),
        number => Err(Refusal::new(number, 0)),
    }
}

/// A loop as a header has it, in frames.
#[derive(Clone, Copy, Debug, PartialEq, Eq, Hash)]
#[non_exhaustive]
pub struct LoopFrames {
    /// The frame where it starts, 0 to 4,194,303.
    pub frame: u32,
    /// Samples of that frame before the start, 0 to 1,023.
    pub delay: u32,
    /// The frame where it ends, 0 to 4,194,303.
    pub end_frame: u32,
    /// Samples of that frame behind the end, 0 to 1,023.
    pub padding: u32,
}

/// What a file header says: a layout without its kinds, and a stream.
#[derive(Clone, Copy, Debug, PartialEq, Eq, Hash)]
pub struct FileHeader {
    numbers: [u32; 7],
    answer: [u32; 8],
}

impl FileHeader {
    /// How many channels there are, 1 to 8.
    pub fn channels(&self) -> usize {
        self.numbers[0] as usize
    }

    /// Bands that every channel codes.
    pub fn base_bands(&self) -> usize {
        self.numbers[1] as usize
    }

    /// Further bands that all but secondaries code.
    pub fn stereo_bands(&self) -> usize {
        self.numbers[2] as usize
    }

    /// All bands.
    pub fn total_bands(&self) -> usize {
        self.numbers[3] as usize
    }

    /// Bytes of a frame.
    pub fn frame_size(&self) -> usize {
        self.numbers[4] as usize
    }

    /// The lowest resolution of a band that is not silent.
    pub fn minimum_resolution(&self) -> usize {
        self.numbers[5] as usize
    }

    /// The highest resolution of a band.
    pub fn maximum_resolution(&self) -> usize {
        self.numbers[6] as usize
    }

    /// Samples a second, 1 to 0x7FFFFF.
    pub fn rate(&self) -> u32 {
        self.answer[0]
    }

    /// How many frames the header says; whether they follow it does not say.
    pub fn frames(&self) -> u32 {
        self.answer[1]
    }

    /// Samples of padding behind the last one, up to 65,535.
    pub fn padding(&self) -> u32 {
        self.answer[2]
    }

    /// The loop as it stands in the header; [`stream`](FileHeader::stream) has it in samples.
    pub fn loop_frames(&self) -> Option<LoopFrames> {
        let [_, _, _, looped, frame, delay, end_frame, padding] = self.answer;
        (looped != 0).then_some(LoopFrames { frame, delay, end_frame, padding })
    }

    /// The layout with these kinds, one a channel, and this mode: a header carries neither. Decoders derive kinds from the number
    /// of channels and the stereo bands; frames of both modes are read alike.
    pub fn layout(&self, kinds: &[Kind], mode: Mode) -> Result<Layout, LayoutError> {
        if kinds.len() != self.channels() {
            return Err(LayoutError::Kinds { given: kinds.len(), channels: self.channels() });
        }
        let [_, base, stereo, total, frame_size, minimum, maximum] = self.numbers;
        Layout::builder()
            .channels(kinds)
            .bands(base, stereo, total)
            .frame_size(frame_size)
            .resolutions(minimum, maximum)
            .mode(mode)
            .build()
    }

    /// What [`write_header`] made these bytes from, beside the layout: the loop in samples of the input.
    pub fn stream(&self) -> Stream {
        let stream = Stream::new(self.rate().into(), self.frames().into(), self.padding().into());
        let Some(frames) = self.loop_frames() else { return stream };
        // neither is below 0: both points of an accepted header are moved by the delay of 128
        let start = 1024 * u64::from(frames.frame) + u64::from(frames.delay) - 128;
        let end = 1024 * (u64::from(frames.end_frame) + 1) - u64::from(frames.padding) - 128;
        stream.looped(start, end)
    }
}

/// Reads the header at the start of a file, or a header alone: 96 bytes, and what follows is not looked at. Accepted is exactly
/// what [`write_header`] writes, byte for byte.
///
/// ```
/// use hca_frame::{read_header, write_header, Kind, Layout, Mode, Stream};
///
/// let layout = Layout::builder().channel(Kind::Discrete).bands(64, 0, 100).frame_size(170).build()?;
/// let stream = Stream::new(48_000, 47, 512).looped(0, 896);
/// let header = read_header(&write_header(&layout, &stream)?)?;
/// assert_eq!(header.layout(&[Kind::Discrete], Mode::Rust)?, layout);
/// assert_eq!(header.stream(), stream);
/// # Ok::<(), Box<dyn std::error::Error>>(())
/// ```
pub fn read_header(header: &[u8]) -> Result<FileHeader, Refusal> {
    let (mut numbers, mut answer) = ([0; 7], [0; 8]);
    match raw::read_header(header, &mut numbers, &mut answer) {
        0 => Ok(FileHeader { numbers, answer }),
        number => Err(Refusal::new(number, answer[0])),
    }
}
