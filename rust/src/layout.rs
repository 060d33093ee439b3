//! The shape of a frame, checked once.
use std::fmt;

/// What a channel is to its neighbour.
#[derive(Clone, Copy, Debug, PartialEq, Eq, Hash)]
pub enum Kind {
    /// Stands alone.
    Discrete,
    /// Carries the stereo bands of a pair.
    StereoPrimary,
    /// Codes the base bands only; intensities say the rest.
    StereoSecondary,
}

impl Kind {
    fn byte(self) -> u8 {
        match self {
            Kind::Discrete => 0,
            Kind::StereoPrimary => 1,
            Kind::StereoSecondary => 2,
        }
    }
}

/// What becomes of a code past its range. No frame and no file header carries it.
#[derive(Clone, Copy, Debug, Default, PartialEq, Eq, Hash)]
pub enum Mode {
    /// As the published encoder: at the upper clip and resolution 2, 4 or 5 a code can be
    /// one past its range, and gets no bits; such a frame is read back as another record.
    #[default]
    Rust,
    /// Below resolution 8 a code is held within plus or minus the resolution: every frame
    /// that is delivered is read back as the record that it was made of.
    Held,
}

impl Mode {
    fn number(self) -> u32 {
        match self {
            Mode::Rust => 0,
            Mode::Held => 1,
        }
    }
}

/// A layout within the limits: 1 to 16 channels, 1 to 128 bands of which base
/// and stereo are at most all, a frame of 8 to 65,535 bytes, and resolutions from
/// a minimum to a maximum within 1 to 15; and a mode.
#[derive(Clone, Debug, PartialEq, Eq)]
pub struct Layout {
    kinds: Vec<Kind>,
    kind_bytes: Vec<u8>,
    numbers: [u32; 8],
}

impl Layout {
    /// Starts a layout with no channel, no band and no frame, resolutions 1 to 15, and
    /// [`Mode::Rust`].
    pub fn builder() -> LayoutBuilder {
        LayoutBuilder::default()
    }

    /// How many channels there are, 1 to 16.
    pub fn channels(&self) -> usize {
        self.kinds.len()
    }

    /// What each channel is.
    pub fn kinds(&self) -> &[Kind] {
        &self.kinds
    }

    /// Bands that every channel codes.
    pub fn base_bands(&self) -> usize {
        self.numbers[1] as usize
    }

    /// Further bands that all but secondaries code.
    pub fn stereo_bands(&self) -> usize {
        self.numbers[2] as usize
    }

    /// All bands; those from [`start`](Layout::start) on are reconstructed.
    pub fn total_bands(&self) -> usize {
        self.numbers[3] as usize
    }

    /// Bytes of a frame.
    pub fn frame_size(&self) -> usize {
        self.numbers[4] as usize
    }

    /// The lowest resolution of a band that is not silent, 1 to the maximum.
    pub fn minimum_resolution(&self) -> usize {
        self.numbers[5] as usize
    }

    /// The highest resolution of a band, the minimum to 15.
    pub fn maximum_resolution(&self) -> usize {
        self.numbers[6] as usize
    }

    /// What becomes of a code past its range.
    pub fn mode(&self) -> Mode {
        match self.numbers[7] {
            0 => Mode::Rust,
            _ => Mode::Held,
        }
    }

    /// The band where high-frequency reconstruction starts.
    pub fn start(&self) -> usize {
        self.base_bands() + self.stereo_bands()
    }

    /// Bands of a high-frequency group; 0 where there are none.
    pub fn bands_per_group(&self) -> usize {
        (self.total_bands() - self.start()).div_ceil(8)
    }

    /// High-frequency groups of a channel that is not a secondary; at most 8.
    pub fn groups(&self) -> usize {
        match self.bands_per_group() {
            0 => 0,
            g => (self.total_bands() - self.start()).div_ceil(g),
        }
    }

    /// Bands whose codes a channel writes. Panics where there is no such channel.
    pub fn coded_count(&self, channel: usize) -> usize {
        match self.kinds[channel] {
            Kind::StereoSecondary => self.base_bands(),
            _ => self.start(),
        }
    }

    /// The numbers of the C interface: channels, base, stereo, total, frame size, minimum,
    /// maximum, mode. A later version may have more.
    pub fn numbers(&self) -> &[u32] {
        &self.numbers
    }

    /// The kinds of the C interface.
    pub fn kind_bytes(&self) -> &[u8] {
        &self.kind_bytes
    }
}

/// Collects a [`Layout`]; [`build`](LayoutBuilder::build) judges it.
#[derive(Clone, Debug)]
pub struct LayoutBuilder {
    kinds: Vec<Kind>,
    base: u32,
    stereo: u32,
    total: u32,
    frame: u32,
    minimum: u32,
    maximum: u32,
    mode: Mode,
}

impl Default for LayoutBuilder {
    fn default() -> Self {
        LayoutBuilder { kinds: Vec::new(), base: 0, stereo: 0, total: 0, frame: 0, minimum: 1, maximum: 15, mode: Mode::Rust }
    }
}

impl LayoutBuilder {
    /// One more channel.
    pub fn channel(mut self, kind: Kind) -> Self {
        self.kinds.push(kind);
        self
    }

    /// All channels at once.
    pub fn channels(mut self, kinds: &[Kind]) -> Self {
        self.kinds = kinds.to_vec();
        self
    }

    /// Bands coded in every channel, bands coded in all but secondaries, all bands.
    pub fn bands(mut self, base: u32, stereo: u32, total: u32) -> Self {
        (self.base, self.stereo, self.total) = (base, stereo, total);
        self
    }

    /// Bytes of a frame, its check among them.
    pub fn frame_size(mut self, bytes: u32) -> Self {
        self.frame = bytes;
        self
    }

    /// The lowest and the highest resolution of a band that is not silent; 1 and 15 where
    /// this is not called. A frame is read with the two that it was made with.
    pub fn resolutions(mut self, minimum: u32, maximum: u32) -> Self {
        (self.minimum, self.maximum) = (minimum, maximum);
        self
    }

    /// What becomes of a code past its range; [`Mode::Rust`] where this is not called. A
    /// frame may be read with either.
    pub fn mode(mut self, mode: Mode) -> Self {
        self.mode = mode;
        self
    }

    /// The layout, or the first limit that it breaks.
    pub fn build(self) -> Result<Layout, LayoutError> {
        if self.kinds.is_empty() || self.kinds.len() > 16 {
            return Err(LayoutError::Channels(self.kinds.len()));
        }
        if self.total < 1 || self.total > 128 {
            return Err(LayoutError::Total(self.total));
        }
        if u64::from(self.base) + u64::from(self.stereo) > u64::from(self.total) {
            return Err(LayoutError::Bands { base: self.base, stereo: self.stereo, total: self.total });
        }
        if self.frame < 8 || self.frame > 65_535 {
            return Err(LayoutError::FrameSize(self.frame));
        }
        if self.minimum < 1 || self.maximum < self.minimum || self.maximum > 15 {
            return Err(LayoutError::Resolutions { minimum: self.minimum, maximum: self.maximum });
        }
        let channels = self.kinds.len() as u32;
        let numbers = [channels, self.base, self.stereo, self.total, self.frame, self.minimum, self.maximum, self.mode.number()];
        let kind_bytes = self.kinds.iter().map(|k| k.byte()).collect();
        Ok(Layout { kinds: self.kinds, kind_bytes, numbers })
    }
}

/// The limit that a layout broke.
#[derive(Clone, Copy, Debug, PartialEq, Eq)]
#[non_exhaustive]
pub enum LayoutError {
    /// So many channels; there may be 1 to 16.
    Channels(usize),
    /// So many bands in total; there may be 1 to 128.
    Total(u32),
    /// Base and stereo bands are more than the total.
    #[allow(missing_docs)]
    Bands { base: u32, stereo: u32, total: u32 },
    /// So many bytes of a frame; there may be 8 to 65,535.
    FrameSize(u32),
    /// The lowest resolution is below 1 or above the highest, or that is above 15.
    #[allow(missing_docs)]
    Resolutions { minimum: u32, maximum: u32 },
    /// Another number of kinds than the header has channels; [`FileHeader::layout`](crate::FileHeader::layout) alone gives it.
    #[allow(missing_docs)]
    Kinds { given: usize, channels: usize },
}

impl fmt::Display for LayoutError {
    fn fmt(&self, f: &mut fmt::Formatter<'_>) -> fmt::Result {
        match *self {
            LayoutError::Channels(n) => write!(f, "{n} channels; a layout has 1 to 16"),
            LayoutError::Total(n) => write!(f, "{n} bands in total; a layout has 1 to 128"),
            LayoutError::Bands { base, stereo, total } => {
                write!(f, "{base} base and {stereo} stereo bands are more than the {total} in total")
            }
            LayoutError::FrameSize(n) => write!(f, "a frame of {n} bytes; a frame has 8 to 65,535"),
            LayoutError::Resolutions { minimum, maximum } => {
                write!(f, "resolutions from {minimum} to {maximum}; they are within 1 to 15, the minimum at most the maximum")
            }
            LayoutError::Kinds { given, channels } => write!(f, "kinds for {given} channels; the header has {channels}"),
        }
    }
}

impl std::error::Error for LayoutError {}
