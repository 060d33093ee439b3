//! A whole line of frames in one call.
use crate::{raw, Delivered, Encoder, Refusal};
use std::fmt;

/// What a caller's lines have delivered so far. A count above 2^63 is refused.
#[derive(Clone, Copy, Debug, Default, PartialEq, Eq)]
#[non_exhaustive]
pub struct Tally {
    /// Frames.
    pub frames: u64,
    /// Bits of all their fields, before the fill.
    pub bits: u64,
    /// Their pairs of bands removed.
    pub pairs: u64,
}

impl Tally {
    /// A tally that goes on from these counts; [`Tally::default`] begins one.
    pub const fn new(frames: u64, bits: u64, pairs: u64) -> Self {
        Tally { frames, bits, pairs }
    }
}

/// Why a line ended, and at which frame.
#[derive(Clone, Copy, Debug, PartialEq, Eq, Hash)]
pub struct LineRefusal {
    /// The number, and the number beside it: with 3 and 4 an index within that frame's part.
    pub refusal: Refusal,
    /// The frame's index; none with 1, 18 and 2, which change nothing.
    pub frame: Option<usize>,
}

impl fmt::Display for LineRefusal {
    fn fmt(&self, f: &mut fmt::Formatter<'_>) -> fmt::Result {
        match self.frame {
            Some(k) => write!(f, "frame {k}: {}", self.refusal),
            None => self.refusal.fmt(f),
        }
    }
}

impl std::error::Error for LineRefusal {
    fn source(&self) -> Option<&(dyn std::error::Error + 'static)> {
        Some(&self.refusal)
    }
}

impl Encoder {
    /// Encodes `count` frames, at most 65,535, each as [`encode_frame`](Encoder::encode_frame)
    /// would, and brings `tally` up to date for those that were delivered. Pairs must be mixed
    /// already, as for that call; unmixed spectra go to
    /// [`encode_stereo_line`](Encoder::encode_stereo_line). Each slice has a part for each frame:
    /// `spectra` channels x 1,024, `intensities` channels x 8, `frames` the frame's size, `answers`
    /// what the single call delivers, as [`write_list`](crate::write_list) takes them. A longer slice keeps its rest.
    ///
    /// ```
    /// use hca_frame::{list_summary, write_list, Delivered, Encoder, Kind, Layout, Tally};
    ///
    /// let layout = Layout::builder().channel(Kind::Discrete).bands(64, 0, 100).frame_size(170).build()?;
    /// let (mut frames, mut answers, mut tally) = ([0; 2 * 170], [Delivered::default(); 2], Tally::default());
    /// Encoder::new(layout).encode_line(2, &[0.5; 2 * 1024], &[0; 2 * 8], &mut frames, &mut answers, &mut tally)?;
    /// let list = write_list(&answers)?;
    /// assert_eq!(list_summary(&list)?.bits, tally.bits);
    /// # Ok::<(), Box<dyn std::error::Error>>(())
    /// ```
    ///
    /// At a refusal of frame k the frames before it stand; its own bytes are as they were after 3
    /// and 4 and zero after 5 and 7, and all that is behind it is as it was. The encoder's work
    /// buffers are then those of the last frame tried; [`frame`](Encoder::frame) is never touched.
    /// Nothing is allocated, and the thread's float modes matter as for a single frame.
    pub fn encode_line(
        &mut self,
        count: usize,
        spectra: &[f32],
        intensities: &[u8],
        frames: &mut [u8],
        answers: &mut [Delivered],
        tally: &mut Tally,
    ) -> Result<(), LineRefusal> {
        let mut answer = [0; 4];
        let mut counts = [tally.frames, tally.bits, tally.pairs];
        let number = raw::encode_line(
            self.layout.numbers(),
            self.layout.kind_bytes(),
            count,
            spectra,
            intensities,
            &mut self.scaled,
            &mut self.codes,
            &mut self.factors,
            &mut self.side,
            frames,
            raw::numbers_of(answers),
            &mut counts,
            &mut answer,
        );
        [tally.frames, tally.bits, tally.pairs] = counts;
        ended(number, answer)
    }

    /// Encodes `count` frames as [`encode_line`](Encoder::encode_line) does, each as
    /// [`encode_stereo_frame`](Encoder::encode_stereo_frame) would: from unmixed spectra on.
    ///
    /// Spectra and intensities of delivered frames are left as mixed, and so are those of a frame that
    /// is refused with 5 or 7; those of one that is refused with 3, 4 or 17, and of all later frames,
    /// are as they were. What is left as mixed is not to be passed again.
    pub fn encode_stereo_line(
        &mut self,
        count: usize,
        spectra: &mut [f32],
        intensities: &mut [u8],
        frames: &mut [u8],
        answers: &mut [Delivered],
        tally: &mut Tally,
    ) -> Result<(), LineRefusal> {
        let mut answer = [0; 4];
        let mut counts = [tally.frames, tally.bits, tally.pairs];
        let number = raw::encode_stereo_line(
            self.layout.numbers(),
            self.layout.kind_bytes(),
            count,
            spectra,
            intensities,
            &mut self.scaled,
            &mut self.codes,
            &mut self.factors,
            &mut self.side,
            frames,
            raw::numbers_of(answers),
            &mut counts,
            &mut answer,
        );
        [tally.frames, tally.bits, tally.pairs] = counts;
        ended(number, answer)
    }
}

/// How a line ended, by its number and the answer's first two places.
fn ended(number: u32, answer: [u32; 4]) -> Result<(), LineRefusal> {
    let refusal = Refusal::new(number, answer[0]);
    match number {
        0 => Ok(()),
        Refusal::BAD_LAYOUT | Refusal::BAD_BATCH | Refusal::SHORT_BUFFER => Err(LineRefusal { refusal, frame: None }),
        _ => Err(LineRefusal { refusal, frame: Some(answer[1] as usize) }),
    }
}
