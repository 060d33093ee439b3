//! The list beside the bank: what the stage answered for each frame of a line.
use crate::{delivered, raw, Delivered, Refusal};

/// A line at a glance.
#[derive(Clone, Copy, Debug, PartialEq, Eq, Hash)]
#[non_exhaustive]
pub struct Summary {
    /// The highest level, up to 511; 0 for no frames.
    pub level: u32,
    /// The most pairs removed in a frame, up to 63; 0 for no frames.
    pub pairs: u32,
    /// The total of bits.
    pub bits: u64,
}

/// The list of a line's frames: 9 bytes, and 8 for each frame. What the stage
/// delivers is always within the list's limits.
///
/// ```
/// use hca_frame::{list_entry, list_summary, read_list, write_list, Encoder, Kind, Layout};
///
/// let layout = Layout::builder().channel(Kind::Discrete).bands(64, 0, 100).frame_size(170).build()?;
/// let mut encoder = Encoder::new(layout);
/// let line = [encoder.encode_frame(&[0.0; 1024], &[0; 8])?, encoder.encode_frame(&[0.5; 1024], &[0; 8])?];
///
/// let list = write_list(&line)?;
/// assert_eq!(list.len(), 25);
/// assert_eq!(read_list(&list)?, line);
/// assert_eq!(list_entry(&list, 1)?, line[1]);
/// assert_eq!(list_summary(&list)?.level, line[1].level);
/// # Ok::<(), Box<dyn std::error::Error>>(())
/// ```
///
/// # Panics
///
/// Of more than 2^32 - 1 frames, which a list cannot count.
pub fn write_list(line: &[Delivered]) -> Result<Vec<u8>, Refusal> {
    let frames = u32::try_from(line.len()).expect("a list counts up to 2^32 - 1 frames");
    let entries: Vec<u32> = line.iter().flat_map(|frame| [frame.level, frame.boundary, frame.pairs, frame.bits]).collect();
    let mut list = vec![0; 9 + 8 * line.len()];
    match raw::list_write(frames, &entries, &mut list) {
        0 => Ok(list),
        number => Err(Refusal::new(number, 0)),
    }
}

/// Reads a whole list strictly: what it accepts, [`write_list`] writes to the same
/// bytes. A level may be up to 511 here, where the stage gives at most 254.
pub fn read_list(list: &[u8]) -> Result<Vec<Delivered>, Refusal> {
    let mut entries = vec![0; list.len().saturating_sub(9) / 8 * 4];
    let mut answer = [0; 4];
    delivered(raw::list_read(list, &mut entries, &mut answer), answer)?;
    Ok(entries.chunks_exact(4).map(frame_of).collect())
}

/// What stands in a list for one frame, the first being 0. The whole list is
/// judged: a bad entry elsewhere refuses the lookup too.
pub fn list_entry(list: &[u8], frame: u32) -> Result<Delivered, Refusal> {
    let mut answer = [0; 4];
    delivered(raw::list_lookup(list, frame, &mut answer), answer).map(|numbers| frame_of(&numbers))
}

/// The summary of a list.
pub fn list_summary(list: &[u8]) -> Result<Summary, Refusal> {
    let mut answer = [0; 3];
    match raw::list_summary(list, &mut answer) {
        // at most 511 and 63, as every level and every count of pairs in a list
        0 => Ok(Summary { level: answer[0] as u32, pairs: answer[1] as u32, bits: answer[2] }),
        number => Err(Refusal::new(number, 0)),
    }
}

fn frame_of(numbers: &[u32]) -> Delivered {
    Delivered { level: numbers[0], boundary: numbers[1], pairs: numbers[2], bits: numbers[3] }
}
