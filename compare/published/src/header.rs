//! The file header as document 02 has it, over the unchanged Rust: refusals 1, 2 and 16, which the Rust has not or has
//! elsewhere, and its own `write_header` for the bytes.
use crate::call::layout_fits;
use crate::limits::header_of;

/// A call of the header writer: every slice with a length of its own.
#[derive(Clone, Debug)]
pub struct HeaderCall {
    /// channels, base, stereo, total, frame size, minimum, maximum, mode
    pub layout: Vec<u32>,
    pub kinds: Vec<u8>,
    /// rate, count, padding
    pub stream: Vec<u64>,
    /// none, or start and end
    pub points: Vec<u64>,
    /// of header
    pub length: usize,
    /// what header holds before the call
    pub pattern: u32,
}

/// Refusal 16 is for what does not fit: written by the fields' own types, not by limits.
fn fits(call: &HeaderCall) -> bool {
    let (rate, count, padding) = (call.stream[0], call.stream[1], call.stream[2]);
    let shifted = |&point: &u64| u128::from(point) + 128;
    call.layout[0] <= 8
        && rate != 0
        && rate >> 23 == 0
        && u32::try_from(count).is_ok()
        && u16::try_from(padding).is_ok()
        && call.points.iter().take(2).all(|p| u32::try_from(shifted(p)).is_ok())
}

/// Refusals 1, 2 and 16 of document 02.
pub fn refused(call: &HeaderCall) -> Option<u32> {
    if !layout_fits(&call.layout, &call.kinds) {
        Some(1)
    } else if call.stream.len() < 3 || call.points.len() == 1 || call.length < 96 {
        Some(2)
    } else if !fits(call) {
        Some(16)
    } else {
        None
    }
}

/// The whole call: the refusal number (0: delivered), with `header`, which holds what is lent, as the call leaves it.
pub fn write(call: &HeaderCall, header: &mut [u8]) -> u32 {
    if let Some(number) = refused(call) {
        return number;
    }
    header[..96].copy_from_slice(&header_of(call));
    0
}
