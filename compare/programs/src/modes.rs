//! What held mode promises of a delivered frame, and what the two modes may differ in.
use published::driver::{Lent, StageCall};
use published::limits::{mode_of, HELD, RUST};

/// The only scaled value whose code can pass its range.
const UPPER_CLIP: u32 = 0x3F7F_FFFE;

/// Who reads and writes: the library, or the model in its place.
#[derive(Clone, Copy)]
pub struct Way {
    pub model: bool,
}

impl Way {
    /// Level, boundary, factors, side and codes of a frame as the strict reader hands them back; none where it refuses.
    fn read(self, layout: &[u32], kinds: &[u8], frame: &[u8]) -> Option<(Vec<u32>, Lent)> {
        let n = layout[0] as usize;
        let (mut factors, mut side, mut codes, mut answer) = (vec![9; n * 128], vec![9; n * 8], vec![9; n * 1024], vec![9; 4]);
        let f = if self.model { hca_model::read_frame } else { hca_frame::raw::read_frame };
        let number = f(layout, kinds, frame, &mut factors, &mut side, &mut codes, &mut answer);
        let record = Lent { scaled: Vec::new(), codes, factors, side, frame: Vec::new(), answer: Vec::new() };
        (number == 0).then_some((answer, record))
    }

    /// The frame that the record writer makes of what a call left, and its bits; none where it refuses.
    fn write(self, layout: &[u32], kinds: &[u8], left: &Lent) -> Option<(Vec<u8>, u32)> {
        let (mut frame, mut answer) = (vec![9; layout[4] as usize], [9; 4]);
        let f = if self.model { hca_model::write_record } else { hca_frame::raw::write_record };
        let number = f(layout, kinds, &left.answer[..2], &left.factors, &left.side, &left.codes, &mut frame, &mut answer);
        (number == 0).then_some((frame, answer[2]))
    }

    /// Is a delivered frame read back to the record that the call left, and is that written back to the frame, with the same bits?
    pub fn is_read_back(self, layout: &[u32], kinds: &[u8], left: &Lent) -> bool {
        let (n, size) = (layout[0] as usize, layout[4] as usize);
        let Some((answer, record)) = self.read(layout, kinds, &left.frame[..size]) else { return false };
        answer[..3] == [left.answer[0], left.answer[1], left.answer[3]]
            && record.factors == left.factors[..n * 128]
            && record.side == left.side[..n * 8]
            && record.codes == left.codes[..n * 1024]
            && self.write(layout, kinds, left) == Some((left.frame[..size].to_vec(), left.answer[3]))
    }
}

/// A layout's numbers with this mode; what stands behind the eighth is left out.
pub fn in_mode(layout: &[u32], mode: u32) -> Vec<u32> {
    let (minimum, maximum) = published::limits::pair_of(layout);
    [&layout[..5], &[minimum, maximum, mode]].concat()
}

/// What is wrong with a call in held mode, which left `held`, beside the same in the Rust's mode, which left `rust`; and what is to be counted.
pub fn beside(way: Way, call: &StageCall, held: (u32, &Lent), rust: (u32, &Lent)) -> (Vec<String>, String) {
    let (mut counted, mut text) = (Vec::new(), String::new());
    let layout = |mode| in_mode(&call.layout, mode);
    if held.0 == 0 {
        match way.is_read_back(&layout(HELD), &call.kinds, held.1) {
            true => counted.push("(held: read back)".to_string()),
            false => {
                text.push_str("  held mode: the frame is not read back to its record, or that not written back to the frame\n")
            }
        }
    }
    if rust.0 == 0 {
        let is_back = way.is_read_back(&layout(RUST), &call.kinds, rust.1);
        counted.push(if is_back { "(rust: read back)" } else { "(rust: NOT read back)" }.to_string());
    }
    let size = call.layout[4] as usize;
    let frames = [held, rust].map(|(number, left)| (number == 0).then(|| &left.frame[..size]));
    if frames[0] != frames[1] {
        counted.push("(other frames)".to_string());
        let is_clipped = |left: &Lent| left.scaled.iter().any(|v| v.to_bits() == UPPER_CLIP);
        if ![held, rust].iter().any(|&(number, left)| number == 0 && is_clipped(left)) {
            text.push_str("  the modes have other frames where no scaled value is 0x3F7FFFFE\n");
        }
    }
    (counted, text)
}

/// Is the call one of held mode?
pub fn is_held(layout: &[u32]) -> bool {
    layout.len() > 7 && mode_of(layout) == HELD
}
