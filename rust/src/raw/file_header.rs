//! The file header's C functions.

mod c {
    extern "C" {
        pub fn hca_write_header(
            layout: *const u32,
            layout_len: usize,
            kinds: *const u8,
            kinds_len: usize,
            stream: *const u64,
            stream_len: usize,
            points: *const u64,
            points_len: usize,
            header: *mut u8,
            header_len: usize,
        ) -> u32;
        pub fn hca_read_header(
            header: *const u8,
            header_len: usize,
            layout: *mut u32,
            layout_len: usize,
            answer: *mut u32,
            answer_len: usize,
        ) -> u32;
    }
}

/// The file header; `stream` is rate, frame count, padding, `points` empty or a loop's start and end.
/// Has no answer: nothing stands beside a refusal.
pub fn write_header(layout: &[u32], kinds: &[u8], stream: &[u64], points: &[u64], header: &mut [u8]) -> u32 {
    // SAFETY: each pointer goes with its slice's length, and the borrow keeps the
    // written slice apart from all others for the length of the call.
    unsafe {
        c::hca_write_header(
            layout.as_ptr(),
            layout.len(),
            kinds.as_ptr(),
            kinds.len(),
            stream.as_ptr(),
            stream.len(),
            points.as_ptr(),
            points.len(),
            header.as_mut_ptr(),
            header.len(),
        )
    }
}

/// The file header back. `layout` takes its seven numbers, `answer` rate, frame count, padding, 1 for a loop, and the loop's
/// frame, delay, end frame and padding; it needs eight places.
pub fn read_header(header: &[u8], layout: &mut [u32], answer: &mut [u32]) -> u32 {
    // SAFETY: as above; the borrows keep the two written slices apart.
    unsafe {
        c::hca_read_header(header.as_ptr(), header.len(), layout.as_mut_ptr(), layout.len(), answer.as_mut_ptr(), answer.len())
    }
}
