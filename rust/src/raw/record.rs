//! The C functions of the record writer and of the strict reader.

mod c {
    extern "C" {
        pub fn hca_write_record(
            layout: *const u32,
            layout_len: usize,
            kinds: *const u8,
            kinds_len: usize,
            record: *const u32,
            record_len: usize,
            factors: *const u8,
            factors_len: usize,
            side: *const u8,
            side_len: usize,
            codes: *const i32,
            codes_len: usize,
            frame: *mut u8,
            frame_len: usize,
            answer: *mut u32,
            answer_len: usize,
        ) -> u32;

        pub fn hca_read_frame(
            layout: *const u32,
            layout_len: usize,
            kinds: *const u8,
            kinds_len: usize,
            frame: *const u8,
            frame_len: usize,
            factors: *mut u8,
            factors_len: usize,
            side: *mut u8,
            side_len: usize,
            codes: *mut i32,
            codes_len: usize,
            answer: *mut u32,
            answer_len: usize,
        ) -> u32;
    }
}

/// The record writer; `record` is level, boundary. Delivers level, boundary, bits.
#[allow(clippy::too_many_arguments)]
pub fn write_record(
    layout: &[u32],
    kinds: &[u8],
    record: &[u32],
    factors: &[u8],
    side: &[u8],
    codes: &[i32],
    frame: &mut [u8],
    answer: &mut [u32],
) -> u32 {
    // SAFETY: each pointer goes with its slice's length, and the borrows keep
    // written slices apart from all others for the length of the call.
    unsafe {
        c::hca_write_record(
            layout.as_ptr(),
            layout.len(),
            kinds.as_ptr(),
            kinds.len(),
            record.as_ptr(),
            record.len(),
            factors.as_ptr(),
            factors.len(),
            side.as_ptr(),
            side.len(),
            codes.as_ptr(),
            codes.len(),
            frame.as_mut_ptr(),
            frame.len(),
            answer.as_mut_ptr(),
            answer.len(),
        )
    }
}

/// The strict reader. Delivers level, boundary, bits.
pub fn read_frame(
    layout: &[u32],
    kinds: &[u8],
    frame: &[u8],
    factors: &mut [u8],
    side: &mut [u8],
    codes: &mut [i32],
    answer: &mut [u32],
) -> u32 {
    // SAFETY: as in write_record.
    unsafe {
        c::hca_read_frame(
            layout.as_ptr(),
            layout.len(),
            kinds.as_ptr(),
            kinds.len(),
            frame.as_ptr(),
            frame.len(),
            factors.as_mut_ptr(),
            factors.len(),
            side.as_mut_ptr(),
            side.len(),
            codes.as_mut_ptr(),
            codes.len(),
            answer.as_mut_ptr(),
            answer.len(),
        )
    }
}
