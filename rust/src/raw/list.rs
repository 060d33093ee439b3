//! The C functions of the list beside the bank.

mod c {
    extern "C" {
        pub fn hca_list_write(frames: u32, entries: *const u32, entries_len: usize, list: *mut u8, list_len: usize) -> u32;

        pub fn hca_list_read(
            list: *const u8,
            list_len: usize,
            entries: *mut u32,
            entries_len: usize,
            answer: *mut u32,
            answer_len: usize,
        ) -> u32;

        pub fn hca_list_lookup(list: *const u8, list_len: usize, frame: u32, answer: *mut u32, answer_len: usize) -> u32;

        pub fn hca_list_summary(list: *const u8, list_len: usize, answer: *mut u64, answer_len: usize) -> u32;
    }
}

/// The list's writer; `entries` is level, boundary, pairs, bits, frame after frame. Has no answer.
pub fn list_write(frames: u32, entries: &[u32], list: &mut [u8]) -> u32 {
    // SAFETY: each pointer goes with its slice's length, and the borrow keeps the
    // written slice apart from all others for the length of the call.
    unsafe { c::hca_list_write(frames, entries.as_ptr(), entries.len(), list.as_mut_ptr(), list.len()) }
}

/// The list's reader. Delivers how many frames it has.
pub fn list_read(list: &[u8], entries: &mut [u32], answer: &mut [u32]) -> u32 {
    // SAFETY: as in list_write.
    unsafe { c::hca_list_read(list.as_ptr(), list.len(), entries.as_mut_ptr(), entries.len(), answer.as_mut_ptr(), answer.len()) }
}

/// The list's lookup by frame number. Delivers level, boundary, pairs, bits.
pub fn list_lookup(list: &[u8], frame: u32, answer: &mut [u32]) -> u32 {
    // SAFETY: as in list_write.
    unsafe { c::hca_list_lookup(list.as_ptr(), list.len(), frame, answer.as_mut_ptr(), answer.len()) }
}

/// The list's summary. Delivers the highest level, the most pairs, the total of bits.
pub fn list_summary(list: &[u8], answer: &mut [u64]) -> u32 {
    // SAFETY: as in list_write.
    unsafe { c::hca_list_summary(list.as_ptr(), list.len(), answer.as_mut_ptr(), answer.len()) }
}
