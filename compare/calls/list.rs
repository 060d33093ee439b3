// Safe calls over four C functions of the list's shapes, by the names that they are exported under.
macro_rules! list_calls {
    ($write:ident, $read:ident, $lookup:ident, $summary:ident) => {
        mod list_c {
            extern "C" {
                pub fn $write(frames: u32, entries: *const u32, entries_len: usize, list: *mut u8, list_len: usize) -> u32;
                pub fn $read(
                    list: *const u8,
                    list_len: usize,
                    entries: *mut u32,
                    entries_len: usize,
                    answer: *mut u32,
                    answer_len: usize,
                ) -> u32;
                pub fn $lookup(list: *const u8, list_len: usize, frame: u32, answer: *mut u32, answer_len: usize) -> u32;
                pub fn $summary(list: *const u8, list_len: usize, answer: *mut u64, answer_len: usize) -> u32;
            }
        }

        /// The list's writer; `entries` is level, boundary, pairs, bits, frame after frame.
        pub fn list_write(frames: u32, entries: &[u32], list: &mut [u8]) -> u32 {
            // SAFETY: each pointer goes with its slice's length, and the borrows keep
            // the written slice apart from the other for the length of the call.
            unsafe { list_c::$write(frames, entries.as_ptr(), entries.len(), list.as_mut_ptr(), list.len()) }
        }

        /// The list's reader. Delivers the number of frames.
        pub fn list_read(list: &[u8], entries: &mut [u32], answer: &mut [u32]) -> u32 {
            // SAFETY: as in list_write.
            unsafe {
                list_c::$read(
                    list.as_ptr(),
                    list.len(),
                    entries.as_mut_ptr(),
                    entries.len(),
                    answer.as_mut_ptr(),
                    answer.len(),
                )
            }
        }

        /// The entry of one frame. Delivers level, boundary, pairs, bits.
        pub fn list_lookup(list: &[u8], frame: u32, answer: &mut [u32]) -> u32 {
            // SAFETY: as in list_write.
            unsafe { list_c::$lookup(list.as_ptr(), list.len(), frame, answer.as_mut_ptr(), answer.len()) }
        }

        /// The list's summary. Delivers the highest level, the most pairs, the total of bits.
        pub fn list_summary(list: &[u8], answer: &mut [u64]) -> u32 {
            // SAFETY: as in list_write.
            unsafe { list_c::$summary(list.as_ptr(), list.len(), answer.as_mut_ptr(), answer.len()) }
        }
    };
}
