// A safe call over a C function of the header reader's shape, by the name that it is exported under.
macro_rules! header_back_call {
    ($read_header:ident) => {
        mod header_back_c {
            extern "C" {
                pub fn $read_header(
                    header: *const u8,
                    header_len: usize,
                    layout: *mut u32,
                    layout_len: usize,
                    answer: *mut u32,
                    answer_len: usize,
                ) -> u32;
            }
        }

        /// The header reader; `layout` takes seven numbers, `answer` eight.
        pub fn read_header(header: &[u8], layout: &mut [u32], answer: &mut [u32]) -> u32 {
            // SAFETY: each pointer goes with its slice's length, and the borrows keep
            // the written slices apart from all others for the length of the call.
            unsafe {
                header_back_c::$read_header(
                    header.as_ptr(),
                    header.len(),
                    layout.as_mut_ptr(),
                    layout.len(),
                    answer.as_mut_ptr(),
                    answer.len(),
                )
            }
        }
    };
}
