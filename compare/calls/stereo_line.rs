// A safe call over a C function of the shape of hca_encode_stereo_line, by the name that it is exported under.
macro_rules! stereo_line_call {
    ($encode_stereo_line:ident) => {
        mod stereo_line_c {
            extern "C" {
                pub fn $encode_stereo_line(
                    layout: *const u32,
                    layout_len: usize,
                    kinds: *const u8,
                    kinds_len: usize,
                    count: usize,
                    spectra: *mut f32,
                    spectra_len: usize,
                    intensities: *mut u8,
                    intensities_len: usize,
                    scaled: *mut f32,
                    scaled_len: usize,
                    codes: *mut i32,
                    codes_len: usize,
                    factors: *mut u8,
                    factors_len: usize,
                    side: *mut u8,
                    side_len: usize,
                    frames: *mut u8,
                    frames_len: usize,
                    answers: *mut u32,
                    answers_len: usize,
                    tally: *mut u64,
                    tally_len: usize,
                    answer: *mut u32,
                    answer_len: usize,
                ) -> u32;
            }
        }

        /// A line of `count` frames of one layout from unmixed spectra, which are left as mixed. Delivers each frame, its four answers and the tally.
        #[allow(clippy::too_many_arguments)]
        pub fn encode_stereo_line(
            layout: &[u32],
            kinds: &[u8],
            count: usize,
            spectra: &mut [f32],
            intensities: &mut [u8],
            scaled: &mut [f32],
            codes: &mut [i32],
            factors: &mut [u8],
            side: &mut [u8],
            frames: &mut [u8],
            answers: &mut [u32],
            tally: &mut [u64],
            answer: &mut [u32],
        ) -> u32 {
            // SAFETY: each pointer goes with its slice's length, and the borrows keep
            // written slices apart from all others for the length of the call.
            unsafe {
                stereo_line_c::$encode_stereo_line(
                    layout.as_ptr(),
                    layout.len(),
                    kinds.as_ptr(),
                    kinds.len(),
                    count,
                    spectra.as_mut_ptr(),
                    spectra.len(),
                    intensities.as_mut_ptr(),
                    intensities.len(),
                    scaled.as_mut_ptr(),
                    scaled.len(),
                    codes.as_mut_ptr(),
                    codes.len(),
                    factors.as_mut_ptr(),
                    factors.len(),
                    side.as_mut_ptr(),
                    side.len(),
                    frames.as_mut_ptr(),
                    frames.len(),
                    answers.as_mut_ptr(),
                    answers.len(),
                    tally.as_mut_ptr(),
                    tally.len(),
                    answer.as_mut_ptr(),
                    answer.len(),
                )
            }
        }
    };
}
