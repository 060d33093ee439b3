//! The C function of the stereo stage.

mod c {
    extern "C" {
        pub fn hca_encode_stereo_frame(
            layout: *const u32,
            layout_len: usize,
            kinds: *const u8,
            kinds_len: usize,
            spectra: *mut f32,
            spectra_len: usize,
            intensities: *mut u8,
            intensities_len: usize,
            scaled: *mut f32,
            scaled_len: usize,
            codes: *mut i32,
            codes_len: usize,
            factors: *mut u8,
            factors_len: usize,
            side: *mut u8,
            side_len: usize,
            frame: *mut u8,
            frame_len: usize,
            answer: *mut u32,
            answer_len: usize,
        ) -> u32;
    }
}

/// The stereo stage, from unmixed spectra on, which are left as mixed. Delivers
/// level, boundary, pairs removed, bits written.
#[allow(clippy::too_many_arguments)]
pub fn encode_stereo_frame(
    layout: &[u32],
    kinds: &[u8],
    spectra: &mut [f32],
    intensities: &mut [u8],
    scaled: &mut [f32],
    codes: &mut [i32],
    factors: &mut [u8],
    side: &mut [u8],
    frame: &mut [u8],
    answer: &mut [u32],
) -> u32 {
    // SAFETY: each pointer goes with its slice's length, and the borrows keep
    // written slices apart from all others for the length of the call.
    unsafe {
        c::hca_encode_stereo_frame(
            layout.as_ptr(),
            layout.len(),
            kinds.as_ptr(),
            kinds.len(),
            spectra.as_mut_ptr(),
            spectra.len(),
            intensities.as_mut_ptr(),
            intensities.len(),
            scaled.as_mut_ptr(),
            scaled.len(),
            codes.as_mut_ptr(),
            codes.len(),
            factors.as_mut_ptr(),
            factors.len(),
            side.as_mut_ptr(),
            side.len(),
            frame.as_mut_ptr(),
            frame.len(),
            answer.as_mut_ptr(),
            answer.len(),
        )
    }
}
