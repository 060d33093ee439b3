//! The WAV reader's C function.

mod c {
    extern "C" {
        pub fn hca_read_wav(
            wav: *const u8,
            wav_len: usize,
            samples: *mut f32,
            samples_len: usize,
            note: *mut f32,
            note_len: usize,
            answer: *mut u32,
            answer_len: usize,
        ) -> u32;
    }
}

/// The WAV reader; `note` takes peak and mean. Delivers channels, rate, depth, count.
pub fn read_wav(wav: &[u8], samples: &mut [f32], note: &mut [f32], answer: &mut [u32]) -> u32 {
    // SAFETY: each pointer goes with its slice's length, and the borrows keep
    // written slices apart from all others for the length of the call.
    unsafe {
        c::hca_read_wav(
            wav.as_ptr(),
            wav.len(),
            samples.as_mut_ptr(),
            samples.len(),
            note.as_mut_ptr(),
            note.len(),
            answer.as_mut_ptr(),
            answer.len(),
        )
    }
}
