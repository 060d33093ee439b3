//! Calls of the C++ model, with the shapes of the C interface: see model.cpp and the files beside it.

include!("../../calls/frame.rs");

calls!(model_encode_frame, model_write_record, model_read_frame, model_checksum);

include!("../../calls/header.rs");

header_call!(model_write_header);

include!("../../calls/header_back.rs");

header_back_call!(model_read_header);

include!("../../calls/list.rs");

list_calls!(model_list_write, model_list_read, model_list_lookup, model_list_summary);

include!("../../calls/wav.rs");

wav_call!(model_read_wav);

include!("../../calls/stereo.rs");

stereo_call!(model_encode_stereo_frame);

include!("../../calls/line.rs");
include!("../../calls/stereo_line.rs");

line_call!(model_encode_line);
stereo_line_call!(model_encode_stereo_line);

type Over<'a> = &'a mut dyn FnMut(u32) -> bool;

extern "C" {
    fn model_search_boundary(over: extern "C" fn(u32, *mut std::ffi::c_void) -> bool, with: *mut std::ffi::c_void) -> u32;
}

extern "C" fn ask(probe: u32, with: *mut std::ffi::c_void) -> bool {
    // SAFETY: `search_boundary` lends its own `over` for the length of the call
    unsafe { (*with.cast::<Over>())(probe) }
}

/// The model's boundary search over any test.
pub fn search_boundary(mut over: Over) -> u32 {
    // SAFETY: `ask` takes what is lent here for what it is
    unsafe { model_search_boundary(ask, std::ptr::from_mut(&mut over).cast()) }
}

extern "C" {
    fn model_searched(
        layout: *const u32,
        layout_len: usize,
        kinds: *const u8,
        kinds_len: usize,
        spectra: *const f32,
        scaled: *mut f32,
        factors: *mut u8,
        found: *mut u32,
    ) -> bool;

    fn model_estimates(
        layout: *const u32,
        layout_len: usize,
        kinds: *const u8,
        kinds_len: usize,
        scaled: *const f32,
        factors: *const u8,
        level: u32,
        estimates: *mut u32,
        estimates_len: usize,
    ) -> bool;
}

/// Scaled values, factors before any removal, and what the model's searches find.
pub struct Searched {
    pub scaled: Vec<f32>,
    pub factors: Vec<u8>,
    /// 255: none
    pub level: u32,
    pub boundary: u32,
    pub pairs: u32,
}

/// What the searches come to on finite spectra; none where the layout is not legal.
pub fn searched(layout: &[u32], kinds: &[u8], spectra: &[f32]) -> Option<Searched> {
    let channels = kinds.len().min(16);
    let (mut scaled, mut factors, mut found) = (vec![0.0; 16 * 1024], vec![0; 16 * 128], [0; 3]);
    assert!(spectra.len() >= layout.first().map_or(0, |&n| n as usize).min(channels) * 1024);
    // SAFETY: a legal layout has at most sixteen channels and a kind for each; room for sixteen is lent, and the spectra were measured
    let legal = unsafe {
        model_searched(
            layout.as_ptr(),
            layout.len(),
            kinds.as_ptr(),
            kinds.len(),
            spectra.as_ptr(),
            scaled.as_mut_ptr(),
            factors.as_mut_ptr(),
            found.as_mut_ptr(),
        )
    };
    legal.then(|| {
        let n = layout[0] as usize;
        scaled.truncate(n * 1024);
        factors.truncate(n * 128);
        Searched { scaled, factors, level: found[0], boundary: found[1], pairs: found[2] }
    })
}

fn estimates<const N: usize>(layout: &[u32], kinds: &[u8], scaled: &[f32], factors: &[u8], level: u32) -> [u32; N] {
    let mut all = [0; N];
    let n = layout[0] as usize;
    assert!(scaled.len() >= n * 1024 && factors.len() >= n * 128);
    // SAFETY: the layout's channels were measured against both slices
    let legal = unsafe {
        model_estimates(
            layout.as_ptr(),
            layout.len(),
            kinds.as_ptr(),
            kinds.len(),
            scaled.as_ptr(),
            factors.as_ptr(),
            level,
            all.as_mut_ptr(),
            N,
        )
    };
    assert!(legal);
    all
}

/// The model's estimate at each level with boundary 0.
pub fn at_levels(layout: &[u32], kinds: &[u8], scaled: &[f32], factors: &[u8]) -> [u32; 255] {
    estimates(layout, kinds, scaled, factors, 0)
}

/// The model's estimate at each boundary with this level.
pub fn at_boundaries(layout: &[u32], kinds: &[u8], scaled: &[f32], factors: &[u8], level: u32) -> [u32; 128] {
    estimates(layout, kinds, scaled, factors, level)
}
