//! The library's WAV reader by its C name: it has to be in `libhca.a` for what calls it to link.
use hca_frame as _;

include!("../../calls/wav.rs");

wav_call!(hca_read_wav);
