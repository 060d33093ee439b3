//! bitreader, decoder, encoder, tables: the published files (see import.sh).
//! limited: encoder.rs once more, with the limits of the resolution that the thread has set (see import.sh).
//! wav_samples: the lines of encoder.rs that read a WAV file, by themselves (see import.sh).
//! ath, cipher, imdct: stand-ins for what the published set leaves out.
#![allow(dead_code, unused_imports)]
pub mod ath;
pub mod bitreader;
pub mod cipher;
pub mod decoder;
pub mod encoder;
pub mod imdct;
pub mod limited;
pub mod tables;
pub mod wav_samples;
