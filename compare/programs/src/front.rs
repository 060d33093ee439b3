//! A WAV file through the Rust's own front end (MDCT and intensity stereo): the calls of the stage that its frames make.
use gen::speech::call_of;
use published::driver::StageCall;
use published::hca::encoder::{HcaEncoder, HcaEncoderConfig};

const FRAME: usize = 1024;

pub struct Wav {
    pub rate: u32,
    pub channels: usize,
    /// interleaved, within -1..1
    pub samples: Vec<f32>,
}

fn u16_at(b: &[u8], at: usize) -> u16 {
    u16::from_le_bytes([b[at], b[at + 1]])
}

fn u32_at(b: &[u8], at: usize) -> u32 {
    u32::from_le_bytes([b[at], b[at + 1], b[at + 2], b[at + 3]])
}

/// What a fmt chunk says: tag, channels, rate, bits. The tag of an extensible header is the one that its subformat begins with.
fn format_of(body: &[u8]) -> Option<(u16, u16, u32, u16)> {
    if body.len() < 16 {
        return None;
    }
    let tag = match u16_at(body, 0) {
        EXTENSIBLE if body.len() >= 26 => u16_at(body, 24),
        plain => plain,
    };
    Some((tag, u16_at(body, 2), u32_at(body, 4), u16_at(body, 14)))
}

const EXTENSIBLE: u16 = 0xFFFE;

/// The samples of a data chunk, if they are 16-bit integers.
fn samples_of(format: Option<(u16, u16, u32, u16)>, body: &[u8]) -> Result<Wav, String> {
    let (channels, rate) = match format {
        None => return Err("no whole fmt chunk stands before the samples".to_string()),
        Some((1, channels, rate, 16)) => (usize::from(channels), rate),
        Some((tag, _, _, bits)) => {
            let sort = match tag {
                1 => "integer",
                3 => "float",
                _ => "packed",
            };
            let to = "16-bit integers are needed: sox IN.wav -b 16 -e signed OUT.wav, or ffmpeg -i IN.wav -c:a pcm_s16le OUT.wav";
            return Err(format!("{bits}-bit {sort} samples (format {tag}); {to}"));
        }
    };
    let whole = body.len() / 2 / channels.max(1) * channels * 2;
    if whole == 0 {
        return Err(format!("no samples of {channels} channels"));
    }
    let value = |s: &[u8]| f32::from(i16::from_le_bytes([s[0], s[1]])) / 32768.0;
    Ok(Wav { rate, channels, samples: body[..whole].chunks_exact(2).map(value).collect() })
}

/// The samples of a WAV file's bytes: 16-bit integers, by a plain or an extensible header.
fn wav_of(bytes: &[u8]) -> Result<Wav, String> {
    if bytes.len() < 12 || &bytes[..4] != b"RIFF" || &bytes[8..12] != b"WAVE" {
        return Err("not a WAV file: it does not begin with RIFF and WAVE".to_string());
    }
    let (mut at, mut format) = (12, None);
    while at + 8 <= bytes.len() {
        let size = u32_at(bytes, at + 4) as usize;
        let body = &bytes[at + 8..bytes.len().min(at + 8 + size)];
        match &bytes[at..at + 4] {
            b"fmt " => format = format_of(body),
            b"data" => return samples_of(format, body),
            _ => {}
        }
        at += 8 + size + size % 2;
    }
    Err("no data chunk".to_string())
}

/// A WAV file of 16-bit samples.
pub fn read_wav(path: &str) -> Result<Wav, String> {
    let bytes = std::fs::read(path).map_err(|e| format!("{path}: {e}"))?;
    wav_of(&bytes).map_err(|e| format!("{path}: {e}"))
}

/// The Rust's encoder for a WAV file at a bit rate, its layout chosen by calculate_band_counts.
pub fn encoder_for(wav: &Wav, bitrate: u32) -> Result<HcaEncoder, String> {
    let config = HcaEncoderConfig::new(wav.rate, wav.channels as u32).with_bitrate(bitrate);
    HcaEncoder::new(config)
        .map_err(|e| format!("{} channels at {} Hz: the Rust's encoder does not take that: {e}", wav.channels, wav.rate))
}

/// A call of the stage for each frame that the Rust's `encode` would write. Sets the padding, as that does.
pub fn stage_calls(e: &mut HcaEncoder, wav: &Wav) -> Vec<StageCall> {
    calls_and_unmixed(e, wav).into_iter().map(|(call, _)| call).collect()
}

/// The same, each with its spectra as they are before the Rust's stereo step.
pub fn calls_and_unmixed(e: &mut HcaEncoder, wav: &Wav) -> Vec<(StageCall, Vec<f32>)> {
    let per_frame = FRAME * wav.channels;
    let length = wav.samples.len() / wav.channels;
    let frames = (length + e.encoder_delay as usize).div_ceil(FRAME);
    e.encoder_padding = (frames * FRAME - length) as u32 - e.encoder_delay;
    let mut samples = wav.samples.clone();
    samples.resize(frames * per_frame, 0.0);
    samples
        .chunks_exact(per_frame)
        .map(|frame| {
            e.pcm_to_float(frame);
            e.run_mdct();
            let unmixed = call_of(e, wav.channels).spectra;
            e.encode_intensity_stereo();
            (call_of(e, wav.channels), unmixed)
        })
        .collect()
}

/// The library's layout of a call.
pub fn layout_of(call: &StageCall) -> hca_frame::Layout {
    let kinds: Vec<hca_frame::Kind> = call
        .kinds
        .iter()
        .map(|k| match k {
            0 => hca_frame::Kind::Discrete,
            1 => hca_frame::Kind::StereoPrimary,
            _ => hca_frame::Kind::StereoSecondary,
        })
        .collect();
    let l = &call.layout;
    hca_frame::Layout::builder()
        .channels(&kinds)
        .bands(l[1], l[2], l[3])
        .frame_size(l[4])
        .build()
        .expect("the Rust's layout is legal")
}

#[cfg(test)]
mod tests {
    use super::*;

    fn file(fmt: &[u8], data: &[u8]) -> Vec<u8> {
        let mut all = b"RIFF\0\0\0\0WAVE".to_vec();
        for (name, body) in [(b"LIST", &b"odd"[..]), (b"fmt ", fmt), (b"data", data)] {
            all.extend_from_slice(name);
            all.extend_from_slice(&(body.len() as u32).to_le_bytes());
            all.extend_from_slice(body);
            all.resize(all.len() + body.len() % 2, 0);
        }
        all
    }

    fn fmt(tag: u16, channels: u16, bits: u16) -> Vec<u8> {
        let mut b = Vec::new();
        for n in [tag, channels] {
            b.extend_from_slice(&n.to_le_bytes());
        }
        b.extend_from_slice(&48_000u32.to_le_bytes());
        b.extend_from_slice(&[0; 6]);
        b.extend_from_slice(&bits.to_le_bytes());
        b
    }

    fn extensible(subformat: u16, bits: u16) -> Vec<u8> {
        let mut b = fmt(EXTENSIBLE, 2, bits);
        b.extend_from_slice(&[22, 0, bits as u8, 0, 3, 0, 0, 0]);
        b.extend_from_slice(&subformat.to_le_bytes());
        b.extend_from_slice(&[0, 0, 0, 0, 0x10, 0, 0x80, 0, 0, 0xAA, 0, 0x38, 0x9B, 0x71]);
        b
    }

    fn refused(fmt: &[u8], data: &[u8]) -> String {
        wav_of(&file(fmt, data)).err().expect("refused")
    }

    #[test]
    fn plain_and_extensible_headers_say_the_same() {
        let data = [0, 0x40, 0, 0xC0, 0, 0, 0, 0x80, 9]; // a half, minus a half, 0, minus 1; a byte over
        for header in [fmt(1, 2, 16), extensible(1, 16)] {
            let wav = wav_of(&file(&header, &data)).unwrap();
            assert_eq!((wav.rate, wav.channels), (48_000, 2));
            assert_eq!(wav.samples, [0.5, -0.5, 0.0, -1.0]);
        }
    }

    #[test]
    fn a_size_past_the_end_means_to_the_end() {
        let mut bytes = file(&fmt(1, 1, 16), &[0, 0x40]);
        let at = bytes.len() - 6;
        bytes[at..at + 4].copy_from_slice(&[0xFF; 4]);
        assert_eq!(wav_of(&bytes).unwrap().samples, [0.5]);
    }

    #[test]
    fn other_files_are_refused_with_what_to_do() {
        for (header, said) in [
            (fmt(1, 1, 24), "24-bit integer"),
            (extensible(1, 24), "24-bit integer"),
            (extensible(3, 32), "32-bit float"),
            (fmt(2, 1, 4), "4-bit packed"),
        ] {
            let text = refused(&header, &[0; 12]);
            assert!(text.contains(said) && text.contains("pcm_s16le"), "{text}");
        }
        assert!(refused(&fmt(1, 2, 16), &[0; 3]).contains("no samples"));
        assert!(refused(&fmt(1, 0, 16), &[0; 4]).contains("no samples"));
        assert!(refused(&[0; 15], &[0; 4]).contains("no whole fmt chunk"));
        assert!(wav_of(b"RF64\0\0\0\0WAVE").is_err());
        assert!(wav_of(b"RIFF\0\0\0\0WAVE").is_err());
    }
}
