//! The WAV reader.
use hca_frame::{raw, read_wav, LevelNote, Refusal, RefusalKind};

fn hex(text: &str) -> Vec<u8> {
    (0..text.len() / 2).map(|i| u8::from_str_radix(&text[2 * i..2 * i + 2], 16).unwrap()).collect()
}

fn chunk(name: &[u8; 4], size: u32, body: &[u8]) -> Vec<u8> {
    [name, &size.to_le_bytes()[..], body].concat()
}

fn fmt(channels: u16, rate: u32, depth: u16) -> Vec<u8> {
    let body = [&[1, 0], &channels.to_le_bytes()[..], &rate.to_le_bytes(), &[0; 6], &depth.to_le_bytes()].concat();
    chunk(b"fmt ", 16, &body)
}

fn file(chunks: &[Vec<u8>]) -> Vec<u8> {
    [&b"RIFF\0\0\0\0WAVE"[..], &chunks.concat()].concat()
}

fn floats(patterns: &[u32]) -> Vec<u8> {
    let body: Vec<u8> = patterns.iter().flat_map(|p| p.to_le_bytes()).collect();
    file(&[fmt(1, 8000, 32), chunk(b"data", body.len() as u32, &body)])
}

fn seen(wav: &[u8]) -> (u32, u32, u32, Vec<u32>, [u32; 2]) {
    let t = read_wav(wav).unwrap();
    (t.channels, t.rate, t.depth, t.samples.iter().map(|x| x.to_bits()).collect(), [t.note.peak.to_bits(), t.note.mean.to_bits()])
}

fn refused(wav: &[u8]) -> u32 {
    let no = read_wav(wav).unwrap_err();
    assert_eq!(no.place, 0);
    no.number
}

#[test]
fn sixteen_bits() {
    let wav =
        hex(concat!("524946462800000057415645", "666d74201000000001000100401f0000803e000002001000", "64617461040000000080ff7f"));
    assert_eq!(seen(&wav), (1, 8000, 16, vec![0xBF800000, 0x3F7FFE00], [0x3F800000, 0x3F7FFF00]));
    assert_eq!(read_wav(&wav).unwrap().note, LevelNote::new(1.0, f32::from_bits(0x3F7FFF00)));
}

#[test]
fn twenty_four_bits_behind_an_odd_chunk() {
    let list = chunk(b"LIST", 3, &[1, 2, 3, 0]);
    let data = chunk(b"data", 10, &hex("000080ffff7f010000ff"));
    let wav = file(&[list, fmt(1, 48000, 24), data]);
    let patterns = vec![0xBF800000, 0x3F7FFFFE, 0x34000000];
    assert_eq!(seen(&wav), (1, 48000, 24, patterns, [0x3F800000, 0x3F2AAAAB]));
}

#[test]
fn floats_are_summed_in_order() {
    let patterns = vec![0x4B800000, 0x3F800000, 0x3F800000];
    assert_eq!(seen(&floats(&patterns)), (1, 8000, 32, patterns.clone(), [0x4B800000, 0x4AAAAAAB]));
    let patterns = vec![0x7F7FFFFF, 0xFF7FFFFF];
    assert_eq!(seen(&floats(&patterns)), (1, 8000, 32, patterns.clone(), [0x7F7FFFFF, 0x7F800000]));
    // As stored: -0.0 and a subnormal.
    let patterns = vec![0x80000000, 0x80000001];
    assert_eq!(seen(&floats(&patterns)), (1, 8000, 32, patterns.clone(), [1, 0]));
}

#[test]
fn corners() {
    let zeros = |n: usize| file(&[chunk(b"data", n as u32, &vec![0; n])]);
    assert_eq!(seen(&zeros(24)), (2, 44_100, 16, vec![0; 12], [0, 0]));
    assert_eq!(refused(&zeros(23)), Refusal::NOT_WAVE);
    let empty = chunk(b"data", 0, &[]);
    assert_eq!(refused(&file(&[empty.clone(), chunk(b"data", 16, &[0; 16])])), Refusal::NO_DATA);
    assert_eq!(refused(&file(&[fmt(1, 8000, 0), empty])), Refusal::NO_DATA);
    assert_eq!(refused(&file(&[fmt(1, 8000, 16), chunk(b"LIST", 1, &[0])])), Refusal::NO_DATA);
    assert_eq!(refused(&file(&[fmt(1, 8000, 0), chunk(b"data", 4, &[0; 4])])), Refusal::BAD_DEPTH);
    let with = |size, body: &[u8]| file(&[fmt(0, 0, 16), chunk(b"data", size, body)]);
    assert_eq!(seen(&with(1, &[9])), (0, 0, 16, vec![], [0, 0]));
    assert_eq!(seen(&with(4, &[])), (0, 0, 16, vec![], [0, 0]));
    assert_eq!(seen(&with(u32::MAX, &[0, 0x40, 7])), (0, 0, 16, vec![0x3F000000], [0x3F000000, 0x3F000000]));
    for pattern in [0x7F800000, 0xFF800000, 0x7F800001, 0xFFC00000] {
        assert_eq!(refused(&floats(&[0, pattern])), Refusal::NOT_FINITE);
    }
}

#[test]
fn numbers_have_kinds_and_texts() {
    for (number, kind) in [
        (22, RefusalKind::NotWave),
        (23, RefusalKind::NoData),
        (24, RefusalKind::BadDepth),
        (25, RefusalKind::NotFinite),
        (30, RefusalKind::TooMany),
    ] {
        let no = Refusal::new(number, 0);
        assert_eq!(no.kind(), kind);
        assert!(!no.to_string().contains("unknown"));
    }
}

#[test]
fn two_to_the_24_samples() {
    let wav = |n: usize| file(&[fmt(1, 8000, 16), chunk(b"data", 2 * n as u32, &vec![0x40; 2 * n])]);
    let t = read_wav(&wav(1 << 24)).unwrap();
    assert_eq!((t.samples.len(), t.note.peak), (1 << 24, 0x4040 as f32 / 32_768.0));
    assert_eq!(refused(&wav((1 << 24) + 1)), Refusal::TOO_MANY);
}

#[test]
fn short_buffers_are_judged_first() {
    let wav = floats(&[0x7F800000]);
    let (mut note, mut answer) = ([5.0; 2], [7; 4]);
    assert_eq!(raw::read_wav(&[], &mut [], &mut note[1..], &mut answer), 2);
    assert_eq!((note, answer), ([5.0; 2], [0, 7, 7, 7]));
    answer[0] = 7;
    assert_eq!(raw::read_wav(&[], &mut [], &mut note, &mut answer[1..]), 2);
    assert_eq!((note, answer), ([5.0; 2], [7; 4]));
    assert_eq!(raw::read_wav(&wav, &mut [], &mut note, &mut answer), 2);
    assert_eq!((note, answer), ([5.0; 2], [0, 7, 7, 7]));
    let mut samples = [3.0; 2];
    answer[0] = 7;
    assert_eq!(raw::read_wav(&wav, &mut samples, &mut note, &mut answer), 25);
    assert_eq!((samples, note, answer), ([3.0; 2], [5.0; 2], [0, 7, 7, 7]));
    assert_eq!(raw::read_wav(&floats(&[0x3F000000]), &mut samples, &mut note, &mut answer), 0);
    assert_eq!((samples, note, answer), ([0.5, 3.0], [0.5; 2], [1, 8000, 32, 1]));
}
